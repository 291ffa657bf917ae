#!/usr/bin/env python3
"""Prints the places in crates/*/src that the pass on design looks at, kind by kind, and counts them.

    tools/design_places.py [KIND..]

The kinds are enums, twins, loops, by_hand, together, buffers, steps and proofs. Each has patterns (lines of code that fit one are
candidates) or a count of what stands more than once.
A candidate is judged by reading; docs/DESIGN-PASS.md says which of them are places.
"""
import collections
import glob
import re
import sys

FILES = sorted(glob.glob("crates/*/src/*.rt"))
LINES = {
    "enums": r"^\s*(pub )?enum |-> u8|\bu8, usize\)|number: u8|: \[?bool|^\s+Nothing\b|return (Some|None)\(?0|left: u8",
    "loops": r"\bwhile\b|\bloop\b|\bfor\b.* in .*\.\.|\+= 1;|\bcount\b.*saturating|len\(\) - ",
    "by_hand": r"=> (true|false),|fn (number|place|print_\w+|told|answer|made|refusal)\b|Err\(\w+::Ring\(|return Err\(\w+::Memory|None => Err\(|Err\(fault\) =>",
    "buffers": r"\[\w+(<[^>]*>)?; ?(\w+|\d+)\]|\b(count|depth): usize|\[u8\]|\[u64\]|\(usize\)|usize, usize\)",
    "steps": r"\bdyn\b|: fn\(|impl Fn|F: Fn|^\s*match \w|^\s*(over|print)_\w+\(&?rt",
}


def code():
    for name in FILES:
        for number, line in enumerate(open(name, encoding="utf-8"), 1):
            if not line.lstrip().startswith("//") and not line.startswith("ghost use"):
                yield name, number, line.rstrip("\n")


def show(kind, found):
    print(f"{kind}: {len(found)}")
    for where in found:
        print("   ", where)


def by_line(kind):
    pattern = re.compile(LINES[kind])
    show(kind, [f"{n}:{k}: {line.strip()}" for n, k, line in code() if pattern.search(line)])


def twins():
    seen = collections.defaultdict(list)
    for name, number, line in code():
        for kind, word in re.findall(r"\b(fn|const) (\w+)", line):
            crate = name.split("/")[1]
            seen[kind, word].append(f"{crate}:{number}")
    ring = {"order", "size", "one", "add", "neg", "mul"}
    found = [f"{kind} {word}: {', '.join(at)}" for (kind, word), at in sorted(seen.items())
             if len(at) > 1 and word not in ring | {"main"}]
    bodies = collections.defaultdict(list)
    for name in FILES:
        text = open(name, encoding="utf-8").read()
        for word, body in re.findall(r"fn (\w+)[^{;]*?(?:ensures|requires)?[^;]*?\n\s*\{\n(.*?)\n\s*\}\n", text, re.S):
            plain = re.sub(r"\b[A-Z]\w*(::\w+)?\b|\d+", "_", re.sub(r"\s+", " ", body))
            bodies[plain].append(f"{name.split('/')[1]}:{word}")
    found += [f"one body but for names of types and numbers: {', '.join(at)}" for body, at in sorted(bodies.items())
              if len(at) > 1 and len(body) > 20]
    show("twins", found)


def repeated():
    clauses, groups = collections.Counter(), collections.Counter()
    for name in FILES:
        text = open(name, encoding="utf-8").read()
        for kind, clause in re.findall(r"(requires|ensures)[ \w]*\{ (.*) \}", text):
            clauses[re.sub(r"\.(now|old|new)\b", "", clause)] += 1
        for given in re.findall(r"fn \w+(?:<[^(]*>)?\(([^)]*)\)", text):
            names = [re.sub(r"\s+", " ", p.strip()) for p in given.split(",") if ":" in p]
            names = [p for p in names if not p.startswith("rt:")]
            for i in range(len(names)):
                for j in range(i + 1, len(names)):
                    groups[names[i], names[j]] += 1
    found = [f"clause in {n}: {c}" for c, n in clauses.most_common() if n > 2]
    found += [f"together in {n}: {a} · {b}" for (a, b), n in groups.most_common() if n > 2]
    show("together", found)


def proofs():
    total = collections.Counter()
    for kind, pattern, files in (("answers", r"^pub [^\s:]+ :", "crates/*/proofs/**/Answers.antt"),
                                 ("lemmas beside them", r"^(?:abbrev )?(?:pub )?[a-z][^\s:=]* : ", "crates/*/proofs/*.antt"),
                                 ("imports from the logic", r"^use (lib|native|mathlib|denote)\.|^use Rattle\.(lib|native)\.", "crates/*/*/**/*.antt")):
        for name in glob.glob(files, recursive=True):
            total[name.split("/")[1], kind] += len(re.findall(pattern, open(name, encoding="utf-8").read(), re.M))
    show("proofs", [f"{crate}: {n} {kind}" for (crate, kind), n in sorted(total.items()) if n])


def main():
    other = {"twins": twins, "together": repeated, "proofs": proofs}
    kinds = ["enums", "twins", "loops", "by_hand", "together", "buffers", "steps", "proofs"]
    for kind in sys.argv[1:] or kinds:
        other[kind]() if kind in other else by_line(kind)


main()
