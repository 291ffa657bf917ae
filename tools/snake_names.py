#!/usr/bin/env python3
"""Turns the names of this repository's own definitions and lemmas from dashes to underscores.

    python3 tools/snake_names.py        at the top of the repository, once

It collects each name with a dash that specs/ or proofs/ declare (definitions, lemmas, fields, constructors and local facts),
leaves out the names that the check makes for the goals of a function, and writes the others with underscores wherever they stand
as whole names: in .antt files, in the clauses of .rt files, in the quoted texts of must-fail edits, and between backticks in .md
files. A name that joins a function to an operator, as count-++, keeps its dash. SPECIAL has the names that would fall together
with another one, FIELDS those that a library declares too: of these only the fields of this repository are turned. BOUND has names that patterns bind.
"""
import glob
import re

TOKEN = r"[^\s(){},;.`]+"
SPECIAL = {"bit-xor": "bit_times_xor", "Left-is": "LeftIs", "Read-all": "ReadAll"}
FIELDS = {"zero-add", "one-mul", "mul-add"}
BOUND = {"before-kinds", "front-first", "is-kind", "is-left", "is-rest", "not-star", "read-after"}
HEAD = re.compile(
    r"^\s*(?:abbrev |unfoldable |mutual )*(?:pub )?(?:abbrev |unfoldable )*(?:data |record |ruleset )?(?:pub )?"
    rf"({TOKEN})((?: {TOKEN})*?) *(?::|=|\(|\{{) "
)
GOAL = re.compile(rf"^\s*(?:abbrev )?(?:pub )?({TOKEN}) : goal\.({TOKEN})\s*$")
LET = re.compile(rf"\blet ({TOKEN}) (?::|=)")
AS = re.compile(r" as ([a-z][a-z0-9_-]*)[,}]")
KEYWORDS = {"use", "let", "elim", "rw", "in", "unfolding", "mod", "pub", "λ", "where"}


def code_lines(text):
    for line in text.split("\n"):
        comment = re.search(r"(^|\s)--(\s|$)", line)
        yield line[: comment.start()] if comment else line


def declared(files):
    names, goals = set(), set()
    for file in files:
        for line in code_lines(open(file).read()):
            goal = GOAL.match(line)
            if goal and goal.group(1) == goal.group(2):
                goals.add(goal.group(1))
                continue
            head = HEAD.match(line + " ")
            if head and head.group(1) not in KEYWORDS:
                names.update([head.group(1)] + (head.group(2).split() if " : " in line else []))
            names.update(LET.findall(line) + AS.findall(line))
    return {n for n in names - goals if "-" in n and re.match(r"[A-Za-z]", n) and "++" not in n}


def main():
    antt = sorted(glob.glob("crates/*/specs/**/*.antt", recursive=True) + glob.glob("crates/*/proofs/**/*.antt", recursive=True))
    names = declared(antt) | BOUND
    table = {n: SPECIAL.get(n, n.replace("-", "_")) for n in names - FIELDS}
    inside = r"[A-Za-z0-9_'?²₂+*≡≤<→·-]"
    whole = re.compile(rf"(?<!{inside})({'|'.join(sorted(map(re.escape, table), key=len, reverse=True))})(?!{inside})")
    fields = "|".join(FIELDS)

    def turn(text):
        return whole.sub(lambda m: table[m.group(1)], text)

    def turn_fields(text):
        text = re.sub(rf"(?<=\w\.)({fields})(?!{inside})", lambda m: m.group(1).replace("-", "_"), text)
        return re.sub(rf"(?m)^(\s+(?:pub )?)({fields})(?= (?:=|:) )", lambda m: m.group(1) + m.group(2).replace("-", "_"), text)

    rust = sorted(glob.glob("crates/*/src/**/*.rt", recursive=True) + glob.glob("crates/*/must-fail/*.edit"))
    pages = sorted(glob.glob("docs/*.md") + ["README.md"])
    for file in antt + rust + pages:
        old = open(file).read()
        if file.endswith(".md"):
            new = re.sub(r"`[^`\n]*`", lambda m: turn(m.group(0)), old)
        else:
            new = turn_fields(turn(old))
        if new != old:
            open(file, "w").write(new)
    print(f"{len(table)} names")


if __name__ == "__main__":
    main()
