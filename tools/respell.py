#!/usr/bin/env python3
"""Brings the names of this repository's definitions and lemmas to snake case, and its types to camel case.

usage: python3 tools/respell.py [FOLDER]      FOLDER holds crates/; the current folder where it is left out

It was run once, after /opt/rattle/port/port.py. A name is respelled where a file of specs/ or proofs/ defines it
with a hyphen, in every .antt file and in the clauses of every .rt file. Comments, strings and names of goals that
Rattle makes stay as they are. Words that would fall together with a function of src/ get the name that OTHER gives.
"""
import os
import re
import sys

# where the snake case of a word is the name of a function that its readers see too
OTHER = {
    "carry-refusal": "refusal_of_carry",
    "tick-refusal": "refusal_of_tick",
    "counts-cycle": "cycle_counted",
    "is-late": "late",
    "number-or-zero": "number_given",
    "passed-most": "most_passed",
    "rest-pair": "pair_of_rest",
    "passed-pair": "pair_of_passed",
    "slotted-pair": "pair_of_slots",
}
DEFINES = re.compile(
    r"^\s*(?:unfoldable\s+|abbrev\s+)*(?:pub\s+)?(?:data\s+|record\s+|unfoldable\s+|abbrev\s+)*(?:pub\s+)?"
    r"([^\s(){};.,]+)(?:\s+[({][^=]*)?\s*:\s"
)
TOKEN = re.compile(r'"[^"\n]*"|[^\s(){}\[\];.,«»|"]+')


def files(top, ending):
    for folder, dirs, names in os.walk(os.path.join(top, "crates")):
        dirs[:] = sorted(d for d in dirs if d != "out")
        for name in sorted(names):
            if name.endswith(ending):
                yield os.path.join(folder, name)


def defined(path):
    """The names that a file defines, but for answers to goals."""
    with open(path, encoding="utf-8") as f:
        for line in f:
            found = DEFINES.match(line)
            if found and "goal." not in line and not line.startswith("use ") and not line.lstrip().startswith("--"):
                yield found.group(1)


def respelled(name):
    if name in OTHER:
        return OTHER[name]
    if name[0].isupper():
        return "".join(part[0].upper() + part[1:] for part in name.split("-"))
    return name.replace("-", "_")


def turn(text, comment, names):
    lines = []
    for line in text.split("\n"):
        code, mark, rest = line.partition(comment)
        lines.append(TOKEN.sub(lambda t: names.get(t.group(0), t.group(0)), code) + mark + rest)
    return "\n".join(lines)


def main():
    top = sys.argv[1] if len(sys.argv) > 1 else "."
    found = {n for p in files(top, ".antt") for n in defined(p) if "-" in n}
    taken = {n for p in files(top, ".antt") for n in defined(p)}
    names = {n: respelled(n) for n in found}
    for old, new in sorted(names.items()):
        if new in taken or list(names.values()).count(new) > 1:
            sys.exit(f"respell: {old} and another name would both be {new}")
    for ending, comment in ((".antt", "--"), (".rt", "//")):
        for path in files(top, ending):
            with open(path, encoding="utf-8") as f:
                text = f.read()
            new = turn(text, comment, names)
            if new != text:
                with open(path, "w", encoding="utf-8") as f:
                    f.write(new)
    print(f"respell: {len(names)} names")


main()
