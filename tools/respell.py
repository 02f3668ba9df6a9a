#!/usr/bin/env python3
"""Brings this repository's own definitions and lemmas to the spelling of today's Rattle.

usage: python3 tools/respell.py        at the top of the repository, once, after the toolchain's own port script

Words are in snake case, types and facts in camel case: `first-peg` becomes `first_peg`, `No-room` becomes `NoRoom`.
A name is respelled where it is defined here (in specs/ or in a lemma file of proofs/), or where it stands for an
import (`x as y`), and wherever it is used: in specs, proofs, clauses, must-fail edits, and between backticks in pages.
Functions of src/, strings and comments keep their words. It stops where two names would fall together.
"""

import os
import re
import sys

NAME = r"[^\s(){}.;,\[\]«»⌜⌝λ|:`\"]+"
TOKEN = re.compile(NAME)
DEFINED = re.compile(r"^\s*(?:abbrev |unfoldable |pub |record |data )*(" + NAME + r")(?: \(.*\)| \{.*\})* :(?: |$)")
ALIAS = re.compile(r"\bas (" + NAME + r")")
# names bound inside one lemma, and one that the port script took for a constructor
BOUND = {"at-0", "k-low", "zero-edge", "not-17", "is-scene", "is-masks", "at-o", "shape-k", "is-count", "is-length"}
GARBLED = {"Some-tests": "some_tests"}


def files(*endings):
    for folder, inner, names in os.walk("."):
        inner[:] = sorted(d for d in inner if d not in ("out", ".git", "target"))
        for name in sorted(names):
            if name.endswith(endings):
                yield os.path.join(folder, name)


def read(path):
    with open(path, encoding="utf-8") as f:
        return f.read()


def is_answer(path):
    """Whether the file answers the goals of a function, whose names Rattle makes."""
    return "/proofs/" in path and len(path.split("/proofs/")[1].split("/")) > 1


def code_of(line, ending):
    """The line's code and its comment."""
    mark = "--" if ending == ".antt" else "//"
    at = 0 if line.lstrip().startswith(mark) else line.find(" " + mark)
    return (line, "") if at < 0 else (line[:at], line[at:])


def defined():
    names = set(BOUND)
    for path in files(".antt", ".rt"):
        for line in read(path).splitlines():
            code = code_of(line, os.path.splitext(path)[1])[0]
            if path.endswith(".antt") and not is_answer(path):
                found = DEFINED.match(code)
                if found:
                    names.add(found.group(1))
            if re.match(r"\s*(pub )?(ghost )?use ", code):
                names.update(ALIAS.findall(code))
    return names


def respelled(name):
    if name[0].isupper():
        return "".join(part[:1].upper() + part[1:] for part in name.split("-"))
    return name.replace("-", "_")


def renaming():
    names = defined()
    new = {name: respelled(name) for name in names if "-" in name and name[0].isalpha()}
    for name, to in new.items():
        if to in names:
            sys.exit(f"respell: {name} would fall together with {to}")
    if len(set(new.values())) < len(new):
        sys.exit("respell: two names would fall together")
    return new | GARBLED


def turn_tokens(text, new):
    return TOKEN.sub(lambda found: new.get(found.group(0), found.group(0)), text)


def turn_code(text, new):
    """Turns a line's code, its strings kept."""
    parts = re.split(r'("(?:[^"\\]|\\.)*")', text)
    return "".join(part if i % 2 else turn_tokens(part, new) for i, part in enumerate(parts))


def turn_quoted(text, new):
    """Turns what stands between backticks."""
    return re.sub(r"`[^`\n]*`", lambda found: turn_tokens(found.group(0), new), text)


def turn(path, new):
    ending = os.path.splitext(path)[1]
    lines = []
    for line in read(path).split("\n"):
        if ending == ".md":
            lines.append(turn_quoted(line, new))
        else:
            code, comment = code_of(line, ending) if ending != ".edit" else (line, "")
            lines.append(turn_code(code, new) + turn_quoted(comment, new))
    return "\n".join(lines)


def main():
    new = renaming()
    changed = 0
    for path in files(".antt", ".rt", ".edit", ".md"):
        text = turn(path, new)
        if text != read(path):
            with open(path, "w", encoding="utf-8") as f:
                f.write(text)
            changed += 1
    print(f"respell: {len(new)} names, {changed} files")


if __name__ == "__main__":
    main()
