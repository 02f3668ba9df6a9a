#!/usr/bin/env python3
"""Writes the table of planted bugs in docs/PLANTED-BUGS.md anew: one row for each edit that must be refused.

Run it at the top of the repository after an edit was added, renamed or changed."""
import pathlib

PAGE = pathlib.Path("docs/PLANTED-BUGS.md")
BEGIN = "<!-- the rows from here on are written by tools/planted.py -->"


def code(text):
    """Code as a cell of a table."""
    text = text.strip().replace("|", "\\|")
    return f"`{text}`" if text else "nothing"


def rows():
    for edit in sorted(pathlib.Path("crates").glob("*/must-fail/*.edit")):
        lines = edit.read_text().split("\n")
        file = next(line[6:] for line in lines if line.startswith("file: "))
        old = [line[5:] for line in lines if line.startswith("old: ")]
        new = [line[5:] for line in lines if line.startswith("new:")]
        what = "; ".join(f"{code(a)} becomes {code(b)}" for a, b in zip(old, new))
        crate = edit.parts[1]
        name = edit.stem.replace("_", " ").replace("-", " ")
        yield f"| `{crate}` | {name} | `{file}` | {what} |"


def main():
    head = PAGE.read_text().split(BEGIN)[0]
    table = ["| Crate | Bug | File | Edit |", "|---|---|---|---|", *rows()]
    PAGE.write_text(head + BEGIN + "\n\n" + "\n".join(table) + "\n")
    print(len(table) - 2, "edits")


main()
