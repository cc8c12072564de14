#!/usr/bin/env python3
"""The files of definitions, with their lines, as the table at the end of docs/GUARANTEES.md.

  definitions.py            prints the table
  definitions.py --write    writes it into the document
  definitions.py --check    the status is 1 if the document has another table

A file of definitions is a file of a crate's specs/ that declares more than modules. What is under
specs/Laws are proofs, and what private contracts cite. Crates are in the order of crates.txt.
"""
import os
import re
import sys

TOP = os.path.join(os.path.dirname(os.path.abspath(__file__)), "..")
DOCUMENT = os.path.join(TOP, "docs", "GUARANTEES.md")
START = "| crate | definitions, with their lines | lines |\n"


def crates():
    """The crates' names, from the lowest up."""
    with open(os.path.join(TOP, "crates.txt"), encoding="utf-8") as lines:
        return [found.group(1) for found in (re.match(r"(\w+)[^:#]*:", line) for line in lines) if found]


def definitions(crate):
    """Each file of definitions of a crate: its name and its count of lines."""
    specs = os.path.join(TOP, "crates", crate, "specs")
    for name in sorted(os.listdir(specs)) if os.path.isdir(specs) else []:
        if name.endswith(".antt") and name not in ("Lib.antt", "Laws.antt"):
            with open(os.path.join(specs, name), encoding="utf-8") as lines:
                yield name[:-len(".antt")], sum(1 for _ in lines)


def table():
    rows, whole = [], 0
    for crate in crates():
        files = list(definitions(crate))
        if files:
            lines = sum(count for _, count in files)
            whole += lines
            rows.append(f"| `{crate}` | {', '.join(f'{name} {count}' for name, count in files)} | {lines} |\n")
    return START + "|---|---|---|\n" + "".join(rows) + f"| all | | {whole} |\n"


def main(words):
    wanted = table()
    if not words:
        print(wanted, end="")
        return 0
    with open(DOCUMENT, encoding="utf-8") as text:
        document = text.read()
    start = document.find(START)
    if start < 0:
        print("docs/GUARANTEES.md has no table of definitions", file=sys.stderr)
        return 1
    end = document.find("\n\n", start)
    end = len(document) if end < 0 else end + 1
    if words == ["--write"]:
        with open(DOCUMENT, "w", encoding="utf-8") as text:
            text.write(document[:start] + wanted + document[end:])
        return 0
    if document[start:end] != wanted:
        print("the table of definitions in docs/GUARANTEES.md is not that of specs/: "
              "scripts/definitions.py --write", file=sys.stderr)
        return 1
    return 0


if __name__ == "__main__":
    sys.exit(main(sys.argv[1:]))
