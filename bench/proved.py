#!/usr/bin/env python3
"""The lines of docs/PROVED.md that say of each crate what is proved of it: python3 bench/proved.py [--write]

A line is the first sentence behind `Proved:` in the head comment of the crate's lib.rt; where there is none, and of a
program, the first sentence of that comment. The crates come as in crates.txt. Where the document has
other lines, that is said, and the status is 1; with --write they are put there.
"""
import os
import re
import sys
import textwrap

os.chdir(os.path.join(os.path.dirname(os.path.abspath(__file__)), ".."))

DOCUMENT = "docs/PROVED.md"
SECTION = "## Crate by crate\n"


def head_of(crate):
    """The head comment, as paragraphs."""
    for name in ("lib.rt", "main.rt"):
        path = "crates/%s/src/%s" % (crate, name)
        if os.path.exists(path):
            lines = open(path, encoding="utf-8").read().split("\n")
            comment = "\n".join(line[3:].strip() for line in lines if line.startswith("//!"))
            return [" ".join(paragraph.split()) for paragraph in comment.split("\n\n")]
    return [""]


def line_of(crate):
    """What is said of a crate."""
    head = head_of(crate)
    text = next((p[len("Proved: ") :] for p in head if p.startswith("Proved: ")), head[0])
    sentence = re.match(r"(.*?[^.]\.)(?= |$)", text)
    line = "- `%s`: %s" % (crate, sentence.group(1) if sentence else text)
    return textwrap.fill(line, 120, subsequent_indent="  ", break_long_words=False, break_on_hyphens=False)


def lines():
    """The section below its title, with its families."""
    out = []
    for row in open("crates.txt", encoding="utf-8").read().split("\n")[1:]:
        if row.startswith("# "):
            title = row[2:]
            out.append("\n%s:\n" % (title[0].upper() + title[1:]))
        elif row:
            out.append(line_of(row.split(":")[0].split()[0]) + "\n")
    return "".join(out)


def main():
    document = open(DOCUMENT, encoding="utf-8").read()
    before, behind = document.split(SECTION)
    said, rest = re.match(r"((?:(?!## ).*\n)*)((?s:.*))", behind).groups()
    introduction = re.split(r"\n\n+", said.strip())[0]
    wanted = "\n%s\n%s\n" % (introduction, lines())
    if said == wanted:
        return 0
    if "--write" in sys.argv[1:]:
        open(DOCUMENT, "w", encoding="utf-8").write(before + SECTION + wanted + rest)
        return 0
    now = set(said.split("\n"))
    for line in wanted.split("\n"):
        if line not in now:
            print("%s lacks: %s" % (DOCUMENT, line), file=sys.stderr)
    print("%s: these aren't its lines; bench/proved.py --write puts them there" % DOCUMENT, file=sys.stderr)
    return 1


if __name__ == "__main__":
    sys.exit(main())
