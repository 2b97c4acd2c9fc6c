#!/usr/bin/env python3
"""recase.py PRINTED [DATA]: brings the wanted lines of cases up to what the program `cases` printed, of runs that gave others:
by PRINTED, a file with all that it printed, in DATA, or crates/cases/data. What it changes is to be read as any change: it
takes what was given for right. It changes standard output and error, the status and records, and names what else differs.
"""
import os
import re
import sys

HEAD = re.compile(r"(\w+\.cases): (.*): (\[.*\])")
LINES = ("out", "err", "record")
COUNT = re.compile(r"\w+\.cases: \d+ cases")


def told(lines):
    """Of each stream that is other than wanted: the file, the title, the stream, and what was given."""
    found, at = [], 0
    while at < len(lines):
        head = HEAD.fullmatch(lines[at])
        if not head or not lines[at + 1].endswith(" wanted:"):
            at += 1
            continue
        stream = lines[at + 1].removesuffix(" wanted:")
        at = lines.index(f"{stream} given:", at) + 1
        first = at
        while at < len(lines) and not HEAD.fullmatch(lines[at]) and not COUNT.match(lines[at]):
            at += 1
        given = lines[first:at]
        while given and not given[-1]:
            given.pop()
        found.append((head[1], head[2], stream, given))
    return found


def places(lines, title, stream):
    """Where the lines of a case stand that are wanted of a stream, and behind which they would."""
    first = lines.index(f"== {title}")
    after = next((at for at in range(first + 1, len(lines)) if lines[at].startswith("== ")), len(lines))
    here = [at for at in range(first, after) if lines[at] == stream or lines[at].startswith(f"{stream} ")]
    return here, max(at for at in range(first, after) if lines[at].startswith("words "))


def wanted(stream, given):
    """The lines of a case by which this is wanted. Of a status both are told, the wanted one and the other; 0 has no line."""
    if stream == "status":
        status = given[-1].split(" and ")[1]
        return [] if status == "0" else [f"status {status}"]
    return [f"{stream} {line}" if line else stream for line in given]


def change(lines, title, stream, given):
    """Puts what was given in the place of what was wanted."""
    here, words = places(lines, title, stream)
    new = wanted(stream, given)
    if here:
        lines[here[0] : here[-1] + 1] = new
    else:
        lines[words + 1 : words + 1] = new


def main(printed, data="crates/cases/data"):
    with open(printed, encoding="utf-8", errors="replace") as it:
        found = told(it.read().split("\n"))
    files = {}
    for file, title, stream, given in found:
        if stream not in (*LINES, "status"):
            print(f"left: {file}: {title}: {stream}")
            continue
        path = os.path.join(data, file)
        if path not in files:
            with open(path, encoding="utf-8") as it:
                files[path] = it.read().split("\n")
        change(files[path], title, stream, given)
    for path, lines in files.items():
        with open(path, "w", encoding="utf-8") as it:
            it.write("\n".join(lines))
    print(f"{len(found)} of {len(files)} files")


if __name__ == "__main__":
    if len(sys.argv) not in (2, 3):
        sys.exit(__doc__)
    main(*sys.argv[1:])
