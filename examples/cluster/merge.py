#!/usr/bin/env python3
"""Merges what searches through ranges of one seed printed: reads it from standard input, prints one table and what else
they said, and ends with the worst of their statuses, which stand there as lines `status N`.

    cat search-*.txt | python3 merge.py
"""
import re
import sys


def main():
    met, runs, cut, other, worst = {}, 0, {}, [], 0
    for line in sys.stdin:
        line = line.rstrip("\n")
        found = re.fullmatch(r"(\d+) of \d+, first in run (\d+)( by \S+)?: (.*)", line)
        if found:
            times, first, way, ending = int(found[1]), int(found[2]), found[3] or "", found[4]
            before = met.get(ending, (0, first, way))
            met[ending] = (before[0] + times, *min(before[1:], (first, way)))
            runs += times
        elif found := re.fullmatch(r"(\d+) runs? w\w+ cut at (\d+) entries", line):
            cut[found[2]] = cut.get(found[2], 0) + int(found[1])
        elif found := re.fullmatch(r"status (\d+)", line):
            worst = max(worst, int(found[1]))
        elif not re.match(r"\d+ endings?, \d+ new in the last half", line):
            # of one range alone: what was found, with its lines, and that it was told to end
            other.append(line)
    for ending, (times, first, way) in sorted(met.items(), key=lambda item: item[1][1]):
        print(f"{times} of {runs}, first in run {first}{way}: {ending}")
    for limit, count in cut.items():
        print(f"{count} {'run was' if count == 1 else 'runs were'} cut at {limit} entries")
    for line in other:
        print(line)
    return worst


if __name__ == "__main__":
    sys.exit(main())
