#!/usr/bin/env python3
"""Checks a plug-in, makes 20 runs of it, keeps the record of the first that ends otherwise than run 1, and replays it.
Then eight threads make these runs at once, 1,000 each, and each run has to end as it did before.

    keep_run.py MODULE [CALLS]
"""
from __future__ import annotations

import json
import sys
from concurrent.futures import ThreadPoolExecutor
from pathlib import Path
from typing import List

import wathread

SEED, RUNS, THREADS = 4, 20, 8


def make_runs(module: bytes, ends: List[wathread.End], calls: int) -> int:
    """Makes the runs again, and counts those that end as before."""
    alike = 0
    for call in range(calls):
        run = wathread.run(module, "main", seed=SEED, number=call % RUNS + 1, keep_record=False)
        alike += run.end == ends[call % RUNS]
    return alike


def words(end: wathread.End) -> str:
    return f"{end.kind.name.lower()} {end.number}" if end.number is not None else str(end)


def main(path: str, calls: str = "1000") -> int:
    module = Path(path).read_bytes()
    print("check:", json.dumps(wathread.check(module).object, separators=(",", ":")))
    runs = [wathread.run(module, "main", seed=SEED, number=number) for number in range(1, RUNS + 1)]
    print("run 1:", words(runs[0].end))
    kept = next((it for it in runs if it.end != runs[0].end), None)
    if kept is None:
        print(f"{RUNS} runs end alike")
        return 1
    print(f"run {kept.number}: {words(kept.end)}, a record of {len(kept.record)} bytes")
    replayed = wathread.replay(module, kept.record)
    print("replay:", json.dumps(replayed.object["threads"][0]["outcome"], separators=(",", ":")))
    ends = [it.end for it in runs]
    with ThreadPoolExecutor(THREADS) as pool:
        alike = sum(pool.map(lambda _: make_runs(module, ends, int(calls)), range(THREADS)))
    print(f"{THREADS} threads: {alike} of {THREADS * int(calls)} runs ended as before")
    return 0 if alike == THREADS * int(calls) else 1


if __name__ == "__main__":
    if not 2 <= len(sys.argv) <= 3:
        sys.exit(__doc__)
    try:
        sys.exit(main(*sys.argv[1:]))
    except wathread.Refused as refused:
        print(refused, file=sys.stderr)
        sys.exit(refused.status)
