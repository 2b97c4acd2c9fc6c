#!/usr/bin/env python3
"""Runs commands in turn, again and again, and prints the least time of each.

    least.py ROUNDS NAME[:STATUS]=COMMAND ..

Each round runs every command once, so that other work on the machine falls on all of them alike. A line is the name, the
least milliseconds by the clock, the least milliseconds of processors (user and system), and where the command prints a
line `nanoseconds N`, the least N in milliseconds, else `-`. A command with another status than is said, or else than 0,
ends the whole.
"""
import re
import resource
import shlex
import subprocess
import sys
import time


def run(words, status):
    """The milliseconds of one run by the clock, of processors, and by its own account."""
    before = resource.getrusage(resource.RUSAGE_CHILDREN)
    start = time.perf_counter()
    done = subprocess.run(words, stdout=subprocess.PIPE, stderr=subprocess.STDOUT, text=True)
    wall = time.perf_counter() - start
    after = resource.getrusage(resource.RUSAGE_CHILDREN)
    if done.returncode != status:
        sys.exit(f"status {done.returncode} of {shlex.join(words)}:\n{done.stdout}")
    spent = after.ru_utime - before.ru_utime + after.ru_stime - before.ru_stime
    own = re.search(r"^nanoseconds (\d+)$", done.stdout, re.MULTILINE)
    return [1e3 * wall, 1e3 * spent, int(own[1]) / 1e6 if own else float("inf")]


def main():
    rounds = int(sys.argv[1])
    commands = []
    for argument in sys.argv[2:]:
        side, command = argument.split("=", 1)
        name, _, status = side.partition(":")
        commands.append((name, int(status or 0), shlex.split(command)))
    least = {name: [float("inf")] * 3 for name, _, _ in commands}
    for _ in range(rounds):
        for name, status, words in commands:
            least[name] = [min(pair) for pair in zip(least[name], run(words, status))]
    for name, times in least.items():
        print(name, *("-" if t == float("inf") else f"{t:.3f}" for t in times))


main()
