"""What fuzz_debug.py and fuzz_records.py have in common: the program under limits, what it may do, and finds made small."""
import argparse
import collections
import json
import os
import random
import resource
import shlex
import shutil
import signal
import subprocess
import sys
import tempfile
import time
import unicodedata

TOP = os.path.dirname(os.path.dirname(os.path.abspath(__file__)))
PROGRAM = os.path.abspath(os.environ.get("PROGRAM", f"{TOP}/crates/wathread/out/wathread.by-rattle"))
DATA = f"{TOP}/crates/cases/data"
SECONDS, BYTES, MOST_OUTPUT = 10, 1 << 30, 1 << 28
# Marks that end a line or turn the direction of writing. No name brings them, nor control characters, into what is printed.
MARKS = set(map(chr, [*range(0x2028, 0x202F), *range(0x2066, 0x206A)]))
KEPT = 3


def limit():
    resource.setrlimit(resource.RLIMIT_CPU, (SECONDS, SECONDS + 1))
    resource.setrlimit(resource.RLIMIT_AS, (BYTES, BYTES))
    resource.setrlimit(resource.RLIMIT_FSIZE, (MOST_OUTPUT, MOST_OUTPUT))
    resource.setrlimit(resource.RLIMIT_CORE, (0, 0))


def fault_of_text(data, name, is_json=False):
    """What is wrong with a text that is printed. In JSON names are as they are, but for what it wants escaped."""
    try:
        text = data.decode()
    except UnicodeDecodeError:
        return f"{name} isn't UTF-8"
    for it in sorted(set(text)):
        if it < " " and it not in "\n\t" or not is_json and (it in MARKS or unicodedata.category(it) == "Cc" and it > " "):
            return f"{name} has U+{ord(it):04X}"
    return None


class Trials:
    """Trials for some seconds, each by a number that the seed and its count give."""

    def __init__(self, doc):
        parser = argparse.ArgumentParser(description=doc)
        for name, kind, value in (("--seconds", int, 60), ("--seed", int, 7), ("--keep", str, ".")):
            parser.add_argument(name, type=kind, default=value)
        self.words = parser.parse_args()
        self.statuses, self.kinds, self.work = collections.Counter(), collections.Counter(), tempfile.TemporaryDirectory()
        self.path = self.work.name

    def run(self, words, allowed, page=None):
        """Runs the program in the folder of the trials, and answers its status and what is wrong, or None."""
        if page and os.path.exists(page):
            os.unlink(page)
        with open(f"{self.path}/.out", "w+b") as out, open(f"{self.path}/.err", "w+b") as err:
            try:
                status = subprocess.run([PROGRAM, *words], stdin=subprocess.DEVNULL, stdout=out, stderr=err, cwd=self.path,
                                        preexec_fn=limit, timeout=600, check=False).returncode
            except subprocess.TimeoutExpired:
                return "late", "it takes more than 600 s by the clock"
            out.seek(0)
            err.seek(0)
            said, told = out.read(), err.read()
        if status in (-signal.SIGXCPU, -signal.SIGKILL):
            return "late", f"it takes more than {SECONDS} s of a processor"
        if status < 0:
            return status, f"ended by {signal.Signals(-status).name}"
        if status not in allowed:
            return status, f"status {status}: {told.decode(errors='replace').strip()[:200]}"
        fault = fault_of_text(said, "standard output", "--json" in words) or fault_of_text(told, "standard error")
        if not fault and "--json" in words and said:
            try:
                json.loads(said)
            except ValueError as error:
                fault = f"its object isn't one: {error}"
        if fault or not page:
            return status, fault
        if os.path.exists(page) != (status == 0):
            return status, "its page is there" if status else "its page isn't there"
        with open(page if status == 0 else os.devnull, "rb") as file:
            return status, fault_of_text(file.read(), "its page", "--trace" in words)

    def go_on(self):
        """The trials: for each its own numbers by chance."""
        end, count = time.monotonic() + self.words.seconds, 0
        while time.monotonic() < end:
            count += 1
            yield random.Random(f"{self.words.seed} {count}")

    def find(self, fault, edits, trial, words):
        """Tells of a fault, three times of each, with as few of its edits as show it: trial(EDITS) makes the files and tries."""
        kind, at = fault.split(":")[0], len(edits)
        self.kinds[kind] += 1
        if self.kinds[kind] > KEPT:
            return
        while at > 0 and len(edits) > 1:
            at = min(at, len(edits)) - 1
            fewer = edits[:at] + edits[at + 1:]
            again = trial(fewer)
            if again and again.split(":")[0] == kind:
                edits = fewer
        trial(edits)
        os.makedirs(self.words.keep, exist_ok=True)
        for i, word in enumerate(words):
            path = os.path.join(self.path, word)
            if path.startswith(self.path) and os.path.isfile(path):
                words = [*words[:i], f"{sum(self.kinds.values())}-{os.path.basename(path)}", *words[i + 1:]]
                shutil.copy(path, f"{self.words.keep}/{words[i]}")
        print(f"{fault}\n    wathread {shlex.join(words)}\n    edits: {edits}", flush=True)

    def end(self):
        counts = [f"{count} of status {it}" for it, count in sorted(self.statuses.items(), key=str)]
        counts += [f"{count} times {kind}" for kind, count in sorted(self.kinds.items())]
        print(f"{sum(self.statuses.values())} trials, {sum(self.kinds.values())} finds: {', '.join(counts)}")
        sys.exit(bool(self.kinds))
