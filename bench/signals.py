#!/usr/bin/env python3
"""signals.py TIMES TEMPORARY OUT NAME,.. COMMAND..: runs a command TIMES times for each of SIGINT, SIGTERM and SIGHUP, which
comes after 1, 2, 3 .. 60 ms, and half of the times at any time until the command would end; in turn to the command alone and
to all of its group. Then nothing of it may run on, TEMPORARY be empty, and OUT, which is emptied before, have none but such
names."""
import fnmatch
import os
import shutil
import signal
import subprocess
import sys
import time

SIGNALS = (signal.SIGINT, signal.SIGTERM, signal.SIGHUP)


def begin():
    os.setsid()
    for it in SIGNALS:
        signal.signal(it, signal.SIG_DFL)


def runs(group):
    try:
        os.killpg(group, 0)
        return True
    except ProcessLookupError:
        return False


def empty(folder):
    for it in os.scandir(folder):
        if it.is_dir(follow_symlinks=False):
            shutil.rmtree(it)
        else:
            os.unlink(it)


def end(job):
    """Waits until all of a group have ended, and says what didn't in a minute."""
    late = time.monotonic() + 60
    while time.monotonic() < late:
        if job.poll() is not None and not runs(job.pid):
            return []
        time.sleep(0.002)
    os.killpg(job.pid, signal.SIGKILL)
    job.wait()
    return ["a process"]


def begun(command, out):
    os.makedirs(out, exist_ok=True)
    empty(out)
    return subprocess.Popen(command, preexec_fn=begin, stdin=subprocess.DEVNULL, stdout=subprocess.DEVNULL,
                            stderr=subprocess.DEVNULL)


def main():
    times, temporary, out, names, command = int(sys.argv[1]), *sys.argv[2:4], sys.argv[4].split(","), sys.argv[5:]
    left, statuses, start = 0, {}, time.monotonic()
    end(begun(command, out))
    whole = time.monotonic() - start
    for n in range(times * len(SIGNALS)):
        kind, turn = SIGNALS[n % len(SIGNALS)], n // len(SIGNALS)
        alone, turn = turn % 2 == 0, turn // 2
        delay = (turn % 60 + 1) / 1000 if turn < times // 4 else whole * (turn - times // 4) / (times // 4 + 1)
        job = begun(command, out)
        time.sleep(delay)
        if job.poll() is None:
            (os.kill if alone else os.killpg)(job.pid, kind)
        found = end(job) + os.listdir(temporary)
        found += [it for it in os.listdir(out) if not any(fnmatch.fnmatch(it, name) for name in names)]
        statuses[job.returncode] = statuses.get(job.returncode, 0) + 1
        if found:
            left += 1
            print(f"{kind.name} after {delay:.3f} s, to {'it alone' if alone else 'its group'}, leaves {' '.join(found)}")
            empty(temporary)
    told = ", ".join(f"{count} of status {status}" for status, count in sorted(statuses.items()))
    print(f"{times * len(SIGNALS)} signals within {whole:.2f} s, {left} leave something: {told}")
    sys.exit(left > 0)


main()
