#!/usr/bin/env python3
"""Runs `drill` of the built program, and compares its lines with those of another program (drill_model.py).

  check_drill.py [PROGRAM]

PROGRAM defaults to crates/vcserve/out/vcserve. Numbers at both ends of the range and between, numbers outside of it, 1, 2
and 4 processors, 100 runs of one number, an output that is full or closed, and a folder in which nothing may appear.
Without a wrong row it prints how long a drill takes on one processor, and how much memory it needs at most:

  seconds   the least processor time of ten runs on one processor, at most 1.5
  memory    the greatest resident size, at most 64 MiB

A row that is wrong is printed, and a figure above its limit too; the status is 1 then, 77 if the package `cryptography`
is missing, and otherwise 0.
"""
import os
import random
import subprocess
import sys
import tempfile

from drill_model import lines_of
from program_rows import LIMIT, Rows
from speed import PROGRAM

SECONDS, MIB = 1.5, 64
RUNS = 100


def on(processors):
    return {"preexec_fn": lambda: os.sched_setaffinity(0, processors)}


def drills(rows, folder):
    """The rows. A run has the folder as its own, which stays empty."""
    here = {"cwd": folder}
    seven = lines_of(7).encode()
    chosen = random.Random(20)
    numbers = [0, 1, 7, (1 << 32) - 2, (1 << 32) - 1] + [chosen.randrange(1 << 32) for _ in range(5)]
    for number in numbers:
        rows.row(f"drill {number}", ["drill", str(number)], 0, lines_of(number).encode(), kept=folder, **here)
    rows.row("drill 007 is drill 7", ["drill", "007"], 0, seven, kept=folder, **here)
    for number in ("4294967296", "-1", "+1", "18446744073709551623", "7.0", "x", ""):
        rows.row(f"drill {number!r}", ["drill", number], 2, kept=folder, **here)
    rows.row("drill without a number", ["drill"], 2, kept=folder, **here)
    rows.row("drill 7 8", ["drill", "7", "8"], 2, kept=folder, **here)
    rows.row("drill 7 -- a b", ["drill", "7", "--", "a", "b"], 2, kept=folder, **here)
    allowed = sorted(os.sched_getaffinity(0))
    for count in (1, 2, 4):
        if count <= len(allowed):
            rows.row(f"drill 7 on {count} processors", ["drill", "7"], 0, seven, kept=folder, **here,
                     **on(set(allowed[:count])))
        else:
            rows.leave_out(f"drill on {count} processors", f"there are {len(allowed)}")
    with open("/dev/full", "wb") as full:
        rows.row("drill 7: no room for the output", ["drill", "7"], 8, None, kept=folder, stdout=full, **here)
    rows.row("drill 7: the output is closed", ["drill", "7"], 8, kept=folder, preexec_fn=lambda: os.close(1), **here)
    rows.note("drills: nothing is left in the folder", [f"{name} is there" for name in os.listdir(folder)])


def repeated(rows):
    seven = lines_of(7).encode()
    faults = []
    for turn in range(RUNS):
        run = subprocess.run([rows.program, "drill", "7"], stdin=subprocess.DEVNULL, capture_output=True, timeout=LIMIT)
        if (run.returncode, run.stdout, run.stderr) != (0, seven, b""):
            faults.append(f"run {turn}: status {run.returncode}, output {run.stdout!r}")
    rows.note(f"drill 7: {RUNS} runs", faults[:3])


def used(program):
    """Processor seconds and KiB of one run on one processor."""
    child = subprocess.Popen([program, "drill", "7"], stdin=subprocess.DEVNULL, stdout=subprocess.DEVNULL,
                             **on({min(os.sched_getaffinity(0))}))
    _, status, usage = os.wait4(child.pid, 0)
    child.returncode = status
    return usage.ru_utime + usage.ru_stime, usage.ru_maxrss


def main(words):
    program = os.path.abspath(words[0] if words else PROGRAM)
    if not os.path.isfile(program):
        sys.exit(f"{program} is missing: `rt run` in crates/vcserve builds it")
    rows = Rows(program)
    with tempfile.TemporaryDirectory() as folder:
        drills(rows, folder)
    repeated(rows)
    runs = [used(program) for _ in range(10)]
    seconds, memory = min(run[0] for run in runs), max(run[1] for run in runs) / 1024
    print(f"seconds {seconds:.2f} (at most {SECONDS})\nmemory {memory:.1f} MiB (at most {MIB})")
    rows.note("a drill's processor time", [] if seconds <= SECONDS else [f"{seconds:.2f} s"])
    rows.note("a drill's memory", [] if memory <= MIB else [f"{memory:.1f} MiB"])
    print(f"{rows.rows} rows, {rows.wrong} wrong")
    return 1 if rows.wrong else 0


if __name__ == "__main__":
    sys.exit(main(sys.argv[1:]))
