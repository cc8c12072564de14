#!/usr/bin/env python3
"""A header with one bit changed: it opens nothing, and its backup opens as before.

  check_damage.py [PROGRAM] [--all] [--seed N] [--side-by-side N]

PROGRAM defaults to crates/vcserve/out/vcserve. Of each byte of the salt and of the body one bit is changed, with --all
each bit, one at a time. `info --kind standard` then ends with status 3, and with --backup it shows what it showed before.
`check_program.py` tries one bit of the salt and one of each block of the body.

The first line tells the seed. A row that is wrong is told. The status is 1 then, 77 if the package `cryptography` is
missing, and otherwise 0.
"""
import argparse
import os
import random
import subprocess
import sys
import tempfile
from concurrent.futures import ThreadPoolExecutor

from check_hidden import OUTER_KEY, text, write
from independent_container import GROUP, SECTOR, formatted
from program_rows import LIMIT, LINES, PASSWORD, Rows, differences, info_words
from served_model import opened
from speed import PROGRAM

SALT, BLOCK = 64, 16


def faults_of(program, folder, image, bit):
    """What is wrong with this bit of the standard header changed."""
    damaged = bytearray(image)
    damaged[bit // 8] ^= 1 << bit % 8
    shown = text("backup-standard", opened(image, len(image) - GROUP, PASSWORD), "sha512", "aes")
    faults = []
    with tempfile.TemporaryDirectory(dir=folder) as own:
        path = os.path.join(own, "damaged.vc")
        write(path, damaged)
        for more, status, out in [([], 3, b""), (["--backup"], 0, shown)]:
            run = subprocess.run([program, *info_words(path), "--kind", "standard", *more], capture_output=True,
                                 stdin=subprocess.DEVNULL, timeout=LIMIT)
            faults += [" ".join([*more, fault]) for fault in differences(run, status, out, LINES[status])]
    return faults


def one_of_each_block(draw):
    """A bit of the salt, and one of each block of the body."""
    return [draw.randrange(8 * SALT)] + [8 * at + draw.randrange(8 * BLOCK) for at in range(SALT, SECTOR, BLOCK)]


def one_of_each_byte(draw):
    return [8 * at + draw.randrange(8) for at in range(SECTOR)]


def check(rows, folder, bits, side_by_side=os.cpu_count()):
    image = formatted(2 * GROUP + SECTOR, PASSWORD, 1, OUTER_KEY)
    with ThreadPoolExecutor(side_by_side) as pool:
        for bit, faults in zip(bits, pool.map(lambda bit: faults_of(rows.program, folder, image, bit), bits)):
            rows.note(f"damage: bit {bit % 8} of byte {bit // 8}", faults)


def main():
    top = argparse.ArgumentParser(description=__doc__, formatter_class=argparse.RawDescriptionHelpFormatter)
    top.add_argument("program", nargs="?", default=PROGRAM)
    top.add_argument("--all", action="store_true")
    for name, number in [("--seed", 1), ("--side-by-side", 2)]:
        top.add_argument(name, type=int, default=number)
    asked = top.parse_args()
    program = os.path.abspath(asked.program)
    if not os.path.isfile(program):
        sys.exit(f"{program} is missing: `rt run` in crates/vcserve builds it")
    print(f"seed {asked.seed}", flush=True)
    bits = range(8 * SECTOR) if asked.all else one_of_each_byte(random.Random(asked.seed))
    with tempfile.TemporaryDirectory() as folder:
        rows = Rows(program)
        check(rows, folder, bits, asked.side_by_side)
    print(f"damage: {rows.rows - rows.wrong} passed, {rows.wrong} failed")
    return 1 if rows.wrong else 0


if __name__ == "__main__":
    sys.exit(main())
