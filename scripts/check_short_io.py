#!/usr/bin/env python3
"""Runs the built program while the system moves fewer bytes than it is asked to.

  check_short_io.py [PROGRAM]

PROGRAM defaults to crates/vcserve/out/vcserve. A small library that is loaded before the C library
cuts each read and write to a few bytes, as a signal, a network file system or a full pipe may. What
the program prints, leaves and ends with has to be the same as without it.

The status is 0 if all rows agree, 1 if one differs, and 77 if `gcc` is missing.
"""
import os
import shutil
import subprocess
import sys
import tempfile

HERE = os.path.dirname(os.path.abspath(__file__))
CRATE = os.path.join(HERE, "..", "crates", "vcserve")
KEYS = ["".join(f"{byte:02x}" for byte in range(first, first + 32)) for first in (0, 32)]

# Each call passes on at most CUT bytes.
LIBRARY = r"""
#define _GNU_SOURCE
#include <dlfcn.h>
#include <sys/types.h>
#include <unistd.h>
#define LESS(n) ((n) < CUT ? (n) : CUT)
#define NEXT(name) static __typeof__(name) *next; if (!next) next = dlsym(RTLD_NEXT, #name)
ssize_t read(int fd, void *to, size_t n) { NEXT(read); return next(fd, to, LESS(n)); }
ssize_t write(int fd, const void *from, size_t n) { NEXT(write); return next(fd, from, LESS(n)); }
ssize_t pread(int fd, void *to, size_t n, off_t at) { NEXT(pread); return next(fd, to, LESS(n), at); }
ssize_t pwrite(int fd, const void *from, size_t n, off_t at) { NEXT(pwrite); return next(fd, from, LESS(n), at); }
ssize_t pread64(int fd, void *to, size_t n, off64_t at) { NEXT(pread64); return next(fd, to, LESS(n), at); }
ssize_t pwrite64(int fd, const void *from, size_t n, off64_t at) { NEXT(pwrite64); return next(fd, from, LESS(n), at); }
"""

# The commands of one container, in their order.
COMMANDS = [
    ["format", "--size", "262656", "--password", "correct horse", "--pim", "1", "--random", KEYS[0]],
    ["hide", "--size", "512", "--password", "hidden horse", "--pim", "1", "--random", KEYS[1]],
    ["info", "--password", "correct horse", "--pim", "1"],
    ["info", "--backup", "--password", "hidden horse", "--pim", "1"],
    ["cat", "0", "1", "--password", "correct horse", "--pim", "1"],
    ["cat", "0", "1", "--password", "wrong horse", "--pim", "1"],
    ["passwd", "--password", "correct horse", "--pim", "1", "--new", "new horse", "--new-pim", "1", "--random", KEYS[1]],
    ["restore", "--password", "new horse", "--pim", "1", "--random", KEYS[0]],
]


def results(program, path, environment):
    """What each command prints and ends with, and the container after it."""
    if os.path.exists(path):
        os.remove(path)
    for command in COMMANDS:
        words = [program, command[0], path, *command[1:]]
        run = subprocess.run(words, stdin=subprocess.DEVNULL, capture_output=True, env=environment, timeout=100)
        with open(path, "rb") as file:
            yield run.returncode, run.stdout, run.stderr, file.read()


def main(words):
    program = os.path.abspath(words[0] if words else os.path.join(CRATE, "out", "vcserve"))
    if not os.path.isfile(program):
        sys.exit(f"{program} is missing: `rt run` in crates/vcserve builds it")
    if shutil.which("gcc") is None:
        print("skipped: gcc is missing", file=sys.stderr)
        return 77
    wrong = 0
    with tempfile.TemporaryDirectory() as folder:
        path = os.path.join(folder, "short.vc")
        whole = list(results(program, path, dict(os.environ)))
        for cut in (1, 100, 511, 4097):
            library = os.path.join(folder, f"short_{cut}.so")
            subprocess.run(["gcc", "-O2", "-shared", "-fPIC", f"-DCUT={cut}", "-x", "c", "-", "-o", library, "-ldl"],
                           input=LIBRARY.encode(), check=True)
            short = results(program, path, {**os.environ, "LD_PRELOAD": library})
            for command, wanted, found in zip(COMMANDS, whole, short):
                if found != wanted:
                    wrong += 1
                    print(f"wrong: {command[0]} by {cut} bytes: {found[:3]} in place of {wanted[:3]}")
    print(f"short reads and writes: {4 * len(COMMANDS) - wrong} passed, {wrong} failed")
    return 1 if wrong else 0


if __name__ == "__main__":
    sys.exit(main(sys.argv[1:]))
