#!/usr/bin/env python3
"""Whether a branch or an address depends on a cipher's key or blocks, in the program that is built.

  check_constant_time.py [NAME ..]

NAME is a row of CIPHERS in compare_ciphers.py, `aes` and `serpent` if none is named. A program
that enciphers and deciphers blocks under keys, in single blocks and in lists, is built as there
and run by valgrind's memcheck. Beneath it a library marks all bytes that are read, keys and blocks
alike, as undefined, and all that are written as defined again. Memcheck follows undefined bits
through moves and arithmetic, and reports each conditional jump and each address that rests on one.

Twofish is run too: its tables depend on the key and are looked up by data, so memcheck must report
it, or the check itself doesn't work. This says nothing of how long an instruction takes.

The status is 0 if nothing is reported but of Twofish; 1 if something is, and then the reports are
printed; 2 if nothing is reported of Twofish; 77 if valgrind, its header, a C compiler or `rt` is
missing.
"""
import os
import random
import shutil
import subprocess
import sys
import tempfile

from compare_ciphers import BLOCKS, CIPHERS, KEY, cipher_probe

CASES = 3
CONTROL = "twofish"
HEADERS = ["/usr/include/valgrind/memcheck.h", "/usr/local/include/valgrind/memcheck.h"]
REPORTED = 9

MARKS = """
#define _GNU_SOURCE
#include <dlfcn.h>
#include <unistd.h>
#include <valgrind/memcheck.h>

ssize_t read(int fd, void *bytes, size_t count) {
    ssize_t (*next)(int, void *, size_t) = dlsym(RTLD_NEXT, "read");
    ssize_t got = next(fd, bytes, count);
    if (fd == 0 && got > 0) VALGRIND_MAKE_MEM_UNDEFINED(bytes, got);
    return got;
}

ssize_t write(int fd, const void *bytes, size_t count) {
    ssize_t (*next)(int, const void *, size_t) = dlsym(RTLD_NEXT, "write");
    VALGRIND_MAKE_MEM_DEFINED(bytes, count);
    return next(fd, bytes, count);
}
"""


def reports(name, marks):
    """What memcheck reports of a cipher's program: its text, or nothing."""
    crate, kind, _ = CIPHERS[name]
    with tempfile.TemporaryDirectory() as folder:
        program = cipher_probe(folder, crate, kind, CASES)
        records = random.randbytes(CASES * (KEY + BLOCKS))
        words = ["valgrind", "--quiet", f"--error-exitcode={REPORTED}", program]
        run = subprocess.run(words, input=records, capture_output=True,
                             env={**os.environ, "LD_PRELOAD": marks})
    if run.returncode not in (0, REPORTED) or len(run.stdout) != 2 * CASES * BLOCKS:
        sys.exit(f"{name}: status {run.returncode}, {len(run.stdout)} bytes\n{run.stderr.decode()}")
    return run.stderr.decode() if run.returncode == REPORTED else ""


def main():
    names = sys.argv[1:] or ["aes", "serpent"]
    compiler = shutil.which("cc")
    tools = [compiler, shutil.which("valgrind"), shutil.which("rt")]
    if None in tools or not any(os.path.exists(path) for path in HEADERS):
        print("skipped: valgrind, its header, a C compiler or rt is missing", file=sys.stderr)
        return 77
    with tempfile.TemporaryDirectory() as folder:
        source, marks = os.path.join(folder, "marks.c"), os.path.join(folder, "marks.so")
        with open(source, "w", encoding="utf-8") as file:
            file.write(MARKS)
        subprocess.run([compiler, "-shared", "-fPIC", "-O1", "-o", marks, source, "-ldl"], check=True)
        found = {name: reports(name, marks) for name in names}
        control = reports(CONTROL, marks)
    for name, text in found.items():
        print(f"{name}: " + (f"depends on key or data\n{text}" if text else "no jump and no address depends on key or data"))
    if not control:
        print(f"{CONTROL} was not reported: the check doesn't work")
        return 2
    return 1 if any(found.values()) else 0


if __name__ == "__main__":
    sys.exit(main())
