#!/usr/bin/env python3
"""Refuses the built program memory: each allocation of a run in turn, one number at a time.

  refuse_memory.py [PROGRAM] [--side-by-side N] [--step N]

PROGRAM defaults to crates/vcserve/out/vcserve. A small library that is loaded before the C library counts the calls of
malloc, realloc and calloc, and those of pthread_create, and refuses one of them, or one and all that come after it. The
runs are a `serve` of two clients with sectors of their own and two helpers, and `drill 7` if the program has it.
--step N tries only each N-th number.

A run of `serve` is right if

- it ends with status 9 or 0, and with 0 all requests are replied to;
- each reply is the one that is given without the library, or error 12 to a request that then had no effect;
- each client's sectors are as its replies say, or as after one more request, if its output was out of memory.

A run of `drill` is right if it ends with status 9 having printed the beginning of its lines, or as without the library.

A run that is wrong is told. The status is 1 then, 77 if gcc or the package `cryptography` is missing, and otherwise 0.
"""
import argparse
import os
import re
import shutil
import subprocess
import sys
import tempfile
from concurrent.futures import ThreadPoolExecutor

from check_hidden import write
from program_rows import LIMIT, LINES, Rows
from served_client import serve_words
from served_model import DISCONNECT, FLUSH, FUA, READ, WRITE, case_of, frames, head, reply
from speed import PROGRAM

# COUNT_TO names a file that gets the number of calls. Of the calls of REFUSED's kind the one with its number is refused,
# with AND_MORE set also all after it.
LIBRARY = r"""
#define _GNU_SOURCE
#include <dlfcn.h>
#include <errno.h>
#include <fcntl.h>
#include <pthread.h>
#include <stdatomic.h>
#include <stddef.h>
#include <stdio.h>
#include <stdlib.h>
#include <sys/syscall.h>
#include <unistd.h>
void *__libc_malloc(size_t), *__libc_realloc(void *, size_t), *__libc_calloc(size_t, size_t);
static atomic_long calls[2];
static long refused[2];
static int more;
__attribute__((constructor)) static void begin(void) {
    const char *memory = getenv("REFUSED_MEMORY"), *threads = getenv("REFUSED_THREADS");
    more = getenv("AND_MORE") != 0;
    calls[0] = calls[1] = 0;
    refused[0] = memory ? atol(memory) : 0;
    refused[1] = threads ? atol(threads) : 0;
}
static int is_refused(int kind) {
    long number = ++calls[kind];
    return refused[kind] && (number == refused[kind] || (more && number > refused[kind]));
}
static void tell(void) {
    const char *path = getenv("COUNT_TO");
    char line[64];
    if (!path) return;
    int fd = open(path, O_WRONLY | O_CREAT | O_TRUNC, 0600);
    int length = snprintf(line, sizeof line, "%ld %ld\n", calls[0], calls[1]);
    if (write(fd, line, length) != length) abort();
}
__attribute__((destructor)) static void end(void) { tell(); }
void _exit(int status) { tell(); syscall(SYS_exit_group, status); __builtin_unreachable(); }
#define GIVE(call) do { if (is_refused(0)) { errno = ENOMEM; return NULL; } return call; } while (0)
void *malloc(size_t n) { GIVE(__libc_malloc(n)); }
void *realloc(void *old, size_t n) { GIVE(__libc_realloc(old, n)); }
void *calloc(size_t n, size_t size) { GIVE(__libc_calloc(n, size)); }
int pthread_create(pthread_t *to, const pthread_attr_t *how, void *(*work)(void *), void *with) {
    static __typeof__(pthread_create) *next;
    if (!next) next = dlsym(RTLD_NEXT, "pthread_create");
    return is_refused(1) ? EAGAIN : next(to, how, work, with);
}
"""

# What the library counts, by the name of the variable that refuses it.
KINDS = {"REFUSED_MEMORY": "allocation", "REFUSED_THREADS": "thread"}

# A client's part of the volume: enough for a write of several fragments.
OWN = 768 << 10


def streams():
    """Two clients: writes, reads and flushes of a sector and of several fragments, and what is refused anyway."""
    made = []
    for client in range(2):
        base, fill = client * OWN, bytes([0x11 + client])
        made.append(head(WRITE, base, 512, 1) + fill * 512 + head(READ, base, 1024, 2)
                    + head(WRITE, base + 1024, 600 << 10, 3, FUA) + fill * (600 << 10)
                    + head(READ, base + 512, OWN - 512, 4) + head(READ, base + 1, 512, 5) + head(FLUSH, cookie=6)
                    + head(WRITE, base + 4096, 4096, 7) + bytes(4096) + head(DISCONNECT))
    return made


class Serving:
    """A `serve` of the two clients."""

    name = "serve"

    def __init__(self):
        self.case = case_of("memory", 2 * OWN, 0, 512, 512, "outer")
        self.inputs = streams()

    def run(self, program, folder, environment):
        """Runs it: what is wrong, and how often the library was called."""
        with tempfile.TemporaryDirectory(dir=folder) as own:
            path = os.path.join(own, "c.vc")
            files = [os.path.join(own, f"{name}{client}") for client in range(2) for name in ("in", "out")]
            for file, given in zip([path, *files[::2]], [self.case.image, *self.inputs]):
                write(file, given)
            words = [*self.case.words, "--helpers", "2", "--workers", "2"]
            run, counts = counted([program, *serve_words(path, words, *files)], own, environment)
            found = []
            for file in files[1::2]:
                found.append(b"")
                if os.path.exists(file):
                    with open(file, "rb") as replies:
                        found[-1] = replies.read()
            with open(path, "rb") as file:
                return self.faults(run, found, file.read()), counts

    def faults(self, run, found, image):
        if run.returncode not in (0, 9) or run.stderr != LINES[run.returncode].encode():
            return [f"status {run.returncode}, standard error {run.stderr!r}"]
        counts, faults = [], []
        for client, (given, got) in enumerate(zip(self.inputs, found)):
            count, more = self.client_faults(client, given, got, image, run.returncode == 9)
            counts.append(count)
            faults += [f"client {client}: {fault}" for fault in more]
        begin, end = self.case.fields.start, self.case.fields.start + self.case.fields.volume
        if image[:begin] != self.case.image[:begin] or image[end:] != self.case.image[end:]:
            faults.append("bytes outside the volume differ")
        wanted = "".join(rf"client {client} (done|no-memory) {count}\n" for client, count in enumerate(counts))
        printed = run.stdout.decode()
        is_whole = re.fullmatch(wanted, printed)
        if run.returncode == 0 and (not is_whole or "no-memory" in printed):
            faults.append(f"output {printed!r} of replies {counts}")
        if run.returncode == 9 and printed and not is_whole and not re.match("client 0 (done|no-memory) ", printed):
            faults.append(f"output {printed!r} of replies {counts}")
        return faults

    def client_faults(self, client, given, got, image, may_end):
        """How many whole replies a client got, and what is wrong with them and with its sectors."""
        volume, at, count = self.case.volume(), 0, 0
        begin = self.case.fields.start + client * OWN
        states = []
        for flags, kind, cookie, offset, length, payload in frames(given)[0]:
            before = bytes(volume.image[begin:begin + OWN])
            error, data = volume.answer(flags, kind, offset, length, payload)
            wanted, refused = reply(error, cookie, data), reply(12, cookie)
            if got.startswith(refused, at):
                # nothing was done
                volume.image[begin:begin + OWN] = before
                at += len(refused)
            elif got.startswith(wanted, at):
                at += len(wanted)
            else:
                states = [before, bytes(volume.image[begin:begin + OWN])]
                if not may_end:
                    return count, [f"no reply to request {cookie}"]
                if not wanted.startswith(got[at:]):
                    return count, [f"another reply than that to request {cookie}"]
                break
            count += 1
        else:
            states = [bytes(volume.image[begin:begin + OWN])]
            if at != len(got):
                return count, ["bytes after its replies"]
        return count, [] if image[begin:begin + OWN] in states else ["its sectors aren't as its replies say"]


class Drill:
    """`drill 7`."""

    name = "drill"

    def __init__(self, lines):
        self.lines = lines

    def run(self, program, folder, environment):
        with tempfile.TemporaryDirectory(dir=folder) as own:
            run, counts = counted([program, "drill", "7"], own, environment)
        is_right = run.stdout == self.lines if run.returncode == 0 else self.lines.startswith(run.stdout)
        if run.returncode not in (0, 9) or run.stderr != LINES[run.returncode].encode() or not is_right:
            return [f"status {run.returncode}, output {run.stdout!r}, standard error {run.stderr!r}"], counts
        return [], counts


def counted(words, own, environment):
    """Runs the program with the library: the run, and its calls by kind; None if it didn't come to its end."""
    count_to = os.path.join(own, "count")
    run = subprocess.run(words, capture_output=True, stdin=subprocess.DEVNULL, timeout=LIMIT,
                         env={**os.environ, **environment, "COUNT_TO": count_to})
    if not os.path.exists(count_to):
        return run, None
    with open(count_to) as file:
        return run, dict(zip(KINDS, map(int, file.read().split())))


def sweep(rows, folder, library, what, side_by_side, step):
    """Refuses each call in turn."""
    preload = {"LD_PRELOAD": library}
    faults, counts = what.run(rows.program, folder, preload)
    rows.note(f"{what.name}: nothing refused", faults + ([] if counts else ["the library isn't told of its end"]))
    if faults or not counts:
        return
    for variable, kind in KINDS.items():
        # threads take turns as they like, so a run may call a little more often
        numbers = range(1, counts[variable] + 4, step)
        print(f"{what.name}: {counts[variable]} times {kind}", flush=True)
        for more in ({}, {"AND_MORE": "1"}):
            def one(number, more=more, variable=variable):
                return what.run(rows.program, folder, {**preload, **more, variable: str(number)})[0]

            with ThreadPoolExecutor(side_by_side) as pool:
                for number, faults in zip(numbers, pool.map(one, numbers)):
                    rows.note(f"{what.name}: {kind} {number} refused{' and all after it' if more else ''}", faults)


def main():
    top = argparse.ArgumentParser(description=__doc__, formatter_class=argparse.RawDescriptionHelpFormatter)
    top.add_argument("program", nargs="?", default=PROGRAM)
    for name, number in [("--side-by-side", 2), ("--step", 1)]:
        top.add_argument(name, type=int, default=number)
    asked = top.parse_args()
    program = os.path.abspath(asked.program)
    if not os.path.isfile(program):
        sys.exit(f"{program} is missing: `rt run` in crates/vcserve builds it")
    if shutil.which("gcc") is None:
        print("skipped: gcc is missing", file=sys.stderr)
        return 77
    rows = Rows(program)
    with tempfile.TemporaryDirectory() as folder:
        library = os.path.join(folder, "refusing.so")
        subprocess.run(["gcc", "-O2", "-shared", "-fPIC", "-fno-builtin", "-w", "-x", "c", "-", "-o", library, "-ldl"],
                       input=LIBRARY.encode(), check=True)
        sweep(rows, folder, library, Serving(), asked.side_by_side, asked.step)
        drill = subprocess.run([program, "drill", "7"], capture_output=True, stdin=subprocess.DEVNULL, timeout=LIMIT)
        if drill.returncode == 0:
            sweep(rows, folder, library, Drill(drill.stdout), asked.side_by_side, asked.step)
        else:
            rows.leave_out("drill", "the program has no such command yet")
    print(f"refused memory: {rows.rows - rows.wrong} passed, {rows.wrong} failed")
    return 1 if rows.wrong else 0


if __name__ == "__main__":
    sys.exit(main())
