#!/usr/bin/env python3
"""How fast `serve` replies to one client that makes one request at a time, beside the ciphers and a copying loop.

  serve_speed.py [PROGRAM [MEASURE ..]]

PROGRAM defaults to crates/vcserve/out/vcserve. The client and the copying loop are a small C program, which gcc builds.
Both are at a pair of named pipes. The loop replies to the same requests over a regular file, without a cipher and
without checks, so what a request costs above it is the program's own time. All times are by the clock, each the best of
several runs, program and loop in turn.

reads     sequential reads of 1 MiB, in MB/s: at least 2.5 times one processor's deciphering, on four processors
writes    sequential writes of 1 MiB, in MB/s: at least 0.85 of one processor's enciphering
random    reads and writes of 4 KiB at random places. A read's time less that of the copying loop: at most 1.3 times
          that of deciphering 4 KiB, and 5 microseconds
idle      processor time of a server whose client asks nothing for 2 seconds: none
others    qemu-nbd and nbdkit over LUKS beside it, as far as they are installed (served_others.py)

Deciphering is `cat` of the same volume less `cat` of nothing, by processor time. For enciphering a probe of units
in memory is built by `rt` (as in speed.py); without rt deciphering stands for it, which is told.

It judges nothing but a session that goes wrong: the status is 0, but 77 if gcc or `cryptography` is missing.
"""
import os
import shutil
import struct
import subprocess
import sys
import tempfile
import time

import served_others
from independent_container import GROUP, SECTOR, make
from probe import build
from speed import PASSWORD, PROBE, PROGRAM, best, cat_time, load, processor, processor_time

MIB = 1 << 20
VOLUME = 128 * MIB
TURNS = 3
SMALL = 4096
SMALL_REQUESTS = 5000

# client TO FROM KIND LENGTH COUNT PLACES: COUNT requests of LENGTH bytes, at random places if PLACES isn't 0, of so
# many; prints the seconds that they took. copier TO FROM FILE: the loop.
CLIENT = r"""
#include <endian.h>
#include <fcntl.h>
#include <stdint.h>
#include <stdio.h>
#include <stdlib.h>
#include <string.h>
#include <time.h>
#include <unistd.h>
struct __attribute__((packed)) head { uint32_t magic; uint16_t flags, kind; uint64_t cookie, offset; uint32_t length; };
struct __attribute__((packed)) reply { uint32_t magic, error; uint64_t cookie; };
static int whole(int fd, char *at, size_t n, int out) {
    while (n) {
        ssize_t k = out ? write(fd, at, n) : read(fd, at, n);
        if (k <= 0) return -1;
        at += k, n -= k;
    }
    return 0;
}
static double now(void) { struct timespec t; clock_gettime(CLOCK_MONOTONIC, &t); return t.tv_sec + t.tv_nsec * 1e-9; }
static int copier(char **a) {
    int in = open(a[2], O_RDONLY), out = open(a[3], O_WRONLY), file = open(a[4], O_RDWR);
    static char buf[sizeof(struct reply) + (1 << 20)];
    struct head h;
    char *data = buf + sizeof(struct reply);
    while (!whole(in, (char *)&h, sizeof h, 0)) {
        uint16_t kind = be16toh(h.kind);
        uint32_t n = be32toh(h.length);
        off_t at = be64toh(h.offset);
        struct reply r = { htobe32(0x67446698), 0, h.cookie };
        if (kind == 2) break;
        if (kind == 1 && (whole(in, data, n, 0) || pwrite(file, data, n, at) != n)) return 1;
        if (kind == 0 && pread(file, data, n, at) != n) return 1;
        memcpy(buf, &r, sizeof r);
        if (whole(out, buf, sizeof r + (kind == 0 ? n : 0), 1)) return 1;
    }
    return 0;
}
int main(int c, char **a) {
    if (c == 5 && !strcmp(a[1], "copier")) return copier(a);
    if (c != 7) return 2;
    int to = open(a[1], O_WRONLY), of = open(a[2], O_RDONLY);
    int kind = atoi(a[3]);
    uint32_t n = atoi(a[4]);
    uint64_t count = atoll(a[5]), places = atoll(a[6]), state = 88172645463325252ull;
    char *buf = calloc(1, sizeof(struct head) + n + sizeof(struct reply));
    double begun = 0;
    for (uint64_t i = 0; i <= count; i++) {
        // the first one waits for the opening, and isn't counted
        if (i == 1) begun = now();
        state ^= state << 13, state ^= state >> 7, state ^= state << 17;
        uint64_t at = (places ? state % places : i ? i - 1 : 0) * n;
        struct head h = { htobe32(0x25609513), 0, htobe16(kind), htobe64(i), htobe64(at), htobe32(n) };
        struct reply r;
        memcpy(buf, &h, sizeof h);
        if (whole(to, buf, sizeof h + (kind == 1 ? n : 0), 1) || whole(of, (char *)&r, sizeof r, 0)) return 1;
        if (r.error || r.cookie != htobe64(i)) return 1;
        if (kind == 0 && whole(of, buf + sizeof h, n, 0)) return 1;
    }
    printf("%.9f\n", now() - begun);
    struct head h = { htobe32(0x25609513), 0, htobe16(2), 0, 0, 0 };
    return whole(to, (char *)&h, sizeof h, 1) ? 1 : 0;
}
"""

READ, WRITE, FLUSH = 0, 1, 3


class Place:
    """The files of all runs."""

    def __init__(self, program, folder):
        self.program = program
        self.container, self.plain = os.path.join(folder, "c.vc"), os.path.join(folder, "plain")
        self.pipes = [os.path.join(folder, name) for name in ("to", "from")]
        self.client = os.path.join(folder, "client")
        subprocess.run(["gcc", "-O2", "-w", "-x", "c", "-", "-o", self.client], input=CLIENT.encode(), check=True)
        make(self.container, 2 * GROUP + VOLUME, PASSWORD, 1)
        with open(self.plain, "wb") as file:
            file.write(bytes(VOLUME))
        for pipe in self.pipes:
            os.mkfifo(pipe)

    def server(self):
        return [self.program, "serve", self.container, "--password", PASSWORD, "--pim", "1", "--kind", "standard", "--",
                *self.pipes]

    def copier(self):
        return [self.client, "copier", *self.pipes, self.plain]

    def seconds(self, server, kind, length, count, places=0):
        """What so many requests take that this server replies to."""
        with subprocess.Popen(server, stdin=subprocess.DEVNULL, stdout=subprocess.DEVNULL) as run:
            words = [self.client, *self.pipes, str(kind), str(length), str(count), str(places)]
            try:
                done = subprocess.run(words, capture_output=True, text=True, timeout=100)
            except subprocess.TimeoutExpired:
                run.kill()
                sys.exit(f"no replies from {server[0]}")
            if run.wait(100) != 0 or done.returncode != 0:
                sys.exit(f"a session went wrong: {server[0]} {run.returncode}, client {done.returncode}")
        return float(done.stdout)


def deciphering(place):
    """One processor's MB/s."""
    whole, none = best(TURNS, lambda: cat_time(place.program, place.container, VOLUME // SECTOR, 1),
                       lambda: cat_time(place.program, place.container, 0, 1))
    return VOLUME / (whole - none) / 1e6


def enciphering(place):
    """One processor's MB/s, by a probe that rt builds; None without rt."""
    if shutil.which("rt") is None:
        return None
    with tempfile.TemporaryDirectory() as folder:
        probe = build(folder, ["cascade_set"], "units_probe", PROBE)
        whole, none = best(TURNS, lambda: processor_time([probe], 0, bytes([0, 0, 64])),
                           lambda: processor_time([probe], 0, bytes([0, 0, 0])))
    return 64 * MIB / (whole - none) / 1e6


def sequential(place, kind):
    count = VOLUME // MIB - 1
    ours, loop = best(TURNS, lambda: place.seconds(place.server(), kind, MIB, count),
                      lambda: place.seconds(place.copier(), kind, MIB, count))
    return count * MIB / ours / 1e6, count * MIB / loop / 1e6


def reads(place):
    rate, loop = sequential(place, READ)
    alone = deciphering(place)
    print(f"reads of 1 MiB: {rate:.0f} MB/s; the copying loop {loop:.0f} MB/s")
    print(f"  deciphering {alone:.0f} MB/s, ratio {rate / alone:.2f} (at least 2.50 on four processors)")


def writes(place):
    rate, loop = sequential(place, WRITE)
    print(f"writes of 1 MiB: {rate:.0f} MB/s; the copying loop {loop:.0f} MB/s")
    alone, name = enciphering(place), "enciphering"
    if alone is None:
        alone, name = deciphering(place), "deciphering, since rt is missing for enciphering,"
    print(f"  {name} {alone:.0f} MB/s, ratio {rate / alone:.2f} (at least 0.85)")


def at_random(place):
    places = VOLUME // SMALL
    for name, kind in [("reads", READ), ("writes", WRITE)]:
        ours, loop = best(TURNS, lambda: place.seconds(place.server(), kind, SMALL, SMALL_REQUESTS, places),
                          lambda: place.seconds(place.copier(), kind, SMALL, SMALL_REQUESTS, places))
        ours, loop = (1e6 * seconds / SMALL_REQUESTS for seconds in (ours, loop))
        print(f"random {name} of 4 KiB: {ours:.1f} us; the copying loop {loop:.1f} us")
        if kind == READ:
            alone = SMALL / deciphering(place)
            print(f"  its own {ours - loop:.1f} us, deciphering 4 KiB {alone:.1f} us, at most {1.3 * alone + 5:.1f} us")


def ticks(pid):
    """The processor time of a process, user and system, in clock ticks."""
    with open(f"/proc/{pid}/stat") as file:
        fields = file.read().rpartition(")")[2].split()
    return int(fields[11]) + int(fields[12])


def idle(place):
    with subprocess.Popen(place.server(), stdin=subprocess.DEVNULL, stdout=subprocess.DEVNULL) as run:
        with open(place.pipes[0], "wb", buffering=0) as to, open(place.pipes[1], "rb", buffering=0) as of:
            # opened, and one request replied to
            to.write(struct.pack(">IHHQQI", 0x25609513, 0, FLUSH, 1, 0, 0))
            assert len(of.read(16)) == 16
            time.sleep(0.1)
            before = ticks(run.pid)
            time.sleep(2)
            spent = ticks(run.pid) - before
        run.wait(100)
    print(f"idle: {spent} ticks of {1000 // os.sysconf('SC_CLK_TCK')} ms in 2 s (none)")


def others(place):
    with tempfile.TemporaryDirectory(dir=os.path.dirname(place.container)) as folder:
        served_others.measure(place.program, folder, VOLUME, TURNS)


MEASURES = {"reads": reads, "writes": writes, "random": at_random, "idle": idle, "others": others}


def main(words):
    program = os.path.abspath(words[0] if words else PROGRAM)
    if not os.path.isfile(program):
        sys.exit(f"{program} is missing: `rt run` in crates/vcserve builds it")
    if shutil.which("gcc") is None:
        print("skipped: gcc is missing", file=sys.stderr)
        return 77
    asked = words[1:] or list(MEASURES)
    if not set(asked) <= set(MEASURES):
        sys.exit(__doc__)
    print(f"machine: {processor()}, {os.cpu_count()} processors, load {load()}")
    # A disk would be measured too, if the files weren't in memory.
    memory = "/dev/shm" if os.path.isdir("/dev/shm") else None
    with tempfile.TemporaryDirectory(dir=memory) as folder:
        place = Place(program, folder)
        for name in asked:
            MEASURES[name](place)
    print(f"load at the end {load()}")
    return 0


if __name__ == "__main__":
    sys.exit(main(sys.argv[1:]))
