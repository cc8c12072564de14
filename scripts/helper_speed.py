#!/usr/bin/env python3
"""How much `serve` gains by helpers and by several clients at once, as ratios within one run.

  helper_speed.py [PROGRAM [MEASURE ..]]

PROGRAM defaults to crates/vcserve/out/vcserve. The clients are the small C program of serve_speed.py, which gcc builds,
each at a pair of named pipes. Rates are by the clock, each the best of several runs; what is compared runs in turn.

wake      writes of four fragments at an idle server with one helper: the time from each wake of a sleeping thread until
          it runs, whose median has to be at most 100 microseconds. A small library that is loaded before the C library
          notes the times. Beside it the median time of such a write, with one helper and with none
idle      processor time of a server with 8 helpers whose client asks nothing for 3 seconds: less than 1 % of one processor
readers   four clients that read 1 MiB at a time, against one whose server has one processor
helpers   a client that writes 1 MiB at a time with three helpers, against the same with none
random    16 clients that read and write 4 KiB at random places, against four

It judges nothing but a session that goes wrong: the status is 0, but 77 if gcc or `cryptography` is missing.
"""
import os
import shutil
import statistics
import subprocess
import sys
import tempfile
import time

import serve_speed
from serve_speed import MIB, READ, SMALL, TURNS, VOLUME, WRITE, ticks
from served_client import Link
from served_model import FLUSH, case_of, head, reply
from speed import PASSWORD, PROGRAM, best, load, processor

# Writes that are timed for `wake`, with a pause before each in which helpers fall asleep.
WAKES, PAUSE = 50, 0.005
SMALL_REQUESTS = 2000


# Notes when a thread is woken and when one that slept goes on, by the word that they share.
LIBRARY = r"""
#define _GNU_SOURCE
#include <dlfcn.h>
#include <fcntl.h>
#include <linux/futex.h>
#include <stdarg.h>
#include <stdatomic.h>
#include <stdint.h>
#include <stdio.h>
#include <stdlib.h>
#include <sys/syscall.h>
#include <time.h>
#include <unistd.h>
enum { MOST = 1 << 16 };
static struct { double at; void *word; int is_wake; } events[MOST];
static atomic_int count;
static double now(void) { struct timespec t; clock_gettime(CLOCK_MONOTONIC, &t); return t.tv_sec + t.tv_nsec * 1e-9; }
static void note(void *word, int is_wake) {
    int i = count++;
    if (i < MOST) events[i].at = now(), events[i].word = word, events[i].is_wake = is_wake;
}
long syscall(long number, ...) {
    static long (*next)(long, ...);
    va_list list;
    long a[6];
    va_start(list, number);
    for (int i = 0; i < 6; i++) a[i] = va_arg(list, long);
    va_end(list);
    if (!next) next = dlsym(RTLD_NEXT, "syscall");
    int what = number == SYS_futex ? a[1] & FUTEX_CMD_MASK : -1;
    if (what == FUTEX_WAKE) note((void *)a[0], 1);
    long result = next(number, a[0], a[1], a[2], a[3], a[4], a[5]);
    if ((what == FUTEX_WAIT || what == FUTEX_WAIT_BITSET) && result == 0) note((void *)a[0], 0);
    return result;
}
void _exit(int status) {
    int fd = open(getenv("WAKES_TO"), O_WRONLY | O_CREAT | O_TRUNC, 0600);
    for (int i = 0; i < count && i < MOST; i++)
        dprintf(fd, "%.9f %p %d\n", events[i].at, events[i].word, events[i].is_wake);
    syscall(SYS_exit_group, status);
    __builtin_unreachable();
}
"""


class Place(serve_speed.Place):
    """The files of all runs, with pipes for 16 clients."""

    def __init__(self, program, folder):
        super().__init__(program, folder)
        self.all_pipes = [self.pipes]
        for number in range(1, 16):
            self.all_pipes.append([os.path.join(folder, f"{name}{number}") for name in ("to", "from")])
            for pipe in self.all_pipes[-1]:
                os.mkfifo(pipe)

    def rate(self, clients, helpers, kind, length, count, places=0, processors=None):
        """The bytes a second of so many clients, each with so many requests. `processors` are the server's, if not all."""
        pipes = self.all_pipes[:clients]
        words = [self.program, "serve", self.container, "--password", PASSWORD, "--pim", "1", "--kind", "standard",
                 "--helpers", str(helpers), "--", *(pipe for pair in pipes for pipe in pair)]
        pinned = (lambda: os.sched_setaffinity(0, processors)) if processors else None
        with subprocess.Popen(words, stdin=subprocess.DEVNULL, stdout=subprocess.DEVNULL, preexec_fn=pinned) as run:
            asked = [str(kind), str(length), str(count), str(places)]
            runs = [subprocess.Popen([self.client, *pair, *asked], stdout=subprocess.PIPE, text=True) for pair in pipes]
            try:
                took = [float(client.communicate(timeout=100)[0]) for client in runs]
            except (subprocess.TimeoutExpired, ValueError):
                run.kill()
                sys.exit(f"a session with {clients} clients and {helpers} helpers went wrong")
            if run.wait(100) != 0:
                sys.exit(f"the program ended with {run.returncode}")
        # the clients begin together, when the volume is open
        return clients * count * length / max(took)


def compared(name, one, other):
    """Two rates in turn, the best of each."""
    rates = [-rate for rate in best(TURNS, lambda: -one(), lambda: -other())]
    print(f"{name}: {rates[0] / 1e6:.0f} MB/s against {rates[1] / 1e6:.0f}, ratio {rates[0] / rates[1]:.2f}", flush=True)


def readers(place):
    count = VOLUME // MIB - 1
    compared("four readers of 1 MiB against one of a server with one processor",
             lambda: place.rate(4, 0, READ, MIB, count),
             lambda: place.rate(1, 0, READ, MIB, count, processors={min(os.sched_getaffinity(0))}))


def helpers(place):
    count = VOLUME // MIB - 1
    compared("writes of 1 MiB with three helpers against none", lambda: place.rate(1, 3, WRITE, MIB, count),
             lambda: place.rate(1, 0, WRITE, MIB, count))


def at_random(place):
    places = VOLUME // SMALL
    for name, kind in [("reads", READ), ("writes", WRITE)]:
        compared(f"random {name} of 4 KiB by 16 clients against 4",
                 lambda kind=kind: place.rate(16, 0, kind, SMALL, SMALL_REQUESTS, places),
                 lambda kind=kind: place.rate(4, 0, kind, SMALL, 4 * SMALL_REQUESTS, places))


def write_time(place, helpers, environment=None):
    """The median seconds of a write of 1 MiB at an idle server."""
    case = case_of("wake", 2 * MIB, 0, 512, 512, "outer")
    link = Link(place.program, os.path.dirname(place.container), case, True, "--helpers", str(helpers),
                environment=environment)
    times, data = [], bytes(MIB)
    for _ in range(WAKES):
        time.sleep(PAUSE)
        begun = time.monotonic()
        if link.ask(head(WRITE, 0, MIB, 1) + data) != reply(0, 1):
            sys.exit("a write went wrong")
        times.append(time.monotonic() - begun)
    link.end()
    return statistics.median(times)


def wakes(path):
    """The seconds from each wake until the sleeping thread goes on."""
    late, woken = [], {}
    with open(path) as file:
        for at, word, is_wake in sorted((float(at), word, int(is_wake)) for at, word, is_wake in map(str.split, file)):
            if is_wake:
                woken[word] = at
            elif word in woken:
                late.append(at - woken.pop(word))
    return late


def wake(place):
    folder = os.path.dirname(place.container)
    library, path = os.path.join(folder, "wakes.so"), os.path.join(folder, "wakes")
    subprocess.run(["gcc", "-O2", "-shared", "-fPIC", "-w", "-x", "c", "-", "-o", library, "-ldl"],
                   input=LIBRARY.encode(), check=True)
    alone, helped = write_time(place, 0), write_time(place, 1)
    print(f"a write of 1 MiB: {alone * 1e6:.0f} us without a helper, {helped * 1e6:.0f} us with one", flush=True)
    write_time(place, 1, {"LD_PRELOAD": library, "WAKES_TO": path})
    late = wakes(path)
    if late:
        print(f"wakes: {len(late)}, the median {statistics.median(late) * 1e6:.0f} us (at most 100)", flush=True)
    else:
        print("wakes: none, no thread slept until another woke it", flush=True)


def idle(place):
    case = case_of("idle", MIB, 0, 512, 512, "outer")
    link = Link(place.program, os.path.dirname(place.container), case, True, "--helpers", "8")
    if link.ask(head(FLUSH, cookie=1)) != reply(0, 1):
        sys.exit("a flush went wrong")
    time.sleep(0.1)
    before, begun = ticks(link.run.pid), time.monotonic()
    time.sleep(3)
    spent = (ticks(link.run.pid) - before) / os.sysconf("SC_CLK_TCK") / (time.monotonic() - begun)
    link.end()
    print(f"idle with 8 helpers: {100 * spent:.2f} % of a processor (less than 1)", flush=True)


MEASURES = {"wake": wake, "idle": idle, "readers": readers, "helpers": helpers, "random": at_random}


def main(words):
    program = os.path.abspath(words[0] if words else PROGRAM)
    if not os.path.isfile(program):
        sys.exit(f"{program} is missing: `rt run` in crates/vcserve builds it")
    if shutil.which("gcc") is None:
        print("skipped: gcc is missing", file=sys.stderr)
        return 77
    asked = words[1:] or list(MEASURES)
    if not set(asked) <= set(MEASURES):
        sys.exit(__doc__)
    print(f"machine: {processor()}, {os.cpu_count()} processors, load {load()}", flush=True)
    # A disk would be measured too, if the files weren't in memory.
    memory = "/dev/shm" if os.path.isdir("/dev/shm") else None
    with tempfile.TemporaryDirectory(dir=memory) as folder:
        place = Place(program, folder)
        for name in asked:
            MEASURES[name](place)
    print(f"load at the end {load()}")
    return 0


if __name__ == "__main__":
    sys.exit(main(sys.argv[1:]))
