#!/usr/bin/env python3
"""Streams that mean no good, 16 clients of `serve` at a time, against the model of a served volume.

  fuzz_serve.py [PROGRAM] [--count N] [--clients N] [--seed N] [--side-by-side N] [--only N]

PROGRAM defaults to crates/vcserve/out/vcserve. N streams are served (10,000 if it isn't given): endless zeros and ff,
payloads that never end, heads with a length of ffffffff, random bytes, valid requests, and valid ones with bits, bytes
and parts of them exchanged. --clients says how many a run of the program has (16), and --side-by-side how many runs
there are at a time (2). Each run has to end, as the model says, with its printed lines and in bounded memory; nothing
may be in the container but the payloads of whole requests.

In one half of the runs each client keeps to sectors of its own, as far as the volume does what it asks, so its replies
and the container are the model's to the byte. In the other half streams do as they like and a hidden volume is
protected. There each reply has an error that it may have, one history explains them (served_history.py), and the hidden
volume stays.

The first line tells the seed, and a run that is wrong its own number: --only NUMBER runs that one alone. The last line
has the streams a second; most of their time is the opening of the container, with the smallest PIM. The status is 1 if
a run was wrong, 77 if the package `cryptography` is missing, and otherwise 0.
"""
import argparse
import os
import random
import struct
import sys
import tempfile
import time
from concurrent.futures import ProcessPoolExecutor
from functools import partial

from check_histories import Request, array_of, differences_outside, events_of
from program_rows import Rows
from served_client import differences, differences_of_replies, endings
from served_history import why_no_history
from served_model import (DISCONNECT, FLUSH, FUA, LONGEST, READ, REPLY_MAGIC, REQUEST_MAGIC, WRITE, case_of, frames,
                          head, session)
from served_together import MOST_CLIENTS, Endless, serve_all
from speed import PROGRAM

SECTOR = 512
# The sectors of a client that keeps to its own, and those of the hidden volume.
OWN, HIDDEN = 8, 16
TOP32, TOP64 = (1 << 32) - 1, (1 << 64) - 1

# A request of 32 MiB may be there for each of 16 clients, beside the program itself.
MOST_MEMORY_KIB = (16 * 32 + 64) << 10


def valid_request(draw, own):
    """A request to these sectors."""
    kind = draw.choice((READ, READ, WRITE, WRITE, WRITE, FLUSH))
    first = draw.choice(own)
    count = draw.randint(1, min(4, own.stop - first))
    data = draw.randbytes(SECTOR * count) if kind == WRITE else b""
    return head(kind, SECTOR * first, SECTOR * count, draw.getrandbits(64), draw.choice((0, 0, FUA))) + data


def valid(draw, own):
    given = b"".join(valid_request(draw, own) for _ in range(draw.randrange(1, 7)))
    return given + draw.choice((b"", head(DISCONNECT), head(DISCONNECT) + b"more", head(FLUSH)[:draw.randrange(28)]))


def mutated(draw, own):
    """A valid stream with some of its bits, bytes and parts exchanged."""
    given = bytearray(valid(draw, own))
    for _ in range(draw.choice((1, 1, 2, 5))):
        at, dice = draw.randrange(len(given) + 1), draw.randrange(6)
        length = draw.choice((1, 2, 4, 8, 28, draw.randrange(600)))
        if dice == 0 and at < len(given):
            given[at] ^= 1 << draw.randrange(8)
        elif dice == 1:
            given[at:at + length] = draw.randbytes(length)
        elif dice == 2:
            del given[at:at + length]
        elif dice == 3:
            given[at:at] = draw.randbytes(length)
        elif dice == 4:
            other = draw.randrange(len(given) + 1)
            given[at:at] = given[other:other + length]
        else:
            given[at:at + length] = draw.choice((b"\0", b"\xff")) * length
    return bytes(given)


def mutated_heads(draw, own):
    """Heads with fields that are at their limits; a payload follows only sometimes."""
    given = b""
    for _ in range(draw.randrange(1, 10)):
        kind = draw.choice((READ, WRITE, FLUSH, DISCONNECT, 4, 5, 6, 7, 0xffff, draw.getrandbits(16)))
        flags = draw.choice((0, 0, 0, FUA, 2, 0x8000, 0xffff))
        offset = draw.choice((0, SECTOR * own.start, SECTOR * own.stop, 1, 1 << 63, TOP64, TOP64 - 511,
                              draw.getrandbits(64)))
        length = draw.choice((0, 1, 511, 512, 513, 4096, LONGEST, LONGEST + 512, 1 << 31, TOP32, draw.getrandbits(32)))
        given += head(kind, offset, length, draw.getrandbits(64), flags)
        if kind == WRITE and (length <= 4096 or draw.randrange(2) == 0):
            given += draw.randbytes(min(length, 8192))
    return given


def longest(draw, own):
    """Heads with a length of ffffffff: of reads and flushes, and of a write whose payload isn't all there."""
    given = b"".join(head(draw.choice((READ, FLUSH, 9)), draw.choice((0, TOP64)), TOP32, number)
                     for number in range(draw.randrange(100)))
    return given + draw.choice((b"", head(WRITE, 0, TOP32) + draw.randbytes(draw.randrange(2000))))


def random_bytes(draw, own):
    given = draw.randbytes(draw.randrange(200))
    return draw.choice((given, given, REQUEST_MAGIC + given,
                        b"".join(REQUEST_MAGIC + draw.randbytes(24) for _ in range(draw.randrange(8)))))


def endless(draw, own):
    """Zeros, or ff, without an end, also after requests and as a payload."""
    piece = draw.choice((b"\0", b"\xff")) * (1 << 16)
    before = draw.choice((b"", b"", valid_request(draw, own)))
    length = draw.choice((0, 0, 1, 4096, 1 << 20, LONGEST if draw.randrange(8) == 0 else 1 << 16))
    if length:
        before += head(WRITE, draw.choice((1, TOP64 - 511, 1 << 40)), length, 7)
    return Endless(before, piece, length + 28)


# The kinds of streams, and how many of a hundred are of each.
KINDS = [(valid, 10), (mutated, 47), (mutated_heads, 20), (longest, 5), (random_bytes, 16), (endless, 2)]


def accesses(volume, requests):
    """The sectors that the volume reads or writes for these requests."""
    found = set()
    for flags, kind, _, offset, length, _ in requests:
        if kind != FLUSH and volume.refusal(flags, kind, offset, length) == 0:
            found.update(range(offset // SECTOR, (offset + length) // SECTOR))
    return found


class Batch:
    """The streams of one run. `is_apart` says that each client keeps to its own sectors."""

    def __init__(self, number, clients, cases):
        draw = random.Random(number)
        self.is_apart = number % 2 == 0
        self.case = cases[self.is_apart]
        volume, free = self.case.volume(), OWN * MOST_CLIENTS
        self.streams, self.taken = [], []
        while len(self.streams) < clients:
            begin = OWN * len(self.streams)
            own = range(begin, begin + OWN) if self.is_apart else range(free + (draw.randrange(4) == 0))
            make = draw.choices([kind for kind, _ in KINDS], [share for _, share in KINDS])[0]
            stream = make(draw, own)
            taken = stream.taken() if isinstance(stream, Endless) else stream
            parts = frames(taken)
            if self.is_apart and not accesses(volume, parts[0]) <= set(own):
                continue
            self.streams.append(stream)
            self.taken.append((taken, *parts))
        self.threads = ["--helpers", str(draw.randrange(9)), "--workers", "1", "--kind", "standard"]

    def ends(self):
        return [(how, len(requests), magic) for _, requests, how, magic in self.taken]

    def differences_alone(self, found, image):
        """What differs from each client alone."""
        volume, faults = self.case.volume(), []
        for client, ((taken, *_), got) in enumerate(zip(self.taken, found)):
            replies, *_ = session(volume, taken)
            faults += [f"client {client}: {fault}" for fault in differences_of_replies(got, b"".join(replies))]
        return faults + ([] if image == bytes(volume.image) else ["the container differs"])

    def differences_together(self, found, image):
        """What no history explains."""
        clients, faults = [], differences_outside(self.case, image)
        for client, ((_, requests, *_), got) in enumerate(zip(self.taken, found)):
            parsed, left = replied(requests, got)
            clients.append(parsed)
            faults += [f"client {client}: {left}"] if left else []
        events, more = events_of(clients, self.case.volume())
        if faults or more:
            return faults + more
        try:
            why = why_no_history(events, array_of(self.case, self.case.image), array_of(self.case, image))
        except ValueError:
            # a stream writes the same twice, so nobody can tell which of both was read
            return []
        return [why] if why else []


def replied(requests, got):
    """The requests with their replies, and what is wrong with these bytes."""
    parsed, at = [], 0
    for flags, kind, cookie, offset, length, payload in requests:
        request = Request(kind, offset, length, payload, flags)
        taken = got[at:at + 16]
        if len(taken) < 16 or taken[:4] != REPLY_MAGIC or struct.unpack(">Q", taken[8:])[0] != cookie:
            return parsed, f"no reply to request {len(parsed)}"
        request.begin = request.end = 0.0
        request.error = struct.unpack(">I", taken[4:8])[0]
        size = length if kind == READ and request.error == 0 else 0
        request.got = got[at + 16:at + 16 + size]
        at += 16 + size
        parsed.append(request)
    return parsed, "other bytes than its replies" if at != len(got) else ""


def one(program, folder, clients, cases, number):
    """Serves a batch: its name, what is wrong, and its memory."""
    batch = Batch(number, clients, cases)
    run, found, image = serve_all(program, folder, batch.case, batch.streams, *batch.threads)
    faults = differences(run, *endings(batch.ends()))
    if not faults:
        faults = (batch.differences_alone if batch.is_apart else batch.differences_together)(found, image)
    if run.most_memory > MOST_MEMORY_KIB:
        faults.append(f"{run.most_memory} KiB of memory")
    return f"run {number}", faults, run.most_memory


def cases():
    """What is served: by whether clients keep to their own sectors."""
    size = SECTOR * OWN * MOST_CLIENTS
    return {True: case_of("apart", size, 0, 512, 512, "outer"),
            False: case_of("protected", size + SECTOR * HIDDEN, SECTOR * HIDDEN, 512, 512, "protected")}


def check(rows, folder, numbers, clients, side_by_side):
    """Serves these batches, and gives the most memory that one took, in KiB."""
    most = 0
    with ProcessPoolExecutor(side_by_side) as pool:
        run = partial(one, rows.program, folder, clients, cases())
        for name, faults, memory in pool.map(run, numbers, chunksize=8):
            rows.note(f"fuzz: {name}", faults)
            most = max(most, memory)
    return most


def main():
    top = argparse.ArgumentParser(description=__doc__, formatter_class=argparse.RawDescriptionHelpFormatter)
    top.add_argument("program", nargs="?", default=PROGRAM)
    for name, number in [("--count", 10_000), ("--clients", MOST_CLIENTS), ("--seed", 1), ("--side-by-side", 2),
                         ("--only", None)]:
        top.add_argument(name, type=int, default=number)
    asked = top.parse_args()
    program = os.path.abspath(asked.program)
    if not os.path.isfile(program):
        sys.exit(f"{program} is missing: `rt run` in crates/vcserve builds it")
    # two seeds have no run in common, unless there are more than a million of them
    first = asked.seed * 1_000_000
    runs = range(first, first + -(-asked.count // asked.clients))
    if asked.only is not None:
        runs = range(asked.only, asked.only + 1)
    print(f"seed {asked.seed}: {len(runs)} runs of {asked.clients} clients", flush=True)
    begun = time.monotonic()
    with tempfile.TemporaryDirectory(dir="/dev/shm" if os.path.isdir("/dev/shm") else None) as folder:
        rows = Rows(program)
        most = check(rows, folder, runs, asked.clients, asked.side_by_side)
    rate = len(runs) * asked.clients / (time.monotonic() - begun)
    print(f"fuzz: {rows.rows - rows.wrong} passed, {rows.wrong} failed; {rate:.0f} streams a second, at most {most} KiB")
    return 1 if rows.wrong else 0


if __name__ == "__main__":
    sys.exit(main())
