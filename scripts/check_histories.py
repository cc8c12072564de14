#!/usr/bin/env python3
"""Random programs of 2 to 16 clients of `serve`, each explained by one history of a plain array.

  check_histories.py [PROGRAM] [--count N] [--killed N] [--seed N] [--side-by-side N]

PROGRAM defaults to crates/vcserve/out/vcserve. N programs run (300 if it isn't given), and 20 more whose server is
killed in the middle; --side-by-side says how many at a time, and defaults to 2. The clients are at named pipes. Some
wait for each reply, some send all they have at once. They read and write ranges of their own, the same ranges, or both,
with and without a protected hidden volume, with 0 to 8 helpers. One more program, the first, is as of daily use: three
clients of 16 MiB under a cascade without a PIM, with two helpers. Then

- each reply has the error that docs/PROTOCOL.md gives it, whatever the order of the requests;
- one history explains all replies and the container (served_history.py), also the times at which they came;
- clients with ranges of their own get what each of them gets alone, to the byte;
- of a container outside the volume, and of a hidden one that is protected, no byte changes;
- after a killed server the container opens, and each sector has what was written to it last before the end, or what a
  client wrote then whose reply hadn't come.

The first line tells the seed: the same seed makes the same programs, though threads take turns as they like. A program
that is wrong is told. The status is 1 then, 77 if the package `cryptography` is missing, and otherwise 0.
"""
import argparse
import os
import random
import subprocess
import sys
import tempfile
import threading
import time
from concurrent.futures import ThreadPoolExecutor

from check_hidden import OUTER_KEY, write
from independent_container import SECTOR, formatted, is_available
from program_rows import LIMIT, PASSWORD, Rows, info_words
from served_client import Link, differences, differences_of_replies, endings
from served_history import Event, why_no_history
from served_model import FLUSH, FUA, PERM, READ, WRITE, Case, Volume, case_of, head, opened, reply
from speed import PROGRAM

KIB = 1 << 10
# The largest part of a request that is enciphered by one thread.
FRAGMENT = 256 * KIB


class Request:
    """A request of a program, and what came of it."""

    def __init__(self, kind, offset=0, length=0, data=b"", flags=0):
        self.kind, self.offset, self.length, self.data, self.flags = kind, offset, length, data, flags
        self.begin, self.end, self.error, self.got = None, None, None, b""

    def sent(self, cookie):
        return head(self.kind, self.offset, self.length, cookie, self.flags) + self.data


class Client:
    """A client with its requests. Some wait for each reply before they send the next request."""

    def __init__(self, requests, waits):
        self.requests, self.waits, self.fault = requests, waits, None

    def run(self, pair):
        if self.waits:
            for cookie, request in enumerate(self.requests):
                self.send(pair, cookie, request)
                if not self.take(pair, cookie, request):
                    return
            return
        sender = threading.Thread(target=self.send_all, args=(pair,))
        sender.start()
        for cookie, request in enumerate(self.requests):
            if not self.take(pair, cookie, request):
                break
        sender.join()

    def send_all(self, pair):
        for cookie, request in enumerate(self.requests):
            self.send(pair, cookie, request)

    def send(self, pair, cookie, request):
        request.begin = time.monotonic()
        pair.put(request.sent(cookie))

    def take(self, pair, cookie, request):
        """Takes one reply; False if there is none."""
        got = pair.get(16)
        if len(got) < 16:
            return False
        error = int.from_bytes(got[4:8], "big")
        length = request.length if request.kind == READ and error == 0 else 0
        data = pair.get(length)
        if len(data) < length:
            return False
        if got != reply(error, cookie):
            self.fault = f"a reply {got.hex()} to request {cookie}"
            return False
        request.end, request.error, request.got = time.monotonic(), error, data
        return True


class Realistic:
    """A program as of daily use: a container of 16 MiB with a cascade and no PIM, and three clients whose 40 requests each,
    of 4 to 256 KiB, are of the same MiB of it."""

    has_own_ranges = False
    name = "three clients of a cascade, 2 helpers"
    threads = ["--helpers", "2"]
    algorithm, prf = "aes-twofish-serpent", "sha256"

    def __init__(self):
        draw = random.Random(16)
        image = formatted(16384 * KIB, PASSWORD, 0, OUTER_KEY, self.prf, self.algorithm)
        fields = opened(image, 0, PASSWORD, self.prf, self.algorithm, pim=0)
        self.case = Case(self.name, image, ["--password", PASSWORD], fields, self.algorithm)
        self.clients = [Client([self.request(draw) for _ in range(40)], waits) for waits in (True, False, False)]

    def requests(self):
        return [client.requests for client in self.clients]

    @staticmethod
    def request(draw):
        length = 4 * KIB * draw.randint(1, 64)
        offset = SECTOR * draw.randint(0, (1024 * KIB - length) // SECTOR)
        if draw.randrange(3) == 0:
            return Request(READ, offset, length)
        return Request(WRITE, offset, length, draw.randbytes(length), draw.choice((0, 0, FUA)))


class Program:
    """A random program: the container, how it is served, and the clients."""

    def __init__(self, seed):
        self.draw = draw = random.Random(seed)
        self.has_own_ranges = draw.randrange(3) == 0
        # of several fragments, so that helpers have something to do, or of a few sectors, so that clients meet
        self.size = draw.choice((16 * KIB, 64 * KIB, 64 * KIB, 256 * KIB, 1024 * KIB))
        self.is_protected = draw.randrange(2) == 0
        hidden = self.size // 4 if self.is_protected else 0
        sector = draw.choice((512, 512, 4096)) if self.size >= 256 * KIB else 512
        self.case = case_of("program", self.size, hidden, sector, sector, "protected" if hidden else "outer")
        self.sector = sector
        self.free = (self.size - hidden) // sector
        self.threads = ["--helpers", str(draw.randrange(9)), "--workers", "1", "--kind", "standard"]
        # a program in which nobody touches the hidden volume shows more of the rest
        self.is_peaceful = not self.is_protected or self.has_own_ranges or draw.randrange(3) == 0
        count = draw.choice((2, 3, 4, 4, 8, 16))
        self.clients = [Client(self.requests_of(client, count), draw.randrange(2) == 0) for client in range(count)]
        self.name = (f"program {seed}: {count} clients, {self.size >> 10} KiB, {' '.join(self.threads[:2])}"
                     + (", protected" if hidden else "") + (", ranges of their own" if self.has_own_ranges else ""))

    def requests(self):
        return [client.requests for client in self.clients]

    def requests_of(self, client, count):
        draw = self.draw
        begin, end = 0, self.free
        if self.has_own_ranges:
            begin, end = client * self.free // count, (client + 1) * self.free // count
        elif self.is_protected and not self.is_peaceful:
            # a little into the hidden volume
            end += 1
        return [self.request(begin, end) for _ in range(draw.randrange(1, 30 if self.size < FRAGMENT else 10))]

    def request(self, begin, end):
        draw, sector = self.draw, self.sector
        kind = draw.choice((READ, READ, WRITE, WRITE, WRITE, FLUSH))
        if kind == FLUSH:
            return Request(FLUSH)
        flags = draw.choice((0, 0, 0, FUA))
        first = draw.randrange(begin, end)
        most = end - first if draw.randrange(4) == 0 else min(end - first, 8)
        count = draw.randint(1, most)
        dice = draw.randrange(40)
        if dice == 0:
            # past the end of the volume
            first, count = self.size // sector - draw.randrange(2), 2
        length = count * sector - (1 if dice == 1 else 0)
        if dice == 2:
            flags = 2
        data = draw.randbytes(length) if kind == WRITE else b""
        return Request(kind, first * sector, length, data, flags)


def events_of(clients, volume):
    """The events of clients, each a list of requests, and faults of single replies."""
    events, faults = [], []
    for number, requests in enumerate(clients):
        for request in requests:
            if request.begin is None:
                continue
            error = volume.refusal(request.flags, request.kind, request.offset, request.length)
            touches = request.kind == WRITE and volume.touches(request.offset, request.length)
            if request.end is not None and request.error != error and not (
                    error == 0 and request.kind == WRITE and request.error == PERM and volume.protected):
                faults.append(f"client {number}: error {request.error} in place of {error}")
                continue
            if error or request.kind == FLUSH or (request.kind == READ and request.end is None):
                continue
            is_denied = request.error == PERM
            data = request.got if request.kind == READ else b"" if is_denied else request.data
            events.append(Event(number, request.offset // SECTOR, sectors_of(data), is_write=request.kind == WRITE,
                                is_denied=is_denied, touches=touches, begin=request.begin, end=request.end))
    return events, faults


def sectors_of(data):
    return [data[at:at + SECTOR] for at in range(0, len(data), SECTOR)]


def array_of(case, image):
    return sectors_of(Volume(image, case.fields, case.algorithm).read(0, case.fields.volume))


def differences_outside(case, image):
    """Of the bytes that no request may change."""
    begin, end = case.fields.start, case.fields.start + case.fields.volume
    if case.protected:
        end = case.protected[0]
    old = case.image
    return [] if image[:begin] == old[:begin] and image[end:] == old[end:] else ["bytes outside the volume differ"]


def differences_alone(program, image):
    """Clients with ranges of their own: what each gets alone, and the container that all leave."""
    volume, faults = program.case.volume(), []
    for number, client in enumerate(program.clients):
        for request in client.requests:
            error, data = volume.answer(request.flags, request.kind, request.offset, request.length, request.data)
            if request.error != error:
                faults.append(f"client {number}: error {request.error} in place of {error}")
            faults += [f"client {number}: {fault}" for fault in differences_of_replies(request.got, data)]
    return faults + ([] if image == bytes(volume.image) else ["the container differs"])


def run_clients(program, link, kill_at=None):
    """Runs all clients, and kills the server after so many seconds."""
    threads = [threading.Thread(target=client.run, args=(pair,)) for client, pair in zip(program.clients, link.pairs)]
    for thread in threads:
        thread.start()
    if kill_at is not None:
        time.sleep(kill_at)
        link.run.kill()
    for thread in threads:
        thread.join()


def whole_run(vcserve, folder, seed):
    return explained(vcserve, folder, Program(seed))


def explained(vcserve, folder, program):
    """One program: its name, and what is wrong."""
    case = program.case
    link = Link(vcserve, folder, case, True, *program.threads, clients=len(program.clients))
    run_clients(program, link)
    run, rests, image = link.end_all()
    ends = [("done", len(client.requests), None) for client in program.clients]
    faults = differences(run, *endings(ends))
    faults += [f"client {number}: {len(rest)} bytes too many" for number, rest in enumerate(rests) if rest]
    faults += [client.fault for client in program.clients if client.fault]
    events, more = events_of(program.requests(), case.volume())
    faults += more + differences_outside(case, image)
    if not faults:
        why = why_no_history(events, array_of(case, case.image), array_of(case, image))
        faults += [why] if why else []
    if not faults and program.has_own_ranges:
        faults += differences_alone(program, image)
    return program.name, faults


def killed_run(vcserve, folder, seed):
    """One program whose server is killed: its name, and what is wrong of the container that is left."""
    program = Program(seed)
    case = program.case
    link = Link(vcserve, folder, case, True, *program.threads, clients=len(program.clients))
    run_clients(program, link, program.draw.uniform(0.0, 0.03))
    _, _, image = link.end_all()
    events, faults = events_of(program.requests(), case.volume())
    faults += [client.fault for client in program.clients if client.fault] + differences_outside(case, image)
    with tempfile.TemporaryDirectory(dir=folder) as own:
        path = os.path.join(own, "left.vc")
        write(path, image)
        run = subprocess.run([vcserve, *info_words(path)], capture_output=True, stdin=subprocess.DEVNULL, timeout=LIMIT)
        faults += [] if run.returncode == 0 else [f"the container is left with status {run.returncode}"]
    before, after = array_of(case, case.image), array_of(case, image)
    why = why_no_history(events, before)
    faults += [why] if why else []
    faults += differences_of_sectors(events, before, after)
    answered = sum(event.end is not None for event in events)
    return f"killed after {answered} of {sum(len(client.requests) for client in program.clients)}, {program.name}", faults


def differences_of_sectors(events, before, after):
    """Each sector has what the last write of it wrote, or one that wasn't surely followed by another."""
    faults = []
    writes = {}
    for event in events:
        if event.changes():
            for sector, value in event.sectors():
                writes.setdefault(sector, []).append((event, value))
    for sector, value in enumerate(after):
        done = [event for event, _ in writes.get(sector, []) if event.end is not None]
        latest = max((event.begin for event in done), default=None)
        may = {written for event, written in writes.get(sector, [])
               if event.end is None or latest is None or event.end >= latest}
        if not done:
            may.add(before[sector])
        if value not in may:
            faults.append(f"sector {sector} isn't what was written last")
    return faults[:3]


def realistic(rows, folder):
    if not is_available(Realistic.algorithm):
        return rows.leave_out(f"history: {Realistic.name}", "libgcrypt is missing")
    name, faults = explained(rows.program, folder, Realistic())
    return rows.note(f"history: {name}", faults)


def check(rows, folder, count, killed, seed, side_by_side):
    realistic(rows, folder)
    with ThreadPoolExecutor(side_by_side) as pool:
        for run, seeds in [(whole_run, range(seed, seed + count)), (killed_run, range(seed, seed + killed))]:
            for name, faults in pool.map(lambda one, run=run: run(rows.program, folder, one), seeds):
                rows.note(f"history: {name}", faults)


def main():
    top = argparse.ArgumentParser(description=__doc__, formatter_class=argparse.RawDescriptionHelpFormatter)
    top.add_argument("program", nargs="?", default=PROGRAM)
    for name, number in [("--count", 300), ("--killed", 20), ("--seed", 1), ("--side-by-side", 2)]:
        top.add_argument(name, type=int, default=number)
    asked = top.parse_args()
    program = os.path.abspath(asked.program)
    if not os.path.isfile(program):
        sys.exit(f"{program} is missing: `rt run` in crates/vcserve builds it")
    print(f"seed {asked.seed}", flush=True)
    with tempfile.TemporaryDirectory() as folder:
        rows = Rows(program)
        check(rows, folder, asked.count, asked.killed, asked.seed, asked.side_by_side)
    print(f"histories: {rows.rows - rows.wrong} passed, {rows.wrong} failed")
    return 1 if rows.wrong else 0


if __name__ == "__main__":
    sys.exit(main())
