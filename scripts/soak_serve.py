#!/usr/bin/env python3
"""Serves one container to random clients for minutes, run after run of the server, and kills some of the clients.

  soak_serve.py [PROGRAM] [--minutes N] [--seconds-a-run N] [--clients N] [--seed N]

PROGRAM defaults to crates/vcserve/out/vcserve. The container has 64 MiB and a hidden volume of 8 MiB at its end, which is
protected; both last for all runs. A run has 8 clients, or --clients, each a process of its own with a range of its own, and
0 to 8 helpers. Clients read and write from one sector to several fragments, and compare each read with what they wrote
last, also in earlier runs. In each run up to three clients are killed; they begin again with the next one. In every third
run a client writes to the hidden volume: from then on no write may be done.

After each run

- the server's printed lines and its status are those of the clients' ends, to the number of replies;
- each sector of the container deciphers to what its client knows, by a program of its own. A write without a reply
  was done as a whole or not at all;
- the hidden volume, the headers and all that no client wrote to have the bytes that they had before;
- the server's memory isn't more than that of the first runs, by a quarter and 4 MiB.

The first line tells the seed. What is wrong is told, and ends the soak with status 1. The status is 77 if the package
`cryptography` is missing, and otherwise 0.
"""
import argparse
import hashlib
import mmap
import multiprocessing
import os
import random
import re
import signal
import struct
import subprocess
import sys
import tempfile
import time

from check_hidden import write
from independent_container import GROUP, decipher
from program_rows import LIMIT
from served_client import endings, serve_words
from served_model import DISCONNECT, FLUSH, FUA, PERM, READ, WRITE, case_of, head, reply
from served_streams import most_memory
from speed import PROGRAM

MIB = 1 << 20
SECTOR = 512
CONTAINER, HIDDEN = 64 * MIB, 8 * MIB
# the runs whose memory is the measure for the others
FIRST_RUNS = 3


class Diary:
    """What a client knows, in a file that outlasts its process: the version of each of its sectors, and the write that
    it waits for. Times are those of the last write that was begun and done, and of a denied one."""

    # is open, first, count, version; replies, has opened its files; times
    HEAD = struct.Struct("<QQQQQQdd")

    def __init__(self, path, sectors):
        self.sectors, self.size = sectors, self.HEAD.size + 8 * sectors
        if not os.path.exists(path):
            write(path, bytes(self.size))
        with open(path, "r+b") as file:
            self.map = mmap.mmap(file.fileno(), self.size)

    def head(self):
        return list(self.HEAD.unpack(self.map[:self.HEAD.size]))

    def note(self, **changed):
        names = ["is_open", "first", "count", "version", "replies", "is_ready", "done_at", "denied_at"]
        fields = self.head()
        for name, value in changed.items():
            fields[names.index(name)] = value
        self.map[:self.HEAD.size] = self.HEAD.pack(*fields)

    def versions(self, first, count):
        at = self.HEAD.size + 8 * first
        return struct.unpack(f"<{count}Q", self.map[at:at + 8 * count])

    def set_version(self, first, count, version):
        at = self.HEAD.size + 8 * first
        self.map[at:at + 8 * count] = struct.pack("<Q", version) * count


class Place:
    """What all runs have in common."""

    def __init__(self, folder, clients):
        self.folder, self.clients = folder, clients
        self.case = case_of("soak", CONTAINER - 2 * GROUP, HIDDEN, SECTOR, SECTOR, "protected")
        self.container = os.path.join(folder, "soak.vc")
        write(self.container, self.case.image)
        self.free = (self.case.fields.volume - HIDDEN) // SECTOR
        self.own = self.free // clients
        # what the volume holds before all runs
        self.plain = os.path.join(folder, "plain")
        write(self.plain, self.deciphered(self.case.image, 0, self.free))

    def deciphered(self, image, first, count):
        unit = self.case.fields.start // SECTOR + first
        return b"".join(decipher(self.case.fields.material, i, image[i * SECTOR:(i + 1) * SECTOR])
                        for i in range(unit, unit + count))

    def diary(self, client):
        return Diary(os.path.join(self.folder, f"diary{client}"), self.own)

    def pipes(self, client):
        return [os.path.join(self.folder, f"{name}{client}") for name in ("in", "out")]


def content(plain, sector, version):
    """What a sector of the volume holds in a version."""
    if version == 0:
        return plain[sector * SECTOR:(sector + 1) * SECTOR]
    return hashlib.shake_128(struct.pack("<QQ", sector, version)).digest(SECTOR)


class Wrong(Exception):
    """What a client has seen that it may not see."""


class Client:
    """A client's process: requests at random in its own range, each waited for, until it is told to stop."""

    def __init__(self, place, number, run, seed, offends, may_freeze, stop):
        self.place, self.number, self.run, self.stop = place, number, run, stop
        self.draw = random.Random(seed)
        self.offends, self.may_freeze, self.is_frozen = offends, may_freeze, False
        self.base = number * place.own
        self.diary = place.diary(number)
        self.asked = 0
        with open(place.plain, "rb") as file:
            self.plain = mmap.mmap(file.fileno(), 0, access=mmap.ACCESS_READ)

    def work(self):
        to, of = self.place.pipes(self.number)
        with open(to, "wb", buffering=0) as self.to, open(of, "rb") as self.of:
            self.diary.note(is_ready=1)
            while not self.stop.is_set():
                kind = self.draw.choice((READ, READ, READ, WRITE, WRITE, WRITE, FLUSH))
                if self.offends and self.asked > 50 and self.draw.randrange(20) == 0:
                    self.offend()
                {READ: self.read, WRITE: self.write, FLUSH: self.flush}[kind]()
            self.put(head(DISCONNECT))

    def put(self, given):
        given = memoryview(given)
        while given:
            given = given[self.to.write(given):]

    def ask(self, kind, first, count, data=b"", flags=0):
        """Makes a request of sectors of the volume, and gives the error of its reply and the data."""
        self.asked += 1
        self.put(head(kind, first * SECTOR, count * SECTOR, self.asked, flags) + data)
        got = self.of.read(16)
        error = int.from_bytes(got[4:8], "big")
        if got != reply(error, self.asked):
            raise Wrong(f"the reply {got.hex()} to request {self.asked}")
        read = self.of.read(count * SECTOR if kind == READ and error == 0 else 0)
        self.diary.note(replies=self.asked)
        return error, read

    def sectors(self):
        """Some sectors of its own, mostly few."""
        first = self.draw.randrange(self.place.own)
        most = self.draw.choice((1, 8, 8, 16, 128, 2048))
        return first, self.draw.randint(1, min(most, self.place.own - first))

    def read(self):
        first, count = self.sectors()
        error, data = self.ask(READ, self.base + first, count)
        wanted = b"".join(content(self.plain, self.base + first + i, version)
                          for i, version in enumerate(self.diary.versions(first, count)))
        if error or data != wanted:
            raise Wrong(f"a read of {count} sectors from {first}: error {error}, other data than was written")

    def write(self):
        first, count = self.sectors()
        version = self.run << 32 | self.asked + 1
        data = b"".join(content(self.plain, self.base + first + i, version) for i in range(count))
        self.diary.note(is_open=1, first=first, count=count, version=version)
        begun = time.monotonic()
        error, _ = self.ask(WRITE, self.base + first, count, data, self.draw.choice((0, 0, 0, FUA)))
        if error == 0:
            self.diary.set_version(first, count, version)
            self.diary.note(is_open=0, done_at=begun)
            if self.is_frozen:
                raise Wrong("a write is done after one was denied")
        else:
            self.diary.note(is_open=0)
            self.is_frozen = True
            if error != PERM or not self.may_freeze:
                raise Wrong(f"a write of {count} sectors from {first}: error {error}")

    def flush(self):
        if self.ask(FLUSH, 0, 0)[0]:
            raise Wrong("a flush failed")

    def offend(self):
        """A write that touches the hidden volume."""
        first = self.place.free - self.draw.randrange(2)
        error, _ = self.ask(WRITE, first, 2, self.draw.randbytes(2 * SECTOR))
        if error != PERM:
            raise Wrong(f"a write to the hidden volume: error {error}")
        self.is_frozen = True
        if not self.diary.head()[-1]:
            self.diary.note(denied_at=time.monotonic())


def client_process(*words):
    signal.signal(signal.SIGINT, signal.SIG_IGN)
    client = Client(*words)
    try:
        client.work()
    except (Wrong, OSError) as why:
        print(f"wrong: client {client.number}: {why}", flush=True)
        os._exit(1)
    os._exit(0)


class Run:
    """One run of the server with all clients."""

    def __init__(self, program, place, number, draw):
        self.place, self.number = place, number
        self.helpers = draw.randrange(9)
        offender = draw.randrange(place.clients) if number % 3 == 2 else None
        self.may_freeze = offender is not None
        self.stop = multiprocessing.Event()
        for client in range(place.clients):
            place.diary(client).note(is_open=0, replies=0, is_ready=0, done_at=0.0, denied_at=0.0)
        files = [pipe for client in range(place.clients) for pipe in place.pipes(client)]
        words = serve_words(place.container, [*place.case.words, "--helpers", str(self.helpers)], *files)
        self.server = subprocess.Popen([program, *words], stdin=subprocess.DEVNULL, stdout=subprocess.PIPE,
                                       stderr=subprocess.PIPE)
        self.clients = [multiprocessing.Process(target=client_process, args=(
            place, client, number, draw.getrandbits(64), client == offender, self.may_freeze, self.stop))
            for client in range(place.clients)]
        self.killed, self.memory = [], 0
        for client in self.clients:
            client.start()

    def go_on(self, seconds, draw):
        """Lets the clients work, and kills some of them: what is wrong."""
        begun = time.monotonic()
        while not all(self.place.diary(client).head()[5] for client in range(self.place.clients)):
            if self.server.poll() is not None or time.monotonic() - begun > LIMIT:
                return ["the server doesn't open its clients' files"]
            time.sleep(0.01)
        moments = sorted(draw.uniform(0, seconds) for _ in range(draw.randrange(4)))
        begun = time.monotonic()
        for moment in moments:
            time.sleep(max(0, begun + moment - time.monotonic()))
            victim = draw.randrange(self.place.clients)
            if victim not in self.killed:
                self.killed.append(victim)
                self.clients[victim].kill()
        time.sleep(max(0, begun + seconds - time.monotonic()))
        self.memory = most_memory(self.server.pid)
        self.stop.set()
        for client in self.clients:
            client.join(LIMIT)
        faults = [f"client {number} doesn't end" for number, client in enumerate(self.clients) if client.is_alive()]
        faults += [f"client {number} went wrong" for number, client in enumerate(self.clients) if client.exitcode == 1]
        return faults

    def end(self):
        """Waits for the server: what is wrong with its status and its lines."""
        try:
            out, line = self.server.communicate(timeout=LIMIT)
        except subprocess.TimeoutExpired:
            return ["the server doesn't end"]
        found = re.findall(r"client (\d+) (\S+) (\d+)\n", out.decode())
        ends = [(how, int(count), None) for _, how, count in found]
        if len(ends) != self.place.clients:
            return [f"output {out!r}, standard error {line!r}, status {self.server.returncode}"]
        faults = []
        status, wanted, wanted_line = endings(ends)
        if (self.server.returncode, out.decode(), line.decode()) != (status, wanted, wanted_line):
            faults.append(f"output {out!r}, standard error {line!r}, status {self.server.returncode}")
        for client, (how, count, _) in enumerate(ends):
            replies = self.place.diary(client).head()[4]
            if client in self.killed:
                # the last replies went to a pipe that nobody reads
                is_right = how in ("done", "cut", "write-fault") and replies <= count <= replies + 1
            else:
                is_right = how == "done" and count == replies
            if not is_right:
                faults.append(f"client {client} ends {how} after {count} replies, of which it has {replies}")
        denied = [at for client in range(self.place.clients) if (at := self.place.diary(client).head()[-1])]
        for client in range(self.place.clients):
            if denied and self.place.diary(client).head()[6] > min(denied):
                faults.append(f"client {client} began a write after one was denied, and it was done")
        return faults

    def differences(self, before):
        """What is wrong with the container after the run. A write without a reply is settled here."""
        with open(self.place.container, "rb") as file:
            image = file.read()
        start, faults = self.place.case.fields.start, []
        with open(self.place.plain, "rb") as file:
            plain = mmap.mmap(file.fileno(), 0, access=mmap.ACCESS_READ)
        for client in range(self.place.clients):
            diary, base = self.place.diary(client), client * self.place.own
            is_open, first, count, version = diary.head()[:4]
            if is_open:
                found = self.place.deciphered(image, base + first, count)
                if found == b"".join(content(plain, base + first + i, version) for i in range(count)):
                    diary.set_version(first, count, version)
            for sector, version in enumerate(diary.versions(0, self.place.own), base):
                at = start + sector * SECTOR
                if image[at:at + SECTOR] == before[at:at + SECTOR] and version >> 32 != self.number:
                    continue
                if self.place.deciphered(image, sector, 1) != content(plain, sector, version):
                    faults.append(f"client {client}: sector {sector - base} isn't what was written to it last")
        end = start + self.place.own * self.place.clients * SECTOR
        if image[:start] != before[:start] or image[end:] != before[end:]:
            faults.append("the hidden volume or a header has changed")
        return faults[:5], image

    def close(self):
        for client in self.clients:
            client.kill()
        self.server.kill()
        self.server.communicate()


def soak(program, place, minutes, seconds, seed):
    """Runs one server after the other: whether all went well."""
    draw, image, memories, number = random.Random(seed), place.case.image, [], 0
    for client in range(place.clients):
        for pipe in place.pipes(client):
            os.mkfifo(pipe)
    deadline = time.monotonic() + 60 * minutes
    while time.monotonic() < deadline:
        number += 1
        run = Run(program, place, number, draw)
        try:
            faults = run.go_on(min(seconds, max(1, deadline - time.monotonic())), draw) or run.end()
        finally:
            run.close()
        if not faults:
            faults, image = run.differences(image)
        memories.append(run.memory)
        most = max(memories[:FIRST_RUNS]) * 5 // 4 + 4096
        if run.memory > most:
            faults.append(f"{run.memory} KiB of memory, the first runs had {max(memories[:FIRST_RUNS])}")
        replies = sum(place.diary(client).head()[4] for client in range(place.clients))
        print(f"run {number}: {replies} replies, {len(run.killed)} clients killed, {run.helpers} helpers, "
              f"{run.memory} KiB{', one write denied' if run.may_freeze else ''}", flush=True)
        for fault in faults:
            print(f"wrong: run {number}: {fault}", flush=True)
        if faults:
            return False
    return True


def main():
    top = argparse.ArgumentParser(description=__doc__, formatter_class=argparse.RawDescriptionHelpFormatter)
    top.add_argument("program", nargs="?", default=PROGRAM)
    top.add_argument("--minutes", type=float, default=3)
    for name, number in [("--seconds-a-run", 8), ("--clients", 8), ("--seed", 1)]:
        top.add_argument(name, type=int, default=number)
    asked = top.parse_args()
    program = os.path.abspath(asked.program)
    if not os.path.isfile(program):
        sys.exit(f"{program} is missing: `rt run` in crates/vcserve builds it")
    print(f"seed {asked.seed}", flush=True)
    with tempfile.TemporaryDirectory() as folder:
        place = Place(folder, asked.clients)
        return 0 if soak(program, place, asked.minutes, asked.seconds_a_run, asked.seed) else 1


if __name__ == "__main__":
    sys.exit(main())
