"""Rows of check_serve.py: several clients of one volume."""
import os
import random
import subprocess
import tempfile
import threading
import time

from check_hidden import write
from program_rows import LIMIT, LINES
from served_client import Link, differences, differences_of_replies, endings, serve_words
from served_model import FLUSH, FUA, READ, WRITE, Volume, case_of, head, reply, session

MOST_CLIENTS = 16


class Endless:
    """The bytes of a client, and a piece that follows again and again for as long as the server takes it. After so
    many bytes of it the server is to have ended the session."""

    def __init__(self, given, piece, enough):
        self.given, self.piece, self.enough = given, piece, enough

    def taken(self):
        """What a server needs to see of it."""
        return self.given + self.piece * (1 + self.enough // len(self.piece))

    def feed(self, pipe, has_ended):
        """Sends all to a named pipe, once the server has opened it."""
        while not has_ended.is_set():
            try:
                to = os.open(pipe, os.O_WRONLY | os.O_NONBLOCK)
                break
            except OSError:
                time.sleep(0.001)
        else:
            return
        os.set_blocking(to, True)
        try:
            left = memoryview(self.given)
            while True:
                left = left[os.write(to, left):] if left else memoryview(self.piece)
        except OSError:
            os.close(to)


def serve_all(program, folder, case, inputs, *more):
    """Serves clients that have these bytes in files, or endless ones at named pipes: the run, the replies of each, and
    the container. The run has the most memory that it took, in KiB, or that this process had when it began it if
    that is more."""
    with tempfile.TemporaryDirectory(dir=folder) as own:
        path = os.path.join(own, "c.vc")
        write(path, case.image)
        files = [os.path.join(own, f"{name}{number}") for number in range(len(inputs)) for name in ("in", "out")]
        has_ended, feeders = threading.Event(), []
        for file, given in zip(files[::2], inputs):
            if isinstance(given, Endless):
                os.mkfifo(file)
                feeders.append(threading.Thread(target=given.feed, args=(file, has_ended)))
            else:
                write(file, given)
        run = subprocess.Popen([program, *serve_words(path, [*case.words, *more], *files)], stdin=subprocess.DEVNULL,
                               stdout=subprocess.PIPE, stderr=subprocess.PIPE)
        watch = threading.Timer(LIMIT, run.kill)
        for thread in [watch, *feeders]:
            thread.start()
        out, line = run.stdout.read(), run.stderr.read()
        _, status, usage = os.wait4(run.pid, 0)
        run.returncode = os.waitstatus_to_exitcode(status)
        has_ended.set()
        watch.cancel()
        for thread in feeders:
            thread.join()
        run.stdout.close()
        run.stderr.close()
        done = subprocess.CompletedProcess(run.args, run.returncode, out, line)
        done.most_memory = usage.ru_maxrss
        replies = []
        for file in files[1::2]:
            replies.append(b"")
            if os.path.exists(file):
                with open(file, "rb") as got:
                    replies[-1] = got.read()
        with open(path, "rb") as file:
            return done, replies, file.read()


def differences_of_all(found, ends, replies, image):
    run, got, left = found
    faults = differences(run, *endings(ends))
    for number, (one, wanted) in enumerate(zip(got, replies)):
        faults += [f"client {number}: {fault}" for fault in differences_of_replies(one, wanted)]
    return faults + ([] if left == image else ["the container differs"])


def apart(rows, folder):
    """Clients with sectors of their own: each gets what it gets alone."""
    case = case_of("apart", 16 * 8192, 0, 512, 512, "outer")
    for count in (2, 3, MOST_CLIENTS):
        draw, volume = random.Random(count), case.volume()
        inputs, ends, replies = [], [], []
        for client in range(count):
            given = b""
            for number in range(10):
                first, length = 8192 * client + 512 * draw.randrange(8), 512 * (1 + draw.randrange(8))
                kind, flags = draw.choice((READ, WRITE, WRITE)), draw.choice((0, 0, FUA))
                given += head(kind, first, length, number, flags)
                given += draw.randbytes(length) if kind == WRITE else b""
            # each third one is cut, and each fifth one ends with another magic
            given += head(FLUSH)[:27] if client % 3 == 1 else b"\x25\x60\x95\x14" if client % 5 == 2 else b""
            got, how, answered, magic = session(volume, given)
            inputs.append(given)
            ends.append((how, answered, magic))
            replies.append(b"".join(got))
        found = serve_all(rows.program, folder, case, inputs)
        rows.note(f"serve: {count} clients", differences_of_all(found, ends, replies, bytes(volume.image)))
    found, _, left = serve_all(rows.program, folder, case, [b""] * (MOST_CLIENTS + 1))
    rows.note("serve: 17 clients", differences(found, 2, "", LINES[2]) + ([] if left == case.image else ["it changes"]))


def side_by_side(rows, folder):
    """Two clients in turn: what one has written the other reads, and what one has spoilt the other may not write."""
    case = case_of("side by side", 48 << 10, 16 << 10, 512, 512, "protected")
    volume = case.volume()
    link = Link(rows.program, folder, case, True, clients=2)
    faults = []
    for number in range(20):
        writer, reader = link.pairs[number % 2], link.pairs[1 - number % 2]
        data = bytes([number]) * 2048
        if writer.ask(head(WRITE, 512 * number, 2048, number) + data) != reply(0, number):
            faults.append(f"write {number}")
        if reader.ask(head(READ, 512 * number, 2048, number), 16 + 2048) != reply(0, number, data):
            faults.append(f"read {number}")
        volume.write(512 * number, data)
    first, second = link.pairs
    for name, pair, request, wanted in [
        ("a protected write", first, head(WRITE, 40 << 10, 512, 1) + bytes(512), reply(1, 1)),
        ("the other client's write", second, head(WRITE, 0, 512, 2) + bytes(512), reply(1, 2)),
        ("its own write", first, head(WRITE, 0, 512, 3) + bytes(512), reply(1, 3)),
        ("a flush", second, head(FLUSH, cookie=4), reply(0, 4)),
    ]:
        if pair.ask(request) != wanted:
            faults.append(name)
    # One has ended, and the other goes on.
    first.close_input()
    if second.ask(head(READ, 0, 512, 5), 16 + 512) != reply(0, 5, volume.read(0, 512)):
        faults.append("a read after the other client has ended")
    found = link.end_all()
    faults += differences_of_all(found, [("done", 22, None), ("done", 23, None)], [b"", b""], bytes(volume.image))
    rows.note("serve: two clients in turn", faults)


def on_the_same_sectors(rows, folder, rounds=40):
    """One client writes sectors of two fragments at a time, and the others read them meanwhile: all old or all new."""
    case = case_of("same sectors", 1 << 20, 0, 512, 512, "outer")
    volume, clients, length = case.volume(), 4, 786432
    link = Link(rows.program, folder, case, True, clients=clients)
    faults = []

    def write_all(pair):
        for number in range(rounds):
            data = bytes([number]) * length
            sender = threading.Thread(target=pair.put, args=(head(WRITE, 0, length, number) + data,))
            sender.start()
            if pair.get(16) != reply(0, number):
                faults.append(f"write {number}")
            sender.join()

    def read_all(pair):
        last = -1
        for number in range(2 * rounds):
            # the last sector of a fragment and the first one of the next
            got = pair.ask(head(READ, 511 * 512, 1024, number), 16 + 1024)[16:]
            if last >= 0 or got != old:
                if got[:1] * 1024 != got or got[0] < last:
                    faults.append(f"read {number} is of two writes, or of one before the last read")
                    return
                last = got[0]

    old = volume.read(511 * 512, 1024)
    threads = [threading.Thread(target=write_all, args=(link.pairs[0],))]
    threads += [threading.Thread(target=read_all, args=(pair,)) for pair in link.pairs[1:]]
    for thread in threads:
        thread.start()
    for thread in threads:
        thread.join()
    volume.write(0, bytes([rounds - 1]) * length)
    found = link.end_all()
    if not faults:
        ends = [("done", rounds, None)] + [("done", 2 * rounds, None)] * (clients - 1)
        faults += differences_of_all(found, ends, [b""] * clients, bytes(volume.image))
    rows.note("serve: clients on the same sectors", faults)


def overlapping(rows, folder, times):
    """Clients that write as they like: each sector is at the end what some client wrote last, or as it was."""
    case = case_of("overlapping", 64 << 10, 0, 512, 512, "outer")
    for seed in range(times):
        draw, volume = random.Random(seed), case.volume()
        old = volume.read(0, 64 << 10)
        may = [{old[512 * i:512 * i + 512]} for i in range(128)]
        inputs, ends = [], []
        for client in range(2 + seed % 4):
            given, last = b"", {}
            for number in range(12):
                first, count = draw.randrange(128), 1 + draw.randrange(24)
                count = min(count, 128 - first)
                data = draw.randbytes(512 * count)
                given += head(WRITE, 512 * first, 512 * count, number) + data
                last.update({first + i: data[512 * i:512 * i + 512] for i in range(count)})
            for i, sector in last.items():
                may[i].discard(old[512 * i:512 * i + 512])
                may[i].add(sector)
            inputs.append(given)
            ends.append(("done", 12, None))
        run, replies, image = serve_all(rows.program, folder, case, inputs)
        faults = differences(run, *endings(ends))
        if any(got != b"".join(reply(0, number) for number in range(12)) for got in replies):
            faults.append("a write wasn't done")
        left = Volume(image, case.fields, case.algorithm).read(0, 64 << 10)
        faults += [f"sector {i}" for i in range(128) if left[512 * i:512 * i + 512] not in may[i]]
        rows.note(f"serve: overlapping writes {seed}", faults)


def check(rows, folder, times):
    apart(rows, folder)
    side_by_side(rows, folder)
    on_the_same_sectors(rows, folder)
    overlapping(rows, folder, times)
