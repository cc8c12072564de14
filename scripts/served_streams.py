"""Rows of check_serve.py: clients that send and take as they like.

Random sessions, bytes in pieces, clients that leave, streams that mean no good, and requests of 32 MiB.
"""
import os
import random
import subprocess
import threading
from concurrent.futures import ThreadPoolExecutor

from check_hidden import write
from program_rows import LIMIT, LINES, differences_left
from served_client import (Link, by_model, differences, differences_at_link, differences_of_replies, ending,
                           serve_words)
from served_model import (DISCONNECT, FLUSH, FUA, LONGEST, READ, REQUEST_MAGIC, WRITE, case_of, cases, head, reply,
                          session)

# A request of 32 MiB may be there three times, beside the program itself.
MOST_MEMORY_KIB = (3 * 32 + 16) << 10


def random_request(draw, case):
    """A request, mostly a good one."""
    sector, size = case.fields.sector, case.fields.volume
    sectors = size // sector
    first = draw.randrange(sectors)
    count = 1 + draw.randrange(min(16, sectors - first))
    offset, length, flags = first * sector, count * sector, draw.choice((0, 0, FUA))
    kind = draw.choice((READ, READ, READ, WRITE, WRITE, WRITE, FLUSH))
    cookie = draw.getrandbits(64)
    dice = draw.randrange(24)
    if dice == 0:
        flags = draw.getrandbits(16)
    elif dice == 1:
        kind = draw.choice((4, 5, 6, 255, 65535))
    elif dice == 2:
        offset += draw.choice((1, 256, 511, -1))
    elif dice == 3:
        length += draw.choice((1, 256, 511, -1, -length))
    elif dice == 4:
        offset = draw.choice((size, size - sector, size + sector, (1 << 64) - sector, draw.getrandbits(64)))
    elif dice == 5:
        length = (sectors - first + draw.randrange(3)) * sector
    elif dice == 6 and kind == READ:
        length = draw.choice((LONGEST + sector, LONGEST, 1 << 31, (1 << 32) - 1))
    offset %= 1 << 64
    return head(kind, offset, length, cookie, flags) + (draw.randbytes(length) if kind == WRITE else b"")


def random_session(draw, case):
    """The bytes of a client, which end in each way there is."""
    given = b"".join(random_request(draw, case) for _ in range(draw.randrange(24)))
    dice = draw.randrange(10)
    if dice < 4:
        return given + head(DISCONNECT, draw.getrandbits(64), 0, 0, draw.getrandbits(16)) + draw.randbytes(dice)
    if dice < 7:
        return given
    if dice == 7:
        return given[:draw.randrange(len(given) + 1)]
    if dice == 8:
        return given + head(WRITE, 0, case.fields.sector)[:draw.randrange(29)]
    return given + draw.randbytes(draw.randrange(40))


def random_sessions(rows, folder, times):
    """Many sessions against the model, replies and container to the byte."""
    made = cases()

    def one(seed):
        draw = random.Random(seed)
        case = made[seed % len(made)]
        given = random_session(draw, case)
        threads = ["--helpers", str(draw.randrange(9)), "--workers", str(1 + draw.randrange(8))]
        return f"serve: random session {seed}, {case.name}", by_model(rows.program, folder, case, given, *threads)

    with ThreadPoolExecutor(os.cpu_count()) as pool:
        for name, faults in pool.map(one, range(times)):
            rows.note(name, faults)


def pieces(rows, folder):
    """A client whose bytes come in pieces: the model's replies, whatever the pieces are."""
    case = case_of("pieces", 48 << 10, 16 << 10, 512, 512, "protected")
    draw = random.Random(1)
    given = b"".join(random_request(draw, case) for _ in range(40)) + head(DISCONNECT)
    volume = case.volume()
    replies, how, count, magic = session(volume, given)
    for is_named in (True, False):
        for length in (1, 27, 28, 29, 4096):
            link = Link(rows.program, folder, case, is_named)

            def send(link=link, length=length):
                for at in range(0, len(given), length):
                    if not link.put(given[at:at + length]):
                        return

            sender = threading.Thread(target=send)
            sender.start()
            got = link.get(sum(map(len, replies)))
            sender.join()
            done, rest, image = link.end()
            faults = differences_at_link(link, done, how, count, magic)
            faults += differences_of_replies(got + rest, b"".join(replies))
            if image != bytes(volume.image):
                faults.append("the container differs")
            way = "named pipes" if is_named else "the standard input and output"
            rows.note(f"serve: pieces of {length} bytes through {way}", faults)


def in_turn(rows, folder):
    """Each reply comes before the next request is sent, a write is in the container when its reply comes, and what
    others may do meanwhile."""
    case = case_of("in turn", 48 << 10, 0, 512, 512, "outer")
    volume = case.volume()
    link = Link(rows.program, folder, case, True)
    faults = []
    for number in range(20):
        data = bytes([number]) * 1024
        if link.ask(head(WRITE, number * 1024, 1024, number, number % 2) + data) != reply(0, number):
            faults.append(f"write {number}")
        volume.write(number * 1024, data)
        with open(link.path, "rb") as file:
            if file.read() != bytes(volume.image):
                faults.append(f"the container after write {number}")
        if link.ask(head(READ, number * 1024, 1024, number), 16 + 1024) != reply(0, number, data):
            faults.append(f"read {number}")
    rows.note("serve: one request after the other", faults)
    for name, words in [("info", ["info", link.path, *case.words]),
                        ("serve", serve_words(link.path, case.words, os.devnull, os.devnull))]:
        found = subprocess.run([rows.program, *words], capture_output=True, stdin=subprocess.DEVNULL, timeout=LIMIT)
        rows.note(f"serve: {name} of the same container meanwhile", differences(found, 7, "", LINES[7]))
    link.run.kill()
    _, _, image = link.end()
    rows.note("serve: killed, and what was replied to is in the file",
              [] if image == bytes(volume.image) else ["the container differs"])


def leaving(rows, folder):
    """A client that takes no replies any more, and files that take or give none."""
    case = case_of("leaving", 1 << 20, 0, 512, 512, "outer")
    for is_named in (True, False):
        link = Link(rows.program, folder, case, is_named)
        whole = reply(0, 1, case.volume().read(0, 1 << 19))
        faults = differences_of_replies(link.ask(head(READ, 0, 1 << 19, 1), len(whole)), whole)
        link.put(head(READ, 0, 1 << 20, 2))
        link.get(1000)
        link.close_output()
        done, _, image = link.end()
        faults += differences_at_link(link, done, "write-fault", 1)
        if image != case.image:
            faults.append("the container differs")
        rows.note(f"serve: a client leaves in the middle of a reply, named pipes: {is_named}", faults)
    path, source = os.path.join(folder, "leaving.vc"), os.path.join(folder, "leaving.in")
    write(path, case.image)
    write(source, head(FLUSH) + head(READ, 0, 512))
    for name, files, how in [
        ("a full output", [source, "/dev/full"], "write-fault"),
        ("an input that can't be read", ["/proc/self/mem", os.devnull], "read-fault"),
        ("no input, and no output", [os.devnull, os.devnull], "done"),
    ]:
        found = subprocess.run([rows.program, *serve_words(path, case.words, *files)], capture_output=True,
                               stdin=subprocess.DEVNULL, timeout=LIMIT)
        rows.note(f"serve: {name}", differences(found, *ending(how, 0)) + differences_left(path, case.image))
    # A closed stream takes the place of no file.
    for name, files, closed, status, how, count in [
        ("closed output", ["IN", "-"], 1, 12, "write-fault", 0),
        ("closed input", ["-", "/dev/null"], 0, 0, "done", 0),
    ]:
        files = [source if file == "IN" else file for file in files]
        found = subprocess.run([rows.program, *serve_words(path, case.words, *files)], stderr=subprocess.PIPE,
                               timeout=LIMIT, preexec_fn=lambda closed=closed: os.close(closed),
                               stdout=None if closed == 1 else subprocess.PIPE)
        faults = [] if found.returncode == status else [f"status {found.returncode} in place of {status}"]
        rows.note(f"serve: {name}", faults + differences_left(path, case.image))
    os.remove(path)
    os.remove(source)


def hostile(rows, folder, times):
    """Streams that mean no good. They end, and nothing of them is in the container."""
    case = case_of("hostile", 4096, 0, 512, 512, "outer")
    for name, piece, magic in [("zeros", bytes(1 << 16), bytes(4)), ("ff", b"\xff" * (1 << 16), b"\xff" * 4)]:
        link = Link(rows.program, folder, case, True)
        for _ in range(1 << 14):
            if not link.put(piece):
                break
        done, rest, image = link.end()
        faults = differences_at_link(link, done, "magic", 0, magic) + differences_of_replies(rest, b"")
        rows.note(f"serve: endless {name}", faults + ([] if image == case.image else ["the container differs"]))
    # More is asked for than there is, and more is promised than comes.
    longest = (1 << 32) - 1
    for name, given in [
        ("a read of 2^32 - 1 bytes", head(READ, 0, longest) * 1000),
        ("a write of 2^32 - 1 bytes that doesn't come", head(WRITE, 0, longest) + bytes(1 << 20)),
        ("a write of 32 MiB that doesn't come", head(WRITE, 0, LONGEST) + bytes(1 << 20)),
        ("an unknown request of 2^32 - 1 bytes", head(9, 0, longest) * 1000),
        ("flushes of 2^32 - 1 bytes", head(FLUSH, longest, longest) * 1000),
    ]:
        rows.note(f"serve: {name}", by_model(rows.program, folder, case, given))
    link = Link(rows.program, folder, case, True)
    link.put(head(WRITE, 0, longest, 1))
    left = longest
    piece = bytes(1 << 20)
    while left and link.put(piece[:left]):
        left -= min(left, 1 << 20)
    got = link.ask(head(READ, 0, 512, 2), 32 + 512)
    memory = most_memory(link.run.pid)
    done, rest, image = link.end()
    faults = differences_of_replies(got + rest, reply(22, 1) + reply(0, 2, case.volume().read(0, 512)))
    faults += differences_at_link(link, done, "done", 2) + ([] if image == case.image else ["the container differs"])
    faults += [] if memory < 32 << 10 else [f"{memory} KiB of memory"]
    rows.note("serve: a write of 2^32 - 1 bytes that comes", faults)

    def one(seed):
        draw = random.Random(seed)
        given = draw.randbytes(draw.randrange(64))
        for _ in range(draw.randrange(8)):
            # bytes behind a magic, so that they are taken for a head
            given += REQUEST_MAGIC + draw.randbytes(24)
        if seed % 2:
            given = given[given.find(REQUEST_MAGIC):] if REQUEST_MAGIC in given else b""
        return f"serve: random bytes {seed}", by_model(rows.program, folder, case, given)

    with ThreadPoolExecutor(os.cpu_count()) as pool:
        for name, faults in pool.map(one, range(times)):
            rows.note(name, faults)


def most_memory(pid):
    """The most memory that the program has had, in KiB."""
    with open(f"/proc/{pid}/status") as file:
        for line in file:
            if line.startswith("VmHWM:"):
                return int(line.split()[1])
    return 0


def large_requests(rows, folder):
    """Requests of 32 MiB and of some fragments: the data, and the memory that they take."""
    case = case_of("large", 33 << 20, 0, 512, 512, "outer")
    volume, draw = case.volume(), random.Random(2)
    link = Link(rows.program, folder, case, True)
    faults = []
    for number, (offset, length) in enumerate([(0, LONGEST), (1 << 20, LONGEST), (512, 262144), (1024, 262656),
                                               (262144, 524288), (512, (1 << 20) + 512)]):
        data = draw.randbytes(length)
        sender = threading.Thread(target=link.put, args=(head(WRITE, offset, length, number, FUA) + data,))
        sender.start()
        if link.get(16) != reply(0, number):
            faults.append(f"write {number}")
        sender.join()
        if number > 0:
            volume.write(offset, data)
        if link.ask(head(READ, offset, length, number), 16 + length) != reply(0, number, data):
            faults.append(f"read {number}")
        if number == 0:
            # what the next write leaves of it
            volume.write(0, data[:1 << 20])
    memory = most_memory(link.run.pid)
    done, rest, image = link.end()
    faults += differences_at_link(link, done, "done", 12) + differences_of_replies(rest, b"")
    faults += [] if image == bytes(volume.image) else ["the container differs"]
    rows.note("serve: requests of up to 32 MiB", faults)
    rows.note("serve: the memory of requests of 32 MiB",
              [f"{memory} KiB, more than {MOST_MEMORY_KIB}"] if memory > MOST_MEMORY_KIB else [])


def check(rows, folder, times):
    pieces(rows, folder)
    in_turn(rows, folder)
    leaving(rows, folder)
    hostile(rows, folder, times // 10)
    large_requests(rows, folder)
    random_sessions(rows, folder, times)
