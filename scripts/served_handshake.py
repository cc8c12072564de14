"""Rows of check_serve.py: the fixed newstyle handshake, by a model of it and by a client of our own.

Both know it from docs/PROTOCOL.md, "The handshake". The model says of any bytes of a client what the server replies to
them; the client does what a usual one does, and asks first for what the server doesn't have.
"""
import os
import random
import struct
import subprocess

from check_hidden import write
from program_rows import LIMIT
from served_client import Link, differences, endings, serve_words
from served_model import DISCONNECT, FLUSH, READ, WRITE, case_of, head, reply, session

GREETING = bytes.fromhex("4e42444d41474943 49484156454f5054 0003".replace(" ", ""))
OPTION_MAGIC = b"IHAVEOPT"
REPLY_MAGIC = bytes.fromhex("0003e889045565a9")
FIXED_NEWSTYLE, NO_ZEROES = 1, 2
EXPORT_NAME, ABORT, LIST, START_TLS, INFO, GO, STRUCTURED_REPLY = 1, 2, 3, 5, 6, 7, 8
ACK, SERVER, INFORMATION, UNSUPPORTED, INVALID, UNKNOWN = 1, 2, 3, 0x80000001, 0x80000003, 0x80000006
# has flags, sends flush, sends FUA
EXPORT_FLAGS = 13
MOST_OPTIONS = 1024


def option(number, data=b"", magic=OPTION_MAGIC):
    return magic + struct.pack(">II", number, len(data)) + data


def asked(name=b"", kinds=(), length=None):
    """The data of options 6 and 7; the length of the name may be another than it has."""
    length = len(name) if length is None else length
    return struct.pack(">I", length) + name + struct.pack(f">H{len(kinds)}H", len(kinds), *kinds)


def option_reply(number, kind, data=b""):
    return REPLY_MAGIC + struct.pack(">III", number, kind, len(data)) + data


def asked_name(data):
    """The name in the data of options 6 and 7; None if it isn't well formed."""
    if len(data) < 6:
        return None
    length = struct.unpack(">I", data[:4])[0]
    if len(data) < 6 + length:
        return None
    count = struct.unpack(">H", data[4 + length:6 + length])[0]
    return data[4:4 + length] if len(data) == 6 + length + 2 * count else None


def answer(number, data, size):
    """The replies to an option but the first one, and what comes then."""
    if number == ABORT:
        return option_reply(number, ACK), "aborted"
    if number == LIST:
        if data:
            return option_reply(number, INVALID), "next"
        return option_reply(number, SERVER, bytes(4)) + option_reply(number, ACK), "next"
    if number in (INFO, GO):
        name = asked_name(data)
        if name is None:
            return option_reply(number, INVALID), "next"
        if name:
            return option_reply(number, UNKNOWN), "next"
        shown = option_reply(number, INFORMATION, struct.pack(">HQH", 0, size, EXPORT_FLAGS))
        return shown + option_reply(number, ACK), "go" if number == GO else "next"
    return option_reply(number, UNSUPPORTED), "next"


def handshake(size, given):
    """What a server sends to a client with these bytes, how the handshake ends, and the rest of the bytes."""
    sent = GREETING
    if len(given) < 4:
        return sent, "cut", b""
    flags = struct.unpack(">I", given[:4])[0]
    if flags & ~(FIXED_NEWSTYLE | NO_ZEROES):
        return sent, "refused", b""
    at = 4
    for _ in range(MOST_OPTIONS):
        magic = given[at:at + 8]
        if len(magic) < 8:
            return sent, "cut", b""
        if magic != OPTION_MAGIC:
            return sent, "refused", b""
        if len(given) < at + 16:
            return sent, "cut", b""
        number, length = struct.unpack(">II", given[at + 8:at + 16])
        at += 16
        if number == EXPORT_NAME:
            if length:
                return sent, "refused", b""
            zeros = b"" if flags & NO_ZEROES else bytes(124)
            return sent + struct.pack(">QH", size, EXPORT_FLAGS) + zeros, "go", given[at:]
        data = given[at:at + length]
        at += length
        if len(data) < length:
            return sent, "cut", b""
        replies, then = answer(number, data, size)
        sent += replies
        if then != "next":
            return sent, then, given[at:]
    return sent, "refused", b""


def served(volume, given):
    """All that a client with these bytes gets: its bytes, how it ends, its replies, and four bytes of a bad magic."""
    sent, then, rest = handshake(volume.size, given)
    if then != "go":
        return sent, then, 0, None
    replies, how, count, magic = session(volume, rest)
    return sent + b"".join(replies), how, count, magic


class Unexpected(Exception):
    """What the server sent in place of what a client may expect."""


class NewstyleClient:
    """A client by two functions: one sends bytes, the other takes so many."""

    def __init__(self, put, get):
        self.put, self.get, self.cookie = put, get, 0

    def take(self, wanted, what):
        got = self.get(len(wanted))
        if got != wanted:
            raise Unexpected(f"{what}: {got.hex()} in place of {wanted.hex()}")

    def ask_option(self, number, data=b""):
        """Asks one option, and gives its replies, each with its type and data."""
        self.put(option(number, data))
        found = []
        while not found or found[-1][0] in (SERVER, INFORMATION):
            got = self.get(20)
            if got[:8] != REPLY_MAGIC or struct.unpack(">I", got[8:12])[0] != number:
                raise Unexpected(f"reply {got.hex()} to option {number}")
            kind, length = struct.unpack(">II", got[12:20])
            found.append((kind, self.get(length)))
        return found

    def begin(self, by=GO):
        """The handshake of a usual client: TLS, structured replies, metadata contexts and extended headers first, which this
        server doesn't have. Gives the size of the export."""
        self.take(GREETING, "greeting")
        self.put(struct.pack(">I", FIXED_NEWSTYLE | NO_ZEROES))
        for number in (START_TLS, STRUCTURED_REPLY, 9, 10, 11, 0xffffffff):
            if self.ask_option(number) != [(UNSUPPORTED, b"")]:
                raise Unexpected(f"option {number} is supported")
        if self.ask_option(LIST) != [(SERVER, bytes(4)), (ACK, b"")]:
            raise Unexpected("the list of exports")
        if self.ask_option(INFO, asked(b"other")) != [(UNKNOWN, b"")]:
            raise Unexpected("an export of another name is known")
        if by == EXPORT_NAME:
            self.put(option(EXPORT_NAME))
            size, flags = struct.unpack(">QH", self.get(10))
        else:
            shown = self.ask_option(INFO, asked(kinds=(3,)))
            if self.ask_option(GO, asked(kinds=(1, 3))) != shown or [kind for kind, _ in shown] != [INFORMATION, ACK]:
                raise Unexpected(f"options 6 and 7 show {shown}")
            _, size, flags = struct.unpack(">HQH", shown[0][1])
        if flags != EXPORT_FLAGS:
            raise Unexpected(f"export flags {flags}")
        return size

    def request(self, kind, offset=0, length=0, data=b"", flags=0):
        """One request that the server does: the data that it reads."""
        self.cookie += 1
        self.put(head(kind, offset, length, self.cookie, flags) + data)
        self.take(reply(0, self.cookie), f"request {self.cookie}")
        return self.get(length) if kind == READ else b""

    def end(self):
        self.put(head(DISCONNECT))


def has_handshake(program):
    """Whether `serve` knows --handshake: then a container that is missing is told in place of a bad line."""
    words = ["serve", "/nowhere/c.vc", "--password", "x", "--handshake", "--", os.devnull, os.devnull]
    return subprocess.run([program, *words], capture_output=True, stdin=subprocess.DEVNULL, timeout=LIMIT).returncode == 7


# By how a handshake ended that no session follows: the status, and the line of the standard error.
HAND_TEXTS = {
    "refused": (13, "vcserve: client {client}: handshake refused\n"),
    "cut": (10, "vcserve: client {client}: input ends inside a request\n"),
}


def differences_of_end(run, ends):
    """Of clients that end so; the first one that doesn't end well gives the status."""
    printed = "".join(f"client {client} {how} {count}\n" for client, (how, count, _) in enumerate(ends))
    for client, (how, _, _) in enumerate(ends):
        if how in HAND_TEXTS:
            status, line = HAND_TEXTS[how]
            return differences(run, status, printed, line.format(client=client))
        if how not in ("done", "aborted"):
            break
    status, _, line = endings([("done" if how == "aborted" else how, count, magic) for how, count, magic in ends])
    return differences(run, status, printed, line)


def random_option(draw):
    dice = draw.randrange(12)
    if dice < 3:
        return option(draw.choice((INFO, GO, GO)), asked(kinds=[draw.getrandbits(16) for _ in range(draw.randrange(4))]))
    if dice == 3:
        return option(draw.choice((INFO, GO)), asked(draw.randbytes(draw.randrange(9))))
    if dice == 4:
        return option(draw.choice((INFO, GO)), asked(b"name", (1,), draw.choice((0, 1, 3, 5, 1 << 31))))
    if dice == 5:
        return option(draw.choice((INFO, GO)), draw.randbytes(draw.randrange(12)))
    if dice == 6:
        return option(draw.choice((EXPORT_NAME, EXPORT_NAME, ABORT)), draw.choice((b"", b"", b"x")))
    if dice == 7:
        return option(LIST, draw.choice((b"", b"\0", b"name")))
    if dice == 8:
        return option(draw.getrandbits(32), draw.randbytes(draw.randrange(100)))
    if dice == 9 and draw.randrange(4) == 0:
        return option(LIST, magic=draw.randbytes(8))
    if dice == 10:
        return option(draw.choice((4, START_TLS, STRUCTURED_REPLY, 9, 10)), bytes(draw.choice((0, 1, 4096, 100_000))))
    return option(LIST)


def random_client(draw):
    """The bytes of a client: options, and then requests, even if the options lead to no session."""
    flags = draw.choice((0, 1, 2, 3, 3, 3, 3, 3, 4, 1 << 31))
    given = struct.pack(">I", flags) + b"".join(random_option(draw) for _ in range(draw.randrange(8)))
    given += draw.choice((b"", option(GO, asked()), option(GO, asked()), option(EXPORT_NAME)))
    given += head(READ, 0, 512, 1) + head(WRITE, 512, 512, 2) + draw.randbytes(512) + head(FLUSH, cookie=3)
    return given if draw.randrange(4) else given[:draw.randrange(len(given))]


def by_hand(size):
    """Clients with what they get, from the table."""
    first, shown = head(READ, 0, 512, 1), struct.pack(">HQH", 0, size, 13)
    go = option_reply(7, 3, shown) + option_reply(7, 1)
    one = struct.pack(">I", 3)
    return [
        ("no byte", b"", GREETING, "cut"),
        ("three bytes of the flags", one[:3], GREETING, "cut"),
        ("an unknown flag", struct.pack(">I", 4) + option(LIST), GREETING, "refused"),
        ("flags alone", one, GREETING, "cut"),
        ("option 7", one + option(7, bytes(6)), GREETING + go, "done"),
        ("option 7 with its last byte missing", one + option(7, bytes(6))[:-1], GREETING, "cut"),
        ("option 1 without zeros", one + option(1), GREETING + shown[2:], "done"),
        ("option 1 with zeros", struct.pack(">I", 1) + option(1), GREETING + shown[2:] + bytes(124), "done"),
        ("option 1 with a name", one + option(1, b"x"), GREETING, "refused"),
        ("options 8, 3 and 2", one + option(8) + option(3) + option(2) + first,
         GREETING + option_reply(8, 0x80000001) + option_reply(3, 2, bytes(4)) + option_reply(3, 1) + option_reply(2, 1),
         "aborted"),
        ("an old client's magic", one + bytes.fromhex("00420281861253") + b"\0" * 9, GREETING, "refused"),
        ("a request in place of an option", one + first, GREETING, "refused"),
        ("1,024 options", one + option(9) * 1024 + option(7, bytes(6)),
         GREETING + option_reply(9, 0x80000001) * 1024, "refused"),
        ("1,023 options and option 7", one + option(9) * 1023 + option(7, bytes(6)),
         GREETING + option_reply(9, 0x80000001) * 1023 + go, "done"),
    ]


def by_files(rows, folder, case, inputs):
    """Serves clients that have these bytes in files: the run, what each gets, and the container."""
    path = os.path.join(folder, "hand.vc")
    files = [os.path.join(folder, f"hand{client}.{name}") for client in range(len(inputs)) for name in ("in", "out")]
    for file, given in zip([path, *files[::2]], [case.image, *inputs]):
        write(file, given)
    run = subprocess.run([rows.program, *serve_words(path, [*case.words, "--handshake"], *files)], capture_output=True,
                         stdin=subprocess.DEVNULL, timeout=LIMIT)
    found = []
    for file in [*files[1::2], path]:
        with open(file, "rb") as taken:
            found.append(taken.read())
    for file in [path, *files]:
        os.remove(file)
    return run, found[:-1], found[-1]


def check(rows, folder, times):
    if not has_handshake(rows.program):
        return rows.leave_out("serve: the handshake", "the program has no --handshake")
    case = case_of("handshake", 48 << 10, 0, 512, 512, "outer")
    for name, given, wanted, how in by_hand(case.fields.volume):
        if handshake(case.fields.volume, given)[0] != wanted:
            rows.note(f"handshake: {name}: the model", ["it is wrong"])
        run, (found,), image = by_files(rows, folder, case, [given])
        faults = differences_of_end(run, [(how, 0, None)]) + ([] if found == wanted else [f"replies {found.hex()}"])
        rows.note(f"handshake: {name}", faults + ([] if image == case.image else ["the container differs"]))
    for seed in range(times):
        draw, volume = random.Random(seed), case.volume()
        given = random_client(draw)
        wanted, how, count, magic = served(volume, given)
        run, (found,), image = by_files(rows, folder, case, [given])
        faults = differences_of_end(run, [(how, count, magic)]) + ([] if found == wanted else ["other replies"])
        rows.note(f"handshake: random options {seed}", faults + ([] if image == volume.image else ["the container differs"]))
    for is_named in (True, False):
        for by in (GO, EXPORT_NAME):
            rows.note(f"handshake: a client by option {by}, named pipes: {is_named}",
                      differences_by_client(rows.program, folder, case, is_named, by))


def differences_by_client(program, folder, case, is_named, by):
    """What our own client finds wrong."""
    link, volume = Link(program, folder, case, is_named, "--handshake"), case.volume()
    client, faults, data = NewstyleClient(link.put, link.get), [], bytes(range(256)) * 16
    try:
        if client.begin(by) != case.fields.volume:
            faults.append("another size of the export")
        client.request(WRITE, 4096, 4096, data)
        client.request(FLUSH)
        if client.request(READ, 0, 8192) != volume.read(0, 4096) + data:
            faults.append("a read gives other data")
        client.end()
    except (Unexpected, struct.error) as why:
        faults.append(str(why))
    volume.write(4096, data)
    run, rest, image = link.end()
    if run.returncode != 0 or rest:
        faults.append(f"status {run.returncode}, {len(rest)} bytes too many, standard error {run.stderr!r}")
    return faults + ([] if image == volume.image else ["the container differs"])
