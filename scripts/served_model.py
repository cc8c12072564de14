"""What the replies of `serve` have to be: a volume as an array of bytes, and a client's requests to it.

It knows requests and replies from docs/PROTOCOL.md and containers from independent_container.py, and shares no code
with the program.
"""
import struct

from check_hidden import HIDDEN_KEY, HIDDEN_PASSWORD, OUTER_KEY
from independent_container import (ALGORITHMS, GROUP, PRFS, SECTOR, decipher, derive, encipher, fields_of, formatted,
                                   hidden, is_available)
from program_rows import PASSWORD

READ, WRITE, DISCONNECT, FLUSH = range(4)
REQUEST_MAGIC = bytes.fromhex("25609513")
REPLY_MAGIC = bytes.fromhex("67446698")
FUA = 1
LONGEST = 32 << 20
PERM, INVALID, NO_SPACE = 1, 22, 28


def head(kind, offset=0, length=0, cookie=0, flags=0, magic=REQUEST_MAGIC):
    return magic + struct.pack(">HHQQI", flags, kind, cookie, offset, length)


def reply(error, cookie=0, data=b""):
    return REPLY_MAGIC + struct.pack(">IQ", error, cookie) + data


class Volume:
    """A volume of a container, as an array of bytes."""

    def __init__(self, image, fields, algorithm, protected=None):
        self.image = bytearray(image)
        self.start, self.size, self.sector = fields.start, fields.volume, fields.sector
        self.keys, self.algorithm = fields.material, algorithm
        # the container's bytes from the first to the second one
        self.protected = protected
        self.is_frozen = False

    def units(self, offset, length):
        begin = self.start + offset
        return range(begin, begin + length, SECTOR)

    def read(self, offset, length):
        return b"".join(decipher(self.keys, at // SECTOR, bytes(self.image[at:at + SECTOR]), self.algorithm)
                        for at in self.units(offset, length))

    def write(self, offset, data):
        for i, at in enumerate(self.units(offset, len(data))):
            plain = data[i * SECTOR:(i + 1) * SECTOR]
            self.image[at:at + SECTOR] = encipher(self.keys, at // SECTOR, plain, self.algorithm)

    def touches(self, offset, length):
        if self.protected is None:
            return False
        begin, (first, end) = self.start + offset, self.protected
        return begin < end and first < begin + length

    def refusal(self, flags, kind, offset, length):
        """The error of a request that no volume of this size does, whatever was done before it; 0 for any other."""
        if flags & ~FUA:
            return INVALID
        if kind == FLUSH:
            return 0
        is_whole = 0 < length <= LONGEST and length % self.sector == 0 and offset % self.sector == 0
        if kind not in (READ, WRITE) or not is_whole:
            return INVALID
        if offset + length > self.size:
            return INVALID if kind == READ else NO_SPACE
        return 0

    def answer(self, flags, kind, offset, length, payload):
        """The error and the data with which a request is replied to."""
        error = self.refusal(flags, kind, offset, length)
        if error or kind == FLUSH:
            return error, b""
        if kind == READ:
            return 0, self.read(offset, length)
        if self.is_frozen or self.touches(offset, length):
            self.is_frozen = True
            return PERM, b""
        self.write(offset, payload)
        return 0, b""


def frames(given):
    """The requests of these bytes, each with its flags, kind, cookie, offset, length and payload; then how they end,
    and four bytes that aren't the magic."""
    at, requests = 0, []
    while True:
        taken = given[at:at + 28]
        if not taken:
            return requests, "done", None
        if len(taken) >= 4 and taken[:4] != REQUEST_MAGIC:
            return requests, "magic", taken[:4]
        if len(taken) < 28:
            return requests, "cut", None
        flags, kind, cookie, offset, length = struct.unpack(">HHQQI", taken[4:])
        at += 28
        if kind == DISCONNECT:
            return requests, "done", None
        payload = b""
        if kind == WRITE:
            payload = given[at:at + length]
            at += length
            if len(payload) < length:
                return requests, "cut", None
        requests.append((flags, kind, cookie, offset, length, payload))


def session(volume, given):
    """What a client that sends these bytes gets: the replies, how it ends, their number, and four bytes that aren't
    the magic."""
    requests, how, magic = frames(given)
    replies = []
    for flags, kind, cookie, offset, length, payload in requests:
        error, data = volume.answer(flags, kind, offset, length, payload)
        replies.append(reply(error, cookie, data))
    return replies, how, len(replies), magic


class Case:
    """A container, how it is served, and the volume that its client sees."""

    def __init__(self, name, image, words, fields, algorithm="aes", protected=None):
        self.name, self.image, self.words = name, image, words
        self.fields, self.algorithm, self.protected = fields, algorithm, protected

    def volume(self):
        return Volume(self.image, self.fields, self.algorithm, self.protected)


def opened(image, place, password, prf="sha512", algorithm="aes", pim=1):
    """The fields of the header at this place."""
    salt, body = image[place:place + 64], image[place + 64:place + SECTOR]
    return fields_of(decipher(derive(password, salt, pim, prf, algorithm), 0, body, algorithm))


def options(password=PASSWORD, *more):
    return ["--password", password, "--pim", "1", *more]


PROTECT = ("--protect", HIDDEN_PASSWORD, "--protect-pim", "1")


def case_of(name, volume, hidden_size, sector, hidden_sector, how, prf="sha512", algorithm="aes"):
    """A container with an outer volume of so many bytes. `how` says what is served of it."""
    image = formatted(2 * GROUP + volume, PASSWORD, 1, OUTER_KEY, prf, algorithm, sector)
    if hidden_size:
        image = hidden(image, hidden_size, HIDDEN_PASSWORD, 1, HIDDEN_KEY, prf, algorithm, hidden_sector)
    if how == "hidden":
        fields = opened(image, GROUP // 2, HIDDEN_PASSWORD, prf, algorithm)
        return Case(name, image, options(HIDDEN_PASSWORD), fields, algorithm)
    fields = opened(image, 0, PASSWORD, prf, algorithm)
    if how == "protected":
        end = len(image) - GROUP
        return Case(name, image, options(PASSWORD, *PROTECT), fields, algorithm, (end - hidden_size, end))
    if how == "backup":
        return Case(name, image, options(PASSWORD, "--backup"), fields, algorithm)
    return Case(name, image, options(), fields, algorithm)


def cases():
    """Volumes of each size of sector, with and without protection. Those of a few sectors end often."""
    kib = 1 << 10
    rows = [
        ("sectors of 512", 48 * kib, 0, 512, 512, "outer"),
        ("one sector", 512, 0, 512, 512, "outer"),
        ("sectors of 4096", 96 * kib, 0, 4096, 4096, "outer"),
        ("sectors of 1024 and 2048, the hidden ones", 64 * kib, 16 * kib, 1024, 2048, "hidden"),
        ("a backup header", 32 * kib, 0, 2048, 2048, "backup"),
        ("protected, sectors of 512", 48 * kib, 16 * kib, 512, 512, "protected"),
        ("protected, sectors of 4096", 96 * kib, 32 * kib, 4096, 4096, "protected"),
        ("protected from the middle of a sector of 4096", 96 * kib, 5 * 512, 4096, 512, "protected"),
        ("protected whole", 16 * kib, 16 * kib, 512, 4096, "protected"),
    ]
    made = [case_of(*row) for row in rows]
    for number, (prf, algorithm) in enumerate((prf, name) for prf in PRFS for name in ALGORITHMS):
        if is_available(algorithm):
            how = ("outer", "protected", "hidden")[number % 3]
            made.append(case_of(f"{prf} {algorithm}", 24 * kib, 8 * kib, 512, 512, how, prf, algorithm))
    return made
