#!/usr/bin/env python3
"""A client of `vcserve serve`, for a person: reads and writes bytes of a served volume.

  serve_client.py TO FROM REQUEST ..

TO and FROM are the files that the server was given, in the same order: TO takes the requests, FROM gives the
replies. They are mostly two named pipes (`mkfifo to from`). The requests are made one after the other:

  read OFFSET LENGTH      writes these bytes of the volume to the standard output
  write OFFSET FILE       writes the bytes of FILE at this offset; `-` is the standard input
  fua OFFSET FILE         the same, synced to the disk before it is replied to
  flush                   syncs what was written before

Offsets and lengths are in bytes, and whole sectors of the volume. A request has at most 32 MiB, so a longer one is made
in several. The session ends with the last request. If a reply has an error, it is told, and the rest isn't asked for.

The status is 0 if every request was done, 1 if one wasn't, and 2 if the arguments aren't requests.
"""
import struct
import sys

READ, WRITE, DISCONNECT, FLUSH = range(4)
FUA = 1
REQUEST_MAGIC = 0x25609513
REPLY_MAGIC = 0x67446698
MOST = 32 << 20
ERRORS = {
    1: "EPERM: the sectors are protected, or a write before this one touched such sectors",
    5: "EIO: the container failed",
    12: "ENOMEM: out of memory",
    22: "EINVAL: no whole sectors, or past the end of the volume",
    28: "ENOSPC: past the end of the volume",
}


class Refused(Exception):
    """A request that wasn't done, and why."""


class Server:
    """The two files, and the number of requests so far, which are their cookies."""

    def __init__(self, to, of):
        # A named pipe is opened once both ends are: in the server's order, first the requests' one.
        self.to = open(to, "wb", buffering=0)
        self.of = open(of, "rb")
        self.asked = 0

    def put(self, given):
        given = memoryview(given)
        while given:
            given = given[self.to.write(given):]

    def get(self, length):
        got = self.of.read(length)
        if len(got) < length:
            raise Refused("the server has ended")
        return got

    def ask(self, kind, offset=0, length=0, data=b"", flags=0):
        """Makes one request, and gives the data of its reply."""
        self.asked += 1
        self.put(struct.pack(">IHHQQI", REQUEST_MAGIC, flags, kind, self.asked, offset, length) + data)
        magic, error, cookie = struct.unpack(">IIQ", self.get(16))
        if magic != REPLY_MAGIC or cookie != self.asked:
            raise Refused("this is no reply to the request")
        if error:
            raise Refused(ERRORS.get(error, f"error {error}"))
        return self.get(length) if kind == READ else b""

    def end(self):
        self.put(struct.pack(">IHHQQI", REQUEST_MAGIC, 0, DISCONNECT, 0, 0, 0))
        self.to.close()
        self.of.close()


def requests_in(words):
    """The requests of these arguments, each a function of the server; None if they are none."""
    requests, words = [], list(words)
    while words:
        name = words.pop(0)
        try:
            if name == "flush":
                requests.append(lambda server: server.ask(FLUSH))
            elif name == "read":
                requests.append(reading(int(words.pop(0)), int(words.pop(0))))
            elif name in ("write", "fua"):
                requests.append(writing(int(words.pop(0)), words.pop(0), FUA if name == "fua" else 0))
            else:
                return None
        except (IndexError, ValueError):
            return None
    return requests or None


def reading(offset, length):
    def read(server):
        for at in range(0, length, MOST):
            sys.stdout.buffer.write(server.ask(READ, offset + at, min(MOST, length - at)))
        sys.stdout.buffer.flush()
    return read


def writing(offset, path, flags):
    def written(server):
        at = offset
        with open(sys.stdin.fileno() if path == "-" else path, "rb") as file:
            while data := file.read(MOST):
                server.ask(WRITE, at, len(data), data, flags)
                at += len(data)
    return written


def main(words):
    requests = requests_in(words[2:])
    if requests is None:
        print(__doc__, file=sys.stderr)
        return 2
    try:
        server = Server(*words[:2])
        for request in requests:
            request(server)
        server.end()
    except (Refused, OSError) as error:
        print(f"serve_client: {error}", file=sys.stderr)
        return 1
    return 0


if __name__ == "__main__":
    sys.exit(main(sys.argv[1:]))
