"""Sockets before `serve`, which itself has none: a part of real_clients.py.

A bridge listens at a Unix socket and starts the program for each connection, one after the other: either with the
connection as its standard input and output, or with two named pipes between which the bridge carries the bytes. What it
carries it overhears: the options that a client asks for in its handshake, and the replies to them.
"""
import contextlib
import os
import socket
import struct
import subprocess
import threading

from program_rows import LIMIT
from served_handshake import (ACK, EXPORT_NAME, GO, GREETING, INFORMATION, OPTION_MAGIC, REPLY_MAGIC, SERVER, START_TLS,
                              STRUCTURED_REPLY, UNSUPPORTED)

# The bytes of each direction that are kept, which are more than any client's handshake has.
KEPT = 1 << 16

NAMES = {EXPORT_NAME: "export name", 2: "abort", 3: "list", START_TLS: "TLS", 6: "info", GO: "go",
         STRUCTURED_REPLY: "structured replies", 9: "list of metadata contexts", 10: "metadata contexts",
         11: "extended headers"}
REPLY_NAMES = {ACK: "ack", SERVER: "server", INFORMATION: "info", UNSUPPORTED: "unsupported"}


class Heard:
    """What was carried between a client and the program, from the first byte on."""

    def __init__(self):
        self.given, self.sent = bytearray(), bytearray()

    def options(self):
        """The options that the client asked for, each with its number and the types of the replies to it."""
        given, sent, options, at = bytes(self.given), bytes(self.sent), [], 4
        while given[at:at + 8] == OPTION_MAGIC and len(given) >= at + 16:
            number, length = struct.unpack(">II", given[at + 8:at + 16])
            options.append((number, []))
            at += 16 + length
        at = len(GREETING)
        for number, kinds in options:
            while sent[at:at + 8] == REPLY_MAGIC and struct.unpack(">I", sent[at + 8:at + 12])[0] == number:
                kind, length = struct.unpack(">II", sent[at + 12:at + 20])
                kinds.append(kind)
                at += 20 + length
                if kind not in (SERVER, INFORMATION):
                    break
        return options


def options_text(options):
    """The same for a reader."""
    return "; ".join(f"{NAMES.get(number, number)}: {', '.join(REPLY_NAMES.get(kind, hex(kind)) for kind in kinds)}"
                     for number, kinds in options)


def uri_of(path):
    return f"nbd+unix:///?socket={path}"


def carry(connection, to, of, heard):
    """Carries the bytes between a connection and two pipes, until the client has ended."""
    def carry_back():
        while data := of.read(1 << 16):
            heard.sent += data[:KEPT - len(heard.sent)]
            connection.sendall(data)
        connection.shutdown(socket.SHUT_WR)

    def back():
        with contextlib.suppress(OSError):
            carry_back()

    thread = threading.Thread(target=back)
    thread.start()
    with contextlib.suppress(OSError):
        while data := connection.recv(1 << 16):
            heard.given += data[:KEPT - len(heard.given)]
            left = memoryview(data)
            while left:
                left = left[to.write(left):]
    to.close()
    thread.join()


def serve_all(place, connections, heard):
    """Runs the program with a client at two named pipes for each connection: its status."""
    pipes = [os.path.join(place.folder, f"{name}{number}") for number in range(len(connections)) for name in ("to", "from")]
    for pipe in pipes:
        os.mkfifo(pipe)
    run = subprocess.Popen(place.server(*pipes), stdin=subprocess.DEVNULL, stdout=subprocess.DEVNULL,
                           stderr=subprocess.DEVNULL)
    with contextlib.ExitStack() as files:
        ends = [files.enter_context(open(pipe, mode, buffering=0)) for pipe, mode in zip(pipes, ("wb", "rb") * len(pipes))]
        threads = []
        for number, connection in enumerate(connections):
            heard.append(Heard())
            threads.append(threading.Thread(target=carry, args=(connection, *ends[2 * number:2 * number + 2], heard[-1])))
        for thread in threads:
            thread.start()
        for thread in threads:
            thread.join()
    for pipe in pipes:
        os.remove(pipe)
    return run.wait(LIMIT)


class Bridge:
    """Listens at the place's socket, and starts the program for each connection. `heard` is what it carried."""

    def __init__(self, place, has_pipes):
        self.place, self.has_pipes, self.statuses, self.heard, self.is_over = place, has_pipes, [], [], False
        self.listener = socket.socket(socket.AF_UNIX)
        self.listener.bind(place.socket)
        self.listener.listen()
        self.thread = threading.Thread(target=self.work)
        self.thread.start()

    def work(self):
        while True:
            connection, _ = self.listener.accept()
            with connection:
                if self.is_over:
                    return
                self.statuses.append(self.serve(connection))

    def serve(self, connection):
        if not self.has_pipes:
            return subprocess.run(self.place.command(), stdin=connection, stdout=connection, stderr=subprocess.DEVNULL,
                                  timeout=LIMIT, check=False).returncode
        return serve_all(self.place, [connection], self.heard)

    def close(self, statuses=(0,)):
        """Ends the bridge: what is wrong with the statuses of its programs, of which each has to be one of these."""
        self.is_over = True
        with socket.socket(socket.AF_UNIX) as last:
            last.connect(self.place.socket)
        self.thread.join(LIMIT)
        self.listener.close()
        os.remove(self.place.socket)
        return [] if self.statuses and set(self.statuses) <= set(statuses) else [f"the program ended with {self.statuses}"]


def serve_once(place, paths):
    """Begins a run of the program whose clients come to these sockets: gives a call that waits for its end, and says what
    is wrong with its status."""
    listeners, statuses = [socket.socket(socket.AF_UNIX) for _ in paths], []
    for listener, path in zip(listeners, paths):
        listener.bind(path)
        listener.listen()

    def serve():
        connections = [listener.accept()[0] for listener in listeners]
        statuses.append(serve_all(place, connections, []))
        for connection in connections:
            connection.close()

    server = threading.Thread(target=serve)
    server.start()

    def end():
        server.join(LIMIT)
        for listener, path in zip(listeners, paths):
            listener.close()
            os.remove(path)
        return [] if statuses == [0] else [f"the program ended with {statuses}"]

    return end
