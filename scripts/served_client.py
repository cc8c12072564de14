"""Clients of the program's `serve`: with their bytes in a file, at named pipes, and at the standard streams."""
import os
import subprocess
import tempfile
import threading
import time

from check_hidden import write
from program_rows import LIMIT
from served_model import session

# By how the client's session ended: the status, and the line of the standard error.
TEXTS = {
    "done": (0, ""),
    "cut": (10, "vcserve: client {client}: input ends inside a request\n"),
    "magic": (11, "vcserve: client {client}: bad magic {magic}\n"),
    "read-fault": (12, "vcserve: client {client}: input or output fault\n"),
    "write-fault": (12, "vcserve: client {client}: input or output fault\n"),
}


def serve_words(path, case_words, *files):
    return ["serve", path, *case_words, "--", *files]


def endings(ends):
    """Status, printed lines and line of the standard error if the clients' sessions end so: how, how many replies, and
    four bytes. The first client that doesn't end `done` gives the status."""
    printed = "".join(f"client {client} {how} {count}\n" for client, (how, count, _) in enumerate(ends))
    for client, (how, _, magic) in enumerate(ends):
        if how != "done":
            status, line = TEXTS[how]
            return status, printed, line.format(client=client, magic=magic.hex() if magic else "")
    return 0, printed, ""


def ending(how, count, magic=None):
    """The same of the only client."""
    return endings([(how, count, magic)])


def differences(found, status, out, line):
    faults = []
    if found.returncode != status:
        faults.append(f"status {found.returncode} in place of {status}")
    if found.stdout is not None and found.stdout != out.encode():
        faults.append(f"output {found.stdout!r} in place of {out!r}")
    if found.stderr is not None and found.stderr != line.encode():
        faults.append(f"standard error {found.stderr!r} in place of {line!r}")
    return faults


def differences_of_replies(found, wanted):
    if found == wanted:
        return []
    if len(found) != len(wanted):
        return [f"{len(found)} bytes of replies in place of {len(wanted)}"]
    first = next(i for i in range(len(wanted)) if found[i] != wanted[i])
    return [f"the replies differ from byte {first} on"]


def serve_files(program, folder, case, given, *more):
    """Serves a client that has these bytes in a file: the run, the replies and the container."""
    with tempfile.TemporaryDirectory(dir=folder) as own:
        path, source, sink = (os.path.join(own, name) for name in ("c.vc", "in", "out"))
        write(path, case.image)
        write(source, given)
        run = subprocess.run([program, *serve_words(path, [*case.words, *more], source, sink)], capture_output=True,
                             stdin=subprocess.DEVNULL, timeout=LIMIT)
        replies = b""
        if os.path.exists(sink):
            with open(sink, "rb") as file:
                replies = file.read()
        with open(path, "rb") as file:
            return run, replies, file.read()


def compared(found, wanted_end, wanted_replies, wanted_image):
    run, replies, image = found
    faults = differences(run, *ending(*wanted_end)) + differences_of_replies(replies, wanted_replies)
    if image != wanted_image:
        faults.append("the container differs")
    return faults


def by_model(program, folder, case, given, *more):
    """What differs from the model for a client that sends these bytes."""
    volume = case.volume()
    replies, how, count, magic = session(volume, given)
    found = serve_files(program, folder, case, given, *more)
    return compared(found, (how, count, magic), b"".join(replies), bytes(volume.image))


class Pair:
    """The two ends of a client's streams."""

    def __init__(self, run, to, of):
        self.run, self.to, self.of = run, to, of

    def put(self, given):
        """Whether all of it was taken."""
        given = memoryview(given)
        while given:
            try:
                given = given[os.write(self.to, given):]
            except OSError:
                return False
        return True

    def get(self, length):
        """So many bytes, or fewer at the end."""
        parts, left = [], length
        while left and (part := self.part(left)):
            parts.append(part)
            left -= len(part)
        return b"".join(parts)

    def part(self, length):
        """The next bytes, up to so many; none if the program has ended. An end before that may be that of a named
        pipe which the program hasn't opened yet."""
        while True:
            has_ended = self.run.poll() is not None
            part = os.read(self.of, min(length, 1 << 20))
            if part or has_ended:
                return part
            time.sleep(0.001)

    def ask(self, request, length=16):
        self.put(request)
        return self.get(length)

    def close_input(self):
        if self.to is not None:
            os.close(self.to)
            self.to = None

    def close_output(self):
        if self.of is not None:
            os.close(self.of)
            self.of = None

    def rest(self):
        """What is left of the replies."""
        parts = []
        while self.of is not None and (part := self.part(1 << 20)):
            parts.append(part)
        self.close_output()
        return b"".join(parts)


class Link:
    """A run of the program whose clients are at named pipes, or whose only one is at the standard input and output."""

    def __init__(self, program, folder, case, is_named, *more, clients=1, environment=None):
        self.own = tempfile.TemporaryDirectory(dir=folder)
        self.path = os.path.join(self.own.name, "c.vc")
        write(self.path, case.image)
        self.is_named = is_named
        files = [os.path.join(self.own.name, f"{name}{number}") for number in range(clients) for name in ("in", "out")]
        if is_named:
            for pipe in files:
                os.mkfifo(pipe)
        else:
            files = ["-", "-"]
        words = serve_words(self.path, [*case.words, *more], *files)
        self.run = subprocess.Popen([program, *words], stdin=subprocess.DEVNULL if is_named else subprocess.PIPE,
                                    stdout=subprocess.PIPE, stderr=subprocess.PIPE,
                                    env={**os.environ, **(environment or {})})
        self.watch = threading.Timer(LIMIT, self.run.kill)
        self.watch.start()
        if is_named:
            self.pairs = [Pair(self.run, self.writer_of(to), self.reader_of(of))
                          for to, of in zip(files[::2], files[1::2])]
        else:
            self.pairs = [Pair(self.run, os.dup(self.run.stdin.fileno()), os.dup(self.run.stdout.fileno()))]
            self.run.stdin.close()
            self.run.stdout.close()
        # those of the only client
        pair = self.pairs[0]
        self.put, self.get, self.ask, self.close_output = pair.put, pair.get, pair.ask, pair.close_output

    def writer_of(self, pipe):
        """The pipe, once the program has opened it to read."""
        while self.run.poll() is None:
            try:
                to = os.open(pipe, os.O_WRONLY | os.O_NONBLOCK)
                os.set_blocking(to, True)
                return to
            except OSError:
                time.sleep(0.001)
        return os.open(os.devnull, os.O_WRONLY)

    def reader_of(self, pipe):
        of = os.open(pipe, os.O_RDONLY | os.O_NONBLOCK)
        os.set_blocking(of, True)
        return of

    def end_all(self):
        """Ends all inputs, and gives the run with what it printed, what is left of each client's replies, and the
        container."""
        for pair in self.pairs:
            pair.close_input()
        rests = [pair.rest() for pair in self.pairs]
        line = self.run.stderr.read()
        out = self.run.stdout.read() if self.is_named else b""
        done = subprocess.CompletedProcess(self.run.args, self.run.wait(LIMIT), out, line)
        self.watch.cancel()
        self.run.stdout.close()
        self.run.stderr.close()
        with open(self.path, "rb") as file:
            image = file.read()
        self.own.cleanup()
        return done, rests, image

    def end(self):
        """As `end_all`, of the only client."""
        done, (rest,), image = self.end_all()
        return done, rest, image


def differences_at_link(link, found, how, count, magic=None):
    """What is printed goes to the standard error if the replies go to the standard output."""
    status, out, line = ending(how, count, magic)
    if not link.is_named:
        out, line = "", out + line
    return differences(found, status, out, line)
