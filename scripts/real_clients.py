#!/usr/bin/env python3
"""NBD clients of other people at `serve --handshake`.

  real_clients.py [PROGRAM]

PROGRAM defaults to crates/vcserve/out/vcserve. Tried are nbdinfo, nbdcopy, nbdsh and nbdfuse of libnbd, qemu-img and
qemu-io, fio, and a client of our own (served_handshake.py). A client that isn't installed is skipped, which is told with its
name. There are two ways to the program, which itself has no sockets:

command   the client starts the program, which has `-` `-` as the client's files: nbdsh and nbdfuse can do that
socket    a bridge (served_bridge.py) listens at a Unix socket and starts the program for each connection, with the
          connection as its standard input and output or with two named pipes. Once it has two sockets, for two clients of
          one run of the program

The volume has 8 MiB, of which the last MiB is a hidden volume that is protected, unless a client writes everything. After
each run the container has to be the one that an independent program makes of what was written, and the program has to have
ended with status 0. Clients that can tell an error also write to the hidden volume, and have to be told EPERM. What a client
asks for in its handshake and isn't offered has to be refused as unsupported, and the client has to go on.

A run that is wrong is told. The status is 1 then, 77 if the package `cryptography` is missing, and otherwise 0.
"""
import contextlib
import errno
import os
import shutil
import socket
import subprocess
import sys
import tempfile
import time
from concurrent.futures import ThreadPoolExecutor

from check_hidden import write
from other_clients import environment_of_libnbd, why_missing
from program_rows import LIMIT, Rows
from served_bridge import Bridge, options_text, serve_once, uri_of
from served_client import serve_words
from served_handshake import (ACK, GO, INFORMATION, NewstyleClient, STRUCTURED_REPLY, UNSUPPORTED, Unexpected,
                              differences_by_client, has_handshake)
from served_model import FLUSH, PERM, READ, WRITE, case_of, head, options, reply
from speed import PROGRAM

MIB = 1 << 20
SIZE, HIDDEN = 8 * MIB, MIB
PATTERN = 0x5A
# how a client is told to start the program itself
COMMAND = "--command"
# what the server offers: options 1 to 3, 6 and 7
OFFERED = (1, 2, 3, 6, 7)


class Place:
    """The container, the volume that the model has of it, and the files of a run."""

    def __init__(self, program, folder):
        self.program, self.folder = program, folder
        self.case = case_of("real clients", SIZE, HIDDEN, 512, 512, "protected")
        self.container = os.path.join(folder, "real.vc")
        self.socket, self.file = os.path.join(folder, "socket"), os.path.join(folder, "file")
        self.begin()

    def begin(self):
        """A fresh container, whose hidden volume is protected."""
        self.volume, self.words = self.case.volume(), self.case.words
        write(self.container, self.case.image)

    def server(self, *files):
        return [self.program, *serve_words(self.container, [*self.words, "--handshake"], *files)]

    def command(self):
        return self.server("-", "-")

    def faults_left(self):
        with open(self.container, "rb") as file:
            return [] if file.read() == self.volume.image else ["the container differs"]


def run_of(words):
    """A client's run: its status, or None if it doesn't end, and what it printed on both outputs."""
    try:
        run = subprocess.run(words, capture_output=True, stdin=subprocess.DEVNULL, timeout=LIMIT, check=False,
                             env=environment_of_libnbd())
    except subprocess.TimeoutExpired as why:
        return None, why.stdout or b"", why.stderr or b""
    return run.returncode, run.stdout, run.stderr


def done(words, out=None, status=0):
    """Runs a client: what is wrong with its status, or with its output if one is wanted."""
    found, printed, line = run_of(words)
    if found != status:
        ends = f"no end after {LIMIT} s" if found is None else f"ends with {found}"
        return [f"{' '.join(words[:2])}: {ends}: {line.decode(errors='replace').strip()}"]
    return [] if out is None or printed == out else [f"{words[0]} prints {printed!r} in place of {out!r}"]


def writes(place, offset, data):
    """Notes that the client writes this."""
    place.volume.write(offset, data)
    return data


def reads_all(place, words):
    """A client that reads everything into the file."""
    with contextlib.suppress(FileNotFoundError):
        os.remove(place.file)
    if faults := done(words):
        return faults
    with open(place.file, "rb") as file:
        return [] if file.read() == place.volume.read(0, SIZE) else [f"{words[0]} reads other data"]


def writes_all(place, words):
    """A client that writes everything from the file, while nothing is protected."""
    place.words = options()
    with open(place.file, "wb") as file:
        file.write(writes(place, 0, place.volume.read(0, SIZE)[::-1]))
    return done(words)


def shows(words):
    """A run of nbdinfo that has to show the only export."""
    status, printed, line = run_of(words)
    if status != 0:
        return [f"{words} ends with {status}: {line.decode(errors='replace').strip()}"]
    wanted = ['export="":', f"export-size: {SIZE} (8M)", "can_flush: true", "can_fua: true", "can_multi_conn: false",
              "is_read_only: false", "can_trim: false", "can_zero: false"]
    return [f"{words} doesn't print {text!r}" for text in wanted if text not in printed.decode(errors="replace")]


def nbdinfo(_place, to):
    """The size of the export, what it can, and what kind of data it has."""
    return done(["nbdinfo", "--size", *to], f"{SIZE}\n".encode()) + shows(["nbdinfo", *to])


def nbdinfo_list(_place, to):
    """The list of exports."""
    return shows(["nbdinfo", "--list", *to])


def nbdcopy(place, to):
    """Everything is read into a file, changed there, and copied back while nothing is protected."""
    return reads_all(place, ["nbdcopy", *to, place.file]) + writes_all(place, ["nbdcopy", "--flush", place.file, *to])


def nbdcopy_many(place, to):
    """The same with 64 small requests under way at a time, of which the server takes one after the other."""
    many = ["--requests=64", "--request-size=16384"]
    return reads_all(place, ["nbdcopy", *many, *to, place.file]) + writes_all(place, ["nbdcopy", *many, place.file, *to])


def connecting(to):
    return f"h.connect_command({to[1:]!r})" if to[0] == COMMAND else f"h.connect_uri({to[0]!r})"


def nbdsh(place, to):
    """A write, a flush and a read, by libnbd's calls."""
    data = writes(place, 4096, bytes([PATTERN]) * 8192)
    return done(["nbdsh", "-c", connecting(to), "-c", f"h.pwrite(bytes([{PATTERN}]) * 8192, 4096)", "-c", "h.flush()",
                 "-c", "print((h.pread(512, 4096)[:4] + h.pread(512, 0)[:4]).hex())", "-c", "h.shutdown()"],
                f"{(data[:4] + place.volume.read(0, 512)[:4]).hex()}\n".encode())


def nbdsh_newer(place, to):
    """TLS, structured replies and block status are asked for, and not there; then a write with FUA and a read."""
    data = writes(place, 4096, bytes([PATTERN]) * 512)
    shown = ("h.get_tls_negotiated(), h.get_structured_replies_negotiated(), h.can_meta_context('base:allocation'), "
             "h.can_fua(), h.can_multi_conn()")
    return done(["nbdsh", "-c", "h.set_tls(nbd.TLS_ALLOW)", "-c", "h.add_meta_context('base:allocation')", "-c",
                 connecting(to), "-c", f"print({shown})", "-c", f"h.pwrite(bytes([{PATTERN}]) * 512, 4096, nbd.CMD_FLAG_FUA)",
                 "-c", "print(h.pread(512, 4096)[:4].hex())", "-c", "h.shutdown()"],
                f"False False False True False\n{data[:4].hex()}\n".encode())


def nbdsh_denied(_place, to):
    """A write to the hidden volume."""
    attempt = f"try:\n    h.pwrite(bytes(512), {SIZE - 512})\nexcept nbd.Error as why:\n    print(why.errnum)"
    return done(["nbdsh", "-c", connecting(to), "-c", attempt, "-c", "h.shutdown()"], f"{errno.EPERM}\n".encode())


def nbdfuse(place, to):
    """The volume as a file of a mounted folder: a part of it is read and written there."""
    with mounted(place, to) as path, open(path, "r+b", buffering=0) as file:
        found = file.read(8192)
        file.seek(8192)
        file.write(bytes([PATTERN]) * 4096)
        os.fsync(file.fileno())
    faults = [] if found == place.volume.read(0, 8192) else ["nbdfuse reads other data"]
    writes(place, 8192, bytes([PATTERN]) * 4096)
    return faults


def nbdfuse_denied(place, to):
    """A write to the hidden volume by that file."""
    with mounted(place, to) as path, open(path, "r+b", buffering=0) as file:
        try:
            file.seek(SIZE - 4096)
            file.write(bytes(4096))
            os.fsync(file.fileno())
        except OSError as why:
            return [] if why.errno == errno.EPERM else [f"nbdfuse tells {why}"]
    return ["nbdfuse tells no error"]


def file_system(place, to):
    """A vfat file system in that file, with a file of its own that is read again. What the volume holds then is what the
    mounted file shows."""
    text = os.path.join(place.folder, "text")
    write(text, bytes(range(256)) * 1000)
    with mounted(place, to) as path:
        # the file system ends before the hidden volume
        faults = done(["mkfs.vfat", path, str((SIZE - HIDDEN) // 1024)])
        faults += done(["mcopy", "-i", path, text, "::TEXT"])
        faults += done(["mtype", "-i", path, "::TEXT"], bytes(range(256)) * 1000)
        faults += done(["fsck.vfat", "-n", path])
        with open(path, "rb") as file:
            os.fsync(file.fileno())
            writes(place, 0, file.read(SIZE - HIDDEN))
    return faults


@contextlib.contextmanager
def mounted(place, to):
    """The file that nbdfuse shows."""
    folder = os.path.join(place.folder, "mounted")
    os.makedirs(folder, exist_ok=True)
    with subprocess.Popen(["nbdfuse", folder, *to], stdin=subprocess.DEVNULL, stderr=subprocess.DEVNULL) as run:
        path = os.path.join(folder, "nbd")
        for _ in range(1000):
            if os.path.exists(path) or run.poll() is not None:
                break
            time.sleep(0.01)
        try:
            yield path
        finally:
            subprocess.run(["fusermount3" if shutil.which("fusermount3") else "fusermount", "-u", folder], check=True)
            run.wait(LIMIT)


def qemu_img(place, to):
    """Everything is read into a file, and compared with it."""
    faults = done(["qemu-img", "info", *to])
    faults += reads_all(place, ["qemu-img", "convert", "-f", "raw", "-O", "raw", *to, place.file])
    return faults + done(["qemu-img", "compare", "-q", "-f", "raw", "-F", "raw", place.file, *to])


def qemu_img_many(place, to):
    """Everything is read and written out of order, by eight workers, at one connection. The server takes their requests one
    after the other."""
    convert = ["qemu-img", "convert", "-m", "8", "-W", "-f", "raw", "-O", "raw"]
    return reads_all(place, [*convert, *to, place.file]) + writes_all(place, [*convert, "-n", place.file, *to])


def qemu_io(place, to):
    """A write, a flush and a read with the pattern compared."""
    writes(place, 65536, bytes([PATTERN]) * 131072)
    return done(["qemu-io", "-f", "raw", *to, "-c", f"write -P {PATTERN} 64k 128k", "-c", "flush",
                 "-c", f"read -P {PATTERN} 64k 128k"])


def qemu_io_denied(_place, to):
    """A write to the hidden volume."""
    _, printed, line = run_of(["qemu-io", "-f", "raw", *to, "-c", f"write {SIZE - 512} 512"])
    told = (printed + line).decode(errors="replace")
    return [] if os.strerror(errno.EPERM) in told else [f"qemu-io prints {told!r}"]


def fio(place, to):
    """Random reads and writes of the first MiB, each verified. The container isn't compared: its data are fio's."""
    faults = done(["fio", "--name=vcserve", "--ioengine=nbd", f"--uri={to[0]}", "--rw=randrw", "--bs=4k", "--size=1m",
                   "--verify=crc32c", "--verify_state_save=0", "--iodepth=4"])
    place.begin()
    return faults


def our_own_client(place, to, use):
    """A session of our own client at the socket."""
    with socket.socket(socket.AF_UNIX) as connection:
        connection.connect(to[0].partition("socket=")[2])
        with connection.makefile("rb") as of:
            client = NewstyleClient(connection.sendall, of.read)
            try:
                faults = [] if client.begin(GO) == SIZE else ["another size of the export"]
                faults += use(client)
                client.end()
                return faults + ([] if of.read() == b"" else ["bytes after the last reply"])
            except (Unexpected, OSError) as why:
                return [str(why)]


def our_own(place, to):
    """The handshake with what isn't there asked first, a write, a flush and a read."""
    def use(client):
        data = bytes([PATTERN]) * 4096
        client.request(WRITE, 4096, 4096, data)
        client.request(FLUSH)
        writes(place, 4096, data)
        return [] if client.request(READ, 0, 8192) == place.volume.read(0, 8192) else ["other data"]

    return our_own_client(place, to, use)


def our_own_denied(place, to):
    """A write to the hidden volume."""
    def use(client):
        client.put(head(WRITE, SIZE - 512, 512, 1) + bytes(512))
        client.take(reply(PERM, 1), "a write to the hidden volume")
        return []

    return our_own_client(place, to, use)


# Each client with the programs and the package that it needs, whether it can start the program itself, and what it does.
CLIENTS = [
    (["nbdinfo"], "libnbd-bin", False, nbdinfo),
    (["nbdinfo"], "libnbd-bin", False, nbdinfo_list),
    (["nbdcopy"], "libnbd-bin", False, nbdcopy),
    (["nbdcopy"], "libnbd-bin", False, nbdcopy_many),
    (["nbdsh"], "python3-libnbd", True, nbdsh),
    (["nbdsh"], "python3-libnbd", True, nbdsh_newer),
    (["nbdsh"], "python3-libnbd", True, nbdsh_denied),
    (["nbdfuse"], "libnbd-bin, fuse3", True, nbdfuse),
    (["nbdfuse"], "libnbd-bin, fuse3", True, nbdfuse_denied),
    (["nbdfuse", "mkfs.vfat", "mcopy"], "libnbd-bin, fuse3, dosfstools, mtools", True, file_system),
    (["qemu-img"], "qemu-utils", False, qemu_img),
    (["qemu-img"], "qemu-utils", False, qemu_img_many),
    (["qemu-io"], "qemu-utils", False, qemu_io),
    (["qemu-io"], "qemu-utils", False, qemu_io_denied),
    (["fio"], "fio", False, fio),
]

# Clients that write the same bytes to the same places, so two of them may run at once.
AT_ONCE = [(["nbdsh"], nbdsh), (["qemu-io"], qemu_io)]

# Clients that ask for more than this server has.
ASKING = ("nbdinfo", "nbdcopy", "nbdsh-newer", "nbdfuse", "qemu-img", "qemu-io", "fio")

# Clients that abort their handshake and close the connection without waiting for the reply. So its write may fail, and the
# program ends with 12 then.
LEAVING = ("nbdinfo-list",)


def by_socket(rows, place, name, work, has_pipes):
    place.begin()
    bridge = Bridge(place, has_pipes)
    try:
        faults = work(place, [uri_of(place.socket)])
    finally:
        more = bridge.close((0, 12) if name in LEAVING else (0,))
    note(rows, f"{name} at a socket{', named pipes' if has_pipes else ''}", place, faults, more)
    if has_pipes and name in ASKING:
        refused(rows, name, [one.options() for one in bridge.heard])


def refused(rows, name, sessions):
    """What a client asked for in its sessions that isn't offered was refused, and it went on."""
    faults = []
    for asked in sessions:
        faults += [f"option {number} has the replies {kinds}" for number, kinds in asked
                   if number not in OFFERED and kinds != [UNSUPPORTED]]
    if not any(number == STRUCTURED_REPLY for asked in sessions for number, _ in asked):
        faults.append("it doesn't ask for structured replies")
    if not any(asked and asked[-1] == (GO, [INFORMATION, ACK]) for asked in sessions):
        faults.append("it doesn't go on to a session")
    rows.note(f"{name} is refused what isn't offered, and goes on", faults)
    print(f"{name} asks for: {options_text(sessions[0]) if sessions else 'nothing'}", flush=True)


def two_at_once(rows, place, name, works):
    """Two clients of one run of the program, each at a socket of its own."""
    place.begin()
    paths = [f"{place.socket}{number}" for number in range(len(works))]
    end = serve_once(place, paths)
    with ThreadPoolExecutor(len(works)) as pool:
        found = list(pool.map(lambda one: one[0](place, [uri_of(one[1])]), zip(works, paths)))
    note(rows, f"{name} at once", place, [fault for one in found for fault in one], end())


def note(rows, name, place, faults, more=()):
    rows.note(name, faults + list(more) + place.faults_left())


def missing(programs):
    """Why these programs can't run."""
    reasons = [f"{program} isn't installed" if shutil.which(program) is None else why_missing(program) for program in programs]
    return ", ".join(filter(None, reasons))


def main(words):
    program = os.path.abspath(words[0] if words else PROGRAM)
    if not os.path.isfile(program):
        sys.exit(f"{program} is missing: `rt run` in crates/vcserve builds it")
    rows = Rows(program)
    if not has_handshake(program):
        rows.leave_out("all clients", "the program has no --handshake")
        return 0
    with tempfile.TemporaryDirectory() as folder:
        place = Place(program, folder)
        for has_pipes in (False, True):
            by_socket(rows, place, "our own client", our_own, has_pipes)
            by_socket(rows, place, "our own client: a protected write", our_own_denied, has_pipes)
            rows.note(f"our own client, named pipes: {has_pipes}",
                      differences_by_client(program, folder, place.case, has_pipes, GO))
        two_at_once(rows, place, "our own client twice", [our_own, our_own])
        for programs, package, starts, work in CLIENTS:
            name = work.__name__.replace("_", "-")
            if why := missing(programs):
                rows.leave_out(name, f"{why} (package {package})")
                continue
            if starts:
                place.begin()
                note(rows, f"{name} starts the program", place, work(place, [COMMAND, *place.command()]))
            for has_pipes in (False, True):
                by_socket(rows, place, name, work, has_pipes)
        for number, (programs, work) in enumerate(AT_ONCE):
            if missing(programs):
                continue
            two_at_once(rows, place, f"{programs[0]} and our own client", [work, our_own])
            for others, other in AT_ONCE[number:]:
                if not missing(others):
                    two_at_once(rows, place, f"{programs[0]} and {others[0]}", [work, other])
    print(f"real clients: {rows.rows - rows.wrong} passed, {rows.wrong} failed")
    return 1 if rows.wrong else 0


if __name__ == "__main__":
    sys.exit(main(sys.argv[1:]))
