#!/usr/bin/env python3
"""What `check_program.py` tries of `serve`: what a client gets, how its session ends, and the container that is left.

  check_serve.py [PROGRAM] [--quick]

runs these rows alone, with --quick fewer random sessions. PROGRAM defaults to crates/vcserve/out/vcserve. Replies and
containers are compared with those of served_model.py, to the byte. Those of the worked rows are by hand. The other
clients are in served_streams.py, several at a time in served_together.py, and those that begin with a handshake in
served_handshake.py. A few programs of check_histories.py and a few streams of fuzz_serve.py run too.
"""
import os
import shutil
import subprocess
import sys
import tempfile

import check_histories
import fuzz_serve
import served_handshake
import served_streams
import served_together
from check_hidden import HIDDEN_KEY, HIDDEN_PASSWORD, OUTER_KEY, write
from independent_container import GROUP, formatted, hidden
from program_rows import PASSWORD, Rows, differences_left
from served_client import by_model, compared, serve_files, serve_words
from served_model import (DISCONNECT, FLUSH, FUA, LONGEST, PROTECT, READ, WRITE, Case, Volume, case_of, head, opened,
                          options, reply)


def worked(rows, folder):
    """Sessions with replies by hand, over a container of 1 MiB with a hidden volume of 256 KiB at its end."""
    image = formatted(1 << 20, PASSWORD, 1, OUTER_KEY)
    outer = opened(image, 0, PASSWORD)
    image = hidden(image, 262144, HIDDEN_PASSWORD, 1, HIDDEN_KEY)
    plain, protected = Case("C1", image, options(), outer), Case("H1", image, options(PASSWORD, *PROTECT), outer)
    first = Volume(image, outer, "aes").read(0, 512)
    last = Volume(image, outer, "aes").read(0xbfe00, 512)
    data = bytes(range(256)) * 16

    def stored(*writes):
        volume = Volume(image, outer, "aes")
        for offset, written in writes:
            volume.write(offset, written)
        return bytes(volume.image)

    # The volume has 1536 sectors, and the hidden one is its sectors 1024 to 1535.
    before = head(WRITE, 0x7f000, 4096, 1) + data
    across = bytes.fromhex("25609513 0000 0001 0000000000000002 000000000007f800 00001000".replace(" ", "")) + data
    refused = bytes.fromhex("67446698 00000001 0000000000000002".replace(" ", ""))
    one = bytes.fromhex("25609513 0000 0000 0000000000000001 0000000000000000 00000200".replace(" ", ""))
    got = bytes.fromhex("67446698 00000000 0000000000000001".replace(" ", "")) + first
    for name, case, given, wanted, how, left in [
        ("a read of one sector", plain, one, [got], "done", image),
        ("a length of 0, and the next one", plain, head(READ, 0, 0, 7) + one, [reply(22, 7), got], "done", image),
        ("a length of 513, and the next one", plain, head(READ, 0, 513, 7) + one, [reply(22, 7), got], "done", image),
        ("no byte", plain, b"", [], "done", image),
        ("a disconnect, and bytes after it", plain, head(DISCONNECT, flags=9) + b"\0" * 99, [], "done", image),
        ("27 bytes of a head", plain, one[:27], [], "cut", image),
        ("three bytes of the magic", plain, one[:3], [], "cut", image),
        ("three other bytes", plain, b"\xff\xff\xff", [], "cut", image),
        ("511 bytes of a payload of 512", plain, head(WRITE, 0, 512) + data[:511], [], "cut", image),
        ("no byte of a malformed payload", plain, head(WRITE, 0, 513), [], "cut", image),
        ("another magic", plain, bytes.fromhex("25609514") + one[4:], [], "magic", image),
        ("another magic, and no more", plain, one + bytes.fromhex("25609514"), [got], "magic", image),
        ("before the hidden volume", protected, before, [reply(0, 1)], "done", stored((0x7f000, data))),
        ("across its first sector", protected, before + across, [reply(0, 1), refused], "done",
         stored((0x7f000, data))),
        ("a write after that, and a read", protected, across + head(WRITE, 0, 512, 3) + data[:512] + one,
         [refused, reply(1, 3), got], "done", image),
        ("reads of it and past the end", protected,
         head(READ, 0xbfe00, 512, 4) + head(READ, 0xbfe00, 1024, 5), [reply(0, 4, last), reply(22, 5)], "done", image),
        ("a write past the end, frozen", protected, across + head(WRITE, 0xbfe00, 1024, 6) + data[:1024],
         [refused, reply(28, 6)], "done", image),
        ("a malformed write, frozen", protected, across + head(WRITE, 1, 1024, 6) + data[:1024],
         [refused, reply(22, 6)], "done", image),
        ("the hidden volume without protection", plain, across, [reply(0, 2)], "done", stored((0x7f800, data))),
    ]:
        magic = bytes.fromhex("25609514") if how == "magic" else None
        found = serve_files(rows.program, folder, case, given)
        rows.note(f"serve: {name}", compared(found, (how, len(wanted), magic), b"".join(wanted), left))


def flags_and_types(rows, folder):
    """Each flag and type, with a read of the first sector after it."""
    case = case_of("flags", 4096, 0, 512, 512, "outer")
    given = b""
    for flags in [0, 1, *(1 << bit for bit in range(1, 16)), 3, 0xffff]:
        for kind in (READ, WRITE, FLUSH, 4, 5, 6, 7, 0xffff):
            given += head(kind, 512, 512, flags << 16 | kind, flags)
            given += bytes([kind & 255]) * 512 if kind == WRITE else b""
        given += head(READ, 0, 512)
    rows.note("serve: each flag and type", by_model(rows.program, folder, case, given))
    given = b""
    for offset in (0, 1, 511, 512, 3584, 3585, 4096, 4095, (1 << 64) - 512, (1 << 63), (1 << 64) - 1):
        for length in (0, 1, 511, 512, 513, 1024, 4096, 4608, LONGEST, LONGEST + 512, 1 << 31, (1 << 32) - 512):
            given += head(READ, offset, length, offset ^ length)
            if length < 1 << 20:
                given += head(WRITE, offset, length, offset ^ length) + b"\x5a" * length
    rows.note("serve: offsets and lengths", by_model(rows.program, folder, case, given))


def client_files(rows, folder):
    """Files that clients can't have, and what becomes of the container and of the others."""
    case = case_of("files", 4096, 4096, 512, 512, "outer")
    path, other = os.path.join(folder, "files.vc"), os.path.join(folder, "files_link.vc")
    good, made, kept = (os.path.join(folder, name) for name in ("files.in", "files.out", "files.kept"))
    missing, nowhere = os.path.join(folder, "files.missing"), os.path.join(folder, "nowhere", "out")
    link = os.path.join(folder, "files_symlink.vc")
    write(path, case.image)
    write(good, head(READ, 0, 512))
    os.link(path, other)
    os.symlink(path, link)
    for name, files, status in [
        ("a missing input", [missing, made], 7),
        ("a folder as input", [folder, made], 7),
        ("a folder as output", [good, folder], 7),
        ("an output in no folder", [good, nowhere], 7),
        ("the container as input", [path, made], 7),
        ("the container as output", [good, path], 7),
        ("the container's other name as input", [other, made], 7),
        ("the container's other name as output", [good, other], 7),
        ("a link to the container as output", [good, link], 7),
        ("an empty name as input", ["", made], 7),
        ("no files", [], 2),
        ("one file", [good], 2),
        ("three files", [good, made, good], 2),
        ("the standard input twice", ["-", made, "-", kept], 2),
        ("the standard output twice", [good, "-", good, "-"], 2),
    ]:
        write(kept, b"kept")
        rows.row(f"serve: {name}", serve_words(path, case.words, *files), status, left=case.image)
        rows.note(f"serve: {name}: another file", differences_left(kept, b"kept"))
        if os.path.exists(missing):
            rows.note(f"serve: {name}: a missing input", ["it is made"])
            os.remove(missing)
    # A container that can't be opened is told before a client's file is touched, and so is a bad line.
    write(made, b"kept")
    rows.row("serve: a missing container", serve_words(missing, case.words, good, made), 7)
    rows.row("serve: a bad line", serve_words(path, [*case.words, "--size", "1"], good, made), 2, left=case.image)
    rows.note("serve: a client's file then", differences_left(made, b"kept"))
    # An output that is there is emptied, and one that isn't is made.
    replies = reply(0, 0, case.volume().read(0, 512))
    write(made, b"longer" * 1000)
    for name in ("there", "new"):
        rows.row(f"serve: an output that is {name}", serve_words(path, case.words, good, made), 0, b"client 0 done 1\n",
                 left=case.image)
        rows.note(f"serve: an output that is {name}: replies", differences_left(made, replies))
        os.remove(made)
    with open(path, "rb") as file:
        rows.row("serve: the container as standard input", serve_words(path, case.words, "-", made), 7,
                 left=case.image, stdin=file)
    with open(path, "ab") as file:
        rows.row("serve: the container as standard output", serve_words(path, case.words, good, "-"), 7,
                 left=case.image, stdout=file)
    for file in (path, other, link, good, kept):
        os.remove(file)


def openings(rows, folder):
    """Passwords that open nothing, and the order in which they are told."""
    case = case_of("openings", 8192, 4096, 512, 512, "outer")
    path, source, sink = (os.path.join(folder, name) for name in ("openings.vc", "openings.in", "openings.out"))
    write(path, case.image)
    write(source, head(WRITE, 0, 512) + bytes(512))
    right, wrong, of_hidden = PASSWORD, "wrong horse", HIDDEN_PASSWORD
    for name, password, more, status in [
        ("a wrong password", wrong, [], 3),
        ("a wrong password, protected", wrong, PROTECT, 3),
        ("both passwords wrong", wrong, ["--protect", wrong, "--protect-pim", "1"], 3),
        ("a wrong protecting password", right, ["--protect", wrong, "--protect-pim", "1"], 4),
        ("the outer password as the protecting one", right, ["--protect", right, "--protect-pim", "1"], 4),
        ("a wrong protecting PIM", right, ["--protect", of_hidden, "--protect-pim", "2"], 4),
        ("a wrong protecting password, backup", right, ["--backup", "--protect", wrong, "--protect-pim", "1"], 4),
        ("the hidden password, protected by itself", of_hidden, PROTECT, 3),
        ("the hidden password as standard", of_hidden, ["--kind", "standard"], 3),
        ("protected, of the hidden kind", right, [*PROTECT, "--kind", "hidden"], 2),
        ("a protecting PIM alone", right, ["--protect-pim", "1"], 2),
        ("nine helpers", right, ["--helpers", "9"], 2),
        ("no workers", right, ["--workers", "0"], 2),
    ]:
        rows.row(f"serve: {name}", serve_words(path, options(password, *more), source, sink), status, left=case.image)
        faults = differences_left(sink, b"") if os.path.exists(sink) else []
        rows.note(f"serve: {name}: no reply", faults)
    for length in (0, 262_655):
        write(path, bytes(length))
        rows.row(f"serve: a container of {length} bytes", serve_words(path, case.words, source, sink), 5,
                 length=length, left=bytes(length))
    for file in (path, source, sink):
        os.remove(file)


def secrets_in_files(rows, folder):
    case = case_of("secret files", 8192, 4096, 512, 512, "protected")
    outer, inner = os.path.join(folder, "outer.secret"), os.path.join(folder, "inner.secret")
    for path, secret in ((outer, PASSWORD), (inner, HIDDEN_PASSWORD)):
        write(path, secret.encode())
        os.chmod(path, 0o600)
    words = ["--password-file", outer, "--pim", "1", "--protect-file", inner, "--protect-pim", "1"]
    told = Case(case.name, case.image, words, case.fields, case.algorithm, case.protected)
    given = head(WRITE, 0, 512, 1) + bytes(512) + head(WRITE, 4096, 512, 2) + bytes(512)
    rows.note("serve: secrets in files", by_model(rows.program, folder, told, given))
    for path in (outer, inner):
        os.remove(path)


# Reads and writes that meet a byte of the container fail, and syncs do.
LIBRARY = r"""
#define _GNU_SOURCE
#include <dlfcn.h>
#include <errno.h>
#include <stdlib.h>
#include <sys/types.h>
#include <unistd.h>
#define NEXT(name) static __typeof__(name) *next; if (!next) next = dlsym(RTLD_NEXT, #name)
static int meets(const char *name, size_t n, off_t at) {
    const char *given = getenv(name);
    off_t byte = given ? atoll(given) : -1;
    return byte >= at && byte < at + (off_t)n;
}
#define FAIL do { errno = EIO; return -1; } while (0)
ssize_t pread(int fd, void *to, size_t n, off_t at) { NEXT(pread); if (meets("BAD_READ", n, at)) FAIL; return next(fd, to, n, at); }
ssize_t pread64(int fd, void *to, size_t n, off64_t at) { NEXT(pread64); if (meets("BAD_READ", n, at)) FAIL; return next(fd, to, n, at); }
ssize_t pwrite(int fd, const void *from, size_t n, off_t at) { NEXT(pwrite); if (meets("BAD_WRITE", n, at)) FAIL; return next(fd, from, n, at); }
ssize_t pwrite64(int fd, const void *from, size_t n, off64_t at) { NEXT(pwrite64); if (meets("BAD_WRITE", n, at)) FAIL; return next(fd, from, n, at); }
int fsync(int fd) { NEXT(fsync); if (getenv("BAD_SYNC")) FAIL; return next(fd); }
int fdatasync(int fd) { NEXT(fdatasync); if (getenv("BAD_SYNC")) FAIL; return next(fd); }
"""


def faults_of_the_container(rows, folder):
    """A read, a write and a sync of the container that fail: the client is told, and the session goes on."""
    if shutil.which("gcc") is None:
        return rows.leave_out("serve: a container that fails", "gcc is missing")
    library = os.path.join(folder, "failing.so")
    subprocess.run(["gcc", "-O2", "-shared", "-fPIC", "-w", "-x", "c", "-", "-o", library, "-ldl"],
                   input=LIBRARY.encode(), check=True)
    case = case_of("failing", 8192, 4096, 512, 512, "outer")
    path, source, sink = (os.path.join(folder, name) for name in ("failing.vc", "failing.in", "failing.out"))
    data = bytes(range(256)) * 2
    write(source, head(READ, 512, 512, 1) + head(WRITE, 1024, 512, 2) + data + head(WRITE, 0, 512, 3, FUA) + data
          + head(FLUSH, 0, 0, 4) + head(READ, 0, 512, 5) + head(DISCONNECT))
    read = reply(0, 1, case.volume().read(512, 512))
    last = reply(0, 5, data)
    bad_read, bad_write = str(GROUP + 700), str(GROUP + 1024 + 100)
    for name, environment, status, wanted in [
        ("none", {}, 0, [read, reply(0, 2), reply(0, 3), reply(0, 4), last]),
        ("a read", {"BAD_READ": bad_read}, 0, [reply(5, 1), reply(0, 2), reply(0, 3), reply(0, 4), last]),
        ("a write", {"BAD_WRITE": bad_write}, 0, [read, reply(5, 2), reply(0, 3), reply(0, 4), last]),
        ("the syncs", {"BAD_SYNC": "1"}, 7, [read, reply(0, 2), reply(5, 3), reply(5, 4), last]),
        ("the standard header", {"BAD_READ": "100"}, 7, []),
        ("the hidden header", {"BAD_READ": str(GROUP // 2 + 100)}, 7, []),
    ]:
        write(path, case.image)
        volume = case.volume()
        if len(wanted) > 1 and wanted[1] == reply(0, 2):
            volume.write(1024, data)
        if wanted:
            volume.write(0, data)
        environment = {**os.environ, **environment, "LD_PRELOAD": library}
        rows.row(f"serve: {name} of the container fails", serve_words(path, case.words, source, sink), status,
                 b"client 0 done 5\n" if status == 0 else b"", left=bytes(volume.image), env=environment)
        rows.note(f"serve: {name} of the container fails: replies", differences_left(sink, b"".join(wanted)))
    for file in (library, path, source, sink):
        os.remove(file)


def check(rows, folder, times=1000):
    worked(rows, folder)
    flags_and_types(rows, folder)
    client_files(rows, folder)
    openings(rows, folder)
    secrets_in_files(rows, folder)
    faults_of_the_container(rows, folder)
    served_together.check(rows, folder, times // 50)
    served_streams.check(rows, folder, times)
    served_handshake.check(rows, folder, times // 20)
    check_histories.check(rows, folder, times // 20, times // 100, 0, os.cpu_count())
    fuzz_serve.check(rows, folder, range(times // 20), served_together.MOST_CLIENTS, os.cpu_count())


def main(words):
    is_quick = "--quick" in words
    names = [word for word in words if word != "--quick"]
    here = os.path.dirname(os.path.abspath(__file__))
    program = os.path.abspath(names[0] if names else os.path.join(here, "..", "crates", "vcserve", "out", "vcserve"))
    if not os.path.isfile(program):
        sys.exit(f"{program} is missing: `rt run` in crates/vcserve builds it")
    with tempfile.TemporaryDirectory() as folder:
        rows = Rows(program)
        check(rows, folder, 50 if is_quick else 1000)
    print(f"serve: {rows.rows - rows.wrong} passed, {rows.wrong} failed")
    return 1 if rows.wrong else 0


if __name__ == "__main__":
    sys.exit(main(sys.argv[1:]))
