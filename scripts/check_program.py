#!/usr/bin/env python3
"""Runs the built program from outside, over containers that another program made.

  check_program.py [PROGRAM]

PROGRAM defaults to crates/vcserve/out/vcserve. It is not built here: `rt run` in crates/vcserve
builds it (README.md). Each row runs it once and compares the exit status, the
standard output, the standard error and the container after it: the same bytes as before, or those
that the command has to leave (check_format.py, check_hidden.py, check_damage.py, check_change.py, check_expand.py). Clients
of `serve` are those of check_serve.py, and drills are in check_drill.py. Secrets in files and a person's terminal are tried by check_secrets.py and check_terminal.py. A row
that is wrong is printed; the last line counts them. What can't be tried on this machine is printed too.

The status is 1 if a row is wrong. Otherwise it is 77 if the package `cryptography` is missing,
which all rows need, or libgcrypt, which those with Serpent and Twofish need.
"""
import os
import random
import shutil
import subprocess
import sys
import tempfile
import time

import check_change
import check_damage
import check_drill
import check_expand
import check_format
import check_hidden
import check_secrets
import check_serve
import check_terminal
from independent_container import GROUP, SECTOR, make, pattern, read
from program_rows import (LIMIT, LINES, PASSWORD, Rows, differences, differences_left, nobody,
                          words_of)

HERE = os.path.dirname(os.path.abspath(__file__))
CRATE = os.path.join(HERE, "..", "crates", "vcserve")
SMALL = os.path.join(CRATE, "data", "t1.vc")


def changed_copy(path, copy, change):
    """A copy of the small container, with its bytes as `change` makes them."""
    with open(path, "rb") as file:
        data = bytearray(file.read())
    with open(copy, "wb") as file:
        file.write(change(data))
    return copy


def flipped(at, bit):
    def change(data):
        data[at] ^= 1 << bit
        return data
    return change


def small_container(rows, small, folder):
    two = bytes(range(256)) * 2
    again = os.path.join(folder, "again.vc")
    make(again, 2 * GROUP + SECTOR, PASSWORD, 1, zeros=True)
    with open(small, "rb") as file:
        faults = differences_left(again, file.read())
    rows.note("small container: the script makes it again", faults)
    for first, count, password, pim, status, out in [
        (0, 1, PASSWORD, 1, 0, two),
        (0, 0, PASSWORD, 1, 0, b""),
        (1, 0, PASSWORD, 1, 0, b""),
        (1, 1, PASSWORD, 1, 6, b""),
        (0, 1, "wrong horse", 1, 3, b""),
        (0, 1, "correct horse ", 1, 3, b""),
        (0, 1, "Correct horse", 1, 3, b""),
        (0, 1, PASSWORD, 2, 3, b""),
        (0, 1, PASSWORD, 0, 3, b""),
        # a wrong password is told before sectors that are not there
        (7, 7, "wrong horse", 1, 3, b""),
    ]:
        rows.row(f"small container {first} {count} {password!r} {pim}",
                 words_of(small, first, count, password, pim), status, out)
    for name, change, status, out, length in [
        ("without its last byte", lambda d: d[:-1], 5, b"", 262655),
        ("its header alone", lambda d: d[:512], 5, b"", 512),
        ("with one byte more", lambda d: d + b"\0", 0, two, None),
        ("last bit of the checksum at 252", flipped(255, 0), 3, b"", None),
        ("first bit of the salt", flipped(0, 7), 3, b"", None),
        ("last bit of the salt", flipped(63, 0), 3, b"", None),
        ("first bit of the body", flipped(64, 7), 3, b"", None),
        ("a bit of the fields", flipped(100, 3), 3, b"", None),
        ("a bit of the master keys", flipped(256, 0), 3, b"", None),
        ("last bit of the body", flipped(511, 0), 3, b"", None),
        ("a bit after the header", flipped(512, 0), 0, two, None),
        ("a bit before the volume", flipped(GROUP - 1, 0), 0, two, None),
        ("a bit after the volume", flipped(GROUP + SECTOR, 0), 0, two, None),
    ]:
        copy = changed_copy(small, os.path.join(folder, "changed.vc"), change)
        rows.row(name, words_of(copy, 0, 1), status, out, length)


def written_headers(rows, folder):
    """Headers that are right but for one field."""
    path = os.path.join(folder, "fields.vc")
    size = 1 << 20
    room = size - 2 * GROUP
    for name, changed, status in [
        ("nothing changed", {}, 0),
        ("wrong checksum at 252, all else right", {"fields_xor": 1}, 3),
        ("its highest bit", {"fields_xor": 1 << 31}, 3),
        ("wrong checksum at 72, all else right", {"keys_xor": 1}, 3),
        ("another magic", {"magic": b"TRUE"}, 3),
        ("header version 4", {"version": 4}, 3),
        ("header version 6", {"version": 6}, 3),
        ("another program version", {"program": 0x0126}, 0),
        ("system encryption", {"flags": 1}, 3),
        ("encrypted in place", {"flags": 2}, 3),
        ("another flag", {"flags": 4}, 0),
        ("sectors of 3072", {"sector": 3072}, 3),
        ("more is enciphered", {"encrypted": room + SECTOR}, 0),
        ("less is enciphered", {"encrypted": room - SECTOR}, 3),
        ("a hidden volume's header", {"hidden": 512}, 3),
        ("an empty volume", {"volume": 0}, 3),
        ("half a sector", {"volume": room - 256}, 3),
        ("one sector too many", {"volume": room + SECTOR}, 3),
        ("a volume that ends past 2^64", {"volume": (1 << 64) - SECTOR}, 3),
        ("a start one sector later, too long", {"start": GROUP + SECTOR, "volume": room}, 3),
        ("a start that is no sector's", {"start": GROUP + 1, "volume": SECTOR}, 3),
        ("a start before the group's end", {"start": GROUP - SECTOR, "volume": SECTOR}, 3),
        ("a start in the last sector", {"start": size - GROUP - SECTOR, "volume": SECTOR}, 0),
    ]:
        make(path, size, PASSWORD, 1, **changed)
        out = pattern(0) if status == 0 else b""
        rows.row(f"header: {name}", words_of(path, 0, 1), status, out)


def made_containers(rows, folder):
    path = os.path.join(folder, "made.vc")
    long = "long password " * 10
    for size, password, pim, changed in [
        (262656, "x", 1, {}),
        (262656 + 511, PASSWORD, 1, {}),
        (262144 + 128 * 512, PASSWORD, 3, {}),
        (262144 + 129 * 512, PASSWORD, 2, {}),
        (1 << 20, "pässwörd, 合言葉", 1, {}),
        (1 << 20, long[:128], 1, {}),
        (1 << 20, "no PIM", 0, {}),
        ((1 << 20) + 512, PASSWORD, 485, {}),
        (1 << 20, PASSWORD, 1, {"start": GROUP + 10 * SECTOR, "volume": 300 * SECTOR}),
        (5 << 20, "five MiB", 1, {}),
    ]:
        make(path, size, password, pim, **changed)
        sectors = changed.get("volume", size - 2 * GROUP) // SECTOR
        name = f"made: {size} bytes, password of {len(password.encode())} bytes, PIM {pim}"
        # all of it, and for the small ones each border of the buffer
        parts = [(0, sectors), (sectors - 1, 1), (sectors, 0)]
        if pim != 0 and 128 < sectors:
            parts += [(0, 127), (0, 128), (0, 129), (1, 128), (127, 2)]
        if pim == 0:
            parts = parts[:1]
        whole = read(path, 0, sectors, password, pim)
        for first, count in parts:
            out = whole[first * SECTOR:(first + count) * SECTOR]
            words = words_of(path, first, count, password, pim)
            rows.row(f"{name}: {first} {count}", words, 0, out)
        rows.row(f"{name}: past the end", words_of(path, sectors, 1, password, pim), 6)


def bad_words(rows, small):
    right = words_of(small, 0, 1)
    rows.row("no words", [], 2, kept=small)
    for name, words in [
        ("one word", right[:1]),
        ("two words", right[:2]),
        ("seven words", right[:7]),
        ("nine words", right + ["1"]),
        ("an empty ninth word", right + [""]),
        ("unknown command", ["dog", *right[1:]]),
        ("CAT", ["CAT", *right[1:]]),
        ("empty command", ["", *right[1:]]),
        ("unknown option for --password", [*right[:4], "--pass", *right[5:]]),
        ("unknown option for --pim", [*right[:6], "--PIM", *right[7:]]),
        ("no sectors", [*right[:2], *right[4:]]),
        ("no count", [*right[:3], *right[4:]]),
        ("no password", [*right[:4], *right[6:]]),
        ("password twice", [*right, "--password", PASSWORD]),
        ("password twice, once with an equals sign", [*right, f"--password={PASSWORD}"]),
        ("PIM twice", [*right, "--pim=1"]),
        ("an equals sign and a word more", [*right[:4], f"--password={PASSWORD}", "", *right[6:]]),
        ("an equals sign and no value", [*right[:4], "--password=", "--pim", "1"]),
        ("a PIM of no digits", [*right[:6], "--pim="]),
        ("an option in the value's place", [*right[:4], "--password", "--pim", "1"]),
        ("a value that begins with a hyphen", words_of(small, 0, 1, "-x")),
        ("one hyphen", [*right[:4], "-password", *right[5:]]),
        ("three hyphens", [*right[:4], "---password", *right[5:]]),
        ("a hyphen alone", [*right, "-"]),
        ("an option of no name", [*right, "--=x"]),
        ("unknown option with a value", [*right, "--colour=red"]),
        ("an option of other commands", [*right, "--size", "1"]),
        ("a flag with a value", [*right, "--backup=1"]),
        ("unknown kind", [*right, "--kind", "all"]),
        ("empty kind", [*right, "--kind="]),
        ("empty password", words_of(small, 0, 1, "")),
        ("password of 129 bytes", words_of(small, 0, 1, "a" * 129)),
        ("password of 129 bytes in 128 characters", words_of(small, 0, 1, "a" * 127 + "ä")),
        ("password that is no text", [*right[:5], b"\xff", *right[6:]]),
        ("PIM 2147469", words_of(small, 0, 1, pim="2147469")),
        ("PIM 2^32 + 1", words_of(small, 0, 1, pim=(1 << 32) + 1)),
    ]:
        rows.row(f"words: {name}", words, 2, kept=small)


def numbers(rows, small):
    right = words_of(small, 0, 1)
    two = bytes(range(256)) * 2
    for bad in ["", "+1", "-1", "-0", "0" * 20 + "1", str(1 << 64), "9" * 20, " 1", "1 ", "0x1",
                "1_0", "1.0", "one", "１", "1\n", "9" * 40]:
        for i, place in [(2, "first"), (3, "count"), (7, "PIM")]:
            rows.row(f"{place} {bad!r}", [*right[:i], bad, *right[i + 1:]], 2)
    for name, words, status, out in [
        ("20 digits for the first", words_of(small, "0" * 20, 1), 0, two),
        ("20 digits for the count", words_of(small, 0, "0" * 19 + "1"), 0, two),
        ("20 digits for the PIM", words_of(small, 0, 1, pim="0" * 19 + "1"), 0, two),
        ("password of 128 bytes", words_of(small, 0, 1, "a" * 128), 3, b""),
        ("password of one byte", words_of(small, 0, 1, "a"), 3, b""),
    ]:
        rows.row(f"words: {name}", words, status, out)
    top = (1 << 64) - 1
    for first, count in [(0, 2), (2, 0), (top, 0), (top, 1), (top, 2), (1, top), (0, top),
                         (1 << 63, 1 << 63), (0, 1 << 55), (1 << 55, 0), (1 << 55, 1),
                         (0, (1 << 55) + 1), (top - 255, 257)]:
        rows.row(f"past the end: {first} {count}", words_of(small, first, count), 6)


def words_in_order(rows, small):
    """The same arguments in other orders, and values behind an equals sign."""
    two = bytes(range(256)) * 2
    name, path, first, count, *options = words_of(small, 0, 1)
    for words, status in [
        ([path, first, count, "--pim", "1", "--password", PASSWORD], 0),
        ([*options, path, first, count], 0),
        ([path, "--password", PASSWORD, first, "--pim", "1", count], 0),
        (["--pim=1", path, first, f"--password={PASSWORD}", count], 0),
        (["--kind=standard", path, first, count, *options], 0),
        ([path, first, *options, "--kind", "any", count], 0),
        ([path, first, count, *options, "--"], 0),
        ([path, first, count, f"--password={PASSWORD}", "--pim=001"], 0),
        # these open nothing, but they are a command's arguments
        ([path, first, count, "--password=-x", "--pim=1"], 3),
        ([path, first, count, "--password=", "--pim=1"], 2),
        ([path, first, count, "--password==", "--pim=1"], 3),
        ([path, first, count, "--password=--", "--pim=1"], 3),
        ([path, first, count, "--password", "a=b", "--pim=1"], 3),
        ([path, first, count, f"--password={PASSWORD} ", "--pim=1"], 3),
    ]:
        told = " ".join(word if word != path else "PATH" for word in words)
        out = two if status == 0 else b""
        rows.row(f"words: {told}", [name, *words], status, out, kept=small)


def client_files(rows, small, folder):
    """The arguments after `--` are pairs of files, and only `serve` has them."""
    right = words_of(small, 0, 1)
    opening = [small, "--password", PASSWORD, "--pim", "1"]
    a, b, c = (os.path.join(folder, f"client_{letter}") for letter in "abc")
    for name, words in [
        ("cat and a file", [*right, "--", a]),
        ("cat and a pair", [*right, "--", a, b]),
        ("cat and an empty word", [*right, "--", ""]),
        ("cat, and its words after the dashes", ["cat", "--", *right[1:]]),
        ("cat, and dashes twice", [*right, "--", "--"]),
        ("the dashes as the password", [*right[:4], "--password", "--", "--pim", "1"]),
        ("dashes first", ["--", "serve", *opening]),
        ("dashes alone", ["--"]),
        ("serve without clients", ["serve", *opening]),
        ("serve without clients, and dashes", ["serve", *opening, "--"]),
        ("serve and two standard inputs", ["serve", *opening, "--", "-", a, "-", b]),
        ("serve and two standard outputs", ["serve", *opening, "--", a, "-", b, "-"]),
        ("no command and a pair", ["--", a, b]),
        ("unknown command and a pair", ["dog", *opening, "--", a, b]),
        ("serve and one file", ["serve", *opening, "--", a]),
        ("serve and three files", ["serve", *opening, "--", a, b, c]),
        ("serve, bad words and a pair", ["serve", *opening, "--pim", "1", "--", a, b]),
        ("passwd and a pair", ["passwd", *opening, "--new", "x", "--random", "0" * 64, "--", a, b]),
    ]:
        rows.row(f"client files: {name}", words, 2, kept=small)
        made = [file for file in (a, b, c) if os.path.exists(file)]
        rows.note(f"client files: {name}: what is made", made)


def order_of_refusals(rows, folder):
    """Bad arguments are told before a file is opened, and next a file that can't be opened."""
    missing = os.path.join(folder, "missing.vc")
    options = ["--password", PASSWORD, "--pim", "1"]
    random = ["--random", "0" * 64]
    for name, positions, more, status in [
        ("cat", ["0", "1"], [], 7),
        ("cat", ["0", "x"], [], 2),
        ("cat", ["0"], [], 2),
        ("cat", ["0", "1"], ["--", missing], 2),
        ("cat", ["0", "1"], ["--", missing, missing], 2),
        ("cat", [str((1 << 64) - 1), "1"], [], 7),
        ("cat", [str(1 << 64), "1"], [], 2),
        ("info", [], [], 7),
        ("info", ["0"], [], 2),
        ("hide", [], ["--size", "1", *random], 7),
        ("hide", [], random, 2),
        ("passwd", [], ["--new", "x", *random], 7),
        ("passwd", [], random, 2),
        ("restore", [], random, 7),
        ("restore", [], [*random, "--backup"], 2),
        ("serve", [], [], 7),
        ("serve", [], ["--", missing, missing], 7),
        ("serve", [], ["--", missing], 2),
        ("serve", [], ["--workers", "0"], 2),
    ]:
        told = f"missing file: {name} {positions} {more}"
        rows.row(told, [name, missing, *positions, *options, *more], status)
        rows.note(f"{told}: not made", ["it is made"] if os.path.exists(missing) else [])


def bad_files(rows, small, folder):
    empty = os.path.join(folder, "empty.vc")
    open(empty, "wb").close()
    link = os.path.join(folder, "link.vc")
    os.symlink(small, link)
    rows.row("missing file", words_of(os.path.join(folder, "missing.vc"), 0, 1), 7)
    rows.row("a file in no folder", words_of(os.path.join(small, "t1.vc"), 0, 1), 7)
    rows.row("empty path", words_of("", 0, 1), 7)
    rows.row("folder", words_of(folder, 0, 1), 7)
    rows.row("device", words_of("/dev/zero", 0, 1), 7)
    pipe = os.path.join(folder, "pipe.vc")
    os.mkfifo(pipe)
    rows.row("pipe that nobody writes to", words_of(pipe, 0, 1), 7)
    rows.row("empty file", words_of(empty, 0, 1), 5, length=0)
    rows.row("link to the container", words_of(link, 0, 1), 0, bytes(range(256)) * 2)
    unreadable = os.path.join(folder, "unreadable.vc")
    shutil.copy(small, unreadable)
    os.chmod(unreadable, 0)
    rows.row("unreadable file", words_of(unreadable, 0, 1), 7, **nobody())
    os.chmod(unreadable, 0o444)
    two = bytes(range(256)) * 2
    rows.row("file that may only be read", words_of(unreadable, 0, 1), 0, two, **nobody())


def bad_outputs(rows, small, folder):
    right, wrong = words_of(small, 0, 1), words_of(small, 0, 1, "wrong horse")
    with open("/dev/full", "wb") as full:
        rows.row("full output", right, 8, stdout=full)
        rows.row("full output, nothing to write", words_of(small, 0, 0), 0, stdout=full)
        rows.row("full output, wrong password", wrong, 3, stdout=full)
    # The container that is opened next must not get a closed descriptor, or it takes the output.
    rows.row("closed output", right, 8, stdout=None, preexec_fn=lambda: os.close(1))
    rows.row("closed input and output", right, 8, stdout=None,
             preexec_fn=lambda: [os.close(i) for i in range(2)])
    rows.row("closed standard error", ["dog", *right[1:]], 2, stderr=None,
             preexec_fn=lambda: os.close(2))
    rows.row("closed standard error, wrong password", wrong, 3, stderr=None,
             preexec_fn=lambda: os.close(2))
    rows.row("all three closed", right, 8, stdout=None, stderr=None,
             preexec_fn=lambda: [os.close(i) for i in range(3)])
    reader, writer = os.pipe()
    os.close(reader)
    rows.row("reader gone", right, 8, stdout=writer)
    os.close(writer)
    large = os.path.join(folder, "large.vc")
    make(large, 4 << 20, PASSWORD, 1)
    reader_leaves(rows, large)


def reader_leaves(rows, large):
    """A reader that takes 1000 bytes and leaves, long before the end."""
    run = subprocess.Popen([rows.program, *words_of(large, 0, 7168)], stdin=subprocess.DEVNULL,
                           stdout=subprocess.PIPE, stderr=subprocess.PIPE)
    front = run.stdout.read(1000)
    run.stdout.close()
    line = run.stderr.read()
    run.stderr.close()
    done = subprocess.CompletedProcess(run.args, run.wait(LIMIT), front, line)
    right = (pattern(0) + pattern(1))[:1000]
    rows.note("reader leaves after 1000 bytes", differences(done, 8, right, LINES[8]))


def sparse(rows, folder):
    """A container of 2^40 bytes: its last sector comes as fast as its first."""
    path = os.path.join(folder, "sparse.vc")
    try:
        make(path, 1 << 40, PASSWORD, 1)
    except OSError as error:
        return rows.leave_out("a container of 2^40 bytes", error)
    last = ((1 << 40) - 2 * GROUP) // SECTOR - 1
    best = {}
    for _ in range(3):
        for i in (0, last):
            begin = time.monotonic()
            rows.row(f"2^40 bytes: sector {i}", words_of(path, i, 1), 0, pattern(i))
            best[i] = min(best.get(i, LIMIT), time.monotonic() - begin)
    rows.row("2^40 bytes: past the end", words_of(path, last, 2), 6)
    print(f"2^40 bytes: first sector {best[0]:.3f} s, last sector {best[last]:.3f} s")
    is_slower = best[last] > 1.5 * best[0] + 0.05
    rows.note("the last sector as fast as the first", ["it is slower"] if is_slower else [])
    os.remove(path)


def limits(rows, folder):
    """The longest container, if a file system has room for its length."""
    path = os.path.join(folder, "longest.vc")
    longest = 1 << 60
    try:
        make(path, longest, PASSWORD, 1)
    except OSError as error:
        return rows.leave_out("containers of 2^60 bytes", error)
    last = (longest - 2 * GROUP) // SECTOR - 1
    rows.row("2^60 bytes: last sector", words_of(path, last, 1), 0, pattern(last))
    with open(path, "r+b") as file:
        file.truncate(longest + 1)
    rows.row("2^60 + 1 bytes", words_of(path, 0, 1), 5, length=longest + 1)


def main(words):
    program = os.path.abspath(words[0] if words else os.path.join(CRATE, "out", "vcserve"))
    if not os.path.isfile(program):
        sys.exit(f"{program} is missing: `rt run` in crates/vcserve builds it")
    with tempfile.TemporaryDirectory() as folder:
        # also for a user without rights
        os.chmod(folder, 0o755)
        copy = shutil.copy(program, os.path.join(folder, "vcserve"))
        os.chmod(copy, 0o755)
        small = shutil.copy(SMALL, os.path.join(folder, "t1.vc"))
        rows = Rows(copy)
        small_container(rows, small, folder)
        bad_words(rows, small)
        numbers(rows, small)
        words_in_order(rows, small)
        client_files(rows, small, folder)
        order_of_refusals(rows, folder)
        bad_files(rows, small, folder)
        bad_outputs(rows, small, folder)
        written_headers(rows, folder)
        made_containers(rows, folder)
        check_format.check(rows, small, folder)
        check_hidden.check(rows, folder)
        check_damage.check(rows, folder, check_damage.one_of_each_block(random.Random(1)))
        check_change.check(rows, folder)
        check_expand.check(rows, folder)
        check_serve.check(rows, folder)
        with tempfile.TemporaryDirectory(dir=folder) as own:
            check_drill.drills(rows, own)
        check_secrets.check(rows, small, folder)
        check_terminal.check(rows, small, folder)
        sparse(rows, folder)
        memory = "/dev/shm" if os.path.isdir("/dev/shm") else folder
        with tempfile.TemporaryDirectory(dir=memory) as folder_of_memory:
            limits(rows, folder_of_memory)
    print(f"program: {rows.rows - rows.wrong} passed, {rows.wrong} failed")
    sys.exit(1 if rows.wrong else 77 if rows.is_package_missing else 0)


if __name__ == "__main__":
    main(sys.argv[1:])
