"""What `check_program.py` tries of `format` and `info`, and of all algorithms with both PRFs.

The images that `format` has to make come from independent_container.py, to the byte.
"""
import contextlib
import hashlib
import os
import resource
import signal
import subprocess

from independent_container import (ALGORITHMS, GROUP, PRFS, SECTOR, Fields, formatted,
                                   header_fields, is_available, make, pattern, read)
from program_rows import (ANYTHING, PASSWORD, format_words, info_text, info_words, nobody,
                          words_of)

SMALLEST = 2 * GROUP + SECTOR
KEY = bytes(range(0xA0, 0xC0))
HEX = KEY.hex()


def remove(path):
    if os.path.exists(path):
        os.remove(path)


def every_algorithm(rows, folder):
    """With each algorithm and PRF a container that `format` makes and one that the script makes."""
    for number, (prf, name) in enumerate((prf, name) for prf in PRFS for name in ALGORITHMS):
        if not is_available(name):
            rows.leave_out(f"{prf} {name}", "libgcrypt is missing")
            rows.is_package_missing = True
            continue
        formatted_container(rows, folder, number, prf, name)
        written_container(rows, folder, number, prf, name)


def formatted_container(rows, folder, number, prf, name):
    path = os.path.join(folder, f"formatted_{number}.vc")
    size = SMALLEST + number * SECTOR
    key = hashlib.sha256(f"{prf} {name}".encode()).digest()
    image = formatted(size, PASSWORD, 1, key, prf, name)
    words = format_words(path, size, key.hex(), "--prf", prf, "--algorithm", name)
    rows.row(f"format: {prf} {name}", words, 0, b"ok\n", left=image)
    # what the script reads of it, header by header and sector by sector
    volume = size - 2 * GROUP
    for place in (0, size - GROUP):
        faults = header_faults(path, place, prf, name, volume)
        rows.note(f"format: {prf} {name}: header at {place}", faults)
        if faults:
            return
    sectors = read(path, 0, 1 + number, PASSWORD, 1, prf, name)
    rows.row(f"formatted: {prf} {name}: cat", words_of(path, 0, 1 + number), 0, sectors)
    rows.row(f"formatted: {prf} {name}: info", info_words(path), 0,
             info_text(GROUP, volume, prf, name))
    remove(path)


def header_faults(path, place, prf, name, volume):
    fields = header_fields(path, place, PASSWORD, 1, prf, name) if os.path.exists(path) else None
    if fields is None:
        return ["it is not valid"]
    right = Fields(0, volume, GROUP, volume, 0, SECTOR, fields.material)
    return [] if fields == right else [f"{fields}"]


def written_container(rows, folder, number, prf, name):
    path = os.path.join(folder, f"written_{number}.vc")
    sectors = 1 + number
    make(path, SMALLEST + number * SECTOR, PASSWORD, 1, prf=prf, algorithm=name)
    plain = b"".join(map(pattern, range(sectors)))
    rows.row(f"written: {prf} {name}: cat", words_of(path, 0, sectors), 0, plain)
    rows.row(f"written: {prf} {name}: info", info_words(path), 0,
             info_text(GROUP, sectors * SECTOR, prf, name))
    remove(path)


def format_sizes(rows, folder):
    path = os.path.join(folder, "sizes.vc")
    before = b"kept as it is"
    for size in [0, 512, 2 * GROUP, SMALLEST - 1, SMALLEST + 1, SMALLEST + 511, (1 << 40) + 512,
                 1 << 60, (1 << 64) - 512, (1 << 64) - 1]:
        with open(path, "wb") as file:
            file.write(before)
        rows.row(f"format: {size} bytes over a file", format_words(path, size, HEX), 6)
        remove(path)
        rows.row(f"format: {size} bytes, none there", format_words(path, size, HEX), 6)
        remove(path)
    for size in [SMALLEST, SMALLEST + SECTOR, 3 * GROUP, (1 << 20) + SECTOR]:
        image = formatted(size, PASSWORD, 1, KEY)
        for length in (None, 0, size - 1, size, (2 << 20) + 1):
            remove(path)
            if length is not None:
                with open(path, "wb") as file:
                    file.write(b"\xff" * length)
            words = format_words(path, size, HEX)
            rows.row(f"format: {size} bytes over {length}", words, 0, b"ok\n", left=image)
    # once more, with other random bytes, password and PIM
    other = formatted(SMALLEST, "other", 2, bytes(32))
    words = format_words(path, SMALLEST, "0" * 64, password="other", pim=2)
    rows.row("format: over a container", words, 0, b"ok\n", left=other)
    rows.row("format: the old password", words_of(path, 0, 1), 3)
    sector = read(path, 0, 1, "other", 2)
    rows.row("format: the new password", words_of(path, 0, 1, "other", 2), 0, sector)


def bad_words(there, more):
    """Words that make no command: for the file `there`, with `more` as the name of one more."""
    right = format_words(there, SMALLEST, HEX)
    return [
        ("63 digits", format_words(there, SMALLEST, HEX[:-1])),
        ("65 digits", format_words(there, SMALLEST, HEX + "0")),
        ("no digits", format_words(there, SMALLEST, "")),
        ("66 digits", format_words(there, SMALLEST, HEX + "00")),
        ("a digit that is none", format_words(there, SMALLEST, "g" + HEX[1:])),
        ("the last digit is none", format_words(there, SMALLEST, HEX[:-1] + "G")),
        ("0x before the digits", format_words(there, SMALLEST, "0x" + HEX[2:])),
        ("a space", format_words(there, SMALLEST, " " + HEX[1:])),
        ("64 bytes in fewer characters", format_words(there, SMALLEST, HEX[:-2] + "ä")),
        ("no size", right[:2] + right[4:]),
        ("no password", right[:4] + right[6:]),
        ("no random key", right[:6] + right[8:]),
        ("no path", right[:1] + right[2:]),
        ("two paths", [*right, more]),
        ("size of no digits", format_words(there, "", HEX)),
        ("size 2^64", format_words(there, 1 << 64, HEX)),
        ("size with a sign", format_words(there, "+262656", HEX)),
        ("size of 21 digits", format_words(there, "0" * 15 + "262656", HEX)),
        ("size with a unit", format_words(there, "1M", HEX)),
        ("empty password", format_words(there, SMALLEST, HEX, password="")),
        ("password of 129 bytes", format_words(there, SMALLEST, HEX, password="a" * 129)),
        ("PIM 2147469", format_words(there, SMALLEST, HEX, pim=2147469)),
        ("unknown PRF", [*right, "--prf", "whirlpool"]),
        ("PRF in capitals", [*right, "--prf", "SHA512"]),
        ("empty PRF", [*right, "--prf="]),
        ("unknown algorithm", [*right, "--algorithm", "twofish-aes"]),
        ("algorithm in capitals", [*right, "--algorithm", "AES"]),
        ("size twice", [*right, "--size", str(SMALLEST)]),
        ("an option of other commands", [*right, "--kind", "any"]),
        ("a flag of other commands", [*right, "--backup"]),
        ("two dashes and a file", [*right, "--", more]),
        ("two dashes and two files", [*right, "--", more, more]),
    ]


def format_bad_words(rows, folder):
    """An existing file stays as it is, and a missing one isn't made."""
    there = os.path.join(folder, "there.vc")
    with open(there, "wb") as file:
        file.write(b"kept as it is")
    missing = os.path.join(folder, "not_made.vc")
    for name, words in bad_words(there, missing):
        rows.row(f"format: {name}", words, 2, kept=there)
    for name, words in bad_words(missing, missing):
        rows.row(f"format: {name}, none there", words, 2, kept=missing)
        remove(missing)


def format_orders(rows, folder):
    """The same arguments in other orders, and with the value that an option that is not given has."""
    path = os.path.join(folder, "orders.vc")
    image = formatted(SMALLEST, PASSWORD, 1, KEY, "sha256", "aes")
    options = [["--size", str(SMALLEST)], [f"--password={PASSWORD}"], ["--random", HEX],
               ["--pim=1"], ["--prf", "sha256"], ["--algorithm=aes"], [path]]
    for turn in range(len(options)):
        words = sum(options[turn:] + options[:turn], ["format"])
        rows.row(f"format: options turned by {turn}", words, 0, b"ok\n", kept=path, left=image)
    words = sum(reversed(options), ["format"])
    rows.row("format: options from the last on", [*words, "--"], 0, b"ok\n", kept=path, left=image)
    image = formatted(SMALLEST, PASSWORD, 1, KEY)
    for name, random in [("capitals", HEX.upper()), ("both cases", HEX[:32] + HEX[32:].upper())]:
        rows.row(f"format: random key in {name}", format_words(path, SMALLEST, random), 0, b"ok\n",
                 left=image)
    usual = formatted(SMALLEST, "-x=", 0, KEY)
    words = ["format", f"--random={HEX}", "--password=-x=", path, f"--size={SMALLEST}"]
    rows.row("format: no PIM, PRF and algorithm", words, 0, b"ok\n", kept=path, left=usual)


def format_files(rows, folder):
    def words(*parts):
        return format_words(os.path.join(folder, *parts), SMALLEST, HEX)

    plain = os.path.join(folder, "plain.vc")
    with open(plain, "wb") as file:
        file.write(b"kept as it is")
    rows.row("format: missing folder", words("nowhere", "x.vc"), 7)
    rows.row("format: a file in no folder", words("plain.vc", "x.vc"), 7)
    rows.row("format: empty path", format_words("", SMALLEST, HEX), 7)
    rows.row("format: folder", format_words(folder, SMALLEST, HEX), 7)
    rows.row("format: device", format_words("/dev/null", SMALLEST, HEX), 7)
    rows.row("format: a name of 300 bytes", words("a" * 300), 7)
    os.mkfifo(os.path.join(folder, "format_pipe.vc"))
    rows.row("format: pipe", words("format_pipe.vc"), 7)
    os.mkdir(os.path.join(folder, "closed"))
    os.chmod(os.path.join(folder, "closed"), 0o555)
    rows.row("format: unwritable folder", words("closed", "x.vc"), 7, **nobody())
    os.chmod(plain, 0o444)
    rows.row("format: file that may only be read", words("plain.vc"), 7, **nobody())
    rows.row("format: bad size in a missing folder",
             format_words(os.path.join(folder, "nowhere", "x.vc"), 1, HEX), 7)
    target = os.path.join(folder, "target.vc")
    os.symlink(target, os.path.join(folder, "to_target.vc"))
    rows.row("format: link to nothing yet", words("to_target.vc"), 0, b"ok\n", kept=target,
             left=formatted(SMALLEST, PASSWORD, 1, KEY))


def format_outputs(rows, folder):
    """The container is made before anything is said, so an output that fails finds it whole."""
    path = os.path.join(folder, "outputs.vc")
    image = formatted(SMALLEST, PASSWORD, 1, KEY)
    words = format_words(path, SMALLEST, HEX)
    with open("/dev/full", "wb") as full:
        rows.row("format: full output", words, 8, stdout=full, left=image)
    remove(path)
    for name, closed in [("output", [1]), ("input and output", [0, 1]), ("error", [2]),
                         ("all three", [0, 1, 2])]:
        how = {"preexec_fn": lambda closed=closed: [os.close(i) for i in closed]}
        how |= {"stdout": None} if 1 in closed else {}
        how |= {"stderr": None} if 2 in closed else {}
        status = 8 if 1 in closed else 0
        rows.row(f"format: closed {name}", words, status, b"ok\n", left=image, **how)
        remove(path)


def file_size_limit(limit):
    def set_limit():
        signal.signal(signal.SIGXFSZ, signal.SIG_IGN)
        resource.setrlimit(resource.RLIMIT_FSIZE, (limit, limit))
    return set_limit


def format_faults(rows, folder):
    """No room: the status is 7 and nothing is said. What is left of the container isn't told."""
    path = os.path.join(folder, "limited.vc")
    words = format_words(path, SMALLEST, HEX)
    for limit in (0, SECTOR, SMALLEST - 1):
        how = {"left": ANYTHING, "preexec_fn": file_size_limit(limit)}
        rows.row(f"format: files of {limit} bytes at most", words, 7, **how)
        # a longer file may be cut to a length that no file may grow to, so the writing fails
        with open(path, "wb") as file:
            file.write(b"\xff" * (1 << 20))
        rows.row(f"format: files of {limit} bytes at most, a long one there", words, 7, **how)
        remove(path)
    image = formatted(SMALLEST, PASSWORD, 1, KEY)
    rows.row("format: the limit is the size", words, 0, b"ok\n", left=image,
             preexec_fn=file_size_limit(SMALLEST))
    with small_disk(rows, folder, 300 << 10) as disk:
        if disk is None:
            return
        path = os.path.join(disk, "full.vc")
        rows.row("format: full disk", format_words(path, 1 << 20, HEX), 7)
        with open(path, "wb") as file:
            file.write(b"there before")
        rows.row("format: full disk, a file there", format_words(path, 2 << 20, HEX), 7, left=ANYTHING)
        words = format_words(path, SMALLEST, HEX)
        rows.row("format: a disk with room", words, 0, b"ok\n", left=image)


@contextlib.contextmanager
def small_disk(rows, folder, size):
    """A folder on a disk of its own with room for `size` bytes, or None if none can be mounted."""
    place = os.path.join(folder, "disk")
    os.mkdir(place)
    words = ["mount", "-t", "tmpfs", "-o", f"size={size}", "none", place]
    try:
        mounted = subprocess.run(words, capture_output=True).returncode == 0
    except OSError:
        mounted = False
    if not mounted:
        rows.leave_out("a full disk", "no small disk can be mounted")
    try:
        yield place if mounted else None
    finally:
        if mounted:
            subprocess.run(["umount", place], check=True)
        os.rmdir(place)


def info(rows, small, folder):
    text = info_text(GROUP, SECTOR)
    right = info_words(small)
    for name, words, status in [
        ("as it is", right, 0),
        ("options in another order", ["info", "--pim", "1", "--password", PASSWORD, small], 0),
        ("a kind", [*right, "--kind", "standard"], 0),
        ("any kind", [*right, "--kind=any"], 0),
        ("wrong password", info_words(small, "wrong horse"), 3),
        ("wrong PIM", info_words(small, pim=2), 3),
        ("no password", [right[0], right[1], *right[4:]], 2),
        ("no path", [right[0], *right[2:]], 2),
        ("two paths", [*right, small], 2),
        ("sectors, as of cat", ["info", small, "0", "1", *right[2:]], 2),
        ("a size, as of format", [*right, "--size", "1"], 2),
        ("unknown kind", [*right, "--kind", "outer"], 2),
        ("kind in capitals", [*right, "--kind", "Standard"], 2),
        ("INFO", ["INFO", *right[1:]], 2),
        ("two dashes at the end", [*right, "--"], 0),
        ("two dashes and two files", [*right, "--", "a", "b"], 2),
    ]:
        rows.row(f"info: {name}", words, status, text if status == 0 else b"", kept=small)
    with open("/dev/full", "wb") as full:
        rows.row("info: full output", right, 8, stdout=full)
    rows.row("info: closed output", right, 8, stdout=None, preexec_fn=lambda: os.close(1))
    rows.row("info: missing file", info_words(os.path.join(folder, "missing.vc")), 7)
    rows.row("info: folder", info_words(folder), 7)
    path = os.path.join(folder, "info.vc")
    for length in (0, SECTOR, SMALLEST - 1):
        with open(path, "wb") as file:
            file.truncate(length)
        rows.row(f"info: {length} bytes", info_words(path), 5, length=length)
    start, volume = GROUP + 10 * SECTOR, 300 * SECTOR
    make(path, 1 << 20, PASSWORD, 1, start=start, volume=volume)
    rows.row("info: a volume in the middle", info_words(path), 0, info_text(start, volume))


def check(rows, small, folder):
    every_algorithm(rows, folder)
    format_sizes(rows, folder)
    format_bad_words(rows, folder)
    format_orders(rows, folder)
    format_files(rows, folder)
    format_outputs(rows, folder)
    format_faults(rows, folder)
    info(rows, small, folder)
