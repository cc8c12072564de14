"""What `check_program.py` tries of `expand`.

The images that it has to leave come from independent_container.py, to the byte. If the program is killed in the middle
of it, or the disk is full, the header or the backup has to open a volume that begins with the old volume's bytes.
"""
import os
import random
import subprocess
import time

from check_format import file_size_limit, small_disk
from check_hidden import OUTER_KEY, write
from independent_container import (ALGORITHMS, GROUP, PRFS, SECTOR, encipher, expanded, formatted, header_fields,
                                   is_available, read)
from program_rows import ANYTHING, PASSWORD, nobody, words_of

NEW_KEY = bytes(range(0x60, 0x80))


def expand_words(path, size, *more, password=PASSWORD, flag=("--no-hidden",)):
    return ["expand", path, "--size", str(size), "--password", password, "--pim", "1", "--random", NEW_KEY.hex(), *flag,
            *more]


def container(sector=SECTOR, prf="sha512", algorithm="aes", sectors=16):
    return formatted(2 * GROUP + sectors * 4096, PASSWORD, 1, OUTER_KEY, prf, algorithm, sector)


def every_algorithm(rows, folder):
    """Each algorithm, PRF and sector size: what `expand` leaves, to the byte, and that the old sectors are read."""
    path = os.path.join(folder, "expand.vc")
    for number, (prf, algorithm) in enumerate((prf, name) for prf in PRFS for name in ALGORITHMS):
        if not is_available(algorithm):
            rows.leave_out(f"expand: {prf} {algorithm}", "libgcrypt is missing")
            rows.is_package_missing = True
            continue
        sector = (512, 1024, 2048, 4096)[number % 4]
        image = container(sector, prf, algorithm)
        size = len(image) + (sector, 40 * 4096, GROUP + 4096)[number % 3]
        name = f"{prf} {algorithm}, sectors of {sector} bytes"
        write(path, image)
        old = read(path, 0, 16, PASSWORD, 1, prf, algorithm)
        rows.row(f"expand: {name}", expand_words(path, size), 0, b"ok\n",
                 left=expanded(image, size, PASSWORD, 1, NEW_KEY, prf, algorithm))
        faults = [] if read(path, 0, 16, PASSWORD, 1, prf, algorithm) == old else ["the old sectors differ"]
        for place in (0, size - GROUP):
            fields = header_fields(path, place, PASSWORD, 1, prf, algorithm)
            if fields is None or fields.volume != size - 2 * GROUP:
                faults.append(f"the header at {place} hasn't the new size")
        rows.note(f"expand: {name}, as another program reads it", faults)
    os.remove(path)


def grown_by_hand(rows, folder):
    """A container of 1 MiB gets 2 MiB: 3,584 sectors, of which the first are the old ones."""
    path = os.path.join(folder, "hand.vc")
    image = formatted(1 << 20, PASSWORD, 1, OUTER_KEY)
    write(path, image)
    old = subprocess.run([rows.program, *words_of(path, 0, 1536)], check=True, stdout=subprocess.PIPE).stdout
    left = expanded(image, 1 << 21, PASSWORD, 1, NEW_KEY)
    rows.row("expand: 1 MiB to 2 MiB", expand_words(path, 1 << 21), 0, b"ok\n", left=left)
    for more in ((), ("--backup",)):
        rows.row(f"expand: the old sectors {more}", [*words_of(path, 0, 1536), *more], 0, old)
        rows.row(f"expand: behind the last sector {more}", [*words_of(path, 3584, 1), *more], 6)
    os.remove(path)


def file_system(rows, folder):
    """A volume that holds a file system: every sector of it is read afterwards, and the file system is sound."""
    path, inner = os.path.join(folder, "system.vc"), os.path.join(folder, "system.img")
    size = 8 << 20
    with open(inner, "wb") as file:
        file.truncate(size)
    try:
        subprocess.run(["mke2fs", "-q", "-t", "ext4", "-F", inner], check=True, capture_output=True)
    except (OSError, subprocess.CalledProcessError) as error:
        rows.leave_out("expand: a file system", f"none can be made: {error}")
        os.remove(inner)
        return
    with open(inner, "rb") as file:
        system = file.read()
    image = formatted(size + 2 * GROUP, PASSWORD, 1, OUTER_KEY)
    write(path, image)
    keys = header_fields(path, 0, PASSWORD, 1).material
    units = (encipher(keys, (GROUP + at) // SECTOR, system[at:at + SECTOR]) for at in range(0, size, SECTOR))
    image = image[:GROUP] + b"".join(units) + image[-GROUP:]
    write(path, image)
    rows.row("expand: a file system", expand_words(path, 12 << 20), 0, b"ok\n",
             left=expanded(image, 12 << 20, PASSWORD, 1, NEW_KEY))
    faults = [] if read(path, 0, size // SECTOR, PASSWORD, 1) == system else ["its sectors differ"]
    got = subprocess.run([rows.program, *words_of(path, 0, size // SECTOR)], stdout=subprocess.PIPE).stdout
    write(inner, got)
    if subprocess.run(["e2fsck", "-f", "-n", inner], capture_output=True).returncode != 0:
        faults.append("e2fsck finds faults")
    rows.note("expand: the file system afterwards", faults)
    os.remove(inner)
    os.remove(path)


def refused(rows, folder):
    """A refusal leaves the container as it was."""
    path = os.path.join(folder, "refused.vc")
    image = formatted(1 << 20, PASSWORD, 1, OUTER_KEY)
    write(path, image)
    for told, words, status in [
        ("the old size", expand_words(path, 1 << 20), 6),
        ("no whole sector", expand_words(path, (1 << 21) + 1), 6),
        ("above 2^40", expand_words(path, (1 << 40) + 512), 6),
        ("without the flag", expand_words(path, 1 << 21, flag=()), 2),
        ("a flag with a value", expand_words(path, 1 << 21, flag=("--no-hidden=1",)), 2),
        ("with a kind", expand_words(path, 1 << 21, "--kind", "any"), 2),
        ("a wrong password", expand_words(path, 1 << 21, password="wrong"), 3),
    ]:
        rows.row(f"expand: {told}", words, status, left=image)
    os.chmod(path, 0o444)
    rows.row("expand: a read-only file", expand_words(path, 1 << 21), 7, left=image, **nobody())
    os.chmod(path, 0o644)
    for length in (0, 262_655):
        write(path, b"\0" * length)
        rows.row(f"expand: {length} bytes", expand_words(path, 1 << 21), 5, length=length, left=b"\0" * length)
    os.remove(path)


def opens_old_data(path, image, size):
    """Whether the header or the new backup opens, and the old volume's bytes are there."""
    with open(path, "rb") as file:
        found = file.read()
    header, backup = header_fields(path, 0, PASSWORD, 1), None
    if len(found) == size:
        backup = header_fields(path, size - GROUP, PASSWORD, 1)
    is_there = found[GROUP:len(image) - GROUP] == image[GROUP:len(image) - GROUP]
    return is_there and (header is not None or backup is not None)


def killed(rows, folder, times=200):
    """The program is killed at random moments of `expand`: the old data opens, always."""
    path = os.path.join(folder, "killed.vc")
    image, size = container(sectors=64), 8 << 20
    words = [rows.program, *expand_words(path, size)]
    write(path, image)
    begun = time.monotonic()
    subprocess.run(words, check=True, stdout=subprocess.DEVNULL)
    whole, draw, wrong = time.monotonic() - begun, random.Random(1), []
    for _ in range(times):
        write(path, image)
        with subprocess.Popen(words, stdout=subprocess.DEVNULL) as run:
            time.sleep(draw.uniform(0, 1.1 * whole))
            run.kill()
        if not opens_old_data(path, image, size):
            wrong.append("the old data doesn't open")
    rows.note(f"expand: killed {times} times", wrong)
    os.remove(path)


def full(rows, folder):
    """A file that may not get as long: a container fault, and the old volume is as it was."""
    path = os.path.join(folder, "full.vc")
    image, size = container(), 4 << 20
    limit = len(image) + (1 << 20)
    write(path, image)
    rows.row("expand: a file that can't get as long", expand_words(path, size), 7, left=ANYTHING,
             preexec_fn=file_size_limit(limit))
    rows.note("expand: what such a file holds",
              [] if opens_old_data(path, image, size) else ["the old data doesn't open"])
    os.remove(path)
    with small_disk(rows, folder, 1 << 20) as disk:
        if disk is None:
            return
        path = os.path.join(disk, "full.vc")
        write(path, image)
        rows.row("expand: a full disk", expand_words(path, size), 7, left=ANYTHING)
        rows.note("expand: what is there of a full disk",
                  [] if opens_old_data(path, image, size) else ["the old data doesn't open"])


def check(rows, folder):
    every_algorithm(rows, folder)
    grown_by_hand(rows, folder)
    file_system(rows, folder)
    refused(rows, folder)
    full(rows, folder)
    killed(rows, folder)
