"""What `check_program.py` tries of hidden volumes, backup headers and sectors of other sizes.

The images that `hide` has to make come from independent_container.py, to the byte. If cryptsetup is
installed, it has to open what `format` and `hide` made with AES.
"""
import os
import shutil
import subprocess

from independent_container import (ALGORITHMS, GROUP, PRFS, SECTOR, decipher, formatted, header_fields,
                                   hidden, is_available)
from program_rows import ANYTHING, PASSWORD, format_words, info_words, words_of

HIDDEN_PASSWORD = "hidden horse"
OUTER_KEY = bytes(range(32))
HIDDEN_KEY = bytes(range(0x20, 0x40))
SIZES = (512, 1024, 2048, 4096)

# What `info` and `cat` are asked, the slot that opens then, and the first byte of its header in a
# container of `len` bytes.
SLOTS = [
    ((), PASSWORD, "standard", lambda len: 0),
    ((), HIDDEN_PASSWORD, "hidden", lambda len: GROUP // 2),
    (("--kind", "hidden"), HIDDEN_PASSWORD, "hidden", lambda len: GROUP // 2),
    (("--backup",), PASSWORD, "backup-standard", lambda len: len - GROUP),
    (("--backup", "--kind", "standard"), PASSWORD, "backup-standard", lambda len: len - GROUP),
    (("--backup",), HIDDEN_PASSWORD, "backup-hidden", lambda len: len - GROUP // 2),
]


def hide_words(path, size, key, *more, password=HIDDEN_PASSWORD, pim="1"):
    return ["hide", path, "--size", str(size), "--password", password, "--random", key.hex(),
            "--pim", str(pim), *more]


def text(slot, fields, prf, algorithm):
    lines = [f"slot {slot}", f"prf {prf}", f"algorithm {algorithm}", f"start {fields.start}",
             f"size {fields.volume}", f"sector {fields.sector}"]
    return "".join(line + "\n" for line in lines).encode()


def sectors_of(path, fields, first, count, algorithm):
    """Deciphered sectors of the volume that these fields describe."""
    units = fields.sector // SECTOR
    unit = fields.start // SECTOR + units * first
    with open(path, "rb") as file:
        file.seek(unit * SECTOR)
        data = file.read(count * fields.sector)
    return b"".join(decipher(fields.material, unit + i, data[i * SECTOR:(i + 1) * SECTOR], algorithm)
                    for i in range(units * count))


def write(path, image):
    with open(path, "wb") as file:
        file.write(image)


def every_slot(rows, name, path, prf, algorithm):
    """Each slot opens by its options, shows its fields, and gives the first and the last sector."""
    length = os.path.getsize(path)
    for more, password, slot, place in SLOTS:
        fields = header_fields(path, place(length), password, 1, prf, algorithm)
        told = f"{name}: {slot} by {' '.join(more) or 'no option'}"
        if fields is None:
            rows.note(told, ["the independent program can't open it"])
            continue
        rows.row(f"{told}: info", [*info_words(path, password), *more], 0, text(slot, fields, prf, algorithm))
        last = fields.volume // fields.sector - 1
        for first in sorted({0, last}):
            plain = sectors_of(path, fields, first, 1, algorithm)
            rows.row(f"{told}: sector {first}", [*words_of(path, first, 1, password), *more], 0, plain)
        rows.row(f"{told}: past the end", [*words_of(path, last, 2, password), *more], 6)


def every_algorithm(rows, folder):
    """Both directions: what `hide` makes, to the byte, and what the independent program made."""
    for number, (prf, algorithm) in enumerate((prf, name) for prf in PRFS for name in ALGORITHMS):
        if not is_available(algorithm):
            rows.leave_out(f"hidden: {prf} {algorithm}", "libgcrypt is missing")
            rows.is_package_missing = True
            continue
        path = os.path.join(folder, f"hidden_{number}.vc")
        for sector in (512, 4096):
            name = f"hidden: {prf} {algorithm} {sector}"
            how = ["--prf", prf, "--algorithm", algorithm, "--sector", str(sector)]
            size, room = 2 * GROUP + 16 * 4096, 4 * 4096
            outer = formatted(size, PASSWORD, 1, OUTER_KEY, prf, algorithm, sector)
            image = hidden(outer, room, HIDDEN_PASSWORD, 1, HIDDEN_KEY, prf, algorithm, sector)
            rows.row(f"{name}: format", format_words(path, size, OUTER_KEY.hex(), *how), 0, b"ok\n", left=outer)
            rows.row(f"{name}: hide", hide_words(path, room, HIDDEN_KEY, *how), 0, b"ok\n", left=image)
            write(path, image)
            every_slot(rows, name, path, prf, algorithm)
        os.remove(path)


def sizes(rows, folder):
    """Sizes below, at and above the limits, for each size of a sector; a refusal changes nothing."""
    path = os.path.join(folder, "hidden_sizes.vc")
    for sector in SIZES:
        how = ["--sector", str(sector)]
        size = 2 * GROUP + 8 * 4096
        outer = formatted(size, PASSWORD, 1, OUTER_KEY, sector=sector)
        for room, status in [(0, 6), (sector - 1, 6), (sector, 0), (sector + 1, 6), (8 * 4096, 0),
                             (8 * 4096 + sector, 6), (1 << 63, 6)]:
            write(path, outer)
            left = hidden(outer, room, HIDDEN_PASSWORD, 1, HIDDEN_KEY, sector=sector) if status == 0 else None
            rows.row(f"hide: {room} bytes with {sector}", hide_words(path, room, HIDDEN_KEY, *how), status,
                     b"ok\n" if status == 0 else b"", left=left)
        smallest = 2 * GROUP + sector
        for length, status in [(0, 5), (2 * GROUP + 511, 5), (smallest - 1, 5 if sector == 512 else 6), (smallest, 0),
                               (smallest + 1, 6)]:
            write(path, b"\x5a" * length)
            image = b"\x5a" * length
            left = hidden(image, sector, HIDDEN_PASSWORD, 1, HIDDEN_KEY, sector=sector) if status == 0 else None
            rows.row(f"hide: into {length} bytes with {sector}", hide_words(path, sector, HIDDEN_KEY, *how), status,
                     b"ok\n" if status == 0 else b"", length=length, left=left)
            made = os.path.join(folder, "sector.vc")
            rows.row(f"format: {length} bytes with {sector}", format_words(made, length, OUTER_KEY.hex(), *how),
                     6 if status else 0,
                     b"ok\n" if status == 0 else b"",
                     left=formatted(length, PASSWORD, 1, OUTER_KEY, sector=sector) if status == 0 else None)
            if status == 0:
                os.remove(made)
    for sector in ("0", "256", "511", "513", "3072", "8192", "x", ""):
        write(path, outer)
        rows.row(f"hide: sectors of {sector!r}", hide_words(path, 4096, HIDDEN_KEY, "--sector", sector), 2)
        rows.row(f"format: sectors of {sector!r}",
                 format_words(path, size, OUTER_KEY.hex(), "--sector", sector), 2)


def longest(rows, folder):
    """The longest container that gets a hidden volume, and one sector more."""
    path = os.path.join(folder, "longest.vc")
    for length, status in [((1 << 40) - 512, 0), (1 << 40, 0), ((1 << 40) + 512, 6)]:
        try:
            with open(path, "wb") as file:
                file.truncate(length)
        except OSError as error:
            return rows.leave_out(f"a container of {length} bytes", error)
        rows.row(f"hide: into {length} bytes", hide_words(path, 512, HIDDEN_KEY), status,
                 b"ok\n" if status == 0 else b"", left=ANYTHING if status == 0 else None)
        if status == 0:
            fields = header_fields(path, length - GROUP // 2, HIDDEN_PASSWORD, 1)
            rows.row(f"hidden volume in {length} bytes", [*info_words(path, HIDDEN_PASSWORD), "--backup"], 0,
                     text("backup-hidden", fields, "sha512", "aes"))
    os.remove(path)


def damage(rows, folder):
    """A header opens whatever became of the others."""
    path = os.path.join(folder, "damage.vc")
    size, room = 2 * GROUP + 16 * 512, 4 * 512
    outer = formatted(size, PASSWORD, 1, OUTER_KEY)
    image = hidden(outer, room, HIDDEN_PASSWORD, 1, HIDDEN_KEY)
    places = {slot: place(size) for _, _, slot, place in SLOTS}
    for slot, place in places.items():
        broken = bytearray(image)
        broken[place + 100] ^= 1
        write(path, broken)
        for more, password, opened, _ in SLOTS:
            fields = header_fields(path, places[opened], password, 1)
            out = text(opened, fields, "sha512", "aes") if opened != slot else b""
            rows.row(f"damaged {slot}: {opened} by {' '.join(more) or 'no option'}",
                     [*info_words(path, password), *more], 3 if opened == slot else 0, out)
    # the outer volume's own password
    same = hidden(outer, room, PASSWORD, 1, HIDDEN_KEY)
    write(path, same)
    for more, slot in [((), "standard"), (("--kind", "hidden"), "hidden"), (("--backup",), "backup-standard")]:
        fields = header_fields(path, places[slot], PASSWORD, 1)
        rows.row(f"one password: {slot}", [*info_words(path), *more], 0, text(slot, fields, "sha512", "aes"))


def cryptsetup(rows, folder):
    """Another program opens what `format` and `hide` made."""
    program = shutil.which("cryptsetup") or shutil.which("cryptsetup", path="/sbin:/usr/sbin")
    if program is None:
        return rows.leave_out("cryptsetup", "it is not installed")
    path = os.path.join(folder, "other.vc")
    for prf in PRFS:
        for sector in (512, 4096):
            how = ["--prf", prf, "--sector", str(sector)]
            size = 2 * GROUP + 64 * 4096
            rows.row(f"cryptsetup: {prf} {sector}: format", format_words(path, size, OUTER_KEY.hex(), *how), 0, b"ok\n",
                     left=formatted(size, PASSWORD, 1, OUTER_KEY, prf, sector=sector))
            with open(path, "rb") as file:
                outer = file.read()
            rows.row(f"cryptsetup: {prf} {sector}: hide", hide_words(path, 8 * 4096, HIDDEN_KEY, *how), 0, b"ok\n",
                     left=hidden(outer, 8 * 4096, HIDDEN_PASSWORD, 1, HIDDEN_KEY, prf, sector=sector))
            for more, password in [([], PASSWORD), (["--tcrypt-hidden"], HIDDEN_PASSWORD),
                                   (["--tcrypt-backup"], PASSWORD),
                                   (["--tcrypt-hidden", "--tcrypt-backup"], HIDDEN_PASSWORD)]:
                # with the hash, since a kernel without ciphers for it makes it stop at the first one that it can't try
                words = [program, "tcryptDump", "--veracrypt", "--veracrypt-pim", "1", "--hash", prf, *more, path]
                run = subprocess.run(words, input=password.encode(), stdout=subprocess.PIPE, stderr=subprocess.PIPE)
                if b"not supported" in run.stderr or b"not available" in run.stderr:
                    rows.leave_out(f"cryptsetup: {prf} {sector} {' '.join(more)}", run.stderr.decode().splitlines()[0])
                    continue
                rows.note(f"cryptsetup: {prf} {sector} {' '.join(more)}",
                          [] if run.returncode == 0 else [run.stderr.decode().strip()])
            os.remove(path)


def check(rows, folder):
    every_algorithm(rows, folder)
    sizes(rows, folder)
    longest(rows, folder)
    damage(rows, folder)
    cryptsetup(rows, folder)
