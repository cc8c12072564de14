"""What `check_program.py` tries of `passwd` and `restore`.

The images that they have to leave come from independent_container.py, to the byte. If the program is killed in
the middle of `passwd`, the old or the new password has to open a header.
"""
import os
import random
import subprocess
import time

from check_format import file_size_limit, small_disk
from check_hidden import HIDDEN_KEY, HIDDEN_PASSWORD, OUTER_KEY, write
from independent_container import (ALGORITHMS, GROUP, PRFS, SECTOR, changed, formatted, header_fields, hidden,
                                   is_available)
from program_rows import PASSWORD, nobody

NEW_PASSWORD = "new horse"
NEW_KEY = bytes(range(0x40, 0x60))

# What a file system gives room by.
PAGE = 4096

# How a volume is named, its password and the place of its header.
VOLUMES = [(("--kind", "standard"), PASSWORD, 0), (("--kind", "hidden"), HIDDEN_PASSWORD, GROUP // 2),
           ((), PASSWORD, 0), (("--backup",), HIDDEN_PASSWORD, GROUP // 2)]


def passwd_words(path, password, new, key, *more):
    return ["passwd", path, "--password", password, "--pim", "1", "--new", new, "--random", key.hex(), *more]


def restore_words(path, password, key, *more):
    return ["restore", path, "--password", password, "--pim", "1", "--random", key.hex(), *more]


def container(sector=SECTOR, prf="sha512", algorithm="aes"):
    """A container with an outer and a hidden volume."""
    outer = formatted(2 * GROUP + 16 * 4096, PASSWORD, 1, OUTER_KEY, prf, algorithm, sector)
    return hidden(outer, 4 * 4096, HIDDEN_PASSWORD, 1, HIDDEN_KEY, prf, algorithm, sector)


def every_volume(rows, folder):
    """Each algorithm and PRF: what `passwd` and `restore` leave, to the byte."""
    path = os.path.join(folder, "change.vc")
    for number, (prf, algorithm) in enumerate((prf, name) for prf in PRFS for name in ALGORITHMS):
        if not is_available(algorithm):
            rows.leave_out(f"passwd: {prf} {algorithm}", "libgcrypt is missing")
            rows.is_package_missing = True
            continue
        more, password, place = VOLUMES[number % len(VOLUMES)]
        new_prf = PRFS[number // 2 % 2]
        image = container((512, 4096)[number % 2], prf, algorithm)
        name = f"{prf} {algorithm} {' '.join(more)}"
        left = changed(image, place, password, 1, NEW_KEY, prf, algorithm, new_password=NEW_PASSWORD, new_pim=2,
                       new_prf=new_prf)
        write(path, image)
        rows.row(f"passwd: {name}", passwd_words(path, password, NEW_PASSWORD, NEW_KEY, "--new-pim", "2", "--new-prf",
                                                 new_prf, *more), 0, b"ok\n", left=left)
        if number == 0:
            kept = changed(image, place, password, 1, NEW_KEY, prf, algorithm, new_password=NEW_PASSWORD, new_pim=0,
                           new_prf=prf)
            write(path, image)
            rows.row(f"passwd: {name}, defaults", passwd_words(path, password, NEW_PASSWORD, NEW_KEY, *more), 0,
                     b"ok\n", left=kept)
        kind = [word for word in more if word != "--backup"]
        damaged = image[:place] + b"\0" * SECTOR + image[place + SECTOR:]
        left = changed(damaged, place, password, 1, NEW_KEY, prf, algorithm, new_password=password, new_pim=1, new_prf=prf,
                       restores=True)
        write(path, damaged)
        rows.row(f"restore: {name}", restore_words(path, password, NEW_KEY, *kind), 0, b"ok\n", left=left)
    os.remove(path)


def refused(rows, folder):
    """A refusal leaves the container as it was."""
    path = os.path.join(folder, "refused.vc")
    image = container()
    write(path, image)
    for told, words, status in [
        ("a wrong password", passwd_words(path, "wrong", NEW_PASSWORD, NEW_KEY), 3),
        ("an empty new password", passwd_words(path, PASSWORD, "", NEW_KEY), 2),
        ("a new password of 129 bytes", passwd_words(path, PASSWORD, "x" * 129, NEW_KEY), 2),
        ("a new PIM above the greatest", passwd_words(path, PASSWORD, "x", NEW_KEY, "--new-pim", "2147469"), 2),
        ("an unknown PRF", passwd_words(path, PASSWORD, "x", NEW_KEY, "--new-prf", "md5"), 2),
        ("restore: a wrong password", restore_words(path, "wrong", NEW_KEY), 3),
        ("restore: --backup", restore_words(path, PASSWORD, NEW_KEY, "--backup"), 2),
    ]:
        rows.row(f"passwd: {told}", words, status, left=image)
    for length in (0, 262_655):
        write(path, b"\0" * length)
        rows.row(f"passwd: {length} bytes", passwd_words(path, PASSWORD, "x", NEW_KEY), 5, length=length, left=b"\0" * length)
        rows.row(f"restore: {length} bytes", restore_words(path, PASSWORD, NEW_KEY), 5, length=length, left=b"\0" * length)
    os.remove(path)


def over_damage(rows, folder):
    """`restore` over whatever the primary slot holds; that slot alone changes."""
    path = os.path.join(folder, "damaged.vc")
    image = container(4096)
    other = formatted(2 * GROUP + 16 * 4096, "another horse", 1, NEW_KEY)[:SECTOR]
    for place, password, more in [(0, PASSWORD, ()), (GROUP // 2, HIDDEN_PASSWORD, ("--kind", "hidden"))]:
        for told, head in [("zeros", b"\0" * SECTOR), ("ones", b"\xff" * SECTOR), ("another container's", other)]:
            now = image[:place] + head + image[place + SECTOR:]
            write(path, now)
            left = changed(now, place, password, 1, NEW_KEY, new_password=password, new_pim=1, new_prf="sha512",
                           restores=True)
            rows.row(f"restore: {told} in the primary slot {more}", restore_words(path, password, NEW_KEY, *more), 0,
                     b"ok\n", left=left)
    os.remove(path)


def same_password(rows, folder):
    """The old password may be the new one: the headers get new salts."""
    path = os.path.join(folder, "same.vc")
    image = container()
    write(path, image)
    left = changed(image, 0, PASSWORD, 1, NEW_KEY, new_password=PASSWORD, new_pim=1, new_prf="sha512")
    rows.row("passwd: the old password again",
             passwd_words(path, PASSWORD, PASSWORD, NEW_KEY, "--new-pim", "1"), 0, b"ok\n", left=left)
    salts = [slice(at, at + 64) for at in (0, len(image) - GROUP)]
    rows.note("passwd: the old password again, the salts",
              ["one stays"] if any(left[salt] == image[salt] for salt in salts) else [])
    os.remove(path)


def places(rows, folder):
    """Headers are written in place, so neither a full disk nor a folder that can't be written is in the way, unless the
    file has a hole there. A file that can't be written is: then the status is 7, and the old password opens the backup
    header at least."""
    image = container()
    new = changed(image, 0, PASSWORD, 1, NEW_KEY, new_password=NEW_PASSWORD, new_pim=1, new_prf="sha512")
    path = os.path.join(folder, "limited.vc")
    for limit, left in [(0, image), (GROUP, new[:GROUP] + image[GROUP:])]:
        write(path, image)
        rows.row(f"passwd: a file that can be written up to byte {limit} alone", to_new(path), 7, left=left,
                 preexec_fn=file_size_limit(limit))
    os.remove(path)
    with small_disk(rows, folder, 1 << 20) as disk:
        if disk is None:
            return
        os.chmod(disk, 0o755)
        inner = os.path.join(disk, "inner")
        os.mkdir(inner)
        path = os.path.join(inner, "kept.vc")
        write(path, image)
        fill(os.path.join(disk, "filler"))
        rows.row("passwd: a full disk", to_new(path), 0, b"ok\n", left=new)
        os.remove(os.path.join(disk, "filler"))
        hole = b"\0" * PAGE + image[PAGE:]
        with open(path, "wb") as file:
            file.seek(PAGE)
            file.write(hole[PAGE:])
        fill(os.path.join(disk, "filler"))
        rows.row("restore: a full disk, and a hole in place of the primary header",
                 restore_words(path, PASSWORD, NEW_KEY), 7, left=hole)
        os.remove(os.path.join(disk, "filler"))
        write(path, image)
        os.chmod(path, 0o666)
        os.chmod(inner, 0o555)
        rows.row("passwd: a read-only folder", to_new(path), 0, b"ok\n", left=new)
        write(path, image)
        if subprocess.run(["mount", "-o", "remount,ro", disk], capture_output=True).returncode != 0:
            rows.leave_out("passwd: a read-only disk", "none can be mounted")
            return
        rows.row("passwd: a read-only disk", to_new(path), 7, left=image)
        rows.row("restore: a read-only disk", restore_words(path, PASSWORD, NEW_KEY), 7, left=image)


def to_new(path):
    return passwd_words(path, PASSWORD, NEW_PASSWORD, NEW_KEY, "--new-pim", "1")


def fill(path):
    """Takes all the room of a disk."""
    with open(path, "wb", buffering=0) as file:
        try:
            while file.write(bytes(4096)):
                pass
        except OSError:
            pass


def killed(rows, folder, times=200):
    """The program is killed at random moments of `passwd`: a password opens a header, always."""
    path = os.path.join(folder, "killed.vc")
    image = container()
    words = [rows.program, *passwd_words(path, PASSWORD, NEW_PASSWORD, NEW_KEY, "--new-pim", "1", "--kind", "standard")]
    write(path, image)
    begun = time.monotonic()
    subprocess.run(words, check=True, stdout=subprocess.DEVNULL)
    whole, draw, wrong = time.monotonic() - begun, random.Random(1), []
    for _ in range(times):
        write(path, image)
        with subprocess.Popen(words, stdout=subprocess.DEVNULL) as run:
            time.sleep(draw.uniform(0, 1.1 * whole))
            run.kill()
        opens = [password for place, password in [(len(image) - GROUP, PASSWORD), (0, NEW_PASSWORD)]
                 if header_fields(path, place, password, 1) is not None]
        if not opens:
            wrong.append("no password opens a header")
    rows.note(f"passwd: killed {times} times", wrong)
    os.remove(path)


def read_only(rows, folder):
    """A container that can't be written: a container fault, and the old password still opens."""
    path = os.path.join(folder, "read_only.vc")
    image = container()
    write(path, image)
    os.chmod(path, 0o444)
    rows.row("passwd: a read-only file", passwd_words(path, PASSWORD, NEW_PASSWORD, NEW_KEY), 7, left=image, **nobody())
    rows.row("restore: a read-only file", restore_words(path, PASSWORD, NEW_KEY), 7, left=image, **nobody())
    os.chmod(path, 0o644)
    os.remove(path)


def check(rows, folder):
    every_volume(rows, folder)
    refused(rows, folder)
    over_damage(rows, folder)
    same_password(rows, folder)
    read_only(rows, folder)
    places(rows, folder)
    killed(rows, folder)
