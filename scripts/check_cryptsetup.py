#!/usr/bin/env python3
"""cryptsetup's dump of a container's headers, beside what `info` shows of them.

  check_cryptsetup.py [PROGRAM [CRYPTSETUP]]

PROGRAM defaults to crates/vcserve/out/vcserve, CRYPTSETUP to the one of the path. `vcserve` makes a container with a hidden
volume for each hash and algorithm, and one more for each size of a sector and for some PIMs; `passwd` gives one other
passwords, `expand` makes one longer. Of each header `cryptsetup tcryptDump --veracrypt` and `info` have to say the same
hash, ciphers, start and size of the volume and size of a sector, and cryptsetup the master keys that an independent program
finds. With a wrong password neither opens any.

Debian's cryptsetup takes AES from OpenSSL, and all other ciphers from the kernel (algif_skcipher), without which it tries
nothing more. A cryptsetup that is built with libgcrypt (`configure --with-crypto_backend=gcrypt`) has Serpent and Twofish
too, but not Camellia, which it would try after a wrong password. What it can't try is left out, which is told with its
reason. The status is 0 if all agree, 1 if one differs, and 77 if cryptsetup or the package `cryptography` is missing.
"""
import os
import re
import shutil
import subprocess
import sys
import tempfile

from check_hidden import HIDDEN_KEY, HIDDEN_PASSWORD, OUTER_KEY, hide_words
from independent_container import ALGORITHMS, GROUP, PRFS, header_fields, passes
from program_rows import LIMIT, PASSWORD, Rows, format_words
from speed import PROGRAM

SIZE, ROOM = 2 * GROUP + (1 << 20), 1 << 18
# Of each header: its slot, its password, cryptsetup's options, those of `info`, and its place in a container of `len` bytes.
HEADERS = [
    ("standard", PASSWORD, [], [], lambda len: 0),
    ("hidden", HIDDEN_PASSWORD, ["--tcrypt-hidden"], ["--kind", "hidden"], lambda len: GROUP // 2),
    ("backup-standard", PASSWORD, ["--tcrypt-backup"], ["--backup"], lambda len: len - GROUP),
    ("backup-hidden", HIDDEN_PASSWORD, ["--tcrypt-hidden", "--tcrypt-backup"], ["--kind", "hidden", "--backup"],
     lambda len: len - GROUP // 2),
]
# what cryptsetup says if it lacks a cipher
LACKS = "Required kernel crypto interface not available"


def cryptsetup_of(words):
    return words[1] if len(words) > 1 else shutil.which("cryptsetup") or shutil.which("cryptsetup", path="/sbin:/usr/sbin")


class Lacking(Exception):
    """cryptsetup lacks a cipher that it would have to try."""


def dump(cryptsetup, path, password, pim, prf, more):
    """What cryptsetup says of a header, in the lines of `info`, and its master keys; None if it opens no header."""
    words = [cryptsetup, "tcryptDump", "--debug", "--batch-mode", "--dump-volume-key", "--veracrypt", *more, "--hash", prf]
    # Without a PIM it tries TrueCrypt's few iterations first, and all ciphers with them. A PIM of 485 is as many iterations.
    words += ["--veracrypt-pim", str(pim or 485)]
    run = subprocess.run([*words, path], input=password.encode(), capture_output=True, timeout=LIMIT, check=False)
    said = (run.stdout + run.stderr).decode(errors="replace")
    if LACKS in said:
        raise Lacking
    if run.returncode:
        return None
    sector, start, size = re.search(r"sector (\d+), mk_offset (\d+), hidden_size \d+, volume size (\d+)", said).groups()
    tried = re.findall(r"trying KDF: pbkdf2-(\w+)-", said)[-1]
    # it lists the ciphers in the order of enciphering
    chain = re.search(r"Cipher chain:\s+(\S+)", said).group(1)
    names = [name for name, ciphers in ALGORITHMS.items() if "-".join(ciphers) == chain]
    keys = re.search(r"MK dump:\s+((?:[0-9a-f]{2}\s+)+)", said).group(1)
    lines = [("prf", tried), ("algorithm", names[0] if names else chain), ("start", start), ("size", size), ("sector", sector)]
    return "".join(f"{name} {value}\n" for name, value in lines), bytes.fromhex("".join(keys.split()))


class Containers:
    """One container after the other, in the same file."""

    def __init__(self, program, cryptsetup, folder):
        self.rows, self.cryptsetup = Rows(program), cryptsetup
        self.path = os.path.join(folder, "c.vc")

    def run(self, words):
        done = subprocess.run([self.rows.program, *words], capture_output=True, text=True, timeout=LIMIT, check=False)
        if done.stdout != "ok\n":
            sys.exit(f"{words[0]} ends with {done.returncode}: {done.stderr}")

    def make(self, *more, pim=1):
        """A container with a hidden volume."""
        if os.path.exists(self.path):
            os.remove(self.path)
        self.run(format_words(self.path, SIZE, OUTER_KEY.hex(), *more, pim=str(pim)))
        self.run(hide_words(self.path, ROOM, HIDDEN_KEY, *more, pim=str(pim)))

    def info(self, password, pim, more):
        words = ["info", self.path, "--password", password, "--pim", str(pim), *more]
        return subprocess.run([self.rows.program, *words], capture_output=True, text=True, timeout=LIMIT, check=False)

    def differences(self, header, password, pim, prf, algorithm):
        """What differs between the two about this header."""
        slot, _, others, ours, place = header
        found = dump(self.cryptsetup, self.path, password, pim, prf, others)
        if found is None:
            return ["cryptsetup doesn't open it"]
        told, keys = found
        printed = self.info(password, pim, ours).stdout
        faults = [] if printed == f"slot {slot}\n{told}" else [f"info prints {printed!r}, cryptsetup says {told!r}"]
        fields = header_fields(self.path, place(os.path.getsize(self.path)), password, pim, prf, algorithm)
        # cryptsetup lists each cipher's main key and tweak key in turn
        wanted = b"".join(pair for _, pair in passes(algorithm, fields.material)) if fields else None
        return faults + ([] if keys == wanted else ["other master keys"])

    def differences_if_wrong(self, header, pim, prf):
        """The same with a wrong password, by which neither opens it."""
        _, _, others, ours, _ = header
        faults = [] if dump(self.cryptsetup, self.path, "wrong horse", pim, prf, others) is None else ["cryptsetup opens it"]
        return faults + ([] if self.info("wrong horse", pim, ours).returncode == 3 else ["info doesn't end with 3"])

    def note(self, name, rows):
        """Rows by their names; cryptsetup lacks a cipher for all of them or for none."""
        try:
            for slot, work in rows:
                self.rows.note(f"{name}: {slot}", work())
        except Lacking:
            self.rows.leave_out(name, f"cryptsetup lacks a cipher: {LACKS}")

    def check(self, name, prf="sha512", algorithm="aes", pim=1, before="", slots=tuple(row[0] for row in HEADERS)):
        """Each of these headers, with `before` put before each password."""
        self.note(name, [(header[0], lambda header=header: self.differences(header, before + header[1], pim, prf, algorithm))
                         for header in HEADERS if header[0] in slots])

    def check_wrong(self, prf):
        """Each header with a wrong password."""
        self.note(f"a wrong password, {prf}",
                  [(header[0], lambda header=header: self.differences_if_wrong(header, 1, prf)) for header in HEADERS])


def check(containers):
    for prf in PRFS:
        for algorithm in ALGORITHMS:
            containers.make("--prf", prf, "--algorithm", algorithm)
            containers.check(f"{prf} {algorithm}", prf, algorithm)
    for sector in (1024, 2048, 4096):
        containers.make("--sector", str(sector))
        containers.check(f"sectors of {sector}")
    containers.make(pim=2)
    containers.check("PIM 2", pim=2)
    containers.make(pim=0)
    containers.check("PIM 0", pim=0, slots=("standard", "hidden"))
    containers.make()
    for prf in PRFS:
        containers.check_wrong(prf)
    for kind, password in (("standard", PASSWORD), ("hidden", HIDDEN_PASSWORD)):
        containers.run(["passwd", containers.path, "--password", password, "--pim", "1", "--new", f"new {password}",
                        "--new-pim", "2", "--new-prf", "sha256", "--kind", kind, "--random", "3a" * 32])
    containers.check("after passwd", "sha256", pim=2, before="new ")
    containers.make()
    containers.run(["expand", containers.path, "--size", str(2 * SIZE), "--password", PASSWORD, "--pim", "1", "--no-hidden",
                    "--random", "3b" * 32])
    # the hidden volume has no backup any more
    containers.check("after expand", slots=("standard", "hidden", "backup-standard"))


def main(words):
    program = os.path.abspath(words[0] if words else PROGRAM)
    if not os.path.isfile(program):
        sys.exit(f"{program} is missing: `rt run` in crates/vcserve builds it")
    cryptsetup = cryptsetup_of(words)
    if cryptsetup is None:
        print("skipped: cryptsetup is missing (package cryptsetup-bin)", file=sys.stderr)
        return 77
    with tempfile.TemporaryDirectory() as folder:
        containers = Containers(program, cryptsetup, folder)
        check(containers)
    rows = containers.rows
    print(f"cryptsetup: {rows.rows - rows.wrong} passed, {rows.wrong} failed")
    return 1 if rows.wrong else 0


if __name__ == "__main__":
    sys.exit(main(sys.argv[1:]))
