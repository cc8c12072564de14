#!/usr/bin/env python3
"""How fast the built program is, against baselines measured in the same run.

  speed.py [PROGRAM [MEASURE ..]]

PROGRAM defaults to crates/vcserve/out/vcserve, which `rt run` in crates/vcserve builds. If no
measure is named, all are taken. Times are processor times unless something else is said, so that
other work on the machine counts little, and each is the best of several runs, program and baseline
in turn: on a shared machine a single one may take twice as long.

opening      by the clock, `cat FILE 0 0` with PIM 0, against hashlib's PBKDF2 of the same 192 bytes by
             500,000 iterations. The other derivations run beside this one until they stop, so it means
             something on an idle machine with a processor for each worker alone
failing      `cat` with a wrong password and PIM 1, of the standard header: two derivations of
             16,000 iterations, and 16 bodies tried. With PIM 65 each is of 64,000 iterations more
             and all else is the same, so that a quarter of the difference is the time of the two
             derivations alone, which is the first baseline. The other is hashlib's two derivations
racing       by the clock, on an idle machine too: `cat` with a wrong password and PIM 0, of both
             headers: four derivations by 4 workers, of which none stops, against the same on one
             processor, which is what one worker would take, and against hashlib's four derivations
             one after the other. What the machine gives is told by four programs that run at once
dumping      by the clock, on an idle machine: `info` with PIM 0, with the right and with a wrong password, against
             `cryptsetup tcryptDump --veracrypt` of the same container. cryptsetup takes ciphers from the kernel. If that
             has none for it, it is given a PIM of 485, which is as many iterations, and finds AES by the first hash that
             it tries; it can't try a wrong password then
formatting   `format` of 256 MiB with PIM 1, in all against `dd` from /dev/zero with conv=fsync by
             the clock; and less `format` of the smallest container, which has the same
             derivations, against OpenSSL's ChaCha20
deciphering  `cat` of 32 MiB with PIM 1, less `cat FILE 0 0`, for each cipher and the longest
             cascade, against libgcrypt's XTS over one stretch of 64 KiB and its bare cipher block
             by block; for AES also against OpenSSL's XTS over units of 512 bytes, with and without
             the processor's AES instructions. AES's baseline is the one without them, and that of
             the cascade is the three baselines' times added
threads      by the clock, on an idle machine: `cat` of 256 MiB with AES to nowhere, less `cat FILE 0 0`,
             against the same on one of the processors
enciphering  data units in memory, by a program of its own (probe.py), against deciphering them

It judges nothing: the status is 0, but 77 if the package `cryptography` is missing. A baseline
that is missing is told and left out.
"""
import ctypes
import hashlib
import os
import platform
import re
import resource
import shutil
import subprocess
import sys
import tempfile
import time

from independent_container import (ALGORITHMS, GCRYPT_XTS, GROUP, SECTOR, gcrypt, gcrypt_handle,
                                   is_available, make)
from probe import build

HERE = os.path.dirname(os.path.abspath(__file__))
PROGRAM = os.path.join(HERE, "..", "crates", "vcserve", "out", "vcserve")
PASSWORD = "correct horse"
TURNS = 7
# Fewer if a turn writes or deciphers much.
LONG_TURNS = 3
FORMAT_MIB = 256
CAT_MIB = 32
GCRYPT_ECB = 1
# The bits of AES in OpenSSL's variable for the processor's instructions.
NO_AES = {"OPENSSL_ia32cap": "~0x200000200000000"}


def on_one():
    """Keeps a program on one processor: threads that share one core take more of its time than one after another."""
    os.sched_setaffinity(0, {min(os.sched_getaffinity(0))})


def processor_time(words, status=0, given=b""):
    """The processor time of one run in seconds, user and system, with this input, on one processor."""
    before = resource.getrusage(resource.RUSAGE_CHILDREN)
    run = subprocess.run(words, input=given, stdout=subprocess.DEVNULL, stderr=subprocess.DEVNULL, preexec_fn=on_one)
    after = resource.getrusage(resource.RUSAGE_CHILDREN)
    if run.returncode != status:
        sys.exit(f"status {run.returncode} in place of {status}: {' '.join(words)}")
    return after.ru_utime - before.ru_utime + after.ru_stime - before.ru_stime


def cat_time(program, path, count, pim, password=PASSWORD, status=0):
    words = [program, "cat", path, "0", str(count), "--password", password, "--pim", str(pim)]
    return processor_time([*words, "--kind", "standard"], status)


def hashlib_time(prf, iterations):
    begin = time.process_time()
    hashlib.pbkdf2_hmac(prf, PASSWORD.encode(), bytes(64), iterations, dklen=192)
    return time.process_time() - begin


def best(turns, *measures):
    """The least of several turns for each measure; the measures go in turn."""
    rounds = [[measure() for measure in measures] for _ in range(turns)]
    return [min(times) for times in zip(*rounds)]


def opening(program, folder):
    path = os.path.join(folder, "pim_0.vc")
    make(path, 2 * GROUP + SECTOR, PASSWORD, 0)
    ours, theirs = best(
        TURNS,
        lambda: clock_time([program, "cat", path, "0", "0", "--password", PASSWORD]),
        lambda: hashlib_time("sha512", 500000))
    print(f"opening: {ours:.3f} s by the clock")
    print(f"  hashlib {theirs:.3f} s, ratio {ours / theirs:.2f} (at most 1.10)")


def failing(program, folder):
    path = os.path.join(folder, "failing.vc")
    make(path, 2 * GROUP + SECTOR, PASSWORD, 1)
    ours, longer, sha512, sha256 = best(
        TURNS,
        lambda: cat_time(program, path, 0, 1, "wrong horse", 3),
        lambda: cat_time(program, path, 0, 65, "wrong horse", 3),
        lambda: hashlib_time("sha512", 16000),
        lambda: hashlib_time("sha256", 16000))
    alone = (longer - ours) / 4
    theirs = sha512 + sha256
    print(f"failing: {1e3 * ours:.1f} ms")
    print(f"  two derivations alone {1e3 * alone:.1f} ms, ratio {ours / alone:.3f} (at most 1.05)")
    print(f"  hashlib's two derivations {1e3 * theirs:.1f} ms, ratio {ours / theirs:.2f}")


def clock_time(words, status=0, preexec_fn=None, given=b""):
    begin = time.monotonic()
    run = subprocess.run(words, input=given, capture_output=True, preexec_fn=preexec_fn)
    if run.returncode != status:
        sys.exit(f"status {run.returncode} in place of {status}: {' '.join(words)}")
    return time.monotonic() - begin


def apart(count):
    """Seconds by the clock of so many hashlib derivations, each in a process of its own, all at once."""
    code = "import hashlib; hashlib.pbkdf2_hmac('sha512', b'x', bytes(64), 500000, dklen=192)"
    begin = time.monotonic()
    runs = [subprocess.Popen([sys.executable, "-c", code]) for _ in range(count)]
    for run in runs:
        run.wait()
    return time.monotonic() - begin


def racing(program, folder):
    path = os.path.join(folder, "racing.vc")
    make(path, 2 * GROUP + SECTOR, PASSWORD, 0)
    words = [program, "cat", path, "0", "0", "--password", "wrong horse"]
    wrong, alone, one, four, sha512, sha256 = best(
        LONG_TURNS,
        lambda: clock_time(words, 3),
        lambda: clock_time(words, 3, on_one),
        lambda: apart(1),
        lambda: apart(4),
        lambda: hashlib_time("sha512", 500000),
        lambda: hashlib_time("sha256", 500000))
    theirs = 2 * (sha512 + sha256)
    print(f"racing: a wrong password {wrong:.3f} s by the clock")
    print(f"  on one processor {alone:.3f} s, ratio {wrong / alone:.2f} (at most 0.30 on four processors, 0.55 on two)")
    print(f"  four programs at once, each with one of four equal derivations: ratio {four / (4 * one):.2f}")
    print(f"  hashlib's four derivations {theirs:.3f} s, ratio {wrong / theirs:.2f}")


def dump_of(tool, path, password):
    """cryptsetup's arguments for a dump, their status, and how it is told; None if it lacks ciphers that it would try."""
    for how, more in [("", []), (" by a PIM of 485", ["--veracrypt-pim", "485"])]:
        words = [tool, "tcryptDump", "--veracrypt", *more, path]
        run = subprocess.run(words, input=password.encode(), capture_output=True)
        if b"kernel crypto interface" not in run.stderr:
            return words, run.returncode, how
    return None


def dumping(program, folder):
    tool = shutil.which("cryptsetup") or shutil.which("cryptsetup", path="/sbin:/usr/sbin")
    if tool is None:
        print("dumping: not measured, cryptsetup is missing")
        return
    path = os.path.join(folder, "dumping.vc")
    make(path, 2 * GROUP + SECTOR, PASSWORD, 0)
    for name, password, status in [("the right password", PASSWORD, 0), ("a wrong password", "wrong horse", 3)]:
        words, found = [program, "info", path, "--password", password], dump_of(tool, path, password)
        if found is None:
            print(f"dumping: {name} {best(LONG_TURNS, lambda: clock_time(words, status))[0]:.3f} s by the clock")
            print("  cryptsetup: not measured, it lacks ciphers that it would try")
            continue
        dump, its_status, how = found
        ours, theirs = best(LONG_TURNS, lambda: clock_time(words, status),
                            lambda: clock_time(dump, its_status, given=password.encode()))
        print(f"dumping: {name} {ours:.3f} s by the clock")
        print(f"  cryptsetup{how} {theirs:.3f} s, ratio {ours / theirs:.2f} (at most 0.50)")


def discarding_time(words, processors):
    """Seconds by the clock on these processors, of a program whose output nobody reads."""
    begin = time.monotonic()
    run = subprocess.run(words, stdin=subprocess.DEVNULL, stdout=subprocess.DEVNULL,
                         preexec_fn=lambda: os.sched_setaffinity(0, processors))
    if run.returncode != 0:
        sys.exit(f"status {run.returncode}: {' '.join(words)}")
    return time.monotonic() - begin


def threads(program, folder):
    path = os.path.join(folder, "threads.vc")
    size = FORMAT_MIB << 20
    words = [path, "--password", PASSWORD, "--pim", "1"]
    subprocess.run([program, "format", *words, "--size", str(2 * GROUP + size), "--random", "0f" * 32], check=True,
                   stdout=subprocess.DEVNULL)
    every = os.sched_getaffinity(0)
    one = {min(every)}
    whole = [program, "cat", words[0], "0", str(size // SECTOR), *words[1:]]
    none = [program, "cat", words[0], "0", "0", *words[1:]]
    by_all, by_one, none_by_all, none_by_one = best(
        LONG_TURNS,
        lambda: discarding_time(whole, every),
        lambda: discarding_time(whole, one),
        lambda: discarding_time(none, every),
        lambda: discarding_time(none, one))
    rate, alone = (size / seconds / 1e6 for seconds in (by_all - none_by_all, by_one - none_by_one))
    print(f"threads: {rate:.0f} MB/s on {len(every)} processors")
    compare("on one processor (at least 2.5 on four)", rate, alone)


def formatting(program, folder):
    path = os.path.join(folder, "new")
    size = FORMAT_MIB << 20

    def new(measure, words):
        # writing a new file is not what writing over one is
        if os.path.exists(path):
            os.remove(path)
        return measure(words)

    words = [program, "format", path, "--password", PASSWORD, "--random", "0f" * 32, "--pim", "1"]
    large = [*words, "--size", str(size)]
    small = [*words, "--size", str(2 * GROUP + SECTOR)]
    dd = ["dd", "if=/dev/zero", f"of={path}", "bs=1M", f"count={FORMAT_MIB}", "conv=fsync"]
    by_clock, dd_by_clock, whole, least = best(
        LONG_TURNS,
        lambda: new(clock_time, large),
        lambda: new(clock_time, dd) if shutil.which("dd") else float("inf"),
        lambda: new(processor_time, large),
        lambda: new(processor_time, small))
    rate = size / by_clock / 1e6
    print(f"formatting by the clock: {by_clock:.2f} s for {FORMAT_MIB} MiB, {rate:.0f} MB/s")
    compare("dd", rate, size / dd_by_clock / 1e6)
    rate = size / (whole - least) / 1e6
    print(f"formatting: {whole - least:.3f} s for {FORMAT_MIB} MiB, {rate:.0f} MB/s")
    compare("openssl ChaCha20", rate, openssl_rate("chacha20", "16384"))


def compare(name, rate, baseline):
    if not baseline:
        print(f"  {name}: not measured")
    else:
        print(f"  {name} {baseline:.0f} MB/s, ratio {rate / baseline:.2f}")


def gcrypt_time(cipher, mode, size):
    """libgcrypt's seconds to decipher a stretch, by many of them; the keys are made before."""
    library = gcrypt()
    keys = bytes(range(64 if mode == GCRYPT_XTS else 32))
    handle = gcrypt_handle(cipher, mode, keys)
    data, out = bytes(size), ctypes.create_string_buffer(size)
    count, begin, spent = 0, time.process_time(), 0
    while spent < 0.1:
        if mode == GCRYPT_XTS:
            library.gcry_cipher_setiv(handle, bytes(16), 16)
        library.gcry_cipher_decrypt(handle, out, size, data, size)
        count += 1
        spent = time.process_time() - begin
    library.gcry_cipher_close(handle)
    return spent / count


def gcrypt_rate(algorithm, mode):
    """libgcrypt's MB/s, one pass for each cipher, or None if it is missing."""
    if gcrypt() is None:
        return None
    size = 1 << 16
    each = [lambda c=c: gcrypt_time(c, mode, size) for c in ALGORITHMS[algorithm]]
    return size / sum(best(LONG_TURNS, *each)) / 1e6


# The least ratio to its baseline that each algorithm should have, and the goal.
GOALS = {"aes": (1.0, 1.3), "serpent": (2.8, 3.3), "twofish": (1.3, 1.6), "aes-twofish-serpent": (1.4, 1.8)}


def deciphering(program, folder):
    path = os.path.join(folder, "pim_1.vc")
    size = CAT_MIB << 20
    baselines = {}
    for name, (least, goal) in GOALS.items():
        if not is_available(name):
            print(f"deciphering {name}: not measured, libgcrypt is missing")
            continue
        make(path, 2 * GROUP + size, PASSWORD, 1, algorithm=name)
        whole, none = best(LONG_TURNS, lambda: cat_time(program, path, size // SECTOR, 1),
                           lambda: cat_time(program, path, 0, 1))
        seconds = whole - none
        rate = size / seconds / 1e6
        print(f"deciphering {name}: {seconds:.3f} s for {CAT_MIB} MiB, {rate:.0f} MB/s")
        if name == "aes":
            for how, extra in [("with", {}), ("without", NO_AES)]:
                baselines[name] = openssl_rate("aes-256-xts", "512", "-decrypt", extra=extra)
                compare(f"openssl {how} AES instructions", rate, baselines[name])
        elif name in ("serpent", "twofish"):
            baselines[name] = gcrypt_rate(name, GCRYPT_XTS)
            compare("libgcrypt XTS", rate, baselines[name])
            compare("libgcrypt block by block", rate, gcrypt_rate(name, GCRYPT_ECB))
        else:
            parts = [baselines.get(part) for part in ALGORITHMS[name]]
            baselines[name] = 1 / sum(1 / part for part in parts) if all(parts) else None
        compare(f"baseline (at least {least}, goal {goal})", rate, baselines[name])


PROBE = """//! Enciphers or deciphers a buffer many times, as three bytes of input say.
#![tactic(auto)]

use algorithm_names::Algorithm;
use cascade_set::{Keyed, Keys};
use cipher_base::UnitCipher;
use std::io::{self, Read};

fn main(rt: HostRuntime) -> io::Result<()> {
    let mut head = [0; 3];
    rt.reader().read_exact(&mut head)?;
    let [algorithm, direction, count] = head;
    if algorithm >= 8 {
        return Ok(());
    }
    let keyed = Keyed::new(&Keys {
        algorithm: Algorithm::at(algorithm),
        material: [7; 192],
    });
    let mut units = [0; 65536];
    for _ in 0..count {
        for _ in 0..16 {
            if direction == 0 {
                keyed.encipher_units(0, &mut units);
            } else {
                keyed.decipher_units(0, &mut units);
            }
        }
    }
    Ok(())
}
"""


def enciphering(_program, folder):
    if shutil.which("rt") is None:
        print("enciphering: not measured, rt is missing")
        return
    probe = build(folder, ["cascade_set"], "units_probe", PROBE)
    names = list(ALGORITHMS)
    for name in GOALS:
        def seconds(direction, count, number=names.index(name)):
            return processor_time([probe], 0, bytes([number, direction, count]))
        enciphered, deciphered, none = best(TURNS, lambda: seconds(0, 64), lambda: seconds(1, 64),
                                            lambda: seconds(0, 0))
        rates = [(64 << 20) / (time - none) / 1e6 for time in (enciphered, deciphered)]
        print(f"enciphering {name}: {rates[0]:.0f} MB/s")
        compare("deciphering (at least 0.90)", *rates)


def openssl_rate(name, length, *more, extra={}):
    """OpenSSL's MB/s over stretches of this length, or None if it can't be measured."""
    tool = shutil.which("openssl")
    if tool is None:
        return None
    words = [tool, "speed", "-evp", name, *more, "-bytes", length, "-seconds", "1"]
    run = subprocess.run(words, env={**os.environ, **extra}, capture_output=True, text=True)
    # its last line: the name, and thousands of bytes a second
    found = re.findall(rf"^{name}\s+([\d.]+)k\s*$", run.stdout, re.IGNORECASE | re.MULTILINE)
    return float(found[-1]) / 1e3 if found else None


def processor():
    try:
        with open("/proc/cpuinfo") as file:
            return re.search(r"model name\s*: (.*)", file.read()).group(1)
    except (OSError, AttributeError):
        return platform.processor() or "unknown"


def load():
    return f"{os.getloadavg()[0]:.1f}" if hasattr(os, "getloadavg") else "unknown"


MEASURES = {
    "opening": opening,
    "failing": failing,
    "racing": racing,
    "dumping": dumping,
    "formatting": formatting,
    "deciphering": deciphering,
    "threads": threads,
    "enciphering": enciphering,
}


def main(words):
    program = os.path.abspath(words[0] if words else PROGRAM)
    if not os.path.isfile(program):
        sys.exit(f"{program} is missing: `rt run` in crates/vcserve builds it")
    asked = words[1:] or list(MEASURES)
    if not set(asked) <= set(MEASURES):
        sys.exit(__doc__)
    print(f"machine: {processor()}, {os.cpu_count()} processors, load {load()}, "
          f"Python {platform.python_version()}")
    for name in asked:
        with tempfile.TemporaryDirectory() as folder:
            MEASURES[name](program, folder)
    print(f"load at the end {load()}")


if __name__ == "__main__":
    main(sys.argv[1:])
