#!/usr/bin/env python3
"""Our block ciphers beside libgcrypt's: the same blocks under the same keys, in both directions.

  compare_ciphers.py [NAME] [CASES]

NAME is a row of CIPHERS, `serpent` if none is named, and CASES how many keys and lists of blocks
are tried, 10000 if no number is given. The first cases have one bit set or none, the others are
random. A list has ten blocks: the first is treated alone, and the other nine by one call, since
ciphers treat blocks in groups of eight or in pairs, and the rest after them.

No program of the repository enciphers single blocks, so a probe does (probe.py).

The status is 0 if all results agree; 1 if two differ, and then the case with the fewest bits is
printed; 77 if libgcrypt or `rt` is missing.
"""
import ctypes
import ctypes.util
import random
import shutil
import subprocess
import sys
import tempfile

from probe import build

KEY, BLOCK = 32, 16
# a block alone, and nine in a list
BLOCKS = 10 * BLOCK
ECB = 1

# our name: the crate, its type, and libgcrypt's name
CIPHERS = {
    "aes": ("aes_core", "Aes256", b"AES256"),
    "serpent": ("serpent_core", "Serpent256", b"SERPENT256"),
    "twofish": ("twofish_core", "Twofish256", b"TWOFISH"),
}

PROBE = """//! Enciphers and deciphers the blocks that come in behind each key.
#![tactic(auto)]

use cipher_base::BlockCipher;
use {crate}::{type};
use std::io::{{self, Read, Write}};

fn main(rt: HostRuntime) -> io::Result<()> {{
    let mut input = rt.reader();
    let mut output = io::writer(&rt);
    for _ in 0..{cases} {{
        let mut key = [0; 32];
        input.read_exact(&mut key)?;
        let mut block = [0; 16];
        input.read_exact(&mut block)?;
        let mut list = [0; 144];
        input.read_exact(&mut list)?;
        let cipher = {type}::new(&key);
        let mut enciphered = block;
        cipher.encipher(&mut enciphered);
        output.write_all(&enciphered)?;
        let mut enciphered = list;
        cipher.encipher_blocks(&mut enciphered);
        output.write_all(&enciphered)?;
        cipher.decipher(&mut block);
        output.write_all(&block)?;
        cipher.decipher_blocks(&mut list);
        output.write_all(&list)?;
    }}
    Ok(())
}}
"""


def cipher_probe(folder, crate, kind, count):
    """The path of a program that treats `count` cases by our cipher, built in a folder."""
    source = PROBE.format(**{"crate": crate, "type": kind, "cases": count})
    return build(folder, [crate], "cipher_probe", source)


def ours(crate, kind, cases):
    """What our cipher makes of each case: the blocks enciphered, and the blocks deciphered."""
    with tempfile.TemporaryDirectory() as folder:
        program = cipher_probe(folder, crate, kind, len(cases))
        records = b"".join(key + blocks for key, blocks in cases)
        told = subprocess.run([program], input=records, capture_output=True, check=True).stdout
    pairs = [told[i : i + 2 * BLOCKS] for i in range(0, len(told), 2 * BLOCKS)]
    return [(pair[:BLOCKS], pair[BLOCKS:]) for pair in pairs]


def theirs(library, name, cases):
    """The same of libgcrypt's cipher."""
    answers = []
    algorithm = library.gcry_cipher_map_name(name)
    for key, blocks in cases:
        handle = ctypes.c_void_p()
        assert library.gcry_cipher_open(ctypes.byref(handle), algorithm, ECB, 0) == 0
        assert library.gcry_cipher_setkey(handle, key, KEY) == 0
        made = []
        for call in (library.gcry_cipher_encrypt, library.gcry_cipher_decrypt):
            out = ctypes.create_string_buffer(BLOCKS)
            assert call(handle, out, BLOCKS, blocks, BLOCKS) == 0
            made.append(out.raw)
        library.gcry_cipher_close(handle)
        answers.append(tuple(made))
    return answers


def cases_of(count):
    """Records of a key and its blocks: none set, then each bit alone, then random ones."""
    size = KEY + BLOCKS
    numbers = [0] + [1 << i for i in range(8 * size)]
    numbers += [random.getrandbits(8 * size) for _ in range(count)]
    records = [number.to_bytes(size, "big") for number in numbers[:count]]
    return [(record[:KEY], record[KEY:]) for record in records]


def bits_of(pair):
    """How many bits are set in the key and the blocks of a case."""
    return sum(byte.bit_count() for part in pair[0] for byte in part)


def main():
    name = sys.argv[1] if len(sys.argv) > 1 else "serpent"
    count = int(sys.argv[2]) if len(sys.argv) > 2 else 10000
    crate, kind, other = CIPHERS[name]
    found = ctypes.util.find_library("gcrypt")
    if found is None or shutil.which("rt") is None:
        print("skipped: libgcrypt or rt is missing", file=sys.stderr)
        return 77
    library = ctypes.CDLL(found)
    library.gcry_check_version.restype = ctypes.c_char_p
    library.gcry_check_version(None)
    cases = cases_of(count)
    pairs = zip(cases, ours(crate, kind, cases), theirs(library, other, cases), strict=True)
    differing = [pair for pair in pairs if pair[1] != pair[2]]
    if not differing:
        print(f"{name}: {count} keys and lists of blocks agree with libgcrypt in both directions")
        return 0
    (key, blocks), we, they = min(differing, key=bits_of)
    print(f"{name}: {len(differing)} of {count} differ; under the key {key.hex()}")
    for i, direction in enumerate(("enciphered", "deciphered")):
        print(f"{blocks.hex()} {direction}: {we[i].hex()}, libgcrypt {they[i].hex()}")
    return 1


if __name__ == "__main__":
    sys.exit(main())
