#!/usr/bin/env python3
"""VeraCrypt containers by another program: the eight algorithms, each under both PRFs.

It shares no line with vcserve and follows the published formats: RFC 8018 by hashlib, CRC-32 by
zlib, IEEE 1619 over AES and ChaCha20 by the package `cryptography`, IEEE 1619 over Serpent and
Twofish by libgcrypt. The headers are standard ones, with `format` their backups too, and with `hide` those
of a hidden volume.

  independent_container.py make FILE SIZE PASSWORD PIM [--zeros] [--prf NAME] [--algorithm NAME]
      a container of SIZE bytes. Its sector i holds the bytes (i + j) mod 256 for j from 0 to
      511, or, from the second MiB on, nothing that was enciphered. Salt and master keys are made
      from a seed. --zeros: as the small test container: zero salt, master keys 00, 01 and so on
  independent_container.py cat FILE FIRST COUNT PASSWORD PIM [--prf NAME] [--algorithm NAME]
      writes COUNT sectors from FIRST on, deciphered
  independent_container.py format FILE SIZE PASSWORD PIM KEY [--prf NAME] [--algorithm NAME] [--sector N]
      a formatted container of SIZE bytes: ChaCha20 under KEY, 64 hexadecimal digits, fills it and
      gives the master keys after that; the standard header and its backup take salts from the fill
  independent_container.py hide FILE SIZE PASSWORD PIM KEY [--prf NAME] [--algorithm NAME] [--sector N]
      gives the container a hidden volume of SIZE bytes: ChaCha20 under KEY gives the master keys, then
      the salts of the hidden header and of its backup
  independent_container.py change FILE PASSWORD PIM NEW_PASSWORD NEW_PIM KEY [--hidden] [--restore] [--prf NAME]
          [--new-prf NAME] [--algorithm NAME]
      writes the standard headers anew, or with --hidden the hidden ones, under another password: ChaCha20 under
      KEY gives the salts, first the primary header's. --restore: the primary header alone, from its backup
  independent_container.py expand FILE SIZE PASSWORD PIM KEY [--prf NAME] [--algorithm NAME]
      gives the container SIZE bytes, and its volume all of them up to the new backup headers: ChaCha20 under KEY fills
      it from its old backup headers on, and then gives the standard header's salt; the backup takes its salt from the fill

The PRFs are sha512, the default, and sha256. The algorithms are the names in
ALGORITHMS, and the algorithm defaults to aes. The status is 77 if `cryptography` is missing, or libgcrypt
for an algorithm with Serpent or Twofish.
"""
import argparse
import collections
import ctypes
import ctypes.util
import functools
import hashlib
import struct
import sys
import zlib

try:
    from cryptography.hazmat.primitives.ciphers import Cipher, algorithms, modes
except ImportError:
    print("skipped: the package cryptography is missing", file=sys.stderr)
    sys.exit(77)

GROUP = 131072
SECTOR = 512

# In the order in which opening tries them.
PRFS = ["sha512", "sha256"]

# By name, the ciphers in the order of enciphering.
ALGORITHMS = {
    "aes": ["aes"],
    "serpent": ["serpent"],
    "twofish": ["twofish"],
    "aes-twofish": ["twofish", "aes"],
    "aes-twofish-serpent": ["serpent", "twofish", "aes"],
    "serpent-aes": ["aes", "serpent"],
    "serpent-twofish-aes": ["aes", "twofish", "serpent"],
    "twofish-serpent": ["serpent", "twofish"],
}

# libgcrypt's names, and its number for XTS.
GCRYPT_NAMES = {"aes": b"AES256", "serpent": b"SERPENT256", "twofish": b"TWOFISH"}
GCRYPT_XTS = 13

Fields = collections.namedtuple("Fields", "hidden volume start encrypted flags sector material")


@functools.lru_cache(maxsize=None)
def gcrypt():
    """The library libgcrypt, or None if it is missing or knows no XTS."""
    found = ctypes.util.find_library("gcrypt")
    if found is None:
        return None
    library = ctypes.CDLL(found)
    library.gcry_check_version.restype = ctypes.c_char_p
    library.gcry_check_version(None)
    handle = ctypes.c_void_p()
    number = library.gcry_cipher_map_name(GCRYPT_NAMES["serpent"])
    if library.gcry_cipher_open(ctypes.byref(handle), number, GCRYPT_XTS, 0) != 0:
        return None
    library.gcry_cipher_close(handle)
    return library


def is_available(algorithm):
    return ALGORITHMS[algorithm] == ["aes"] or gcrypt() is not None


def gcrypt_handle(cipher, mode, keys):
    """A handle of libgcrypt for a cipher with its keys, which has to be closed."""
    library = gcrypt()
    handle = ctypes.c_void_p()
    number = library.gcry_cipher_map_name(GCRYPT_NAMES[cipher])
    assert library.gcry_cipher_open(ctypes.byref(handle), number, mode, 0) == 0
    assert library.gcry_cipher_setkey(handle, keys, len(keys)) == 0
    return handle


def gcrypt_xts(cipher, keys, unit, data, enciphering):
    library = gcrypt()
    handle = gcrypt_handle(cipher, GCRYPT_XTS, keys)
    call = library.gcry_cipher_encrypt if enciphering else library.gcry_cipher_decrypt
    out = ctypes.create_string_buffer(len(data))
    assert library.gcry_cipher_setiv(handle, unit, len(unit)) == 0
    assert call(handle, out, len(data), bytes(data), len(data)) == 0
    library.gcry_cipher_close(handle)
    return out.raw


def xts(cipher, keys, unit, data, enciphering):
    """One cipher's pass over a data unit; the keys are the main key and then the tweak key."""
    number = struct.pack("<QQ", unit, 0)
    if cipher != "aes":
        return gcrypt_xts(cipher, keys, number, data, enciphering)
    mode = Cipher(algorithms.AES(keys), modes.XTS(number))
    work = mode.encryptor() if enciphering else mode.decryptor()
    return work.update(data) + work.finalize()


def passes(algorithm, keys):
    """The ciphers in the order of enciphering, each with its two keys; all main keys come first."""
    ciphers = ALGORITHMS[algorithm]
    parts = [keys[32 * i:32 * i + 32] for i in range(2 * len(ciphers))]
    pairs = [main + tweak for main, tweak in zip(parts, parts[len(ciphers):])]
    return list(zip(ciphers, pairs))


def encipher(keys, unit, plain, algorithm="aes"):
    for cipher, pair in passes(algorithm, keys):
        plain = xts(cipher, pair, unit, plain, True)
    return plain


def decipher(keys, unit, ciphertext, algorithm="aes"):
    for cipher, pair in reversed(passes(algorithm, keys)):
        ciphertext = xts(cipher, pair, unit, ciphertext, False)
    return ciphertext


def iterations(pim):
    return 500000 if pim == 0 else 15000 + 1000 * pim


def key_length(algorithm):
    return 64 * len(ALGORITHMS[algorithm])


def derive(password, salt, pim, prf="sha512", algorithm="aes"):
    return hashlib.pbkdf2_hmac(prf, password.encode(), salt, iterations(pim), key_length(algorithm))


def body(volume, start, material, *, hidden=0, encrypted=None, flags=0, sector=512, magic=b"VERA",
         version=5, program=0x010B, keys_xor=0, fields_xor=0):
    """A header's body. The checksums are right, but for the bits of keys_xor and fields_xor."""
    keys = material.ljust(256, b"\0")
    encrypted = volume if encrypted is None else encrypted
    front = magic + struct.pack(">HHI", version, program, zlib.crc32(keys) ^ keys_xor) + bytes(16)
    front += struct.pack(">QQQQII", hidden, volume, start, encrypted, flags, sector)
    front = front.ljust(188, b"\0")
    return front + struct.pack(">I", zlib.crc32(front) ^ fields_xor) + keys


def fields_of(plain):
    """The fields of a deciphered body, or None if its magic or a checksum is wrong."""
    keys, fields = struct.unpack(">I", plain[8:12]) + struct.unpack(">I", plain[188:192])
    if plain[:4] != b"VERA" or zlib.crc32(plain[:188]) != fields or zlib.crc32(plain[192:]) != keys:
        return None
    return Fields(*struct.unpack(">QQQQII", plain[28:68]), plain[192:384])


def header(password, pim, salt, plain, prf="sha512", algorithm="aes"):
    return salt + encipher(derive(password, salt, pim, prf, algorithm), 0, plain, algorithm)


def header_fields(path, place, password, pim, prf="sha512", algorithm="aes"):
    """The fields of the header at a place of the container, or None if it isn't valid."""
    with open(path, "rb") as file:
        file.seek(place)
        head = file.read(SECTOR)
    keys = derive(password, head[:64], pim, prf, algorithm)
    return fields_of(decipher(keys, 0, head[64:], algorithm))


def seeded(size, password, pim, algorithm):
    """Salt and master keys, as good as random."""
    seed = hashlib.shake_256(f"{password} {pim} {size}".encode()).digest(64 + key_length(algorithm))
    return seed[:64], seed[64:]


def pattern(i):
    """What sector i holds."""
    return bytes((i + j) % 256 for j in range(SECTOR))


def make(path, size, password, pim, zeros=False, *, prf="sha512", algorithm="aes", volume=None,
         start=GROUP, **changed):
    """Writes a container; `changed` goes to the header's body."""
    # the whole sectors between the header groups
    room = (size - 2 * GROUP) // SECTOR * SECTOR
    volume = room if volume is None else volume
    salt, material = seeded(size, password, pim, algorithm)
    if zeros:
        salt, material = bytes(64), bytes(range(key_length(algorithm)))
    with open(path, "wb") as file:
        file.truncate(size)
        plain = body(volume, start, material, **changed)
        file.write(header(password, pim, salt, plain, prf, algorithm))
        count = (min(volume, size - GROUP - start)) // SECTOR
        # the last sector too, wherever it is
        for i in [*range(min(count, (1 << 20) // SECTOR)), *([count - 1] if count else [])]:
            file.seek(start + i * SECTOR)
            file.write(encipher(material, start // SECTOR + i, pattern(i), algorithm))


def random_stream(key, count):
    """The first bytes of the random stream; its block counter and nonce are 0."""
    return Cipher(algorithms.ChaCha20(key, bytes(16)), mode=None).encryptor().update(bytes(count))


def formatted(size, password, pim, key, prf="sha512", algorithm="aes", sector=SECTOR):
    """The image of a formatted container."""
    stream = random_stream(key, size + key_length(algorithm))
    image = bytearray(stream[:size])
    plain = body(size - 2 * GROUP, GROUP, stream[size:], sector=sector)
    for place in (0, size - GROUP):
        salt = stream[place:place + 64]
        image[place:place + SECTOR] = header(password, pim, salt, plain, prf, algorithm)
    return bytes(image)


def hidden(image, size, password, pim, key, prf="sha512", algorithm="aes", sector=SECTOR):
    """The image with a hidden volume of this size before the backup headers."""
    keys = key_length(algorithm)
    stream = random_stream(key, keys + 128)
    plain = body(size, len(image) - GROUP - size, stream[:keys], hidden=size, sector=sector)
    image = bytearray(image)
    for place, salt in ((GROUP // 2, stream[keys:keys + 64]), (len(image) - GROUP // 2, stream[keys + 64:])):
        image[place:place + SECTOR] = header(password, pim, salt, plain, prf, algorithm)
    return bytes(image)


def changed(image, place, password, pim, key, prf="sha512", algorithm="aes", *, new_password, new_pim, new_prf, restores=False):
    """The image with the header at this place, or with --restore its backup, written anew in both places or in the first."""
    image, salts = bytearray(image), random_stream(key, 128)
    places = [place, len(image) - GROUP + place]
    head = bytes(image[places[restores]:places[restores] + SECTOR])
    plain = decipher(derive(password, head[:64], pim, prf, algorithm), 0, head[64:], algorithm)
    for at, salt in list(zip(places, (salts[:64], salts[64:])))[:1 if restores else 2]:
        image[at:at + SECTOR] = header(new_password, new_pim, salt, plain, new_prf, algorithm)
    return bytes(image)


def expanded(image, size, password, pim, key, prf="sha512", algorithm="aes"):
    """The image with this size, and the standard volume with all of it up to the new backup headers."""
    old = fields_of(decipher(derive(password, image[:64], pim, prf, algorithm), 0, image[64:SECTOR], algorithm))
    start = len(image) - GROUP
    words = (size - start + 3) // 4 * 4
    stream = random_stream(key, words + 64)
    image = bytearray(image[:start] + stream[:size - start])
    plain = body(size - GROUP - old.start, old.start, old.material, sector=old.sector)
    place = size - GROUP
    image[place:place + SECTOR] = header(password, pim, bytes(image[place:place + 64]), plain, prf, algorithm)
    image[:SECTOR] = header(password, pim, stream[words:], plain, prf, algorithm)
    return bytes(image)


def read(path, first, count, password, pim, prf="sha512", algorithm="aes"):
    """The deciphered sectors; None if the header is not valid."""
    fields = header_fields(path, 0, password, pim, prf, algorithm)
    if fields is None:
        return None
    unit = fields.start // SECTOR + first
    with open(path, "rb") as file:
        file.seek(unit * SECTOR)
        sectors = [file.read(SECTOR) for _ in range(count)]
    return b"".join(decipher(fields.material, unit + i, sector, algorithm)
                    for i, sector in enumerate(sectors))


def arguments():
    top = argparse.ArgumentParser(description=__doc__,
                                  formatter_class=argparse.RawDescriptionHelpFormatter)
    commands = top.add_subparsers(dest="command", required=True)
    for command, words in [("make", "size password pim"), ("cat", "first count password pim"),
                           ("format", "size password pim key"), ("hide", "size password pim key"),
                           ("change", "password pim new_password new_pim key"), ("expand", "size password pim key")]:
        parser = commands.add_parser(command)
        parser.add_argument("file")
        for word in words.split():
            parser.add_argument(word, type={"password": str, "new_password": str, "key": bytes.fromhex}.get(word, int))
        parser.add_argument("--prf", choices=PRFS, default=PRFS[0])
        parser.add_argument("--algorithm", choices=ALGORITHMS, default="aes")
        if command == "make":
            parser.add_argument("--zeros", action="store_true")
        if command == "change":
            parser.add_argument("--hidden", action="store_true")
            parser.add_argument("--restore", action="store_true")
            parser.add_argument("--new-prf", choices=PRFS, default=None)
        if command in ("format", "hide"):
            parser.add_argument("--sector", type=int, default=SECTOR)
    return top.parse_args()


def main(a):
    if not is_available(a.algorithm):
        print("skipped: libgcrypt is missing", file=sys.stderr)
        return 77
    how = {"prf": a.prf, "algorithm": a.algorithm}
    if a.command == "make":
        make(a.file, a.size, a.password, a.pim, a.zeros, **how)
    elif a.command == "format":
        image = formatted(a.size, a.password, a.pim, a.key, sector=a.sector, **how)
        with open(a.file, "wb") as file:
            file.write(image)
    elif a.command == "hide":
        with open(a.file, "r+b") as file:
            image = hidden(file.read(), a.size, a.password, a.pim, a.key, sector=a.sector, **how)
            file.seek(0)
            file.write(image)
    elif a.command == "change":
        with open(a.file, "r+b") as file:
            image = changed(file.read(), GROUP // 2 if a.hidden else 0, a.password, a.pim, a.key, **how, new_password=a.new_password,
                            new_pim=a.new_pim, new_prf=a.new_prf or a.prf, restores=a.restore)
            file.seek(0)
            file.write(image)
    elif a.command == "expand":
        with open(a.file, "r+b") as file:
            image = expanded(file.read(), a.size, a.password, a.pim, a.key, **how)
            file.seek(0)
            file.write(image)
    else:
        plain = read(a.file, a.first, a.count, a.password, a.pim, **how)
        if plain is None:
            sys.exit("no valid header")
        sys.stdout.buffer.write(plain)
    return 0


if __name__ == "__main__":
    sys.exit(main(arguments()))
