#!/usr/bin/env python3
"""What a drill comes to, by another program: the requests that are made of its number, and what they leave.

It knows formatting and ciphers from independent_container.py and the drill from docs/FORMAT.md, "The drill", and
shares no code with vcserve.

  drill_model.py N      the lines of the drill of N, a number below 2^32

The status is 77 if the package `cryptography` is missing.
"""
import argparse
import hashlib
import struct

from independent_container import GROUP, SECTOR, decipher, derive, fields_of, formatted

# independent_container ends with status 77 without this package
from cryptography.hazmat.primitives.ciphers import Cipher, algorithms

SIZE = 5_242_880
CLIENTS, REQUESTS = 3, 12
# the sectors of each client, and those that a request may begin at
RANGE, HALF = 3072, 1536


def key_of(number):
    return struct.pack("<Q", number) + bytes(24)


def words_of(number):
    """The words of stream 1 of the generator, one for each request of each client."""
    nonce = struct.pack("<QQ", 0, 1)
    count = CLIENTS * REQUESTS
    stream = Cipher(algorithms.ChaCha20(key_of(number), nonce), mode=None).encryptor().update(bytes(4 * count))
    return struct.unpack(f"<{count}I", stream)


def request_of(word, client, request):
    """Whether it is a read, its first sector, its count of sectors and the bytes of a write."""
    is_read = word % 4 == 0 and request != 0
    first = RANGE * client + word // 4 % HALF
    count = 1 + word // 8192 % HALF
    start = word // 16777216
    data = b"" if is_read else bytes((start + i) % 256 for i in range(SECTOR * count))
    return is_read, first, count, data


def opening_array(number):
    """The plain sectors of the formatted container."""
    image = formatted(SIZE, "drill", 1, key_of(number))
    fields = fields_of(decipher(derive("drill", image[:64], 1), 0, image[64:SECTOR]))
    assert (fields.start, fields.volume) == (GROUP, SIZE - 2 * GROUP)
    return [decipher(fields.material, at // SECTOR, image[at:at + SECTOR])
            for at in range(fields.start, fields.start + fields.volume, SECTOR)]


def drill(number):
    array = opening_array(number)
    words = words_of(number)
    reads = writes = sectors = 0
    for client in range(CLIENTS):
        for request in range(REQUESTS):
            is_read, first, count, data = request_of(words[REQUESTS * client + request], client, request)
            if is_read:
                reads += 1
                continue
            writes += 1
            sectors += count
            for i in range(count):
                array[first + i] = data[SECTOR * i:SECTOR * (i + 1)]
    return reads, writes, sectors, hashlib.sha256(b"".join(array)).hexdigest()


def lines_of(number):
    reads, writes, sectors, digest = drill(number)
    return (f"drill {number}\nclients {CLIENTS}\nrequests {CLIENTS * REQUESTS}\nreads {reads}\nwrites {writes}\n"
            f"sectors {sectors}\nplain {digest}\n")


def number_of(text):
    number = int(text)
    if not 0 <= number < 1 << 32:
        raise ValueError(text)
    return number


def main():
    parser = argparse.ArgumentParser(description="What a drill comes to.")
    parser.add_argument("number", type=number_of)
    print(lines_of(parser.parse_args().number), end="")


if __name__ == "__main__":
    main()
