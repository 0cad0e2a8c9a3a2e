#!/usr/bin/env python3
"""Writes the stored images of this folder, NAME.bin, word by word from docs/FORMAT.md, with the CRC-32 of Python's zlib.

NAME.expected, which is written by hand, is what examples/c/orders.c owes for it: standard output, standard error, the status.
`images.py --check` writes nothing and fails if a stored image is another one.
"""
import os
import struct
import sys
import zlib

HERE = os.path.dirname(os.path.abspath(__file__))
COMMITTED, RELEASED = 1, 2
HOURS, CURRENT, PART = 1, 2, 3


def words(*values):
    return struct.pack("<%dQ" % len(values), *values)


def log(area, head_position, head_lsn, records):
    """An image with these records (kind, mark, digits), copy 0 of the superline active, every other word 0."""
    image = bytearray(8 * (24 + area))
    copy = words(40 | 1 << 32, area, head_position, head_lsn, 1)
    image[64:64 + 48] = copy + words(zlib.crc32(copy))
    position = head_position
    for number, (kind, mark, digits) in enumerate(records):
        lsn, payload = head_lsn + number, bytes.fromhex(digits)
        check = zlib.crc32(struct.pack("<IHQ", len(payload), kind, lsn) + payload)
        record = words(len(payload) | kind << 32 | mark << 48, lsn, check) + payload + bytes(-len(payload) % 8)
        for i in range(0, len(record), 8):
            at = 8 * (24 + position)
            image[at:at + 8] = record[i:i + 8]
            position = (position + 1) % area
    return image


def flipped(image, word, bit):
    image = bytearray(image)
    image[8 * word + bit // 8] ^= 1 << bit % 8
    return image


def format_md():
    """The image that docs/FORMAT.md has word by word."""
    image = bytearray()
    with open(os.path.join(HERE, "../../../docs/FORMAT.md"), encoding="utf-8") as doc:
        for line in doc.read().split("\n## One image, word by word\n")[1].splitlines():
            cells = [cell.strip() for cell in line.split("|")]
            if len(cells) > 3 and cells[1][:1].isdigit():
                first, _, last = cells[1].partition(" to ")
                image += words(int(cells[2], 16)) * (int(last or first) - int(first) + 1)
    return image


# The payload of the record with LSN 42 goes round the end of the ring.
WORN = log(36, 24, 40, [
    (HOURS, COMMITTED, "019990"),
    (PART, RELEASED, "6205"),
    (PART, COMMITTED, "3206412000000000000001"),
    (CURRENT, COMMITTED, "0870"),
    (HOURS, COMMITTED, "020014"),
])
IMAGES = {
    "module": format_md(),
    "worn": WORN,
    "empty-log": log(16, 0, 1, []),
    "no-digits": log(40, 0, 1, [(PART, COMMITTED, "62ab"), (PART, COMMITTED, "6206"), (HOURS, COMMITTED, "")]),
    "empty-file": b"",
    "odd": format_md() + b"\0\0\0",
    "short": format_md()[:8 * 39],
    "long": log(8168, 0, 1, [(PART, COMMITTED, "6205")]) + bytes(8),
    "selector": flipped(WORN, 0, 1),
    # A bit of the newest record's payload; the parts before it are not ordered.
    "damaged": flipped(WORN, 24 + 8, 4),
    "too-many": log(1100, 0, 1, [(PART, COMMITTED, "6205")] * 257),
}

check = sys.argv[1:] == ["--check"]
for name, image in IMAGES.items():
    path = os.path.join(HERE, name + ".bin")
    if check:
        with open(path, "rb") as file:
            if file.read() != bytes(image):
                sys.exit(f"{path} is not what images.py writes")
    else:
        with open(path, "wb") as file:
            file.write(image)
