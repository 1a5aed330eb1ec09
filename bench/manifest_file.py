#!/usr/bin/env python3
"""Writes a manifest of many edits:

    manifest_file.py FILE EDITS LIVE_FILES

The first record states the comparator, a log number, the next file's number and the last sequence, and adds so many
files at level 1, as RocksDB begins a manifest with what is live. Each record behind it is an edit that deletes the
oldest file and adds another. The files' keys are apart from each other. Log records have legacy headers.
"""
import struct
import sys

BLOCK = 32768
HEADER = 7
FULL, FIRST, MIDDLE, LAST = 1, 2, 3, 4  # the types of records, whole or split
COMPARATOR, LOG_NUMBER, NEXT_FILE, LAST_SEQUENCE, DELETE_FILE, ADD_FILE = 1, 2, 3, 4, 6, 7
LEVEL = 1
FILE_SIZE = 1000
FIRST_FILE = 10
PUT = 1  # the kind of record in an internal key
PRIME = 9999991  # files beyond it would share their keys


def crc32c_table():
    for value in range(256):
        for _ in range(8):
            value = (value >> 1) ^ (0x82F63B78 if value & 1 else 0)
        yield value


TABLE = list(crc32c_table())


def masked_crc32c(data):
    crc = 0xFFFFFFFF
    for byte in data:
        crc = TABLE[(crc ^ byte) & 0xFF] ^ (crc >> 8)
    crc ^= 0xFFFFFFFF
    rotated = (crc >> 15) | (crc << 17) & 0xFFFFFFFF
    return (rotated + 0xA282EAD8) & 0xFFFFFFFF


assert masked_crc32c(b"123456789") == 0xC78AB0E5


def varint(number):
    out = bytearray()
    while number >= 128:
        out.append(number & 127 | 128)
        number >>= 7
    out.append(number)
    return bytes(out)


def prefixed(data):
    return varint(len(data)) + data


def internal_key(user_key, sequence):
    return user_key + struct.pack("<Q", sequence << 8 | PUT)


def first_edit(files, live_files):
    return (
        varint(COMPARATOR)
        + prefixed(b"leveldb.BytewiseComparator")
        + varint(LOG_NUMBER)
        + varint(FIRST_FILE - 1)
        + varint(NEXT_FILE)
        + varint(FIRST_FILE + files)
        + varint(LAST_SEQUENCE)
        + varint(files)
        + b"".join(add_file(index) for index in range(live_files))
    )


def add_file(index):
    """The field that adds a file. Neighbours by number lie far apart by key."""
    place = index * 7654321 % PRIME
    smallest = internal_key(b"%08d-a" % place, index)
    largest = internal_key(b"%08d-b" % place, index)
    sizes = varint(LEVEL) + varint(FIRST_FILE + index) + varint(FILE_SIZE)
    return varint(ADD_FILE) + sizes + prefixed(smallest) + prefixed(largest)


def delete_file(index):
    return varint(DELETE_FILE) + varint(LEVEL) + varint(FIRST_FILE + index)


def edit(index, live_files):
    return delete_file(index - live_files) + add_file(index)


class Log:
    """A log whose records are split at the ends of blocks."""

    def __init__(self, file):
        self.file = file
        self.left = BLOCK

    def write_piece(self, kind, data):
        checksum = masked_crc32c(bytes([kind]) + data)
        self.file.write(struct.pack("<IHB", checksum, len(data), kind) + data)
        self.left -= HEADER + len(data)

    def write(self, payload):
        is_first = True
        while True:
            if self.left < HEADER:
                self.file.write(bytes(self.left))
                self.left = BLOCK
            data, payload = payload[: self.left - HEADER], payload[self.left - HEADER :]
            if payload:
                self.write_piece(FIRST if is_first else MIDDLE, data)
            else:
                self.write_piece(FULL if is_first else LAST, data)
                return
            is_first = False


def main():
    path, edits, live_files = sys.argv[1], int(sys.argv[2]), int(sys.argv[3])
    files = live_files + edits
    if files >= PRIME:
        sys.exit(f"at most {PRIME - 1} files")
    with open(path, "wb") as file:
        log = Log(file)
        log.write(first_edit(files, live_files))
        for index in range(live_files, files):
            log.write(edit(index, live_files))


main()
