#!/usr/bin/env python3
"""Prints the length of each stream that the examples of sends await, and what its END states.

For each stream: its name, its count of bytes, the sums that END states of all before it, and the sums in
its last 32 bytes. It shares nothing with the crates: the transcript of the examples has these numbers.
use: expected_streams.py [FOLDER]     (with a folder, each stream is written there too)
"""
import os
import struct
import sys

MASK = (1 << 64) - 1
NUMBERS_END = 1 << 48
NOW = 1700000000
FIRST = 0x1_0000_0001
SECOND = 0x1_0000_0002
# the first snapshot of a second pool, and what a redacted one is redacted for
OTHER = 0x2_0000_0001
GUIDS = (0x1_0000_0002, 0x1_0000_0003)


def added(before, data):
    a, b, c, d = before
    for (word,) in struct.iter_unpack("<I", data):
        a = (a + word) & MASK
        b = (b + a) & MASK
        c = (c + b) & MASK
        d = (d + c) & MASK
    return a, b, c, d


class Stream:
    """A full stream, or one from a source, as far as it was put."""

    def __init__(self, name, to, source=0, flags=12, redact=(), from_redact=(), point=None):
        self.bytes = bytearray()
        self.sums = (0, 0, 0, 0)
        self.to = to
        info = 17 | (1 << 23 if redact else 0) | (1 << 22 if point else 0)
        payload = b""
        if point or redact or from_redact:
            payload = b"ZSTBEG01" + struct.pack("<4Q", *(point or (0, 0)), len(redact), len(from_redact))
            payload += b"".join(guid.to_bytes(8, "little") for guid in (*redact, *from_redact))
        begin = [(4, 4, len(payload)), (8, 8, 0x2F5BACBAC), (16, 8, info), (24, 8, NOW), (32, 4, 2), (36, 4, flags), (40, 8, to)]
        self.put(0, begin + [(48, 8, source), (56, len(name), name)], payload)

    def put(self, kind, fields, payload=b""):
        """A record of these fields (place, width, value), sealed unless it is BEGIN, and its payload."""
        record = bytearray(312)
        for place, width, value in [(0, 4, kind)] + fields:
            record[place : place + width] = value if isinstance(value, bytes) else value.to_bytes(width, "little")
        if kind != 0:
            struct.pack_into("<4Q", record, 280, *added(self.sums, record[:280]))
        self.sums = added(added(self.sums, record), payload)
        self.bytes += record + payload

    def object(self, number, end, size=512, bonus=b""):
        fields = [(8, 8, number), (16, 4, 19), (24, 4, size), (28, 4, len(bonus)), (34, 1, 1)]
        self.put(1, fields + [(40, 8, self.to), (56, 8, max(end, 1) - 1)], bonus + bytes(-len(bonus) % 8))

    def tail(self, number, offset):
        self.free(number, offset, MASK)

    def free(self, number, offset, length):
        self.put(4, [(8, 8, number), (16, 8, offset), (24, 8, length), (32, 8, self.to)])

    def write(self, number, offset, first, size=512):
        data = bytes([first]) + bytes(size - 1)
        self.put(3, [(8, 8, number), (16, 4, 19), (24, 8, offset), (32, 8, size), (40, 8, self.to)], data)

    def spill(self, number, first, size=512):
        data = bytes([first]) + bytes(size - 1)
        self.put(7, [(8, 8, number), (16, 8, size), (24, 8, self.to)], data)

    def redact(self, number, offset, length):
        self.put(10, [(8, 8, number), (16, 8, offset), (24, 8, length), (32, 8, self.to)])

    def absent(self, first, count):
        self.put(2, [(8, 8, first), (16, 8, count), (24, 8, self.to)])

    def end(self):
        stated = self.sums
        self.put(5, [(8 + 8 * i, 8, n) for i, n in enumerate(stated)] + [(40, 8, self.to)])
        return stated, struct.unpack("<4Q", self.bytes[-32:])


def empty_file_system():
    stream = Stream(b"tank/a@s", FIRST)
    stream.absent(1, NUMBERS_END - 1)
    return stream


def small():
    stream = Stream(b"tank/a@s", FIRST)
    stream.object(1, 1)
    stream.tail(1, 512)
    stream.write(1, 0, 0xAA)
    stream.absent(2, NUMBERS_END - 2)
    return stream


def rewritten_block():
    stream = Stream(b"tank/a@t", SECOND, FIRST)
    stream.object(1, 1)
    stream.tail(1, 512)
    stream.write(1, 0, 0xAA)
    return stream


def reallocated_object():
    stream = Stream(b"tank/a@t", SECOND, FIRST)
    stream.object(1, 2)
    stream.tail(1, 1024)
    stream.free(1, 0, 512)
    stream.write(1, 512, 0xBB)
    return stream


def distant_block():
    stream = Stream(b"tank/a@s", FIRST)
    stream.object(1, 1073741826)
    stream.tail(1, 1073741826 * 512)
    stream.write(1, 0, 0xAA)
    stream.free(1, 512, 1073741824 * 512)
    stream.write(1, 1073741825 * 512, 0xBB)
    stream.absent(2, NUMBERS_END - 2)
    return stream


def spill_block():
    stream = Stream(b"tank/a@t", SECOND, FIRST)
    stream.object(1, 1)
    stream.spill(1, 0xCC)
    stream.tail(1, 512)
    return stream


def clone():
    stream = Stream(b"tank/b@t", SECOND, FIRST, flags=13)
    stream.object(1, 1)
    stream.tail(1, 512)
    stream.write(1, 0, 0xBB)
    return stream


def freed_objects():
    stream = Stream(b"tank/a@t", SECOND, FIRST)
    stream.absent(1, 2)
    stream.object(4, 0)
    stream.tail(4, 0)
    return stream


def one_block_of_many():
    stream = Stream(b"gen/f7@h", SECOND, FIRST)
    stream.object(3, 255, size=131072, bonus=(3).to_bytes(8, "little"))
    stream.tail(3, 255 * 131072)
    stream.write(3, 9 * 131072, 0xEE, size=131072)
    return stream


def scattered_blocks():
    stream = Stream(b"tank/a@t", SECOND, FIRST)
    stream.object(1, 128 * 299 + 1)
    stream.tail(1, (128 * 299 + 1) * 512)
    stream.write(1, 0, 0xBB)
    return stream


def redacted(name=b"tank/a@s"):
    stream = Stream(name, FIRST, redact=GUIDS)
    stream.object(1, 3)
    stream.tail(1, 1536)
    stream.write(1, 0, 0xA0)
    stream.redact(1, 512, 512)
    stream.write(1, 1024, 0xA2)
    stream.absent(2, NUMBERS_END - 2)
    return stream


def relayed():
    return redacted(b"tank/b@s")


def relayed_rest():
    stream = Stream(b"tank/b@s", FIRST, redact=GUIDS, point=(1, 512))
    stream.object(1, 3)
    stream.tail(1, 1536)
    stream.redact(1, 512, 512)
    stream.write(1, 1024, 0xA2)
    stream.absent(2, NUMBERS_END - 2)
    return stream


def from_redacted():
    stream = Stream(b"tank/b@t", OTHER, FIRST, redact=GUIDS, from_redact=GUIDS)
    stream.object(1, 3)
    stream.tail(1, 1536)
    stream.write(1, 512, 0xD1)
    return stream


def from_redacted_still():
    stream = Stream(b"tank/b@t", OTHER, FIRST, redact=GUIDS, from_redact=GUIDS)
    stream.object(1, 3)
    stream.tail(1, 1536)
    stream.write(1, 0, 0xD0)
    stream.redact(1, 512, 512)
    return stream


STREAMS = [
    empty_file_system,
    small,
    rewritten_block,
    reallocated_object,
    distant_block,
    spill_block,
    clone,
    freed_objects,
    one_block_of_many,
    scattered_blocks,
    redacted,
    relayed,
    relayed_rest,
    from_redacted,
    from_redacted_still,
]

for make in STREAMS:
    stream = make()
    stated, sealed = stream.end()
    print(f"{make.__name__} {len(stream.bytes)}")
    print("    stated", " ".join(f"{n:_}" for n in stated))
    print("    sealed", " ".join(f"{n:_}" for n in sealed))
    if len(sys.argv) > 1:
        with open(os.path.join(sys.argv[1], make.__name__), "wb") as file:
            file.write(stream.bytes)
