#!/usr/bin/env python3
"""Writes a stream of ten items, and the text of its dump, to the two files that are named.

It shares nothing with the crates: the tests of zst_stream_tests take the text, with its sums, from here.
use: ten_items.py STREAM TEXT
"""
import struct
import sys

MASK = (1 << 64) - 1
GUID = 0x2_0000_0007

stream = bytearray()
lines = []
sums = (0, 0, 0, 0)
payload_bytes = 0


def added(before, data):
    a, b, c, d = before
    for (word,) in struct.iter_unpack("<I", data):
        a = (a + word) & MASK
        b = (b + a) & MASK
        c = (c + b) & MASK
        d = (d + c) & MASK
    return a, b, c, d


def emit(kind, fields, text, payload=b""):
    """A record of these fields (place, width, value), sealed unless it is BEGIN, and its payload."""
    global sums, payload_bytes
    record = bytearray(312)
    for place, width, value in [(0, 4, kind)] + fields:
        record[place : place + width] = value if isinstance(value, bytes) else value.to_bytes(width, "little")
    if kind != 0:
        struct.pack_into("<4Q", record, 280, *added(sums, record[:280]))
    lines.append(f"{len(stream)} {text}")
    sums = added(added(sums, record), payload)
    payload_bytes += len(payload)
    stream.extend(record + payload)


def free_objects(first, count):
    emit(2, [(8, 8, first), (16, 8, count), (24, 8, GUID)], f"FREEOBJECTS first {first} count {count}")


def put_object(number, kind, bonus_kind, size, bonus, max_block):
    fields = [(8, 8, number), (16, 4, kind), (20, 4, bonus_kind), (24, 4, size), (28, 4, len(bonus)), (34, 1, 1)]
    text = f"OBJECT object {number} type {kind} bonustype {bonus_kind} size {size} bonus {len(bonus)}"
    emit(1, fields + [(40, 8, GUID), (56, 8, max_block)], text, bonus + bytes(-len(bonus) % 8))


def free(number, offset, length):
    shown = "to-end" if length == MASK else length
    fields = [(8, 8, number), (16, 8, offset), (24, 8, length), (32, 8, GUID)]
    emit(4, fields, f"FREE object {number} offset {offset} length {shown}")


def write(number, kind, offset, data):
    fields = [(8, 8, number), (16, 4, kind), (24, 8, offset), (32, 8, len(data)), (40, 8, GUID)]
    emit(3, fields, f"WRITE object {number} type {kind} offset {offset} length {len(data)}", data)


name = b"tank/home@a"
emit(
    0,
    [(8, 8, 0x2F5BACBAC), (16, 8, 17), (24, 8, 1700000001), (32, 4, 2), (36, 4, 12), (40, 8, GUID), (56, len(name), name)],
    f"BEGIN features 4 kind 2 flags 12 time 1700000001 toguid {GUID:016x} fromguid {0:016x} payload 0 name {name.decode()}",
)
free_objects(0, 1)
put_object(1, 21, 0, 1024, b"", 0)
free(1, 1024, MASK)
write(1, 21, 0, bytes([7]) * 1024)
free(1, 1024, 2048)
put_object(2, 19, 44, 131072, bytes([3]) * 164, 1)
free(2, 262144, MASK)
write(2, 19, 0, bytes([9]) * 131072)
free(2, 131072, 131072)
free_objects(3, (1 << 48) - 3)
stated = sums
emit(5, [(8 + 8 * i, 8, n) for i, n in enumerate(stated)] + [(40, 8, GUID)], "END sums %d %d %d %d" % stated)
lines.append("counts begin 1 object 2 freeobjects 2 write 2 free 4 end 1 spill 0 redact 0")
lines.append(f"records 12 payload {payload_bytes} stream {len(stream)}")

with open(sys.argv[1], "wb") as file:
    file.write(stream)
with open(sys.argv[2], "w") as file:
    file.write("\n".join(lines) + "\n")
