"""Reads an image by docs/FORMATS.md, and by nothing of the program: its latest body, the directory, the free extents, the contents of
each row, and which sectors are reached. What isn't as the formats say is Unsound.
"""
import functools
import itertools
import struct

BLOCK = 8192
HOLE, DATA, REDACTED, SOME, NONE = range(5)


class Unsound(Exception):
    pass


def ask(is_so, what):
    if not is_so:
        raise Unsound(what)


@functools.lru_cache(4096)
def sums(block):
    """The four sums of a Fletcher-4."""
    row, found = struct.unpack(f"<{len(block) // 4}I", block), []
    for _ in range(4):
        row = list(itertools.accumulate(row))
        found.append(row[-1] % 2**64)
    return tuple(found)


class Ptr:
    def __init__(self, text):
        self.text = text
        self.kind, self.level, pad, self.length, self.sector, self.number = struct.unpack_from("<BBHIQQ", text)
        self.sum = struct.unpack_from("<4Q", text, 24)
        ask(pad == 0 and text[56:] == bytes(8), "a pointer's zeros")
        ask(self.kind <= NONE, "a pointer's kind")
        if self.kind in (HOLE, REDACTED):
            ask(self.length == self.sector == 0 and self.sum == (0, 0, 0, 0), "a pointer without a block")
        else:
            ask(self.length > 0 and self.length % 512 == 0 and self.sector >= 8, "a pointer's block")

    def sectors(self):
        return range(self.sector, self.sector + self.length // 512)


@functools.lru_cache(4096)
def pointer(text):
    return Ptr(text)


@functools.lru_cache(4096)
def pointers(block):
    """The greatest date in a node, and its pointers that are no holes, each with its place."""
    below = [pointer(block[at : at + 64]) for at in range(0, BLOCK, 64)]
    return max(ptr.number for ptr in below), [(at, ptr) for at, ptr in enumerate(below) if ptr.kind != HOLE]


class Dnode:
    def __init__(self, slot):
        self.kind, self.bonus_kind, self.size, bonus, self.date, self.levels = struct.unpack_from("<IIIIQB", slot)
        self.past, self.end = struct.unpack_from("<QQ", slot, 32)
        self.root, self.spill = pointer(slot[48:112]), pointer(slot[112:176])
        self.bonus = slot[192 : 192 + bonus]
        if self.kind == 0:
            ask(slot[:16] == bytes(16) and slot[24:] == bytes(488), "an absent object's zeros")
            return
        ask(slot[25:32] == bytes(7) and slot[176:192] == bytes(16) and not any(slot[192 + bonus :]), "an object's zeros")
        ask(self.size % 512 == 0 and 512 <= self.size <= 131072 and bonus <= 320 and self.levels <= 7, "an object's ranges")
        ask(self.spill.kind in (HOLE, DATA), "a spill block's kind")


@functools.lru_cache(4096)
def dnodes(block):
    return [Dnode(block[at : at + 512]) for at in range(0, BLOCK, 512)]


class Words:
    """The text of a directory, word by word."""

    def __init__(self, text):
        self.text, self.at = text, 0

    def word(self):
        self.at += 8
        ask(self.at <= len(self.text), "the directory's end")
        return struct.unpack_from("<Q", self.text, self.at - 8)[0]

    def words(self):
        return [self.word() for _ in range(self.word())]

    def name(self):
        count = self.word()
        text, self.at = self.text[self.at : self.at + count], self.at + (count + 7) // 8 * 8
        ask(self.at <= len(self.text) and not any(self.text[self.at - (-count) % 8 : self.at]), "a text's end")
        return text.decode()

    def pointer(self):
        self.at += 64
        return pointer(self.text[self.at - 64 : self.at])

    def object_set(self):
        return self.word(), self.word(), self.pointer()


class Row:
    def __init__(self, **fields):
        self.__dict__.update(fields)


class Contents:
    """What a set holds: of each object its attributes, the blocks with data, and the runs that are redacted."""

    def __init__(self):
        self.objects, self.reached = {}, set()


class Image:
    def __init__(self, data):
        self.data, self.sets = data, {}
        self.read_body()
        self.text_sectors = set()
        self.free = self.read_free()
        self.rows_of(Words(self.read_text(self.dir_levels, self.dir_root, self.dir_bytes)))

    # the label

    def read_body(self):
        found = []
        for slot in (0, 2):
            body = self.data[512 * slot + 512 : 512 * slot + 1024]
            if self.data[512 * slot] == 0xA5 and body[:8] == b"ZSTPOOL1":
                found.append((struct.unpack_from("<Q", body, 16)[0], -slot, body))
        ask(found, "no body")
        body = max(found)[2]
        ask(sums(body[:480]) == struct.unpack_from("<4Q", body, 480), "the body's sum")
        ask(not any(body[208:480]) and self.data[2048:4096] == bytes(2048), "the label's zeros")
        version, self.id, self.number, self.guids, self.sectors, self.end = struct.unpack_from("<IIQQQQ", body, 8)
        ask(version == 1 and 8 <= self.end <= self.sectors and 512 * self.sectors <= len(self.data), "the body's ranges")
        self.dir_levels, self.dir_bytes = struct.unpack_from("<QQ", body, 48)
        self.dir_root = pointer(body[64:128])
        self.free_count, self.free_levels = struct.unpack_from("<QQ", body, 128)
        self.free_root = pointer(body[144:208])

    # blocks

    def block(self, ptr, length, reached):
        ask(ptr.length == length, f"a block's length at {ptr.sector}")
        ask(ptr.sector + length // 512 <= self.end, f"a block behind the end at {ptr.sector}")
        reached.update(ptr.sectors())
        block = self.data[512 * ptr.sector : 512 * ptr.sector + length]
        ask(sums(block) == ptr.sum, f"a block's sum at {ptr.sector}")
        return block

    def leaves(self, levels, root, reached, first=0):
        """The pointers below which none are, but for holes, each with its first index and its level; nodes are read on the way."""
        ask(root.kind not in (SOME, NONE) or root.level == levels, f"a node's level at {root.sector}")
        if levels == 0 or root.kind in (HOLE, REDACTED):
            if root.kind != HOLE:
                yield first, levels, root
            return
        ask(root.kind in (SOME, NONE), f"a node's kind at {root.sector}")
        number, below = pointers(self.block(root, BLOCK, reached))
        ask(root.number == number, f"a node's date at {root.sector}")
        for at, ptr in below:
            yield from self.leaves(levels - 1, ptr, reached, first + at * 128 ** (levels - 1))

    def read_text(self, levels, root, count):
        """The bytes of a text that stands in leaves: directory, free extents or list."""
        if count == 0:
            ask(levels == 0 and root.kind == HOLE, "a text of nothing")
        parts = []
        for first, level, ptr in self.leaves(levels, root, self.text_sectors):
            ask(first == len(parts) and level == 0 and ptr.kind == DATA, "a text's leaves")
            parts.append(self.block(ptr, BLOCK, self.text_sectors))
        text = b"".join(parts)
        ask(len(parts) == (count + BLOCK - 1) // BLOCK and not any(text[count:]), "a text's zeros")
        return text[:count]

    # free extents

    def read_free(self):
        words = struct.unpack(f"<{2 * self.free_count}Q", self.read_text(self.free_levels, self.free_root, 16 * self.free_count))
        extents, before = list(zip(words[::2], words[1::2])), 7
        for first, count in extents:
            ask(count > 0 and first > before and first + count <= self.end, f"a free extent at {first}")
            before = first + count
        return extents

    def is_free(self):
        found = {sector for first, count in self.free for sector in range(first, first + count)}
        return found | set(range(self.end, self.sectors))

    def largest(self):
        return max([self.sectors - self.end, *(count for _, count in self.free)])

    # rows

    def rows_of(self, words):
        self.datasets, self.snapshots, self.bookmarks, self.partials = {}, {}, {}, {}
        for _ in range(words.word()):
            name, kind, origin, head, redact = words.name(), words.word(), words.name(), words.object_set(), words.words()
            self.datasets[name] = Row(kind=kind, origin=origin, set=head, redact=redact, snapshots=[])
            for _ in range(words.word()):
                part, guid, time, number = words.name(), words.word(), words.word(), words.word()
                row = Row(guid=guid, time=time, number=number, set=words.object_set(), redact=words.words())
                self.snapshots[f"{name}@{part}"] = row
                self.datasets[name].snapshots.append(f"{name}@{part}")
        for _ in range(words.word()):
            name, guid, time, number, redact = words.name(), words.word(), words.word(), words.word(), words.words()
            count, levels, root = words.word(), words.word(), words.pointer()
            self.bookmarks[name] = Row(guid=guid, time=time, number=number, redact=redact, list=(count, levels, root))
        for _ in range(words.word()):
            name, part, keep = words.name(), words.name(), words.word()
            header = [words.word() for _ in range(6)], words.name(), words.words(), words.words()
            base, objects, point = words.name(), words.object_set(), (words.word(), words.word())
            self.partials[name] = Row(part=part, keep=keep, header=header, base=base, set=objects, point=point)
        ask(words.at == len(words.text), "the directory's length")
        names = [*self.snapshots, ""]
        ask(all(row.origin in names for row in self.datasets.values()), "an origin")
        ask(all(row.base in names for row in self.partials.values()), "a base")

    def contents(self, object_set):
        """What a set holds, and the sectors that it reaches."""
        levels, past, root = object_set
        key = levels, past, root.text
        if key not in self.sets:
            found = self.sets[key] = Contents()
            for first, level, ptr in self.leaves(levels, root, found.reached):
                ask(ptr.kind not in (DATA, REDACTED), f"a leaf's kind at {ptr.sector}")
                self.leaf(found, first, ptr)
        return self.sets[key]

    def leaf(self, found, first, ptr):
        slots = dnodes(self.block(ptr, BLOCK, found.reached))
        dates = [max(one.date, *((one.past, one.root.number) if one.kind else ())) if one.kind else one.date for one in slots]
        ask(ptr.number == max(dates), f"a leaf's date at {ptr.sector}")
        ask((ptr.kind == SOME) == any(one.kind for one in slots), f"a leaf's kind at {ptr.sector}")
        for at, one in enumerate(slots):
            if one.kind:
                found.objects[16 * first + at] = self.object(found, one)

    def object(self, found, dnode):
        blocks, runs, end = {}, [], 0
        for first, level, ptr in self.leaves(dnode.levels, dnode.root, found.reached):
            if ptr.kind == DATA:
                blocks[first] = self.block(ptr, dnode.size, found.reached)
                end = first + 1
            else:
                ask(ptr.kind == REDACTED, f"a block's kind at {ptr.sector}")
                end = first + 128**level
                if runs and sum(runs[-1]) == first:
                    runs[-1] = runs[-1][0], end - runs[-1][0]
                else:
                    runs.append((first, 128**level))
        ask(end == dnode.end, f"an object's end, {end} for {dnode.end}")
        spill = None if dnode.spill.kind == HOLE else self.block(dnode.spill, dnode.spill.length, found.reached)
        return (dnode.kind, dnode.size, dnode.bonus_kind, dnode.bonus, spill), blocks, runs

    def runs_of(self, bookmark):
        """The runs of a bookmark's list, and the sectors that it reaches."""
        count, levels, root = self.bookmarks[bookmark].list
        kept, self.text_sectors = self.text_sectors, set()
        # behind each 341 runs stand 8 zeros
        text = self.read_text(levels, root, count // 341 * BLOCK + count % 341 * 24)
        reached, self.text_sectors = self.text_sectors, kept
        runs = [struct.unpack_from("<3Q", text, at // 341 * BLOCK + at % 341 * 24) for at in range(count)]
        return runs, reached

    def sets_of_rows(self):
        for rows in (self.datasets, self.snapshots, self.partials):
            yield from (row.set for row in rows.values())

    def rows_reach(self):
        """The sectors that the rows reach; all of it is read."""
        reached = set()
        for one in self.sets_of_rows():
            reached |= self.contents(one).reached
        for name in self.bookmarks:
            reached |= self.runs_of(name)[1]
        return reached
