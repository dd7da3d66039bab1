"""The writes and flushes that a disk was asked for, and what a power cut leaves of them."""
import typing

SECTOR = 512


class Entry(typing.NamedTuple):
    """A write, or a flush where there are no bytes."""
    batch: int
    place: int
    content: bytes | None
    seen: int


class Record:
    """Entries in the order of their coming. Those of one batch arrived before any of the batch was answered."""

    def __init__(self):
        self.entries = []
        self.batch = 0
        self.limit = None

    def next_batch(self):
        self.batch += 1

    def write(self, place, content, seen):
        self.entries.append(Entry(self.batch, place, content, seen))

    def flush(self, seen):
        self.entries.append(Entry(self.batch, 0, None, seen))

    def is_full(self):
        """Whether the power is to be cut before another entry."""
        return self.limit is not None and len(self.entries) >= self.limit

    def split(self, moment):
        """The writes before a moment: those that a flush has made durable, and those after it. A flush is of the writes
        that were answered before it came."""
        before = self.entries[:moment]
        flushed = max((entry.batch for entry in before if entry.content is None), default=0)
        writes = [entry for entry in before if entry.content is not None]
        return ([entry for entry in writes if entry.batch < flushed],
                [entry for entry in writes if entry.batch >= flushed])


def kept_in_part(entry, chance, sector):
    """Some sectors of a write, as pairs of a place and bytes."""
    for start in range(0, len(entry.content), sector):
        if chance.random() < 0.5:
            yield entry.place + start, entry.content[start:start + sector]


def whole(entries):
    return [(entry.place, entry.content) for entry in entries]


def size(writes):
    return sum(len(content) for _, content in writes)


def none_kept(entries, chance, sector):
    return []


def all_but_one(entries, chance, sector):
    missing = chance.randrange(len(entries))
    return whole(entries[:missing] + entries[missing + 1:])


def first_ones(entries, chance, sector):
    """Those before one, which is torn."""
    torn = chance.randrange(len(entries))
    return whole(entries[:torn]) + list(kept_in_part(entries[torn], chance, sector))


def each_at_random(entries, chance, sector):
    """Each is kept, torn or lost."""
    kept, torn = chance.choice([(0.1, 0.1), (0.5, 0.2), (0.9, 0.05)])
    left = []
    for entry in entries:
        drawn = chance.random()
        if drawn < kept:
            left += whole([entry])
        elif drawn < kept + torn:
            left += kept_in_part(entry, chance, sector)
    return left


RULES = none_kept, all_but_one, first_ones, each_at_random, each_at_random


def left_at(record, moment, chance, reorder, sector=SECTOR):
    """The writes that the disk has after a power cut, in order, and whether some are lost. With `reorder` those that
    no flush has made durable are kept, torn or lost at random, and else all are kept."""
    durable, open_ones = record.split(moment)
    if not reorder or not open_ones:
        return whole(durable + open_ones), False
    kept = chance.choice(RULES)(open_ones, chance, sector)
    return whole(durable) + kept, size(kept) < size(whole(open_ones))
