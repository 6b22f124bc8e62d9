"""Makes a case on which programs differ smaller, as long as they differ on it.

What stands in front of the reply stays. Of the reply first bytes are left out, in parts from large
to single bytes, then bytes become 00, likewise; of lists of records whole records are left out.
"""
import itertools
import struct
import time

from programs import framed

FRONT = {'P': 2, 'L': 2, 'M': 10, 'T': 13, 'U': 11}  # bytes in front of the reply
RECORD = 50  # bytes
TYPE_AT = 2  # in a record: a type's code, which 00 is not
BATCH = 128  # tries at once
BATCH_BYTES = 250_000
TRY_SECONDS = 20  # for one batch


def parts_of(case):
    """What stands in front, and the parts that can be made smaller."""
    entry, payload = chr(case[0]), case[5:]
    if entry == 'C':
        end = 4 + struct.unpack_from('>I', payload)[0]
        return b'', [payload[4:end], payload[end:]]
    if entry == 'Q':
        end = 2 + RECORD * struct.unpack_from('>H', payload)[0]
        return b'', [payload[2:end], payload[end + 2:]]
    front = FRONT.get(entry, 0)
    return payload[:front], [payload[front:]]


def case_of(entry, front, parts):
    if entry == 'C':
        front = struct.pack('>I', len(parts[0]))
    if entry == 'Q':
        parts = [struct.pack('>H', len(part) // RECORD) + part for part in parts]
    return framed(entry, front + b''.join(parts))


def without(part, starts, size, _):
    """The part without the stretches of this size at these places."""
    for start in reversed(starts):
        part = part[:start] + part[start + size:]
    return part


def zeroed(part, starts, size, unit):
    """The part with 00 there instead; the types of records stay."""
    changed = bytearray(part)
    for start in starts:
        stretch = part[start:start + size]
        zeros = bytearray(len(stretch))
        if unit == RECORD:
            zeros[TYPE_AT::RECORD] = stretch[TYPE_AT::RECORD]
        changed[start:start + size] = zeros
    return bytes(changed)


def fewer(starts):
    """All of them, the first half, a quarter and so on to the first alone."""
    while starts:
        yield starts
        starts = starts[:len(starts) // 2]


class Search:
    """Tries smaller cases; `case` is the smallest found. `differing(cases, limit)` tells of each."""

    def __init__(self, case, differing, seconds):
        self.entry = chr(case[0])
        self.front, self.parts = parts_of(case)
        self.unit = RECORD if self.entry in 'QR' else 1
        self.differing = differing
        self.end = time.monotonic() + seconds
        self.tried = 0

    @property
    def case(self):
        return case_of(self.entry, self.front, self.parts)

    def left(self):
        return self.end - time.monotonic()

    def tell(self, cases):
        """Of each case whether the programs still differ on it; fewer where time was over."""
        self.tried += len(cases)
        return self.differing(cases, min(TRY_SECONDS, max(1, self.left())))

    def run(self):
        """Leaves out and zeroes until nothing more can be, or time is over."""
        before = None
        while self.parts != before and self.left() > 0:
            before = list(self.parts)
            for which in range(len(self.parts)):
                self.sweep(which, without)
                self.sweep(which, zeroed)

    def sweep(self, which, change):
        """Changes the part, from the whole of it to one byte or record at a time."""
        size = len(self.parts[which])
        while size >= self.unit and self.left() > 0:
            size -= size % self.unit
            self.pass_over(which, change, size)
            size = size // 2 if size > self.unit else 0

    def pass_over(self, which, change, size):
        """Changes the stretches of this size that can be: all of some at once, if that holds too."""
        start = 0
        while start < len(self.parts[which]) and self.left() > 0:
            part = self.parts[which]
            starts = self.batch(part, change, size, start)
            told = self.tell([self.changed(which, change, [one], size) for one in starts])
            good = [one for one, differs in zip(starts, told) if differs]
            taken = self.most(which, change, good, size)
            self.parts[which] = change(part, taken, size, self.unit)
            passed = starts if taken == good else taken
            behind = passed[-1] + size if passed else len(part)
            start = behind - (len(part) - len(self.parts[which]))

    def batch(self, part, change, size, start):
        """Where the next tries change something."""
        room = max(1, min(BATCH, BATCH_BYTES // max(1, len(part))))
        starts = range(start, len(part), size)
        return list(itertools.islice(
            (one for one in starts if change(part, [one], size, self.unit) != part), room))

    def most(self, which, change, good, size):
        """As many of these stretches from the first on as can be changed together."""
        groups = list(fewer(good))
        if len(groups) < 2:
            return good
        told = self.tell([self.changed(which, change, group, size) for group in groups])
        return groups[told.index(True)] if True in told else groups[-1]

    def changed(self, which, change, starts, size):
        """The case with these stretches of a part changed."""
        parts = list(self.parts)
        parts[which] = change(parts[which], starts, size, self.unit)
        return case_of(self.entry, self.front, parts)
