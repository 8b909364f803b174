"""The sparse dictionary: its encoding, and its questions by their steps on any content. Module 4 of 01."""

from .refusals import FULL, MANY, Refused, broken, not_below_zero, room, within_64_bits
from .string import bits_of, words_of

SMALL, MIDDLE, LARGE = 256, 2_048, 65_536
MOST_BITS = 2_097_152


def full_block(places):
    """The lowest aligned 256 places that are all there, or None."""
    counts = {}
    for place in places:
        counts[place // SMALL] = counts.get(place // SMALL, 0) + 1
    return min((block for block, count in counts.items() if count == SMALL), default=None)


def encoded(places):
    """Bytes, u16 and u64 of these places, ascending and no block full."""
    in_block = {}
    for place in places:
        in_block.setdefault(place // SMALL, []).append(place % SMALL)
    data, middles, larges, rank = [], [], [], 0
    for block in range(places[-1] // SMALL + 1 if places else 0):
        start = block * SMALL
        if start % LARGE == 0:
            larges += [len(data), rank]
        if start % MIDDLE == 0:
            middles += [len(data) - larges[-2], rank - larges[-1]]
        offsets = in_block.get(block, [])
        data += [len(offsets)] + offsets
        rank += len(offsets)
    return data, middles, larges


class Dictionary:
    """A level's own parts of areas 1, 2 and 3."""

    def __init__(self, data, middles, larges):
        self.data = data
        self.middles = list(zip(middles[::2], middles[1::2]))
        self.larges = list(zip(larges[::2], larges[1::2]))

    def empty(self):
        return not (self.data or self.middles or self.larges)

    def byte(self, at):
        """A byte of the level's own part; a read outside is BROKEN."""
        if at >= len(self.data):
            raise broken()
        return self.data[at]

    def rank(self, i):
        if self.empty():
            return 0
        if not self.larges or not self.middles:
            raise broken()
        large = self.larges[min(i // LARGE, len(self.larges) - 1)]
        first = min(i // MIDDLE, len(self.middles) - 1)
        middle = self.middles[first]
        at, rank, start = large[0] + middle[0], within_64_bits(large[1] + middle[1]), first * MIDDLE
        while start + SMALL <= i:
            if at == len(self.data):
                return rank
            count = self.byte(at)
            at, rank, start = at + count + 1, within_64_bits(rank + count), start + SMALL
        if at == len(self.data):
            return rank
        return within_64_bits(rank + self.leading(at, i - start))

    def leading(self, at, most):
        """The offsets of the block at this position, up to the first above `most`."""
        count = self.byte(at)
        for k in range(count):
            if self.byte(at + 1 + k) > most:
                return k
        return count

    def select(self, r):
        if r == 0 or self.empty():
            return None
        if not self.larges:
            raise broken()
        l = before_first_above(self.larges, r - 1)
        large = self.larges[l]
        rest = not_below_zero(r - 1 - large[1])
        own = self.middles[32 * l:32 * l + 32]
        if not own:
            raise broken()
        m = before_first_above(own, rest)
        at = large[0] + own[m][0]
        within_64_bits(large[1] + own[m][1])
        if at == len(self.data):
            return None
        return self.walk(at, l * LARGE + m * MIDDLE, not_below_zero(rest - own[m][1]))

    def walk(self, at, start, rest):
        """Passes the blocks that have no more than the ones still to come."""
        while self.byte(at) <= rest:
            rest -= self.byte(at)
            at += self.byte(at) + 1
            start += SMALL
            if at == len(self.data):
                return None
        return within_64_bits(start + self.byte(at + 1 + rest))

    def pred(self, i):
        return self.select(self.rank(i))

    def succ(self, i):
        rank = self.rank(i)
        if self.select(rank) == i:
            return i
        return self.select(within_64_bits(rank + 1))


def byte_size(data, middles, larges):
    """1, 4 and 16 for each entry of the three kinds. It takes the counts alone, so nothing has to fit."""
    return within_64_bits(data + 4 * middles + 16 * larges)


def before_first_above(entries, rank):
    """The entry before the first whose rank exceeds this, in the area's order; the last if none does, the first if there is none
    before."""
    above = next((k for k, entry in enumerate(entries) if entry[1] > rank), len(entries))
    return max(above - 1, 0)


def build(words, length, areas):
    """A dictionary built directly into areas 1 to 3, which are zero where it is refused. Answers the counts of the three kinds."""
    for area in areas:
        area[:] = [0] * len(area)
    if words_of(length) > len(words):
        raise broken()
    if length > MOST_BITS:
        raise Refused(MANY, length)
    places = [i for i, b in enumerate(bits_of(words, 0, length)) if b]
    block = full_block(places)
    if block is not None:
        raise Refused(FULL, 0, block)
    parts = encoded(places)
    for number, (part, area) in enumerate(zip(parts, areas), 1):
        if len(part) > len(area):
            raise room(number)
    for part, area in zip(parts, areas):
        area[:len(part)] = part
    return len(parts[0]), len(parts[1]) // 2, len(parts[2]) // 2
