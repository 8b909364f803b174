"""One word of 8 or 64 bits: module 1 of 01."""

from oracle_plain import scan

from .refusals import CLOSE, PLACE, Refused


class Word:
    def __init__(self, width, value):
        self.width, self.value = width, value
        self.bits = [value >> i & 1 for i in range(width)]
        self.ranked = {b: scan([i for i in range(width) if self.bits[i] == b]) for b in (0, 1)}

    def inside(self, i):
        """A bit index at or past the width is PLACE."""
        if i >= self.width:
            raise Refused(PLACE, i)
        return i

    def get(self, i):
        return self.bits[self.inside(i)]

    def set(self, i, b):
        """The new value."""
        i = self.inside(i)
        return self.value | 1 << i if b else self.value & ~(1 << i)

    def pop_count(self):
        return sum(self.bits)

    def rank(self, b, i):
        return self.ranked[b][0](self.inside(i))

    def select(self, b, r):
        return self.ranked[b][1](r)

    def pred(self, b, i):
        return self.ranked[b][2](self.inside(i))

    def succ(self, b, i):
        return self.ranked[b][3](self.inside(i))

    def get_close(self, i):
        if not self.get(i):
            raise Refused(CLOSE, i)
        return matching(self.bits, i)


def matching(bits, i):
    """The close that matches the open at i among these bits, or nothing."""
    depth = 0
    for place in range(i, len(bits)):
        depth += 1 if bits[place] else -1
        if depth == 0:
            return place
    return None
