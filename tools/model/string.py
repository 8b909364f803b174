"""A bit string in lent words: module 3 of 01, and the plain scan of module 2 over the same bits."""

from oracle_plain import scan

from .refusals import LAST, PLACE, Refused, broken, room


def words_of(bits):
    """The words of a string: bits / 64 rounded up."""
    return bits // 64 + (bits % 64 > 0)


def bit_of(words, i):
    """Bit i is bit i mod 64 of word i / 64, lowest first."""
    return words[i // 64] >> (i % 64) & 1


def bits_of(words, start, length):
    """The bits of a string whose first word is words[start]."""
    found = []
    for word in words[start:start + words_of(length)]:
        found.extend([word >> i & 1 for i in range(64)])
    return found[:length]


def packed(bits):
    """The words of these bits, zeros past their end."""
    return [int(''.join(map(str, reversed(bits[at:at + 64]))), 2) for at in range(0, len(bits), 64)]


def put(words, i, b):
    words[i // 64] = words[i // 64] & ~(1 << i % 64) | b << i % 64


class String:
    """Lent words and a length. A question or an edit checks first that the length lies within the words."""

    def __init__(self, words, length):
        self.words, self.length = words, length
        self.ranked = {}

    def fits(self):
        if words_of(self.length) > len(self.words):
            raise broken()

    def asked(self, b):
        """rank, select, pred and succ of the ones or zeros before the length."""
        self.fits()
        if b not in self.ranked:
            bits = bits_of(self.words, 0, self.length)
            self.ranked[b] = scan([i for i in range(self.length) if bits[i] == b])
        return self.ranked[b]

    def at(self, b, i):
        """The zero questions at or past the length are PLACE; the questions for ones are not."""
        asked = self.asked(b)
        if b == 0 and i >= self.length:
            raise Refused(PLACE, i)
        return asked

    def rank(self, b, i):
        return self.at(b, i)[0](i)

    def select(self, b, r):
        return self.asked(b)[1](r)

    def pred(self, b, i):
        return self.at(b, i)[2](i)

    def succ(self, b, i):
        return self.at(b, i)[3](i)

    def get(self, i):
        self.fits()
        return bit_of(self.words, i) if i < self.length else None

    def ones(self):
        """All that OneIndices gives."""
        self.fits()
        return [i for i, b in enumerate(bits_of(self.words, 0, self.length)) if b]

    def byte_size(self):
        self.fits()
        return 8 * words_of(self.length)

    def set(self, i, b):
        self.fits()
        if i >= self.length:
            raise Refused(PLACE, i)
        put(self.words, i, b)
        self.ranked = {}

    def push(self, b):
        self.fits()
        if self.length == LAST or words_of(self.length + 1) > len(self.words):
            raise room(0)
        put(self.words, self.length, b)
        self.length += 1
        self.ranked = {}

    def resize(self, length):
        """Every bit between the two lengths becomes zero, and no other is touched."""
        self.fits()
        if words_of(length) > len(self.words):
            raise room(0)
        for i in range(min(length, self.length), max(length, self.length)):
            put(self.words, i, 0)
        self.length = length
        self.ranked = {}
