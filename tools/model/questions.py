"""The tree asked, on any content of areas 0 to 4 and any record."""

from itertools import accumulate

from .dictionary import Dictionary
from .refusals import CLOSE, PLACE, Refused, broken, not_below_zero, room, within_64_bits
from .string import bits_of, words_of
from .tree import LEVELS
from .word import matching


class Level:
    """One string and its dictionary of flags, each in its own part of the areas."""

    def __init__(self, bits, flags):
        self.bits, self.flags = bits, flags


class Tree:
    """A record and areas 0 to 4 as they stand; every question first makes the same test of the counts."""

    def __init__(self, record, areas):
        self.record, self.labels = record, areas[4]
        self.fits = counts_fit(record, areas)
        if self.fits:
            self.levels = levels_in(record, areas)
            bits = self.levels[0].bits
            self.opens = sums(bits)
            self.pairs = sums(int(two == (1, 0)) for two in zip(bits, bits[1:]))
            self.closed = {}

    def check_counts(self):
        if not self.fits:
            raise broken()

    def check_place(self, place):
        self.check_counts()
        if place >= len(self.levels[0].bits):
            raise Refused(PLACE, place)

    def check_node(self, place, id_):
        self.check_place(place)
        if self.opens[place] != id_:
            raise Refused(PLACE, place)
        if not self.levels[0].bits[place]:
            raise Refused(CLOSE, place)

    # One place

    def bit(self, place):
        self.check_place(place)
        return self.levels[0].bits[place]

    def close(self, place):
        if not self.bit(place):
            raise Refused(CLOSE, place)
        return self.string_close(0, place)

    # The close by its steps

    def string_close(self, level, p):
        bits = self.levels[level].bits
        if p >= len(bits) or not bits[p]:
            raise broken()
        start = p // 64 * 64
        word = bits[start:start + 64]
        found = matching(word + [0] * (64 - len(word)), p - start)
        if found is None:
            return self.by_family(level, p)
        if start + found >= len(bits):
            raise broken()
        return start + found

    def by_family(self, level, p):
        bits, flags = self.levels[level].bits, self.levels[level].flags
        if level == LEVELS or len(bits) < 65:
            raise broken()
        q = flags.pred(p)
        if q is None or q // 64 != p // 64 or q > p:
            raise broken()
        d = excess(bits[q:p])
        c = self.family_close(level, q)
        if c >= len(bits):
            raise broken()
        return c if d == 0 else last_close(bits, c, d)

    def family_close(self, level, q):
        """The close of q, asked of the family; what was asked before is remembered."""
        if (level, q) not in self.closed:
            self.closed[level, q] = outcome(self.by_pioneers, level, q)
        return said(self.closed[level, q])

    def by_pioneers(self, level, q):
        flags = self.levels[level].flags
        asked = not_below_zero(flags.rank(q) - 1)
        c = flags.select(self.string_close(level + 1, asked) + 1)
        if c is None:
            raise broken()
        return c

    # The node's questions

    def edge(self, place, id_):
        """The new node and its label."""
        return place, id_, self.label_of(id_)

    def label_of(self, id_):
        if id_ - 1 >= self.record.nodes:
            raise broken()
        return self.labels[id_ - 1]

    def open_at(self, place):
        bits = self.levels[0].bits
        return place < len(bits) and bits[place]

    def first_child(self, place, id_):
        self.check_node(place, id_)
        return self.edge(place + 1, id_ + 1) if self.open_at(place + 1) else None

    def close_of_node(self, place, id_):
        self.check_node(place, id_)
        c = self.string_close(0, place)
        not_below_zero(c - place)
        return c

    def next_sibling(self, place, id_):
        c = self.close_of_node(place, id_)
        return self.edge(c + 1, id_ + (c - place) // 2 + 1) if self.open_at(c + 1) else None

    def label(self, place, id_):
        self.check_node(place, id_)
        return self.label_of(id_) if id_ else None

    def leaf_count(self, place, id_):
        """Each a 1 then a 0, both between the node's place and its close."""
        c = self.close_of_node(place, id_)
        return max(0, self.pairs[c - 1] - self.pairs[place + 1]) if c > place + 1 else 0

    # The counts

    def nodes(self):
        self.check_counts()
        return self.record.nodes

    def is_empty(self):
        self.check_counts()
        return int(self.record.nodes == 0)

    def byte_size(self):
        self.check_counts()
        r = self.record
        size = 8 * sum(map(words_of, r.bits)) + sum(r.bytes) + 4 * sum(r.middles) + 16 * sum(r.larges)
        return within_64_bits(size + 8 + 4 * r.nodes)

    # The walk

    def walk(self, levels, labels, scratch):
        """Writes levels and labels along the walk; refused, the two lists are zeros. Answers the number of nodes told."""
        for area in (levels, labels, scratch):
            area[:] = [0] * len(area)
        self.check_counts()
        n = self.record.nodes
        for area, need, number in ((scratch, 2 * n + 2, 5), (levels, n, 10), (labels, n, 11)):
            if len(area) < need:
                raise room(number)
        told = list(self.steps())
        levels[:len(told)] = [level for level, _ in told]
        labels[:len(told)] = [label for _, label in told]
        return len(told)

    def steps(self):
        """The first child if there is one, else the next sibling of the nearest node on the way back that has one."""
        way, told = [(0, 0)], 0
        while True:
            edge = self.first_child(*way[-1])
            while edge is None:
                last = way.pop()
                edge = self.next_sibling(*last)
                if edge is None and not way:
                    return
            told += 1
            level = max(0, len(way) - 1)  # also of a sibling of the root, which only damaged areas have
            if told > self.record.nodes or level > 2 ** 32 - 1:
                raise broken()
            yield level, edge[2]
            way.append(edge[:2])


def sums(numbers):
    """The sum of the first k numbers, for each k."""
    return [0, *accumulate(numbers)]


def outcome(question, *arguments):
    """What a question answers or refuses, as one value."""
    try:
        return question(*arguments)
    except Refused as refused:
        return refused


def said(result):
    if isinstance(result, Refused):
        raise result
    return result


def counts_fit(record, areas):
    needs = [sum(map(words_of, record.bits)), sum(record.bytes), 2 * sum(record.middles), 2 * sum(record.larges), record.nodes]
    return all(need <= len(area) for need, area in zip(needs, areas))


def levels_in(record, areas):
    """The five levels' own parts, each behind the one before."""
    found, at = [], [0, 0, 0, 0]
    for level, length in enumerate(record.bits):
        kinds = (0, 0, 0) if level == LEVELS else (record.bytes[level], 2 * record.middles[level], 2 * record.larges[level])
        flags = Dictionary(*(areas[k][at[k]:at[k] + size] for k, size in enumerate(kinds, 1)))
        found.append(Level(bits_of(areas[0], at[0], length), flags))
        at = [start + size for start, size in zip(at, (words_of(length), *kinds))]
    return found


def excess(bits):
    """Opens less closes, never below zero on the way."""
    count = 0
    for bit in bits:
        count = not_below_zero(count + (1 if bit else -1))
    return count


def last_close(bits, c, d):
    """Left from c - 1 to the start of c's word, one up for a close and one down for an open: the last close at which the count
    is d."""
    count, found = 0, None
    for place in range(c - 1, c // 64 * 64 - 1, -1):
        count = not_below_zero(count + (-1 if bits[place] else 1))
        if count == d and not bits[place]:
            found = place
    if found is None:
        raise broken()
    return found
