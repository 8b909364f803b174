"""Build and growth: from a list to the areas and the record of counts."""

from . import dictionary
from .refusals import DEEP, FULL, LENGTHS, LEVEL, MANY, Refused, broken, room
from .string import bits_of, packed, words_of

MOST_NODES = 1_048_575
LEVELS = 4  # of pioneers, at most


class Record:
    """The counts: nodes, the bits of five strings, the bytes, middle and large entries of four dictionaries."""

    def __init__(self, numbers=(0,) * 18):
        numbers = list(numbers)
        self.nodes, self.bits = numbers[0], numbers[1:6]
        self.bytes, self.middles, self.larges = numbers[6:10], numbers[10:14], numbers[14:18]

    def numbers(self):
        return [self.nodes] + self.bits + self.bytes + self.middles + self.larges


# The list and its string

def check_list(levels):
    """The first level is 0, and each next is at most one more than the one before."""
    before = -1
    for place, level in enumerate(levels):
        if level > before + 1:
            raise Refused(LEVEL, place)
        before = level


def string_of(levels):
    """A node of level v closes every open node of level v or more, then opens; at the end all close, the root last."""
    bits, opened = [1], []
    for level in levels:
        while opened and opened[-1] >= level:
            opened.pop()
            bits.append(0)
        opened.append(level)
        bits.append(1)
    return bits + [0] * (len(opened) + 1)


def levels_of(bits):
    """The list of a string balanced under one root; None of any other string."""
    levels, depth = [], 0
    for place, bit in enumerate(bits):
        if depth == 0 and (place > 0 or not bit):
            return None
        if bit and depth:
            levels.append(depth - 1)
        depth += 1 if bit else -1
    return levels if bits and depth == 0 else None


# The pioneers

def flags_of(bits):
    """The places of the flags: of the far pairs with equal blocks the outermost, at both ends."""
    opened, outermost = [], {}
    for place, bit in enumerate(bits):
        if bit:
            opened.append(place)
            continue
        p = opened.pop()
        blocks = p // 64, place // 64
        if blocks[0] != blocks[1] and (blocks not in outermost or p < outermost[blocks][0]):
            outermost[blocks] = p, place
    return sorted(end for pair in outermost.values() for end in pair)


def tower(bits):
    """The string and each pioneer string above it, and the dictionary between each two."""
    strings, dictionaries = [bits], []
    while len(strings[-1]) >= 65:
        if len(dictionaries) == LEVELS:
            raise Refused(DEEP, 0)
        flags = flags_of(strings[-1])
        block = dictionary.full_block(flags)
        if block is not None:
            raise Refused(FULL, len(dictionaries) + 1, block)
        dictionaries.append(dictionary.encoded(flags))
        strings.append([strings[-1][place] for place in flags])
    return strings, dictionaries


def parts_of(bits):
    """What areas 0 to 3 hold, without the zeros behind, and the record."""
    return laid_out(*tower(bits))


def laid_out(strings, dictionaries):
    """The string first, then each pioneer level in turn, with no gaps."""
    parts = [[word for string in strings for word in packed(string)]]
    parts += [[number for made in dictionaries for number in made[kind]] for kind in range(3)]
    record = Record()
    record.nodes = len(strings[0]) // 2 - 1
    record.bits[:len(strings)] = map(len, strings)
    for level, (data, middles, larges) in enumerate(dictionaries):
        record.bytes[level] = len(data)
        record.middles[level], record.larges[level] = len(middles) // 2, len(larges) // 2
    return parts, record


# Build and growth

def check_many(n):
    if n > MOST_NODES:
        raise Refused(MANY, n)


def check_scratch(n, areas):
    if len(areas[5]) < 2 * n + 2:
        raise room(5)


def check_room(parts, n, areas):
    for number, need in enumerate([len(part) for part in parts] + [n]):
        if need > len(areas[number]):
            raise room(number)


def write(parts, areas):
    """The parts, and zeros behind them to the areas' ends."""
    for part, area in zip(parts, areas):
        area[:] = part + [0] * (len(area) - len(part))


def planned(levels, labels, areas):
    if len(levels) != len(labels):
        raise Refused(LENGTHS, 0)
    check_many(len(levels))
    check_list(levels)
    check_scratch(len(levels), areas)
    parts, record = parts_of(string_of(levels))
    check_room(parts, len(levels), areas)
    return parts, record


def build(levels, labels, areas):
    """Answers the record. A refused build leaves all six areas zero."""
    for area in areas:
        area[:] = [0] * len(area)
    parts, record = planned(levels, labels, areas)
    write(parts + [list(labels)], areas)
    return record


def grow(record, areas, level, label):
    """Answers the record of the longer list. Refused, areas 0 to 4 stay; scratch is zero in any case."""
    areas[5][:] = [0] * len(areas[5])
    n, bits = record.nodes, record.bits[0]
    if words_of(bits) > len(areas[0]) or bits != 2 * n + 2:
        raise broken()
    levels = levels_of(bits_of(areas[0], 0, bits))
    if levels is None:
        raise broken()
    check_many(n + 1)
    check_list(levels + [level])
    check_scratch(n + 1, areas)
    parts, longer = parts_of(string_of(levels + [level]))
    check_room(parts, n + 1, areas)
    write(parts, areas)
    areas[4][n] = label
    return longer
