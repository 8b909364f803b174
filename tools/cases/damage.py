"""Good areas damaged, then asked everything and grown; areas and records of any content."""

from model.dictionary import encoded
from model.string import packed
from model.tree import laid_out, parts_of, string_of

from . import lists
from .case import LAST, NEAR_LAST, Case, areas, line, puts
from .trees import ASKED, SHOWN, label, oracle_line

TOPS = (LAST, 255, 65_535, LAST, 2 ** 32 - 1)


class Standing:
    """Areas 0 to 4 and a record, to be changed and then laid out by `put` and `record`."""

    def __init__(self, chance, made, spare):
        parts, record = made
        self.areas = [part + [0] * chance.choice(spare) for part in parts]
        self.areas.append([label(chance) for _ in range(record.nodes)] + [0] * chance.choice(spare))
        self.record, self.scratch = record.numbers(), 2 * record.nodes + 4

    def lines(self):
        found = [areas([len(area) for area in self.areas] + [self.scratch])]
        for number, area in enumerate(self.areas):
            found += puts(number, area)
        return found + [line('record', self.record)]


def changed(chance, old, top):
    """Another number in the place of this one."""
    how = chance.random()
    if how < 0.4:
        return old ^ 1 << chance.randrange(top.bit_length())
    if how < 0.7:
        return min(top, max(0, old + chance.choice([-2, -1, 1, 2])))
    return chance.choice([0, 1, top, top - 1, chance.randint(0, top), chance.randint(0, 70)])


def damage_area(chance, standing):
    area = chance.choice([0, 0, 1, 1, 2, 3, 4])
    numbers = standing.areas[area]
    if not numbers:
        return
    at = chance.randrange(len(numbers))
    if at and chance.random() < 0.2:
        numbers[at - 1], numbers[at] = numbers[at], numbers[at - 1]
    else:
        numbers[at] = changed(chance, numbers[at], TOPS[area])


def damage_record(chance, standing):
    at = chance.choice([0, 1, 1, 2, 3, 6, 7, 10, 11, 14, 15, chance.randrange(18)])
    old, some = standing.record[at], chance.choice([1, 1, 2, 2, chance.randint(0, 70)])
    standing.record[at] = chance.choice([min(LAST, old + some), max(0, old - some), max(0, old - some), 0, chance.choice(NEAR_LAST)])


def damage(chance, standing):
    for _ in range(chance.choice([1, 1, 1, 2, 3, 6])):
        how = chance.random()
        if how < 0.75:
            damage_area(chance, standing)
        else:
            damage_record(chance, standing)
    if chance.random() < 0.05:
        standing.scratch = max(0, standing.scratch - chance.choice([1, 2, 3, 4]))


def questions(chance, standing):
    """Everything at every open, at places of every kind, and by itself the string and the first dictionary."""
    length = min(standing.record[1], 64 * len(standing.areas[0]))
    places = [chance.randint(0, length + 1) for _ in range(8)] + [0, length, chance.choice(NEAR_LAST)]
    two = [number for place in places for number in (place, chance.choice([place // 2, place // 2 + 1, chance.choice(NEAR_LAST)]))]
    found = [*ASKED, line('close', places), line('bit', places)]
    found += [line(name, two) for name in ('first_child', 'next_sibling', 'label', 'leaf_count')]
    found += [line('dict', name, places) for name in ('rank_one', 'select_one', 'pred_one', 'succ_one')]
    found += ['dict byte_size', 'string byte_size', line('string rank_one', places), line('string select_zero', places)]
    return found + ['show 10', 'show 11', *SHOWN]


def grows(chance):
    found = []
    for level in (chance.randint(0, 3), 0):
        found += [f'grow {level} {label(chance)}', *SHOWN]
    return found


def asked(chance, kind, standing):
    return Case(kind, standing.lines() + questions(chance, standing) + grows(chance) + ['closes', 'walk'])


def sizes(chance):
    how = chance.random()
    if how < 0.3:
        return chance.randint(0, 34)
    return chance.randint(31, 140) if how < 0.9 else chance.randint(140, 700)


def random(chance):
    """A good tree, a few elements or counts changed."""
    levels = lists.many_flags(chance, 2) if chance.random() < 0.2 else lists.any_list(chance, sizes(chance))
    standing = Standing(chance, parts_of(string_of(levels)), [0, 0, 1, 3])
    damage(chance, standing)
    return asked(chance, 'damaged tree', standing)


def other_string(chance):
    """The string of one list under the pioneers of another."""
    n = chance.randint(31, 140)
    standing = Standing(chance, parts_of(string_of(lists.any_list(chance, n))), [2, 4])
    words = packed(string_of(lists.any_list(chance, n)))
    standing.areas[0][:len(words)] = words[:len(standing.areas[0])]
    if chance.random() < 0.5:
        damage(chance, standing)
    return asked(chance, 'damaged tree', standing)


def any_content(chance):
    """Numbers by chance in small areas, under a record that fits them."""
    n = chance.randint(0, 40)
    standing = Standing(chance, parts_of(string_of([0] * n)), [0])
    bits = [chance.choice([0, 64, 65, 66, chance.randint(0, 200)]) for _ in range(5)]
    words = [chance.getrandbits(64) | chance.getrandbits(64) * chance.getrandbits(1) for _ in range(sum(-(-b // 64) for b in bits))]
    data = [[chance.choice([0, 1, 1, 2, 3, chance.randint(0, 255)]) for _ in range(chance.randint(0, 9))] for _ in range(4)]
    middles = [chance.choice([0, 1, 1, 2]) for _ in range(4)]
    larges = [chance.choice([0, 1, 1, 2]) for _ in range(4)]
    standing.areas[0] = words
    standing.areas[1] = [byte for part in data for byte in part]
    standing.areas[2] = [chance.choice([0, 0, 1, 2, chance.randint(0, 65_535)]) for _ in range(2 * sum(middles))]
    standing.areas[3] = [chance.choice([0, 0, 1, 2, chance.choice(NEAR_LAST)]) for _ in range(2 * sum(larges))]
    standing.record = [n, *bits, *map(len, data), *middles, *larges]
    return asked(chance, 'areas of any content', standing)


def leaning(chance, length):
    """Bits with more opens at the front and more closes at the end, of any length, also an odd one."""
    return [int(chance.random() < (0.9, 0.5, 0.1)[3 * i // length]) for i in range(length)]


def made_up(chance):
    """Strings and flags that go together in length alone: the steps come to an answer on most ways, and it is no match."""
    strings, dictionaries = [leaning(chance, chance.choice([65, 65, 66, 67, 128, 129, 130, 192, 257]))], []
    while len(strings[-1]) >= 65 and len(strings) < 5:
        length = len(strings[-1])
        size = chance.choice([2, 3, 5, 12, length // 2, length - 1])
        flags = sorted({*chance.sample(range(length), size), chance.choice([0, 1, 60]), length - 1})
        dictionaries.append(encoded(flags))
        strings.append([1] + leaning(chance, len(flags) - 1))
    standing = Standing(chance, laid_out(strings, dictionaries), [0, 0, 2])
    if chance.random() < 0.3:
        damage(chance, standing)
    return asked(chance, 'made-up pioneers', standing)


# Four pioneer levels: more nodes than the program can build, so that its areas are put

def four_levels(chance, count):
    """A tree with four pioneer levels, its close asked at some of its opens, good and then damaged. The record counts as many
    nodes as there are labels."""
    levels = lists.many_flags(chance, 4)
    bits = string_of(levels)
    opens = [place for place, bit in enumerate(bits) if bit]
    at = sorted(chance.sample(opens, count))
    standing = Standing(chance, parts_of(bits), [0])
    standing.areas[4], standing.record[0], standing.scratch = [5] * 9, 9, 20
    lines = standing.lines()
    first = len(lines)
    lines += [line('close', at), 'byte_size']

    def told(answers, fields, build):
        closes = dict(zip(opens, fields[3].split(' ')))
        yield 'closes', answers[first], ' '.join(closes[place] for place in at)
        yield 'pioneer levels', '4', fields[2]

    yield Case('tree of four pioneer levels', lines, oracle_line(levels, [5] * len(levels)), told)
    for _ in range(3):
        for _ in range(60):
            damage_area(chance, standing)
        yield Case('damaged tree of four pioneer levels', standing.lines() + [line('close', at), 'byte_size'])
