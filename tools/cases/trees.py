"""Builds: every question to accepted lists, beside the Rust; and each refusal of the build."""

from itertools import accumulate

from model.refusals import Refused
from model.string import packed
from model.tree import check_list, parts_of, string_of

from . import lists
from .case import LAST, NEAR_LAST, PANIC, Case, areas, entries, given, line, text, trimmed

MOST_NODES = 32_830  # that the program has room for
ASKED = ('closes', 'children', 'siblings', 'names', 'leaves', 'walk', 'byte_size', 'nodes', 'is_empty')
SHOWN = ('show record', 'show 0', 'show 1', 'show 2', 'show 3', 'show 4', 'show 5')
NODES = (0, 1, 30, 31, 32, 33, 62, 63, 64, 65, 94, 95, 96, 126, 127, 128, 129, 255, 256)
MANY_NODES = (1_022, 1_023, 1_024, 1_025)
LARGE_NODES = (32_766, 32_767, 32_768)  # about 65,536 places


def needs(levels):
    """The elements that a build takes of each area; of a refused list those of scratch and labels alone."""
    n = len(levels)
    try:
        check_list(levels)
        parts = parts_of(string_of(levels))[0]
    except Refused:
        parts = [[0] * 9] * 4
    return [len(part) for part in parts] + [n, 2 * n + 2]


def label(chance):
    return chance.choice([0, 2 ** 32 - 1, chance.getrandbits(32), chance.randint(0, 99), chance.randint(0, 99)])


def labels_for(chance, levels):
    """In a long list small ones, so that they fit a line."""
    return [label(chance) if len(levels) < 16_000 else chance.randint(0, 999) for _ in levels]


def filled(sizes, number):
    """Every element of every area set to this number."""
    return [f'put {area} 0 {number}:{number}:{size}' for area, size in enumerate(sizes) if size and number]


# Against the Rust

def oracle_line(levels, labels):
    return f'tree\t{len(levels)}\t{text(levels)}\t{text(labels)}'


def accepted(levels):
    try:
        check_list(levels)
    except Refused:
        return False
    return len(levels) <= MOST_NODES


def built(nodes, sizes=None, dirt=0, more=()):
    """A build of (level, label) pairs with areas just large enough, or as given."""
    levels, labels = [level for level, _ in nodes], [label for _, label in nodes]
    sizes = sizes or needs(levels)
    lines = [areas(sizes)] + filled(sizes, dirt) + given(levels, labels)
    first = len(lines)
    lines += ['build', *SHOWN, *ASKED, *more]
    return Case('build', lines, oracle_line(levels, labels) if accepted(levels) else None,
                lambda answers, fields, build: told(answers[first], answers[first + 1:], fields, build),
                items=nodes, again=lambda fewer: built(fewer, None, dirt))


def told(outcome, answers, fields, build):
    """All that the Rust answers, and the areas that its strings and dictionaries make."""
    if outcome.startswith('refused'):
        # on a list that 01 calls FULL the debug build panics, and what the release build answers is worth nothing
        yield from [('build', PANIC, fields[0])] if outcome.startswith('refused:5:') and build == 'debug' else []
    elif fields[0] == PANIC:
        yield 'build', outcome, PANIC
    else:
        yield from told_areas(answers, fields)
        yield from told_answers(answers[len(SHOWN):], fields)


def told_areas(answers, fields):
    strings, dictionaries = levels_of(fields)
    record = [fields[0].count('1') - 1] + counts(map(len, strings), 5)
    parts = [[word for string in strings for word in packed(list(map(int, string)))]]
    for kind in range(3):
        record += counts([len(entries(made[kind])) for made in dictionaries], 4)
        parts.append([number for made in dictionaries for number in entries(made[kind].replace(':', ' '))])
    yield 'record', answers[0], text(record)
    for area, part in enumerate(parts):
        yield f'area {area}', answers[1 + area], text([entries(answers[1 + area])[0]] + trimmed(part))


def told_answers(answers, fields):
    """The leaf counts are made of the Rust's children and closes."""
    nodes = fields[0].count('1') - 1
    walked = zip(entries(fields[6]), entries(fields[7]))
    wanted = [fields[3], fields[4], fields[5], ('- ' + fields[7]).strip(), leaves(fields), ' '.join(map(':'.join, walked)), fields[1],
              str(nodes), str(int(nodes == 0))]
    yield from zip(ASKED, answers, wanted)


def levels_of(fields):
    """The strings and the dictionaries' bytes, middle and large entries, lowest level first."""
    above = [fields[at:at + 5] for at in range(8, len(fields), 5)]
    return [fields[0]] + [level[0] for level in above], [level[2:] for level in above]


def counts(found, size):
    """The counts of the levels that there are, and zeros."""
    return (list(found) + [0] * size)[:size]


def leaves(fields):
    """For each node the nodes after it, up to its close, that have no child."""
    opens = [place for place, bit in enumerate(fields[0]) if bit == '1']
    before = [0, *accumulate(int(child == '-') for child in entries(fields[4]))]
    below = [(int(close) - place) // 2 for place, close in zip(opens, entries(fields[3]))]
    return text(before[node + 1 + size] - before[node + 1] for node, size in enumerate(below))


# Odd questions

def odd(chance, levels):
    """Places and ids at and past the ends, ids that are not the place's, closes."""
    bits = string_of(levels) if accepted(levels) else [1, 0]
    found = [0, 1, len(bits) - 1, len(bits), len(bits) + 1, *NEAR_LAST] + [chance.randrange(len(bits)) for _ in range(9)]
    two = []
    for place in found:
        opens = sum(bits[:place]) if place <= len(bits) else chance.choice(found)
        two += [place, chance.choice([opens, opens, min(LAST, opens + 1), max(0, opens - 1), chance.choice(NEAR_LAST)])]
    n = len(levels)
    lent = [chance.choice([n, n + 1, max(0, n - 1)]) for _ in range(2)]
    return [line('close', found), line('bit', found)] + [
        line(name, two) for name in ('first_child', 'next_sibling', 'label', 'leaf_count')] + [
        line('walk', lent), 'show 10', 'show 11', 'show 5']


# The cases

def case_of(chance, levels, sizes=None):
    nodes = list(zip(levels, labels_for(chance, levels)))
    return built(nodes, sizes, chance.choice([0, 0, 1, 255]), odd(chance, levels))


def exhaustive(chance):
    """Every accepted list of up to 7 nodes, in areas just large enough."""
    for n in range(8):
        for levels in lists.every(n):
            yield case_of(chance, levels)


def edges(chance):
    """Each shape at each edge; 01's list that is FULL, and its neighbours."""
    for n in NODES:
        for shape in (lists.wide, lists.deep, lists.comb, lists.rake, lists.teeth):
            yield case_of(chance, shape(n))
        for shape in (lists.walk, lists.jumps, lists.mixed):
            yield case_of(chance, shape(chance, n))
    for n in MANY_NODES:
        for levels in (lists.wide(n), lists.deep(n), lists.comb(n), lists.walk(chance, n), lists.any_list(chance, n)):
            yield case_of(chance, levels)
    for n in LARGE_NODES:
        yield case_of(chance, lists.wide(n))
    yield case_of(chance, lists.any_list(chance, chance.choice(LARGE_NODES)))
    for top in (0, 1, 30, 31, 32, 100, 253, 254):
        yield case_of(chance, lists.pyramid(top))
    for pioneers in (2, 2, 3):
        yield case_of(chance, lists.many_flags(chance, pioneers))


def full(chance):
    """FULL with every area too short for anything but scratch."""
    levels = lists.pyramid(254)
    n = len(levels)
    for scratch in (2 * n + 2, 2 * n + 1):
        yield case_of(chance, levels, [0, 0, 0, 0, 0, scratch])
        yield case_of(chance, levels, [1, 1, 1, 1, 1, scratch])


def random_size(chance):
    how = chance.random()
    if how < 0.5:
        return max(0, chance.choice(NODES) + chance.choice([-1, 0, 0, 1]))
    if how < 0.9:
        return int(2 ** chance.uniform(0, 9))
    if how < 0.97:
        return chance.choice(MANY_NODES) + chance.randint(-2, 2)
    return int(2 ** chance.uniform(9, 13)) if how < 0.9985 else chance.choice(LARGE_NODES) + chance.randint(-2, 2)


def random_levels(chance):
    how = chance.random()
    if how < 0.04:
        return lists.many_flags(chance, 2)
    if how < 0.043:
        return lists.many_flags(chance, 3)
    return lists.any_list(chance, random_size(chance))


def random(chance):
    levels = random_levels(chance)
    sizes = needs(levels)
    if chance.random() < 0.5:
        sizes = [size + chance.choice([0, 0, 1, 5]) for size in sizes]
    return case_of(chance, levels, sizes)


# Refusals

def short(chance):
    """Each area one short in turn, and two at once; scratch one short."""
    levels = random_levels(chance)
    sizes = needs(levels)
    for area in chance.sample(range(6), chance.choice([1, 1, 2])):
        sizes[area] = max(0, sizes[area] - chance.choice([1, 1, 1, 2, sizes[area]]))
    return case_of(chance, levels, sizes)


def every_short(chance):
    """Lists about each edge with each area one short."""
    for n in (0, 1, 7, 31, 32, 33, 64, 128, 1_023):
        for levels in (lists.wide(n), lists.deep(n), lists.walk(chance, n)):
            sizes = needs(levels)
            for area in range(6):
                if sizes[area]:
                    yield case_of(chance, levels, sizes[:area] + [sizes[area] - 1] + sizes[area + 1:])


def wrong_list(chance):
    """LENGTHS and LEVEL, also together and with other refusals behind them."""
    levels = random_levels(chance)[:400]
    labels = labels_for(chance, levels)
    for _ in range(chance.randint(0, 2)):
        if levels:
            at = chance.randrange(len(levels))
            before = levels[at - 1] if at else -1
            wrong = chance.choice([before + 2, before + 1, 2 ** 32 - 1, chance.getrandbits(32), before + chance.randint(2, 9)])
            levels[at] = min(wrong, 2 ** 32 - 1)
    if chance.random() < 0.4:
        labels = chance.choice([labels[:-1], labels + [7], [], labels[:len(labels) // 2]])
    sizes = [max(0, size + chance.choice([-1, 0, 0, 3])) for size in needs(levels)]
    lines = [areas(sizes)] + filled(sizes, chance.choice([0, 1, 255])) + given(levels, labels)
    right = accepted(levels) and len(levels) == len(labels)
    return Case('build of a wrong list', lines + ['build', *SHOWN, *ASKED, *odd(chance, [])], oracle_line(levels, labels) if right else None,
                lambda answers, fields, build: told(answers[len(lines)], answers[len(lines) + 1:], fields, build))


def wrong_lists():
    """Every list of up to 5 nodes with levels up to 3, accepted or not, and lengths that differ."""
    def every(n):
        if n == 0:
            yield []
        else:
            for shorter in every(n - 1):
                for level in range(4):
                    yield shorter + [level]
    for n in range(6):
        for levels in every(n):
            lines = [areas([1, 0, 0, 0, n, 2 * n + 2])] + filled([1, 0, 0, 0, n, 2 * n + 2], 1)
            lines += given(levels, range(10, 10 + n)) + ['build', *SHOWN, 'walk']
            yield Case('build of a wrong list', lines, oracle_line(levels, range(10, 10 + n)) if accepted(levels) else None,
                       lambda answers, fields, build: told_areas(answers[-len(SHOWN) - 1:], fields))
    for m, n in ((0, 1), (1, 0), (3, 2), (2, 3)):
        yield Case('build of a wrong list', [areas([1, 0, 0, 0, 3, 8])] + filled([1, 0, 0, 0, 3, 8], 1) + given([5] * m, [6] * n)
                   + ['build', *SHOWN])
