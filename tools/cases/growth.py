"""Growth: one node more and a build afresh, area by area; refused growth, which changes nothing."""

from model.refusals import Refused
from model.tree import parts_of, string_of

from . import lists
from .case import NEAR_LAST, Case, areas, given, line
from .trees import ASKED, SHOWN, accepted, label, labels_for, needs, odd, oracle_line, told, told_areas

NODES = (1, 2, 7, 31, 32, 33, 63, 64, 65, 95, 96, 127, 128, 129, 255, 256)
MANY_NODES = (1_022, 1_023, 1_024, 1_025)
LARGE_NODES = (32_767, 32_768, 32_769)  # about 65,536 places


def split(nodes):
    return [level for level, _ in nodes], [label for _, label in nodes]


def largest(sizes):
    """Of each area the largest size."""
    return [max(each) for each in zip(*sizes)]


def grown(nodes, first, dirt=0, each_step=True, more=()):
    """An accepted list: the first nodes built, the others grown one by one; then the whole list built afresh."""
    levels, labels = split(nodes)
    sizes = largest(needs(levels[:n]) for n in range(first, len(levels) + 1))
    lines = [areas(sizes)] + given(levels[:first], labels[:first]) + ['build']
    if dirt:
        # growth works from the bit string alone
        lines += [f'put {area} 0 {dirt}:{dirt}:{sizes[area]}' for area in (1, 2, 3, 5) if sizes[area]]
    for level, name in nodes[first:]:
        lines.append(f'grow {level} {name}')
        lines += SHOWN if each_step else ['show record', 'show 5']
    shown = len(lines)
    lines += [*SHOWN, *ASKED, *more]
    last = max(k for k, words in enumerate(lines) if words.startswith(('grow', 'build')))
    lines += [areas(sizes)] + given(levels, labels) + ['build']
    afresh = len(lines)
    lines += SHOWN

    def compared(answers, fields, build):
        return told(answers[last], answers[shown:], fields, build)

    def again(fewer):
        return grown(fewer, min(first, max(0, len(fewer) - 1)), dirt) if accepted([level for level, _ in fewer]) else None

    return Case('growth', lines, oracle_line(levels, labels), compared,
                same=[(last, afresh - 1)] + [(shown + k, afresh + k) for k in range(len(SHOWN))], items=nodes, again=again)


def exhaustive(chance):
    """Every list of up to 7 nodes by every level; the last of them is one too many."""
    for n in range(8):
        for levels in lists.every(n):
            top = levels[-1] + 1 if levels else 0
            for level in range(top + 1):
                nodes = list(zip(levels + [level], labels_for(chance, range(n + 1))))
                yield grown(nodes, n, chance.choice([0, 9]))
            yield refused(chance, levels, [(top + 1, 5), (2 ** 32 - 1, 5)])


def edges(chance):
    """Across 64 bits, and 256, 2,048 and 65,536 places; lists with two and three pioneer levels."""
    for n in NODES:
        for shape in (lists.wide, lists.deep, lists.comb, lists.rake):
            yield steps(chance, shape(n + 2), 3)
    for n in MANY_NODES:
        yield steps(chance, lists.any_list(chance, n), 3)
    yield steps(chance, lists.any_list(chance, chance.choice(LARGE_NODES)), 2)
    for pioneers in (2, 2, 3):
        yield steps(chance, lists.many_flags(chance, pioneers), 3)
    # 01's FULL list: its block fills at this node
    yield full(chance)


def full(chance):
    levels = lists.pyramid(254)
    whole = next(n for n in range(8_383, len(levels) + 1) if is_full(levels[:n]))
    return refused(chance, levels[:whole - 1], [(levels[whole - 1], 7), (levels[whole - 1], 8)], ask=False)


def is_full(levels):
    try:
        parts_of(string_of(levels))
    except Refused:
        return True
    return False


def steps(chance, levels, count):
    nodes = list(zip(levels, labels_for(chance, levels)))
    first = max(0, len(nodes) - count)
    return grown(nodes, first, chance.choice([0, 0, 255]), each_step=len(nodes) < 300, more=odd(chance, levels))


def random(chance):
    """A list grown step by step across an edge."""
    how = chance.random()
    if how < 0.6:
        n = chance.choice(NODES) + chance.randint(0, 6)
    elif how < 0.95:
        n = int(2 ** chance.uniform(0, 8))
    elif how < 0.997:
        n = chance.choice(MANY_NODES) + chance.randint(0, 3)
    else:
        n = chance.choice(LARGE_NODES)
    levels = lists.any_list(chance, max(1, n))
    return steps(chance, levels, chance.randint(1, 12) if n < 300 else 3)


def from_empty(chance):
    """Grown from the empty list, node by node."""
    levels = lists.any_list(chance, chance.choice([10, 40, 70, 140]))
    nodes = list(zip(levels, labels_for(chance, levels)))
    return grown(nodes, 0, each_step=chance.random() < 0.3)


def refused(chance, levels, grows, sizes=None, ask=True):
    """Growth that is refused, or not: what stands is shown after each, in areas full of other numbers behind."""
    sizes, labels = sizes or needs(levels), labels_for(chance, levels)
    dirt = chance.choice([0, 3])
    lines = [areas(sizes)] + given(levels, labels) + ['build']
    lines += [f'put 5 0 {dirt}:{dirt}:{sizes[5]}'] if dirt else []
    lines += [f'put 4 {len(levels)} {dirt}:{dirt}:{sizes[4] - len(levels)}'] if dirt and sizes[4] > len(levels) else []
    for level, name in grows:
        lines += [f'grow {level} {name}', *SHOWN]

    def compared(answers, fields, build):
        """Where every growth was refused, what stands is the Rust's tree of the list."""
        if all(answer.startswith('refused') for line, answer in zip(lines, answers) if line.startswith('grow')):
            yield from told(answers[3], answers[len(lines) - len(SHOWN):], fields, build)

    return Case('growth refused', lines + list(ASKED if ask else []), oracle_line(levels, labels) if ask else None, compared)


def short(chance):
    """Areas just large enough for the list, or for the longer list but for one short."""
    levels = lists.any_list(chance, chance.choice(NODES) + chance.randint(-1, 1))
    level = chance.randint(0, levels[-1] + 2 if levels else 1)
    now, then = needs(levels), needs(levels + [level])
    sizes = largest([now, then])
    for area in chance.sample(range(6), chance.choice([0, 1, 1, 2])):
        sizes[area] = max(now[area], sizes[area] - chance.choice([1, 1, 2]))
    sizes = [size + chance.choice([0, 0, 0, 2]) for size in sizes]
    return refused(chance, levels, [(level, label(chance)), (chance.choice([0, 2 ** 32 - 1]), label(chance))], sizes)


def every_short(chance):
    """Each area one short of the longer list, about each edge."""
    for n in (0, 1, 30, 31, 32, 63, 64, 127, 128, 1_023):
        for levels in (lists.wide(n), lists.deep(n), lists.walk(chance, n)):
            level = levels[-1] if levels else 0
            now, then = needs(levels), needs(levels + [level])
            for area in range(6):
                sizes = largest([now, then])
                if then[area] > now[area]:
                    sizes[area] = then[area] - 1
                    yield refused(chance, levels, [(level, 77)], sizes, ask=n < 300)


def record_of(chance):
    """Growth under a record that is not the string's: only the nodes and the first bits are looked at."""
    levels = lists.any_list(chance, chance.randint(0, 70))
    level = chance.randint(0, levels[-1] + 1 if levels else 0)
    sizes = largest([needs(levels), needs(levels + [level])])
    n = len(levels)
    record = [n, 2 * n + 2] + [chance.choice([0, 1, 7, *NEAR_LAST]) for _ in range(16)]
    how = chance.random()
    if how < 0.2:
        record[0] = chance.choice([n + 1, max(0, n - 1), n + 2 ** 63, *NEAR_LAST])
    elif how < 0.4:
        record[1] = chance.choice([2 * n, 2 * n + 1, 2 * n + 3, 64 * sizes[0], 64 * sizes[0] + 1, *NEAR_LAST])
    elif how < 0.6:
        record[0] += chance.choice([-1, 1]) if n else 1
        record[1] = 2 * record[0] + 2
    labels = labels_for(chance, levels)
    lines = [areas(sizes)] + given(levels, labels) + ['build', line('record', record)]

    def compared(answers, fields, build):
        """After a growth that was not refused the areas are those of the Rust's tree of the longer list."""
        if not answers[len(lines)].startswith('refused'):
            yield from told_areas(answers[len(lines) + 1:], fields)

    return Case('growth under another record', lines + [f'grow {level} 9', *SHOWN, 'grow 0 8', *SHOWN, *ASKED],
                oracle_line(levels + [level], labels + [9]), compared)
