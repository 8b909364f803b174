"""Dictionaries built directly, with areas exactly enough and one short; and dictionaries of any content, asked."""

from model.dictionary import encoded, full_block

from .case import LAST, NEAR_LAST, PANIC, Case, areas, entries, line, puts, text, trimmed

QUESTIONS = ('rank_one', 'select_one', 'pred_one', 'succ_one')
SHOWN = ('show record', 'show 1', 'show 2', 'show 3', 'dict byte_size')
EDGES = (0, 1, 255, 256, 257, 511, 512, 2_047, 2_048, 2_049, 4_096, 65_535, 65_536, 65_537, 131_072)
MOST = 2_097_152


def asked(at):
    return [line('dict', name, at) for name in QUESTIONS]


def words_with(length, places):
    words = [0] * (-(-length // 64))
    for place in places:
        words[place // 64] |= 1 << place % 64
    return words


def needs(places):
    """Elements of areas 1 to 3; of a full block nothing is needed."""
    return [0, 0, 0] if full_block(places) is not None else [len(part) for part in encoded(places)]


def built(length, places, at, sizes=None, dirt=0):
    """From the ones at these places; the areas' sizes are those needed, or as given."""
    words = words_with(length, places)
    sizes = sizes or needs(places)
    lines = [areas([len(words), *sizes, 0, 0])] + puts(0, words) + [f'length {length}']
    if dirt:
        lines += [f'put {area} 0 {dirt}:{dirt}:{size}' for area, size in enumerate(sizes, 1) if size]
    first = len(lines)
    lines += ['dict build', *SHOWN] + asked(at)
    fits = all(need <= size for need, size in zip(needs(places), sizes)) and length <= MOST
    rust = f'dict\t{length}\t{text(places)}\t{text(at)}' if fits else None
    return Case('dictionary', lines, rust, lambda answers, fields, build: told(places, at, answers[first:], fields, build),
                items=places, again=lambda fewer: built(length, fewer, at, None, dirt))


def told(places, at, answers, fields, build):
    """The Rust's content and answers; past the last one's block, and without ones, it panics."""
    if full_block(places) is not None:
        yield from [] if build == 'release' else [('panics', PANIC, fields[0])]
        return
    end = places[-1] // 256 * 256 + 256 if places else 0
    for name, ours, theirs in zip(('bytes', 'middle entries', 'large entries'), answers[2:5], fields):
        yield name, text(trimmed(entries(ours)[1:])), text(trimmed(entries(theirs.replace(':', ' '))))
    yield 'byte size', answers[5], fields[3]
    for name, ours, theirs in zip(QUESTIONS, answers[6:], fields[4:]):
        ours, theirs = entries(ours), entries(theirs)
        strays = [not places and i > 0 if name == 'select_one' else i >= end for i in at]
        yield name, *(text(PANIC if out else answer for out, answer in zip(strays, side)) for side in (ours, theirs))


def arguments(chance, places, length):
    found = {0, 1, length, length + 1, len(places), len(places) + 1, chance.choice(NEAR_LAST), LAST}
    for _ in range(12):
        near = chance.choice(places) if places else 0
        found |= {near, max(0, near - 1), near + 1, chance.randint(0, length + 300), chance.randint(0, len(places) + 2)}
    found |= {edge for edge in EDGES if edge <= length + 256 and chance.random() < 0.5}
    return sorted(found)


def random_places(chance, length):
    """Sparse, dense, in rows, about the edges."""
    how = chance.random()
    if length == 0:
        return []
    if how < 0.3:
        rate = chance.choice([0.003, 0.05, 0.5, 0.9, 0.99])
        return [i for i in range(length) if chance.random() < rate]
    if how < 0.7:
        return sorted({chance.randrange(length) for _ in range(chance.randint(0, 40))})
    if how < 0.85:
        near = {edge + k for edge in EDGES for k in (-2, -1, 0, 1)}
        return sorted(i for i in near if 0 <= i < length and chance.random() < 0.7)
    start = chance.randrange(length)
    return list(range(start, min(length, start + chance.choice([254, 255, 256, 257, 300, 511, 600]))))


def random_length(chance):
    how = chance.random()
    if how < 0.5:
        return max(0, chance.choice(EDGES[:10]) + chance.choice([-1, 0, 1, 5]))
    if how < 0.8:
        return chance.randint(0, 5_000)
    return max(0, chance.choice([65_535, 65_536, 65_537, 131_072, 200_000]) + chance.choice([-1, 0, 1]))


def random(chance):
    length = random_length(chance)
    places = random_places(chance, min(length, 5_000) if chance.random() < 0.5 else length)
    at = arguments(chance, places, length)
    sizes = needs(places)
    how = chance.random()
    if how < 0.3:
        sizes = [size + chance.choice([0, 0, 1, 7]) for size in sizes]
    elif how < 0.5:
        short = chance.randrange(3)
        sizes[short] = max(0, sizes[short] - chance.choice([1, 1, 2]))
    return built(length, places, at, sizes, chance.choice([0, 1, 255]))


def fixed():
    """01's cases, and the edges of the greatest length."""
    near = list(range(0, 4)) + [254, 255, 256, 257, 511, 512, LAST]
    for places in ([], [0], [255, 256], list(range(255)), list(range(256)), list(range(1, 257)), list(range(256, 512))):
        yield built(600, places, near)
    yield built(MOST, [0, MOST - 1], near + [MOST - 1, MOST])
    yield built(MOST, [65_535, 65_536, 1_000_000], near + [65_535, 65_536, 999_999, 1_000_000, 1_000_192, MOST])
    for length in (MOST + 1, MOST + 64, 33_280 * 64):
        yield Case('dictionary', [areas([33_280, 9, 9, 9, 0, 0]), 'put 0 0 1', f'length {length}', 'put 1 0 7', 'put 2 8 7',
                                  'put 3 0 7', 'dict build', *SHOWN])
    for length in (65, 128, *NEAR_LAST):
        yield Case('dictionary', [areas([1, 9, 9, 9, 0, 0]), 'put 0 0 1', f'length {length}', 'put 1 0 7', 'dict build', *SHOWN])


# Any content

def values(chance, top):
    return chance.choice([0, 0, 1, 2, chance.randint(0, 9), chance.randint(0, top), top, top - chance.randint(0, 300) % (top + 1)])


def entry_numbers(chance, entries, top):
    """Positions and ranks, mostly small."""
    return [values(chance, top) if chance.random() < 0.3 else chance.randint(0, 6) for _ in range(2 * entries)]


def any_content(chance):
    """Bytes and entries by chance, some near the greatest there are."""
    data = [chance.choice([0, 1, 1, 2, 3, values(chance, 255)]) for _ in range(chance.randint(0, 24))]
    middles = entry_numbers(chance, chance.choice([0, 1, 1, 2, 5, 33, 40]), 65_535)
    larges = entry_numbers(chance, chance.choice([0, 1, 1, 2, 3]), LAST)
    if larges and chance.random() < 0.2:
        larges[-1] = LAST - chance.randint(0, 3)
    return content(chance, 'dictionary of any content', data, middles, larges)


def content(chance, kind, data, middles, larges):
    """Areas 1 to 3 just as long as this content, and counts that are theirs or nearly so."""
    counts = [len(data), len(middles) // 2, len(larges) // 2]
    sizes = [len(data), len(middles), len(larges)]
    if chance.random() < 0.1:
        which = chance.randrange(3)
        counts[which] = chance.choice([counts[which] + 1, max(0, counts[which] - 1), 0, chance.choice(NEAR_LAST)])
    record = [0] * 18
    record[6], record[10], record[14] = counts
    lines = [areas([0, *sizes, 0, 0]), line('record', record)]
    lines += puts(1, data) + puts(2, middles) + puts(3, larges)
    at = sorted({0, 1, 2, 3, 255, 256, 257, 2_048, 65_536, LAST, LAST - 1, *(values(chance, LAST) for _ in range(4)),
                 *(chance.randint(0, 140_000) for _ in range(4)), *(chance.randint(0, 3_000) for _ in range(6)), *range(4, 16)})
    return Case(kind, lines + ['dict byte_size'] + asked(at))


def damaged(chance):
    """A good dictionary over some large blocks, with a few elements changed."""
    length = chance.choice([600, 3_000, 70_000, 140_000, 200_000])
    places = sorted({chance.randrange(length) for _ in range(chance.randint(1, 60))})
    parts = [list(part) for part in encoded(places)]
    for _ in range(chance.randint(1, 4)):
        kind = chance.choice([0, 0, 1, 2])
        at, top = chance.randrange(len(parts[kind])), (255, 65_535, LAST)[kind]
        old = parts[kind][at]
        turned = old ^ 1 << chance.randrange(top.bit_length())
        parts[kind][at] = chance.choice([values(chance, top), (old + 1) % (top + 1), max(0, old - 1), turned])
    if chance.random() < 0.2:
        del parts[chance.randrange(3)][-2:]
    return content(chance, 'damaged dictionary', *parts)
