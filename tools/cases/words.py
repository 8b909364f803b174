"""One word of 8 or 64 bits, asked everything."""

from .case import KINDS, NEAR_LAST, Case, entries, line, text

OPERATIONS = ('get', 'set0', 'set1') + KINDS + ('get_close',)


def arguments(width):
    return list(range(width + 2)) + [255, 256] + NEAR_LAST


def word(width, value):
    """Everything at every index up to past the width."""
    lines = [f'word{width} {value} pop_count']
    lines += [line(f'word{width}', value, name, arguments(width)) for name in OPERATIONS]
    return Case(f'word of {width} bits', lines, f'all{width}\t{value}', lambda *both: told(width, value, *both))


def told(width, value, answers, fields, build):
    """The Rust at an index below the width; get_close only at an open. At the width it panics or strays."""
    by_name = dict(zip(('pop_count',) + OPERATIONS, map(entries, answers)))
    eighths = [k * (width // 8) for k in range(8)]
    rows = ('pop_count', 'get', 'set0', 'set1') + KINDS + ('get_close',)
    for name, field in zip(rows, fields):
        ours, theirs = by_name[name], entries(field)
        if name.startswith('set'):
            ours, theirs = [ours[i] for i in eighths], theirs[:8]
        elif name.startswith('select'):
            ours = ours[:width + 2]
        elif name != 'pop_count':
            asked = [i for i in range(width) if name != 'get_close' or value >> i & 1]
            ours, theirs = [ours[i] for i in asked], [theirs[i] for i in asked]
        yield name, text(ours), text(theirs)


def exhaustive():
    for value in range(256):
        yield word(8, value)


def edges():
    """Zero, all ones, single bits, all but one, low and high ones, alternating groups."""
    full = 2 ** 64 - 1
    found = {0, full}
    for i in range(64):
        found |= {1 << i, full ^ 1 << i, (1 << i) - 1, full ^ (1 << i) - 1}
    for group in (1, 2, 4, 8, 16, 32):
        row = sum((1 << group) - 1 << at for at in range(0, 64, 2 * group))
        found |= {row, full ^ row}
    for value in sorted(found):
        yield word(64, value)


def random(chance):
    how = chance.random()
    if how < 0.4:
        return word(64, chance.getrandbits(64))
    if how < 0.7:
        return word(64, chance.getrandbits(64) & chance.getrandbits(64) & chance.getrandbits(64))
    depth, value = 0, 0  # nearly balanced
    for i in range(64):
        if chance.random() < (0.7 if depth < chance.randint(0, 9) else 0.3):
            value |= 1 << i
            depth += 1
        else:
            depth -= 1
    return word(64, value)
