"""Bit strings: pushes, sets, resizes, every question; the plain scan; lengths past the words."""

from .case import KINDS, LAST, NEAR_LAST, Case, areas, entries, line, puts, text, trimmed

EDGES = (0, 1, 2, 63, 64, 65, 127, 128, 129, 191, 192, 193, 255, 256, 257)
SHOWN = ('string ones', 'string byte_size', 'show record', 'show 0')


def words_of(bits):
    return -(-bits // 64)


def questions(at):
    return [line('string get', at)] + [line('string', name, at) for name in KINDS]


def scans(at):
    return [line('scan', name, at) for name in KINDS]


def pushed(bits):
    return [line('string push', bits)] if bits else []


def places(chance, length):
    """Places and ranks at, before and past the ends."""
    found = {0, 1, length, length + 1, length + 64, *chance.sample(NEAR_LAST, 3)} | {abs(length - k) for k in (1, 2, 64)}
    found |= {chance.randint(0, length + 2) for _ in range(12)}
    found |= {edge for edge in EDGES if edge <= length + 1}
    return sorted(found)


# Against the Rust

def edited(bits, edits, at, words):
    """Pushed bit by bit, then edited. The edits are such that the Rust does not stray: no resize to a multiple of 64 or over a one."""
    lines = [areas([words, 0, 0, 0, 0, 0])] + pushed(bits)
    lines += [EDITS[name].format(*values) for name, *values in edits]
    first = len(lines)
    lines += questions(at) + list(SHOWN) + scans(at)
    written = ' '.join(SHORT[name].format(*values) for name, *values in edits)
    rust = f"bits\t{''.join(map(str, bits))}\t{written}\t{text(at)}"
    return Case('bit string', lines, rust, lambda answers, fields, build: told(at, answers[first:], fields),
                items=edits, again=lambda fewer: edited(bits, fewer, at, words) if sound(bits, fewer) else None)


EDITS = {'push': 'string push {0}', 'set': 'string set{1} {0}', 'resize': 'string resize {0}'}
SHORT = {'push': 'p{0}', 'set': 's{0}:{1}', 'resize': 'r{0}'}


def told(at, answers, fields):
    """The Rust's answers, but for the zero questions at or past the length, where it strays."""
    length, words, size = int(fields[1]), fields[2], fields[3]
    yield 'get', answers[0], fields[4]
    yield from inside(at, length, answers[1:9], fields[5:13])
    yield 'ones', answers[9], fields[13]
    yield 'byte size', answers[10], size
    yield 'length', answers[11].split()[1], str(length)
    yield 'words', text(trimmed(entries(answers[12])[1:])), text(trimmed(entries(words)))


def inside(at, length, answers, fields):
    """The eight questions; of rank, pred and succ of zeros only those before the length."""
    for name, ours, theirs in zip(KINDS, answers, fields):
        keep = [k for k, i in enumerate(at) if i < length or name == 'select_zero' or name.endswith('one')]
        ours, theirs = entries(ours), entries(theirs)
        yield name, text(ours[k] for k in keep), text(theirs[k] for k in keep)


def sound(bits, edits):
    """Are these edits some on which the Rust does not stray?"""
    bits = list(bits)
    for name, *values in edits:
        if name == 'push':
            bits.append(values[0])
        elif name == 'set' and values[0] < len(bits):
            bits[values[0]] = values[1]
        elif name == 'resize' and values[0] % 64 and not any(bits[values[0]:]):
            bits = bits[:values[0]] + [0] * (values[0] - len(bits))
        else:
            return False
    return True


def random_edits(chance, bits):
    bits, edits = list(bits), []
    for _ in range(chance.randint(0, 12)):
        how = chance.choice(['push', 'push', 'set', 'set', 'resize'])
        last_one = max((i for i, b in enumerate(bits) if b), default=-1)
        if how == 'push':
            edit = 'push', chance.getrandbits(1)
        elif how == 'set' and bits:
            edit = 'set', chance.randrange(len(bits)), chance.getrandbits(1)
        else:
            edit = 'resize', chance.randint(last_one + 1, len(bits) + chance.choice([2, 70, 200]))
        if sound(bits, [edit]):
            edits.append(edit)
            if how == 'push':
                bits.append(edit[1])
            elif edit[0] == 'set':
                bits[edit[1]] = edit[2]
            else:
                bits = bits[:edit[1]] + [0] * (edit[1] - len(bits))
    return edits, len(bits)


def random_bits(chance, length):
    dense = chance.choice([0.02, 0.5, 0.5, 0.98])
    return [int(chance.random() < dense) for _ in range(length)]


def size(chance):
    edge = chance.choice(EDGES) if chance.random() < 0.5 else chance.choice([chance.randint(0, 300), 511, 512, 513, 2048])
    return max(0, edge + chance.choice([-1, 0, 0, 1]))


def random(chance):
    """With the Rust beside it."""
    bits = random_bits(chance, size(chance))
    edits, length = random_edits(chance, bits)
    longest = length + len(bits) + 300
    return edited(bits, edits, places(chance, length), words_of(longest) + chance.randint(0, 2))


def scanned(chance):
    """LinearFid of the Rust. Its rank_one and pred_one at the last place of 64 bits add one to it."""
    bits = random_bits(chance, size(chance))
    at = [i for i in places(chance, len(bits)) if i != LAST]
    lines = [areas([words_of(len(bits)), 0, 0, 0, 0, 0])] + pushed(bits) + scans(at)

    return Case('plain scan', lines, f"scan\t{''.join(map(str, bits))}\t{text(at)}",
                lambda answers, fields, build: inside(at, len(bits), answers[-len(KINDS):], fields))


# Where the Rust strays or has nothing

def lent(chance):
    """Any words, any length, also past the words; edits of every kind, then every question."""
    words = [chance.choice([0, LAST, chance.getrandbits(64)]) for _ in range(chance.randint(0, 5))]
    length = chance.choice([chance.randint(0, 64 * len(words)), max(0, 64 * len(words) - chance.randint(0, 65)), 64 * len(words),
                            64 * len(words) + chance.randint(1, 66), chance.choice(NEAR_LAST)])
    lines = [areas([len(words), 0, 0, 0, 0, 0])] + puts(0, words) + [f'length {length}']
    for _ in range(chance.randint(0, 6)):
        lines += [free_edit(chance, len(words), length), 'show record', 'show 0']
    at = places(chance, min(length, 64 * len(words)))
    return Case('bit string in any words', lines + questions(at) + list(SHOWN) + scans(at))


def free_edit(chance, words, length):
    where = chance.choice([chance.randint(0, 64 * words + 2), length, chance.choice(NEAR_LAST), 64 * chance.randint(0, words + 1)])
    edits = ['string push 1', 'string push 0', f'string set0 {where}', f'string set1 {where}', f'string resize {where}',
             f'string resize {where}']
    return chance.choice(edits)


def exhaustive():
    """Every string of up to 6 bits and every resize between two lengths about a word's end."""
    for length in range(7):
        for value in range(2 ** length):
            at = list(range(length + 3)) + [LAST]
            lines = [areas([1, 0, 0, 0, 0, 0]), f'put 0 0 {value | 2 ** 64 - 2 ** length}', f'length {length}']
            yield Case('bit string in any words', lines + questions(at) + list(SHOWN) + scans(at))
    ends = (0, 1, 62, 63, 64, 65, 66, 127, 128, 129)
    for first in ends:
        for last in ends:
            at = sorted({0, first, last, max(0, first - 1), max(0, last - 1), 130})
            lines = [areas([2, 0, 0, 0, 0, 0]), f'put 0 0 {LAST} {LAST}', f'length {first}', f'string resize {last}']
            yield Case('bit string in any words', lines + list(SHOWN) + ['string push 1'] + questions(at) + list(SHOWN))
