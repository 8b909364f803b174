"""What document 01 says, in the plainest way: the fields that an answer line of the oracle should have.

A list is compared as text. ANY stands where the original strays from 01 (docs/DIFFERENCES.md) and nothing is compared.
"""

from bisect import bisect_left, bisect_right

ANY = object()
PANIC = '!'
NOTHING = '-'


def numbers(field):
    """A number list of a case: `a`, `a:b` (up or down), `a*k`."""
    found = []
    for token in field.split():
        if ':' in token:
            a, b = map(int, token.split(':'))
            found.extend(range(a, b + 1) if a <= b else range(a, b - 1, -1))
        elif '*' in token:
            a, k = map(int, token.split('*'))
            found.extend([a] * k)
        else:
            found.append(int(token))
    return found


def shown(answers):
    return [NOTHING if a is None else a if a is ANY else str(a) for a in answers]


def digest(text):
    h = 1
    for byte in text.encode():
        h = (h * 1000003 + byte) % 4294967291
    return h


# Trees

def levels_of(n, words):
    """The level list of the string whose words are given."""
    levels, depth = [], 0
    for place in range(2 * n + 2):
        if words[place // 64] >> (place % 64) & 1:
            if depth:
                levels.append(depth - 1)
            depth += 1
        else:
            depth -= 1
    return levels


def tree(levels, labels):
    """The fields of an accepted list. One stack over the levels gives the string, the closes and the siblings."""
    n = len(levels)
    bits, place_of, close_of = ['1'], [0], [None] * (n + 1)
    sibling = [None] * (n + 1)
    stack = []  # (level, id) of the open nodes; the root lies under it
    for k, level in enumerate(levels):
        node = k + 1
        while stack and stack[-1][0] >= level:
            shut_level, shut = stack.pop()
            close_of[shut] = len(bits)
            bits.append('0')
            if shut_level == level:
                sibling[shut] = node
        stack.append((level, node))
        place_of.append(len(bits))
        bits.append('1')
    for node in [node for _, node in reversed(stack)] + [0]:
        close_of[node] = len(bits)
        bits.append('0')
    # the node after this one in the list is its child exactly when it is deeper
    deeper = [n > 0] + [levels[k + 1] > levels[k] for k in range(n - 1)] + [False] * (n > 0)
    child = [node + 1 if deeper[node] else None for node in range(n + 1)]

    def edges(targets):
        return ' '.join(NOTHING if t is None else f'{place_of[t]}:{t}:{labels[t - 1]}' for t in targets)

    above = pioneers(list(zip(place_of, close_of)), len(bits), bits)
    if above is None:
        return [PANIC] * 8
    size = 8 * words(len(bits)) + 8 + 4 * n
    for string, _, dictionary in above:
        size += 8 * words(len(string)) + dictionary[3]
    fields = [
        ''.join(bits),
        str(size),
        str(len(above)),
        ' '.join(map(str, close_of)),
        edges(child),
        edges(sibling),
        ' '.join(map(str, levels)),
        ' '.join(map(str, labels)),
    ]
    for string, flags, dictionary in above:
        fields += [''.join(string), ' '.join(map(str, flags))] + dictionary[:3]
    return fields


def words(bits):
    return (bits + 63) // 64


def pioneers(pairs, length, bits):
    """String, flags and dictionary of each pioneer level; None where a block is full."""
    found = []
    while length > 64:
        outermost = {}
        for p, c in pairs:
            blocks = p // 64, c // 64
            if blocks[0] != blocks[1] and (blocks not in outermost or p < outermost[blocks][0]):
                outermost[blocks] = p, c
        flags = sorted(end for pair in outermost.values() for end in pair)
        dictionary = encoded(flags)
        if dictionary is None:
            return None
        bits = [bits[p] for p in flags]
        rank = {p: k for k, p in enumerate(flags)}
        pairs = [(rank[p], rank[c]) for p, c in outermost.values()]
        length = len(flags)
        found.append((bits, flags, dictionary))
    return found


# The dictionary

def encoded(places):
    """Bytes, middle entries and large entries as text, and the byte size; None where a block is full."""
    blocks = {}
    for place in places:
        blocks.setdefault(place // 256, []).append(place % 256)
    data, middles, larges = [], [], []
    rank = position = large_rank = 0
    for block in range(places[-1] // 256 + 1 if places else 0):
        offsets = blocks.get(block, [])
        if len(offsets) == 256:
            return None
        if block % 256 == 0:
            position, large_rank = len(data), rank
            larges.append(f'{position}:{rank}')
        if block % 8 == 0:
            middles.append(f'{len(data) - position}:{rank - large_rank}')
        data += [len(offsets)] + offsets
        rank += len(offsets)
    size = len(data) + 4 * len(middles) + 16 * len(larges)
    return [' '.join(map(str, data)), ' '.join(middles), ' '.join(larges), size]


def dictionary(places, at):
    """The fields of a dictionary built directly, with the panics of the original where it strays."""
    made = encoded(places)
    if made is None:
        return [PANIC] * 4 + [' '.join([PANIC] * len(at))] * 4
    end = (places[-1] // 256 + 1) * 256 if places else 0
    rank, select, pred, succ = scan(places)

    def placed(question):
        return ' '.join(shown(PANIC if i >= end else question(i) for i in at))

    selected = shown(PANIC if not places and r else select(r) for r in at)
    return made[:3] + [str(made[3]), placed(rank), ' '.join(selected), placed(pred), placed(succ)]


def scan(places):
    """rank, select, pred and succ of an ascending list of places."""
    def rank(i):
        return bisect_right(places, i)

    def select(r):
        return places[r - 1] if 1 <= r <= len(places) else None

    def pred(i):
        return select(rank(i))

    def succ(i):
        return select(bisect_left(places, i) + 1)

    return rank, select, pred, succ


# The string

def scanned(bits, at):
    """rank, select, pred and succ, of ones and of zeros in turn. The zero questions at or past the end are 01's PLACE:
    ANY."""
    rank1, select1, pred1, succ1 = scan([k for k, b in enumerate(bits) if b])
    rank0, select0, pred0, succ0 = scan([k for k, b in enumerate(bits) if not b])

    def each(question):
        return shown(question(a) for a in at)

    def inside(question):
        return shown(question(a) if a < len(bits) else ANY for a in at)

    return [each(rank1), inside(rank0), each(select1), each(select0), each(pred1), inside(pred0), each(succ1), inside(succ0)]


def string(text, edits, at):
    """The fields of a string after its edits."""
    bits, outcomes = [int(b) for b in text], []
    for edit in edits.split():
        outcomes.append('.')
        if edit[0] == 'p':
            bits.append(int(edit[1:]))
        elif edit[0] == 'r':
            size = int(edit[1:])
            bits = bits[:size] + [0] * (size - len(bits))
        else:
            place, b = map(int, edit[1:].split(':'))
            if place < len(bits):
                bits[place] = b
            else:
                outcomes[-1] = PANIC
    length = len(bits)
    packed = [sum(b << k for k, b in enumerate(bits[w:w + 64])) for w in range(0, length, 64)]
    return [
        outcomes,
        [str(length)],
        shown(packed),
        [str(8 * len(packed))],
        shown(bits[i] if i < length else None for i in at),
        *scanned(bits, at),
        shown(k for k, b in enumerate(bits) if b),
    ]


# The word

def word(width, value):
    """The fields of `all8` and `all64`. At the width itself the original panics; get_close there finds nothing, and on a
    close it has no sound answer: ANY."""
    bits = [value >> k & 1 for k in range(width)]
    rank1, select1, pred1, succ1 = scan([k for k in range(width) if bits[k]])
    rank0, select0, pred0, succ0 = scan([k for k in range(width) if not bits[k]])

    def close(i):
        depth = 0
        for k in range(i, width):
            depth += 1 if bits[k] else -1
            if depth == 0:
                return k
        return None

    def each(question):
        return shown([question(i) for i in range(width)] + [PANIC])

    def put(b):
        eighths = range(0, width, width // 8)
        return shown([value & ~(1 << i) | b << i for i in eighths] + [PANIC])

    def ranked(question):
        return shown(question(r) for r in range(width + 2))

    return [
        [str(sum(bits))],
        each(lambda i: bits[i]),
        put(0),
        put(1),
        each(rank1),
        each(rank0),
        ranked(select1),
        ranked(select0),
        each(pred1),
        each(pred0),
        each(succ1),
        each(succ0),
        shown([close(i) if bits[i] else ANY for i in range(width)] + [None]),
    ]
