"""Lines from testdata/: what the Rust answered, with 01's answer where testdata/README.md has a row."""

import os
from itertools import accumulate

import oracle_plain
from model.string import packed
from model.tree import parts_of, string_of
from oracle_plain import digest, levels_of, numbers

from .lines import DIGEST, RULES, RUST, Disagrees, listed, runs, shown, text

DATA = os.path.join(os.path.dirname(os.path.realpath(__file__)), '..', '..', 'testdata')
PANIC, NOTHING = '!', '-'
ZEROS = ('rank_zero', 'pred_zero', 'succ_zero')
KINDS = ('rank_one', 'rank_zero', 'select_one', 'select_zero', 'pred_one', 'pred_zero', 'succ_one', 'succ_zero')


def read(name):
    """The lines of a file, from 1."""
    with open(os.path.join(DATA, name + '.txt'), encoding='utf-8') as found:
        return [None] + [line.rstrip('\n').split('\t') for line in found]


def refused(number, *carries):
    return ':'.join(map(str, ('refused', number, *carries)))


def singles(field):
    """Dictionary entries `p:r` as numbers, one after the other."""
    return [int(number) for entry in field.split() for number in entry.split(':')]


# Trees

class Tree:
    """A recorded list. A field of which only the digest stands is made from the list, and has to have that digest."""

    def __init__(self, fields):
        kind, n, given, labels, *told = fields
        self.levels = numbers(given) if kind == 'tree' else levels_of(int(n), numbers(given))
        self.labels, self.nodes, self.panics = numbers(labels), int(n), told[0] == PANIC
        self.source = [DIGEST if field.startswith('#') else RUST for field in told]
        self.fields = told if self.panics or DIGEST not in self.source else self.whole(told)

    def whole(self, told):
        made = oracle_plain.tree(self.levels, self.labels)
        for field, own in zip(told, made):
            if field != (f'#{len(own)}:{digest(own)}' if field.startswith('#') else own):
                raise Disagrees(f'a recorded field of {self.nodes} nodes: {field[:60]}')
        return made

    def parts(self):
        """What areas 0 to 3 hold, and the record."""
        fields, above = self.fields, [self.fields[at:at + 5] for at in range(8, len(self.fields), 5)]
        strings = [fields[0]] + [level[0] for level in above]
        held = [[packed(list(map(int, string))) for string in strings]]
        held += [[singles(level[kind]) for level in above] for kind in (2, 3, 4)]
        record = [self.nodes] + padded(map(len, strings), 5) + padded(map(len, held[1]), 4)
        record += padded((len(part) // 2 for part in held[2]), 4) + padded((len(part) // 2 for part in held[3]), 4)
        return [[number for part in kind for number in part] for kind in held], record

    def sizes(self):
        return [len(part) for part in self.parts()[0]] + [self.nodes, 2 * self.nodes + 2]

    def sources(self):
        """Of areas 0 to 3: where the fields of each come from."""
        above = range(8, len(self.source), 5)
        return [max([self.source[0]] + [self.source[at] for at in above])] + [
            max([RUST] + [self.source[at + kind] for at in above]) for kind in (2, 3, 4)]


def padded(counts, size):
    return (list(counts) + [0] * size)[:size]


def largest(*sizes):
    return [max(each) for each in zip(*sizes)]


def needs(levels):
    """The elements of each area that an accepted list takes."""
    parts = parts_of(string_of(levels))[0]
    return [len(part) for part in parts] + [len(levels), 2 * len(levels) + 2]


def given(lines, tree, sizes, nodes=None):
    lines.set(f'areas {text(sizes)}', listed('levels', tree.levels[:nodes]), listed('labels', tree.labels[:nodes]))


def areas(lines, tree, sizes):
    """The record and all six areas, as a build or a growth leaves them."""
    parts, record = tree.parts()
    sources = tree.sources()
    lines.ask('show record', text(record), max(sources))
    for area, (part, source) in enumerate(zip(parts, sources)):
        lines.ask(f'show {area}', shown(sizes[area], part), source)
    lines.ask('show 4', shown(sizes[4], numbers(tree.fields[7])), tree.source[7])
    lines.ask('show 5', sizes[5], RULES)


def questions(lines, tree):
    fields, source = tree.fields, tree.source
    lines.ask('byte_size', fields[1], source[1])
    lines.ask('closes', fields[3], source[3])
    lines.ask('children', fields[4], source[4])
    lines.ask('siblings', fields[5], source[5])
    lines.ask('names', f'{NOTHING} {fields[7]}'.strip(), source[7])
    lines.ask('walk', walked(fields), max(source[6:8]))


def walked(fields):
    return ' '.join(map(':'.join, zip(fields[6].split(), fields[7].split())))


def leaves(fields):
    """For each node the nodes after it, up to its close, that have no child: made of the Rust's children and closes."""
    opens = [place for place, bit in enumerate(fields[0]) if bit == '1']
    before = [0, *accumulate(int(child == NOTHING) for child in fields[4].split())]
    below = [(int(close) - place) // 2 for place, close in zip(opens, fields[3].split())]
    return text(before[node + 1 + size] - before[node + 1] for node, size in enumerate(below))


def built(lines, tree):
    """The build in areas just large enough, its areas and every question."""
    sizes = tree.sizes()
    given(lines, tree, sizes)
    lines.ask('build', tree.nodes, RUST)
    areas(lines, tree, sizes)
    questions(lines, tree)
    lines.ask('leaves', leaves(tree.fields), max(tree.source[3:5]))


def grown(lines, tree):
    """The list without its last node, grown by it: the areas of the build, with zeros behind them."""
    sizes = largest(tree.sizes(), needs(tree.levels[:-1]))
    given(lines, tree, sizes, tree.nodes - 1)
    lines.ask('build', tree.nodes - 1, RULES)
    last(lines, tree, sizes)


def last(lines, tree, sizes):
    lines.ask(f'grow {tree.levels[-1]} {tree.labels[-1]}', tree.nodes, RUST)
    areas(lines, tree, sizes)
    lines.ask('closes', tree.fields[3], tree.source[3])


def chain(lines, trees):
    """Recorded lists, each by one node longer than the one before: the first built, the others grown."""
    sizes = largest(*(tree.sizes() for tree in trees))
    given(lines, trees[0], sizes)
    lines.ask('build', trees[0].nodes, RUST)
    areas(lines, trees[0], sizes)
    for tree in trees[1:]:
        last(lines, tree, sizes)


def some(lines, tree, count):
    """Of a long list: the build, its record and dictionaries, and the questions at some nodes spread over it."""
    sizes, fields, (parts, record), sources = tree.sizes(), tree.fields, tree.parts(), tree.sources()
    given(lines, tree, sizes)
    lines.ask('build', tree.nodes, RUST)
    lines.ask('show record', text(record), max(sources))
    for area in (1, 2, 3):
        lines.ask(f'show {area}', shown(sizes[area], parts[area]), sources[area])
    lines.ask('byte_size', fields[1], tree.source[1])
    opens = [place for place, bit in enumerate(fields[0]) if bit == '1']
    ids = sorted({k * (len(opens) - 1) // (count - 1) for k in range(count)} | {1, 2, 31, 32, 33})
    pairs = text(number for node in ids for number in (opens[node], node))
    at = lambda k: ' '.join(entry for node, entry in enumerate(fields[k].split()) if node in set(ids))
    lines.ask(f'close {text(opens[node] for node in ids)}', at(3), tree.source[3])
    lines.ask(f'first_child {pairs}', at(4), tree.source[4])
    lines.ask(f'next_sibling {pairs}', at(5), tree.source[5])


def one_short(lines, tree):
    """One element short in each area in turn, all of them full of ones before: ROOM, and zeros."""
    for area, size in enumerate(tree.sizes()):
        if size == 0:
            continue
        sizes = [size - (k == area) for k, size in enumerate(tree.sizes())]
        given(lines, tree, sizes)
        lines.set(*(f'put {k} 0 1:1:{size}' for k, size in enumerate(sizes) if size))
        lines.ask('build', refused(4, area), RULES)
        lines.ask('show record', text([0] * 18), RULES)
        for k, size in enumerate(sizes):
            lines.ask(f'show {k}', size, RULES)


# Dictionaries

def words_with(length, places):
    words = [0] * (-(-length // 64))
    for place in places:
        words[place // 64] |= 1 << place % 64
    return words


def put_words(lines, words):
    """Words that are not zero, in rows without long gaps."""
    at = 0
    while at < len(words):
        end = at
        while end < len(words) and any(words[end:end + 2]):
            end += 1
        if end > at:
            lines.set(listed(f'put 0 {at}', words[at:end]))
        at = end + 1


def dictionary(lines, fields, short=False):
    _, length, places, at, *told = fields
    ones, length = numbers(places), int(length)
    words, full = words_with(length, ones), told[0] == PANIC
    parts = [] if full else [singles(field) for field in told[:3]]
    sizes = [len(words), 9, 2, 2, 0, 0] if full else [len(words), *map(len, parts), 0, 0]

    def standing(sizes):
        lines.set(f'areas {text(sizes)}')
        put_words(lines, words)
        lines.set(f'length {length}')

    standing(sizes)
    if full:
        lines.ask('dict build', refused(5, 0, first_full(ones)), RULES)
        for area in (1, 2, 3):
            lines.ask(f'show {area}', sizes[area], RULES)
        return
    lines.ask('dict build', f'{len(parts[0])}:{len(parts[1]) // 2}:{len(parts[2]) // 2}', RUST)
    for area, part in enumerate(parts, 1):
        lines.ask(f'show {area}', shown(sizes[area], part), RUST)
    lines.ask('dict byte_size', told[3], RUST)
    past = {'rank_one': str(len(ones)), 'pred_one': str(ones[-1]) if ones else NOTHING}
    for name, field in zip(('rank_one', 'select_one', 'pred_one', 'succ_one'), told[4:]):
        answers = (past.get(name, NOTHING) if answer == PANIC else answer for answer in field.split())
        lines.ask(f'dict {name} {at}', ' '.join(answers), RUST)
    for area in (1, 2, 3) if short else ():
        if sizes[area]:
            standing([size - (k == area) for k, size in enumerate(sizes)])
            lines.ask('dict build', refused(4, area), RULES)
            for k in (1, 2, 3):
                lines.ask(f'show {k}', sizes[k] - (k == area), RULES)
            lines.ask('dict rank_one 0', 0, RULES)


def first_full(ones):
    return min(block for block in range(ones[-1] // 256 + 1) if sum(one // 256 == block for one in ones) == 256)


# Bit strings and the plain scan

def eight(lines, subject, at, length, fields):
    """The eight questions; rank, pred and succ of zeros at or past the length are PLACE."""
    for name, field in zip(KINDS, fields):
        told = zip(numbers(at), field.split())
        answers = (refused(7, i) if name in ZEROS and i >= length else answer for i, answer in told)
        lines.ask(f'{subject} {name} {at}', ' '.join(answers), RUST)


def bit_string(lines, fields):
    """Pushed and edited in words full of other bits."""
    _, bits, edits, at, *told = fields
    made, length, longest = [], len(bits), len(bits)
    for edit, outcome in zip(edits.split(), told[0].split()):
        if edit[0] == 's':
            place, bit = edit[1:].split(':')
            made.append((f'string set{bit} {place}', length if outcome == '.' else refused(7, place)))
            continue
        length = length + 1 if edit[0] == 'p' else int(edit[1:])
        made.append((f"string {'push' if edit[0] == 'p' else 'resize'} {edit[1:]}", length))
        longest = max(longest, length)
    size = -(-longest // 64)
    lines.set(f'areas {size} 0 0 0 0 0')
    if size:
        other = 0x9669699669969669
        lines.set(f'put 0 0 {other}:{other}:{size}')
    if bits:
        lines.ask(' '.join(['string push', *runs(map(int, bits))]), text(range(1, len(bits) + 1)), RULES)
    for line, answer in made:
        lines.ask(line, answer, RULES)
    lines.ask('string byte_size', told[3], RUST)
    lines.ask(f'string get {at}', told[4], RUST)
    eight(lines, 'string', at, int(told[1]), told[5:13])
    lines.ask('string ones', told[13], RUST)


def scan(lines, fields):
    _, bits, at, *told = fields
    words = packed(list(map(int, bits)))
    lines.set(f'areas {len(words)} 0 0 0 0 0')
    put_words(lines, words)
    lines.set(f'length {len(bits)}')
    eight(lines, 'scan', at, len(bits), told)


# Words

def word(lines, fields):
    """At the width PLACE, and get_close of a close CLOSE."""
    kind, value, *told = fields
    width, told = int(kind[3:]), [field.split() for field in told]
    name, eighths = f'word{width} {value}', range(0, width + 1, width // 8)

    def ask(question, at, answers):
        answers = (refused(7, i) if answer == PANIC else answer for i, answer in zip(at, answers))
        lines.ask(f'{name} {question} {text(runs(at))}', ' '.join(answers), RUST)

    lines.ask(f'{name} pop_count', told[0][0], RUST)
    ask('get', range(width + 1), told[1])
    ask('set0', eighths, told[2])
    ask('set1', eighths, told[3])
    for question, answers in zip(KINDS, told[4:12]):
        ask(question, range(width + (2 if question.startswith('select') else 1)), answers)
    closes = [answer if told[1][i] == '1' else refused(8, i) for i, answer in enumerate(told[12][:width])]
    ask('get_close', range(width + 1), closes + [PANIC])
