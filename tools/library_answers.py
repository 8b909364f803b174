"""The tree's part of the program `answers` over the C interface: the same lines in, the same lines out (docs/CASES.md).

Lines of the dictionary, the bit string and the word by themselves are not asked here; their answer is NOT_ASKED.
"""

from flight_library import Tree
from model.program import MOST_LISTED, MOST_PLACES, area_text, numbers

NOT_ASKED = '~'
APART = ('dict', 'string', 'scan', 'word8', 'word64')
FULL = 5
EDGES = ('first_child', 'next_sibling')


def shown(answer, edge=False):
    """One entry: a value, an edge, nothing, or a refusal."""
    status, out = answer
    if status != 0:
        return ':'.join(map(str, ['refused', status] + out[1:3 if status == FULL else 2]))
    if out[0] == 0:
        return '-'
    return ':'.join(map(str, out[1:])) if edge else str(out[1])


class LibraryProgram:
    def __init__(self, flight):
        self.flight, self.tree, self.levels, self.labels = flight, Tree(flight, [0] * 6), [], []

    def answer(self, line):
        name, *words = line.split()
        if name in APART:
            return NOT_ASKED
        return getattr(self, 'do_' + name)(words)

    # What stands

    def do_areas(self, words):
        self.tree, self.levels, self.labels = Tree(self.flight, map(int, words)), [], []
        return '.'

    def do_put(self, words):
        at, given = int(words[1]), numbers(words[2:])
        self.tree.areas[int(words[0])][at:at + len(given)] = given
        return '.'

    def do_record(self, words):
        self.tree.record[:] = numbers(words)
        return '.'

    def do_length(self, words):
        self.tree.record[1] = int(words[0])
        return '.'

    def do_levels(self, words):
        self.levels = numbers(words)
        return '.'

    def do_labels(self, words):
        self.labels = numbers(words)
        return '.'

    def do_show(self, words):
        if words[0] == 'record':
            return ' '.join(map(str, self.tree.record))
        lists = {10: self.levels, 11: self.labels, **dict(enumerate(self.tree.areas))}
        return area_text(list(lists[int(words[0])]))

    # The tree

    def do_build(self, _):
        return shown(self.tree.build(self.levels, self.labels))

    def do_grow(self, words):
        return shown(self.tree.grow(*map(int, words)))

    def plain(name):
        return lambda self, _: shown(self.tree.ask(name))

    do_nodes, do_is_empty, do_byte_size = plain('nodes'), plain('is_empty'), plain('byte_size')

    def each(self, name, arguments):
        return ' '.join(shown(self.tree.ask(name, *argument), name in EDGES) for argument in arguments)

    def at_places(name):
        return lambda self, words: self.each(name, ((place,) for place in numbers(words)))

    do_close, do_bit = at_places('close'), at_places('bit')

    def at_nodes(name):
        return lambda self, words: self.each(name, zip(numbers(words)[::2], numbers(words)[1::2]))

    do_first_child, do_next_sibling = at_nodes('first_child'), at_nodes('next_sibling')
    do_label, do_leaf_count = at_nodes('label'), at_nodes('leaf_count')

    def at_all(name):
        """At each open of the string, with the number of opens before it."""
        def do(self, _):
            bits = min(self.tree.record[1], MOST_PLACES)
            fit = self.tree.ask('nodes')
            if bits == 0 or fit[0] != 0:
                return '' if bits == 0 else shown(fit)
            words = self.tree.areas[0]
            opens = [place for place in range(bits) if words[place // 64] >> place % 64 & 1]
            return self.each(name, ((place,) if name == 'close' else (place, id) for id, place in enumerate(opens)))
        return do

    do_closes, do_children, do_siblings = at_all('close'), at_all('first_child'), at_all('next_sibling')
    do_names, do_leaves = at_all('label'), at_all('leaf_count')

    def do_walk(self, words):
        lent = numbers(words) or [min(self.tree.record[0], MOST_LISTED)] * 2
        status, out, self.levels, self.labels = self.tree.walk(*lent)
        if status != 0:
            return shown((status, out))
        return ' '.join(f'{level}:{label}' for level, label in zip(self.levels[:out[1]], self.labels[:out[1]]))
