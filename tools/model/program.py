"""The program `answers` on the model: the same lines in, the same lines out. Only lines that are cases are given to it."""

from oracle_plain import NOTHING

from . import dictionary, tree
from .questions import Tree, outcome
from .refusals import Refused, broken
from .string import String
from .tree import Record
from .word import Word

MOST_PLACES = 66_000  # that `closes` and its like go through
MOST_LISTED = 32_831  # elements of the lists


# Text

def numbers(words):
    """A list: `a`; `a:b`, up or down; `a:b:k`, each of these k times."""
    found = []
    for word in words:
        if ':' not in word:
            found.append(int(word))
            continue
        first, *more = map(int, word.split(':'))
        last, times = (more + [first, 1][len(more):])[:2]
        row = range(first, last + 1) if first <= last else range(first, last - 1, -1)
        found.extend(number for number in row for _ in range(times))
    return found


def singles(words):
    return [(number,) for number in numbers(words)]


def pairs(words):
    found = numbers(words)
    return list(zip(found[::2], found[1::2]))


def shown(result):
    """One entry of an answer line."""
    if result is None:
        return NOTHING
    if isinstance(result, Refused):
        result = 'refused', result.number, *result.carries
    return ':'.join(map(str, result)) if isinstance(result, tuple) else str(result)


def each(question, arguments):
    return ' '.join(shown(outcome(question, *argument)) for argument in arguments)


def one(question, *arguments):
    return shown(outcome(question, *arguments))


def area_text(area):
    """Its length, then its elements up to the last that is not zero."""
    used = len(area)
    while used and area[used - 1] == 0:
        used -= 1
    return ' '.join(map(str, [len(area)] + area[:used]))


def ranked(subject, name):
    """The question of this name, as rank_one or succ_zero, to a word or a string."""
    question, kind = name.split('_')
    method, b = getattr(subject, question), int(kind == 'one')
    return lambda argument: method(b, argument)


class Program:
    def __init__(self):
        self.areas, self.record = [[] for _ in range(6)], Record()
        self.levels, self.labels, self.standing = [], [], None

    def answer(self, line):
        name, *words = line.split()
        return getattr(self, 'do_' + name)(words)

    # What stands

    def do_areas(self, words):
        self.__init__()
        self.areas = [[0] * int(size) for size in words]
        return '.'

    def do_put(self, words):
        area, at, given = self.areas[int(words[0])], int(words[1]), numbers(words[2:])
        if at + len(given) > len(area):
            raise ValueError('no such element')
        area[at:at + len(given)] = given
        self.standing = None
        return '.'

    def do_record(self, words):
        self.record, self.standing = Record(numbers(words)), None
        return '.'

    def do_length(self, words):
        self.record.bits[0], self.standing = int(words[0]), None
        return '.'

    def do_levels(self, words):
        self.levels = numbers(words)
        return '.'

    def do_labels(self, words):
        self.labels = numbers(words)
        return '.'

    def do_show(self, words):
        if words[0] == 'record':
            return ' '.join(map(str, self.record.numbers()))
        return area_text({10: self.levels, 11: self.labels, **dict(enumerate(self.areas))}[int(words[0])])

    # The tree

    def tree(self):
        """The tree as it stands, read anew after a change."""
        if self.standing is None:
            self.standing = Tree(self.record, self.areas)
        return self.standing

    def do_build(self, _):
        made = outcome(tree.build, self.levels, self.labels, self.areas)
        self.standing = None
        self.record = Record() if isinstance(made, Refused) else made
        return shown(made if isinstance(made, Refused) else made.nodes)

    def do_grow(self, words):
        made = outcome(tree.grow, self.record, self.areas, int(words[0]), int(words[1]))
        self.standing = None
        if isinstance(made, Refused):
            return shown(made)
        self.record = made
        return shown(made.nodes)

    def do_nodes(self, _):
        return one(self.tree().nodes)

    def do_is_empty(self, _):
        return one(self.tree().is_empty)

    def do_byte_size(self, _):
        return one(self.tree().byte_size)

    def do_close(self, words):
        return each(self.tree().close, singles(words))

    def do_bit(self, words):
        return each(self.tree().bit, singles(words))

    def do_first_child(self, words):
        return each(self.tree().first_child, pairs(words))

    def do_next_sibling(self, words):
        return each(self.tree().next_sibling, pairs(words))

    def do_label(self, words):
        return each(self.tree().label, pairs(words))

    def do_leaf_count(self, words):
        return each(self.tree().leaf_count, pairs(words))

    def opened(self):
        """Place and id at each open; none of a string without bits, whatever the other counts."""
        standing = self.tree()
        if self.record.bits[0] == 0:
            return []
        standing.check_counts()
        bits = standing.levels[0].bits[:MOST_PLACES]
        return [(place, standing.opens[place]) for place, bit in enumerate(bits) if bit]

    def at_all(self, question):
        nodes = outcome(self.opened)
        return shown(nodes) if isinstance(nodes, Refused) else each(question, nodes)

    def do_closes(self, _):
        return self.at_all(lambda place, _: self.tree().close(place))

    def do_children(self, _):
        return self.at_all(self.tree().first_child)

    def do_siblings(self, _):
        return self.at_all(self.tree().next_sibling)

    def do_names(self, _):
        return self.at_all(self.tree().label)

    def do_leaves(self, _):
        return self.at_all(self.tree().leaf_count)

    def do_walk(self, words):
        lent = numbers(words) or [min(self.record.nodes, MOST_LISTED)] * 2
        self.levels, self.labels = ([0] * size for size in lent)
        told = outcome(self.tree().walk, self.levels, self.labels, self.areas[5])
        if isinstance(told, Refused):
            return shown(told)
        return ' '.join(f'{level}:{label}' for level, label in zip(self.levels[:told], self.labels[:told]))

    # The dictionary by itself: areas 1 to 3 with the record's counts of the first dictionary

    def dictionary(self):
        record = self.record
        sizes = record.bytes[0], 2 * record.middles[0], 2 * record.larges[0]
        if any(size > len(area) for size, area in zip(sizes, self.areas[1:4])):
            raise broken()
        return dictionary.Dictionary(*(area[:size] for size, area in zip(sizes, self.areas[1:4])))

    def do_dict(self, words):
        if words[0] == 'build':
            return self.build_dictionary()
        if words[0] == 'byte_size':
            return one(dictionary.byte_size, self.record.bytes[0], self.record.middles[0], self.record.larges[0])
        made = outcome(self.dictionary)
        refused, question = isinstance(made, Refused), words[0].removesuffix('_one')
        return each(lambda a: made if refused else getattr(made, question)(a), singles(words[1:]))

    def build_dictionary(self):
        made = outcome(dictionary.build, self.areas[0], self.record.bits[0], self.areas[1:4])
        counts = (0, 0, 0) if isinstance(made, Refused) else made
        self.record.bytes[0], self.record.middles[0], self.record.larges[0] = counts
        self.standing = None
        return shown(made)

    # The bit string: area 0 with the record's first bits as its length

    def do_string(self, words):
        name, arguments = words[0], numbers(words[1:])
        string = String(self.areas[0], self.record.bits[0])
        if name in ('push', 'set0', 'set1', 'resize'):
            return ' '.join(self.edited(string, name, argument) for argument in arguments)
        if name == 'ones':
            found = outcome(string.ones)
            return shown(found) if isinstance(found, Refused) else ' '.join(map(str, found))
        if name == 'byte_size':
            return one(string.byte_size)
        return each(string.get if name == 'get' else ranked(string, name), singles(words[1:]))

    def edited(self, string, name, argument):
        """The length after an edit."""
        edits = {'push': lambda: string.push(int(argument > 0)), 'resize': lambda: string.resize(argument),
                 'set0': lambda: string.set(argument, 0), 'set1': lambda: string.set(argument, 1)}
        refused = outcome(edits[name])
        self.record.bits[0], self.standing = string.length, None
        return str(string.length) if refused is None else shown(refused)

    def do_scan(self, words):
        string = String(self.areas[0], self.record.bits[0])
        return each(ranked(string, words[0]), singles(words[1:]))

    # One word

    def do_word8(self, words):
        return word_answers(8, words)

    def do_word64(self, words):
        return word_answers(64, words)


def word_answers(width, words):
    word, name, arguments = Word(width, int(words[0])), words[1], singles(words[2:])
    if name == 'pop_count':
        return one(word.pop_count)
    if name in ('set0', 'set1'):
        return each(lambda i: word.set(i, int(name[3])), arguments)
    return each(getattr(word, name) if name in ('get', 'get_close') else ranked(word, name), arguments)
