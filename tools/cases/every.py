"""All cases: the fixed ones, and random ones by kind."""

from itertools import chain

from . import damage, dictionaries, growth, strings, trees, words

# Of each kind of random case its share of the time, and what makes it.
RANDOM = {
    'word of 64 bits': (2, [words.random]),
    'bit string': (3, [strings.random]),
    'plain scan': (2, [strings.scanned]),
    'bit string in any words': (3, [strings.lent]),
    'dictionary': (4, [dictionaries.random]),
    'dictionary of any content': (4, [dictionaries.any_content]),
    'damaged dictionary': (4, [dictionaries.damaged]),
    'build': (12, [trees.random, trees.random, trees.short]),
    'build of a wrong list': (3, [trees.wrong_list]),
    'growth': (10, [growth.random, growth.random, growth.from_empty]),
    'growth refused': (4, [growth.short]),
    'growth under another record': (3, [growth.record_of]),
    'damaged tree': (12, [damage.random, damage.random, damage.random, damage.other_string]),
    'areas of any content': (5, [damage.any_content]),
    'made-up pioneers': (6, [damage.made_up]),
}


def fixed(chance):
    """Always the same cases but for labels, and some lists that chance makes at each edge."""
    return chain(words.exhaustive(), words.edges(), strings.exhaustive(), dictionaries.fixed(), trees.exhaustive(chance),
                 trees.wrong_lists(), trees.edges(chance), trees.full(chance), trees.every_short(chance), growth.exhaustive(chance),
                 growth.edges(chance), growth.every_short(chance), damage.four_levels(chance, 2_000))


def random(chance, kind):
    return chance.choice(RANDOM[kind][1])(chance)
