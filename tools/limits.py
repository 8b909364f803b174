"""What the program `answers` has room for, as docs/CASES.md tells it."""

import os
import re

CASES = os.path.join(os.path.dirname(os.path.realpath(__file__)), '..', 'docs', 'CASES.md')


def numbers(words, pattern):
    found = re.search(pattern, words)
    return [int(number.replace(',', '')) for number in found.group(1).split('; ')] if found else None


def read():
    """The most elements of each of areas 0 to 5, of all of them together, of a list, and the most bytes of a line."""
    with open(CASES, encoding='utf-8') as found:
        words = found.read()
    areas = numbers(words, r'The most elements: ([\d,; ]*\d)')
    together = numbers(words, r'together at most ([\d,]*\d)') or [sum(areas)]
    return areas, together[0], numbers(words, r'up to ([\d,]*\d) numbers each')[0], numbers(words, r'A line has at most ([\d,]*\d) bytes')[0]


AREAS, TOGETHER, LISTED, LINE = read()


def fits(lines):
    """Has the program room for these lines?"""
    for line in lines:
        if len(line) >= LINE:
            return False
        if line.startswith('areas'):
            sizes = list(map(int, line.split()[1:]))
            if sum(sizes) > TOGETHER or any(size > most for size, most in zip(sizes, AREAS)):
                return False
    return True
