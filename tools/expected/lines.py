"""Lines and their answers, each with where its answer comes from."""

from collections import Counter

from limits import fits
from model.program import Program

RUST, DIGEST, RULES, MODEL, WORDS, SET = range(6)
SOURCES = {RUST: 'the Rust, as recorded', DIGEST: 'the Rust, recorded as a digest that the answer has', RULES: '01',
           MODEL: 'the model alone', WORDS: 'docs/CASES.md: no case, empty, or a remark', SET: 'set what stands'}


class Disagrees(Exception):
    """The model says otherwise than the source of a line, or the program has no room for it."""


def text(numbers):
    return ' '.join(map(str, numbers))


def runs(numbers):
    """A list as short as its form allows: rows of equal numbers, and rows up or down by one."""
    found, at, numbers = [], 0, list(numbers)
    while at < len(numbers):
        end, step = at + 1, numbers[at + 1] - numbers[at] if at + 1 < len(numbers) else 9
        while step in (-1, 0, 1) and end < len(numbers) and numbers[end] - numbers[end - 1] == step:
            end += 1
        first, last, count = numbers[at], numbers[end - 1], end - at
        row = f'{first}:{first}:{count}' if step == 0 else f'{first}:{last}'
        found += [row] if len(row) < len(text(numbers[at:end])) else map(str, numbers[at:end])
        at = end
    return found


def listed(name, numbers):
    """A line that ends in a list."""
    return ' '.join([name, *runs(numbers)])


def shown(length, numbers):
    """An area: its length, then its elements up to the last that is not zero."""
    numbers = list(numbers)
    while numbers and numbers[-1] == 0:
        numbers.pop()
    return text([length] + numbers)


class Lines:
    """Every line that is a case goes to the model too, which has to agree."""

    def __init__(self):
        self.lines, self.answers, self.counts, self.model = [], [], Counter(), Program()

    def keep(self, line, answer, source):
        if not fits([line]):
            raise Disagrees(f'`{line[:100]}`: too large for the program')
        self.lines.append(line)
        self.answers.append(answer)
        self.counts[source] += 1

    def remark(self, words):
        self.keep('# ' + words, '#', WORDS)

    def ask(self, line, answer, source):
        said, answer = self.model.answer(line), str(answer)
        if said != answer:
            raise Disagrees(f'`{line[:100]}`: {answer[:100]}, and the model says {said[:100]}')
        self.keep(line, answer, source)

    def set(self, *lines):
        for line in lines:
            self.ask(line, '.', SET)

    def by_model(self, *lines):
        for line in lines:
            self.keep(line, self.model.answer(line), MODEL)

    def no_case(self, line, answer):
        """The program's own words, or an empty line."""
        self.keep(line, answer, WORDS)
