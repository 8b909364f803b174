"""A case, and how its lines are written."""

LAST = 2 ** 64 - 1
PANIC = '!'
NEAR_LAST = [LAST, LAST - 1, LAST - 63, LAST - 64, LAST - 255, 2 ** 63, 2 ** 63 - 1, 2 ** 32, 2 ** 32 - 1]
KINDS = ('rank_one', 'rank_zero', 'select_one', 'select_zero', 'pred_one', 'pred_zero', 'succ_one', 'succ_zero')
AT_ONCE = 10_000  # numbers in one line


class Case:
    """Lines that go to the program and to the model.

    rust: a line for the oracle, or None. told(answers, fields, build) gives what is to be equal: name, the program's, the Rust's;
    answers are by line, fields those of the oracle. same: pairs of lines whose answers have to be equal.
    items, again: what may be left out to make the case smaller, and how to make it of fewer items.
    """

    def __init__(self, kind, lines, rust=None, told=None, same=(), items=(), again=None):
        self.kind, self.lines, self.rust, self.told, self.same = kind, lines, rust, told, same
        self.items, self.again = list(items), again


def text(numbers):
    return ' '.join(map(str, numbers))


def line(*parts):
    """A line of words and lists."""
    return ' '.join(text(part) if isinstance(part, (list, tuple, range)) else str(part) for part in parts).rstrip(' ')


def areas(sizes):
    return line('areas', sizes)


def puts(area, numbers, at=0):
    """The numbers into an area, but for long rows of zeros, which stand there already."""
    found, start = [], 0
    while start < len(numbers):
        if numbers[start] == 0:
            start += 1
            continue
        end = start + 1
        while end < len(numbers) and end - start < AT_ONCE and any(numbers[end:end + 8]):
            end += 1
        found.append(line('put', area, at + start, numbers[start:end]))
        start = end
    return found


def entries(answer):
    return answer.split(' ') if answer else []


def trimmed(row):
    """Without the zeros at its end."""
    row = list(map(str, row))
    while row and row[-1] == '0':
        row.pop()
    return row


def given(levels, labels):
    """The two lists that a build takes."""
    return [line('levels', levels), line('labels', labels)]
