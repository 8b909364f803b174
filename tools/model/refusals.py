"""The refusal numbers of 01 and what each carries."""

LENGTHS, MANY, LEVEL, ROOM, FULL, DEEP, PLACE, CLOSE, BROKEN, TEXT = range(1, 11)
LAST = 2 ** 64 - 1  # the greatest place, count or rank


class Refused(Exception):
    """A refusal: its number, and what it carries."""

    def __init__(self, number, *carries):
        super().__init__(number, *carries)
        self.number, self.carries = number, carries


def broken():
    return Refused(BROKEN, 0)


def room(area):
    return Refused(ROOM, area)


def within_64_bits(number):
    """A sum that a step forms: BROKEN where it overflows."""
    if number > LAST:
        raise broken()
    return number


def not_below_zero(number):
    """A count that a step takes: BROKEN below zero."""
    if number < 0:
        raise broken()
    return number
