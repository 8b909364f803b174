"""Level lists by shape, and of each number of pioneer levels."""


def every(n):
    """All accepted lists of n nodes."""
    if n == 0:
        yield []
        return
    for shorter in every(n - 1):
        for level in range(shorter[-1] + 2 if shorter else 1):
            yield shorter + [level]


def wide(n):
    return [0] * n


def deep(n):
    return list(range(n))


def comb(n):
    """A way down on which each node has a leaf before the next one."""
    return [(k + 1) // 2 for k in range(n)]


def rake(n):
    """All the way down, then a leaf at each level on the way up."""
    down = (n + 1) // 2
    return list(range(down)) + [down - k for k in range(1, n - down + 1)]


def teeth(n):
    return [k % 2 for k in range(n)]


def walk(chance, n):
    """One level deeper or some levels back, at one rate for the whole list."""
    levels, last, deeper = [], -1, chance.uniform(0.2, 0.8)
    for _ in range(n):
        last = last + 1 if chance.random() < deeper else max(0, last - int(chance.expovariate(0.7)))
        levels.append(last)
    return levels


def jumps(chance, n):
    """Any accepted level at each node."""
    levels, last = [], -1
    for _ in range(n):
        last = chance.randint(0, last + 1)
        levels.append(last)
    return levels


def mixed(chance, n):
    """Stretches of different shapes, one after another."""
    levels = []
    while len(levels) < n:
        last, size = levels[-1] if levels else -1, chance.randint(1, 40)
        base = chance.randint(0, last + 1)
        levels += [base + v for v in shaped(chance, min(size, n - len(levels)))]
    return levels


def shaped(chance, n):
    shape = chance.choice([wide, deep, comb, rake, teeth, walk, jumps])
    return shape(chance, n) if shape in (walk, jumps) else shape(n)


def any_list(chance, n):
    return mixed(chance, n) if chance.random() < 0.4 else shaped(chance, n)


def pyramid(top):
    """Levels 0 to top, then 32 nodes of each down to 0: from top = 254 a block is full of flags."""
    return list(range(top + 1)) + [level for level in range(top, -1, -1) for _ in range(32)]


# Many pioneer levels

def many_flags(chance, pioneers):
    """A list with this number of pioneer levels in few nodes.

    In a binary tree (two children or none) whose string is cut wherever a close follows an open, no two pairs lie in the same
    two pieces. So each string is a binary tree, and the one below it has a block for each piece.
    """
    bits = binary(chance, 17)
    for _ in range(1, pioneers):
        bits = below(chance, bits)
    return levels_in(bits)


def levels_in(bits):
    levels, depth = [], 0
    for bit in bits:
        if bit:
            levels.append(depth - 1)
        depth += 1 if bit else -1
    return levels[1:]


def binary(chance, leaves):
    """A random binary tree of these leaves: 4 bits for each, less 2."""
    bits, left = [], [leaves]
    while left:
        size = left.pop()
        if size is None:
            bits.append(0)
        elif size == 1:
            bits += [1, 0]
        else:
            first = chance.randint(1, size - 1)
            bits.append(1)
            left += [None, size - first, first]
    return bits


def below(chance, above):
    """A string whose flagged bits are the one given, where that is a binary tree's."""
    bits = []
    for at, bit in enumerate(above):
        bits.append(bit)
        if bit and not above[at + 1]:
            fill(chance, bits)
    return bits


def fill(chance, bits):
    """Fills the block inside a pair just opened: two trees keep the whole binary; one or three stand where two do not fit."""
    space = -len(bits) % 64
    odd, even = space % 2, space - space % 2
    if even == 0:
        trees = 0
    elif even % 4 == 0:
        trees = 2
    else:
        trees = 1 if even == 2 or odd else 3
    leaves = (even + 2 * trees) // 4
    for left in range(trees, 0, -1):
        size = leaves if left == 1 else chance.randint(1, leaves - left + 1)
        bits += binary(chance, size)
        leaves -= size
    if odd:
        bits += [1, 0]
