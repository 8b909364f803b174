"""A smaller case with a difference: parts are left out while it stays."""

# Words before the list of a line, and the words of one entry of it.
LISTS = {'close': (1, 1), 'bit': (1, 1), 'string': (2, 1), 'scan': (2, 1), 'dict': (2, 1), 'word8': (3, 1), 'word64': (3, 1),
         'first_child': (1, 2), 'next_sibling': (1, 2), 'label': (1, 2), 'leaf_count': (1, 2)}
# Words before the numbers of a line that may become zeros.
NUMBERS = {'put': 3, 'labels': 1, 'record': 1, 'grow': 2}


def fewer(items, keeps):
    """Leaves out halves, quarters and so on down to single items; keeps(rest) says whether the difference stays."""
    size = max(1, len(items) // 2)
    while items:
        at, before = 0, len(items)
        while at < len(items):
            rest = items[:at] + items[at + size:]
            if keeps(rest):
                items = rest
            else:
                at += size
        if size == 1 and len(items) == before:
            return items
        size = max(1, size // 2)
    return items


def smaller_items(case, found, differs):
    """By the case's own items, as the nodes of its list."""
    best = [case, found]

    def keeps(rest):
        smaller = case.again(rest)
        said = differs(smaller)
        if said:
            best[:] = smaller, said
        return bool(said)

    if case.again and keeps(case.items):
        fewer(case.items, keeps)
    return best


def smaller_lines(lines, found, differs):
    """By its lines, then by what stands in each."""
    best = [lines, found]

    def keeps(rest):
        said = differs(rest)
        if said:
            best[:] = rest, said
        return bool(said)

    fewer(lines, keeps)
    fewer_nodes(best[0], keeps)
    for at in range(len(best[0])):
        fewer_words(best[0], at, keeps)
        more_zeros(best[0], at, keeps)
    return best


def fewer_nodes(lines, keeps):
    """Levels and labels together."""
    at = next((k for k in range(len(lines) - 1) if lines[k].startswith('levels') and lines[k + 1].startswith('labels')), None)
    if at is None:
        return
    nodes = list(zip(lines[at].split()[1:], lines[at + 1].split()[1:]))

    def with_nodes(rest):
        pair = [' '.join(['levels', *(level for level, _ in rest)]), ' '.join(['labels', *(label for _, label in rest)])]
        return lines[:at] + pair + lines[at + 2:]

    fewer(nodes, lambda rest: keeps(with_nodes(rest)))


def fewer_words(lines, at, keeps):
    """The list at the end of a line, which keeps an entry: without one it is no case."""
    words = lines[at].split()
    head, size = LISTS.get(words[0], (len(words), 1))
    items = [words[k:k + size] for k in range(head, len(words), size)]

    def with_items(rest):
        return lines[:at] + [' '.join(words[:head] + [word for item in rest for word in item])] + lines[at + 1:]

    fewer(items, lambda rest: bool(rest) and keeps(with_items(rest)))


def more_zeros(lines, at, keeps):
    """The numbers of a line that do not matter become zeros."""
    words = lines[at].split()
    head = NUMBERS.get(words[0], len(words))

    def with_others(rest):
        return lines[:at] + [' '.join(word if k < head or k in rest else '0' for k, word in enumerate(words))] + lines[at + 1:]

    fewer([k for k in range(head, len(words)) if words[k] != '0'], lambda rest: keeps(with_others(set(rest))))
