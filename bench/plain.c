/* What a plain stack says of a level list. */
#include "plain.h"

#include <stdlib.h>
#include <string.h>

#include "lists.h"

/* The close of each open of a balanced string. */
static void match(const uint8_t *open, size_t bits, uint32_t *close)
{
    uint32_t *stack = need(bits * sizeof *stack);
    size_t depth = 0;
    for (size_t i = 0; i < bits; i++) {
        if (open[i])
            stack[depth++] = (uint32_t)i;
        else
            close[stack[--depth]] = (uint32_t)i;
    }
    free(stack);
}

/* A node of level v closes every open node of level v or more, then opens. */
static void write_string(const uint32_t *levels, size_t n, uint8_t *open, uint32_t *place)
{
    size_t at = 1, depth = 0;
    memset(open, 0, 2 * n + 2);
    open[0] = 1;
    place[0] = 0;
    for (size_t k = 0; k < n; k++) {
        at += depth - levels[k];
        open[at] = 1;
        place[k + 1] = (uint32_t)at++;
        depth = levels[k] + 1;
    }
}

Plain plain_of(const uint32_t *levels, size_t n)
{
    Plain s = {.n = n, .bits = 2 * n + 2};
    s.open = need(s.bits);
    s.close = need(s.bits * sizeof *s.close);
    s.place = need((n + 1) * sizeof *s.place);
    s.leaves = need((s.bits + 1) * sizeof *s.leaves);
    write_string(levels, n, s.open, s.place);
    match(s.open, s.bits, s.close);
    s.leaves[0] = 0;
    for (size_t i = 0; i < s.bits; i++)
        s.leaves[i + 1] = s.leaves[i] + (i + 1 < s.bits && s.open[i] && !s.open[i + 1]);
    return s;
}

void plain_free(Plain *s)
{
    free(s->open);
    free(s->close);
    free(s->place);
    free(s->leaves);
}

uint64_t plain_first_child(const Plain *s, uint64_t id)
{
    return s->open[s->place[id] + 1] ? id + 1 : 0;
}

uint64_t plain_next_sibling(const Plain *s, uint64_t id)
{
    size_t i = s->place[id], c = s->close[i];
    return c + 1 < s->bits && s->open[c + 1] ? id + (c - i + 1) / 2 : 0;
}

uint64_t plain_leaf_count(const Plain *s, uint64_t id)
{
    size_t i = s->place[id];
    return s->leaves[s->close[i]] - s->leaves[i + 1];
}

static size_t up(size_t n, size_t d)
{
    return (n + d - 1) / d;
}

/* Of the far pairs with equal open block and equal close block, the outermost is flagged at both ends. */
static void flag(const uint8_t *open, size_t bits, uint8_t *flags)
{
    uint32_t *close = need(bits * sizeof *close);
    size_t *seen = need(up(bits, 64) * sizeof *seen); /* by close block: the open block, plus one, of the last pair */
    memset(seen, 0, up(bits, 64) * sizeof *seen);
    memset(flags, 0, bits);
    match(open, bits, close);
    for (size_t i = 0; i < bits; i++) {
        size_t c = open[i] ? close[i] : i;
        if (i / 64 == c / 64 || seen[c / 64] == i / 64 + 1)
            continue;
        seen[c / 64] = i / 64 + 1;
        flags[i] = flags[c] = 1;
    }
    free(close);
    free(seen);
}

/* The bytes of a dictionary, or 0 where block *full is all flagged. */
static size_t dictionary(const uint8_t *flags, size_t bits, uint64_t *full)
{
    size_t blocks = 0, ones = 0, here = 0;
    for (size_t i = 0; i < bits; i++) {
        here = i % 256 == 0 ? flags[i] : here + flags[i];
        ones += flags[i];
        if (flags[i])
            blocks = i / 256 + 1;
        if (here == 256) {
            *full = i / 256;
            return 0;
        }
    }
    return blocks + ones + 4 * up(blocks, 8) + 16 * up(blocks, 256);
}

uint64_t plain_byte_size(const Plain *s, uint64_t *full_level, uint64_t *full_block)
{
    size_t bits = s->bits, size = 8 + 4 * s->n + 8 * up(bits, 64);
    uint8_t *open = need(bits), *flags = need(bits);
    memcpy(open, s->open, bits);
    for (*full_level = 1; bits > 64; ++*full_level) {
        size_t own, left = 0;
        flag(open, bits, flags);
        own = dictionary(flags, bits, full_block);
        if (own == 0) {
            size = 0;
            break;
        }
        for (size_t i = 0; i < bits; i++)
            if (flags[i])
                open[left++] = open[i];
        bits = left;
        size += own + 8 * up(bits, 64);
    }
    free(open);
    free(flags);
    return size;
}
