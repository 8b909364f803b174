// bp_support_gg of the library sdsl behind a C interface: the string as document 01 makes it, and the questions by its close.
#include "sdsl.h"

#include <sdsl/bp_support_gg.hpp>
#include <vector>

struct SdslTree {
    sdsl::bit_vector open;
    sdsl::bp_support_gg<> support;
};

namespace {

// A node of level v closes every open node of level v or more, then opens.
void write_string(sdsl::bit_vector &open, const uint32_t *levels, size_t n)
{
    size_t at = 1, depth = 0;
    open[0] = 1;
    for (size_t k = 0; k < n; k++) {
        at += depth - levels[k];
        open[at++] = 1;
        depth = levels[k] + 1;
    }
}

// The place right after i, if it is an open before the length; else 0.
uint64_t open_after(const SdslTree *tree, uint64_t i)
{
    return i + 1 < tree->open.size() && tree->open[i + 1] ? i + 1 : 0;
}

// The first child, else the next sibling of the nearest node on the way back that has one. 0 at the end.
uint64_t step(const SdslTree *tree, std::vector<uint64_t> &way)
{
    uint64_t next = open_after(tree, way.back());
    while (next == 0 && !way.empty()) {
        next = open_after(tree, tree->support.find_close(way.back()));
        way.pop_back();
    }
    return next;
}

}  // namespace

uint64_t sdsl_here(void)
{
    return 1;
}

SdslTree *sdsl_build(const uint32_t *levels, size_t n)
{
    SdslTree *tree = new SdslTree{sdsl::bit_vector(2 * n + 2, 0), {}};
    write_string(tree->open, levels, n);
    sdsl::util::init_support(tree->support, &tree->open);
    return tree;
}

void sdsl_free(SdslTree *tree)
{
    delete tree;
}

uint64_t sdsl_byte_size(const SdslTree *tree)
{
    return sdsl::size_in_bytes(tree->open) + sdsl::size_in_bytes(tree->support);
}

uint64_t sdsl_close(const SdslTree *tree, uint64_t place)
{
    return tree->support.find_close(place);
}

uint64_t sdsl_first_child(const SdslTree *tree, uint64_t place, uint64_t id, uint64_t out[2])
{
    out[0] = open_after(tree, place);
    out[1] = id + 1;
    return out[0] != 0;
}

uint64_t sdsl_next_sibling(const SdslTree *tree, uint64_t place, uint64_t id, uint64_t out[2])
{
    uint64_t close = tree->support.find_close(place);
    out[0] = open_after(tree, close);
    out[1] = id + (close - place) / 2 + 1;
    return out[0] != 0;
}

uint64_t sdsl_walk(const SdslTree *tree, uint32_t *levels, size_t n)
{
    std::vector<uint64_t> way = {0};
    uint64_t met = 0;
    for (uint64_t next = step(tree, way); next != 0 && met < n; next = step(tree, way)) {
        way.push_back(next);
        levels[met++] = static_cast<uint32_t>(way.size() - 2);
    }
    return met;
}
