// The side in C: operations of one process on cgrid.c, as crates/bench_host does them on the proved grid. As there, each begin and
// each step looks at all the lanes.
#include "cgrid.c"
#include "sides.h"

static uint64_t word_of(struct answer a)
{
    return (uint64_t)a.what << 40 | (uint64_t)a.steps << 32 | a.value;
}

static struct answer begin(struct grid *g, uint32_t q, enum kind kind, uint32_t cell, uint32_t value)
{
    return cgrid_begin(g, cgrid_fits(g), q, kind, cell, value);
}

static struct answer step(struct grid *g, uint32_t q, const struct memories *mem) { return cgrid_step(g, cgrid_fits(g), q, mem); }

size_t c_state_bytes(void) { return sizeof(struct grid); }

uint32_t c_operations(uint32_t *readings, size_t readings_len, uint64_t *links, size_t links_len, uint32_t *directory,
                      size_t directory_len, uint32_t *pool, size_t pool_len, uint64_t *outcomes, size_t n, uint32_t p, uint32_t m,
                      uint32_t q, uint32_t busy, uint32_t before, uint32_t kind, uint32_t cells)
{
    struct memories mem = {readings, readings_len, links, links_len, directory, directory_len, pool, pool_len};
    struct grid g;
    cgrid_open(&g, p, m, 7, 3, &mem);
    for (uint32_t j = 0; j < busy; j++) {
        begin(&g, j, WRITE, 0, j);
        step(&g, j, &mem);
        step(&g, j, &mem);
    }
    uint32_t cell = 0;
    for (size_t i = 0; i < n; i++) {
        begin(&g, q, i < before || kind == 1 ? WRITE : kind == 0 ? READ : ASKED, cell, i);
        struct answer a;
        do
            a = step(&g, q, &mem);
        while (a.what == GOING);
        outcomes[i] = word_of(a);
        cell = cell + 1 < cells ? cell + 1 : 0;
    }
    return g.top;
}
