// The batch in C: a list of begins and steps on cgrid.c, as crates/bench_batch makes them on the proved grid. As there, it looks
// at all the lanes once, before the first entry, at the lengths of the memories at each step, and writes an answer for each.
#include "cgrid.c"
#include "sides.h"

// The words of the proved batch: they count from "begun", and have a read's flag at 2^16.
static uint64_t word_of(struct answer a)
{
    uint64_t what = (a.what == READ_WRITTEN ? READ_ENDED : a.what) - BEGUN;
    uint64_t flag = a.what == READ_WRITTEN;
    return a.what == REFUSED ? what | a.value << 8 : what | a.steps << 8 | flag << 16 | (uint64_t)a.value << 32;
}

uint32_t c_list(uint32_t *readings, size_t readings_len, uint64_t *links, size_t links_len, uint32_t *directory,
                size_t directory_len, uint32_t *pool, size_t pool_len, const uint8_t *kinds, size_t n, const uint32_t *processes,
                size_t processes_len, const uint32_t *cells, size_t cells_len, const uint32_t *values, size_t values_len,
                uint64_t *answers, size_t answers_len, uint32_t p, uint32_t m)
{
    static const enum kind kind_of[] = {IDLE, READ, WRITE, ASKED};
    struct memories mem = {readings, readings_len, links, links_len, directory, directory_len, pool, pool_len};
    struct grid g;
    cgrid_open(&g, p, m, 7, 3, &mem);
    bool fits = cgrid_fits(&g);
    size_t lengths[] = {processes_len, cells_len, values_len, answers_len};
    for (int k = 0; k < 4; k++)
        n = n < lengths[k] ? n : lengths[k];
    for (size_t i = 0; i < n; i++) {
        uint8_t kind = kinds[i];
        answers[i] = word_of(kind < 1 || kind > 3 ? cgrid_step(&g, fits, processes[i], &mem)
                                                  : cgrid_begin(&g, fits, processes[i], kind_of[kind], cells[i], values[i]));
    }
    return g.top;
}
