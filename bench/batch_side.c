// The proved grid by its batch call, and the batch in C: the operations of a row as one list of begins and steps. The list is made
// before the measured stretch, from how many steps each operation takes; what is measured is the one call.
#include "cgrid.h"
#include "sides.h"

enum { MOST = 65536 * 12 };
enum { A_STEP, A_READ, A_WRITE, AN_ASKED };

static uint8_t kinds[MOST];
static uint32_t processes[MOST], cells[MOST], values[MOST];
static uint64_t answers[MOST];
static size_t entries, ready;

static void entry(uint8_t kind, uint32_t process, uint32_t cell, uint32_t value)
{
    kinds[entries] = kind;
    processes[entries] = process;
    cells[entries] = cell;
    values[entries] = value;
    entries++;
}

void batch_list(const uint64_t *outcomes, size_t n, uint32_t q, uint32_t busy, uint32_t before, uint32_t kind, uint32_t cell_count)
{
    static const uint8_t begins[] = {A_READ, A_WRITE, AN_ASKED};
    entries = 0;
    for (uint32_t j = 0; j < busy; j++) {
        entry(A_WRITE, j, 0, j);
        entry(A_STEP, j, 0, 0);
        entry(A_STEP, j, 0, 0);
    }
    ready = entries;
    uint32_t cell = 0;
    for (size_t i = 0; i < n; i++) {
        entry(i < before ? A_WRITE : begins[kind], q, cell, i);
        for (uint64_t k = outcomes[i] >> 32 & 0xff; k > 0; k--)
            entry(A_STEP, q, 0, 0);
        cell = cell + 1 < cell_count ? cell + 1 : 0;
    }
}

uint32_t batch_operations(uint32_t *readings, size_t readings_len, uint64_t *links, size_t links_len, uint32_t *directory,
                          size_t directory_len, uint32_t *pool, size_t pool_len, uint64_t *outcomes, size_t n, uint32_t p,
                          uint32_t m, uint32_t q, uint32_t busy, uint32_t before, uint32_t kind, uint32_t cell_count)
{
    (void)outcomes, (void)n, (void)q, (void)busy, (void)before, (void)kind, (void)cell_count;
    return grid_list(readings, readings_len, links, links_len, directory, directory_len, pool, pool_len, kinds, entries, processes,
                     entries, cells, entries, values, entries, answers, entries, p, m);
}

uint32_t c_batch_operations(uint32_t *readings, size_t readings_len, uint64_t *links, size_t links_len, uint32_t *directory,
                            size_t directory_len, uint32_t *pool, size_t pool_len, uint64_t *outcomes, size_t n, uint32_t p,
                            uint32_t m, uint32_t q, uint32_t busy, uint32_t before, uint32_t kind, uint32_t cell_count)
{
    (void)outcomes, (void)n, (void)q, (void)busy, (void)before, (void)kind, (void)cell_count;
    return c_list(readings, readings_len, links, links_len, directory, directory_len, pool, pool_len, kinds, entries, processes,
                  entries, cells, entries, values, entries, answers, entries, p, m);
}

// The batch's words count from "begun", and have a read's flag at 2^16.
static enum what what_of(uint64_t answer)
{
    enum what what = (answer & 0xff) + 1;
    return what == READ_ENDED && answer >> 16 & 1 ? READ_WRITTEN : what;
}

static uint64_t word_of(uint64_t answer)
{
    enum what what = what_of(answer);
    uint64_t count = answer >> 8 & 0xff;
    return (uint64_t)what << 40 | (what == REFUSED ? count : count << 32 | answer >> 32);
}

// An operation's outcome is the answer of its last step; every answer before that is "begun" or "going".
void batch_outcomes(uint64_t *outcomes, size_t n)
{
    size_t at = ready;
    for (size_t i = 0; i < n; i++) {
        enum what expected = BEGUN;
        for (; at + 1 < entries && kinds[at + 1] == A_STEP && what_of(answers[at]) == expected; at++)
            expected = GOING;
        outcomes[i] = word_of(answers[at++]);
    }
}
