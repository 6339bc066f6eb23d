// The grid's machine in C, by hand: the same steps, refusals and range checks as the proved one, its state changed in place.
// A side includes it, so that the compiler may put its calls in line there. Whether the state fits is handed to begin and step:
// a side says when it looks.
#include "cgrid.h"
#include <stdbool.h>
#include <string.h>

static const uint32_t tombstone = 0xffffffff;

static uint32_t process_of(uint64_t link) { return link >> 50; }

static uint64_t place_of(uint64_t link) { return link & ((1ull << 50) - 1); }

static uint64_t pack(uint32_t q, uint32_t place) { return (uint64_t)q << 50 | place; }

static uint32_t segment_of(uint64_t place) { return 62 - __builtin_clzll(place + 2); }

static uint64_t size_of(uint32_t segment) { return 2ull << segment; }

static uint64_t offset_of(uint64_t place) { return place + 2 - size_of(segment_of(place)); }

static uint32_t most_marks(const struct grid *g) { return 2 * g->m + 1; }

static uint32_t pool_words(uint32_t p, uint32_t m) { return 4 * m + 2 * p; }

static struct answer answer(enum what what, uint32_t steps, uint32_t value)
{
    return (struct answer){.what = what, .steps = steps, .value = value};
}

static struct answer refused(uint32_t number) { return answer(REFUSED, 0, number); }

static bool lengths_fit(uint32_t p, uint32_t m, const struct memories *mem)
{
    return mem->readings_len == m && mem->links_len == m && mem->directory_len == SEGMENTS * p && mem->pool_len == pool_words(p, m);
}

static bool lane_fits(const struct grid *g, const struct lane *l)
{
    if (l->marks > most_marks(g) || l->drawn > SEGMENTS || l->steps > STEPS)
        return false;
    if (l->kind == IDLE)
        return l->steps == 0;
    if (l->cell >= g->m)
        return false;
    switch (l->stage) {
    case STORE:
    case LINK:
    case FETCH:
        return true;
    case MARKS:
        return process_of(l->link) < g->p;
    case DIRECTORY:
    case MARK:
        return process_of(l->link) < g->p && place_of(l->link) <= most_marks(g);
    default:
        return l->place <= most_marks(g);
    }
}

static bool cgrid_fits(const struct grid *g)
{
    if (g->p < 1 || g->p > PROCESSES || g->m < 1 || g->m > CELLS || g->top > pool_words(g->p, g->m))
        return false;
    for (uint32_t q = 0; q < g->p; q++)
        if (!lane_fits(g, &g->lanes[q]))
            return false;
    return true;
}

static struct answer cgrid_open(struct grid *g, uint32_t p, uint32_t m, uint32_t first, uint32_t step, const struct memories *mem)
{
    memset(g, 0, sizeof *g);
    if (p < 1 || p > PROCESSES)
        return refused(1);
    if (m < 1 || m > CELLS)
        return refused(2);
    if (!lengths_fit(p, m, mem))
        return refused(3);
    g->p = p;
    g->m = m;
    g->first = first;
    g->step = step;
    return answer(OPENED, 0, 0);
}

static struct answer cgrid_begin(struct grid *g, bool fits, uint32_t q, enum kind kind, uint32_t cell, uint32_t value)
{
    if (!fits)
        return refused(9);
    if (q >= g->p)
        return refused(4);
    struct lane *l = &g->lanes[q];
    if (l->kind != IDLE)
        return refused(6);
    if (cell >= g->m)
        return refused(5);
    l->kind = kind;
    l->stage = kind == WRITE ? STORE : LINK;
    l->cell = cell;
    l->word = value;
    return answer(BEGUN, 0, 0);
}

// The operation goes on. No operation goes on after its tenth step.
static struct answer go(struct lane *l, enum stage next)
{
    l->stage = next;
    l->steps++;
    return answer(GOING, 0, 0);
}

static struct answer end(struct lane *l, enum what what, uint32_t value)
{
    uint32_t steps = l->steps + 1;
    l->kind = IDLE;
    l->steps = 0;
    return answer(what, steps, value);
}

// 4. Whether the tombstone comes first is asked once.
static enum stage tombstone_first(uint32_t q, const struct lane *l)
{
    return !l->stored && l->link == pack(q, l->place) ? TOMBSTONE : NOTE;
}

// 3. The segment of the write's place is drawn if it is not.
static enum stage at_place(uint32_t q, const struct lane *l)
{
    return segment_of(l->place) < l->drawn ? tombstone_first(q, l) : DRAW;
}

static struct answer not_written(struct grid *g, uint32_t q, struct lane *l, uint64_t link)
{
    if (l->kind == READ)
        return end(l, READ_ENDED, g->first + g->step * l->cell);
    if (l->kind == ASKED)
        return end(l, ASKED_ENDED, 0);
    if (l->steps == STEPS)
        return refused(9);
    l->link = link;
    l->place = l->marks;
    l->stored = false;
    return go(l, at_place(q, l));
}

static struct answer cgrid_step(struct grid *g, bool fits, uint32_t q, const struct memories *mem)
{
    if (!fits)
        return refused(9);
    if (!lengths_fit(g->p, g->m, mem))
        return refused(8);
    if (q >= g->p)
        return refused(4);
    struct lane *l = &g->lanes[q];
    if (l->kind == IDLE)
        return refused(7);

    bool last = l->steps == STEPS;
    uint64_t at;
    switch ((enum stage)l->stage) {
    case STORE:
        if (last)
            return refused(9);
        mem->readings[l->cell] = l->word;
        return go(l, LINK);
    case LINK:
        at = mem->links[l->cell];
        if (process_of(at) >= g->p)
            return not_written(g, q, l, at);
        if (last)
            return refused(9);
        l->link = at;
        return go(l, MARKS);
    case MARKS:
        if (place_of(l->link) >= g->lanes[process_of(l->link)].marks)
            return not_written(g, q, l, l->link);
        return last ? refused(9) : go(l, DIRECTORY);
    case DIRECTORY:
        if (last)
            return refused(9);
        l->word = mem->directory[SEGMENTS * process_of(l->link) + segment_of(place_of(l->link))];
        return go(l, MARK);
    case MARK:
        at = l->word + offset_of(place_of(l->link));
        if (at >= mem->pool_len)
            return refused(9);
        if (mem->pool[at] != l->cell)
            return not_written(g, q, l, l->link);
        if (l->kind == ASKED)
            return end(l, ASKED_ENDED, 1);
        if (l->kind == WRITE)
            return end(l, WRITTEN, 0);
        return last ? refused(9) : go(l, FETCH);
    case FETCH:
        return end(l, READ_WRITTEN, mem->readings[l->cell]);
    case DRAW:
        at = g->top + size_of(segment_of(l->place));
        if (last || at > mem->pool_len)
            return refused(9);
        l->word = g->top;
        l->drawn = segment_of(l->place) + 1;
        g->top = at;
        return go(l, ENTER);
    case ENTER:
        if (last)
            return refused(9);
        mem->directory[SEGMENTS * q + segment_of(l->place)] = l->word;
        return go(l, tombstone_first(q, l));
    case TOMBSTONE:
        at = mem->directory[SEGMENTS * q + segment_of(l->place)] + offset_of(l->place);
        if (last || at >= mem->pool_len || l->place == most_marks(g))
            return refused(9);
        mem->pool[at] = tombstone;
        l->stored = true;
        l->place++;
        return go(l, at_place(q, l));
    case NOTE:
        at = mem->directory[SEGMENTS * q + segment_of(l->place)] + offset_of(l->place);
        if (last || at >= mem->pool_len)
            return refused(9);
        mem->pool[at] = l->cell;
        return go(l, FORCE);
    case FORCE:
        if (last || l->place == most_marks(g))
            return refused(9);
        l->marks = l->place + 1;
        return go(l, SWAP);
    case SWAP:
        if (mem->links[l->cell] != l->link)
            return last ? refused(9) : go(l, TAKE_BACK);
        mem->links[l->cell] = pack(q, l->place);
        return end(l, WRITTEN, 0);
    case TAKE_BACK:
        l->marks = l->place;
        return end(l, WRITTEN, 0);
    }
    return refused(9);
}
