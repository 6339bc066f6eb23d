// The benchmark's program: runs each side on the same operations, compares what they answer and leave, and prints a line for each
// stretch that it measures. Usage: host OPERATIONS TURNS; of several turns the quickest counts.
#include "cgrid.h"
#include "sides.h"
#include <stdio.h>
#include <stdlib.h>
#include <string.h>
#include <time.h>
#include <unistd.h>

enum { MOST_OPERATIONS = 65536, POOL = 4 * CELLS + 2 * PROCESSES, LONGEST_COPY = 4096 };

// The memories of one side.
struct lent {
    uint32_t readings[CELLS], directory[SEGMENTS * PROCESSES], pool[POOL];
    uint64_t links[CELLS], outcomes[MOST_OPERATIONS];
};

static size_t copies[LONGEST_COPY];

#ifdef COPIES
// Copies by their length, counted where the linker puts these in place of the library's.
void *__real_memcpy(void *to, const void *from, size_t n);
void *__real_memmove(void *to, const void *from, size_t n);

void *__wrap_memcpy(void *to, const void *from, size_t n)
{
    copies[n < LONGEST_COPY ? n : LONGEST_COPY - 1]++;
    return __real_memcpy(to, from, n);
}

void *__wrap_memmove(void *to, const void *from, size_t n)
{
    copies[n < LONGEST_COPY ? n : LONGEST_COPY - 1]++;
    return __real_memmove(to, from, n);
}
#endif

// The first side is measured against the others. A side with an exact machine answers and leaves what the first does. One that
// takes a list has it made beforehand, outside of what is measured.
static const struct side {
    const char *name;
    operations *run;
    int exact, listed;
} sides[] = {
    {"grid", grid_operations, 1, 0},
    {"c", c_operations, 1, 0},
    {"array", array_operations, 0, 0},
    {"batch", batch_operations, 1, 1},
    {"c-batch", c_batch_operations, 1, 1},
};

enum { SIDES = sizeof sides / sizeof *sides };

static struct lent memories[SIDES];
static size_t turns;

// The time that this process had on a processor: others at work do not count.
static uint64_t now(void)
{
    struct timespec t;
    clock_gettime(CLOCK_PROCESS_CPUTIME_ID, &t);
    return t.tv_sec * 1000000000ull + t.tv_nsec;
}

// The instruction counter sees these calls; nothing else makes them.
static void mark(void) { getppid(); }

// What the operations of a row are.
struct row {
    const char *name;
    uint32_t p, m, busy, before, kind, cells;
    size_t n;
    int old;
};

static void fill(struct lent *x, const struct row *r)
{
    memset(x->readings, r->old, 4 * r->m);
    memset(x->links, r->old, 8 * r->m);
    memset(x->directory, r->old, 4 * SEGMENTS * r->p);
    memset(x->pool, r->old, 4 * (4 * r->m + 2 * r->p));
}

// A plain array starts with what a cell holds before any write.
static void fill_array(struct lent *x, const struct row *r)
{
    for (uint32_t i = 0; i < r->m; i++)
        x->readings[i] = 7 + 3 * i;
}

static void print_copies(void)
{
    for (size_t i = 256; i < LONGEST_COPY; i++)
        if (copies[i])
            printf(" %zu:%zu", i, copies[i]);
    putchar('\n');
}

// One stretch: n operations on one side. Prints `ops NAME P M BUSY SIDE PART N STEPS NANOSECONDS` and the long copies.
static uint32_t stretch(const struct row *r, int k, const char *part, size_t n)
{
    struct lent *x = &memories[k];
    uint64_t best = UINT64_MAX;
    uint32_t top = 0;
    if (sides[k].listed)
        batch_list(memories[0].outcomes, n, r->p - 1, r->busy, r->before, r->kind, r->cells);
    for (size_t t = 0; t < turns; t++) {
        fill(x, r);
        if (!sides[k].exact)
            fill_array(x, r);
        memset(copies, 0, sizeof copies);
        uint64_t from = now();
        mark();
        top = sides[k].run(x->readings, r->m, x->links, r->m, x->directory, SEGMENTS * r->p, x->pool, 4 * r->m + 2 * r->p,
                           x->outcomes, n, r->p, r->m, r->p - 1, r->busy, r->before, r->kind, r->cells);
        mark();
        uint64_t took = now() - from;
        if (took < best)
            best = took;
    }
    if (sides[k].listed)
        batch_outcomes(x->outcomes, n);
    uint64_t steps = 0;
    for (size_t i = r->before; i < n; i++)
        steps += x->outcomes[i] >> 32 & 0xff;
    printf("ops %s %u %u %u %s %s %zu %llu %llu", r->name, r->p, r->m, r->busy, sides[k].name, part, n - r->before,
           (unsigned long long)steps, (unsigned long long)best);
    print_copies();
    return top;
}

static void differ(const struct row *r, const char *what)
{
    fprintf(stderr, "host: %s, p %u, m %u: the sides differ in %s\n", r->name, r->p, r->m, what);
    exit(1);
}

// Every side on one row, first what comes before the operations, then all of it; and the sides compared.
static void compare(const struct row *r)
{
    uint32_t top[SIDES];
    size_t n = r->before + r->n;
    for (int k = 0; k < SIDES; k++) {
        stretch(r, k, "setup", r->before);
        top[k] = stretch(r, k, "whole", n);
    }
    struct lent *a = &memories[0];
    for (size_t i = 0; i < n; i++)
        if (a->outcomes[i] >> 40 == REFUSED)
            differ(r, "a refusal that none expects");
    for (int k = 1; k < SIDES; k++) {
        struct lent *b = &memories[k];
        if (!sides[k].exact) {
            for (size_t i = r->before; i < n && r->kind == 0; i++)
                if ((uint32_t)a->outcomes[i] != (uint32_t)b->outcomes[i])
                    differ(r, "a reading");
            continue;
        }
        if (top[k] != top[0])
            differ(r, "the pool's top");
        if (memcmp(a->outcomes, b->outcomes, 8 * n))
            differ(r, "an answer");
        if (memcmp(a->readings, b->readings, 4 * r->m) || memcmp(a->links, b->links, 8 * r->m) ||
            memcmp(a->directory, b->directory, 4 * SEGMENTS * r->p) || memcmp(a->pool, b->pool, 4 * (4 * r->m + 2 * r->p)))
            differ(r, "a memory");
    }
}

// Reads whose states are handed on. Prints `handed P M STEPS PART N NANOSECONDS` and the long copies.
static void handed(uint32_t p, uint32_t m, uint32_t steps, const char *part, size_t n)
{
    struct lent *x = &memories[0];
    struct row r = {.name = "handed", .p = p, .m = m, .old = 255};
    uint64_t best = UINT64_MAX;
    for (size_t t = 0; t < turns; t++) {
        fill(x, &r);
        memset(copies, 0, sizeof copies);
        uint64_t from = now();
        mark();
        grid_reads(x->readings, m, x->links, m, x->directory, SEGMENTS * p, x->pool, 4 * m + 2 * p, x->outcomes, n, p, m, p - 1,
                   steps);
        mark();
        uint64_t took = now() - from;
        if (took < best)
            best = took;
    }
    uint64_t ended = steps == 5 ? READ_WRITTEN : READ_ENDED, value = steps == 5 ? 9 : 7;
    uint64_t expected = ended << 40 | (uint64_t)steps << 32 | value;
    for (size_t i = 0; i < n; i++)
        if (x->outcomes[i] != expected)
            differ(&r, "an answer");
    printf("handed %u %u %u %s %zu %llu", p, m, steps, part, n, (unsigned long long)best);
    print_copies();
}

typedef uint32_t opens(const uint32_t *, size_t, const uint64_t *, size_t, const uint32_t *, size_t, const uint32_t *, size_t,
                       uint32_t, uint32_t, uint32_t);

// Prints `open P M WHAT N NANOSECONDS`; with no function the four memories are cleared instead.
static void opening(const char *what, opens *run, uint32_t p, uint32_t m, size_t n)
{
    struct lent *x = &memories[0];
    struct row r = {.p = p, .m = m, .old = 0};
    uint64_t best = UINT64_MAX;
    for (size_t t = 0; t < turns; t++) {
        uint64_t from = now();
        mark();
        if (run)
            run(x->readings, m, x->links, m, x->directory, SEGMENTS * p, x->pool, 4 * m + 2 * p, p, m, n);
        else
            for (size_t i = 0; i < n; i++) {
                fill(x, &r);
                __asm__ volatile("" ::: "memory");
            }
        mark();
        uint64_t took = now() - from;
        if (took < best)
            best = took;
    }
    printf("open %u %u %s %zu %llu\n", p, m, what, n, (unsigned long long)best);
}

int main(int argc, char **argv)
{
    if (argc != 3)
        return 2;
    size_t n = strtoul(argv[1], 0, 10);
    turns = strtoul(argv[2], 0, 10);
    if (n < 1 || n > MOST_OPERATIONS - 4 || turns < 1)
        return 2;
    printf("bytes c %zu\n", c_state_bytes());

    for (uint32_t m = 1; m <= CELLS; m *= 4) {
        opening("opens", grid_opens, 4, m, n);
        opening("begins", grid_begins, 4, m, n);
        opening("clears", 0, 4, m, m < 4096 ? 256 : 8);
    }

    static const uint32_t ps[] = {1, 4, 16};
    for (int i = 0; i < 3; i++) {
        uint32_t p = ps[i];
        compare(&(struct row){"read-written", p, 1024, 0, 4, 0, 4, n, 255});
        compare(&(struct row){"read-unwritten", p, 1024, 0, 0, 0, 4, n, 255});
        compare(&(struct row){"first-write", p, CELLS, 0, 0, 1, CELLS, n, 255});
        compare(&(struct row){"later-write", p, 1024, 0, 4, 1, 4, n, 255});
        // Old words of 0 name process 0: the check takes more steps. Measured too, and compared.
        compare(&(struct row){"first-write-0", p, CELLS, 0, 0, 1, CELLS, n, 0});
        compare(&(struct row){"asked-0", p, CELLS, 0, 4, 2, 16, n, 0});
        for (uint32_t steps = 1; steps <= 5; steps += 4) {
            handed(p, 1024, steps, "setup", 0);
            handed(p, 1024, steps, "whole", n);
        }
    }
    // The others at work, and other sizes.
    compare(&(struct row){"read-written", 4, 1024, 3, 4, 0, 4, n, 255});
    compare(&(struct row){"read-written", 16, 1024, 15, 4, 0, 4, n, 255});
    compare(&(struct row){"read-written", 4, 1, 0, 1, 0, 1, n, 255});
    compare(&(struct row){"read-written", 4, CELLS, 0, 4, 0, 4, n, 255});
    puts("same");
    return 0;
}
