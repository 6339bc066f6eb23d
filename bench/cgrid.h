// The grid's machine in C: its state, its memories and its answers, to measure the proved one against.
#ifndef CGRID_H
#define CGRID_H
#include <stddef.h>
#include <stdint.h>

enum { PROCESSES = 16, CELLS = 65536, SEGMENTS = 17, STEPS = 10 };

enum kind { IDLE, READ, ASKED, WRITE };

enum stage { STORE, LINK, MARKS, DIRECTORY, MARK, FETCH, DRAW, ENTER, TOMBSTONE, NOTE, FORCE, SWAP, TAKE_BACK };

// A process's counts, and its operation under way.
struct lane {
    uint32_t marks;
    uint8_t drawn, steps, kind, stage;
    uint32_t cell;
    uint32_t word;  // the reading to store, or where a segment starts
    uint32_t place;
    uint8_t stored; // whether the tombstone is
    uint64_t link;  // the remembered one
};

struct grid {
    uint32_t p, m, first, step, top;
    struct lane lanes[PROCESSES];
};

struct memories {
    uint32_t *readings;
    size_t readings_len;
    uint64_t *links;
    size_t links_len;
    uint32_t *directory;
    size_t directory_len;
    uint32_t *pool;
    size_t pool_len;
};

// A read of a cell that is not written ends as READ_ENDED, of a written one as READ_WRITTEN.
enum what { OPENED, BEGUN, GOING, READ_ENDED, WRITTEN, ASKED_ENDED, REFUSED, READ_WRITTEN };

struct answer {
    uint8_t what, steps;
    uint32_t value; // a reading, 1 or 0, or the refusal's number
};
#endif
