// The sides that are measured: each opens a grid and does the same operations.
#ifndef SIDES_H
#define SIDES_H
#include <stddef.h>
#include <stdint.h>

typedef uint32_t operations(uint32_t *readings, size_t, uint64_t *links, size_t, uint32_t *directory, size_t, uint32_t *pool, size_t,
                            uint64_t *outcomes, size_t, uint32_t p, uint32_t m, uint32_t q, uint32_t busy, uint32_t before,
                            uint32_t kind, uint32_t cells);

// The proved grid, from its static library; see crates/bench_host. A slice is a pointer and a length.
operations grid_operations;
uint32_t grid_opens(const uint32_t *readings, size_t, const uint64_t *links, size_t, const uint32_t *directory, size_t,
                    const uint32_t *pool, size_t, uint32_t p, uint32_t m, uint32_t n);
uint32_t grid_begins(const uint32_t *readings, size_t, const uint64_t *links, size_t, const uint32_t *directory, size_t,
                     const uint32_t *pool, size_t, uint32_t p, uint32_t m, uint32_t n);

// Reads of a written cell in five steps, or of one that is not written in one; each state is handed on.
uint32_t grid_reads(uint32_t *readings, size_t, uint64_t *links, size_t, uint32_t *directory, size_t, uint32_t *pool, size_t,
                    uint64_t *outcomes, size_t, uint32_t p, uint32_t m, uint32_t q, uint32_t steps);

// A list of begins and steps, and an answer for each: the proved grid by its batch call, and the batch in C.
typedef uint32_t list(uint32_t *readings, size_t, uint64_t *links, size_t, uint32_t *directory, size_t, uint32_t *pool, size_t,
                      const uint8_t *kinds, size_t, const uint32_t *processes, size_t, const uint32_t *cells, size_t,
                      const uint32_t *values, size_t, uint64_t *answers, size_t, uint32_t p, uint32_t m);
list grid_list, c_list;

// The same operations through each: the list made beforehand, the one call, the outcomes read off its answers.
void batch_list(const uint64_t *outcomes, size_t n, uint32_t q, uint32_t busy, uint32_t before, uint32_t kind, uint32_t cells);
operations batch_operations, c_batch_operations;
void batch_outcomes(uint64_t *outcomes, size_t n);

// The machine in C.
operations c_operations;
size_t c_state_bytes(void);

// A plain array, the readings alone; the other memories are not looked at.
operations array_operations;
#endif
