// A plain array: each operation is one call that tests the cell's number and reads or writes one word.
#include "cgrid.h"
#include "sides.h"

__attribute__((noinline)) static uint64_t array_read(const uint32_t *a, size_t m, uint32_t cell)
{
    return cell < m ? (uint64_t)READ_ENDED << 40 | a[cell] : (uint64_t)REFUSED << 40 | 5;
}

__attribute__((noinline)) static uint64_t array_write(uint32_t *a, size_t m, uint32_t cell, uint32_t value)
{
    if (cell >= m)
        return (uint64_t)REFUSED << 40 | 5;
    a[cell] = value;
    return (uint64_t)WRITTEN << 40;
}

uint32_t array_operations(uint32_t *readings, size_t m, uint64_t *links, size_t links_len, uint32_t *directory,
                          size_t directory_len, uint32_t *pool, size_t pool_len, uint64_t *outcomes, size_t n, uint32_t p,
                          uint32_t cells_in_all, uint32_t q, uint32_t busy, uint32_t before, uint32_t kind, uint32_t cells)
{
    (void)links, (void)links_len, (void)directory, (void)directory_len, (void)pool, (void)pool_len;
    (void)p, (void)cells_in_all, (void)q, (void)busy;
    uint32_t cell = 0;
    for (size_t i = 0; i < n; i++) {
        outcomes[i] = i < before || kind == 1 ? array_write(readings, m, cell, i) : array_read(readings, m, cell);
        cell = cell + 1 < cells ? cell + 1 : 0;
    }
    return 0;
}
