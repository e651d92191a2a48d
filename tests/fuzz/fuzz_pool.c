/*
 * fuzz_pool.c - any bytes, as two pictures pooled by the library and by the
 * second implementation: they must agree in every number and every byte.
 */
#include "fuzz_pool.h"

#include <string.h>

#include "fuzz.h"
#include "pairs.h"

static size_t least(size_t a, size_t b)
{
    return a < b ? a : b;
}

/* A quarter of the body, and zeros. */
static void take_quarter(uint8_t out[STRIP_ROOM], const uint8_t *body,
                         size_t quarter, size_t number, uint8_t bits)
{
    memset(out, 0, STRIP_ROOM);
    for (size_t i = 0; i < least(quarter, STRIP_ROOM); i++)
        out[i] = body[number * quarter + i] & bits;
}

void try_input(const uint8_t *data, size_t size)
{
    uint8_t head[HEAD] = {0};
    const size_t len = size > HEAD ? size - HEAD : 0, quarter = len / 4;
    const uint8_t *body = data + (size - len);
    struct pair p;

    if (size > 0)
        memcpy(head, data, least(size, HEAD));

    const uint8_t bits = head[FLAGS_AT] & RAW_MARKS ? 0xFF : 1;
    const size_t cells = least(quarter, STRIP_ROOM);

    take_quarter(p.first.strip, body, quarter, 0, 0xFF);
    take_quarter(p.first.marks, body, quarter, 1, bits);
    take_quarter(p.second.strip, body, quarter, 2, 0xFF);
    take_quarter(p.second.marks, body, quarter, 3, bits);
    p.first.strip_len = cells;
    p.first.marks_len = least(length_near(cells, head[FIRST_MARKS_AT]),
                              STRIP_ROOM);
    p.second.strip_len = least(length_near(cells, head[SECOND_AT]),
                               STRIP_ROOM);
    p.second.marks_len = least(length_near(p.second.strip_len,
                                           head[SECOND_MARKS_AT]), STRIP_ROOM);
    p.cells_len = least(length_near(cells, head[CELLS_AT]), STRIP_ROOM);
    p.marks_len = least(length_near(cells, head[MARKS_AT]), STRIP_ROOM);
    check_pair(&p);
}
