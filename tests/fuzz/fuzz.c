/* fuzz.c - what the fuzz entries share. */
#include "fuzz.h"

#include <stdio.h>
#include <stdlib.h>

#include "harness.h"

size_t length_near(size_t usual, uint8_t byte)
{
    const size_t more = byte < 128 ? byte / 2 : 0;
    const size_t less = byte < 128 ? 0 : (257 - byte) / 2u;

    return usual + more > less ? usual + more - less : 0;
}

int LLVMFuzzerTestOneInput(const uint8_t *data, size_t size)
{
    group_begin("fuzz", "one input");
    try_input(data, size);
    if (group_failed()) {
        group_end();
        fflush(stdout);
        abort();
    }
    return 0;
}
