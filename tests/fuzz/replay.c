/*
 * replay.c - feed a fuzz entry without a fuzzer.
 *
 * replay FILE... feeds these files, replay standard input, and replay -d COUNT
 * so many drawn inputs, the same in every run. It stops at the first
 * difference.
 */
#include <stdio.h>
#include <stdlib.h>
#include <string.h>

#include "fuzz.h"

struct bytes {
    uint8_t at[INPUT_ROOM];
    size_t len;
};

/* Exactly as long as the file, so that reading past it shows. */
static void feed(const struct bytes *b)
{
    uint8_t *copy = malloc(b->len > 0 ? b->len : 1);

    if (copy == NULL)
        abort();
    memcpy(copy, b->at, b->len);
    LLVMFuzzerTestOneInput(copy, b->len);
    free(copy);
}

static int feed_file(FILE *file, const char *name)
{
    struct bytes b;

    if (file == NULL) {
        perror(name);
        return 1;
    }
    b.len = fread(b.at, 1, sizeof b.at, file);
    fclose(file);
    feed(&b);
    return 0;
}

static void feed_drawn(size_t number)
{
    struct bytes b;

    b.len = draw_input(number, b.at);
    feed(&b);
}

int main(int argc, char **argv)
{
    int failed = 0;

    if (argc == 3 && strcmp(argv[1], "-d") == 0) {
        const size_t count = strtoul(argv[2], NULL, 10);

        for (size_t k = 0; k < count; k++)
            feed_drawn(k);
        printf("%zu drawn inputs\n", count);
        return 0;
    }
    if (argc == 1)
        failed = feed_file(stdin, "standard input");
    for (int i = 1; i < argc; i++)
        failed |= feed_file(fopen(argv[i], "rb"), argv[i]);
    return failed;
}
