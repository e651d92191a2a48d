/*
 * test_text_picked.c - texts picked by hand, those of FORMAT 13.11 among them:
 * tables say what is right, of the library and of the second implementation.
 */
#include <stdio.h>
#include <string.h>

#include "harness.h"
#include "test_text.h"
#include "zavullimen_texts.h"

static const char name[] = "text reader";

#define EIGHT(s) s s s s s s s s
#define LEVEL(w, h, p) {.version = 1, .width = w, .height = h, .par = p}
#define TEXT(s) (const uint8_t *)(s), sizeof(s) - 1

/* A refusal, or what is read and how it is written then. */
struct picked {
    const uint8_t *text;
    size_t len;
    struct ref_result answer;
    const char *tiles; /* codes */
    const char *rewritten;
};

static const struct picked taken[] = {
    {TEXT("par 5\n$+\n"), LEVEL(2, 1, 5), "26",
     "par 5\n$+\n"},
    {TEXT("par 0\n$+\n"), LEVEL(2, 1, 0), "26",
     "par 0\n$+\n"},
    {TEXT("par 1023\n$+\n"), LEVEL(2, 1, 1023), "26",
     "par 1023\n$+\n"},
    {TEXT("par 10\n+\n$\n"), LEVEL(1, 2, 10), "62",
     "par 10\n+\n$\n"},
    {TEXT("par 5\n$.@#\n"), LEVEL(4, 1, 5), "2351",
     "par 5\n$.@#\n"},
    /* a crate off its goal beside others that are on theirs */
    {TEXT("par 5\n*+$\n"), LEVEL(3, 1, 5), "462",
     "par 5\n*+$\n"},
    {TEXT("par 5\n*@*\n$*.\n"), LEVEL(3, 2, 5), "454243",
     "par 5\n*@*\n$*.\n"},
    /* spaces at the end of a row widen it */
    {TEXT("par 5\n$+ \n"), LEVEL(3, 1, 5), "260",
     "par 5\n$+-\n"},
    {TEXT("par 5\n$+\n#\n     \n"), LEVEL(5, 3, 5),
     "260001000000000", "par 5\n$+---\n#----\n-----\n"},
    /* an empty row is a row of floor: first, between and last */
    {TEXT("par 5\n$+\n\n"), LEVEL(2, 2, 5), "2600",
     "par 5\n$+\n--\n"},
    {TEXT("par 5\n\n$+\n"), LEVEL(2, 2, 5), "0026",
     "par 5\n--\n$+\n"},
    {TEXT("par 5\n$\n\n+\n"), LEVEL(1, 3, 5), "206",
     "par 5\n$\n-\n+\n"},
    /* rows of several lengths, the two floors mixed */
    {TEXT("par 77\n#\n -+\n$\n- -#\n"), LEVEL(4, 4, 77),
     "1000006020000001", "par 77\n#---\n--+-\n$---\n---#\n"},
    {TEXT("par 0\n$\n -.@\n"), LEVEL(4, 2, 0), "20000035",
     "par 0\n$---\n--.@\n"},
    /* the widest row and the most rows */
    {TEXT("par 5\n+$" EIGHT("#") EIGHT("#") EIGHT("#") "#####\n"),
     LEVEL(31, 1, 5), "62" EIGHT("1") EIGHT("1")
     EIGHT("1") "11111",
     "par 5\n+$" EIGHT("#") EIGHT("#") EIGHT("#") "#####\n"},
    {TEXT("par 5\n+$\n" EIGHT("\n") EIGHT("\n") EIGHT("\n") "\n\n\n\n\n\n"),
     LEVEL(2, 31, 5), "62" EIGHT("00") EIGHT("00")
     EIGHT("00") "000000000000",
     "par 5\n+$\n" EIGHT("--\n") EIGHT("--\n") EIGHT("--\n")
     "--\n--\n--\n--\n--\n--\n"},
};

static const struct {
    unsigned code;
    const uint8_t *text;
    size_t len;
} refused[] = {
    /* the first line */
    {11, TEXT("")},
    {11, TEXT("\n")},
    {11, TEXT("\npar 5\n$+\n")},
    {11, TEXT("$+\n")},
    {11, TEXT("par\n$+\n")},
    {11, TEXT("par \n$+\n")},
    {11, TEXT("par5\n$+\n")},
    {11, TEXT("par-5\n$+\n")},
    {11, TEXT("pa 5\n$+\n")},
    {11, TEXT("pars 5\n$+\n")},
    {11, TEXT("Par 5\n$+\n")},
    {11, TEXT("PAR 5\n$+\n")},
    {11, TEXT(" par 5\n$+\n")},
    {11, TEXT("par  5\n$+\n")},
    {11, TEXT("par\t5\n$+\n")},
    {11, TEXT("par 5 \n$+\n")},
    {11, TEXT("par 5\r\n$+\n")},
    {11, TEXT("par 5\0\n$+\n")},
    {11, TEXT("par 5\r$+\n")},
    {11, TEXT("par 5$+\n")},
    {11, TEXT("\xEF\xBB\xBFpar 5\n$+\n")}, /* as some editors start a file */
    /* its number */
    {11, TEXT("par 1024\n$+\n")},
    {11, TEXT("par 9999\n$+\n")},
    {11, TEXT("par 10230\n$+\n")},
    {11, TEXT("par 01023\n$+\n")},
    {11, TEXT("par 4294967301\n$+\n")},
    {11, TEXT("par 18446744073709551621\n$+\n")},
    {11, TEXT("par 007\n$+\n")},
    {11, TEXT("par 07\n$+\n")},
    {11, TEXT("par 00\n$+\n")},
    {11, TEXT("par 0000\n$+\n")},
    {11, TEXT("par -1\n$+\n")},
    {11, TEXT("par -0\n$+\n")},
    {11, TEXT("par +5\n$+\n")},
    {11, TEXT("par 12y4\n$+\n")},
    {11, TEXT("par 12 4\n$+\n")},
    {11, TEXT("par 5.\n$+\n")},
    {11, TEXT("par x\n$+\n")},
    {11, TEXT("par 0x5\n$+\n")},
    {11, TEXT("par /\n$+\n")}, /* the bytes beside the digits */
    {11, TEXT("par :\n$+\n")},
    {11, TEXT("par 1/\n$+\n")},
    {11, TEXT("par 1:\n$+\n")},
    /* line feeds that are missing */
    {11, TEXT("par 5")},
    {11, TEXT("par 5\n$+")},
    {11, TEXT("par 5\n$+\n ")},
    {11, TEXT("par 5\n$+\n#")},
    {11, TEXT("par 5\n$+\r")},
    /* what is no letter */
    {11, TEXT("par 5\n$+\r\n")},
    {11, TEXT("par 5\n$+\r\n\r\n")},
    {11, TEXT("par 5\n\t$+\n")},
    {11, TEXT("par 5\n$+\0\n")},
    {11, TEXT("par 5\n$+\n\0")},
    {11, TEXT("par 5\n$+_\n")},
    {11, TEXT("par 5\n$+x\n")},
    {11, TEXT("par 5\n$+0\n")},
    {11, TEXT("par 5\n$+\x80\n")},
    {11, TEXT("par 5\n$+\xA3\n")}, /* 163 is 35, a wall, and 128 */
    {11, TEXT("par 5\n$+\xFF\n")},
    {11, TEXT("par 5\n$+\npar 5\n")},
    /* what is no letter comes before too many rows, and too long ones */
    {11, TEXT("par 5\n$+\n" EIGHT("#\n") EIGHT("#\n") EIGHT("#\n")
              EIGHT("#\n") EIGHT("#\n") "x\n")},
    {11, TEXT("par 5\n$+\n" EIGHT("#\n") EIGHT("#\n") EIGHT("#\n")
              EIGHT("#\n") EIGHT("#\n") "#")},
    {11, TEXT("par 5\n$+\n" EIGHT("#\n") EIGHT("#\n") EIGHT("#\n")
              EIGHT("#\n") EIGHT("#\n") "#\r\n")},
    {11, TEXT("par 5\n$+" EIGHT("#") EIGHT("#") EIGHT("#") EIGHT("#") "x\n")},
    {11, TEXT("par 5\nx\n")},
    /* rows */
    {12, TEXT("par 5\n")},
    {12, TEXT("par 0\n")},
    {12, TEXT("par 5\n\n")},
    {12, TEXT("par 5\n\n\n\n")},
    {12, TEXT("par 5\n+$\n" EIGHT("\n") EIGHT("\n") EIGHT("\n") "\n\n\n\n\n\n"
              "\n")},
    {12, TEXT("par 5\n+$" EIGHT("#") EIGHT("#") EIGHT("#") "######\n")},
    {12, TEXT("par 5\n+$" EIGHT(" ") EIGHT(" ") EIGHT(" ") "      \n")},
    {12, TEXT("par 5\n+$\n" EIGHT("#") EIGHT("#") EIGHT("#") EIGHT("#") "\n")},
    /* 11 and 12 come before 10 */
    {11, TEXT("par 1024\n*@\n")},
    {11, TEXT("par 5\n*@")},
    {11, TEXT("par 5\n*@x\n")},
    {12, TEXT("par 5\n*@" EIGHT("*") EIGHT("*") EIGHT("*") "******\n")},
    {12, TEXT("par 5\n" EIGHT("#\n") EIGHT("#\n") EIGHT("#\n") EIGHT("#\n"))},
    {12, TEXT("par 5\n" EIGHT("#") EIGHT("#") EIGHT("#") EIGHT("#") "\n")},
    /* not one player */
    {10, TEXT("par 5\n$-\n")},
    {10, TEXT("par 5\n$.\n")},
    {10, TEXT("par 5\n*\n")},
    {10, TEXT("par 5\n*-\n")},
    {10, TEXT("par 5\n \n")},
    {10, TEXT("par 5\n--\n--\n")},
    {10, TEXT("par 5\n$+@\n")},
    {10, TEXT("par 5\n$++$\n")},
    {10, TEXT("par 5\n*@@\n")},
    {10, TEXT("par 5\n*@+\n")},
    /* not as many crates as goals */
    {10, TEXT("par 5\n$@\n")},
    {10, TEXT("par 5\n*@$\n")},
    {10, TEXT("par 5\n$+$\n")},
    {10, TEXT("par 5\n$+.\n")},
    {10, TEXT("par 5\n*@.\n")},
    {10, TEXT("par 5\n*+\n")},
    {10, TEXT("par 5\n+\n")},
    /* no crate off its goal: there is none at all, or every one is on a goal */
    {10, TEXT("par 5\n@\n")},
    {10, TEXT("par 5\n*@\n")},
    {10, TEXT("par 5\n$$@\n")},
    {10, TEXT("par 5\n*@ \n")},
    {10, TEXT("par 5\n*\n\n@\n")},
    {10, TEXT("par 5\n****\n*@**\n")},
};

static void check_tiles(const uint8_t *tiles, const char *codes,
                        const char *who)
{
    for (size_t i = 0; codes[i] != '\0'; i++)
        if (tiles[i] != codes[i] - '0')
            group_fail("%s: tile %zu of %s is %u", who, i, codes, tiles[i]);
}

static void check_rewritten(const struct picked *p, const uint8_t *tiles)
{
    uint8_t text[REF_TEXT_MAX];
    const struct ref_result r = p->answer;
    const struct ref_result length = {.length =
                                          (unsigned)strlen(p->rewritten)};

    check_number(zav_text_write(r.version, r.width, r.height, r.par, tiles,
                                (size_t)r.width * r.height, text, sizeof text),
                 packed(length), p->rewritten);
    if (memcmp(text, p->rewritten, length.length) != 0)
        group_fail("rewritten in another way: %s", p->rewritten);
}

/* The table says what is right; both implementations are held against it. */
static void test_taken(void)
{
    uint8_t tiles[REF_TILES_MAX], reference[REF_TILES_MAX];

    group_begin(name, "texts that are read, and how they are rewritten");
    for (size_t k = 0; k < COUNT(taken); k++) {
        const struct picked *p = &taken[k];

        check_text(p->text, p->len, REF_TILES_MAX);
        check_number(zav_text_read(p->text, p->len, tiles, sizeof tiles),
                     packed(p->answer), p->rewritten);
        check_number(packed(ref_text_read(p->text, p->len, reference,
                                          sizeof reference)),
                     packed(p->answer), p->rewritten);
        check_tiles(tiles, p->tiles, "library");
        check_tiles(reference, p->tiles, "reference");
        check_rewritten(p, tiles);
    }
    group_end();
}

static void test_refused(void)
{
    char what[80], digits[HEX_TEXT];
    uint8_t tiles[REF_TILES_MAX];

    group_begin(name, "texts that are refused, with 11, 12 or 10");
    for (size_t k = 0; k < COUNT(refused); k++) {
        const uint8_t *text = refused[k].text;
        const size_t len = refused[k].len;

        snprintf(what, sizeof what, "text %zu, %s", k, hex(digits, text, len));
        check_number(check_text(text, len, REF_TILES_MAX).code,
                     refused[k].code, what);
        check_number(zav_text_read(text, len, tiles, sizeof tiles),
                     refused[k].code, what);
    }
    group_end();
}

/* 4 comes first, whatever the text is; with 961 bytes it is gone. */
static void test_short_tile_buffers(void)
{
    static const size_t rooms[] = {0, 1, 2, REF_TILES_MAX - 1};

    group_begin(name, "a tile buffer that is too short, before all else");
    for (size_t r = 0; r < COUNT(rooms); r++) {
        for (size_t k = 0; k < COUNT(refused); k++)
            check_number(check_text(refused[k].text, refused[k].len,
                                    rooms[r]).code, 4, "reference");
        for (size_t k = 0; k < COUNT(taken); k++)
            check_number(check_text(taken[k].text, taken[k].len,
                                    rooms[r]).code, 4, "reference");
    }
    group_end();
}

void test_text_picked(void)
{
    test_taken();
    test_refused();
    test_short_tile_buffers();
}
