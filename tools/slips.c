/* slips.c - where a text went wrong, for whoever typed it. */
#include "slips.h"

#include <string.h>

#include "common.h"

enum { SIDE_MAX = 31, PAR_MAX = 1023 };

/* ---- lines ---- */

/* A line without its line feed; `ended` if it has one. Before the first one
 * the number is 0. */
struct line {
    const uint8_t *at;
    size_t len, number, next;
    bool ended;
};

/* False after the last line. There is a first one in any case. */
static bool next_line(const uint8_t *text, size_t text_len, struct line *l)
{
    const size_t left = text_len - l->next;

    if (left == 0 && l->number > 0)
        return false;
    l->at = text + l->next;
    l->number++;

    const uint8_t *feed = left > 0 ? memchr(l->at, '\n', left) : NULL;

    l->ended = feed != NULL;
    l->len = l->ended ? (size_t)(feed - l->at) : left;
    l->next += l->len + l->ended;
    return true;
}

/* ---- words ---- */

static void print_place(FILE *out, const struct line *l, size_t place)
{
    fprintf(out, "line %zu, column %zu: ", l->number, place + 1);
}

/* Never the byte itself if it could do something to a terminal. */
static void print_byte(FILE *out, uint8_t byte)
{
    if (byte > ' ' && byte < 0x7F)
        fprintf(out, "'%c'", byte);
    else if (byte == ' ')
        fputs("a space", out);
    else if (byte == '\t')
        fputs("a tab", out);
    else
        fprintf(out, "byte %u", byte);
}

/* What editors of other systems leave in a file; true if it was that. */
static bool says_other_system(FILE *out, const struct line *l, size_t place)
{
    static const uint8_t mark[] = {0xEF, 0xBB, 0xBF};

    if (place + 1 == l->len && l->at[place] == '\r' && l->ended)
        fputs("the file has Windows line ends; save it with plain line feeds\n",
              out);
    else if (l->number == 1 && place == 0 && l->len >= sizeof mark &&
             memcmp(l->at, mark, sizeof mark) == 0)
        fputs("the file starts with a byte order mark; save it without one\n",
              out);
    else
        return false;
    return true;
}

/* ---- refusal 11 ---- */

static bool says_no_feed(FILE *out, const struct line *l)
{
    if (l->ended)
        return false;
    print_place(out, l, l->len);
    fputs("the last line has no line feed; end it with one\n", out);
    return true;
}

/* How many bytes of the line are as they should be in front of a par. */
static size_t front_of(const struct line *l)
{
    static const char front[] = "par ";
    size_t len = 0;

    while (len < strlen(front) && len < l->len && l->at[len] == front[len])
        len++;
    return len;
}

static bool is_digit(uint8_t byte)
{
    return byte >= '0' && byte <= '9';
}

/* How many digits there are from this place on, if they are a par; else 0. */
static size_t digits_of(const struct line *l, size_t from)
{
    size_t len = 0, par = 0;

    while (from + len < l->len && is_digit(l->at[from + len]) &&
           par <= PAR_MAX)
        par = 10 * par + l->at[from + len++] - '0';
    return par > PAR_MAX || (len > 1 && l->at[from] == '0') ? 0 : len;
}

static bool says_first_line(FILE *out, const struct line *l)
{
    const size_t front = front_of(l), all = strlen("par ");
    const size_t digits = front == all ? digits_of(l, all) : 0;
    const size_t place = front + digits;

    if (digits > 0 && place == l->len)
        return false;
    print_place(out, l, place);
    if (says_other_system(out, l, place))
        return true;
    if (front < all) {
        fputs("the first line is 'par', one space and a number, such as "
              "'par 12'\n", out);
    } else if (digits == 0) {
        fprintf(out, "the par is a number from 0 to %d with no leading zero\n",
                PAR_MAX);
    } else {
        print_byte(out, l->at[place]);
        fputs(" follows the par; the first line must end after it\n", out);
    }
    return true;
}

static bool is_letter(uint8_t byte)
{
    return byte == '-' || memchr(letters, byte, TEXT_CODES) != NULL;
}

/* Whoever types what zavshow drew may type this; true if it was that. */
static bool says_pit(FILE *out, uint8_t byte)
{
    if (byte != '^')
        return false;
    fputs("'^' is a pit, which cannot be typed: texts are levels of version 1, "
          "and those have no pits\n", out);
    return true;
}

static bool says_row(FILE *out, const struct line *l)
{
    size_t place = 0;

    while (place < l->len && is_letter(l->at[place]))
        place++;
    if (place == l->len)
        return false;
    print_place(out, l, place);
    if (says_other_system(out, l, place) || says_pit(out, l->at[place]))
        return true;
    print_byte(out, l->at[place]);
    fputs(" is no tile; the letters are # $ . * @ + and - or space for floor\n",
          out);
    return true;
}

static bool says_bad_text(FILE *out, const uint8_t *text, size_t len)
{
    struct line l = {.number = 0};

    while (next_line(text, len, &l))
        if ((l.number == 1 ? says_first_line(out, &l) : says_row(out, &l)) ||
            says_no_feed(out, &l))
            return true;
    return false;
}

/* ---- refusal 12 ---- */

/* A row that is one too many, or too long. */
static bool says_too_much(FILE *out, const struct line *l)
{
    if (l->number > SIDE_MAX + 1) {
        print_place(out, l, 0);
        fprintf(out, "more than %d rows\n", SIDE_MAX);
        return true;
    }
    if (l->len > SIDE_MAX) {
        print_place(out, l, SIDE_MAX);
        fprintf(out, "more than %d tiles in a row\n", SIDE_MAX);
        return true;
    }
    return false;
}

static bool says_bad_rows(FILE *out, const uint8_t *text, size_t len)
{
    struct line l = {.number = 0};
    bool tiles = false;

    next_line(text, len, &l);
    while (next_line(text, len, &l)) {
        if (says_too_much(out, &l))
            return true;
        tiles |= l.len > 0;
    }
    if (tiles)
        return false;
    fprintf(out, "line 2, column 1: %s\n",
            l.number == 1 ? "there is no row after the first line"
                          : "there is no tile in any row");
    return true;
}

/* ---- refusal 10 ---- */

/* How many of these letters there are; the first line has none of them. */
static size_t count_of(const uint8_t *text, size_t len, const char *which)
{
    size_t count = 0;

    for (size_t i = 0; i < len; i++)
        count += memchr(which, text[i], strlen(which)) != NULL;
    return count;
}

static bool says_second_player(FILE *out, const uint8_t *text, size_t len)
{
    struct line l = {.number = 0};
    size_t players = 0;

    while (next_line(text, len, &l))
        for (size_t i = 0; i < l.len; i++) {
            players += l.at[i] == '@' || l.at[i] == '+';
            if (players == 2) {
                print_place(out, &l, i);
                fputs("a second player; a level has one\n", out);
                return true;
            }
        }
    return false;
}

static bool says_no_level(FILE *out, const uint8_t *text, size_t len)
{
    const size_t players = count_of(text, len, "@+");
    const size_t crates = count_of(text, len, "$*");
    const size_t goals = count_of(text, len, ".*+");

    if (players > 1)
        return says_second_player(out, text, len);
    if (players == 0)
        fputs("there is no player; a level has one, @ or on a goal +\n", out);
    else if (crates == 0)
        fputs("there is no crate; a level has at least one off its goal, $\n",
              out);
    else if (crates != goals)
        fprintf(out, "crates ($ *) %zu, goals (. * +) %zu; a level has as many "
                     "of both\n", crates, goals);
    else if (count_of(text, len, "$") == 0)
        fputs("every crate is on a goal (*); a level has at least one off its "
              "goal, $\n", out);
    else
        return false;
    return true;
}

void print_slip(FILE *out, const uint8_t *text, size_t len, unsigned code)
{
    const bool said =
        code == ZAV_BAD_TEXT ? says_bad_text(out, text, len) :
        code == ZAV_BAD_ROWS ? says_bad_rows(out, text, len) :
        code == ZAV_NOT_PLAYABLE ? says_no_level(out, text, len) : false;

    if (!said)
        fprintf(out, "refused %u: %s\n", code, zav_refusal_text(code));
}
