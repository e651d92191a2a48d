/* boards.c - random levels and finished boards, the same in every run. */
#include "boards.h"

#include <string.h>

#include "draw.h"

enum { FLOOR, WALL, CRATE, GOAL, CRATE_ON_GOAL, PLAYER, PLAYER_ON_GOAL, PIT };

static size_t newest = REF_NEWEST;

void draw_versions(size_t most)
{
    newest = most;
}

/* ---- tiles added one after the other ---- */

static void begin(struct board *b, size_t width, size_t height)
{
    b->version = draw_between(1, newest);
    b->width = width;
    b->height = height;
    b->par = draw_below(REF_PAR_MAX + 1);
    b->tiles_len = 0;
}

/* How many tiles the board still lacks. */
static size_t room(const struct board *b)
{
    return b->width * b->height - b->tiles_len;
}

static void add(struct board *b, uint8_t tile, size_t times)
{
    memset(b->tiles + b->tiles_len, tile, times);
    b->tiles_len += times;
}

/* One of these, if there is room. */
static void add_one(struct board *b, uint8_t tile)
{
    add(b, tile, room(b) > 0 ? 1 : 0);
}

/* Up to so many; in one case of four none, however many they could be. */
static size_t draw_some(size_t most)
{
    return draw_below(4) == 0 ? 0 : draw_below(most + 1);
}

/* What every level has: a player, a crate off its goal, and a goal for it,
   which is the player's or another. Where there is no room for them, the player
   alone. In version 2 the crate may do without a goal. */
static void add_unfinished(struct board *b)
{
    if (b->version == 2 && draw_below(3) == 0) {
        add_one(b, PLAYER);
        add_one(b, CRATE);
        return;
    }

    const bool shared = room(b) == 2 || (room(b) > 2 && draw_below(2));

    add_one(b, shared ? PLAYER_ON_GOAL : PLAYER);
    add_one(b, CRATE);
    if (!shared)
        add_one(b, GOAL);
}

static void swap(struct board *b, size_t i, size_t j)
{
    const uint8_t tile = b->tiles[i];

    b->tiles[i] = b->tiles[j];
    b->tiles[j] = tile;
}

static void shuffle(struct board *b)
{
    for (size_t left = b->tiles_len; left > 1; left--)
        swap(b, draw_below(left), left - 1);
}

/* In version 2 pits. Crates on goals, floor and walls for the rest; and all in
   random order. */
static void fill_up(struct board *b)
{
    if (b->version == 2)
        add(b, PIT, draw_some(room(b)));
    add(b, CRATE_ON_GOAL, draw_some(room(b)));
    while (room(b) > 0)
        add(b, draw_below(2) ? WALL : FLOOR, 1);
    shuffle(b);
}

/* ---- boards of a size ---- */

void draw_level(struct board *b, size_t width, size_t height)
{
    begin(b, width, height);
    add_unfinished(b);

    const size_t pairs = draw_some(room(b) / 2);

    add(b, CRATE, pairs);
    add(b, GOAL, pairs);
    if (b->version == 2)
        add(b, CRATE, draw_some(room(b)));
    fill_up(b);
}

void draw_finished(struct board *b, size_t width, size_t height)
{
    begin(b, width, height);
    add_one(b, PLAYER);
    add_one(b, CRATE_ON_GOAL);
    fill_up(b);
}

/* Some tile with one of two codes; there must be one. */
static size_t draw_place(const struct board *b, uint8_t code, uint8_t other)
{
    size_t place = 0, found = 0;

    for (size_t i = 0; i < b->tiles_len; i++)
        if ((b->tiles[i] == code || b->tiles[i] == other) &&
            draw_below(++found) == 0)
            place = i;
    return place;
}

void draw_last_crate(struct board *b, size_t width, size_t height, size_t place)
{
    begin(b, width, height);
    add_unfinished(b);
    fill_up(b);
    swap(b, place, draw_place(b, CRATE, CRATE));
}

/* ---- boards of any size ---- */

static void draw_any(struct board *b,
                     void (*draw)(struct board *b, size_t width, size_t height))
{
    const size_t width = draw_between(1, REF_SIDE_MAX);

    draw(b, width, draw_between(width == 1 ? 2 : 1, REF_SIDE_MAX));
}

void draw_any_level(struct board *b)
{
    draw_any(b, draw_level);
}

void draw_any_finished(struct board *b)
{
    draw_any(b, draw_finished);
}

void draw_any_board(struct board *b)
{
    draw_any(b, draw_below(8) == 0 ? draw_finished : draw_level);
}

static bool fills(size_t tiles, size_t len, size_t unit)
{
    const size_t record_len = ref_record_len(tiles);

    return record_len <= len && len < record_len + unit;
}

bool draw_level_for(struct board *b, size_t len, size_t unit)
{
    size_t width = 0, height = 0, found = 0;

    for (size_t w = 1; w <= REF_SIDE_MAX; w++)
        for (size_t h = 1; h <= REF_SIDE_MAX; h++)
            if (w * h >= 2 && fills(w * h, len, unit) &&
                draw_below(++found) == 0) {
                width = w;
                height = h;
            }
    if (found > 0)
        draw_level(b, width, height);
    return found > 0;
}

/* ---- a board changed, and laid out ---- */

static bool has(const struct board *b, uint8_t code)
{
    return memchr(b->tiles, code, b->tiles_len) != NULL;
}

static void put_on_goal(struct board *b, size_t crate)
{
    const size_t goal = draw_place(b, GOAL, PLAYER_ON_GOAL);
    const uint8_t rest = b->tiles[goal] == GOAL ? FLOOR : PLAYER;

    b->tiles[crate] = rest;
    b->tiles[goal] = CRATE_ON_GOAL;
    if (draw_below(2))
        swap(b, crate, goal);
}

bool settle_crate(struct board *b)
{
    const size_t crate = draw_place(b, CRATE, CRATE);

    if (has(b, GOAL) || has(b, PLAYER_ON_GOAL))
        put_on_goal(b, crate);
    else
        b->tiles[crate] = FLOOR;
    return has(b, CRATE);
}

size_t record_of(const struct board *b, uint8_t record[REF_RECORD_MAX])
{
    return ref_lay_record(b->version, b->width, b->height, b->par, b->tiles,
                          b->tiles_len, record);
}
