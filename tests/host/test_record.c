/* test_record.c - the record readers against the second implementation. */
#include "test_record.h"

#include <stdio.h>
#include <string.h>

#include "boards.h"
#include "draw.h"
#include "harness.h"
#include "test_reader.h"
#include "worked.h"
#include "zavullimen_records.h"

struct ref_result check_record(const uint8_t *record, size_t len,
                               size_t tiles_len)
{
    static const struct bytes_reader entry = {zav_record_read,
                                              ref_record_read};

    return check_bytes(&entry, record, len, tiles_len);
}

static struct ref_result check_data(size_t lanes, const uint8_t *data,
                                    size_t len)
{
    (void)lanes;
    return check_record(data, len, draw_below(2) ? REF_TILES_MAX : TILES_ROOM);
}

static uint64_t read_written(size_t lanes, const uint8_t *written, size_t len,
                             uint8_t *tiles)
{
    (void)lanes;
    return zav_record_read(written, len, tiles, REF_TILES_MAX);
}

static const struct reader reader = {
    "record reader", 0, 2, &writers[RECORD_WRITER], check_data, read_written};

/* ---- version 1 only ---- */

struct ref_result check_record_v1(const uint8_t *record, size_t len,
                                  size_t tiles_len)
{
    static const struct bytes_reader entry = {zav_record_read_v1,
                                              ref_record_read_v1};

    return check_bytes(&entry, record, len, tiles_len);
}

static struct ref_result check_data_v1(size_t lanes, const uint8_t *data,
                                       size_t len)
{
    (void)lanes;
    return check_record_v1(data, len,
                           draw_below(2) ? REF_TILES_MAX : TILES_ROOM);
}

static uint64_t read_written_v1(size_t lanes, const uint8_t *written,
                                size_t len, uint8_t *tiles)
{
    (void)lanes;
    return zav_record_read_v1(written, len, tiles, REF_TILES_MAX);
}

static const struct reader reader_v1 = {
    "record reader, version 1", 0, 1, &writers[RECORD_WRITER], check_data_v1,
    read_written_v1};

/* ---- lengths and buffers, of both ---- */

/* Random bytes, and the front of a level before them or before zeros. */
static void test_lengths(void)
{
    uint8_t record[RECORD_ROOM];
    struct board b;

    group_begin(reader.name, "lengths of every kind, right and wrong");
    for (size_t len = 0; len <= RECORD_ROOM; len++)
        for (size_t k = 0; k < scaled(5); k++) {
            draw_bytes(record, sizeof record);
            check_data(0, record, len);
            check_data_v1(0, record, len);
            draw_any_level(&b);
            record_of(&b, record);
            check_data(0, record, len);
            check_data_v1(0, record, len);
            memset(record + 3, 0, sizeof record - 3);
            check_data(0, record, len);
            check_data_v1(0, record, len);
        }
    group_end();
}

static void test_tile_buffers(void)
{
    uint8_t record[RECORD_ROOM];
    struct board b;

    group_begin(reader.name, "tile buffers of every length");
    for (size_t room = 0; room <= TILES_ROOM; room++) {
        draw_any_level(&b);
        check_record(record, record_of(&b, record), room);
        check_record_v1(record, record_of(&b, record), room);
    }
    group_end();
}

/* A bad length, a short tile buffer and a bad record, in all mixtures. */
static void test_order(void)
{
    static const size_t lens[] = {0, 3, 4, 5, 363, 364, 365};
    static const size_t rooms[] = {0, REF_TILES_MAX - 1, REF_TILES_MAX,
                                   TILES_ROOM};
    uint8_t record[RECORD_ROOM];

    group_begin(reader.name, "several refusals at once");
    for (size_t a = 0; a < COUNT(lens); a++)
        for (size_t b = 0; b < COUNT(rooms); b++)
            for (size_t k = 0; k < scaled(20); k++) {
                draw_bytes(record, sizeof record);
                if (draw_below(2))
                    record[0] = (uint8_t)(draw_between(1, 2) << 4 |
                                          (record[0] & 0xF));
                check_record(record, lens[a], rooms[b]);
                check_record_v1(record, lens[a], rooms[b]);
            }
    group_end();
}

static void check_null(const uint8_t *record, size_t len, uint8_t *tiles,
                       size_t tiles_len)
{
    group_case();
    check_number(zav_record_read(record, len, tiles, tiles_len),
                 packed(ref_record_read(record, len, tiles, tiles_len)),
                 "NULL");
    check_number(zav_record_read_v1(record, len, tiles, tiles_len),
                 packed(ref_record_read_v1(record, len, tiles, tiles_len)),
                 "NULL, version 1");
}

static void test_nulls(void)
{
    const uint8_t *record = worked_level.record;
    uint8_t tiles[REF_TILES_MAX];

    group_begin(reader.name, "NULL with length 0");
    check_null(NULL, 0, NULL, 0);
    check_null(NULL, 0, tiles, sizeof tiles);
    check_null(record, worked_level.record_len, NULL, 0);
    group_end();
}

void test_record(void)
{
    test_reader(&reader);
    test_reader(&reader_v1);
    test_lengths();
    test_tile_buffers();
    test_order();
    test_nulls();
}
