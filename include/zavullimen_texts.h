/*
 * zavullimen_texts.h - levels as text that people type, as a C host calls them.
 *
 * A text is lines, each ended by a line feed. The first is "par", one space
 * and the par; each further line is a row of tiles: - or space floor, # wall,
 * $ crate, . goal, * crate on goal, @ player, + player on goal. Rows that are
 * shorter than the longest are filled up with floor. Texts are for levels of
 * version 1: there is no letter for a pit.
 *
 * Buffers, packed results and refusals are those of zavullimen_words.h, levels
 * and what a reader returns those of zavullimen_records.h.
 */
#ifndef ZAVULLIMEN_TEXTS_H
#define ZAVULLIMEN_TEXTS_H

#include "zavullimen_records.h"

#ifdef __cplusplus
extern "C" {
#endif

#define ZAV_TEXT_MIN 9    /* bytes in a text that is written */
#define ZAV_TEXT_MAX 1001 /* and in a buffer for one */

/*
 * Write the level's text to the front of the buffer, and return the length
 * written; what is past it keeps its value. Its rows have the full width, with
 * - for floor, and no zero byte ends it. The version is ZAV_LEVEL_V1; a level
 * of version 2, or any other number, is refused with ZAV_OUT_OF_RANGE.
 * tiles_len must be width times height, and text_len at least ZAV_TEXT_MAX.
 * Nothing is written when refused, and the tiles never are. Tiles and text must
 * not overlap.
 */
uint64_t zav_text_write(size_t version, size_t width, size_t height,
                        size_t par, const uint8_t *tiles, size_t tiles_len,
                        uint8_t *text, size_t text_len);

/*
 * Read a level from a text of any length: its tiles, one byte each, are put in
 * front of the tile buffer, and version, which is 1, width, height and par are
 * returned; tile bytes past the level keep their value. text_len is that of the
 * text itself, from its first byte to its last line feed. tiles_len must be at
 * least ZAV_TILES_MAX. Nothing is written when refused, and the text never is.
 * Text and tiles must not overlap.
 */
uint64_t zav_text_read(const uint8_t *text, size_t text_len,
                       uint8_t *tiles, size_t tiles_len);

#ifdef __cplusplus
}
#endif

#endif
