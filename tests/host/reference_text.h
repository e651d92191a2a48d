/*
 * reference_text.h - a second implementation of texts, for the tests.
 */
#ifndef REFERENCE_TEXT_H
#define REFERENCE_TEXT_H

#include "reference_record.h"

/* Bytes in a text that is written, and the most in a buffer for one. */
enum { REF_TEXT_MIN = 9, REF_TEXT_MAX = 1001 };

struct ref_result ref_text_write(size_t version, size_t width, size_t height,
                                 size_t par, const uint8_t *tiles,
                                 size_t tiles_len, uint8_t *text,
                                 size_t text_len);
struct ref_result ref_text_read(const uint8_t *text, size_t text_len,
                                uint8_t *tiles, size_t tiles_len);

#endif
