/* test_text.h - the text reader against the second implementation. */
#ifndef TEST_TEXT_H
#define TEST_TEXT_H

#include "reference_text.h"

/* Read a text and compare with the second implementation, buffers included.
   Returns what that one says. */
struct ref_result check_text(const uint8_t *text, size_t len,
                             size_t tiles_len);

void test_text(void);
void test_text_picked(void);

#endif
