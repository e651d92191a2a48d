/* test_stickers.h - what a sticker over neighbouring cells may cover. */
#ifndef TEST_STICKERS_H
#define TEST_STICKERS_H

void test_stickers(void);

#endif
