/* test_lanes.h - what depends on the lane count, for every lane count. */
#ifndef TEST_LANES_H
#define TEST_LANES_H

void test_lanes(void);

#endif
