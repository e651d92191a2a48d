/*
 * test_versions.h - levels of two versions: what each allows, and the readers
 * for version 1.
 */
#ifndef TEST_VERSIONS_H
#define TEST_VERSIONS_H

void test_versions(void);

#endif
