/*
 * zavullimen.h - the whole library: strips, records, texts, words and lanes,
 * and all boards of a tiny size.
 *
 * Games need zav_strip_write and zav_strip_read, and zav_strip_pool if they have
 * two pictures of one strip. C-INTERFACE.md has all functions, the buffers and
 * the packed results, FORMAT.md what each function does and which refusals it
 * gives. They are in docs/, and installed under share/doc/zavullimen.
 */
#ifndef ZAVULLIMEN_H
#define ZAVULLIMEN_H

#include "zavullimen_words.h"
#include "zavullimen_records.h"
#include "zavullimen_strips.h"
#include "zavullimen_pools.h"
#include "zavullimen_texts.h"
#include "zavullimen_tiny.h"

/*
 * The version of this header and of the library that was installed with it.
 *
 * MAJOR is raised when a caller has to change: a function, a field's place or
 * a refusal's number is no longer what it was. It is the number in the name of
 * the shared library. MINOR is raised when something is added (a function, a
 * field in bits that were zero, a refusal) and callers can stay as they are.
 * PATCH is raised when neither is: words, speed, the build.
 */
#define ZAV_VERSION_MAJOR 1
#define ZAV_VERSION_MINOR 0
#define ZAV_VERSION_PATCH 0
#define ZAV_VERSION_STRING "1.0.0"

#endif
