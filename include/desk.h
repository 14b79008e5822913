/* The margin desk's call, for C and C++. Link libdesk.a: `tools/native` writes target/native/libdesk.a for x86-64 Linux.
 *
 * Nothing is to be checked first: any book and buffers of any length are answered. The book, the two buffers and the five
 * numbers must not overlap; a pointer of length 0 is not read. Rows of 24 * 201 entries and a choice of 24 + 64 are enough for
 * every book.
 *
 * Answers: code 0 and place 0 with the three totals in whole oere, or a refusal's code and place with zero totals and both
 * buffers as they were. On acceptance rows has one row of points entries a class, choice one point a class and then one an
 * instrument; entries past these are as they were. */
#ifndef DESK_H
#define DESK_H

#include <stddef.h>
#include <stdint.h>

#ifdef __cplusplus
extern "C" {
#endif

void desk_run(const uint8_t *book, size_t book_len,
              int64_t *rows, size_t rows_len,
              uint16_t *choice, size_t choice_len,
              uint64_t *code, uint64_t *place,
              int64_t *mark, int64_t *naked, int64_t *cross);

#ifdef __cplusplus
}
#endif

#endif
