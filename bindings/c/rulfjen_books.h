/* Rulfjen's converters for C: the functions of target/staticlib/libembed_books.a, which `tools/libraries` proves
 * and builds. What rulfjen.h says of lists, threads and memory holds here too.
 *
 * Version 1 of a book has up to 64 predicates, and its count of predicates and predicate numbers are single bytes. Version 2
 * has up to 1,024, and these numbers take two bytes. A book and its conversion have the same answer, lists and stage, and
 * to convert it back gives the same bytes.
 */
#ifndef RULFJEN_BOOKS_H
#define RULFJEN_BOOKS_H

#include "rulfjen.h"

#ifdef __cplusplus
extern "C" {
#endif

/* Both return 0, or the number of a refusal, after which `out` is as it was: 1 for an output under RULFJEN_BOOK bytes, then
 * a book's 2 to 10 in their order. Behind the bytes that are written `out` stays as it was. `value` has one place: the
 * count of bytes, or the refusal's place. */

/* From version 1 to version 2; any other version is refusal 3. */
size_t rulfjen_upgrade(const uint8_t *book, size_t book_length, uint8_t *out, size_t out_length, size_t *value);

/* From version 2 to version 1; any other version is refusal 3, and more than 64 predicates are refusal 4. */
size_t rulfjen_downgrade(const uint8_t *book, size_t book_length, uint8_t *out, size_t out_length, size_t *value);

#ifdef __cplusplus
}
#endif

#endif
