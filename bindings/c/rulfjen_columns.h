/* Rulfjen's stores for C: the functions of target/staticlib/libembed_columns.a, which `tools/libraries` proves
 * and builds. What rulfjen.h says of lists, threads and memory holds here too; these functions have no tables of their
 * own on the stack.
 */
#ifndef RULFJEN_COLUMNS_H
#define RULFJEN_COLUMNS_H

#include "rulfjen.h"

#ifdef __cplusplus
extern "C" {
#endif

#define RULFJEN_STORE 30729 /* the largest store in bytes; an output must be so long */

/* Both return 0, or the number of a refusal, after which the lists are as they were: 1 for a list too short, 26 for
 * counts over 512 terms or 2,048 facts and for bytes that are no store. */

/* Lays the records of t terms and f facts down by columns. `value` has one place: the count of bytes, or the refusal's
 * place. */
size_t rulfjen_pack(size_t t, size_t f, const uint16_t *terms, size_t terms_length, const uint16_t *facts,
                    size_t facts_length, uint8_t *store, size_t store_length, size_t *value);

/* Fills the front parts of the lists with the records of a store, zeros after. `counts` has two places: the terms and the
 * facts, or the refusal's place and 0. */
size_t rulfjen_unpack(const uint8_t *store, size_t store_length, uint16_t *terms, size_t terms_length, uint16_t *facts,
                      size_t facts_length, size_t *counts);

#ifdef __cplusplus
}
#endif

#endif
