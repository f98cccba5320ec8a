/* Rulfjen for C: the functions of target/staticlib/libembed.a, which `tools/libraries` proves and builds.
 *
 * Only numbers and lists cross. A list is a pointer and the count of its elements, and must be that long; the pointer is
 * not null, even where the count is 0. Lists of one call do not overlap. Everything else is tested by the library,
 * which then refuses: each function takes any bytes and any numbers.
 *
 * All functions may be called from several threads at once. They keep nothing between calls and use no heap; their
 * tables lie on the stack, of which a calling thread leaves them 1 MB.
 */
#ifndef RULFJEN_H
#define RULFJEN_H

#include <stddef.h>
#include <stdint.h>

#ifdef __cplusplus
extern "C" {
#endif

/* How long the lists must be; what lies beyond is left alone. */
#define RULFJEN_TERMS 5130  /* 513 records of ten: Skolem function, arity, eight term numbers */
#define RULFJEN_FACTS 10240 /* 2,048 records of five: predicate, four term numbers */
#define RULFJEN_FORM 7812   /* docs/DECISIONS.md, "The form" */
#define RULFJEN_BOOK 9096   /* the longest rule set in bytes, of any version */
#define RULFJEN_TEXT 76863  /* the longest text of an answer */

/* How often one way down a term may meet one Skolem function: 1, 2 or 3; once more, and the term is cyclic. Each function
 * that takes a depth refuses any other number with 18, before it looks at the rule set. */
#define RULFJEN_DEPTH 1   /* the program's */
#define RULFJEN_DEEPEST 3

/* What rulfjen_check returns, and what it leaves in answer[0], [1], [2]. */
#define RULFJEN_ACCEPTED 0 /* stage, count of facts, count of terms */
#define RULFJEN_CYCLIC 1   /* the same; the cyclic term is the record behind the terms */
#define RULFJEN_REFUSED 2  /* the refusal's number, its place, 0 */

/* Checks a rule set at a depth and leaves the last stage in the lists. Refusals 1 to 10 and 18 leave both lists as they
 * were; 11 to 14 leave zeros. A rule set that is accepted at one depth has the same answer and lists at each greater one.
 * `answer` has three places. */
size_t rulfjen_check(const uint8_t *book, size_t book_length, size_t depth, uint16_t *terms, size_t terms_length,
                     uint16_t *facts, size_t facts_length, size_t *answer);

/* The others return 0, or the number of a refusal, after which the list is as it was. `value` has one place: the count
 * that was read or written, or the refusal's place. */

/* Reads a rule set of any version into a form. */
size_t rulfjen_read(const uint8_t *book, size_t book_length, uint16_t *form, size_t form_length, size_t *value);

/* Writes the bytes of a form's rule set, in the version that the form states (its place 7,810). */
size_t rulfjen_write(const uint16_t *form, size_t form_length, uint8_t *book, size_t book_length, size_t *value);

/* Writes the text of the check's answer at a depth, without a 0 behind it. A text list shorter than RULFJEN_TEXT is
 * refusal 1, and a number that is no depth 18; a rule set that the check refuses is no refusal here, but a text that
 * says so. */
size_t rulfjen_print(const uint8_t *book, size_t book_length, size_t depth, uint8_t *text, size_t text_length, size_t *value);

#ifdef __cplusplus
}
#endif

#endif
