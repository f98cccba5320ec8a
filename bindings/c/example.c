/* Checks River of document 01 and a pedigree of three generations, and prints the answers, River's facts, and the same as
 * text. */
#include "rulfjen.h"

#include <stdio.h>

static const uint8_t river[] = {
    0x00, 0x00, 0x00, 0x21, 0x01, 0x03, 0x01, 0x02, 0x01, 0x03, 0x01, 0x00, 0x00, 0x01, 0x01, 0x01, 0x00, 0x01, 0x01,
    0x01, 0x00, 0x01, 0x02, 0x01, 0x02, 0x01, 0x01, 0x00, 0x01, 0x01, 0x01, 0x00, 0x01, 0x01, 0x01, 0x02, 0x01,
};

/* A(x) -> exists y. B(x,y); B(x,y), C(x) -> A(y); B(x,y), B(y,z), C(x) -> A(z) */
static const uint8_t pedigree[] = {
    0x00, 0x00, 0x00, 0x25, 0x01, 0x03, 0x01, 0x02, 0x01, 0x03, 0x01, 0x00, 0x00, 0x01,
    0x01, 0x01, 0x00, 0x01, 0x02, 0x01, 0x00, 0x01, 0x02, 0x00, 0x01, 0x01, 0x00, 0x01,
    0x03, 0x01, 0x00, 0x01, 0x01, 0x01, 0x02, 0x02, 0x00, 0x01, 0x01, 0x00, 0x02,
};

static uint16_t terms[RULFJEN_TERMS];
static uint16_t facts[RULFJEN_FACTS];
static uint16_t form[RULFJEN_FORM];
static uint8_t book[RULFJEN_BOOK];
static uint8_t text[RULFJEN_TEXT];

int main(void) {
    size_t answer[3];
    size_t value;
    switch (rulfjen_check(river, sizeof river, RULFJEN_DEPTH, terms, RULFJEN_TERMS, facts, RULFJEN_FACTS, answer)) {
    case RULFJEN_ACCEPTED:
        printf("River is accepted at stage %zu with %zu facts over %zu terms\n", answer[0], answer[1], answer[2]);
        break;
    case RULFJEN_CYCLIC:
        printf("River is cyclic at stage %zu\n", answer[0]);
        return 1;
    default:
        printf("River is refused: %zu at %zu\n", answer[0], answer[1]);
        return 1;
    }
    for (size_t k = 0; k < answer[1]; k++) {
        printf("predicate %u of term %u\n", facts[k * 5], facts[k * 5 + 1]);
    }
    for (size_t depth = RULFJEN_DEPTH; depth <= RULFJEN_DEEPEST; depth++) {
        size_t kind = rulfjen_check(pedigree, sizeof pedigree, depth, terms, RULFJEN_TERMS, facts, RULFJEN_FACTS, answer);
        printf("three generations at depth %zu: %s\n", depth, kind == RULFJEN_ACCEPTED ? "accepted" : "cyclic");
    }
    if (rulfjen_read(river, sizeof river, form, RULFJEN_FORM, &value) != 0) {
        return 1;
    }
    printf("%u predicates, %u rules, read from %zu bytes\n", form[0], form[1], value);
    if (rulfjen_write(form, RULFJEN_FORM, book, RULFJEN_BOOK, &value) != 0) {
        return 1;
    }
    printf("written as %zu bytes\n", value);
    form[0] = 65;
    printf("with 65 predicates: refusal %zu", rulfjen_write(form, RULFJEN_FORM, book, RULFJEN_BOOK, &value));
    printf(" at %zu\n", value);
    if (rulfjen_print(river, sizeof river, RULFJEN_DEPTH, text, RULFJEN_TEXT, &value) != 0) {
        return 1;
    }
    return fwrite(text, 1, value, stdout) != value;
}
