/* Converts River of document 01 to version 2, checks it in both, and converts it back. */
#include "rulfjen_books.h"

#include <stdio.h>
#include <string.h>

static const uint8_t river[] = {
    0x00, 0x00, 0x00, 0x21, 0x01, 0x03, 0x01, 0x02, 0x01, 0x03, 0x01, 0x00, 0x00, 0x01, 0x01, 0x01, 0x00, 0x01, 0x01,
    0x01, 0x00, 0x01, 0x02, 0x01, 0x02, 0x01, 0x01, 0x00, 0x01, 0x01, 0x01, 0x00, 0x01, 0x01, 0x01, 0x02, 0x01,
};

static uint16_t terms[RULFJEN_TERMS], terms_wide[RULFJEN_TERMS];
static uint16_t facts[RULFJEN_FACTS], facts_wide[RULFJEN_FACTS];
static uint8_t wide[RULFJEN_BOOK], back[RULFJEN_BOOK];

int main(void) {
    size_t answer[3], answer_wide[3];
    size_t length, length_back, place;
    if (rulfjen_upgrade(river, sizeof river, wide, RULFJEN_BOOK, &length) != 0) {
        return 1;
    }
    printf("River: %zu bytes in version %u, %zu in version %u\n", sizeof river, river[4], length, wide[4]);
    size_t kind = rulfjen_check(river, sizeof river, RULFJEN_DEPTH, terms, RULFJEN_TERMS, facts, RULFJEN_FACTS, answer);
    size_t kind_wide =
        rulfjen_check(wide, length, RULFJEN_DEPTH, terms_wide, RULFJEN_TERMS, facts_wide, RULFJEN_FACTS, answer_wide);
    if (kind != RULFJEN_ACCEPTED || kind_wide != kind || memcmp(answer, answer_wide, sizeof answer) != 0 ||
        memcmp(terms, terms_wide, sizeof terms) != 0 || memcmp(facts, facts_wide, sizeof facts) != 0) {
        return 1;
    }
    printf("both are accepted at stage %zu with %zu facts over %zu terms\n", answer[0], answer[1], answer[2]);
    if (rulfjen_downgrade(wide, length, back, RULFJEN_BOOK, &length_back) != 0) {
        return 1;
    }
    if (length_back != sizeof river || memcmp(river, back, sizeof river) != 0) {
        return 1;
    }
    printf("converted back: the same %zu bytes\n", length_back);
    printf("once more: refusal %zu", rulfjen_downgrade(back, length_back, wide, RULFJEN_BOOK, &place));
    printf(" at %zu\n", place);
    return 0;
}
