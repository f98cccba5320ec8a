/* Checks River of document 01, lays its records down by columns, and takes them up again. */
#include "rulfjen_columns.h"

#include <stdio.h>
#include <string.h>

static const uint8_t river[] = {
    0x00, 0x00, 0x00, 0x21, 0x01, 0x03, 0x01, 0x02, 0x01, 0x03, 0x01, 0x00, 0x00, 0x01, 0x01, 0x01, 0x00, 0x01, 0x01,
    0x01, 0x00, 0x01, 0x02, 0x01, 0x02, 0x01, 0x01, 0x00, 0x01, 0x01, 0x01, 0x00, 0x01, 0x01, 0x01, 0x02, 0x01,
};

static uint16_t terms[RULFJEN_TERMS], terms_again[RULFJEN_TERMS];
static uint16_t facts[RULFJEN_FACTS], facts_again[RULFJEN_FACTS];
static uint8_t store[RULFJEN_STORE];

int main(void) {
    size_t answer[3];
    size_t length;
    size_t counts[2];
    if (rulfjen_check(river, sizeof river, RULFJEN_DEPTH, terms, RULFJEN_TERMS, facts, RULFJEN_FACTS, answer) != RULFJEN_ACCEPTED) {
        return 1;
    }
    if (rulfjen_pack(answer[2], answer[1], terms, RULFJEN_TERMS, facts, RULFJEN_FACTS, store, RULFJEN_STORE, &length) !=
        0) {
        return 1;
    }
    printf("River: %zu terms and %zu facts in %zu bytes\n", answer[2], answer[1], length);
    if (rulfjen_unpack(store, length, terms_again, RULFJEN_TERMS, facts_again, RULFJEN_FACTS, counts) != 0) {
        return 1;
    }
    printf("unpacked: %zu terms and %zu facts\n", counts[0], counts[1]);
    printf("a byte less: refusal %zu\n",
           rulfjen_unpack(store, length - 1, terms_again, RULFJEN_TERMS, facts_again, RULFJEN_FACTS, counts));
    return memcmp(terms, terms_again, sizeof terms) != 0 || memcmp(facts, facts_again, sizeof facts) != 0;
}
