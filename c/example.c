/* A record on three cards, one of them flat: document 01's figures through the C functions, with a change that breaks off and is sent again. Prints each step;
 * exit status 1 if one is not as it should be. */
#include <stdio.h>
#include <string.h>

#include "jirvents.h"

static int failed = 0;

static void expect(const char *step, int holds) {
    printf("%-34s %s\n", step, holds ? "ok" : "WRONG");
    failed |= !holds;
}

static int are(const uint32_t serials[3], uint32_t first, uint32_t second, uint32_t third) {
    return serials[0] == first && serials[1] == second && serials[2] == third;
}

int main(void) {
    const size_t k = 1, r = 2, w = 2, n = 3, b = 1;
    /* The slack is a fixed one, for the figures: it hides nothing. */
    const uint8_t message[] = {0x07}, slack[] = {0x01}, change[] = {0x05};
    uint8_t card[3], read[1], added[2];
    uint32_t serials[3], answer;

    answer = jirvents_encode(k, r, w, n, b, message, 1, slack, 1, card, 3, serials, 3);
    expect("set-up gives 06 0A 0C", answer == 0 && !memcmp(card, "\x06\x0A\x0C", 3));
    expect("and serials 0 0 0", are(serials, 0, 0, 0));

    answer = jirvents_delta(k, r, w, n, b, change, 1, 3, added, 2);
    expect("difference is 06 06", answer == 0 && !memcmp(added, "\x06\x06", 2));
    answer = jirvents_update(k, r, w, n, b, card, 3, serials, 3, change, 1, 3, 1, 1);
    expect("change through 1, 2, which breaks:", answer == 0);
    expect("only node 1 has it, 00 0A 0C", !memcmp(card, "\x00\x0A\x0C", 3) && are(serials, 1, 0, 0));
    answer = jirvents_update(k, r, w, n, b, card, 3, serials, 3, change, 1, 3, 1, 3);
    expect("sent again to both: 00 0C 0C", answer == 0 && !memcmp(card, "\x00\x0C\x0C", 3) && are(serials, 1, 1, 0));
    answer = jirvents_update(k, r, w, n, b, card, 3, serials, 3, change, 1, 3, 0, 3);
    expect("there is no serial 0: 24", answer == JIRVENTS_BAD_SERIAL);
    answer = jirvents_decode(k, r, w, n, b, card, 3, 5, read, 1);
    expect("nodes 1, 3 read 02", answer == 0 && read[0] == 0x02);

    uint32_t set = 9;
    size_t tried = 9, distance = 9;
    answer = jirvents_check(k, r, w, n, b, card, 3, 1, &set, &tried, &distance);
    expect("all blocks agree", answer == 0 && set == 0 && tried == 1 && distance == 0);
    card[2] = 0xFF;
    answer = jirvents_check(k, r, w, n, b, card, 3, 1, &set, &tried, &distance);
    expect("after damage they do not", answer == 0 && set == 4 && tried == 1 && distance == 0);
    answer = jirvents_repair(k, r, w, n, b, card, 3, serials, 3, 3, 4);
    expect("node 3 is rebuilt from 1, 2", answer == 0 && card[2] == 0x0C && are(serials, 1, 1, 1));

    size_t start = 9;
    answer = jirvents_view(k, r, w, n, b, card, 3, 2, &start);
    expect("node 2's block begins at 1", answer == 0 && start == 1);
    answer = jirvents_view(k, r, w, n, b, card, 3, 4, &start);
    expect("there is no node 4: 10", answer == JIRVENTS_BAD_NODE && start == 1);

    const uint8_t both[] = {0x01, 0x01};
    uint8_t next[3];
    uint32_t next_serials[3];
    answer = jirvents_reconfigure(k, r, w, n, b, 2, 2, 3, 3, card, 3, serials, 3, 6, 7, both, 2, next, 3, next_serials, 3);
    expect("rearranged to (2,2,3,3): 00 06 06", answer == 0 && !memcmp(next, "\x00\x06\x06", 3) && are(next_serials, 1, 1, 1));

    /* (1,1,3,3) has two nodes to spare, and so one damaged node is told. */
    uint8_t alike[3];
    answer = jirvents_encode(1, 1, 3, 3, b, message, 1, slack, 0, alike, 3, serials, 3);
    expect("(1,1,3,3) has the record 07 0E 09", answer == 0 && !memcmp(alike, "\x07\x0E\x09", 3));
    alike[1] = 0xFF;
    answer = jirvents_check(1, 1, 3, 3, b, alike, 3, 10, &set, &tried, &distance);
    expect("node 2 is to blame, the third set", answer == 0 && set == 2 && tried == 3 && distance == 0);
    answer = jirvents_check(1, 1, 3, 3, b, alike, 3, 2, &set, &tried, &distance);
    expect("a budget of two leaves nodes 2, 3", answer == 0 && set == 6 && tried == 2 && distance == 1);
    answer = jirvents_check(1, 1, 3, 3, b, alike, 2, 10, &set, &tried, &distance);
    expect("a refusal tells nothing: 6", answer == JIRVENTS_BAD_LENGTH && set == 6 && tried == 2 && distance == 1);

    const uint8_t two[] = {0x02}, zeros_first[] = {0, 1, 0, 1}, equal[] = {1, 1, 1, 1};
    uint8_t inverse[4] = {0};
    size_t column = 0;
    answer = jirvents_invert(1, two, 1, inverse, 1, &column);
    expect("the inverse of 02 is 8E", answer == 0 && inverse[0] == 0x8E);
    answer = jirvents_invert(2, zeros_first, 4, inverse, 4, &column);
    expect("00 01 / 00 01 has none: column 1 is 00", answer == JIRVENTS_SINGULAR && column == 1);
    answer = jirvents_invert(2, equal, 4, inverse, 4, &column);
    expect("01 01 / 01 01 has none: column 2 is column 1", answer == JIRVENTS_SINGULAR && column == 2);
    return failed;
}
