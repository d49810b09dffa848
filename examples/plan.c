/*
 * Plans a bench of two channels and two relays under one rule, prints the most rounds that
 * shrinking can take, the reply and the relay of each channel, and asks the set functions which
 * relays the plan uses.
 */
#include <inttypes.h>
#include <stdio.h>

#include "oarloom.h"

/* The rules of case e: channels 1 and 2 use exactly the relays 1 and 2. */
static const uint8_t rules[] = {
    0x01, 0x00, 0x02, 2, 2,                         /* the header: 2 channels, 2 relays */
    0x03, 0x00, 0x06, 0x00, 0x00, 0x00, 0x03, 1, 2, /* an equality: the set, then the channels */
};

int main(void) {
    uint8_t answer[OARLOOM_ANSWER_LEAST] = {0};
    uint64_t number = 0, place = 0, splits = 0, dead_ends = 0, rounds = 0;

    printf("shrinking takes at most %" PRIu64 " rounds\n", oarloom_rounds_most(rules, sizeof rules));
    oarloom_plan(rules, sizeof rules, answer, sizeof answer, 100000,
                 &number, &place, &splits, &dead_ends, &rounds);
    printf("reply %" PRIu64 " at place %" PRIu64 ": %" PRIu64 " splits, %" PRIu64 " dead ends, %" PRIu64
           " rounds\n",
           number, place, splits, dead_ends, rounds);
    if (number != OARLOOM_PLAN) {
        return 1;
    }

    uint32_t used = 0;
    for (int i = 0; i < rules[3]; i++) {
        printf("channel %d takes relay %d\n", i + 1, answer[i]);
        used = oarloom_union(used, oarloom_single(answer[i]));
    }
    printf("%" PRIu32 " relays are used, mask %" PRIx32 "; none is left: %s\n",
           oarloom_count(used), used,
           oarloom_complement(used, rules[4]) == 0 ? "yes" : "no");
    return 0;
}
