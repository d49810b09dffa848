/* The yardstick: a planner in plain C, written from documents 01 and 02 alone,
   to compare the proved planner with, in what it answers and in how long it takes. Nothing of it is proved. */
#ifndef YARDSTICK_H
#define YARDSTICK_H

#include <stddef.h>
#include <stdint.h>

/* Plans a file of rules, as oarloom_plan does: reads input_len bytes, writes a plan to the first
   bytes of the answer buffer (only where the reply is PLAN), and always writes the five numbers of
   the reply. The parsed rules are kept in arrays of the program, so only one call runs at a time. */
void yardstick_plan(const uint8_t *input, size_t input_len, uint8_t *answer, size_t answer_len,
                    uint64_t allowance, uint64_t *number, uint64_t *place, uint64_t *splits,
                    uint64_t *dead_ends, uint64_t *rounds);

/* The most rounds of a file, as oarloom_rounds_most has them: the sum over positions of starting size less one,
   plus one, and 0 where the file is refused. Parses the file into the same arrays. */
uint64_t yardstick_rounds_most(const uint8_t *input, size_t input_len);

#ifdef YARDSTICK_COUNTS
/* Only in the agreement test, to show what its files reach, over all calls: */
extern struct yardstick_counts {
    /* splits at a position whose smallest values were cut away in that same box */
    uint64_t splits_after_cut;
    /* boxes that shrinking found dead only after it had cut a room of them */
    uint64_t dead_after_cut;
    /* first boxes that shrinking found dead, each a NONE with a place; of these, in a later round than the
       first; at an equality; and at an "at most k" */
    uint64_t places, places_later, places_equality, places_at_most;
    /* boxes found dead at an "at most k", first or not; of these, such where a room inside its set had two or
       more values */
    uint64_t at_most_dead, at_most_dead_wide;
    /* looks at an "at most k" that cut a room; of these, such that cut several; and such where a room inside its
       set had two or more values */
    uint64_t at_most_cut, at_most_cut_several, at_most_cut_wide;
    /* splits at a position that lies inside the set of an "at most k" not settled; and splits where a lower
       position was live in one, but had one value only */
    uint64_t splits_inside, live_alone;
    /* the largest number of rounds that shrinking one box took */
    uint64_t most_rounds;
    /* calls where some later box took more rounds than the first; and where the last box took another
       number of them */
    uint64_t later_took_more, last_took_others;
    /* all splits; those that passed over a lower position of two or more values; and of these, such
       where a position that was passed over ... */
    uint64_t splits, passed_over;
    /* ... is named by no rule */
    uint64_t passed_unnamed;
    /* ... is live, and all rules that name it are settled */
    uint64_t passed_live;
    /* ... is named in a rule that is not settled, but is not live in it */
    uint64_t passed_named;
    /* ... is live in an equality that is not settled, but only in clauses of it that are */
    uint64_t passed_equality;
} yardstick_counts;
#endif

#endif
