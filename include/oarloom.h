/*
 * Oarloom for a controller's program: the patch planner and the set arithmetic of the front panel.
 *
 * Link with liblinked.a, which `rt lib`, said in crates/linked, writes to crates/linked/out/. The archive
 * is for Linux on x86-64-v2, which every such processor since about 2009 is, and of the C library it calls
 * memcpy alone.
 *
 * Every function is defined for all arguments that the rules below allow: a bad file, a buffer that
 * is too short or a value out of range is answered by a reply or by the empty set, as said at each
 * function. No function ends the program, waits, takes memory from the heap, reads or writes a
 * file, or keeps anything from one call to the next. So any number of threads may call at once,
 * each with memory of its own.
 *
 * What each function answers and writes is proved for every argument; what is promised stands in
 * crates/linked/specs/Linked.antt, crates/planner/specs/Most.antt and
 * crates/sets/specs/Promise.antt. The proof ends at this interface. The caller owes:
 *
 *   - A slice is a pointer and a length, the number of its elements: that many bytes are there.
 *   - No pointer is NULL, not even that of a slice of length 0.
 *   - Memory that a function may write overlaps no other memory of the same call: the buffer, the
 *     five cells and the input all lie apart. Nothing else writes to any of them until it returns.
 *   - A uint64_t cell is aligned as a uint64_t is, and may be read and written.
 *   - oarloom_plan has 2 MiB of stack. Most files need little; the deepest searches need 1.4 MiB,
 *     and the rest is to spare. A thread may have less: give it 2 MiB at its start.
 */
#ifndef OARLOOM_H
#define OARLOOM_H

#include <stdbool.h>
#include <stddef.h>
#include <stdint.h>

#ifdef __cplusplus
extern "C" {
#endif

/* ---- Planning ---- */

/* The most bytes that a file of rules may have. */
#define OARLOOM_INPUT_MOST 32768
/* The fewest bytes that the buffer for the answer may have, and the most that a plan writes. */
#define OARLOOM_ANSWER_LEAST 64
/* The most splits that may be allowed. */
#define OARLOOM_ALLOWANCE_MOST 1000000

/*
 * The numbers of replies.
 *
 *   No.  Reply      Meaning
 *    0   PLAN       there is a plan, and the buffer has the first one in dictionary order
 *    1   NONE       no plan meets the rules
 *    2   UNDECIDED  the search needs more splits than were allowed
 *   10   REFUSED    the file has more than 32768 bytes
 *   11   REFUSED    the buffer has fewer than 64 bytes
 *   12   REFUSED    more than 1000000 splits are allowed
 *   13   REFUSED    bytes are missing: a field's head (3 bytes) or its content is cut off
 *   14   REFUSED    the file does not start with a header: it is empty, or its first tag is not 1
 *   15   REFUSED    a second header
 *   16   REFUSED    a tag that is not 1, 2, 3, 4 or 5
 *   17   REFUSED    a length that does not fit the tag: a header (tag 1) has 2 bytes of content, a
 *                   clause (2) a multiple of 5, an equality (3) 4 to 68, a starting set (4) 5, an
 *                   at-most rule (5) 5 to 69
 *   18   REFUSED    the header's number of channels is not 1 to 64, or that of relays not 1 to 32
 *   19   REFUSED    a position that is 0 or above the number of channels
 *   20   REFUSED    a set that has a value above the number of relays
 *   26   REFUSED    a starting set that is empty
 *   27   REFUSED    a second starting set for its position, equal to the first or not
 *   36   REFUSED    a position that an at-most rule names twice
 *
 * No other number comes back. A refusal is every number of 10 or more: test for that, and not for
 * the last of this table, since the table may grow.
 *
 * 10, 11 and 12 are tested first, in this order. 13 to 20, 26, 27 and 36 are faults of the file, and
 * the first one that is found is told, from the front of the file to its end; in one starting set 19,
 * 20, 26 and 27 in this order, and in one at-most rule 20, 19 of every position, and 36.
 */
enum oarloom_number {
    OARLOOM_PLAN = 0,
    OARLOOM_NONE = 1,
    OARLOOM_UNDECIDED = 2,
    OARLOOM_REFUSED_FIRST = 10
};

/*
 * Plans the file of rules whose bytes are input[0] to input[input_length - 1], with at most
 * `allowance` splits.
 *
 * All five cells are written, at every reply:
 *
 *   *number     the number of the reply, as listed above
 *   *place      13 or more: where the field at fault starts, the index of its tag byte in `input`,
 *               which is 0 for the header. 1 with 0 splits: where the field starts that was first
 *               found to be met by nothing that the rules leave open, 5 or more. 0 at every other
 *               reply, 1 with splits among them
 *   *splits     0, 1 and 2: the splits that the search made, never more than `allowance`, and equal
 *               to it at 2; and less than the number of ways to give each channel one of the relays
 *               that it may start with. 0 at a refusal
 *   *dead_ends  0, 1 and 2: the dead ends that it met; 0 at a refusal
 *   *rounds     0, 1 and 2: the rounds of shrinking that the first box took, before any split: each
 *               goes once through all fields in the order of the file, and the last one, which
 *               changes nothing or finds a field that cannot be met, counts. From 1 to what
 *               oarloom_rounds_most answers for this input; 0 at a refusal
 *
 * Number 0 writes answer[0] to answer[v - 1], where v, the number of channels, is input[3]:
 * answer[i] is the relay of channel i + 1, from 1 to n, and n is input[4]; where the file has a
 * starting set for the channel, the relay is in that. Bytes from answer[v] on stay as they were. At
 * every other number all bytes of `answer` stay as they were. What the cells and the buffer held
 * before plays no part in the reply. Nothing but the five cells and these bytes of the buffer is
 * written.
 *
 * 0 splits may be allowed: then only what needs no split is decided. The same arguments give the
 * same reply at every call.
 *
 * A larger allowance that is not refused changes nothing where the number was 0 or 1: all five cells
 * and the plan stay. So a call again with more splits can tell something new only after 2. With
 * fields added behind the bytes of a file, 1 never becomes 0, though it may become 2 at the same
 * allowance, and a plan never becomes one that is earlier in dictionary order; the place and the
 * counts may change.
 */
void oarloom_plan(const uint8_t *input, size_t input_length,
                  uint8_t *answer, size_t answer_length,
                  uint64_t allowance,
                  uint64_t *number, uint64_t *place, uint64_t *splits, uint64_t *dead_ends,
                  uint64_t *rounds);

/*
 * The end of a progress bar: the most rounds that oarloom_plan can report for this input, whatever the
 * buffer and the allowance. It is known before the work begins, from a check of the file alone, and
 * writes no memory.
 *
 * For a file that is not refused it is one more than the sum over channels of the number of relays that
 * the channel may start with, less one: every round but the last takes a relay away from some channel,
 * and one stays at each. A channel starts with the relays of its starting set, and with 1 to n where it
 * has none. So the answer is at most v * (n - 1) + 1, just that for a file without a starting set, and
 * from 1 to 1985, where v and n are input[3] and input[4]. Some files take so many. 0 for an input that
 * is refused by 10 or for a fault of the file.
 */
uint64_t oarloom_rounds_most(const uint8_t *input, size_t input_length);

/* ---- Sets of the values 1 to 32 ----
 *
 * A set is a mask of 32 bits: the lowest bit stands for the value 1 and the highest for 32; 0 is
 * the empty set, and every mask is a set. These functions write no memory.
 */

/* The largest value that a set can hold. */
#define OARLOOM_VALUE_MOST 32

/* The set of the values 1 to n. The empty set where n is 0 or above 32. */
uint32_t oarloom_full(uint32_t n);

/* The set of the value x alone. The empty set where x is 0 or above 32. */
uint32_t oarloom_single(uint32_t x);

/* The values that are in a, in b or in both. */
uint32_t oarloom_union(uint32_t a, uint32_t b);

/* The values that are in both a and b. */
uint32_t oarloom_common(uint32_t a, uint32_t b);

/* Whether every value of a is in b. True where a is empty. */
bool oarloom_inside(uint32_t a, uint32_t b);

/* The values 1 to n that are not in a; values of a above n play no part. The empty set where n is 0
   or above 32. */
uint32_t oarloom_complement(uint32_t a, uint32_t n);

/* How many values a has, 0 to 32. */
uint32_t oarloom_count(uint32_t a);

/* The smallest value of a. 0 where a is empty. */
uint32_t oarloom_smallest(uint32_t a);

#ifdef __cplusplus
}
#endif

#endif
