/* Rule files made by generators: a writer for rule files, a source of pseudo-random numbers, and the
   workloads of the table. */
#ifndef WORKLOADS_H
#define WORKLOADS_H

#include <stddef.h>
#include <stdint.h>

enum { LONGEST_FILE = 32768, LARGEST_ALLOWANCE = 1000000 };

/* ---- pseudo-random numbers: the same ones on every machine for the same seed ----

   C leaves open in which order the arguments of a call are worked out, so at most one of them draws a
   number. */

struct random {
    uint64_t state;
};

/* the next number, any of 64 bits */
uint64_t random_next(struct random *random);
/* a number from 0 up to, not including, `end`; `end` is at least 1 */
uint32_t random_below(struct random *random, uint32_t end);
/* true `in` times out of `of` */
int random_chance(struct random *random, uint32_t in, uint32_t of);

/* ---- writing a rule file ---- */

/* A rule file that is being written. What does not fit is not kept, but it counts in `length`. */
struct rule_file {
    size_t length;
    size_t open; /* where the field begins that is being written */
    uint8_t bytes[2 * LONGEST_FILE];
};

/* the set {1..b}; none for 0 */
uint32_t values_to(uint32_t b);
/* the set {x} */
uint32_t value_alone(uint32_t x);
/* one byte, whatever it means */
void write_byte(struct rule_file *file, uint32_t byte);
/* starts a file anew with its header */
void write_header(struct rule_file *file, uint32_t v, uint32_t n);
/* starts a clause with no atom, and adds an atom to it */
void write_clause(struct rule_file *file);
void write_atom(struct rule_file *file, uint32_t position, uint32_t set);
/* starts an equality that names no position, and adds a position to it */
void write_equality(struct rule_file *file, uint32_t set);
void write_named(struct rule_file *file, uint32_t position);
/* the starting set of a position */
void write_start(struct rule_file *file, uint32_t position, uint32_t set);
/* starts an "at most `most` take a value in the set" that names no position; write_named adds one */
void write_at_most(struct rule_file *file, uint32_t most, uint32_t set);

/* ---- the workloads ---- */

enum queens { QUEENS_PLAIN, QUEENS_SUPER, QUEENS_TORUS };

/* `size` queens on a board of `size` times `size` fields: a position is a row and a value a column. */
void make_queens(struct rule_file *file, int size, int kind);
/* A rack of 64 channels of which no rule names the first 32; `size` queens stand on the next ones. */
void make_half_wired(struct rule_file *file, int size, int kind);
/* A rack of 64 channels and 32 relays, of which each channel has three fitted, with `pairs` rules that each keep
   two channels from taking a certain relay each. The relays fitted are told by starting sets or by clauses. */
void make_fitted(struct rule_file *file, int pairs, int seed);
void make_fitted_clauses(struct rule_file *file, int pairs, int seed);
/* A rack of 32 channels and 32 relays, of which 24 lie on `buses` buses (a divisor of 24), and each bus takes at
   most one channel. This is told by a field for each bus or by clauses, of which `buses` times 496 are needed. */
void make_buses(struct rule_file *file, int buses, int seed);
void make_buses_clauses(struct rule_file *file, int buses, int seed);
/* A sudoku of `size` times `size` cells (4, 6 or 8), with `givens` cells of a solution given. */
void make_sudoku(struct rule_file *file, int size, int givens);
/* A ladder rack where each position drives the next one up, with the fields in that order or against
   it, and with an open end (then there is a plan) or not. */
void make_ladder_climb(struct rule_file *file, int against, int open_end);
/* A ladder rack of `clauses` clauses taken at random. */
void make_ladder_random(struct rule_file *file, int clauses, int seed);
/* Clauses of three positions at random, over two values or over four. */
void make_random_two(struct rule_file *file, int clauses, int seed);
void make_random_four(struct rule_file *file, int clauses, int seed);
/* A file of exactly 32,768 bytes: many clauses where `filled` is 0; else one clause of 6,552 atoms, in which
   that many sets of each position are not empty. */
void make_longest(struct rule_file *file, int filled, int seed);
/* The search that goes 31 splits deep for each of `positions` positions. */
void make_deep(struct rule_file *file, int positions, int unused);

struct workload {
    const char *name;
    void (*make)(struct rule_file *file, int first, int second);
    int first, second;  /* what the generator is given */
    uint64_t allowance;
    int quick;          /* whether the short table has it too */
};

extern const struct workload workloads[];
extern const size_t workload_count;

#endif
