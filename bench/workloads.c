/* Rule files made by generators: see workloads.h. */
#include "workloads.h"

/* ---- pseudo-random numbers ---- */

uint64_t random_next(struct random *random)
{
    /* splitmix64: a counter with a large odd step, whose bits are then mixed. */
    uint64_t x = random->state += 0x9e3779b97f4a7c15u;

    x = (x ^ x >> 30) * 0xbf58476d1ce4e5b9u;
    x = (x ^ x >> 27) * 0x94d049bb133111ebu;
    return x ^ x >> 31;
}

uint32_t random_below(struct random *random, uint32_t end)
{
    return (uint32_t)((random_next(random) >> 32) * end >> 32);
}

int random_chance(struct random *random, uint32_t in, uint32_t of)
{
    return random_below(random, of) < in;
}

/* ---- writing a rule file ---- */

uint32_t values_to(uint32_t b)
{
    return b >= 32 ? UINT32_MAX : ((uint32_t)1 << b) - 1;
}

uint32_t value_alone(uint32_t x)
{
    return (uint32_t)1 << (x - 1);
}

void write_byte(struct rule_file *file, uint32_t byte)
{
    if (file->length < sizeof file->bytes)
        file->bytes[file->length] = (uint8_t)byte;
    file->length++;
}

static void write_set(struct rule_file *file, uint32_t set)
{
    for (int shift = 24; shift >= 0; shift -= 8)
        write_byte(file, set >> shift & 255);
}

/* Writes the length of the field that is open, now that it has grown. */
static void write_length(struct rule_file *file)
{
    size_t length = file->length - file->open - 3;

    if (file->length <= sizeof file->bytes) {
        file->bytes[file->open + 1] = (uint8_t)(length >> 8);
        file->bytes[file->open + 2] = (uint8_t)(length & 255);
    }
}

static void write_head(struct rule_file *file, uint32_t tag)
{
    file->open = file->length;
    write_byte(file, tag);
    write_byte(file, 0);
    write_byte(file, 0);
}

void write_header(struct rule_file *file, uint32_t v, uint32_t n)
{
    file->length = 0;
    write_head(file, 1);
    write_byte(file, v);
    write_byte(file, n);
    write_length(file);
}

void write_clause(struct rule_file *file)
{
    write_head(file, 2);
}

void write_atom(struct rule_file *file, uint32_t position, uint32_t set)
{
    write_byte(file, position);
    write_set(file, set);
    write_length(file);
}

void write_equality(struct rule_file *file, uint32_t set)
{
    write_head(file, 3);
    write_set(file, set);
    write_length(file);
}

void write_named(struct rule_file *file, uint32_t position)
{
    write_byte(file, position);
    write_length(file);
}

void write_start(struct rule_file *file, uint32_t position, uint32_t set)
{
    write_head(file, 4);
    write_byte(file, position);
    write_set(file, set);
    write_length(file);
}

void write_at_most(struct rule_file *file, uint32_t most, uint32_t set)
{
    write_head(file, 5);
    write_byte(file, most);
    write_set(file, set);
    write_length(file);
}

/* ---- queens ---- */

/* Whether a queen attacks the field that lies `down` rows below it (at least 1) and `aside` columns
   to its right, or to its left where that is negative. */
static int attacks(int kind, int size, int down, int aside)
{
    int far = aside < 0 ? -aside : aside;

    if (aside == 0)
        return 1;
    if (kind == QUEENS_TORUS)
        return (down - aside) % size == 0 || (down + aside) % size == 0;
    if (far == down)
        return 1;
    return kind == QUEENS_SUPER && ((down == 1 && far == 2) || (down == 2 && far == 1));
}

/* One clause for each pair of rows and each column: the upper row does not take this column, or the
   lower row takes a column that is not attacked from there. Row 1 is the position behind `unused`. */
static void write_queens(struct rule_file *file, int unused, int size, int kind)
{
    uint32_t all = values_to((uint32_t)size);

    for (int upper = 1; upper <= size; upper++)
        for (int lower = upper + 1; lower <= size; lower++)
            for (int column = 1; column <= size; column++) {
                uint32_t open = 0;

                for (int other = 1; other <= size; other++)
                    if (!attacks(kind, size, lower - upper, other - column))
                        open |= value_alone((uint32_t)other);
                write_clause(file);
                write_atom(file, (uint32_t)(unused + upper), all & ~value_alone((uint32_t)column));
                write_atom(file, (uint32_t)(unused + lower), open);
            }
}

void make_queens(struct rule_file *file, int size, int kind)
{
    write_header(file, (uint32_t)size, (uint32_t)size);
    write_queens(file, 0, size, kind);
}

/* Where the queens have no plan, a search that splits the unused channels finds that out again for each
   of the size^32 ways to set them. */
void make_half_wired(struct rule_file *file, int size, int kind)
{
    write_header(file, 64, (uint32_t)size);
    write_queens(file, 32, size, kind);
}

/* ---- sudoku ---- */

/* A box has 2 rows, and columns enough to have `size` cells. Each row, column and box is an equality
   with {1..size}. The cells given are taken at random from one solution, one clause for each. */
void make_sudoku(struct rule_file *file, int size, int givens)
{
    const int box_rows = 2, box_columns = size / 2;
    uint32_t all = values_to((uint32_t)size);
    struct random random = { 8 };
    int given[64] = { 0 };

    write_header(file, (uint32_t)(size * size), (uint32_t)size);
    for (int row = 0; row < size; row++) {
        write_equality(file, all);
        for (int column = 0; column < size; column++)
            write_named(file, (uint32_t)(row * size + column + 1));
    }
    for (int column = 0; column < size; column++) {
        write_equality(file, all);
        for (int row = 0; row < size; row++)
            write_named(file, (uint32_t)(row * size + column + 1));
    }
    for (int box = 0; box < size; box++) {
        int top = box / box_rows * box_rows, left = box % box_rows * box_columns;

        write_equality(file, all);
        for (int cell = 0; cell < size; cell++) {
            int row = top + cell / box_columns, column = left + cell % box_columns;

            write_named(file, (uint32_t)(row * size + column + 1));
        }
    }
    for (int left = givens; left > 0;) {
        int cell = (int)random_below(&random, (uint32_t)(size * size));
        int row = cell / size, column = cell % size;

        if (given[cell])
            continue;
        given[cell] = 1;
        left--;
        write_clause(file);
        write_atom(file, (uint32_t)cell + 1,
                   value_alone((uint32_t)((box_columns * (row % box_rows) + row / box_rows + column) % size + 1)));
    }
}

/* ---- ladder racks: all rules are clauses, and in each at most one set is not a set {1..b} ---- */

enum { RACK_POSITIONS = 64, RACK_VALUES = 32 };

/* "If position p takes `least` or more, then position q takes `then` or more." */
static void write_rung(struct rule_file *file, uint32_t p, uint32_t least, uint32_t q, uint32_t then)
{
    write_clause(file);
    write_atom(file, p, values_to(least - 1));
    write_atom(file, q, ~values_to(then - 1));
}

/* Position 1 starts at 2. Each position drives the next one up to its own value, and the last one
   drives position 1 up by one more, until all are at 32. With an open end that is the plan; else the
   first and the last may not both take 32, and there is none. Where the fields run against the climb,
   a round cuts only one room, and shrinking takes nearly as many rounds as it can take at all. */
void make_ladder_climb(struct rule_file *file, int against, int open_end)
{
    write_header(file, RACK_POSITIONS, RACK_VALUES);
    write_clause(file);
    write_atom(file, 1, ~values_to(1));
    for (uint32_t least = 2; least < RACK_VALUES; least++)
        write_rung(file, RACK_POSITIONS, least, 1, least + 1);
    for (uint32_t step = 1; step < RACK_POSITIONS; step++) {
        uint32_t p = against ? RACK_POSITIONS - step : step;

        for (uint32_t k = 2; k <= RACK_VALUES; k++) {
            uint32_t least = against ? RACK_VALUES + 2 - k : k;

            write_rung(file, p, least, p + 1, least);
        }
    }
    if (!open_end) {
        write_clause(file);
        write_atom(file, RACK_POSITIONS, values_to(RACK_VALUES - 1));
        write_atom(file, 1, values_to(RACK_VALUES - 1));
    }
}

/* Clauses of one to three sets {1..b} and one set at random, which in every fourth clause stands alone
   and then has the values from some value on. */
void make_ladder_random(struct rule_file *file, int clauses, int seed)
{
    struct random random = { (uint64_t)seed };

    write_header(file, RACK_POSITIONS, RACK_VALUES);
    for (int k = 0; k < clauses; k++) {
        int alone = random_chance(&random, 1, 4);
        uint32_t low = alone ? 0 : 1 + random_below(&random, 3), position, set;

        write_clause(file);
        for (; low > 0; low--) {
            position = 1 + random_below(&random, RACK_POSITIONS);
            set = values_to(random_below(&random, 24));
            write_atom(file, position, set);
        }
        position = 1 + random_below(&random, RACK_POSITIONS);
        set = alone ? ~values_to(random_below(&random, 24)) : (uint32_t)random_next(&random) | ~values_to(28);
        write_atom(file, position, set);
    }
}

/* ---- relays that are fitted at some channels only ---- */

enum { FITTED = 3 };

/* `size` relays at random, from those above `above` and up to `to` */
static uint32_t any_relays(struct random *random, uint32_t above, uint32_t to, int size)
{
    uint32_t set = 0;

    while (size > 0) {
        uint32_t relay = value_alone(above + 1 + random_below(random, to - above));

        if (set & relay)
            continue;
        set |= relay;
        size--;
    }
    return set;
}

/* one of the relays of a set that has `size` of them, alone */
static uint32_t one_relay(struct random *random, uint32_t set, uint32_t size)
{
    for (uint32_t left = random_below(random, size); left > 0; left--)
        set &= set - 1;
    return set & -set;
}

/* "Not this relay of p and that relay of q", for channels at random and relays of theirs: of each channel from 1
   to `channels` a set of `size` relays is given. */
static void write_pairs(struct rule_file *file, struct random *random, uint32_t channels, const uint32_t *relays,
                        uint32_t size, int pairs)
{
    for (; pairs > 0; pairs--) {
        uint32_t p = 1 + random_below(random, channels), q = 1 + random_below(random, channels - 1);

        if (q >= p)
            q++;
        write_clause(file);
        write_atom(file, p, ~one_relay(random, relays[p - 1], size));
        write_atom(file, q, ~one_relay(random, relays[q - 1], size));
    }
}

/* The relays of all channels stand behind the header, and the pairs behind these. A pair names relays that are
   fitted, so that none is met from the start. */
static void make_fitted_by(struct rule_file *file, int clauses, int pairs, int seed)
{
    struct random random = { (uint64_t)seed };
    uint32_t fitted[RACK_POSITIONS];

    write_header(file, RACK_POSITIONS, RACK_VALUES);
    for (uint32_t p = 1; p <= RACK_POSITIONS; p++) {
        fitted[p - 1] = any_relays(&random, 0, RACK_VALUES, FITTED);
        if (clauses) {
            write_clause(file);
            write_atom(file, p, fitted[p - 1]);
        } else {
            write_start(file, p, fitted[p - 1]);
        }
    }
    write_pairs(file, &random, RACK_POSITIONS, fitted, FITTED, pairs);
}

void make_fitted(struct rule_file *file, int pairs, int seed)
{
    make_fitted_by(file, 0, pairs, seed);
}

/* Both files have the same bytes but for 64 tags, the same plans, and the same splits and dead ends: where a
   clause says it, the first round cuts the rooms that are cut from the start where a starting set does. */
void make_fitted_clauses(struct rule_file *file, int pairs, int seed)
{
    make_fitted_by(file, 1, pairs, seed);
}

/* ---- at most one channel on a bus ---- */

enum {
    BUS_CHANNELS = 32,
    BUS_RELAYS = 24,   /* relays 1 to 24 lie on buses, as many on each; the others on none */
    ON_BUSSES = 2,     /* relays of a channel that lie on buses */
    ON_NONE = 2,       /* relays of a channel that lie on none */
    PAIRS_FOR_BUS = 23 /* pairs for each bus; of the seeds 1 to 40, 17 then have a plan with 8 buses, 39 with 4 */
};

/* "At most one of the channels takes a relay of the bus": a field of tag 5, or for each two channels a clause
   that one of them takes a relay outside. */
static void write_bus(struct rule_file *file, int clauses, uint32_t bus)
{
    if (!clauses) {
        write_at_most(file, 1, bus);
        for (uint32_t p = 1; p <= BUS_CHANNELS; p++)
            write_named(file, p);
        return;
    }
    for (uint32_t p = 1; p <= BUS_CHANNELS; p++)
        for (uint32_t q = p + 1; q <= BUS_CHANNELS; q++) {
            write_clause(file);
            write_atom(file, p, ~bus);
            write_atom(file, q, ~bus);
        }
}

/* The relays of all channels stand behind the header as starting sets, then come the buses, and then the pairs.
   A pair names relays that lie on no bus, so that the channels crowd onto the buses. */
static void make_buses_by(struct rule_file *file, int clauses, int buses, int seed)
{
    struct random random = { (uint64_t)seed };
    uint32_t on_none[BUS_CHANNELS], width = BUS_RELAYS / (uint32_t)buses;

    write_header(file, BUS_CHANNELS, RACK_VALUES);
    for (uint32_t p = 1; p <= BUS_CHANNELS; p++) {
        on_none[p - 1] = any_relays(&random, BUS_RELAYS, RACK_VALUES, ON_NONE);
        write_start(file, p, on_none[p - 1] | any_relays(&random, 0, BUS_RELAYS, ON_BUSSES));
    }
    for (uint32_t below = 0; below < BUS_RELAYS; below += width)
        write_bus(file, clauses, values_to(below + width) & ~values_to(below));
    write_pairs(file, &random, BUS_CHANNELS, on_none, ON_NONE, PAIRS_FOR_BUS * buses);
}

void make_buses(struct rule_file *file, int buses, int seed)
{
    make_buses_by(file, 0, buses, seed);
}

/* Both files have the same plans, and the same splits and dead ends: a round over the clauses of a bus leaves the
   rooms that one look at its field leaves, they are settled in the same boxes, and until then no room lies inside
   the bus, so that the same positions are live. With 8 buses this file would have 54,237 bytes. */
void make_buses_clauses(struct rule_file *file, int buses, int seed)
{
    make_buses_by(file, 1, buses, seed);
}

/* ---- clauses at random ---- */

/* Adds a clause of three different positions, each with `size` of the values 1 to n. */
static void write_random_clause(struct rule_file *file, struct random *random, uint32_t v, uint32_t n, uint32_t size)
{
    uint64_t named = 0;

    write_clause(file);
    for (int k = 0; k < 3;) {
        uint32_t position = 1 + random_below(random, v), set = 0;

        if (named >> (position - 1) & 1)
            continue;
        named |= (uint64_t)1 << (position - 1);
        for (uint32_t left = size; left > 0;) {
            uint32_t value = value_alone(1 + random_below(random, n));

            if (set & value)
                continue;
            set |= value;
            left--;
        }
        write_atom(file, position, set);
        k++;
    }
}

/* 64 positions of two values, sets of one: plans become rare near 4.26 clauses a position. */
void make_random_two(struct rule_file *file, int clauses, int seed)
{
    struct random random = { (uint64_t)seed };

    write_header(file, 64, 2);
    for (int k = 0; k < clauses; k++)
        write_random_clause(file, &random, 64, 2, 1);
}

/* 24 positions of four values, sets of two: plans become rare near ten clauses a position. */
void make_random_four(struct rule_file *file, int clauses, int seed)
{
    struct random random = { (uint64_t)seed };

    write_header(file, 24, 4);
    for (int k = 0; k < clauses; k++)
        write_random_clause(file, &random, 24, 4, 2);
}

/* ---- the longest file ---- */

/* One clause of 6,552 atoms, 102 or 103 for each position, of which one is not empty and says "32", or two
   are, and together say "31 or 32", so that sets have to be united; or, where none is to be filled,
   clauses of three positions with 24 of 32 values, and three equalities of no positions with the empty set,
   which are always met and make the length come out. */
void make_longest(struct rule_file *file, int filled, int seed)
{
    struct random random = { (uint64_t)seed };

    write_header(file, 64, 32);
    if (filled) {
        write_clause(file);
        for (uint32_t k = 0; k < 6552; k++)
            write_atom(file, 1 + k % 64, k < 64 * (uint32_t)filled ? value_alone(32 - k / 64) : 0);
        return;
    }
    for (int k = 0; k < 3; k++)
        write_equality(file, 0);
    for (int k = 0; k < 1819; k++)
        write_random_clause(file, &random, 64, 32, 24);
}

/* ---- the deep search ---- */

/* For each position p but the last: [p{32} q{1}] and [p{32} q{2}], where q is the last; then [q{1,2}].
   Only value 32 of p is left to q's choice, and the search finds this one value at a time. */
void make_deep(struct rule_file *file, int positions, int unused)
{
    uint32_t q = (uint32_t)positions + 1;

    (void)unused;
    write_header(file, q, 32);
    for (uint32_t p = 1; p < q; p++)
        for (uint32_t value = 1; value <= 2; value++) {
            write_clause(file);
            write_atom(file, p, value_alone(32));
            write_atom(file, q, value_alone(value));
        }
    write_clause(file);
    write_atom(file, q, values_to(2));
}

/* ---- the table ---- */

/* "At random, 64 x 2, 265, no. 1" has 64 positions of two values, 265 clauses and the seed 1; "3 of 32 fitted,
   420, no. 1" has 420 pairs and the seed 1; "4 buses, one of 32, no. 4" has the seed 4. */
const struct workload workloads[] = {
    { "queens 8", make_queens, 8, QUEENS_PLAIN, LARGEST_ALLOWANCE, 1 },
    { "queens 9", make_queens, 9, QUEENS_PLAIN, LARGEST_ALLOWANCE, 0 },
    { "queens 10", make_queens, 10, QUEENS_PLAIN, LARGEST_ALLOWANCE, 1 },
    { "queens 11", make_queens, 11, QUEENS_PLAIN, LARGEST_ALLOWANCE, 0 },
    { "queens 12", make_queens, 12, QUEENS_PLAIN, LARGEST_ALLOWANCE, 1 },
    { "queens 13", make_queens, 13, QUEENS_PLAIN, LARGEST_ALLOWANCE, 0 },
    { "queens 14", make_queens, 14, QUEENS_PLAIN, LARGEST_ALLOWANCE, 0 },
    { "queens 15", make_queens, 15, QUEENS_PLAIN, LARGEST_ALLOWANCE, 1 },
    { "queens 16", make_queens, 16, QUEENS_PLAIN, LARGEST_ALLOWANCE, 0 },
    { "queens 17", make_queens, 17, QUEENS_PLAIN, LARGEST_ALLOWANCE, 0 },
    { "queens 18", make_queens, 18, QUEENS_PLAIN, LARGEST_ALLOWANCE, 0 },
    { "super queens 8", make_queens, 8, QUEENS_SUPER, LARGEST_ALLOWANCE, 1 },
    { "super queens 9", make_queens, 9, QUEENS_SUPER, LARGEST_ALLOWANCE, 0 },
    { "super queens 10", make_queens, 10, QUEENS_SUPER, LARGEST_ALLOWANCE, 1 },
    { "super queens 11", make_queens, 11, QUEENS_SUPER, LARGEST_ALLOWANCE, 0 },
    { "super queens 12", make_queens, 12, QUEENS_SUPER, LARGEST_ALLOWANCE, 1 },
    { "super queens 13", make_queens, 13, QUEENS_SUPER, LARGEST_ALLOWANCE, 0 },
    { "super queens 14", make_queens, 14, QUEENS_SUPER, LARGEST_ALLOWANCE, 0 },
    { "super queens 15", make_queens, 15, QUEENS_SUPER, LARGEST_ALLOWANCE, 1 },
    { "super queens 16", make_queens, 16, QUEENS_SUPER, LARGEST_ALLOWANCE, 0 },
    { "super queens 17", make_queens, 17, QUEENS_SUPER, LARGEST_ALLOWANCE, 0 },
    { "torus queens 6", make_queens, 6, QUEENS_TORUS, LARGEST_ALLOWANCE, 1 },
    { "torus queens 8", make_queens, 8, QUEENS_TORUS, LARGEST_ALLOWANCE, 1 },
    { "torus queens 9", make_queens, 9, QUEENS_TORUS, LARGEST_ALLOWANCE, 0 },
    { "torus queens 10", make_queens, 10, QUEENS_TORUS, LARGEST_ALLOWANCE, 1 },
    { "torus queens 11", make_queens, 11, QUEENS_TORUS, LARGEST_ALLOWANCE, 1 },
    { "torus queens 12", make_queens, 12, QUEENS_TORUS, LARGEST_ALLOWANCE, 0 },
    { "torus queens 13", make_queens, 13, QUEENS_TORUS, LARGEST_ALLOWANCE, 1 },
    { "torus queens 14", make_queens, 14, QUEENS_TORUS, LARGEST_ALLOWANCE, 0 },
    { "torus queens 15", make_queens, 15, QUEENS_TORUS, LARGEST_ALLOWANCE, 0 },
    { "torus queens 16", make_queens, 16, QUEENS_TORUS, LARGEST_ALLOWANCE, 0 },
    { "torus queens 17", make_queens, 17, QUEENS_TORUS, LARGEST_ALLOWANCE, 0 },

    { "half-wired, torus queens 8", make_half_wired, 8, QUEENS_TORUS, LARGEST_ALLOWANCE, 1 },
    { "half-wired, torus queens 10", make_half_wired, 10, QUEENS_TORUS, LARGEST_ALLOWANCE, 1 },
    { "half-wired, torus queens 12", make_half_wired, 12, QUEENS_TORUS, LARGEST_ALLOWANCE, 0 },

    { "3 of 32 fitted, 420, no. 1", make_fitted, 420, 1, LARGEST_ALLOWANCE, 1 },
    { "3 of 32 by clauses, 420, no. 1", make_fitted_clauses, 420, 1, LARGEST_ALLOWANCE, 1 },
    { "3 of 32 fitted, 420, no. 2", make_fitted, 420, 2, LARGEST_ALLOWANCE, 0 },
    { "3 of 32 by clauses, 420, no. 2", make_fitted_clauses, 420, 2, LARGEST_ALLOWANCE, 0 },

    { "8 buses, one of 32, no. 8", make_buses, 8, 8, LARGEST_ALLOWANCE, 1 },
    { "8 buses by clauses, no. 8", make_buses_clauses, 8, 8, LARGEST_ALLOWANCE, 1 },
    { "8 buses, one of 32, no. 1", make_buses, 8, 1, LARGEST_ALLOWANCE, 0 },
    { "8 buses by clauses, no. 1", make_buses_clauses, 8, 1, LARGEST_ALLOWANCE, 0 },
    { "4 buses, one of 32, no. 4", make_buses, 4, 4, LARGEST_ALLOWANCE, 1 },
    { "4 buses by clauses, no. 4", make_buses_clauses, 4, 4, LARGEST_ALLOWANCE, 1 },
    { "4 buses, one of 32, no. 10", make_buses, 4, 10, LARGEST_ALLOWANCE, 0 },
    { "4 buses by clauses, no. 10", make_buses_clauses, 4, 10, LARGEST_ALLOWANCE, 0 },

    { "sudoku 4x4, empty", make_sudoku, 4, 0, LARGEST_ALLOWANCE, 1 },
    { "sudoku 4x4, 4 given", make_sudoku, 4, 4, LARGEST_ALLOWANCE, 1 },
    { "sudoku 6x6, empty", make_sudoku, 6, 0, LARGEST_ALLOWANCE, 0 },
    { "sudoku 6x6, 6 given", make_sudoku, 6, 6, LARGEST_ALLOWANCE, 1 },
    { "sudoku 6x6, 12 given", make_sudoku, 6, 12, LARGEST_ALLOWANCE, 1 },
    { "sudoku 8x8, empty", make_sudoku, 8, 0, LARGEST_ALLOWANCE, 0 },
    { "sudoku 8x8, empty, 10,000 splits", make_sudoku, 8, 0, 10000, 0 },
    { "sudoku 8x8, 12 given", make_sudoku, 8, 12, LARGEST_ALLOWANCE, 0 },
    { "sudoku 8x8, 20 given", make_sudoku, 8, 20, LARGEST_ALLOWANCE, 1 },
    { "sudoku 8x8, 32 given", make_sudoku, 8, 32, LARGEST_ALLOWANCE, 1 },

    { "ladder, in file order, plan", make_ladder_climb, 0, 1, LARGEST_ALLOWANCE, 1 },
    { "ladder, in file order, none", make_ladder_climb, 0, 0, LARGEST_ALLOWANCE, 1 },
    { "ladder, against it, plan", make_ladder_climb, 1, 1, LARGEST_ALLOWANCE, 0 },
    { "ladder, against it, none", make_ladder_climb, 1, 0, LARGEST_ALLOWANCE, 0 },
    { "ladder, 250 clauses at random", make_ladder_random, 250, 1, LARGEST_ALLOWANCE, 1 },
    { "ladder, 550 clauses at random", make_ladder_random, 550, 1, LARGEST_ALLOWANCE, 1 },
    { "ladder, 2,000 clauses at random", make_ladder_random, 2000, 1, LARGEST_ALLOWANCE, 1 },

    { "at random, 64 x 2, 250, no. 1", make_random_two, 250, 1, LARGEST_ALLOWANCE, 1 },
    { "at random, 64 x 2, 265, no. 1", make_random_two, 265, 1, LARGEST_ALLOWANCE, 0 },
    { "at random, 64 x 2, 265, no. 2", make_random_two, 265, 2, LARGEST_ALLOWANCE, 0 },
    { "at random, 64 x 2, 280, no. 3", make_random_two, 280, 3, LARGEST_ALLOWANCE, 0 },
    { "at random, 24 x 4, 210, no. 3", make_random_four, 210, 3, LARGEST_ALLOWANCE, 1 },
    { "at random, 24 x 4, 225, no. 2", make_random_four, 225, 2, LARGEST_ALLOWANCE, 0 },
    { "at random, 24 x 4, 225, no. 4", make_random_four, 225, 4, LARGEST_ALLOWANCE, 0 },
    { "at random, 24 x 4, 240, no. 3", make_random_four, 240, 3, LARGEST_ALLOWANCE, 1 },

    { "32,768 bytes, 1,819 clauses", make_longest, 0, 1, LARGEST_ALLOWANCE, 1 },
    { "32,768 bytes, one clause", make_longest, 1, 0, LARGEST_ALLOWANCE, 1 },
    { "32,768 bytes, one clause, united", make_longest, 2, 0, LARGEST_ALLOWANCE, 1 },
    { "deep, 1,953 levels", make_deep, 63, 0, LARGEST_ALLOWANCE, 1 },
};

const size_t workload_count = sizeof workloads / sizeof *workloads;
