/* Agreement: the proved planner and the yardstick are called with the same files, buffers and
   allowances, and must give the same reply, leave the same bytes, and know the same most rounds of the file.

       agree [CALLS [SEED]]      CALLS is the least number of calls, 400,000 where it is not given

   The files come from generators with a seed that is fixed where none is given, so every run makes the
   same calls, on every machine. A difference stops the run, with exit status 1, after the file's bytes,
   the call and both replies are printed. */
#define _GNU_SOURCE
#include <signal.h>
#include <stdio.h>
#include <stdlib.h>
#include <string.h>
#include <sys/mman.h>
#include <unistd.h>

#include "oarloom.h"
#include "workloads.h"
#include "yardstick.h"

static uint64_t seed = 20071;
static struct random chance;

/* the file of the current call */
static struct rule_file file;

static uint32_t below(uint32_t end) { return random_below(&chance, end); }
static int one_in(uint32_t of) { return random_chance(&chance, 1, of); }

/* The starting set of each position of the current file, which is not refused; answers how many positions it
   has. */
static uint32_t find_starts(uint32_t *sets);
/* Whether the values meet each "at most k" of the current file, which is not refused. */
static int meets_at_most(const uint8_t *values);

/* ---- calling both ---- */

enum { GUARD = 64, LONGEST_ANSWER = 200, AREA = GUARD + LONGEST_ANSWER + GUARD };

/* What came of a call: the reply's five numbers, and the answer buffer with the bytes around it; and the most
   rounds of the file, which were asked for before the call. */
struct outcome {
    uint64_t number, place, splits, dead_ends, rounds;
    uint64_t most_rounds;
    uint8_t area[AREA];
};

/* One of the two that are compared. */
struct planner {
    const char *name;
    void (*plan)(const uint8_t *input, size_t input_len, uint8_t *answer, size_t answer_len,
                 uint64_t allowance, uint64_t *number, uint64_t *place, uint64_t *splits,
                 uint64_t *dead_ends, uint64_t *rounds);
    uint64_t (*most_rounds)(const uint8_t *input, size_t input_len);
};

/* counts what the current file has in it, which was not refused */
static void survey(const struct outcome *outcome);
/* counts a refusal of the current file */
static void survey_refusal(const struct outcome *outcome);

static const struct planner proved = { "planner", oarloom_plan, oarloom_rounds_most };
static const struct planner yardstick = { "yardstick", yardstick_plan, yardstick_rounds_most };

/* The input is put directly before a page that cannot be read, so that a planner which reads past the
   input's end is stopped by the machine. */
static uint8_t *input_end;

static void make_input_pages(void)
{
    size_t page = (size_t)sysconf(_SC_PAGESIZE);
    size_t size = (sizeof file.bytes + page - 1) / page * page;
    uint8_t *pages = mmap(0, size + page, PROT_READ | PROT_WRITE, MAP_PRIVATE | MAP_ANONYMOUS, -1, 0);

    if (pages == MAP_FAILED || mprotect(pages + size, page, PROT_NONE) != 0) {
        fprintf(stderr, "agree: no memory for the input\n");
        exit(2);
    }
    input_end = pages + size;
}

enum { NUMBERS = 40 }; /* numbers of replies are below */

static uint64_t calls, calls_by_number[NUMBERS];
static uint64_t most_splits;
static uint64_t sum = 0xcbf29ce484222325; /* over all that was passed in, to tell two runs apart */

static void add_to_sum(const uint8_t *bytes, size_t length)
{
    for (size_t at = 0; at < length; at++)
        sum = (sum ^ bytes[at]) * 0x100000001b3; /* FNV-1a */
}

static void print_bytes(const char *what, const uint8_t *bytes, size_t length)
{
    printf("%s, %zu bytes:", what, length);
    for (size_t at = 0; at < length; at++)
        printf("%s%02x", at % 32 == 0 ? "\n    " : " ", bytes[at]);
    printf("\n");
}

static void print_outcome(const char *who, const struct outcome *outcome, size_t answer_len)
{
    printf("%s: number %llu, place %llu, splits %llu, dead ends %llu, rounds %llu of at most %llu\n", who,
           (unsigned long long)outcome->number, (unsigned long long)outcome->place,
           (unsigned long long)outcome->splits, (unsigned long long)outcome->dead_ends,
           (unsigned long long)outcome->rounds, (unsigned long long)outcome->most_rounds);
    print_bytes("  the 64 bytes before its answer buffer", outcome->area, GUARD);
    print_bytes("  its answer buffer", outcome->area + GUARD, answer_len);
    print_bytes("  the bytes behind", outcome->area + GUARD + answer_len, AREA - GUARD - answer_len);
}

/* Stops the run: says what is wrong and prints all that is needed to make the call again. */
static void stop(const char *what, const struct outcome *planned, const struct outcome *measured,
                 const uint8_t *area, size_t answer_len, uint64_t allowance)
{
    printf("DIFFERENCE in call %llu: %s\n", (unsigned long long)calls, what);
    printf("answer buffer of %zu bytes, allowance %llu\n", answer_len, (unsigned long long)allowance);
    print_bytes("the file", file.bytes, file.length);
    print_bytes("the answer buffer before", area + GUARD, answer_len);
    print_outcome(proved.name, planned, answer_len);
    print_outcome(yardstick.name, measured, answer_len);
    exit(1);
}

/* the call that is running, for the case that the machine stops it */
static struct {
    const char *who;
    size_t answer_len;
    uint64_t allowance;
} running;

/* Where a planner reads or writes what it may not: prints the call and ends the run. */
static void crashed(int signal_number)
{
    printf("DIFFERENCE in call %llu: signal %d stopped the %s\n", (unsigned long long)calls, signal_number,
           running.who);
    printf("answer buffer of %zu bytes, allowance %llu\n", running.answer_len,
           (unsigned long long)running.allowance);
    print_bytes("the file", file.bytes, file.length);
    fflush(stdout);
    _exit(1);
}

/* The handler has a stack of its own, so that it also runs where the stack is used up. */
static void catch_crashes(void)
{
    static uint8_t stack[65536];
    stack_t own = { .ss_sp = stack, .ss_size = sizeof stack };
    struct sigaction action = { .sa_handler = crashed, .sa_flags = SA_ONSTACK };

    sigaltstack(&own, 0);
    sigaction(SIGSEGV, &action, 0);
    sigaction(SIGBUS, &action, 0);
    sigaction(SIGILL, &action, 0);
    sigaction(SIGFPE, &action, 0);
}

static void call(const struct planner *planner, const uint8_t *area, size_t answer_len, uint64_t allowance,
                 struct outcome *outcome)
{
    running.who = planner->name;
    running.answer_len = answer_len;
    running.allowance = allowance;
    outcome->most_rounds = planner->most_rounds(input_end - file.length, file.length);
    /* Numbers that no reply has, so that one that is not written shows. */
    outcome->number = outcome->place = outcome->splits = outcome->dead_ends = outcome->rounds = 0xdeadbeefdeadbeef;
    memcpy(outcome->area, area, AREA);
    planner->plan(input_end - file.length, file.length, outcome->area + GUARD, answer_len, allowance,
                  &outcome->number, &outcome->place, &outcome->splits, &outcome->dead_ends, &outcome->rounds);
}

/* How many calls took so many rounds: see count_rounds. */
static struct {
    uint64_t one, two, three, more, undecided, bound, wide_bound, most;
} rounds;

/* Counts the rounds of a call that was not refused. The bound that tells something is one of three rounds or
   more: a single value to cut reaches the bound of two. */
static void count_rounds(const struct outcome *outcome)
{
    rounds.one += outcome->rounds == 1;
    rounds.two += outcome->rounds == 2;
    rounds.three += outcome->rounds == 3;
    rounds.more += outcome->rounds > 3;
    rounds.undecided += outcome->number == 2 && outcome->rounds > 1;
    if (outcome->rounds == outcome->most_rounds) {
        rounds.bound++;
        rounds.wide_bound += outcome->rounds > 2;
    }
    if (outcome->rounds > rounds.most)
        rounds.most = outcome->rounds;
}

/* Whether there are as few splits as the starting sets allow: at most the product of their sizes less one. The
   product is worked out only as far as it is needed. */
static int splits_within_bound(uint64_t splits)
{
    uint32_t sets[64], v = find_starts(sets);
    uint64_t product = 1;

    for (uint32_t p = 0; p < v && product <= splits; p++)
        product *= (uint64_t)__builtin_popcount(sets[p]);
    return splits < product;
}

/* Whether each value of a plan lies inside its position's starting set. */
static int plan_within_starts(const uint8_t *values)
{
    uint32_t sets[64], v = find_starts(sets);

    for (uint32_t p = 0; p < v; p++)
        if (values[p] < 1 || values[p] > 32 || !(sets[p] & value_alone(values[p])))
            return 0;
    return 1;
}

/* Calls both with the current file and compares. Answers what came of it. */
static struct outcome compare(size_t answer_len, uint64_t allowance)
{
    struct outcome planned, measured;
    uint8_t area[AREA];
    size_t written;

    for (size_t at = 0; at < AREA; at++)
        area[at] = (uint8_t)random_next(&chance);
    calls++;
    add_to_sum(file.bytes, file.length);
    add_to_sum((const uint8_t[]) { (uint8_t)answer_len, (uint8_t)allowance, (uint8_t)(allowance >> 8) }, 3);
    memcpy(input_end - file.length, file.bytes, file.length);
    call(&proved, area, answer_len, allowance, &planned);
    if (memcmp(input_end - file.length, file.bytes, file.length) != 0) {
        printf("the planner wrote to its input\n");
        memcpy(input_end - file.length, file.bytes, file.length);
        call(&yardstick, area, answer_len, allowance, &measured);
        stop("the input was changed", &planned, &measured, area, answer_len, allowance);
    }
    call(&yardstick, area, answer_len, allowance, &measured);
    if (planned.number != measured.number)
        stop("number", &planned, &measured, area, answer_len, allowance);
    if (planned.place != measured.place)
        stop("place", &planned, &measured, area, answer_len, allowance);
    if (planned.splits != measured.splits)
        stop("splits", &planned, &measured, area, answer_len, allowance);
    if (planned.dead_ends != measured.dead_ends)
        stop("dead ends", &planned, &measured, area, answer_len, allowance);
    if (planned.rounds != measured.rounds)
        stop("rounds", &planned, &measured, area, answer_len, allowance);
    if (planned.most_rounds != measured.most_rounds)
        stop("the most rounds", &planned, &measured, area, answer_len, allowance);
    if (memcmp(planned.area, measured.area, AREA) != 0)
        stop("the answer buffer, or bytes around it", &planned, &measured, area, answer_len, allowance);
    /* Both agree; so the bytes that stay can be tested on one. PLAN writes v bytes, v being the
       fourth byte of the file. */
    written = planned.number == 0 ? file.bytes[3] : 0;
    if (memcmp(planned.area, area, GUARD) != 0
        || memcmp(planned.area + GUARD + written, area + GUARD + written, AREA - GUARD - written) != 0)
        stop("both wrote bytes that have to stay", &planned, &measured, area, answer_len, allowance);
    /* A refusal has no rounds, and a reply to a sound file at least one; never more than the most. A file that
       is refused for what it is, and not for the buffer or the allowance, has 0 as its most. */
    if ((planned.rounds == 0) != (planned.number >= 10) || planned.rounds > planned.most_rounds)
        stop("both have rounds that cannot be", &planned, &measured, area, answer_len, allowance);
    if (planned.number >= 10 && planned.number != 11 && planned.number != 12 && planned.most_rounds != 0)
        stop("both have a most for a file that is refused", &planned, &measured, area, answer_len, allowance);
    /* Demands 2 and 3, by the starting sets and by each "at most k". */
    if (planned.number < 10 && !splits_within_bound(planned.splits))
        stop("both have more splits than the starting sets allow", &planned, &measured, area, answer_len, allowance);
    if (planned.number == 0 && !plan_within_starts(planned.area + GUARD))
        stop("both have a plan outside the starting sets", &planned, &measured, area, answer_len, allowance);
    if (planned.number == 0 && !meets_at_most(planned.area + GUARD))
        stop("both have a plan with more than k in a set", &planned, &measured, area, answer_len, allowance);
    calls_by_number[planned.number % NUMBERS]++;
    if (planned.splits > most_splits)
        most_splits = planned.splits;
    if (planned.number < 10) {
        count_rounds(&planned);
        survey(&planned);
    } else {
        survey_refusal(&planned);
    }
    return planned;
}

/* ---- examples with the replies that are right: 01's, d with the place of 02 and l with its counts
   all with the rounds of 02; files that tell readings of R-3, of R-10 and of R-2 apart,
   which stand in crates/bench_examples/src/ too: unmet.rt and step4.rt there work out by hand;
   files with starting sets; and files that tell readings of "at most k" apart ---- */

enum { CLAUSE = -1, EQUALITY = -2, START = -3, AT_MOST = -4, END = -5 };

static const struct example {
    const char *name;
    int rules[40]; /* v, n; then a clause with position, set, ..; an equality with M, position, ..; a starting
                      set with its position and the set; an "at most k" with k, the set, position, .. */
    uint64_t allowance, number, place, splits, dead_ends, rounds;
    const char *plan; /* a digit for each position */
} examples[] = {
    { "a", { 3, 2, CLAUSE, 1, 2, 2, 2, 3, 1, CLAUSE, 1, 1, 2, 1, CLAUSE, 3, 2, CLAUSE, 1, 2, 2, 1, END },
      1000000, 0, 0, 1, 1, 2, "212" },
    { "b", { 4, 2, CLAUSE, 1, 2, 2, 1, 3, 1, 4, 1, CLAUSE, 2, 2, 4, 1, CLAUSE, 3, 2, 4, 1, CLAUSE, 4, 2, END },
      1000000, 0, 0, 0, 0, 4, "2222" },
    { "c", { 2, 3, END }, 1000000, 0, 0, 0, 0, 1, "11" },
    { "d", { 2, 3, CLAUSE, END }, 1000000, 1, 5, 0, 1, 1, "" },
    { "e", { 2, 2, EQUALITY, 3, 1, 2, END }, 1000000, 0, 0, 1, 0, 1, "12" },
    { "f", { 2, 2, EQUALITY, 3, 1, 2, END }, 0, 2, 0, 0, 0, 1, "" },
    { "g", { 2, 3, EQUALITY, 7, 1, 2, END }, 1000000, 1, 0, 1, 2, 1, "" },
    { "h", { 3, 3, EQUALITY, 7, 1, 2, 3, END }, 1000000, 0, 0, 3, 1, 1, "123" },
    { "i", { 3, 3, EQUALITY, 7, 1, 2, 3, END }, 2, 2, 0, 2, 1, 1, "" },
    { "j", { 2, 3, CLAUSE, 1, 6, CLAUSE, 1, 1, 2, 4, END }, 1000000, 0, 0, 0, 0, 2, "23" },
    { "k", { 2, 2, CLAUSE, 1, 1, 2, 1, END }, 1000000, 0, 0, 1, 0, 1, "11" },
    { "l", { 3, 2, CLAUSE, 2, 1, 3, 1, CLAUSE, 2, 1, 3, 2, CLAUSE, 2, 2, 3, 1, CLAUSE, 2, 2, 3, 2, END },
      1000000, 1, 0, 1, 2, 1, "" },
    { "dead at the last field", { 2, 2, CLAUSE, 1, 1, 2, 1, CLAUSE, 1, 2, CLAUSE, 2, 2, CLAUSE, 2, 1, END },
      1000000, 1, 34, 0, 1, 1, "" },
    { "dead in round two", { 2, 2, CLAUSE, 1, 2, 2, 1, CLAUSE, 1, 1, CLAUSE, 2, 2, END }, 1000000, 1, 5, 0, 1, 2, "" },
    { "dead in round two, allowance 0", { 2, 2, CLAUSE, 1, 2, 2, 1, CLAUSE, 1, 1, CLAUSE, 2, 2, END },
      0, 1, 5, 0, 1, 2, "" },
    { "two dead fields", { 2, 2, CLAUSE, 1, 1, CLAUSE, 2, 0, CLAUSE, END }, 1000000, 1, 13, 0, 1, 1, "" },
    { "middle field in round two",
      { 3, 2, CLAUSE, 3, 1, CLAUSE, 1, 1, 2, 1, CLAUSE, 1, 2, 3, 2, CLAUSE, 2, 2, END }, 1000000, 1, 13, 0, 1, 2, "" },
    { "equality dead by its own cut", { 1, 2, EQUALITY, 3, 1, CLAUSE, END }, 1000000, 1, 5, 0, 1, 1, "" },
    { "equality cuts at once",
      { 3, 3, CLAUSE, 1, 3, CLAUSE, 2, 6, CLAUSE, 3, 4, EQUALITY, 7, 1, 2, 3, CLAUSE, 2, 4, END },
      1000000, 1, 39, 0, 1, 1, "" },
    { "equality once in a round",
      { 3, 3, CLAUSE, 1, 3, CLAUSE, 2, 5, CLAUSE, 3, 4, EQUALITY, 7, 1, 2, 3, CLAUSE, 2, 4, END },
      1000000, 1, 29, 0, 1, 2, "" },
    { "dead after a split", { 2, 3, CLAUSE, 1, 7, EQUALITY, 7, 1, 2, END }, 1000000, 1, 0, 1, 2, 1, "" },
    { "dead after a split, allowance 0", { 2, 3, CLAUSE, 1, 7, EQUALITY, 7, 1, 2, END }, 0, 2, 0, 0, 0, 1, "" },
    { "rounds at the bound", { 3, 2, CLAUSE, 2, 1, 3, 2, CLAUSE, 1, 1, 2, 2, CLAUSE, 1, 2, END },
      1000000, 0, 0, 0, 0, 4, "222" },
    { "rounds, undecided", { 3, 2, CLAUSE, 1, 2, CLAUSE, 2, 1, 3, 1, END }, 0, 2, 0, 0, 0, 2, "" },
    { "rounds of the first box", { 3, 2, CLAUSE, 1, 2, CLAUSE, 2, 1, 3, 1, END }, 1000000, 0, 0, 1, 0, 2, "211" },
    { "rounds, dead at once", { 2, 2, CLAUSE, END }, 1000000, 1, 5, 0, 1, 1, "" },
    { "rounds, last box takes more", { 3, 2, CLAUSE, 2, 1, 3, 1, CLAUSE, 1, 1, 2, 2, CLAUSE, 1, 2, 3, 2, END },
      1000000, 0, 0, 1, 0, 1, "112" },
    { "rounds, one room", { 1, 3, CLAUSE, 1, 6, CLAUSE, 1, 4, END }, 1000000, 0, 0, 0, 0, 2, "3" },
    { "l, allowance 0",
      { 3, 2, CLAUSE, 2, 1, 3, 1, CLAUSE, 2, 1, 3, 2, CLAUSE, 2, 2, 3, 1, CLAUSE, 2, 2, 3, 2, END },
      0, 2, 0, 0, 0, 1, "" },
    { "own set", { 3, 2, CLAUSE, 1, 3, CLAUSE, 2, 1, 3, 1, END }, 1000000, 0, 0, 1, 0, 1, "111" },
    { "own sets united", { 3, 2, CLAUSE, 1, 1, 1, 2, 2, 1, CLAUSE, 2, 2, 3, 1, END }, 1000000, 0, 0, 1, 0, 1, "111" },
    { "settled by another", { 3, 3, CLAUSE, 2, 3, CLAUSE, 1, 1, 2, 3, CLAUSE, 2, 1, 3, 1, END },
      1000000, 0, 0, 1, 0, 2, "111" },
    { "named and not live", { 3, 3, CLAUSE, 1, 6, CLAUSE, 1, 1, 2, 1, 3, 1, END }, 1000000, 0, 0, 1, 0, 2, "211" },
    { "values settled", { 5, 3, CLAUSE, 1, 3, CLAUSE, 2, 1, CLAUSE, 3, 2, EQUALITY, 7, 1, 2, 3, 4, 5, END },
      1000000, 0, 0, 1, 0, 2, "11213" },
    { "later clause", { 3, 2, CLAUSE, 2, 1, 3, 1, CLAUSE, 1, 2, 2, 2, END }, 1000000, 0, 0, 1, 0, 1, "121" },
    { "start behind the rule it makes dead", { 2, 3, CLAUSE, 1, 1, START, 1, 6, END }, 1000000, 1, 5, 0, 1, 1, "" },
    { "start before it", { 2, 3, START, 1, 6, CLAUSE, 1, 1, END }, 1000000, 1, 13, 0, 1, 1, "" },
    { "start that shares nothing with M", { 2, 3, EQUALITY, 3, 1, 2, START, 1, 4, END }, 1000000, 1, 5, 0, 1, 1, "" },
    { "starts alone", { 2, 3, START, 2, 4, START, 1, 6, END }, 0, 0, 0, 0, 0, 1, "23" },
    { "starts of one value", { 2, 3, START, 1, 4, START, 2, 2, END }, 0, 0, 0, 0, 0, 1, "32" },
    { "start {1..n}, e", { 2, 2, EQUALITY, 3, 1, 2, START, 1, 3, END }, 1000000, 0, 0, 1, 0, 1, "12" },
    { "start, rounds at the bound", { 2, 2, EQUALITY, 3, 1, 2, START, 1, 2, END }, 0, 0, 0, 0, 0, 2, "21" },
    { "starts with gaps, split", { 2, 5, START, 1, 18, CLAUSE, 1, 16, 2, 16, START, 2, 20, END },
      1000000, 0, 0, 1, 0, 1, "25" },
    { "starts with gaps, allowance 0", { 2, 5, START, 1, 18, CLAUSE, 1, 16, 2, 16, START, 2, 20, END },
      0, 2, 0, 0, 0, 1, "" },
    { "settled by the start", { 2, 3, CLAUSE, 1, 6, 2, 1, START, 1, 6, END }, 0, 0, 0, 0, 0, 1, "21" },
    { "not live by the start", { 3, 3, CLAUSE, 1, 1, 2, 1, 3, 1, START, 1, 6, END }, 1000000, 0, 0, 1, 0, 1, "211" },
    /* At most one takes 1 and at most one takes 2: three positions of two values cannot. */
    { "at most one, three of two values", { 3, 2, AT_MOST, 1, 1, 1, 2, 3, AT_MOST, 1, 2, 1, 2, 3, END },
      1000000, 1, 0, 1, 2, 1, "" },
    /* Rooms that meet the set do not count, so the first box is neither dead nor cut. */
    { "two rooms meet", { 2, 2, AT_MOST, 1, 1, 1, 2, END }, 0, 2, 0, 0, 0, 1, "" },
    { "two rooms meet, split", { 2, 2, AT_MOST, 1, 1, 1, 2, END }, 1000000, 0, 0, 1, 0, 1, "12" },
    /* A room of two values counts where it lies inside the set. */
    { "a wide room inside", { 2, 3, START, 1, 3, AT_MOST, 1, 3, 1, 2, END }, 0, 0, 0, 0, 0, 2, "13" },
    { "two wide rooms inside", { 2, 3, START, 1, 3, START, 2, 3, AT_MOST, 1, 3, 1, 2, END },
      0, 1, 21, 0, 1, 1, "" },
    /* All others are cut in one look: one at a time takes a round more, and finds another field dead. */
    { "all others cut", { 3, 2, START, 1, 1, AT_MOST, 1, 1, 1, 2, 3, END }, 0, 0, 0, 0, 0, 2, "122" },
    { "all others cut, dead behind", { 3, 2, START, 1, 1, AT_MOST, 1, 1, 1, 2, 3, CLAUSE, 3, 1, END },
      0, 1, 24, 0, 1, 1, "" },
    /* All are counted before any is cut: the room inside is the last one named. */
    { "those named before are cut", { 3, 2, START, 3, 1, AT_MOST, 1, 1, 1, 2, 3, END }, 0, 0, 0, 0, 0, 2, "221" },
    { "named against their order", { 3, 2, START, 3, 1, AT_MOST, 1, 1, 3, 2, 1, END }, 0, 0, 0, 0, 0, 2, "221" },
    /* Settled where just k rooms meet the set, or fewer. */
    { "k rooms meet", { 2, 2, START, 1, 2, AT_MOST, 1, 1, 1, 2, END }, 0, 0, 0, 0, 0, 1, "21" },
    { "settled, so not live", { 3, 2, AT_MOST, 1, 1, 1, CLAUSE, 2, 1, 3, 1, END }, 1000000, 0, 0, 1, 0, 1, "111" },
    { "settled behind, so not live", { 3, 2, CLAUSE, 2, 1, 3, 1, AT_MOST, 1, 1, 1, END },
      1000000, 0, 0, 1, 0, 1, "111" },
    /* Not live where the room does not meet the set. */
    { "one does not meet", { 3, 3, START, 1, 6, AT_MOST, 1, 1, 1, 2, 3, END }, 1000000, 0, 0, 1, 0, 1, "212" },
    /* Position 1 is live and has one value only: step 4 splits the next ones. */
    { "a live position of one value", { 4, 3, START, 1, 4, AT_MOST, 2, 4, 1, 2, 3, 4, END },
      1000000, 0, 0, 2, 0, 1, "3111" },
    { "a live position of one value, 1 split", { 4, 3, START, 1, 4, AT_MOST, 2, 4, 1, 2, 3, 4, END },
      1, 2, 0, 1, 0, 1, "" },
    /* Position 1 lies inside the set, is live and has two values: it is split first. */
    { "a wide room inside is split", { 3, 3, START, 1, 3, START, 2, 5, START, 3, 5, AT_MOST, 2, 3, 1, 2, 3, END },
      1000000, 0, 0, 2, 0, 1, "113" },
    { "a wide room inside is split, 1 split",
      { 3, 3, START, 1, 3, START, 2, 5, START, 3, 5, AT_MOST, 2, 3, 1, 2, 3, END }, 1, 2, 0, 1, 0, 1, "" },
    /* One more rule at the end: what was NONE with this allowance is UNDECIDED. */
    { "none with 1 split", { 5, 3, EQUALITY, 7, 2, 5, END }, 1, 1, 0, 1, 2, 1, "" },
    { "one rule more", { 5, 3, EQUALITY, 7, 2, 5, AT_MOST, 1, 2, 1, 3, 4, 5, END }, 1, 2, 0, 1, 0, 1, "" },
    /* Dead in a later round, by rooms that rules behind it cut. */
    { "dead in round two, at most one", { 2, 2, AT_MOST, 1, 1, 1, 2, CLAUSE, 1, 1, CLAUSE, 2, 1, END },
      0, 1, 5, 0, 1, 2, "" },
    { "at most none", { 2, 2, AT_MOST, 0, 1, 1, 2, END }, 0, 0, 0, 0, 0, 2, "22" },
    { "at most none, one inside", { 2, 2, START, 2, 1, AT_MOST, 0, 1, 1, 2, END }, 0, 1, 13, 0, 1, 1, "" },
    { "at most none, a wide one inside", { 1, 3, START, 1, 3, AT_MOST, 0, 3, 1, END }, 0, 1, 13, 0, 1, 1, "" },
    { "at most none of the empty set", { 2, 2, AT_MOST, 0, 0, 1, 2, END }, 0, 0, 0, 0, 0, 1, "11" },
    { "at most none, and no positions", { 2, 2, AT_MOST, 0, 3, END }, 0, 0, 0, 0, 0, 1, "11" },
    { "at most one of the full set", { 2, 2, AT_MOST, 1, 3, 1, 2, END }, 0, 1, 5, 0, 1, 1, "" },
    { "at most two of the full set", { 2, 2, AT_MOST, 2, 3, 1, 2, END }, 0, 0, 0, 0, 0, 1, "11" },
    { "at most 255", { 2, 2, AT_MOST, 255, 3, 1, 2, END }, 0, 0, 0, 0, 0, 1, "11" },
    { "largest", { 64, 32, END }, 1000000, 0, 0, 0, 0, 1,
      "1111111111111111111111111111111111111111111111111111111111111111" },
};

static const struct refused {
    const char *name;
    size_t length;
    uint8_t bytes[24];
    uint64_t number, place;
} refused[] = {
    { "empty input", 0, { 0 }, 14, 0 },
    { "a cut head", 2, { 1, 0 }, 13, 0 },
    { "65 positions", 5, { 1, 0, 2, 65, 32 }, 18, 0 },
    { "a second header", 10, { 1, 0, 2, 2, 2, 1, 0, 2, 2, 2 }, 15, 5 },
    { "a clause of four bytes", 12, { 1, 0, 2, 2, 2, 2, 0, 4, 1, 0, 0, 0 }, 17, 5 },
    { "value 3 of 2", 13, { 1, 0, 2, 2, 2, 2, 0, 5, 1, 0, 0, 0, 4 }, 20, 5 },
    { "tag 6", 13, { 1, 0, 2, 2, 2, 6, 0, 5, 1, 0, 0, 0, 1 }, 16, 5 },
    { "tag 4 first", 13, { 4, 0, 5, 1, 0, 0, 0, 1, 1, 0, 2, 2, 2 }, 14, 0 },
    { "a start of four bytes", 12, { 1, 0, 2, 2, 2, 4, 0, 4, 1, 0, 0, 0 }, 17, 5 },
    { "a start of six bytes", 14, { 1, 0, 2, 2, 2, 4, 0, 6, 1, 0, 0, 0, 1, 0 }, 17, 5 },
    { "a start of six bytes that are missing", 8, { 1, 0, 2, 2, 2, 4, 0, 6 }, 17, 5 },
    { "a start that is cut", 12, { 1, 0, 2, 2, 2, 4, 0, 5, 1, 0, 0, 0 }, 13, 5 },
    { "a start of position 0, empty", 13, { 1, 0, 2, 2, 2, 4, 0, 5, 0, 0, 0, 0, 0 }, 19, 5 },
    { "a start of position 3 of 2, value 3 of 2", 13, { 1, 0, 2, 2, 2, 4, 0, 5, 3, 0, 0, 0, 4 }, 19, 5 },
    { "an empty start", 13, { 1, 0, 2, 2, 2, 4, 0, 5, 1, 0, 0, 0, 0 }, 26, 5 },
    { "a second start, value 3 of 2", 21, { 1, 0, 2, 2, 2, 4, 0, 5, 1, 0, 0, 0, 1, 4, 0, 5, 1, 0, 0, 0, 4 }, 20, 13 },
    { "a second start, empty", 21, { 1, 0, 2, 2, 2, 4, 0, 5, 1, 0, 0, 0, 1, 4, 0, 5, 1, 0, 0, 0, 0 }, 26, 13 },
    { "a second start", 21, { 1, 0, 2, 2, 2, 4, 0, 5, 1, 0, 0, 0, 1, 4, 0, 5, 1, 0, 0, 0, 2 }, 27, 13 },
    { "a second start, equal", 21, { 1, 0, 2, 2, 2, 4, 0, 5, 1, 0, 0, 0, 1, 4, 0, 5, 1, 0, 0, 0, 1 }, 27, 13 },
    { "tag 5 first", 13, { 5, 0, 5, 1, 0, 0, 0, 1, 1, 0, 2, 2, 2 }, 14, 0 },
    { "at most k of four bytes", 12, { 1, 0, 2, 2, 2, 5, 0, 4, 1, 0, 0, 0 }, 17, 5 },
    { "at most k of 70 bytes that are missing", 8, { 1, 0, 2, 2, 2, 5, 0, 70 }, 17, 5 },
    { "at most k of 261 bytes that are missing", 8, { 1, 0, 2, 2, 2, 5, 1, 5 }, 17, 5 },
    { "at most k of 69 bytes that are missing", 8, { 1, 0, 2, 2, 2, 5, 0, 69 }, 13, 5 },
    { "at most k, its last position missing", 14, { 1, 0, 2, 2, 2, 5, 0, 7, 1, 0, 0, 0, 4, 3 }, 13, 5 },
    { "at most k, value 3 of 2, position 3 of 2", 14, { 1, 0, 2, 2, 2, 5, 0, 6, 1, 0, 0, 0, 4, 3 }, 20, 5 },
    { "at most k, value 3 of 2, one named twice", 15, { 1, 0, 2, 2, 2, 5, 0, 7, 1, 0, 0, 0, 4, 1, 1 }, 20, 5 },
    { "at most k, position 0", 14, { 1, 0, 2, 2, 2, 5, 0, 6, 1, 0, 0, 0, 1, 0 }, 19, 5 },
    { "at most k, position 3 of 2, then 1", 15, { 1, 0, 2, 2, 2, 5, 0, 7, 1, 0, 0, 0, 1, 3, 1 }, 19, 5 },
    { "at most k, position 3 of 2 twice", 15, { 1, 0, 2, 2, 2, 5, 0, 7, 1, 0, 0, 0, 1, 3, 3 }, 19, 5 },
    { "at most k, one named twice, then 3 of 2", 16, { 1, 0, 2, 2, 2, 5, 0, 8, 1, 0, 0, 0, 1, 1, 1, 3 }, 19, 5 },
    { "at most k, one named twice", 15, { 1, 0, 2, 2, 2, 5, 0, 7, 1, 0, 0, 0, 1, 1, 1 }, 36, 5 },
    { "at most k, one named twice, one between", 16, { 1, 0, 2, 2, 2, 5, 0, 8, 1, 0, 0, 0, 1, 2, 1, 2 }, 36, 5 },
    { "at most 255 of the empty set, twice", 15, { 1, 0, 2, 2, 2, 5, 0, 7, 255, 0, 0, 0, 0, 2, 2 }, 36, 5 },
};

/* Writes the file. Answers its most rounds: the sum over positions of starting size less one, plus one. */
static uint64_t write_rules(const int *rules)
{
    int kind = 0, most = rules[0] * (rules[1] - 1) + 1;

    write_header(&file, (uint32_t)rules[0], (uint32_t)rules[1]);
    for (const int *at = rules + 2; *at != END; at++) {
        if (*at == CLAUSE) {
            kind = CLAUSE;
            write_clause(&file);
        } else if (*at == EQUALITY) {
            kind = EQUALITY;
            write_equality(&file, (uint32_t)*++at);
        } else if (*at == AT_MOST) {
            kind = AT_MOST;
            write_at_most(&file, (uint32_t)at[1], (uint32_t)at[2]);
            at += 2;
        } else if (*at == START) {
            write_start(&file, (uint32_t)at[1], (uint32_t)at[2]);
            most -= rules[1] - __builtin_popcount((uint32_t)at[2]);
            at += 2;
        } else if (kind == CLAUSE) {
            write_atom(&file, (uint32_t)at[0], (uint32_t)at[1]);
            at++;
        } else {
            write_named(&file, (uint32_t)*at);
        }
    }
    return (uint64_t)most;
}

static void expect(int holds, const char *name)
{
    if (holds)
        return;
    printf("both planners give another reply than the right one for the example: %s\n", name);
    exit(1);
}

static void compare_examples(void)
{
    for (size_t k = 0; k < sizeof examples / sizeof *examples; k++) {
        const struct example *example = &examples[k];
        uint64_t most = write_rules(example->rules);
        struct outcome outcome;

        outcome = compare(64, example->allowance);
        expect(outcome.number == example->number && outcome.place == example->place
                   && outcome.splits == example->splits && outcome.dead_ends == example->dead_ends
                   && outcome.rounds == example->rounds && outcome.most_rounds == most,
               example->name);
        for (size_t i = 0; example->plan[i]; i++)
            expect(outcome.area[GUARD + i] == example->plan[i] - '0', example->name);
    }
    for (size_t k = 0; k < sizeof refused / sizeof *refused; k++) {
        struct outcome outcome;

        file.length = refused[k].length;
        memcpy(file.bytes, refused[k].bytes, refused[k].length);
        outcome = compare(64, 1000000);
        expect(outcome.number == refused[k].number && outcome.place == refused[k].place
                   && outcome.splits == 0 && outcome.dead_ends == 0 && outcome.rounds == 0
                   && outcome.most_rounds == 0,
               refused[k].name);
    }
}

/* ---- files at random ---- */

/* a set within {1..n}: empty, full, one value, the low values, the high values, or any */
static uint32_t any_set(uint32_t n)
{
    uint32_t all = values_to(n);

    switch (below(12)) {
    case 0: return 0;
    case 1: return all;
    case 2:
    case 3:
    case 4: return value_alone(1 + below(n));
    case 5: return values_to(below(n + 1));
    case 6: return all & ~values_to(below(n + 1));
    default: return (uint32_t)random_next(&chance) & all;
    }
}

/* one value or two */
static uint32_t two_values(uint32_t n)
{
    uint32_t set = value_alone(1 + below(n));

    return set | value_alone(1 + below(n));
}

/* A starting set within {1..n}, never empty: {1..n}, one value, the low values, the high values, all values but
   one, or any, with gaps. A wide one has no fewer than half of the values. */
static uint32_t any_start(uint32_t n, int wide)
{
    uint32_t all = values_to(n), set = 0;

    switch (wide ? 4 + below(4) : below(10)) {
    case 0:
    case 1: set = value_alone(1 + below(n)); break;
    case 2: set = values_to(1 + below(n)); break;
    case 3: set = all & ~values_to(below(n)); break;
    case 4: set = all; break;
    case 5: set = all & ~value_alone(1 + below(n)); break;
    case 6: set = all & ~values_to(below((n + 1) / 2)); break;
    case 7: set = values_to(n - below((n + 1) / 2)); break;
    default: set = (uint32_t)random_next(&chance) & all;
    }
    return set ? set : value_alone(1 + below(n));
}

/* `size` of the values 1 to n, which may be all of them */
static uint32_t some_values(uint32_t n, uint32_t size)
{
    uint32_t set = 0;

    for (uint32_t left = size < n ? size : n; left > 0;) {
        uint32_t value = value_alone(1 + below(n));

        left -= !(set & value);
        set |= value;
    }
    return set;
}

/* the value of a set before which `before` smaller ones are in it, alone */
static uint32_t value_of(uint32_t set, uint32_t before)
{
    for (; before > 0; before--)
        set &= set - 1;
    return set & -set;
}

/* adds an atom to the clause */
static void any_atom(uint32_t v, uint32_t n)
{
    uint32_t position = 1 + below(v);

    write_atom(&file, position, any_set(n));
}

/* a clause of up to `most` atoms; a position may come several times */
static void any_clause(uint32_t v, uint32_t n, uint32_t most)
{
    write_clause(&file);
    if (one_in(60))
        return; /* an empty clause */
    for (uint32_t left = 1 + below(most); left > 0; left--)
        any_atom(v, n);
}

/* an equality of up to `most` positions, with or without repeats */
static void any_equality(uint32_t v, uint32_t n, uint32_t most)
{
    uint32_t positions = below(most + 1), span = 1 + below(v);

    write_equality(&file, one_in(4) ? values_to(n) : any_set(n));
    for (; positions > 0; positions--)
        write_named(&file, 1 + below(span));
}

/* a count for an "at most k" of so many positions: 0, small, near their number, above it, or 255 */
static uint32_t any_most(uint32_t positions)
{
    switch (below(12)) {
    case 0: return 0;
    case 1: return positions;
    case 2: return positions > 0 ? positions - 1 : 0;
    case 3: return positions + 1 + below(255 - positions);
    case 4: return one_in(2) ? 255 : below(256);
    case 5:
    case 6: return below(positions + 1);
    case 7: return 2;
    case 8: return 2 + below(3);
    default: return 1;
    }
}

/* Adds `count` of the positions 1 to v to the field, each once: in rising order or in any. */
static void name_some(struct rule_file *to, uint32_t v, uint32_t count)
{
    uint8_t order[64];
    int rising = one_in(2);

    for (uint32_t p = 0; p < v; p++)
        order[p] = (uint8_t)(1 + p);
    if (rising) { /* each is taken with the chance that makes `count` come out */
        for (uint32_t p = 0; p < v; p++)
            if (random_chance(&chance, count, v - p)) {
                write_named(to, order[p]);
                count--;
            }
        return;
    }
    for (uint32_t p = 0; p < count; p++) {
        uint32_t other = p + below(v - p);
        uint8_t taken = order[other];

        order[other] = order[p];
        order[p] = taken;
        write_named(to, taken);
    }
}

/* "At most k" of none, few, most or all positions, with any count and any set. */
static void any_at_most(struct rule_file *to, uint32_t v, uint32_t n)
{
    uint32_t count = one_in(3) ? v : one_in(16) ? 0 : one_in(2) ? below(v + 1) : v - below((v + 1) / 2);

    write_at_most(to, any_most(count), any_set(n));
    name_some(to, v, count);
}

/* Few positions and values, up to a dozen rules of all kinds. */
static void make_small(void)
{
    uint32_t v = 1 + below(5), n = 1 + below(4);

    write_header(&file, v, n);
    for (uint32_t left = below(12); left > 0; left--)
        if (one_in(4))
            any_equality(v, n, v + 2);
        else
            any_clause(v, n, 4);
}

/* Any number of positions and values, up to 40 rules. */
static void make_medium(void)
{
    uint32_t v = 1 + below(64), n = 1 + below(32);

    write_header(&file, v, n);
    for (uint32_t left = below(40); left > 0; left--)
        if (one_in(12))
            any_equality(v, n, 8);
        else
            any_clause(v, n, 6);
}

/* Shrinking before the split: clauses that cut the smallest values away, at once or as soon as an
   earlier position has been split, and clauses that keep the box from being settled. */
static void make_cut_first(void)
{
    uint32_t v = 2 + below(5), n = 3 + below(8);
    uint32_t all = values_to(n);

    write_header(&file, v, n);
    for (uint32_t left = 3 + below(14); left > 0; left--) {
        uint32_t p = 1 + below(v), q = 1 + below(v), cut = 1 + below((n + 1) / 2);

        switch (below(7)) {
        case 0: /* p takes a higher value */
            write_clause(&file);
            write_atom(&file, p, all & ~values_to(cut));
            break;
        case 1: /* if p takes this value, q takes a higher one */
        case 2:
        case 3:
            write_clause(&file);
            write_atom(&file, p, all & ~value_alone(1 + below(n)));
            write_atom(&file, q, all & ~values_to(cut));
            break;
        case 4: /* if p takes a value from some value on, q takes one from a set */
        case 5:
            write_clause(&file);
            write_atom(&file, p, values_to(below(n)));
            write_atom(&file, q, any_set(n));
            break;
        default: /* p and q, and now and then a third, use these two values between them */
            write_equality(&file, two_values(n));
            write_named(&file, p);
            write_named(&file, q);
            if (one_in(3))
                write_named(&file, 1 + below(v));
        }
    }
}

/* A short ladder: each position drives the next one up, and the last one drives the first, with the
   fields in file order or against it; in the second case a round cuts one room or few. */
static void make_climb(void)
{
    uint32_t v = 2 + below(6), n = 2 + below(7);
    uint32_t all = values_to(n);
    int against = one_in(2);

    write_header(&file, v, n);
    write_clause(&file);
    write_atom(&file, 1, all & ~values_to(1));
    for (uint32_t step = 1; step <= v; step++) {
        uint32_t p = against ? v + 1 - step : step, q = p == v ? 1 : p + 1;

        for (uint32_t least = 2; least <= n; least++) {
            uint32_t then = least + (p == v);

            if (then > n)
                break;
            write_clause(&file);
            write_atom(&file, p, values_to(least - 1));
            write_atom(&file, q, all & ~values_to(then - 1));
        }
    }
    if (one_in(2))
        any_clause(v, n, 3);
    if (one_in(4))
        any_equality(v, n, v);
}

/* One value a round: a chain of clauses, each of which takes a value from a position as soon as the one before
   it has taken a value from another. They stand in the file from the chain's end to its beginning. Where the
   chain leaves every position one value, the rounds are as many as there can be. In every other file the
   positions have starting sets, all of one size, and the chain goes by their values. */
static void make_one_a_round(void)
{
    uint32_t v = 2 + below(5), n = 2 + below(4), turn = below(v);
    uint32_t all = values_to(n), size = n, sets[6];
    int rising = one_in(2), started = one_in(2);
    uint32_t links;

    if (started) {
        n += below(8);
        all = values_to(n);
    }
    for (uint32_t p = 0; p < v; p++)
        sets[p] = some_values(n, size);
    links = one_in(3) ? 1 + below(v * (size - 1)) : v * (size - 1);
    write_header(&file, v, n);
    for (uint32_t p = 0; started && p < v; p++)
        write_start(&file, 1 + p, sets[p]);
    for (; links > 0; links--) {
        uint32_t before = links - 2, last = links - 1; /* links of the chain, counted from 0 */

        write_clause(&file);
        if (links > 1) {
            uint32_t p = (turn + before) % v;

            write_atom(&file, 1 + p, value_of(sets[p], rising ? before / v : size - 1 - before / v));
        }
        write_atom(&file, 1 + (turn + last) % v,
                   all & ~value_of(sets[(turn + last) % v], rising ? last / v : size - 1 - last / v));
    }
    if (one_in(4))
        any_clause(v, n, 3);
    if (one_in(6))
        any_equality(v, n, v);
}

/* Equalities above all: as many values as positions, one more or fewer, repeats. */
static void make_equalities(void)
{
    uint32_t v = 1 + below(6), n = 1 + below(5);

    write_header(&file, v, n);
    for (uint32_t left = 1 + below(4); left > 0; left--) {
        uint32_t from = 1 + below(v), to = from + below(v - from + 1);

        write_equality(&file, one_in(3) ? any_set(n) : values_to(1 + below(n)));
        for (uint32_t p = from; p <= to; p++) {
            write_named(&file, p);
            if (one_in(4))
                write_named(&file, from + below(to - from + 1));
        }
        if (one_in(3))
            any_clause(v, n, 3);
    }
}

/* Clauses of three positions with one or two of two or three values. */
static void make_threes(void)
{
    uint32_t v = 3 + below(10), n = 2 + below(2);

    write_header(&file, v, n);
    for (uint32_t left = v * (2 + below(4)); left > 0; left--) {
        write_clause(&file);
        for (int k = 0; k < 3; k++) {
            uint32_t position = 1 + below(v);

            write_atom(&file, position, n == 3 ? two_values(n) : value_alone(1 + below(n)));
        }
    }
}

/* Clauses of two or three of the last positions, from `from` to v, with one or two of their values: they
   leave few plans or none. */
static void hard_clauses(uint32_t from, uint32_t v, uint32_t n)
{
    for (uint32_t left = (v + 1 - from) * (2 + below(3)); left > 0; left--) {
        write_clause(&file);
        for (uint32_t atoms = 2 + below(2); atoms > 0; atoms--) {
            uint32_t position = from + below(v + 1 - from);

            write_atom(&file, position, one_in(2) ? two_values(n) : value_alone(1 + below(n)));
        }
    }
}

/* Positions in front that step 4 passes over, and hard clauses on those behind: no rule names a position
   in front, or it is named only where the clause is settled or the position is not live. */
static void make_passed_over(void)
{
    uint32_t front = 1 + below(4), v = front + 2 + below(4), n = 2 + below(3);
    uint32_t all = values_to(n);

    write_header(&file, v, n);
    for (uint32_t p = 1; p <= front; p++) {
        uint32_t q = front + 1 + below(v - front), r = front + 1 + below(v - front);
        uint32_t set = (uint32_t)random_next(&chance) & all;

        switch (below(8)) {
        case 0: /* no rule names it */
        case 1:
            break;
        case 2: /* only a clause that another position settles */
            write_clause(&file);
            write_atom(&file, p, set);
            write_atom(&file, q, all);
            break;
        case 3: /* its sets settle the clause, but only united */
            write_clause(&file);
            write_atom(&file, p, set);
            write_atom(&file, q, any_set(n));
            write_atom(&file, p, all & ~set);
            break;
        case 4: /* its room, once it is cut, lies inside the union, and no single set holds it */
            write_clause(&file);
            write_atom(&file, p, value_alone(1) | value_alone(n));
            write_clause(&file);
            write_atom(&file, p, value_alone(1));
            write_atom(&file, q, any_set(n));
            write_atom(&file, p, value_alone(n));
            break;
        case 5: /* another position's room does so */
            write_clause(&file);
            write_atom(&file, q, value_alone(1) | value_alone(n));
            write_clause(&file);
            write_atom(&file, p, set);
            write_atom(&file, q, value_alone(n));
            write_atom(&file, q, value_alone(1));
            break;
        case 6: /* named in a clause that need not be settled, and not live in it */
            write_clause(&file);
            write_atom(&file, p, all & ~value_alone(1));
            write_clause(&file);
            write_atom(&file, p, value_alone(1));
            write_atom(&file, q, two_values(n));
            write_atom(&file, r, two_values(n));
            break;
        default: /* live in a clause with one behind, until that one is split */
            write_clause(&file);
            write_atom(&file, p, set);
            write_atom(&file, q, all & ~value_alone(1 + below(n)));
        }
    }
    hard_clauses(front + 1, v, n);
}

/* An equality of which some values are settled, each alone in a room, and others not; position 1 has
   values of the first kind, and now and then one of the other. */
static void make_values_settled(void)
{
    uint32_t n = 3 + below(2), settled = 2 + below(n - 2), v = 1 + settled + 2 + below(3);

    write_header(&file, v, n);
    write_clause(&file);
    write_atom(&file, 1, one_in(4) ? values_to(settled + 1) : values_to(settled));
    for (uint32_t value = 1; value <= settled; value++) {
        write_clause(&file);
        write_atom(&file, 1 + value, value_alone(value));
    }
    write_equality(&file, values_to(n));
    for (uint32_t p = 1; p <= v; p++)
        if (!one_in(12))
            write_named(&file, p);
    if (one_in(2))
        hard_clauses(2 + settled, v, n);
    if (one_in(3))
        any_equality(v, n, v);
}

/* Rules that go by starting sets: each position has a few of many values, and a rule's set has some of these,
   none or all, and others that are not fitted. An equality asks for values that its positions have. The
   starting sets stand before the rules, behind them, or one before each rule as long as there are any. */
static void make_started(void)
{
    uint32_t v = 2 + below(6), n = one_in(4) ? 32 : 3 + below(10), where = below(3), next = 1;
    uint32_t all = values_to(n), sets[7];

    for (uint32_t p = 0; p < v; p++)
        sets[p] = some_values(n, one_in(6) ? 1 : 2 + below(3));
    write_header(&file, v, n);
    for (; where == 0 && next <= v; next++)
        write_start(&file, next, sets[next - 1]);
    for (uint32_t left = v * (1 + below(4)); left > 0; left--) {
        if (where == 1 && next <= v) {
            write_start(&file, next, sets[next - 1]);
            next++;
        }
        if (one_in(8)) {
            uint32_t p = below(v), q = below(v), asked = 0;

            asked |= value_of(sets[p], below((uint32_t)__builtin_popcount(sets[p])));
            asked |= value_of(sets[q], below((uint32_t)__builtin_popcount(sets[q])));
            write_equality(&file, one_in(6) ? sets[p] : asked);
            write_named(&file, 1 + p);
            write_named(&file, 1 + q);
            if (one_in(3))
                write_named(&file, 1 + below(v));
            continue;
        }
        write_clause(&file);
        for (uint32_t atoms = 2 + below(2); atoms > 0; atoms--) {
            uint32_t p = below(v), set = (uint32_t)random_next(&chance) & sets[p];

            if (one_in(8))
                set = 0;
            else if (one_in(8))
                set = sets[p];
            if (one_in(2))
                set |= (uint32_t)random_next(&chance) & all & ~sets[p];
            write_atom(&file, 1 + p, set);
        }
    }
    for (; next <= v; next++)
        write_start(&file, next, sets[next - 1]);
}

/* "At most k" above all: buses whose sets lie apart or share values, with a count for each, and rules that
   drive positions onto them: a position starts inside a bus or with values of one, one of two positions takes a
   value of a bus, or an equality asks for values of one. */
static void make_busy_buses(void)
{
    uint32_t v = 2 + below(6), n = 2 + below(6), buses = 1 + below(3), crowd = 2 + below(4), sets[3];
    uint32_t all = values_to(n);

    write_header(&file, v, n);
    for (uint32_t b = 0; b < buses; b++) {
        uint32_t count = one_in(2) ? v : 1 + below(v);

        sets[b] = some_values(n, one_in(4) ? 1 : 2 + below((n + 1) / 2));
        write_at_most(&file, one_in(4) ? any_most(count) : 1 + below(count), sets[b]);
        name_some(&file, v, count);
    }
    for (uint32_t p = 1; p <= v; p++) {
        uint32_t bus = sets[below(buses)];

        if (!one_in(p == 1 ? 2 : crowd)) /* position 1 more often: step 4 comes to it first */
            continue;
        switch (below(6)) {
        case 0: write_start(&file, p, bus & -bus); break;
        case 1:
        case 2: write_start(&file, p, bus); break;
        default: write_start(&file, p, bus | some_values(n, 1 + below(2)));
        }
    }
    for (uint32_t left = one_in(3) ? 0 : below(2 * v); left > 0; left--) {
        uint32_t p = 1 + below(v), q = 1 + below(v), bus = sets[below(buses)];

        switch (below(6)) {
        case 0: /* one of two takes a value of a bus, or of two buses */
        case 1:
        case 2:
            write_clause(&file);
            write_atom(&file, p, bus);
            write_atom(&file, q, sets[below(buses)]);
            break;
        case 3: /* if p does, q takes some value */
            write_clause(&file);
            write_atom(&file, p, all & ~bus);
            write_atom(&file, q, any_set(n));
            break;
        case 4: /* p and q use these values between them */
            write_equality(&file, one_in(2) ? bus : two_values(n));
            write_named(&file, p);
            write_named(&file, q);
            if (one_in(2))
                write_named(&file, 1 + below(v));
            break;
        default:
            any_clause(v, n, 3);
        }
    }
}

/* The workloads of the table, in small. */
static void make_workload(void)
{
    switch (below(9)) {
    case 0: make_sudoku(&file, 4, (int)below(9)); break;
    case 1: make_sudoku(&file, 6, 6 + (int)below(12)); break;
    case 2: make_deep(&file, 1 + (int)below(5), 0); break;
    case 3: {
        int clauses = (int)below(100);

        make_ladder_random(&file, clauses, (int)below(1000));
        break;
    }
    case 4: {
        int size = 1 + (int)below(8);

        make_half_wired(&file, size, (int)below(3));
        break;
    }
    case 5: {
        int pairs = 100 + (int)below(300);

        make_fitted(&file, pairs, (int)below(1000));
        break;
    }
    case 6: {
        static const int buses[] = { 1, 1, 2, 2, 3, 4 };
        int k = (int)below(6), no = (int)below(1000);

        if (k == 0)
            make_buses_clauses(&file, buses[k], no);
        else
            make_buses(&file, buses[k], no);
        break;
    }
    default: {
        int size = 1 + (int)below(8);

        make_queens(&file, size, (int)below(3));
    }
    }
}

/* A byte that a limit goes by, or one beside it. */
static uint32_t edge(uint32_t limit)
{
    switch (below(12)) {
    case 0: return 0;
    case 1: return limit + 1;
    case 2: return 255;
    case 3:
    case 4: return 1;
    case 5:
    case 6: return limit;
    default: return 1 + below(limit);
    }
}

/* A set at the limit n, now and then with a value above it. */
static uint32_t edge_set(uint32_t n)
{
    switch (below(16)) {
    case 0: return n < 32 ? value_alone(n + 1) : value_alone(32);
    case 1: return UINT32_MAX;
    case 2: return value_alone(32);
    case 3: return values_to(n);
    case 4: return 0;
    case 5: return value_alone(n);
    default: return any_set(n);
    }
}

/* Positions, values, sets and lengths at their limits and just beyond. About half are refused. */
static void make_limits(void)
{
    static const uint32_t v_limits[] = { 1, 2, 63, 64, 64, 64, 0, 65, 255 };
    static const uint32_t n_limits[] = { 1, 2, 31, 32, 32, 32, 0, 33, 255 };
    uint32_t v = v_limits[below(one_in(4) ? 9 : 6)], n = n_limits[below(one_in(4) ? 9 : 6)];
    uint32_t within_v = v < 1 || v > 64 ? 64 : v, within_n = n < 1 || n > 32 ? 32 : n;
    int strict = one_in(2); /* whether limits are kept in the rules */

    write_header(&file, v, n);
    for (uint32_t left = below(6); left > 0; left--) {
        if (one_in(4)) {
            uint32_t position = strict || !one_in(4) ? 1 + below(within_v) : edge(within_v);

            write_start(&file, position, strict || !one_in(4) ? any_start(within_n, 1) : edge_set(within_n));
        } else if (one_in(4)) {
            uint32_t positions = one_in(3) ? within_v : below(within_v + 1);

            write_at_most(&file, any_most(positions), strict || !one_in(4) ? any_set(within_n) : edge_set(within_n));
            name_some(&file, within_v, positions);
            for (uint32_t faults = strict || one_in(2) ? 0 : 1 + below(2); faults > 0; faults--)
                write_named(&file, edge(within_v)); /* 19, 36, or with 65 positions 17 */
        } else if (one_in(3)) {
            uint32_t positions = one_in(3) ? 62 + below(strict ? 3 : 4) : below(6);

            write_equality(&file, strict ? any_set(within_n) : edge_set(within_n));
            for (; positions > 0; positions--)
                write_named(&file, strict || !one_in(8) ? 1 + below(within_v) : edge(within_v));
        } else {
            uint32_t atoms = one_in(6) ? 60 + below(80) : below(5);

            write_clause(&file);
            for (; atoms > 0; atoms--) {
                uint32_t position = strict || !one_in(4) ? 1 + below(within_v) : edge(within_v);

                write_atom(&file, position, strict || !one_in(4) ? any_set(within_n) : edge_set(within_n));
            }
        }
    }
}

/* A header and bytes that mean nothing, small ones above all. */
static void make_bytes(void)
{
    uint32_t v = 1 + below(3);

    write_header(&file, v, 1 + below(3));
    if (one_in(4))
        file.length = 0;
    for (uint32_t left = below(40); left > 0; left--)
        write_byte(&file, one_in(8) ? below(256) : below(7));
}

/* A file of nearly, exactly or just over 32,768 bytes. */
static void make_long(void)
{
    size_t target = one_in(3) ? 32768 : one_in(8) ? 32769 + below(20000) : 32760 + below(12);
    uint32_t v = 1 + below(64), n = 1 + below(32);

    write_header(&file, v, n);
    if (one_in(2))
        for (uint32_t p = 1; p <= v; p++)
            if (!one_in(8))
                write_start(&file, p, any_start(n, 1));
    while (target - file.length > 200) {
        if (one_in(20))
            any_equality(v, n, 1);
        write_clause(&file);
        for (uint32_t left = 1 + below(12); left > 0; left--) {
            uint32_t position = 1 + below(v);

            write_atom(&file, position, values_to(n) & ~(one_in(2) ? value_alone(1 + below(n)) : 0));
        }
    }
    while (file.length < target) {
        size_t left = target - file.length;
        size_t size = left <= 71 ? left : left < 78 ? 60 : 71; /* never leaves fewer than 7 bytes */

        write_equality(&file, values_to(1));
        while (file.length - file.open < size)
            write_named(&file, 1 + below(v));
    }
}

/* ---- changing a file ---- */

static size_t starts[LONGEST_FILE]; /* where the fields begin, and the end of the last whole one */

/* Fills `starts` and answers how many whole fields there are. */
static size_t find_fields(void)
{
    size_t count = 0, at = 0;

    while (at + 3 <= file.length && count + 1 < sizeof starts / sizeof *starts) {
        size_t next = at + 3 + ((size_t)file.bytes[at + 1] << 8 | file.bytes[at + 2]);

        if (next > file.length)
            break;
        starts[count++] = at;
        at = next;
    }
    starts[count] = at;
    return count;
}

/* Puts the fields behind the header into another order. */
static void shuffle(void)
{
    static uint8_t copy[sizeof file.bytes];
    static size_t order[LONGEST_FILE];
    size_t count = find_fields(), to;

    if (count < 3 || starts[count] != file.length)
        return;
    memcpy(copy, file.bytes, file.length);
    for (size_t k = 0; k < count; k++)
        order[k] = k;
    for (size_t k = count - 1; k > 1; k--) {
        size_t other = 1 + below((uint32_t)k), kept = order[k];

        order[k] = order[other];
        order[other] = kept;
    }
    to = starts[1];
    for (size_t k = 1; k < count; k++) {
        size_t size = starts[order[k] + 1] - starts[order[k]];

        memcpy(file.bytes + to, copy + starts[order[k]], size);
        to += size;
    }
}

static void insert(size_t at, const uint8_t *bytes, size_t length)
{
    if (file.length + length > sizeof file.bytes)
        return;
    memmove(file.bytes + at + length, file.bytes + at, file.length - at);
    memcpy(file.bytes + at, bytes, length);
    file.length += length;
}

/* Where a field can be added: behind any whole field; at 0 where there is none. */
static size_t any_border(void)
{
    size_t fields = find_fields();

    return fields > 0 ? starts[1 + below((uint32_t)fields)] : 0;
}

/* A field that is to be added. */
static struct rule_file piece;

static void write_piece(uint32_t position, uint32_t set)
{
    piece.length = 0;
    write_start(&piece, position, set);
}

/* A starting set's field with a fault, for a file where `p` has the starting set `set`. Where n is 32 no value
   is above it, and the field has another fault or none. */
static void write_faulty_piece(uint32_t v, uint32_t n, uint32_t p, uint32_t set)
{
    static const uint32_t lengths[] = { 0, 1, 4, 6, 9, 10, 69, 256, 261 };
    uint32_t above = n < 32 ? value_alone(n + 1 + below(32 - n)) : 0;
    uint32_t length, missing;

    switch (below(10)) {
    case 0: /* an empty set: 26, whether the position has one already or not */
    case 1:
        write_piece(1 + below(v), 0);
        break;
    case 2: /* a second one: 27 */
    case 3:
        write_piece(p, any_start(n, 0));
        break;
    case 4: /* a second one that is equal: 27 too */
        write_piece(p, set);
        break;
    case 5: /* a second one that is empty: 26 */
        write_piece(p, 0);
        break;
    case 6: /* a second one with a value above n: 20 */
        write_piece(p, above | any_set(n));
        break;
    case 7: /* a position out of range: 19, whatever the set is */
        p = one_in(2) ? v + 1 : one_in(2) ? 0 : 255;
        write_piece(p, one_in(2) ? above : any_set(n));
        break;
    default: /* another length, 17, with or without the bytes; or the right one and bytes missing: 13, if none follow */
        length = one_in(4) ? 5 : lengths[below(sizeof lengths / sizeof *lengths)];
        missing = one_in(3) ? 1 + below(5) : 0;
        piece.length = 0;
        write_byte(&piece, 4);
        write_byte(&piece, length >> 8);
        write_byte(&piece, length & 255);
        for (uint32_t at = 0; at + missing < length; at++)
            write_byte(&piece, at == 0 ? p : at == 4 ? 1 : 0);
    }
}

/* Adds starting sets to the file: at all positions, at most of them or at a few, wide ones or any; behind the
   header, at the end or at any place among the fields; and now and then one that is faulty. Positions that
   have one already are left out. */
static void add_starts(void)
{
    uint64_t have = 0;
    uint32_t v, n, how_many = below(4), where = below(4), p = 0, set = 0;
    int wide = one_in(2);
    size_t fields = find_fields();

    if (fields == 0 || file.bytes[0] != 1 || starts[1] != 5 || file.length + 800 > LONGEST_FILE)
        return;
    v = file.bytes[3];
    n = file.bytes[4];
    if (v < 1 || v > 64 || n < 1 || n > 32)
        return;
    for (size_t k = 1; k < fields; k++)
        if (file.bytes[starts[k]] == 4 && starts[k + 1] - starts[k] == 8)
            have |= (uint64_t)1 << (file.bytes[starts[k] + 3] + 63u) % 64;
    for (uint32_t q = 1; q <= v; q++) {
        if (have >> (q - 1) & 1)
            continue;
        if (how_many == 0 ? 0 : how_many == 1 ? one_in(4) : !one_in(v < 4 ? 2 : v / 2))
            continue;
        p = q;
        set = any_start(n, wide);
        write_piece(p, set);
        insert(where == 0 ? 5 : where == 1 ? file.length : any_border(), piece.bytes, piece.length);
    }
    if (p != 0 && one_in(6)) {
        write_faulty_piece(v, n, p, set);
        insert(one_in(3) ? file.length : any_border(), piece.bytes, piece.length);
    }
}

/* A field of tag 5 with a fault. Where n is 32 no value is above it, and the field has another fault or none. */
static void write_faulty_at_most(uint32_t v, uint32_t n)
{
    static const uint32_t lengths[] = { 0, 1, 4, 70, 71, 133, 256, 261 };
    uint32_t above = n < 32 ? value_alone(n + 1 + below(32 - n)) : 0, count = below(v + 1);
    uint32_t out = one_in(2) ? v + 1 : one_in(2) ? 0 : 255;
    uint32_t length, missing;

    piece.length = 0;
    switch (below(8)) {
    case 0: /* a position twice: 36, whatever k and the set are */
    case 1:
    case 2:
        write_at_most(&piece, any_most(count), any_set(n));
        name_some(&piece, v, v < 64 ? v : 1 + below(63));
        write_named(&piece, piece.bytes[8 + below((uint32_t)piece.length - 8)]);
        break;
    case 3: /* a position twice, and behind it one out of range: 19 */
        write_at_most(&piece, any_most(count), any_set(n));
        name_some(&piece, v, v < 60 ? v : 1 + below(60));
        write_named(&piece, piece.bytes[8]);
        write_named(&piece, out);
        break;
    case 4: /* a position out of range, once or twice: 19 */
        write_at_most(&piece, any_most(count), any_set(n));
        write_named(&piece, out);
        if (one_in(2))
            write_named(&piece, out);
        name_some(&piece, v, v < 60 ? count : below(60));
        break;
    case 5: /* a value above n: 20, with one position twice or out of range as well */
        write_at_most(&piece, any_most(count), above | any_set(n));
        name_some(&piece, v, v < 60 ? v : 60);
        if (one_in(2))
            write_named(&piece, one_in(2) ? out : piece.bytes[8]);
        break;
    default: /* another length, 17, with or without the bytes; or a right one and bytes missing: 13, if none follow */
        length = one_in(2) ? 5 + below(65) : lengths[below(sizeof lengths / sizeof *lengths)];
        missing = one_in(3) ? 0 : 1 + below(length < 5 ? 5 : length);
        write_byte(&piece, 5);
        write_byte(&piece, length >> 8);
        write_byte(&piece, length & 255);
        for (uint32_t at = 0; at + missing < length; at++)
            write_byte(&piece, at == 0 ? 1 : at < 4 ? 0 : at == 4 ? 1 : at - 4);
    }
}

/* Adds one to three "at most k" to the file: behind the header, at the end or at any place among the fields; and
   now and then one that is faulty. */
static void add_at_most(void)
{
    uint32_t v, n, where = below(4);
    size_t fields = find_fields();

    if (fields == 0 || file.bytes[0] != 1 || starts[1] != 5 || file.length + 600 > LONGEST_FILE)
        return;
    v = file.bytes[3];
    n = file.bytes[4];
    if (v < 1 || v > 64 || n < 1 || n > 32)
        return;
    if (v > 8 && !one_in(4)) /* with many positions most searches become long ones */
        return;
    for (uint32_t left = 1 + below(3); left > 0; left--) {
        piece.length = 0;
        any_at_most(&piece, v, n);
        insert(where == 0 ? 5 : where == 1 ? file.length : any_border(), piece.bytes, piece.length);
    }
    if (one_in(6)) {
        write_faulty_at_most(v, n);
        insert(one_in(3) ? file.length : any_border(), piece.bytes, piece.length);
    }
}

/* Damages the file in one place. */
static void damage(void)
{
    static const uint8_t telling[] = { 0, 1, 2, 3, 4, 5, 6, 17, 32, 33, 64, 65, 68, 69, 70, 128, 255 };
    size_t fields = find_fields(), field, at;

    if (file.length == 0)
        return;
    field = fields ? starts[below((uint32_t)fields)] : 0;
    at = below((uint32_t)file.length);
    switch (below(13)) {
    case 0: /* one bit */
        file.bytes[at] ^= (uint8_t)(1 << below(8));
        break;
    case 1: /* one byte */
        file.bytes[at] = telling[below(sizeof telling)];
        break;
    case 2: /* a byte is lost */
        memmove(file.bytes + at, file.bytes + at + 1, file.length - at - 1);
        file.length--;
        break;
    case 3: { /* a byte too many */
        uint8_t byte = telling[below(sizeof telling)];

        insert(at, &byte, 1);
        break;
    }
    case 4: /* the end is lost */
        file.length = at;
        break;
    case 5: /* the end is lost inside the last fields' heads */
        file.length = fields ? field + below(4) : at;
        break;
    case 6: /* bytes follow */
        for (uint32_t left = 1 + below(6); left > 0 && file.length < sizeof file.bytes; left--)
            write_byte(&file, telling[below(sizeof telling)]);
        break;
    case 7: { /* a header in the middle, now and then right behind the first */
        uint8_t header[] = { 1, 0, 2, 2, 2 };

        insert(one_in(3) && fields > 1 ? starts[1] : field, header, sizeof header);
        break;
    }
    case 8: /* another tag */
        file.bytes[field] = telling[below(sizeof telling)];
        break;
    case 9: /* another length */
        if (field + 2 < file.length) {
            static const int by[] = { 1, 255, 5, 251, 128 };

            if (one_in(6))
                file.bytes[field + 1] = telling[below(sizeof telling)];
            else
                file.bytes[field + 2] = (uint8_t)(file.bytes[field + 2] + by[below(5)]);
        }
        break;
    case 10: /* the first byte of the content: a position, a count, or the high byte of a set */
        if (field + 3 < file.length)
            file.bytes[field + 3] = telling[below(sizeof telling)];
        break;
    case 11: /* a field stands twice */
        if (fields > 0) {
            size_t k = below((uint32_t)fields), size = starts[k + 1] - starts[k];

            memcpy(piece.bytes, file.bytes + starts[k], size);
            insert(any_border(), piece.bytes, size);
        }
        break;
    default: /* a later byte of the content that is a position in an atom, an equality and an "at most k" */
        if (field + 8 < file.length)
            file.bytes[field + 8] = telling[below(sizeof telling)];
    }
}

/* ---- what the sound files had in them ---- */

static struct {
    uint64_t calls, empty_clause, several_atoms, named_twice, no_positions, empty_set, full_set, at_limit;
    uint64_t start, start_behind, start_everywhere, start_gap, start_above_1, start_single, start_full;
    uint64_t start_not_live, start_settled, start_plan, start_undecided, start_split;
    uint64_t at_most, at_most_0, at_most_1, at_most_more, at_most_as_many, at_most_above, at_most_255;
    uint64_t at_most_empty, at_most_full, at_most_no_positions, at_most_64, at_most_alone, at_most_several;
    uint64_t at_most_clause, at_most_equality, at_most_start, at_most_by_number[3], at_most_split;
} had;

static uint32_t set_at(const uint8_t *at)
{
    return (uint32_t)at[0] << 24 | (uint32_t)at[1] << 16 | (uint32_t)at[2] << 8 | at[3];
}

static uint32_t find_starts(uint32_t *sets)
{
    size_t fields = find_fields();
    uint32_t v = file.bytes[3];

    for (uint32_t p = 0; p < v; p++)
        sets[p] = values_to(file.bytes[4]);
    for (size_t k = 1; k < fields; k++)
        if (file.bytes[starts[k]] == 4)
            sets[file.bytes[starts[k] + 3] - 1] = set_at(file.bytes + starts[k] + 4);
    return v;
}

static int meets_at_most(const uint8_t *values)
{
    size_t fields = find_fields();

    for (size_t k = 1; k < fields; k++) {
        const uint8_t *at = file.bytes + starts[k], *end = file.bytes + starts[k + 1];
        uint32_t taken = 0, set = set_at(at + 4);

        if (at[0] != 5)
            continue;
        for (const uint8_t *named = at + 8; named < end; named++)
            taken += (set & value_alone(values[*named - 1])) != 0;
        if (taken > at[3])
            return 0;
    }
    return 1;
}

/* Whether a clause is settled from the start by a starting set that is not {1..n}; and whether it has a
   position that has a set there and is not live from the start. Both go by united sets. */
static void survey_clause(const uint8_t *at, const uint8_t *end, const uint32_t *sets, uint32_t all, int *settled,
                          int *not_live)
{
    uint32_t united[64] = { 0 };

    for (; at < end; at += 5)
        united[at[0] - 1] |= set_at(at + 1);
    for (uint32_t p = 0; p < file.bytes[3]; p++) {
        *settled |= united[p] != all && (sets[p] & ~united[p]) == 0;
        *not_live |= united[p] != 0 && (sets[p] & united[p]) == 0;
    }
}

/* what the file's starting sets are, and what came of it where there are any */
static void survey_starts(const struct outcome *outcome)
{
    uint32_t sets[64], v = find_starts(sets), all = values_to(file.bytes[4]), given = 0;
    size_t fields = find_fields();
    int behind = 0, rule = 0, gap = 0, above_1 = 0, single = 0, full = 0, settled = 0, not_live = 0;

    for (size_t k = 1; k < fields; k++) {
        const uint8_t *at = file.bytes + starts[k] + 3, *end = file.bytes + starts[k + 1];

        if (file.bytes[starts[k]] == 4) {
            uint32_t set = set_at(at + 1), filled = set | ((set & -set) - 1);

            given++;
            behind |= rule;
            gap |= (filled & (filled + 1)) != 0; /* a value is missing between two of its values */
            above_1 |= (set & 1) == 0;
            single |= (set & (set - 1)) == 0;
            full |= set == all;
        } else {
            rule = 1;
            if (file.bytes[starts[k]] == 2)
                survey_clause(at, end, sets, all, &settled, &not_live);
        }
    }
    had.start += given > 0;
    had.start_behind += (uint64_t)behind;
    had.start_everywhere += given == v;
    had.start_gap += (uint64_t)gap;
    had.start_above_1 += (uint64_t)above_1;
    had.start_single += (uint64_t)single;
    had.start_full += (uint64_t)full;
    had.start_settled += (uint64_t)settled;
    had.start_not_live += (uint64_t)not_live;
    if (given > 0) {
        had.start_plan += outcome->number == 0;
        had.start_undecided += outcome->number == 2;
        had.start_split += outcome->splits > 0;
    }
}

/* what the file's "at most k" are, which other fields it has, and what came of it where there is one */
static void survey_at_most(const struct outcome *outcome)
{
    uint32_t all = values_to(file.bytes[4]), given = 0;
    size_t fields = find_fields();
    int none = 0, one = 0, more = 0, as_many = 0, above = 0, largest = 0, empty = 0, full = 0, unnamed = 0, widest = 0;
    int clause = 0, equality = 0, start = 0;

    for (size_t k = 1; k < fields; k++) {
        const uint8_t *at = file.bytes + starts[k], *end = file.bytes + starts[k + 1];

        clause |= at[0] == 2;
        equality |= at[0] == 3;
        start |= at[0] == 4;
        if (at[0] == 5) {
            uint32_t most = at[3], set = set_at(at + 4), positions = (uint32_t)(end - at) - 8;

            given++;
            none |= most == 0;
            one |= most == 1 && most < positions;
            more |= most > 1 && most < positions;
            as_many |= most > 0 && most == positions;
            above |= most > positions;
            largest |= most == 255;
            empty |= set == 0;
            full |= set == all;
            unnamed |= positions == 0;
            widest |= positions == 64;
        }
    }
    if (given == 0)
        return;
    had.at_most++;
    had.at_most_0 += (uint64_t)none;
    had.at_most_1 += (uint64_t)one;
    had.at_most_more += (uint64_t)more;
    had.at_most_as_many += (uint64_t)as_many;
    had.at_most_above += (uint64_t)above;
    had.at_most_255 += (uint64_t)largest;
    had.at_most_empty += (uint64_t)empty;
    had.at_most_full += (uint64_t)full;
    had.at_most_no_positions += (uint64_t)unnamed;
    had.at_most_64 += (uint64_t)widest;
    had.at_most_several += given > 1;
    had.at_most_clause += (uint64_t)clause;
    had.at_most_equality += (uint64_t)equality;
    had.at_most_start += (uint64_t)start;
    had.at_most_alone += !clause && !equality && !start;
    had.at_most_by_number[outcome->number]++;
    had.at_most_split += outcome->splits > 0;
}

static void survey(const struct outcome *outcome)
{
    size_t fields = find_fields();
    uint32_t v = file.bytes[3], all = values_to(file.bytes[4]);
    int empty_clause = 0, several = 0, twice = 0, no_positions = 0, empty = 0, full = 0;

    for (size_t k = 1; k < fields; k++) {
        const uint8_t *at = file.bytes + starts[k] + 3, *end = file.bytes + starts[k + 1];
        int is_clause = file.bytes[starts[k]] == 2;
        uint64_t named = 0;

        if (file.bytes[starts[k]] > 3)
            continue;
        if (is_clause && at == end)
            empty_clause = 1;
        if (!is_clause && end - at == 4)
            no_positions = 1;
        for (int first = 1; at < end; first = 0) {
            if (is_clause || first) { /* a set: in an atom behind its position, in an equality first */
                uint32_t set = set_at(at + is_clause);

                empty |= set == 0;
                full |= set == all;
            }
            if (is_clause || !first) {
                if (named >> (*at - 1) & 1) {
                    several |= is_clause;
                    twice |= !is_clause;
                }
                named |= (uint64_t)1 << (*at - 1);
            }
            at += is_clause ? 5 : first ? 4 : 1;
        }
    }
    had.calls++;
    had.empty_clause += (uint64_t)empty_clause;
    had.several_atoms += (uint64_t)several;
    had.named_twice += (uint64_t)twice;
    had.no_positions += (uint64_t)no_positions;
    had.empty_set += (uint64_t)empty;
    had.full_set += (uint64_t)full;
    had.at_limit += v == 64 && file.bytes[4] == 32;
    survey_starts(outcome);
    survey_at_most(outcome);
}

/* Refusals at a starting set's field, by number; and of those for an empty set, such where the position has a
   starting set already; of those for a second one, such where both are equal. */
static struct {
    uint64_t by_number[NUMBERS], empty_second, equal_second;
} refused_start;

/* Refusals at a field of tag 5, by number; and of those for a set or a position out of range, such where a
   position in range is named twice. */
static struct {
    uint64_t by_number[NUMBERS], set_and_twice, position_and_twice;
} refused_at_most;

/* Whether the field of tag 5 at this place, which is there to its end, names a position from 1 to v twice. */
static int names_twice(size_t place)
{
    size_t end = place + 3 + ((size_t)file.bytes[place + 1] << 8 | file.bytes[place + 2]);
    uint64_t named = 0;

    for (size_t at = place + 8; at < end; at++) {
        uint32_t position = file.bytes[at];

        if (position < 1 || position > file.bytes[3])
            continue;
        if (named >> (position - 1) & 1)
            return 1;
        named |= (uint64_t)1 << (position - 1);
    }
    return 0;
}

static void survey_refusal(const struct outcome *outcome)
{
    uint64_t number = outcome->number, place = outcome->place;
    size_t fields = find_fields();

    if (number >= 13 && place != 0 && file.bytes[place] == 5) {
        refused_at_most.by_number[number % NUMBERS]++;
        refused_at_most.set_and_twice += number == 20 && names_twice(place);
        refused_at_most.position_and_twice += number == 19 && names_twice(place);
    }
    if (number < 13 || place == 0 || file.bytes[place] != 4)
        return;
    refused_start.by_number[number % NUMBERS]++;
    if (number != 26 && number != 27)
        return;
    for (size_t k = 1; k < fields && starts[k] < place; k++)
        if (file.bytes[starts[k]] == 4 && file.bytes[starts[k] + 3] == file.bytes[place + 3]) {
            refused_start.empty_second += number == 26;
            refused_start.equal_second +=
                number == 27 && memcmp(file.bytes + starts[k] + 4, file.bytes + place + 4, 4) == 0;
        }
}

/* ---- the calls ---- */

static const size_t answer_lens[] = { 0, 1, 63, 64, 65, 200 };
static const uint64_t allowances[] = { 0, 1, 2, 3, 10, 1000000, 1000001 };

enum { ANSWER_LENS = 6, ALLOWANCES = 7, PROBE = 1500, SHORT_FILE = 80 };

/* How many calls may still run a search of more splits than PROBE, and how many were spared it. Only
   short files may: a million splits of a long one take minutes under the emulator. */
static uint64_t long_searches, long_run, spared;

/* Whether the current file's search needs more than PROBE splits, by the yardstick. */
static int is_long(void)
{
    struct outcome probe;
    uint8_t area[AREA] = { 0 };
    struct yardstick_counts counts = yardstick_counts;

    memcpy(input_end - file.length, file.bytes, file.length);
    call(&yardstick, area, 64, PROBE, &probe);
    /* This call is not one of those compared, so it does not count. */
    yardstick_counts = counts;
    return probe.number == 2;
}

/* Compares on the current file; where its search is long and enough long ones were run, with ten
   splits in place of a million. */
static struct outcome compare_within_reason(size_t answer_len, uint64_t allowance, int long_one)
{
    if (long_one && allowance == 1000000 && answer_len >= 64) {
        if (long_run < long_searches && file.length <= SHORT_FILE) {
            long_run++;
        } else {
            spared++;
            allowance = 10;
        }
    }
    return compare(answer_len, allowance);
}

/* All calls for the current file. */
static void compare_file(uint64_t number)
{
    int long_one = is_long();
    struct outcome outcome;
    size_t answer_len;

    if (number % 100 == 0) { /* every buffer length with every allowance */
        for (size_t a = 0; a < ANSWER_LENS; a++)
            for (size_t b = 0; b < ALLOWANCES; b++)
                compare_within_reason(answer_lens[a], allowances[b], long_one);
        return;
    }
    answer_len = one_in(20) ? answer_lens[below(3)] : answer_lens[3 + below(3)];
    outcome = compare_within_reason(answer_len, one_in(2) ? 1000000 : allowances[below(ALLOWANCES)], long_one);
    if (outcome.number <= 1 && outcome.splits > 0 && one_in(4)) {
        /* exactly the splits that are needed, and one fewer */
        compare(64, outcome.splits);
        compare(64, outcome.splits - 1);
    }
}

static void make_file(void)
{
    uint32_t kind = below(860);

    if (kind < 2)
        make_long();
    else if (kind < 170)
        make_small();
    else if (kind < 240)
        make_medium();
    else if (kind < 350)
        make_cut_first();
    else if (kind < 440)
        make_equalities();
    else if (kind < 470)
        make_threes();
    else if (kind < 490)
        make_workload();
    else if (kind < 505)
        make_climb();
    else if (kind < 580)
        make_limits();
    else if (kind < 600)
        make_bytes();
    else if (kind < 670)
        make_passed_over();
    else if (kind < 700)
        make_values_settled();
    else if (kind < 720)
        make_one_a_round();
    else if (kind < 780)
        make_started();
    else
        make_busy_buses();
    if (one_in(3))
        add_starts();
    if (one_in(4))
        add_at_most();
    if (one_in(3))
        shuffle();
    if (one_in(4))
        for (uint32_t left = 1 + below(3); left > 0; left--)
            damage();
}

static void print_count(const char *what, uint64_t count)
{
    printf("    %-64s %llu\n", what, (unsigned long long)count);
}

/* the counts of refusals that are not 0, each with the meaning of its number */
static void print_refusals(const char *const *meanings, const uint64_t *by_number)
{
    for (size_t k = 0; k < NUMBERS; k++)
        if (by_number[k])
            print_count(meanings[k] ? meanings[k] : "a number that 01 and 02 do not have", by_number[k]);
}

int main(int argc, char **argv)
{
    static const char *const meanings[NUMBERS] = {
        [0] = "0 PLAN", [1] = "1 NONE", [2] = "2 UNDECIDED", [10] = "10 input too long",
        [11] = "11 answer buffer too short", [12] = "12 allowance too large",
        [13] = "13 bytes missing", [14] = "14 no header first", [15] = "15 a second header",
        [16] = "16 unknown tag", [17] = "17 wrong length", [18] = "18 v or n out of range",
        [19] = "19 position out of range", [20] = "20 value above n", [26] = "26 starting set empty",
        [27] = "27 second starting set of a position", [36] = "36 position named twice in an \"at most k\"",
    };
    uint64_t least = argc > 1 ? strtoull(argv[1], 0, 10) : 400000, files = 0;

    setvbuf(stdout, 0, _IOLBF, 0);
    if (argc > 2)
        seed = strtoull(argv[2], 0, 10);
    chance.state = seed;
    long_searches = least < 100000 ? 1 : 4;
    make_input_pages();
    catch_crashes();
    compare_examples();
    while (calls < least) {
        make_file();
        compare_file(files++);
    }
    printf("agreement: %llu calls on %llu files made from seed %llu (sum %016llx), no difference\n",
           (unsigned long long)calls, (unsigned long long)files, (unsigned long long)seed,
           (unsigned long long)sum);
    printf("  calls by reply:\n");
    for (size_t k = 0; k < NUMBERS; k++)
        if (meanings[k] || calls_by_number[k])
            print_count(meanings[k] ? meanings[k] : "a number that 01 and 02 do not have", calls_by_number[k]);
    printf("  of the refusals, at the field of a starting set:\n");
    print_refusals(meanings, refused_start.by_number);
    print_count("26 where the position has a starting set already", refused_start.empty_second);
    print_count("27 where both sets are equal", refused_start.equal_second);
    printf("  of the refusals, at the field of an \"at most k\":\n");
    print_refusals(meanings, refused_at_most.by_number);
    print_count("20 where a position is named twice too", refused_at_most.set_and_twice);
    print_count("19 where a position is named twice too", refused_at_most.position_and_twice);
    printf("  of the calls that were not refused, with such a file:\n");
    print_count("all", had.calls);
    print_count("an empty clause", had.empty_clause);
    print_count("several atoms on one position in a clause", had.several_atoms);
    print_count("a position named twice in an equality", had.named_twice);
    print_count("an equality that names no position", had.no_positions);
    print_count("an empty set", had.empty_set);
    print_count("a full set", had.full_set);
    print_count("64 positions and 32 values", had.at_limit);
    print_count("a starting set", had.start);
    print_count("  among them one behind a rule", had.start_behind);
    print_count("  one at every position", had.start_everywhere);
    print_count("  one that lacks a value between two of its own", had.start_gap);
    print_count("  one without value 1", had.start_above_1);
    print_count("  one of a single value", had.start_single);
    print_count("  one of all values", had.start_full);
    print_count("  one that settles a clause which {1..n} would not settle", had.start_settled);
    print_count("  one that keeps its position from being live in a clause", had.start_not_live);
    print_count("  the reply is PLAN", had.start_plan);
    print_count("  the reply is UNDECIDED", had.start_undecided);
    print_count("  there were splits", had.start_split);
    print_count("an \"at most k\"", had.at_most);
    print_count("  among them one with k 0", had.at_most_0);
    print_count("  one with k 1 and more positions", had.at_most_1);
    print_count("  one with k of 2 or more and more positions than k", had.at_most_more);
    print_count("  one with k positions", had.at_most_as_many);
    print_count("  one with fewer positions than k", had.at_most_above);
    print_count("  one with k 255", had.at_most_255);
    print_count("  one with the empty set", had.at_most_empty);
    print_count("  one with the full set", had.at_most_full);
    print_count("  one that names no position", had.at_most_no_positions);
    print_count("  one that names 64", had.at_most_64);
    print_count("  two or more of them", had.at_most_several);
    print_count("  a clause too", had.at_most_clause);
    print_count("  an equality too", had.at_most_equality);
    print_count("  a starting set too", had.at_most_start);
    print_count("  no field of another kind", had.at_most_alone);
    print_count("  the reply is PLAN", had.at_most_by_number[0]);
    print_count("  the reply is NONE", had.at_most_by_number[1]);
    print_count("  the reply is UNDECIDED", had.at_most_by_number[2]);
    print_count("  there were splits", had.at_most_split);
    printf("  of the calls that were not refused, by the rounds of the first box:\n");
    print_count("one", rounds.one);
    print_count("two", rounds.two);
    print_count("three", rounds.three);
    print_count("more", rounds.more);
    print_count("as many as the file's most", rounds.bound);
    print_count("  among them three or more", rounds.wide_bound);
    print_count("two or more, and the reply is UNDECIDED", rounds.undecided);
    print_count("a later box took more than the first", yardstick_counts.later_took_more);
    print_count("the last box took another number than the first", yardstick_counts.last_took_others);
    print_count("most rounds of the first box", rounds.most);
    printf("  in the searches, by the yardstick:\n");
    print_count("splits", yardstick_counts.splits);
    print_count("splits where the smallest values were cut away in the same box", yardstick_counts.splits_after_cut);
    print_count("splits that passed over a lower position of two or more values", yardstick_counts.passed_over);
    print_count("  among them one that no rule names", yardstick_counts.passed_unnamed);
    print_count("  one that is live, where all rules that name it are settled", yardstick_counts.passed_live);
    print_count("  one that a rule not settled names and that is not live there", yardstick_counts.passed_named);
    print_count("  one live in an equality not settled, in settled clauses alone", yardstick_counts.passed_equality);
    print_count("boxes found dead after a room of them was cut", yardstick_counts.dead_after_cut);
    print_count("first boxes found dead: NONE with no split, and with a place", yardstick_counts.places);
    print_count("  among them in a later round than the first", yardstick_counts.places_later);
    print_count("  at an equality", yardstick_counts.places_equality);
    print_count("  at an \"at most k\"", yardstick_counts.places_at_most);
    print_count("boxes found dead at an \"at most k\"", yardstick_counts.at_most_dead);
    print_count("  among them by a room of two or more values inside its set", yardstick_counts.at_most_dead_wide);
    print_count("looks at an \"at most k\" that cut a room", yardstick_counts.at_most_cut);
    print_count("  among them two or more rooms", yardstick_counts.at_most_cut_several);
    print_count("  where a room of two or more values lay inside its set", yardstick_counts.at_most_cut_wide);
    print_count("splits of a room that lies inside the set of one not settled", yardstick_counts.splits_inside);
    print_count("splits where a lower position is live in one, with one value", yardstick_counts.live_alone);
    print_count("most rounds of shrinking in one box", yardstick_counts.most_rounds);
    print_count("most splits in one call", most_splits);
    print_count("searches of more than 1,500 splits with 1,000,000 allowed", long_run);
    print_count("such searches with 10 allowed in place of 1,000,000", spared);
    return 0;
}
