/* The table: how long the proved planner and the yardstick take for the same files.

       measure [--quick] [WHERE]

   WHERE is said in the table's heading: on what machine, or under which emulator, this runs. Each time
   is the median of five samples; a sample repeats the call until it lasts about 0.2 seconds. Samples of
   the two planners take turns. A call of ten seconds or more is timed once, and the row says so. Buffers
   are not cleared between calls. Both are called with the same bytes, and their replies are compared; a
   difference ends the run with exit status 1. Below the table stands how much stack the deep search
   takes. */
#define _GNU_SOURCE
#include <pthread.h>
#include <stdio.h>
#include <stdlib.h>
#include <string.h>
#include <sys/mman.h>
#include <time.h>

#include "oarloom.h"
#include "workloads.h"
#include "yardstick.h"

typedef void planner(const uint8_t *input, size_t input_len, uint8_t *answer, size_t answer_len,
                     uint64_t allowance, uint64_t *number, uint64_t *place, uint64_t *splits,
                     uint64_t *dead_ends, uint64_t *rounds);

struct reply {
    uint64_t number, place, splits, dead_ends, rounds;
    uint8_t answer[64];
};

static struct rule_file file;

static struct reply call(planner *plan, uint64_t allowance)
{
    struct reply reply;

    memset(&reply, 0, sizeof reply);
    plan(file.bytes, file.length, reply.answer, sizeof reply.answer, allowance, &reply.number,
         &reply.place, &reply.splits, &reply.dead_ends, &reply.rounds);
    return reply;
}

/* ---- times ---- */

enum { SAMPLES = 5 };
static const double sample_length = 0.2; /* seconds */
static const double long_call = 10;      /* seconds; from here on one call has to do */

static double now(void)
{
    struct timespec time;

    clock_gettime(CLOCK_MONOTONIC, &time);
    return (double)time.tv_sec + (double)time.tv_nsec * 1e-9;
}

/* the time of one call, from one sample of `repeats` calls */
static double sample(planner *plan, uint64_t allowance, uint64_t repeats)
{
    uint8_t answer[64];
    uint64_t number, place, splits, dead_ends, rounds;
    double start = now();

    for (uint64_t k = 0; k < repeats; k++)
        plan(file.bytes, file.length, answer, sizeof answer, allowance, &number, &place, &splits, &dead_ends,
             &rounds);
    return (now() - start) / (double)repeats;
}

/* how many calls fill a sample */
static uint64_t repeats_for(planner *plan, uint64_t allowance)
{
    for (uint64_t repeats = 1;; repeats *= 4) {
        double one = sample(plan, allowance, repeats);

        if (one * (double)repeats >= sample_length / 4)
            return one >= sample_length ? 1 : (uint64_t)(sample_length / one) + 1;
    }
}

static int by_size(const void *a, const void *b)
{
    double x = *(const double *)a, y = *(const double *)b;

    return x < y ? -1 : x > y;
}

static double median(double *times)
{
    qsort(times, SAMPLES, sizeof *times, by_size);
    return times[SAMPLES / 2];
}

/* The median times of both; the two take turns. */
static void time_both(uint64_t allowance, double *planner_time, double *yardstick_time)
{
    uint64_t planner_repeats = repeats_for(oarloom_plan, allowance);
    uint64_t yardstick_repeats = repeats_for(yardstick_plan, allowance);
    double planner_times[SAMPLES], yardstick_times[SAMPLES];

    for (int k = 0; k < SAMPLES; k++) {
        planner_times[k] = sample(oarloom_plan, allowance, planner_repeats);
        yardstick_times[k] = sample(yardstick_plan, allowance, yardstick_repeats);
    }
    *planner_time = median(planner_times);
    *yardstick_time = median(yardstick_times);
}

/* a time in milliseconds, to four digits or so */
static const char *in_words(double seconds, char *text, size_t size)
{
    double ms = seconds * 1000;

    snprintf(text, size, "%.*f", ms < 0.1 ? 5 : ms < 1 ? 4 : ms < 10 ? 3 : ms < 100 ? 2 : ms < 1000 ? 1 : 0, ms);
    return text;
}

/* ---- the rows ---- */

static const double ratio_limit = 1.5;
static int rows, rows_above; /* rows that were timed, and those with a ratio above the limit */

static void print_reply(const char *who, const struct reply *reply)
{
    printf("%s: number %llu, place %llu, splits %llu, dead ends %llu, rounds %llu\n", who,
           (unsigned long long)reply->number, (unsigned long long)reply->place,
           (unsigned long long)reply->splits, (unsigned long long)reply->dead_ends,
           (unsigned long long)reply->rounds);
}

static void print_row(const struct workload *workload)
{
    static const char *const words[] = { "PLAN", "NONE", "UNDECIDED" };
    struct reply planned, measured;
    double start, planner_time, yardstick_time, per_byte;
    char planner_text[32], yardstick_text[32];
    int is_long;

    workload->make(&file, workload->first, workload->second);
    printf("| %-33s | %6zu | ", workload->name, file.length);
    if (file.length > LONGEST_FILE) {
        printf("left out: the file is longer than 32,768 bytes |\n");
        return;
    }
    start = now();
    measured = call(yardstick_plan, workload->allowance);
    yardstick_time = now() - start;
    if (measured.number == 2 && workload->allowance == LARGEST_ALLOWANCE) {
        printf("left out: the search needs more than 1,000,000 splits |\n");
        return;
    }
    start = now();
    planned = call(oarloom_plan, workload->allowance);
    planner_time = now() - start;
    if (memcmp(&planned, &measured, sizeof planned) != 0 || planned.number > 2) {
        printf("\nDIFFERENCE, or a file that is refused\n");
        print_reply("planner", &planned);
        print_reply("yardstick", &measured);
        exit(1);
    }
    is_long = planner_time >= long_call;
    if (!is_long)
        time_both(workload->allowance, &planner_time, &yardstick_time);
    rows++;
    rows_above += planner_time / yardstick_time > ratio_limit;
    /* the planner's time for a split and a byte of the file, where there is no split for a byte alone */
    per_byte = planner_time / (double)(planned.splits > 0 ? planned.splits : 1) / (double)file.length;
    printf("%-9s | %7llu | %9llu | %10s | %10s | %6.2f | %9.2f |%s\n", words[planned.number],
           (unsigned long long)planned.splits, (unsigned long long)planned.dead_ends,
           in_words(planner_time, planner_text, sizeof planner_text),
           in_words(yardstick_time, yardstick_text, sizeof yardstick_text), planner_time / yardstick_time,
           per_byte * 1e9, is_long ? " one call" : "");
}

/* ---- stack ---- */

enum { STACK = 32 * 1024 * 1024, PAINT = 0xa5 };

struct errand {
    planner *plan;
    struct reply reply;
};

static void *run_errand(void *argument)
{
    struct errand *errand = argument;

    errand->reply = call(errand->plan, LARGEST_ALLOWANCE);
    return 0;
}

/* Runs the call in a thread whose stack was painted, and answers how many bytes of it lost the paint,
   counted from the far end. The thread's own few kilobytes are among them. */
static size_t stack_of(planner *plan, struct reply *reply)
{
    uint8_t *stack = mmap(0, STACK, PROT_READ | PROT_WRITE, MAP_PRIVATE | MAP_ANONYMOUS, -1, 0);
    struct errand errand = { .plan = plan };
    pthread_attr_t attributes;
    pthread_t thread;
    size_t untouched = 0;

    if (stack == MAP_FAILED)
        return 0;
    memset(stack, PAINT, STACK);
    if (pthread_attr_init(&attributes) != 0 || pthread_attr_setstack(&attributes, stack, STACK) != 0
        || pthread_create(&thread, &attributes, run_errand, &errand) != 0
        || pthread_join(thread, 0) != 0) {
        fprintf(stderr, "measure: the thread for the stack could not be run\n");
        exit(2);
    }
    while (untouched < STACK && stack[untouched] == PAINT)
        untouched++;
    munmap(stack, STACK);
    *reply = errand.reply;
    return STACK - untouched;
}

static void print_stack(const char *who, planner *plan)
{
    struct reply reply;
    size_t shallow, deep;

    write_header(&file, 64, 32);
    shallow = stack_of(plan, &reply);
    make_deep(&file, 63, 0);
    deep = stack_of(plan, &reply);
    printf("%-9s  deep search: %8zu bytes, %4zu a level over %llu levels; a file with no rules: %zu bytes\n",
           who, deep, (size_t)((deep - shallow) / reply.splits), (unsigned long long)reply.splits, shallow);
}

int main(int argc, char **argv)
{
    int quick = argc > 1 && strcmp(argv[1], "--quick") == 0;
    const char *where = argc > 1 + quick ? argv[1 + quick] : "as this program was compiled and run";

    setvbuf(stdout, 0, _IOLBF, 0);
    printf("Times of one call in milliseconds, and the planner's in nanoseconds for a split and a byte; %s.\n\n", where);
    printf("| %-33s | %6s | %-9s | %7s | %9s | %10s | %10s | %6s | %9s |\n", "workload", "bytes", "reply", "splits",
           "dead ends", "planner", "yardstick", "ratio", "ns");
    printf("|%.35s|%.7s:|%.11s|%.8s:|%.10s:|%.11s:|%.11s:|%.7s:|%.10s:|\n", "-----------------------------------",
           "-----------", "-----------", "-----------", "-----------", "-----------", "-----------", "-----------",
           "-----------");
    for (size_t k = 0; k < workload_count; k++)
        if (!quick || workloads[k].quick)
            print_row(&workloads[k]);
    printf("\n%d of the %d rows that were timed are above %.1f times the yardstick.\n\n", rows_above, rows,
           ratio_limit);
    printf("Stack, measured in a thread with a painted stack:\n");
    print_stack("planner", oarloom_plan);
    print_stack("yardstick", yardstick_plan);
    return 0;
}
