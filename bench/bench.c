/*
 * Times Yasmirand against reference.c, all in this one program, counts the instructions that they execute, and measures
 * the stack that they need.
 *
 *     bench BOARDS [emulated]
 *
 * A ratio is Yasmirand's time (instructions, stack) by that of reference.c as one compiler makes it. The program ends
 * with 0 if no row's time is over its limit, a ratio beside gcc -O2, and Yasmirand needs less than 4 KiB of stack; the
 * other columns are for a reader to see. An emulator's times are not the machine's: there the instructions are held to
 * the limits.
 */
#define _DEFAULT_SOURCE /* clock_gettime, sigaction */

#include <signal.h>
#include <stdbool.h>
#include <stdio.h>
#include <string.h>
#include <time.h>
#include <x86intrin.h>

#include "calls.h"
#include "hard.h"
#include "readers.h"
#include "reference.h"
#include "stack_depth.h"

/* ---- Builds ---- */

/*
 * reference.c as compilers make it. bench/run compiles it once for each, with these names in place of its own. gcc turns
 * its loops into vector instructions at -O3 only, clang at -O2 already; none may use more than every x86-64 machine has.
 */
#define DECLARE_BUILD(build)                                                                                           \
    uint64_t build##_read(const uint8_t *capture, size_t capture_len, uint8_t *list, size_t list_len);                 \
    uint64_t build##_route(const uint8_t *capture, size_t capture_len, uint32_t number);                               \
    uint64_t build##_trace(const uint8_t *capture, size_t capture_len, uint32_t vector, uint32_t number);

DECLARE_BUILD(gcc_o3)
DECLARE_BUILD(clang_o2)

enum { GCC_O2, GCC_O3, CLANG_O2, BUILDS };

static const struct reader builds[BUILDS] = {
    [GCC_O2] = {"gcc -O2", reference_read, reference_route, reference_trace},
    [GCC_O3] = {"gcc -O3", gcc_o3_read, gcc_o3_route, gcc_o3_trace},
    [CLANG_O2] = {"clang -O2", clang_o2_read, clang_o2_route, clang_o2_trace},
};

/* What Yasmirand needs, and each build: microseconds, instructions or bytes. */
struct measured {
    double yasmirand, build[BUILDS];
};

/* Of some rows, how many are above 1 × a build, for each, and how many are over their limit. */
struct above {
    size_t rows[BUILDS];
    size_t limit;
};

static void print_head(const char *what)
{
    printf("%-62s %11s", what, "Yasmirand");
    for (size_t i = 0; i < BUILDS; i++)
        printf(" %11s %6s", builds[i].name, "ratio");
    puts("");
}

/* The numbers of one row; counts the ratios above 1. */
static void print_measured(int digits, const struct measured *measured, struct above *above)
{
    printf(" %11.*f", digits, measured->yasmirand);
    for (size_t i = 0; i < BUILDS; i++) {
        double ratio = measured->yasmirand / measured->build[i];

        printf(" %11.*f %6.2f", digits, measured->build[i], ratio);
        above->rows[i] += ratio > 1.0;
    }
}

/* ---- Rows ---- */

static struct hard_capture captures[HARD_CAPTURES];

struct row {
    enum question question;
    enum hard capture;
    double limit; /* how many times what gcc -O2 needs it may take */
};

/* No slower; but CORE that do not rise are compared each with each, and for this W-205 has Yasmirand read the table again. */
#define NO_MORE 1.0
#define ANY_ORDER 3.0

static const struct row rows[] = {
    {READ, BOARD_A, NO_MORE},
    {READ, LARGE_TABLES, NO_MORE},
    {READ, RISING, NO_MORE},
    {READ, FALLING, ANY_ORDER},
    {READ, RISING_AMONG_OTHERS, NO_MORE},
    {READ, FALLING_AMONG_OTHERS, ANY_ORDER},
    {READ, TWO_FAR_APART, NO_MORE},
    {READ, SPARE_CORES, NO_MORE},
    {READ, TABLE_NAMED_OFTEN, NO_MORE},
    {READ, TOUCHING_SEGMENTS, NO_MORE},
    {READ, SHORT_BRIDGE, NO_MORE},
    {READ, ON_HT, NO_MORE},
    {ROUTE, BOARD_A, NO_MORE},
    {TRACE, BOARD_A, NO_MORE},
};

enum { ROWS = sizeof rows / sizeof rows[0] };

static const char *name_of(const struct row *row)
{
    switch (row->question) {
    case READ:
        return captures[row->capture].what;
    case ROUTE:
        return "one route (board A, 72)";
    default:
        return "one trace (board A, vector 3, number 64)";
    }
}

enum {
    ASKED_NUMBER = 72, /* of `route`: on board A it arrives (3, 8) */
    ASKED_VECTOR = 3,  /* of `trace`: on board A (3, 64) is slot 64 */
    ASKED_ARRIVAL = 64,
};

/* What is asked about a capture. */
static struct call call_about(const struct capture *capture, enum question question)
{
    switch (question) {
    case READ:
        return (struct call){READ, capture, LONGEST_LIST, 0};
    case ROUTE:
        return (struct call){ROUTE, capture, ASKED_NUMBER, 0};
    default:
        return (struct call){TRACE, capture, ASKED_VECTOR, ASKED_ARRIVAL};
    }
}

static struct call call_of(const struct row *row)
{
    return call_about(&captures[row->capture].capture, row->question);
}

static uint64_t ask(const struct reader *reader, const struct row *row)
{
    struct call call = call_of(row);

    return make_call(reader, &call);
}

/* Time decides whether a row keeps its limit; under an emulator instructions do. */
static bool emulated;

/* One row, with its limit if its numbers decide; counts it if it is over. */
static void print_row(const struct row *row, int digits, struct measured measured, bool decides, struct above *above)
{
    bool over = measured.yasmirand / measured.build[GCC_O2] > row->limit;

    printf("%-52s %7zu B", name_of(row), captures[row->capture].capture.length);
    print_measured(digits, &measured, above);
    if (decides)
        printf("   %s %.1f x gcc -O2", over ? "OVER" : "limit", row->limit);
    puts("");
    above->limit += over;
    fflush(stdout);
}

/* ---- Time ---- */

enum { ROUNDS = 15 };

static const double ROUND_SECONDS = 0.02;

static double now(void)
{
    struct timespec time;

    clock_gettime(CLOCK_MONOTONIC, &time);
    return (double)time.tv_sec + (double)time.tv_nsec / 1e9;
}

/* What the answers are put in, so that none is left out. */
static volatile uint64_t last_answer;

static double time_round(const struct row *row, const struct reader *reader, unsigned long times)
{
    double start = now();

    for (unsigned long i = 0; i < times; i++)
        last_answer = ask(reader, row);
    return now() - start;
}

static double shorter(double one, double other)
{
    return one < other ? one : other;
}

/* Microseconds for one call: the best of all rounds. The sides take turns, so that what else the machine does meets all. */
static struct measured time_row(const struct row *row)
{
    struct measured best = {.yasmirand = 1e9};
    unsigned long times = 1;

    for (size_t i = 0; i < BUILDS; i++)
        best.build[i] = 1e9;
    while (time_round(row, &yasmirand, times) < ROUND_SECONDS)
        times *= 2;
    for (int round = 0; round < ROUNDS; round++) {
        double scale = 1e6 / (double)times;

        best.yasmirand = shorter(best.yasmirand, scale * time_round(row, &yasmirand, times));
        for (size_t i = 0; i < BUILDS; i++)
            best.build[i] = shorter(best.build[i], scale * time_round(row, &builds[i], times));
    }
    return best;
}

static struct above time_rows(void)
{
    struct above above = {{0}, 0};

    print_head("time, in microseconds");
    for (size_t i = 0; i < ROWS; i++)
        print_row(&rows[i], 2, time_row(&rows[i]), !emulated, &above);
    return above;
}

/* ---- Instructions ---- */

/* With this flag set the processor stops after each instruction, and the program is told by a signal. */
enum { TRAP_FLAG = 0x100 };

static volatile sig_atomic_t stops;

static void count_stop(int signal)
{
    (void)signal;
    stops = stops + 1;
}

/* The compiler is not to know whom it calls: so all are called alike, and what `idle` takes can be taken off exactly. */
static long count_stops(const struct row *row, const struct reader *reader)
{
    const struct reader *volatile asked = reader;
    struct call call = call_of(row);

    stops = 0;
    __writeeflags(__readeflags() | TRAP_FLAG);
    last_answer = make_call(asked, &call);
    __writeeflags(__readeflags() & ~(unsigned long long)TRAP_FLAG);
    return stops;
}

static struct above count_rows(void)
{
    struct sigaction counting = {.sa_handler = count_stop};
    struct above above = {{0}, 0};

    sigaction(SIGTRAP, &counting, NULL);
    print_head("instructions executed");
    for (size_t i = 0; i < ROWS; i++) {
        long nothing = count_stops(&rows[i], &idle);
        struct measured row = {.yasmirand = (double)(count_stops(&rows[i], &yasmirand) - nothing)};

        for (size_t build = 0; build < BUILDS; build++)
            row.build[build] = (double)(count_stops(&rows[i], &builds[build]) - nothing);
        print_row(&rows[i], 0, row, emulated, &above);
    }
    return above;
}

/* ---- Stack ---- */

static size_t greater(size_t one, size_t other)
{
    return one > other ? one : other;
}

/* The stack that a reader needs for one question, at most: about the hard captures and many of every sort. */
static size_t greatest_depth(const struct reader *reader, enum question question)
{
    static struct capture varied;
    size_t greatest = 0;

    for (size_t i = 0; i < HARD_CAPTURES; i++) {
        struct call call = call_about(&captures[i].capture, question);

        greatest = greater(greatest, measure_depth(reader, &call).bytes);
    }
    for (size_t i = 0; make_varied_capture(i, &varied) != NULL; i++) {
        struct call call = call_about(&varied, question);

        greatest = greater(greatest, measure_depth(reader, &call).bytes);
    }
    return greatest;
}

/* Prints the stack that each call needs; gives whether all of Yasmirand's stay under the limit. */
static bool measure_stacks(void)
{
    struct above above = {{0}, 0};
    bool under_limit = true;

    print_head("stack, in bytes");
    for (enum question question = READ; question < QUESTIONS; question++) {
        struct measured measured = {.yasmirand = (double)greatest_depth(&yasmirand, question)};

        for (size_t i = 0; i < BUILDS; i++)
            measured.build[i] = (double)greatest_depth(&builds[i], question);
        printf("%-62s", name_of_question[question]);
        print_measured(0, &measured, &above);
        printf("   limit %d B\n", STACK_LIMIT);
        fflush(stdout);
        under_limit = under_limit && measured.yasmirand < STACK_LIMIT;
    }
    return under_limit;
}

/* ---- All of it ---- */

/* Whether a row is no refusal, and all give it the same answer: else its times would say nothing. */
static bool all_answer(const struct row *row)
{
    uint64_t answer = ask(&yasmirand, row);

    if (refusal_number(answer) != 0) {
        printf("bench: %s: %s\n", name_of(row), tell_read(answer).words);
        return false;
    }
    for (size_t i = 0; i < BUILDS; i++)
        if (ask(&builds[i], row) != answer) {
            printf("bench: %s: reference.c by %s answers something else\n", name_of(row), builds[i].name);
            return false;
        }
    return true;
}

int main(int argc, char **argv)
{
    emulated = argc == 3 && strcmp(argv[2], "emulated") == 0;
    if (argc != 2 && !emulated) {
        fprintf(stderr, "usage: bench BOARDS [emulated]\n");
        return 2;
    }
    make_hard_captures(argv[1], captures);
    for (size_t i = 0; i < ROWS; i++)
        if (!all_answer(&rows[i]))
            return 2;

    if (emulated)
        puts("Emulated: neither the times nor their ratios are those of an x86-64 machine; the instructions are.");

    struct above slower = time_rows();
    struct above longer = count_rows();
    bool under_limit = measure_stacks();

    for (size_t i = 0; i < BUILDS; i++)
        printf("bench: beside reference.c by %s, of %d rows %zu are slower and %zu execute more instructions\n", builds[i].name,
               ROWS, slower.rows[i], longer.rows[i]);

    size_t over = emulated ? longer.limit : slower.limit;

    printf("bench: of %d rows %zu are over their limit of %s\n", ROWS, over, emulated ? "instructions" : "time");
    printf("bench: %s\n", under_limit ? "every stack is under 4 KiB" : "a stack is not under 4 KiB");
    return over == 0 && under_limit ? 0 : 1;
}
