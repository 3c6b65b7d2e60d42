/*
 * Measures the stack that Yasmirand's entries for C need, and holds it to the 4 KiB of the fixture's small board (W-205).
 *
 *     stack BOARDS
 *
 * Each entry is asked about captures that are hard to read, about boards that keep all rules and about boards that are broken
 * in every known way. The program ends with 0 if every call takes less than 4,096 bytes, every entry has given each refusal
 * that it can give, so that none of its ways out was left unmeasured, and every answer is that of reference.c: a call that
 * answers something else may have gone less deep than it should.
 */
#include <stdbool.h>
#include <stdio.h>

#include "board.h"
#include "calls.h"
#include "hard.h"
#include "readers.h"
#include "stack_depth.h"

static const struct reader *const measured = &yasmirand;

enum { WRONG_TOLD = 20 }; /* more are only counted */

/* ---- One call ---- */

/* What is known of an entry. */
struct entry {
    size_t calls;
    size_t greatest; /* stack, in bytes ... */
    char on[128];    /* ... and where it was met */
    bool gave[NUMBERS];
};

static struct entry entries[QUESTIONS];
static unsigned wrong_answers;

static struct text tell(enum question question, uint64_t answer)
{
    switch (question) {
    case READ:
        return tell_read(answer);
    case ROUTE:
        return tell_route(answer);
    default:
        return tell_trace(answer);
    }
}

static void check_answer(const char *what, enum question question, uint64_t answer, uint64_t right)
{
    if (answer == right || ++wrong_answers > WRONG_TOLD)
        return;
    printf("stack: %s, %s: %s says %s, and reference.c %s\n", what, name_of_question[question], measured->name,
           tell(question, answer).words, tell(question, right).words);
}

/* Gives the answer of reference.c, so that a wrong one does not lead to further questions. */
static uint64_t measure_call(const char *what, struct call call)
{
    struct entry *entry = &entries[call.question];
    struct depth depth = measure_depth(measured, &call);
    uint64_t right = make_call(&reference, &call);

    check_answer(what, call.question, depth.answer, right);
    entry->calls++;
    entry->gave[refusal_number(depth.answer)] = true;
    if (depth.bytes > entry->greatest) {
        entry->greatest = depth.bytes;
        snprintf(entry->on, sizeof entry->on, "%s: %s", what, tell(call.question, depth.answer).words);
    }
    return right;
}

/* ---- One capture ---- */

/* With a list that is long enough for any board, and if it is accepted with one that lacks a byte. */
static bool measure_read(const char *what, const struct capture *capture)
{
    uint64_t result = measure_call(what, (struct call){READ, capture, LONGEST_LIST, 0});
    bool accepted = refusal_number(result) == 0;

    if (accepted)
        measure_call(what, (struct call){READ, capture, 8 * (uint32_t)result - 1, 0});
    return accepted;
}

/* A number is routed, and traced back from where it arrives. */
static void measure_way_and_back(const char *what, const struct capture *capture, uint32_t number)
{
    uint64_t answer = measure_call(what, (struct call){ROUTE, capture, number, 0});

    if (answer < unwired())
        measure_call(what, (struct call){TRACE, capture, (uint32_t)(answer >> 32), (uint32_t)answer});
}

/*
 * The questions are those of document 01's examples about board A, where they have every sort of answer, one about the number
 * that a bridge of 32 pins does not own any more (W-212), those about an input that an HT names, and about what arrives through
 * an HT (W-201), and the SCI.
 */
static void measure_capture(const char *what, const struct capture *capture)
{
    static const uint32_t numbers[] = {3, 17, 26, 45, 50, 72, 96};
    static const struct {
        uint32_t vector, number;
    } arrivals[] = {{3, 64}, {2, 24}, {3, 264}, {2, 264}, {2, 320}};
    bool accepted = measure_read(what, capture);

    for (size_t i = 0; i < sizeof numbers / sizeof numbers[0]; i++)
        measure_way_and_back(what, capture, numbers[i]);
    for (size_t i = 0; i < sizeof arrivals / sizeof arrivals[0]; i++)
        measure_call(what, (struct call){TRACE, capture, arrivals[i].vector, arrivals[i].number});
    if (accepted)
        measure_way_and_back(what, capture, get_u16(capture->bytes + capture->place[FADT] + FADT_SCI));
}

static void measure_all(const char *boards)
{
    static struct hard_capture hard[HARD_CAPTURES];
    static struct capture varied;
    const char *what;
    size_t count = 0;

    puts("measured on");
    make_hard_captures(boards, hard);
    for (size_t i = 0; i < HARD_CAPTURES; i++) {
        measure_capture(hard[i].what, &hard[i].capture);
        printf("    %s\n", hard[i].what);
    }
    while ((what = make_varied_capture(count, &varied)) != NULL) {
        measure_capture(what, &varied);
        count++;
    }
    printf("    %zu generated captures: boards that keep all rules, and boards broken in every known way\n", count);
}

/* ---- All of it ---- */

/* Says which refusals of an entry were never met; gives whether there are none. */
static bool all_refusals_met(enum question question)
{
    bool all = true;

    for (size_t i = 0; i < REFUSALS; i++)
        if (!entries[question].gave[refusals[i]] && (question == READ || refusals[i] != LIST_TOO_SHORT)) {
            printf("stack: refusal %u of %s was never met\n", refusals[i], name_of_question[question]);
            all = false;
        }
    return all;
}

int main(int argc, char **argv)
{
    bool under_limit = true, all_met = true;

    if (argc != 2) {
        fprintf(stderr, "usage: stack BOARDS\n");
        return 2;
    }
    measure_all(argv[1]);
    for (enum question question = READ; question < QUESTIONS; question++) {
        const struct entry *entry = &entries[question];

        printf("%-5s %5zu calls, %5zu bytes at most (%s)\n", name_of_question[question], entry->calls, entry->greatest,
               entry->on);
        under_limit = under_limit && entry->greatest < STACK_LIMIT;
        all_met = all_refusals_met(question) && all_met;
    }
    if (wrong_answers != 0)
        printf("stack: %u answers are not those of reference.c\n", wrong_answers);
    if (!under_limit)
        printf("stack: a call takes %d bytes or more\n", STACK_LIMIT);
    if (wrong_answers != 0 || !under_limit || !all_met)
        return 1;
    printf("stack: every call takes less than %d bytes, every refusal was met, every answer is that of reference.c\n",
           STACK_LIMIT);
    return 0;
}
