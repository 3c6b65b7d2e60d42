/*
 * The stack that a call needs: see stack_depth.h.
 */
#define _DEFAULT_SOURCE /* ucontext */

#include "stack_depth.h"

#include <string.h>
#include <ucontext.h>

enum { STACK_ROOM = 32768 };

static uint8_t stack[STACK_ROOM];
static ucontext_t outside, inside;

/* What the call on the other stack asks of whom, and its answer. */
static const struct reader *asked;
static const struct call *asked_call;
static uint64_t answer;

static void call_inside(void)
{
    answer = make_call(asked, asked_call);
}

/* How many bytes of a painted stack the call changes. */
static size_t painted_over(uint8_t paint)
{
    size_t untouched = 0;

    memset(stack, paint, sizeof stack);
    getcontext(&inside);
    inside.uc_stack.ss_sp = stack;
    inside.uc_stack.ss_size = sizeof stack;
    inside.uc_link = &outside;
    makecontext(&inside, call_inside, 0);
    swapcontext(&outside, &inside);
    while (untouched < sizeof stack && stack[untouched] == paint)
        untouched++;
    return sizeof stack - untouched;
}

/* With two colours, as the deepest byte written may be of the colour of one. */
static size_t depth_of(const struct reader *reader, const struct call *call)
{
    asked = reader;
    asked_call = call;

    size_t one = painted_over(0xA5), other = painted_over(0x5A);

    return one > other ? one : other;
}

/* What the measuring itself takes of a question's stack, whatever is asked: measured once. */
static size_t depth_of_measuring(const struct call *call)
{
    static size_t known[QUESTIONS];

    if (known[call->question] == 0)
        known[call->question] = depth_of(&idle, call);
    return known[call->question];
}

struct depth measure_depth(const struct reader *reader, const struct call *call)
{
    size_t of_measuring = depth_of_measuring(call), of_all = depth_of(reader, call);

    return (struct depth){answer, of_all - of_measuring};
}
