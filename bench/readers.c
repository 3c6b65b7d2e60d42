/*
 * The two sides and the coding of their results: see readers.h and include/yasmirand.h.
 */
#include "readers.h"

#include <inttypes.h>
#include <stdbool.h>
#include <stdio.h>

#include "yasmirand.h"

const struct reader yasmirand = {"Yasmirand", yasmirand_read, yasmirand_route, yasmirand_trace};
const struct reader reference = {"reference.c", reference_read, reference_route, reference_trace};
const struct reader ordinary_reference = {"reference.c, ordinary reading", reference_ordinary_read, reference_ordinary_route,
                                          reference_ordinary_trace};

enum reading reading_of(const struct reader *reader)
{
    return reader == &ordinary_reference ? ORDINARY : STRICT;
}

const struct reader *reference_in(enum reading reading)
{
    return reading == ORDINARY ? &ordinary_reference : &reference;
}

const char *name_of_reading(enum reading reading)
{
    return reading == ORDINARY ? "ordinary" : "strict";
}

unsigned refusal_with_revision(unsigned refusal, uint8_t revision, enum reading reading)
{
    bool earlier = refusal != 0 && refusal < MADT_REVISION;
    bool taken = reading == ORDINARY ? revision != 0 : revision == 1;

    return earlier || taken ? refusal : MADT_REVISION;
}

struct reference_refusal judge(const uint8_t *capture, size_t capture_len, enum reading reading)
{
    return reading == ORDINARY ? reference_ordinary_judge(capture, capture_len) : reference_judge(capture, capture_len);
}

enum { REFUSAL_SHIFT = 48, KIND_SHIFT = 40, BYTE_SHIFT = 32 };

enum route_kind { ARRIVES, UNWIRED, NO_OWNER };
enum trace_kind { NOTHING, LIO_INPUT, BIO_INPUT, LPC_CASCADE, MSI_SLOT };

static uint64_t answer(uint64_t kind, uint64_t byte, uint64_t value)
{
    return kind << KIND_SHIFT | byte << BYTE_SHIFT | value;
}

uint64_t refused(uint64_t number, uint64_t place)
{
    return number << REFUSAL_SHIFT | place;
}

uint64_t arrives(uint64_t vector, uint64_t number)
{
    return answer(ARRIVES, vector, number);
}

uint64_t unwired(void)
{
    return answer(UNWIRED, 0, 0);
}

uint64_t no_owner(void)
{
    return answer(NO_OWNER, 0, 0);
}

uint64_t nothing(void)
{
    return answer(NOTHING, 0, 0);
}

uint64_t lio_input(uint64_t number)
{
    return answer(LIO_INPUT, 0, number);
}

uint64_t bio_input(uint64_t number)
{
    return answer(BIO_INPUT, 0, number);
}

uint64_t lpc_cascade(uint64_t number)
{
    return answer(LPC_CASCADE, 0, number);
}

uint64_t msi_slot(uint64_t slot, uint64_t node)
{
    return answer(MSI_SLOT, node, slot);
}

unsigned refusal_number(uint64_t result)
{
    return (unsigned)(result >> REFUSAL_SHIFT);
}

const unsigned refusals[REFUSALS] = {1,  2,  3,  4,  5,  6,  7,  10, 11, 12, 13, 14, 20, 21, 22, 23,
                                     24, 25, 26, 27, 28, 29, 30, 31, 32, 33, 35, 71, 72, 73, 74, 75,
                                     76, 77, 78, 37, 38, 34, 39, 40, 41, 42, 43, 44, 45, 51, 52, 53,
                                     54, LIST_TOO_SHORT};

struct text tell_refusal(struct reference_refusal refusal)
{
    struct text text;
    int length = snprintf(text.words, sizeof text.words, "refused %" PRIu64 " at %" PRIu64, refusal.number, refusal.place);

    if (refusal.second != 0)
        snprintf(text.words + length, sizeof text.words - (size_t)length, " with %" PRIu64, refusal.second);
    return text;
}

/* A result that is a refusal: it carries no second place. */
static struct text tell_refused(uint64_t result)
{
    uint64_t place = result & ((UINT64_C(1) << REFUSAL_SHIFT) - 1);

    return tell_refusal((struct reference_refusal){refusal_number(result), place, 0});
}

/* One answer of three parts, told by a pattern for its kind; an answer of no known kind is told as a number. */
static struct text tell_answer(uint64_t result, const char *const *kinds, size_t count)
{
    struct text text;
    uint64_t kind = result >> KIND_SHIFT;
    unsigned byte = (unsigned)(result >> BYTE_SHIFT & 255);
    uint32_t value = (uint32_t)result;

    if (refusal_number(result) != 0)
        return tell_refused(result);
    if (kind < count)
        snprintf(text.words, sizeof text.words, "%s (%u, %" PRIu32 ")", kinds[kind], byte, value);
    else
        snprintf(text.words, sizeof text.words, "answer %" PRIu64, result);
    return text;
}

struct text print_answer(uint64_t result)
{
    struct text text;

    if (refusal_number(result) != 0)
        return tell_refused(result);
    snprintf(text.words, sizeof text.words, "kind %u %u %" PRIu32, (unsigned)(result >> KIND_SHIFT),
             (unsigned)(result >> BYTE_SHIFT & 255), (uint32_t)result);
    return text;
}

struct text print_owner(struct reference_owner owner)
{
    struct text text;

    switch (owner.kind) {
    case OWNED_BY_LPC:
        return (struct text){"lpc"};
    case OWNED_BY_LIO:
        snprintf(text.words, sizeof text.words, "lio %" PRIu32, owner.input);
        return text;
    case OWNED_BY_BIO:
        snprintf(text.words, sizeof text.words, "bio %u %" PRIu32, owner.hardware_id, owner.input);
        return text;
    default:
        return (struct text){"nobody"};
    }
}

struct text tell_read(uint64_t result)
{
    struct text text;

    if (refusal_number(result) != 0)
        return tell_refused(result);
    snprintf(text.words, sizeof text.words, "read %" PRIu64, result);
    return text;
}

struct text tell_route(uint64_t result)
{
    static const char *const kinds[] = {"arrives", "unwired", "no owner"};

    return tell_answer(result, kinds, sizeof kinds / sizeof kinds[0]);
}

struct text tell_trace(uint64_t result)
{
    static const char *const kinds[] = {"nothing", "LIO input", "BIO input", "LPC cascade", "MSI slot (node, slot)"};

    return tell_answer(result, kinds, sizeof kinds / sizeof kinds[0]);
}
