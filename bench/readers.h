/*
 * The two sides of every comparison, in which reading they answer, and their results in words.
 */
#ifndef READERS_H
#define READERS_H

#include <stddef.h>
#include <stdint.h>

#include "reference.h"

/* One implementation of the three C entries of include/yasmirand.h. */
struct reader {
    const char *name;
    uint64_t (*read)(const uint8_t *capture, size_t capture_len, uint8_t *list, size_t list_len);
    uint64_t (*route)(const uint8_t *capture, size_t capture_len, uint32_t number);
    uint64_t (*trace)(const uint8_t *capture, size_t capture_len, uint32_t vector, uint32_t number);
};

/* Yasmirand's entries are the strict reading, and so is `reference`, which is compared with them (W-207). */
extern const struct reader yasmirand, reference, ordinary_reference;

enum { READINGS = STRICT + 1 };

enum reading reading_of(const struct reader *reader);
const struct reader *reference_in(enum reading reading);
const char *name_of_reading(enum reading reading);

/* All that reference.c says of a capture's refusal in a reading. */
struct reference_refusal judge(const uint8_t *capture, size_t capture_len, enum reading reading);

/*
 * The refusal number, or 0, that a reading must give to a capture whose MADT has some revision, if `refusal` is what both
 * give with revision 1. Rule 29 stands behind all rules with lower numbers and before all others (W-207).
 */
enum { MADT_REVISION = 29 };
unsigned refusal_with_revision(unsigned refusal, uint8_t revision, enum reading reading);

/* How results are coded. */
uint64_t refused(uint64_t number, uint64_t place);
uint64_t arrives(uint64_t vector, uint64_t number);
uint64_t unwired(void);
uint64_t no_owner(void);
uint64_t nothing(void);
uint64_t lio_input(uint64_t number);
uint64_t bio_input(uint64_t number);
uint64_t lpc_cascade(uint64_t number);
uint64_t msi_slot(uint64_t slot, uint64_t node);

/* The refusal number of a result, 0 for an answer. */
unsigned refusal_number(uint64_t result);

enum { NUMBERS = 1 << 16 }; /* room for any refusal number that a result can hold */

/*
 * Those that the entries can give, in the order of the rules: 71 to 78 stand in the place of 36 (W-202), and 34 behind all of a
 * structure's own (W-201). Only `read` gives 60.
 */
enum { REFUSALS = 50, LIST_TOO_SHORT = 60 };
extern const unsigned refusals[REFUSALS];

/* A result in words. */
struct text {
    char words[64];
};

struct text tell_read(uint64_t result);
struct text tell_route(uint64_t result);
struct text tell_trace(uint64_t result);

/* A result of `route` or `trace` as the program `vectors` prints it: "kind 0 3 8", or "refused 29 at 118". */
struct text print_answer(uint64_t result);

/* An owner as `vectors` prints it: "lpc", "lio 10", "bio 0 8", or "nobody". */
struct text print_owner(struct reference_owner owner);

/* A refusal as ./map prints it: "refused 52 at 262 with 243", or "refused 75 at 243" where the second place is 0. */
struct text tell_refusal(struct reference_refusal refusal);

#endif
