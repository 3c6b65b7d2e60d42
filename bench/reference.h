/*
 * The reference: a second implementation of document 01 and of requests W-201, W-202, W-203, W-206, W-207, W-208, W-211 and W-212
 * of document 02, in plain C, to compare Yasmirand with.
 *
 * The first three functions take and give what the entries of include/yasmirand.h do: a result of 2^48 or more is refusal
 * number × 2^48 + place, any other is an answer. The second place of a refusal has no room there; reference_judge() gives
 * it. All four are the strict reading, as those entries are; the ordinary reading has its own beside them. No entry for C has
 * tables of owners (W-211): what is asked about them takes the reading.
 */
#ifndef REFERENCE_H
#define REFERENCE_H

#include <stddef.h>
#include <stdint.h>

/* The two readings of W-207: the ordinary one takes any MADT revision of 1 or more, the strict one takes 1 alone. */
enum reading { ORDINARY, STRICT };

/* Reads a capture. Writes UID and physical ID of each enabled CORE to the list, four bytes a number; gives their count. */
uint64_t reference_read(const uint8_t *capture, size_t capture_len, uint8_t *list, size_t list_len);

/* Where a global number arrives. */
uint64_t reference_route(const uint8_t *capture, size_t capture_len, uint32_t number);

/* What arrives at a core vector with a number. */
uint64_t reference_trace(const uint8_t *capture, size_t capture_len, uint32_t vector, uint32_t number);

/* All that a refusal says. The second place is that of the structure which the refused one clashes with: 51 to 53 have one. */
struct reference_refusal {
    uint64_t number, place, second;
};

/* The refusal of a capture by the rules up to 54, or zeros if it keeps them. No list is lent, so 60 is never given. */
struct reference_refusal reference_judge(const uint8_t *capture, size_t capture_len);

/* The same four in the ordinary reading. */
uint64_t reference_ordinary_read(const uint8_t *capture, size_t capture_len, uint8_t *list, size_t list_len);
uint64_t reference_ordinary_route(const uint8_t *capture, size_t capture_len, uint32_t number);
uint64_t reference_ordinary_trace(const uint8_t *capture, size_t capture_len, uint32_t vector, uint32_t number);
struct reference_refusal reference_ordinary_judge(const uint8_t *capture, size_t capture_len);

/* Whose a global number is. The LPC's inputs are not told apart: they all share one pin. What an owner does not have is 0. */
struct reference_owner {
    enum { OWNED_BY_NOBODY, OWNED_BY_LPC, OWNED_BY_LIO, OWNED_BY_BIO } kind;
    uint32_t input;       /* of the LIO or of the BIO */
    uint16_t hardware_id; /* of the BIO */
};

/* W-211: a table of the owners of global numbers 0 to 319. */
enum { OWNERS = 320 };

struct reference_owners {
    struct reference_owner of[OWNERS];
};

/*
 * Fills a table from a capture's map; gives 0 or a refusal. A refused capture has no map: the empty one is asked, which breaks
 * rule 40, and so it is refused with 61, and the table has nobody for each number.
 */
uint64_t reference_fill(const uint8_t *capture, size_t capture_len, enum reading reading, struct reference_owners *table);

/*
 * Looks up a global number with a capture's map and a table beside it, or, without a table (NULL), by the map alone. Gives a
 * refusal, or the answer as reference_route() does, and then the owner too.
 */
uint64_t reference_look_up(const uint8_t *capture, size_t capture_len, enum reading reading, const struct reference_owners *table,
                           uint32_t number, struct reference_owner *owner);

#endif
