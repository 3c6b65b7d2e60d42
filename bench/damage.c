/*
 * Damaged captures: see damage.h.
 */
#include "damage.h"

#include <string.h>

#include "readers.h"
#include "ways.h"

/* ---- Chosen ways ---- */

/* Where a refusal's rule stands in the order, which is not that of the numbers (W-202), and these have gaps. */
static size_t standing(unsigned refusal)
{
    size_t number = 0;

    while (refusals[number] != refusal)
        number++;
    return number;
}

const struct way *way_at(size_t number)
{
    if (number < capture_way_count)
        return &capture_ways[number];
    number -= capture_way_count;
    return number < madt_way_count ? &madt_ways[number] : NULL;
}

/* The way number `number` of those that bring about a refusal; NULL if there are not so many. */
static const struct way *way_to(unsigned refusal, size_t number)
{
    for (size_t i = 0; way_at(i) != NULL; i++)
        if (way_at(i)->refusal == refusal && number-- == 0)
            return way_at(i);
    return NULL;
}

const struct way *pick_way(struct random *random)
{
    unsigned refusal;
    size_t count = 0;

    do
        refusal = refusals[below(random, REFUSALS)];
    while (way_to(refusal, 0) == NULL); /* 60 is no capture's fault */
    while (way_to(refusal, count) != NULL)
        count++;
    return way_to(refusal, below(random, count));
}

const struct way *pick_way_near(struct random *random, unsigned refusal)
{
    const struct way *way;

    do
        way = pick_way(random);
    while (standing(way->refusal) + 3 < standing(refusal) || standing(way->refusal) > standing(refusal) + 3);
    return way;
}

void lay_out_broken(struct random *random, struct board *board, struct capture *capture, const struct way *const *chosen,
                    size_t count)
{
    for (size_t i = 0; i < count; i++)
        if (chosen[i]->in_board != NULL)
            chosen[i]->in_board(random, board);
    make_room(board, 0);
    lay_out(board, capture);
    for (size_t i = 0; i < count; i++)
        if (chosen[i]->in_tables != NULL)
            chosen[i]->in_tables(random, board, capture);
    make_sums_good(capture);
    for (size_t i = 0; i < count; i++)
        if (chosen[i]->in_capture != NULL)
            chosen[i]->in_capture(random, capture);
}

/* ---- Noise ---- */

void change_some_bytes(struct random *random, struct capture *capture)
{
    size_t first = 0, length = capture->length;

    switch (below(random, 3)) {
    case 0: /* the capture's header and descriptors */
        length = capture->descriptors + DESCRIPTOR_LENGTH * capture->segments;
        break;
    case 1: {
        size_t table = below(random, OTHERS);

        first = capture->place[table];
        length = capture->table_length[table];
        break;
    }
    default:
        break;
    }
    for (size_t count = between(random, 1, 4); count > 0; count--) {
        uint8_t *byte = &capture->bytes[first + below(random, length)];

        *byte = (uint8_t)(one_in(random, 2) ? any(random) : *byte ^ 1u << below(random, 8));
    }
}

void truncate_capture(struct random *random, struct capture *capture)
{
    size_t last = capture->segments - 1;
    uint32_t length = segment_length(capture, last);
    uint32_t missing = (uint32_t)between(random, 1, length);

    if (one_in(random, 4)) {
        capture->length = below(random, capture->length);
        return;
    }
    /* The header agrees with what is left. */
    set_segment_length(capture, last, length - missing);
    capture->length -= missing;
    set_total(capture, capture->length);
}

void make_random_bytes(struct random *random, struct capture *capture)
{
    size_t right = below(random, 6); /* how much of the header is right */
    bool with_pairs = one_in(random, 3);
    size_t memory = place_of_descriptors(with_pairs ? WITH_PAIRS : 1) + DESCRIPTOR_LENGTH;

    capture->length = one_in(random, 16) ? below(random, CAPTURE_ROOM) : below(random, 200);
    for (size_t i = 0; i < capture->length; i++)
        capture->bytes[i] = (uint8_t)any(random);
    if (right == 0 || capture->length < memory + RSDP_LENGTH)
        return;
    memcpy(capture->bytes, with_pairs ? "TBC\2\0\1" : "TBC\1\0\1", right < 3 ? 2 * right + 1 : 6);
    if (right < 4)
        return;
    if (with_pairs && one_in(random, 2)) /* they are empty */
        memset(capture->bytes + HEADER_LENGTH, 0, PAIRS_LENGTH);
    capture->descriptors = memory - DESCRIPTOR_LENGTH;
    capture->segments = 1;
    set_total(capture, capture->length);
    put_u64(capture->bytes + 10, segment_address(capture, 0) >> 1);
    set_segment_address(capture, 0, segment_address(capture, 0) >> 1);
    set_segment_length(capture, 0, (uint32_t)(capture->length - memory));
    if (right == 5)
        memcpy(capture->bytes + memory, "RSD PTR ", 8);
}
