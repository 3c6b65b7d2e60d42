/*
 * Cases of request W-212: see pins.h. Document 01 and the request fix their answers.
 *
 * Board A as version 2 has 546 bytes. Its pairs are at 18, 20, 22 and 24, its descriptor at 26, RSDP 38, XSDT 74, MADT 126,
 * LIO 215, EIO 238, MSI 251, BIO 270, LPC 287 and FADT 302; structures that are added behind the LPC begin at 302.
 */
#include "pins.h"

#include <stdbool.h>
#include <string.h>

#include "board_a.h"

/* ---- What is done to the header ---- */

static void total_plus_1(struct capture *a)
{
    set_total(a, a->length + 1);
}

static void total_without_pairs(struct capture *a)
{
    set_total(a, a->length - PAIRS_LENGTH);
}

/* Then 18 + 12 + the length would be the total. */
static void segment_of_8_bytes_more(struct capture *a)
{
    set_segment_length(a, 0, A_MEMORY + PAIRS_LENGTH);
}

static void segment_past_2_64(struct capture *a)
{
    set_segment_address(a, 0, UINT64_MAX);
}

static void total_plus_1_segment_past_2_64(struct capture *a)
{
    total_plus_1(a);
    segment_past_2_64(a);
}

static void rsdp_absent(struct capture *a)
{
    put_u64(a->bytes + 10, 0);
}

static void no_segments(struct capture *a)
{
    a->bytes[5] = 0;
}

static void version_3(struct capture *a)
{
    put_u16(a->bytes + CAPTURE_VERSION, 3);
}

/* The last segment grows, and all stays right but perhaps the length. */
static void fill_up(struct capture *a, size_t length)
{
    memset(a->bytes + a->length, 0, length - a->length);
    set_segment_length(a, 0, segment_length(a, 0) + (uint32_t)(length - a->length));
    a->length = length;
    set_total(a, length);
}

static void fill_up_to_the_greatest_length(struct capture *a)
{
    fill_up(a, CAPTURE_MAX);
}

static void fill_up_too_far(struct capture *a)
{
    fill_up(a, CAPTURE_MAX + 1);
}

/*
 * Two segments in place of one: the second begins inside the MADT, so far behind the end of the first. The second descriptor
 * is at 38, and the tables are 12 bytes further on: the MADT is at 138.
 */
static void cut_inside_madt(struct capture *a, int distance)
{
    const uint32_t first_length = A_EIO - A_RSDP;
    size_t second = a->descriptors + DESCRIPTOR_LENGTH;

    memmove(a->bytes + second + DESCRIPTOR_LENGTH, a->bytes + second, a->length - second);
    a->length += DESCRIPTOR_LENGTH;
    set_total(a, a->length);
    a->bytes[5] = 2;
    set_segment_length(a, 0, first_length);
    set_segment_address(a, 1, A_ADDRESS + first_length + (uint64_t)distance);
    set_segment_length(a, 1, A_MEMORY - first_length);
    for (size_t table = 0; table < a->tables; table++)
        a->place[table] += DESCRIPTOR_LENGTH;
}

static void two_segments_that_touch(struct capture *a)
{
    cut_inside_madt(a, 0);
}

static void two_segments_with_a_gap(struct capture *a)
{
    cut_inside_madt(a, 1);
}

static void two_segments_that_overlap(struct capture *a)
{
    cut_inside_madt(a, -1);
}

/* ---- Cases with pairs ---- */

/* What is printed, with other lines from the EIO on. */
#define PRINTED(from_eio_on) "map 2\ncore 0 0\ncore 1 1\nlio 2 16777215\n" from_eio_on

/* Board A with a bridge whose last number is another. */
#define PRINTED_UP_TO(last) PRINTED("eio 0 3 1\nbio 0 64 " #last "\nmsi 64 255\nlpc 0 19\nsci 75 3 11\n")

#define A_PRINTED PRINTED_UP_TO(127)

struct pairs_example {
    const char *what;
    struct variant board;
    void (*edit)(struct capture *a); /* of the capture; NULL: none */
    const char *printed;
};

/* In a name, (0, 32) is a pair: hardware ID 0 has 32 inputs. Structures are named as the documents do. */
static const struct pairs_example pairs_examples[] = {
    /* A BIO without a pair has 64 inputs. An empty pair is none, and its ID is free. */
    {"no pairs", {.pair = {{0}}}, .printed = A_PRINTED},
    {"empty pairs of IDs 0, 0, 5, 255", {.pair = {{0, 0}, {0, 0}, {5, 0}, {255, 0}}}, .printed = A_PRINTED},
    {"(0, 64)", {.pair = {{0, 64}}}, .printed = A_PRINTED},
    {"(0, 63)", {.pair = {{0, 63}}}, .printed = PRINTED_UP_TO(126)},
    {"(0, 32)", {.pair = {{0, 32}}}, .printed = PRINTED_UP_TO(95)},
    {"(0, 32) second", {.pair = {{5, 8}, {0, 32}}}, .printed = PRINTED_UP_TO(95)},
    {"(0, 32) last", {.pair = {{1, 1}, {2, 2}, {3, 3}, {0, 32}}}, .printed = PRINTED_UP_TO(95)},
    {"(0, 32) between empty ones of its ID", {.pair = {{0, 0}, {0, 32}, {0, 0}, {0, 0}}}, .printed = PRINTED_UP_TO(95)},
    {"(0, 32), then (0, 0)", {.pair = {{0, 32}, {0, 0}}}, .printed = PRINTED_UP_TO(95)},
    {"(0, 0), then (0, 32)", {.pair = {{0, 0}, {0, 32}}}, .printed = PRINTED_UP_TO(95)},
    {"three empty ones, then (0, 20)", {.pair = {{0, 0}, {1, 0}, {2, 0}, {0, 20}}}, .printed = PRINTED_UP_TO(83)},
    /* IDs have no range, and need no BIO. */
    {"(200, 8)", {.pair = {{200, 8}}}, .printed = A_PRINTED},
    {"(64, 1)", {.pair = {{64, 1}}}, .printed = A_PRINTED},
    {"(255, 1), (254, 64), (128, 32), (1, 1)", {.pair = {{255, 1}, {254, 64}, {128, 32}, {1, 1}}}, .printed = A_PRINTED},
    {"(5, 1), and EIO 5 without a BIO", {.pair = {{5, 1}}, A_FADT, {{EIO, {4, 5, 1}}}},
     .printed = PRINTED("eio 0 3 1\neio 5 4 1\nbio 0 64 127\nmsi 64 255\nlpc 0 19\nsci 75 3 11\n")},
    {"(0, 32), no BIO, no LPC", {.pair = {{0, 32}}, A_MSI, {{MSI, {0, 256}}}, 26},
     .printed = PRINTED("eio 0 3 1\nmsi 0 255\nsci 26 2 10\n")},
    {"(63, 5), all on node 63, no LPC", {.pair = {{63, 5}}, A_EIO, {{EIO, {3, 63, 1}}, {MSI, {64, 192}}, {BIO, {63, 64}}}, 68},
     .printed = PRINTED("eio 63 3 1\nbio 63 64 68\nmsi 64 255\nsci 68 3 4\n")},
    /* 7: over 64 inputs, or an ID that an earlier pair gives; pairs in turn, and the empty ones count for nothing. */
    {"(0, 65)", {.pair = {{0, 65}}}, .printed = "refused 7 at 18"},
    {"(0, 255)", {.pair = {{0, 255}}}, .printed = "refused 7 at 18"},
    {"(200, 65)", {.pair = {{200, 65}}}, .printed = "refused 7 at 18"},
    {"(5, 0), (5, 65)", {.pair = {{5, 0}, {5, 65}}}, .printed = "refused 7 at 20"},
    {"(1, 1), (2, 1), (3, 1), (9, 65)", {.pair = {{1, 1}, {2, 1}, {3, 1}, {9, 65}}}, .printed = "refused 7 at 24"},
    {"(0, 32), (0, 70)", {.pair = {{0, 32}, {0, 70}}}, .printed = "refused 7 at 20"},
    {"(0, 32), (1, 80), (0, 5)", {.pair = {{0, 32}, {1, 80}, {0, 5}}}, .printed = "refused 7 at 20"},
    {"(0, 32), (0, 5), (1, 80)", {.pair = {{0, 32}, {0, 5}, {1, 80}}}, .printed = "refused 7 at 20"},
    {"(0, 65), (0, 32)", {.pair = {{0, 65}, {0, 32}}}, .printed = "refused 7 at 18"},
    {"(7, 65), (7, 65)", {.pair = {{7, 65}, {7, 65}}}, .printed = "refused 7 at 18"},
    {"(0, 32), (0, 32)", {.pair = {{0, 32}, {0, 32}}}, .printed = "refused 7 at 20"},
    {"(0, 32), (1, 16), (0, 32)", {.pair = {{0, 32}, {1, 16}, {0, 32}}}, .printed = "refused 7 at 22"},
    {"(0, 32), (0, 0), (0, 32)", {.pair = {{0, 32}, {0, 0}, {0, 32}}}, .printed = "refused 7 at 22"},
    {"(0, 32), (1, 16), (2, 8), (0, 5)", {.pair = {{0, 32}, {1, 16}, {2, 8}, {0, 5}}}, .printed = "refused 7 at 24"},
    {"(0, 0), (9, 1), (0, 0), (9, 1)", {.pair = {{0, 0}, {9, 1}, {0, 0}, {9, 1}}}, .printed = "refused 7 at 24"},
    {"(200, 8), (200, 8)", {.pair = {{200, 8}, {200, 8}}}, .printed = "refused 7 at 20"},
    {"(255, 64), (255, 1)", {.pair = {{255, 64}, {255, 1}}}, .printed = "refused 7 at 20"},
    /* It comes after all of 6, and before 10. */
    {"(0, 65), total plus 1", {.pair = {{0, 65}}}, total_plus_1, "refused 5 at 0"},
    {"(0, 65), no segments", {.pair = {{0, 65}}}, no_segments, "refused 4 at 0"},
    {"(0, 65), version 3", {.pair = {{0, 65}}}, version_3, "refused 3 at 0"},
    {"(0, 65), segment past 2^64", {.pair = {{0, 65}}}, segment_past_2_64, "refused 6 at 26"},
    {"(0, 65), second of two segments overlaps", {.pair = {{0, 65}}}, two_segments_that_overlap, "refused 6 at 38"},
    {"(0, 65), two segments that touch", {.pair = {{0, 65}}}, two_segments_that_touch, "refused 7 at 18"},
    {"(0, 65), RSDP absent", {.pair = {{0, 65}}}, rsdp_absent, "refused 7 at 18"},
    {"(0, 1), (0, 1), RSDP absent", {.pair = {{0, 1}, {0, 1}}}, rsdp_absent, "refused 7 at 20"},
    {"(0, 65), HT", {.pair = {{0, 65}}, A_FADT, {{HT, {0}}}}, .printed = "refused 7 at 18"},
    /* The header has 26 bytes, in the total, before the descriptors, and before the segments. */
    {"total plus 1", {.pair = {{0}}}, total_plus_1, "refused 5 at 0"},
    {"total of 538 bytes", {.pair = {{0}}}, total_without_pairs, "refused 5 at 0"},
    {"segment of 8 bytes more", {.pair = {{0}}}, segment_of_8_bytes_more, "refused 5 at 0"},
    {"total plus 1, segment past 2^64", {.pair = {{0}}}, total_plus_1_segment_past_2_64, "refused 5 at 0"},
    {"segment past 2^64", {.pair = {{0}}}, segment_past_2_64, "refused 6 at 26"},
    {"second of two segments overlaps", {.pair = {{0}}}, two_segments_that_overlap, "refused 6 at 38"},
    {"(0, 32), two segments that touch", {.pair = {{0, 32}}}, two_segments_that_touch, PRINTED_UP_TO(95)},
    {"gap inside the MADT", {.pair = {{0}}}, two_segments_with_a_gap, "refused 21 at 138"},
    {"RSDP absent", {.pair = {{0}}}, rsdp_absent, "refused 10 at 10"},
    {"(0, 32), 65,536 bytes", {.pair = {{0, 32}}}, fill_up_to_the_greatest_length, PRINTED_UP_TO(95)},
    {"(0, 32), 65,537 bytes", {.pair = {{0, 32}}}, fill_up_too_far, "refused 1 at 0"},
    /* MSI slots may begin behind the last pin. They are on every EIO, so they meet the bridge with the most pins. */
    {"no pairs, MSI 32 to 255", {.pair = {{0}}, A_MSI, {{MSI, {32, 224}}, {BIO, {0, 64}}, {LPC, {19}}}},
     .printed = "refused 52 at 270 with 251"},
    {"(0, 32), MSI 32 to 255", {.pair = {{0, 32}}, A_MSI, {{MSI, {32, 224}}, {BIO, {0, 64}}, {LPC, {19}}}},
     .printed = PRINTED("eio 0 3 1\nbio 0 64 95\nmsi 32 255\nlpc 0 19\nsci 75 3 11\n")},
    {"(0, 32), MSI 31 to 255", {.pair = {{0, 32}}, A_MSI, {{MSI, {31, 225}}, {BIO, {0, 64}}, {LPC, {19}}}},
     .printed = "refused 52 at 270 with 251"},
    {"(0, 33), MSI 32 to 255 behind the BIO", {.pair = {{0, 33}}, A_MSI, {{BIO, {0, 64}}, {MSI, {32, 224}}, {LPC, {19}}}},
     .printed = "refused 52 at 268 with 251"},
    {"(0, 32), MSI 32 to 255, BIO 5 of 64",
     {.pair = {{0, 32}}, A_MSI, {{MSI, {32, 224}}, {BIO, {0, 64}}, {LPC, {19}}, {EIO, {4, 5, 1}}, {BIO, {5, 128}}}},
     .printed = "refused 52 at 315 with 251"},
    {"(0, 32), (5, 32), MSI 32 to 255",
     {.pair = {{0, 32}, {5, 32}}, A_MSI, {{MSI, {32, 224}}, {BIO, {0, 64}}, {LPC, {19}}, {EIO, {4, 5, 1}}, {BIO, {5, 128}}}},
     .printed = PRINTED("eio 0 3 1\neio 5 4 1\nbio 0 64 95\nbio 5 128 159\nmsi 32 255\nlpc 0 19\nsci 75 3 11\n")},
    /* One input. */
    {"(0, 1), LPC cascade 0, SCI 64", {.pair = {{0, 1}}, A_LPC, {{LPC, {0}}}, 64},
     .printed = PRINTED("eio 0 3 1\nbio 0 64 64\nmsi 64 255\nlpc 0 0\nsci 64 3 0\n")},
    {"(0, 1), LPC cascade 0, SCI 64, MSI 1 to 255", {.pair = {{0, 1}}, A_MSI, {{MSI, {1, 255}}, {BIO, {0, 64}}, {LPC, {0}}}, 64},
     .printed = PRINTED("eio 0 3 1\nbio 0 64 64\nmsi 1 255\nlpc 0 0\nsci 64 3 0\n")},
    {"(0, 1), LPC cascade 0, SCI 64, MSI 0 to 255", {.pair = {{0, 1}}, A_MSI, {{MSI, {0, 256}}, {BIO, {0, 64}}, {LPC, {0}}}, 64},
     .printed = "refused 52 at 270 with 251"},
    /* Bridges closer than 64, behind and before one another. */
    {"no pairs, BIO 5 at 96", {.pair = {{0}}, A_FADT, {{EIO, {4, 5, 1}}, {BIO, {5, 96}}}}, .printed = "refused 51 at 315 with 270"},
    {"(0, 32), BIO 5 at 96", {.pair = {{0, 32}}, A_FADT, {{EIO, {4, 5, 1}}, {BIO, {5, 96}}}},
     .printed = PRINTED("eio 0 3 1\neio 5 4 1\nbio 0 64 95\nbio 5 96 159\nmsi 64 255\nlpc 0 19\nsci 75 3 11\n")},
    {"(0, 32), (5, 32), BIO 5 at 96", {.pair = {{0, 32}, {5, 32}}, A_FADT, {{EIO, {4, 5, 1}}, {BIO, {5, 96}}}},
     .printed = PRINTED("eio 0 3 1\neio 5 4 1\nbio 0 64 95\nbio 5 96 127\nmsi 64 255\nlpc 0 19\nsci 75 3 11\n")},
    {"(0, 33), BIO 5 at 96", {.pair = {{0, 33}}, A_FADT, {{EIO, {4, 5, 1}}, {BIO, {5, 96}}}}, .printed = "refused 51 at 315 with 270"},
    {"(0, 32), BIO 5 at 95", {.pair = {{0, 32}}, A_FADT, {{EIO, {4, 5, 1}}, {BIO, {5, 95}}}}, .printed = "refused 51 at 315 with 270"},
    {"(5, 16), BIO 5 at 112 before 128",
     {.pair = {{5, 16}}, A_BIO, {{BIO, {0, 128}}, {LPC, {19}}, {EIO, {4, 5, 1}}, {BIO, {5, 112}}}, 130},
     .printed = PRINTED("eio 0 3 1\neio 5 4 1\nbio 0 128 191\nbio 5 112 127\nmsi 64 255\nlpc 0 19\nsci 130 3 2\n")},
    {"(5, 17), BIO 5 at 112 before 128",
     {.pair = {{5, 17}}, A_BIO, {{BIO, {0, 128}}, {LPC, {19}}, {EIO, {4, 5, 1}}, {BIO, {5, 112}}}, 130},
     .printed = "refused 51 at 315 with 270"},
    {"(0, 32), BIO at 64, 96 and 90",
     {.pair = {{0, 32}}, A_EIO, {{EIO, {3, 0, 1}}, {EIO, {4, 5, 1}}, {EIO, {5, 9, 1}}, {BIO, {0, 64}}, {BIO, {5, 96}}, {BIO, {9, 90}}}},
     .printed = "refused 51 at 311 with 277"},
    {"(0, 26), BIO at 64, 96 and 90",
     {.pair = {{0, 26}}, A_EIO, {{EIO, {3, 0, 1}}, {EIO, {4, 5, 1}}, {EIO, {5, 9, 1}}, {BIO, {0, 64}}, {BIO, {5, 96}}, {BIO, {9, 90}}}},
     .printed = "refused 51 at 311 with 294"},
    /* Two BIO of a hardware ID have the count of its one pair. Both have pin 0: 52 in any case. */
    {"(0, 32), BIO 0 again at 96", {.pair = {{0, 32}}, A_FADT, {{BIO, {0, 96}}}}, .printed = "refused 52 at 302 with 270"},
    {"(0, 33), BIO 0 again at 96", {.pair = {{0, 33}}, A_FADT, {{BIO, {0, 96}}}}, .printed = "refused 51 at 302 with 270"},
    {"(0, 32), BIO 0 again at 128, BIO 5 at 160", {.pair = {{0, 32}}, A_FADT, {{BIO, {0, 128}}, {EIO, {4, 5, 1}}, {BIO, {5, 160}}}},
     .printed = "refused 52 at 302 with 270"},
    {"(0, 33), BIO 0 again at 128, BIO 5 at 160", {.pair = {{0, 33}}, A_FADT, {{BIO, {0, 128}}, {EIO, {4, 5, 1}}, {BIO, {5, 160}}}},
     .printed = "refused 51 at 332 with 302"},
    {"(0, 1), (5, 1), BIO 0 twice, SCI 64", {.pair = {{0, 1}, {5, 1}}, A_BIO, {{BIO, {0, 64}}, {BIO, {0, 65}}, {LPC, {0}}}, 64},
     .printed = "refused 52 at 287 with 270"},
    /* Four bridges, each behind the one before it, with slots from the greatest count on: which of them has the slot's pin? */
    {"four bridges, MSI 4 to 255",
     {.pair = {{0, 1}, {1, 2}, {2, 3}, {3, 4}}, A_EIO,
      {{EIO, {3, 0, 1}}, {EIO, {4, 1, 1}}, {EIO, {5, 2, 1}}, {EIO, {6, 3, 1}}, {BIO, {0, 64}}, {BIO, {1, 65}}, {BIO, {2, 67}},
       {BIO, {3, 70}}, {MSI, {4, 252}}, {LPC, {0}}}, 73},
     .printed = PRINTED("eio 0 3 1\neio 1 4 1\neio 2 5 1\neio 3 6 1\nbio 0 64 64\nbio 1 65 66\nbio 2 67 69\nbio 3 70 73\n"
                        "msi 4 255\nlpc 0 0\nsci 73 6 3\n")},
    {"four bridges, MSI 3 to 255",
     {.pair = {{0, 1}, {1, 2}, {2, 3}, {3, 4}}, A_EIO,
      {{EIO, {3, 0, 1}}, {EIO, {4, 1, 1}}, {EIO, {5, 2, 1}}, {EIO, {6, 3, 1}}, {BIO, {0, 64}}, {BIO, {1, 65}}, {BIO, {2, 67}},
       {BIO, {3, 70}}, {MSI, {3, 253}}, {LPC, {0}}}, 73},
     .printed = "refused 52 at 358 with 341"},
    {"four bridges, MSI 2 to 255",
     {.pair = {{0, 1}, {1, 2}, {2, 3}, {3, 4}}, A_EIO,
      {{EIO, {3, 0, 1}}, {EIO, {4, 1, 1}}, {EIO, {5, 2, 1}}, {EIO, {6, 3, 1}}, {BIO, {0, 64}}, {BIO, {1, 65}}, {BIO, {2, 67}},
       {BIO, {3, 70}}, {MSI, {2, 254}}, {LPC, {0}}}, 73},
     .printed = "refused 52 at 358 with 324"},
    {"four bridges, pairs turned round, MSI 4 to 255",
     {.pair = {{3, 4}, {2, 3}, {1, 2}, {0, 1}}, A_EIO,
      {{EIO, {3, 0, 1}}, {EIO, {4, 1, 1}}, {EIO, {5, 2, 1}}, {EIO, {6, 3, 1}}, {BIO, {0, 64}}, {BIO, {1, 65}}, {BIO, {2, 67}},
       {BIO, {3, 70}}, {MSI, {4, 252}}, {LPC, {0}}}, 73},
     .printed = PRINTED("eio 0 3 1\neio 1 4 1\neio 2 5 1\neio 3 6 1\nbio 0 64 64\nbio 1 65 66\nbio 2 67 69\nbio 3 70 73\n"
                        "msi 4 255\nlpc 0 0\nsci 73 6 3\n")},
    /* 45: the LPC's cascade is at or past the count of its own bridge, which is BIO 0 here; bridges.c has others. */
    {"(0, 19)", {.pair = {{0, 19}}}, .printed = "refused 45 at 287"},
    {"(0, 20)", {.pair = {{0, 20}}}, .printed = PRINTED_UP_TO(83)},
    {"(0, 1)", {.pair = {{0, 1}}}, .printed = "refused 45 at 287"},
    {"(0, 63), LPC cascade 63", {.pair = {{0, 63}}, A_LPC, {{LPC, {63}}}}, .printed = "refused 45 at 287"},
    {"(0, 64), LPC cascade 63", {.pair = {{0, 64}}, A_LPC, {{LPC, {63}}}},
     .printed = PRINTED("eio 0 3 1\nbio 0 64 127\nmsi 64 255\nlpc 0 63\nsci 75 3 11\n")},
    {"(0, 19), LPC before its BIO", {.pair = {{0, 19}}, A_BIO, {{LPC, {19}}, {BIO, {0, 64}}}}, .printed = "refused 45 at 270"},
    {"(5, 8), BIO 5 at 128", {.pair = {{5, 8}}, A_FADT, {{EIO, {4, 5, 1}}, {BIO, {5, 128}}}},
     .printed = PRINTED("eio 0 3 1\neio 5 4 1\nbio 0 64 127\nbio 5 128 135\nmsi 64 255\nlpc 0 19\nsci 75 3 11\n")},
    {"(5, 19), BIO 5 before BIO 0",
     {.pair = {{5, 19}}, A_BIO, {{BIO, {5, 128}}, {BIO, {0, 64}}, {LPC, {19}}, {EIO, {4, 5, 1}}}},
     .printed = PRINTED("eio 0 3 1\neio 5 4 1\nbio 5 128 146\nbio 0 64 127\nmsi 64 255\nlpc 0 19\nsci 75 3 11\n")},
    {"(0, 19), BIO 5 before BIO 0", {.pair = {{0, 19}}, A_BIO, {{BIO, {5, 128}}, {BIO, {0, 64}}, {LPC, {19}}, {EIO, {4, 5, 1}}}},
     .printed = "refused 45 at 304"},
    /* 77 and 76 keep their ranges, in the walk. */
    {"(0, 1), LPC cascade 64", {.pair = {{0, 1}}, A_LPC, {{LPC, {64}}}}, .printed = "refused 77 at 287"},
    {"(0, 1), LPC cascade 256", {.pair = {{0, 1}}, A_LPC, {{LPC, {256}}}}, .printed = "refused 77 at 287"},
    {"(0, 19), and then HT", {.pair = {{0, 19}}, A_FADT, {{HT, {0}}}}, .printed = "refused 34 at 302"},
    {"(0, 1), BIO base 65,473", {.pair = {{0, 1}}, A_BIO, {{BIO, {0, 65473}}, {LPC, {0}}}}, .printed = "refused 76 at 270"},
    {"(0, 1), BIO base 63", {.pair = {{0, 1}}, A_BIO, {{BIO, {0, 63}}, {LPC, {0}}}}, .printed = "refused 76 at 270"},
    {"(0, 1), BIO base 65,472", {.pair = {{0, 1}}, A_BIO, {{BIO, {0, 65472}}, {LPC, {0}}}, 65472},
     .printed = PRINTED("eio 0 3 1\nbio 0 65472 65472\nmsi 64 255\nlpc 0 0\nsci 65472 3 0\n")},
    /* 45 comes after 43, and before 51. */
    {"(0, 19), no enabled CORE", {.pair = {{0, 19}}, A_CORE, {{CORE, {0, 0, 0}}, {EIO, {3, 0, 1}}, {BIO, {0, 64}}, {LPC, {19}}}},
     .printed = "refused 40 at 126"},
    {"(9, 1), BIO 9 without an EIO", {.pair = {{9, 1}}, A_BIO, {{BIO, {9, 64}}, {LPC, {19}}}}, .printed = "refused 42 at 270"},
    {"(0, 1), LPC without a BIO", {.pair = {{0, 1}}, A_BIO, {{LPC, {19}}}, 26}, .printed = "refused 43 at 270"},
    {"(0, 19), BIO 5 at 64", {.pair = {{0, 19}}, A_FADT, {{EIO, {4, 5, 1}}, {BIO, {5, 64}}}}, .printed = "refused 45 at 287"},
    {"(0, 19), MSI 18 to 255", {.pair = {{0, 19}}, A_MSI, {{MSI, {18, 238}}, {BIO, {0, 64}}, {LPC, {19}}}}, .printed = "refused 45 at 287"},
    {"(0, 19), EIO cascade 2", {.pair = {{0, 19}}, A_EIO, {{EIO, {2, 0, 1}}, {MSI, {64, 192}}, {BIO, {0, 64}}, {LPC, {19}}}},
     .printed = "refused 45 at 287"},
    {"(0, 5)", {.pair = {{0, 5}}}, .printed = "refused 45 at 287"}, /* the SCI is on a pin that is gone, too */
    /* 54: an SCI on a pin that is gone does not arrive. */
    {"(0, 11), LPC cascade 10", {.pair = {{0, 11}}, A_LPC, {{LPC, {10}}}}, .printed = "refused 54 at 302"},
    {"(0, 12), LPC cascade 11", {.pair = {{0, 12}}, A_LPC, {{LPC, {11}}}},
     .printed = PRINTED("eio 0 3 1\nbio 0 64 75\nmsi 64 255\nlpc 0 11\nsci 75 3 11\n")},
    {"(0, 32), SCI 96", {.pair = {{0, 32}}, .sci = 96}, .printed = "refused 54 at 302"},
    {"(0, 32), SCI 127", {.pair = {{0, 32}}, .sci = 127}, .printed = "refused 54 at 302"},
    {"(0, 32), SCI 95", {.pair = {{0, 32}}, .sci = 95}, .printed = PRINTED("eio 0 3 1\nbio 0 64 95\nmsi 64 255\nlpc 0 19\nsci 95 3 31\n")},
    {"(0, 20), SCI 3", {.pair = {{0, 20}}, .sci = 3}, .printed = PRINTED("eio 0 3 1\nbio 0 64 83\nmsi 64 255\nlpc 0 19\nsci 3 3 19\n")},
    {"(0, 32), SCI 96, EIO cascade 2", {.pair = {{0, 32}}, A_EIO, {{EIO, {2, 0, 1}}, {BIO, {0, 64}}}, 96},
     .printed = "refused 53 at 238 with 215"},
};

enum { PAIRS_EXAMPLES = sizeof pairs_examples / sizeof pairs_examples[0] };

/* ---- Cases of the header ---- */

/* Board A's first bytes, and what its header says. */
struct header_example {
    const char *what;
    bool with_pairs; /* it is laid out as version 2, with empty pairs */
    uint16_t version;
    size_t length; /* 0: all of it */
    const char *mark;
    uint8_t segments;
    const char *printed;
};

static const struct header_example header_examples[] = {
    /* 1: in version 2 a header has 26 bytes. The version alone decides. */
    {"version 2, 5 bytes", true, 2, 5, "TBC", 1, "refused 1 at 0"},
    {"version 2, 17 bytes", true, 2, 17, "TBC", 1, "refused 1 at 0"},
    {"version 2, 18 bytes", true, 2, 18, "TBC", 1, "refused 1 at 0"},
    {"version 2, 25 bytes", true, 2, 25, "TBC", 1, "refused 1 at 0"},
    {"version 2, 26 bytes", true, 2, 26, "TBC", 1, "refused 5 at 0"},
    {"version 2, 30 bytes", true, 2, 30, "TBC", 1, "refused 5 at 0"},
    {"version 2, 37 bytes", true, 2, 37, "TBC", 1, "refused 5 at 0"},
    {"version 2, 38 bytes", true, 2, 38, "TBC", 1, "refused 5 at 0"},
    {"version 1, 17 bytes", false, 1, 17, "TBC", 1, "refused 1 at 0"},
    {"version 1, 18 bytes", false, 1, 18, "TBC", 1, "refused 5 at 0"},
    {"version 1, 25 bytes", false, 1, 25, "TBC", 1, "refused 5 at 0"},
    {"XBC, version 2, 20 bytes", true, 2, 20, "XBC", 1, "refused 1 at 0"},
    {"XBC, version 1, 20 bytes", false, 1, 20, "XBC", 1, "refused 2 at 0"},
    {"XBC, version 3, 20 bytes", true, 3, 20, "XBC", 1, "refused 2 at 0"},
    {"XBC, version 258, 20 bytes", true, 258, 20, "XBC", 1, "refused 2 at 0"},
    {"XBC, version 512, 20 bytes", true, 512, 20, "XBC", 1, "refused 2 at 0"},
    {"XBC, version 2, 25 bytes", true, 2, 25, "XBC", 1, "refused 1 at 0"},
    {"XBC, version 2, 26 bytes", true, 2, 26, "XBC", 1, "refused 2 at 0"},
    {"version 2, no segments, 25 bytes", true, 2, 25, "TBC", 0, "refused 1 at 0"},
    {"version 2, no segments, 26 bytes", true, 2, 26, "TBC", 0, "refused 4 at 0"},
    {"version 2, 17 segments, 26 bytes", true, 2, 26, "TBC", 17, "refused 4 at 0"},
    /* 2 and 4 in version 2. */
    {"XBC, version 2", true, 2, 0, "XBC", 1, "refused 2 at 0"},
    {"TBD, version 3", true, 3, 0, "TBD", 1, "refused 2 at 0"},
    {"version 2, no segments", true, 2, 0, "TBC", 0, "refused 4 at 0"},
    {"version 2, 17 segments", true, 2, 0, "TBC", 17, "refused 4 at 0"},
    {"version 2, 16 segments", true, 2, 0, "TBC", 16, "refused 5 at 0"},
    /* 3: other than 1 and 2, in 16 bits. */
    {"version 0", true, 0, 0, "TBC", 1, "refused 3 at 0"},
    {"version 3", true, 3, 0, "TBC", 1, "refused 3 at 0"},
    {"version 257", true, 257, 0, "TBC", 1, "refused 3 at 0"},
    {"version 258", true, 258, 0, "TBC", 1, "refused 3 at 0"},
    {"version 512", true, 512, 0, "TBC", 1, "refused 3 at 0"},
    {"version 513", true, 513, 0, "TBC", 1, "refused 3 at 0"},
    {"version 65,535", true, UINT16_MAX, 0, "TBC", 1, "refused 3 at 0"},
    {"version 0, 18 bytes", true, 0, 18, "TBC", 1, "refused 3 at 0"},
    {"version 3, 20 bytes", true, 3, 20, "TBC", 1, "refused 3 at 0"},
    {"version 258, 25 bytes", true, 258, 25, "TBC", 1, "refused 3 at 0"},
    {"version 512, 25 bytes", true, 512, 25, "TBC", 1, "refused 3 at 0"},
    {"version 3, no segments", true, 3, 0, "TBC", 0, "refused 3 at 0"},
    /* 5: what is laid out as one version and says that it is the other has no right total. */
    {"version 1 laid out as 2", true, 1, 0, "TBC", 1, "refused 5 at 0"},
    {"version 2 laid out as 1", false, 2, 0, "TBC", 1, "refused 5 at 0"},
};

enum { HEADER_EXAMPLES = sizeof header_examples / sizeof header_examples[0] };

static void make_header_example(const char *boards, const struct header_example *example, uint8_t revision, struct capture *capture)
{
    static const struct pair empty[PAIRS];

    load_board_a(boards, revision, capture);
    if (example->with_pairs)
        become_version_2(capture, empty);
    memcpy(capture->bytes, example->mark, 3);
    put_u16(capture->bytes + CAPTURE_VERSION, example->version);
    capture->bytes[5] = example->segments;
    if (example->length != 0)
        capture->length = example->length;
}

size_t count_pin_examples(void)
{
    return PAIRS_EXAMPLES + HEADER_EXAMPLES;
}

struct made_example make_pin_example(const char *boards, size_t number, uint8_t revision, struct capture *capture)
{
    if (number >= PAIRS_EXAMPLES) {
        const struct header_example *example = &header_examples[number - PAIRS_EXAMPLES];

        make_header_example(boards, example, revision, capture);
        return (struct made_example){example->what, example->printed};
    }

    const struct pairs_example *example = &pairs_examples[number];

    make_variant(boards, &example->board, WITH_PAIRS, revision, capture);
    if (example->edit != NULL)
        example->edit(capture);
    return (struct made_example){example->what, example->printed};
}

/* ---- Routes and traces ---- */

static const struct variant
    no_pairs = {.pair = {{0}}},
    short_bridge = {.pair = {{0, 32}}},
    slots_behind_pins = {.pair = {{0, 32}}, A_MSI, {{MSI, {32, 224}}, {BIO, {0, 64}}, {LPC, {19}}}},
    bridge_at_96 = {.pair = {{0, 32}}, A_FADT, {{EIO, {4, 5, 1}}, {BIO, {5, 96}}}},
    bridge_of_one_pin = {.pair = {{0, 0}, {5, 1}}, A_FADT, {{EIO, {4, 5, 1}}, {BIO, {5, 128}}}},
    one_pin = {.pair = {{0, 1}}, A_LPC, {{LPC, {0}}}, 64},
    lpc_on_last_pin = {.pair = {{0, 20}}},
    highest_base = {.pair = {{0, 1}}, A_BIO, {{BIO, {0, 65472}}, {LPC, {0}}}, 65472},
    other_ids = {.pair = {{5, 8}, {64, 1}, {255, 2}, {0, 0}}},
    over_64 = {.pair = {{0, 65}}},
    lpc_past_its_bridge = {.pair = {{0, 19}}},
    slot_on_pin = {.pair = {{0, 33}}, A_MSI, {{MSI, {32, 224}}, {BIO, {0, 64}}, {LPC, {19}}}};

static const struct variant_answer pin_answers[] = {
    /* 64 inputs without a pair, also where there are pairs of other IDs. */
    {"no pairs, route 96", &no_pairs, ROUTE, 96, 0, ARRIVES(3, 32)},
    {"no pairs, route 127", &no_pairs, ROUTE, 127, 0, ARRIVES(3, 63)},
    {"no pairs, route 128", &no_pairs, ROUTE, 128, 0, NO_OWNER},
    {"no pairs, trace (3, 63)", &no_pairs, TRACE, 3, 63, BIO_INPUT(127)},
    {"other IDs, route 127", &other_ids, ROUTE, 127, 0, ARRIVES(3, 63)},
    {"other IDs, trace (3, 63)", &other_ids, TRACE, 3, 63, BIO_INPUT(127)},
    /* A bridge has inputs up to its count, and owns no number from there on. */
    {"(0, 32), route 64", &short_bridge, ROUTE, 64, 0, ARRIVES(3, 0)},
    {"(0, 32), route 72", &short_bridge, ROUTE, 72, 0, ARRIVES(3, 8)},
    {"(0, 32), route 95", &short_bridge, ROUTE, 95, 0, ARRIVES(3, 31)},
    {"(0, 32), route 96", &short_bridge, ROUTE, 96, 0, NO_OWNER},
    {"(0, 32), route 127", &short_bridge, ROUTE, 127, 0, NO_OWNER},
    {"(0, 32), route 128", &short_bridge, ROUTE, 128, 0, NO_OWNER},
    {"(0, 32), route 3", &short_bridge, ROUTE, 3, 0, ARRIVES(3, 19)},
    {"(0, 32), route 26", &short_bridge, ROUTE, 26, 0, ARRIVES(2, 10)},
    {"(0, 32), route 65,631", &short_bridge, ROUTE, 65536 + 95, 0, NO_OWNER},
    {"(0, 32), route 4,294,967,295", &short_bridge, ROUTE, UINT32_MAX, 0, NO_OWNER},
    {"(0, 32), trace (3, 31)", &short_bridge, TRACE, 3, 31, BIO_INPUT(95)},
    {"(0, 32), trace (3, 32)", &short_bridge, TRACE, 3, 32, NOTHING},
    {"(0, 32), trace (3, 63)", &short_bridge, TRACE, 3, 63, NOTHING},
    {"(0, 32), trace (3, 64)", &short_bridge, TRACE, 3, 64, SLOT(64, 0)},
    {"(0, 32), trace (3, 19)", &short_bridge, TRACE, 3, 19, LPC_INPUT(83)},
    {"(0, 32), trace (3, 287)", &short_bridge, TRACE, 3, 256 + 31, NOTHING},
    {"(0, 32), trace (259, 31)", &short_bridge, TRACE, 256 + 3, 31, NOTHING},
    /* What arrives with the numbers of pins that are gone is a slot, if there is one. */
    {"MSI from 32, trace (3, 31)", &slots_behind_pins, TRACE, 3, 31, BIO_INPUT(95)},
    {"MSI from 32, trace (3, 32)", &slots_behind_pins, TRACE, 3, 32, SLOT(32, 0)},
    {"MSI from 32, trace (3, 63)", &slots_behind_pins, TRACE, 3, 63, SLOT(63, 0)},
    {"MSI from 32, route 96", &slots_behind_pins, ROUTE, 96, 0, NO_OWNER},
    /* A number that one bridge does not own any more may be another's. */
    {"BIO 5 at 96, route 95", &bridge_at_96, ROUTE, 95, 0, ARRIVES(3, 31)},
    {"BIO 5 at 96, route 96", &bridge_at_96, ROUTE, 96, 0, ARRIVES(4, 0)},
    {"BIO 5 at 96, route 127", &bridge_at_96, ROUTE, 127, 0, ARRIVES(4, 31)},
    {"BIO 5 at 96, route 159", &bridge_at_96, ROUTE, 159, 0, ARRIVES(4, 63)},
    {"BIO 5 at 96, route 160", &bridge_at_96, ROUTE, 160, 0, NO_OWNER},
    {"BIO 5 at 96, trace (4, 0)", &bridge_at_96, TRACE, 4, 0, BIO_INPUT(96)},
    {"BIO 5 at 96, trace (4, 19)", &bridge_at_96, TRACE, 4, 19, BIO_INPUT(115)},
    {"BIO 5 at 96, trace (4, 63)", &bridge_at_96, TRACE, 4, 63, BIO_INPUT(159)},
    {"BIO 5 at 96, trace (4, 64)", &bridge_at_96, TRACE, 4, 64, SLOT(64, 5)},
    {"BIO 5 at 96, trace (3, 32)", &bridge_at_96, TRACE, 3, 32, NOTHING},
    {"(5, 1), route 127", &bridge_of_one_pin, ROUTE, 127, 0, ARRIVES(3, 63)},
    {"(5, 1), route 128", &bridge_of_one_pin, ROUTE, 128, 0, ARRIVES(4, 0)},
    {"(5, 1), route 129", &bridge_of_one_pin, ROUTE, 129, 0, NO_OWNER},
    {"(5, 1), trace (4, 0)", &bridge_of_one_pin, TRACE, 4, 0, BIO_INPUT(128)},
    {"(5, 1), trace (4, 1)", &bridge_of_one_pin, TRACE, 4, 1, NOTHING},
    {"(5, 1), trace (3, 1)", &bridge_of_one_pin, TRACE, 3, 1, BIO_INPUT(65)},
    /* The LPC's lines arrive at the last pin that there is. */
    {"(0, 1), route 0", &one_pin, ROUTE, 0, 0, ARRIVES(3, 0)},
    {"(0, 1), route 15", &one_pin, ROUTE, 15, 0, ARRIVES(3, 0)},
    {"(0, 1), route 64", &one_pin, ROUTE, 64, 0, ARRIVES(3, 0)},
    {"(0, 1), route 65", &one_pin, ROUTE, 65, 0, NO_OWNER},
    {"(0, 1), trace (3, 0)", &one_pin, TRACE, 3, 0, LPC_INPUT(64)},
    {"(0, 1), trace (3, 1)", &one_pin, TRACE, 3, 1, NOTHING},
    {"(0, 20), route 8", &lpc_on_last_pin, ROUTE, 8, 0, ARRIVES(3, 19)},
    {"(0, 20), route 83", &lpc_on_last_pin, ROUTE, 83, 0, ARRIVES(3, 19)},
    {"(0, 20), route 84", &lpc_on_last_pin, ROUTE, 84, 0, NO_OWNER},
    {"(0, 20), trace (3, 19)", &lpc_on_last_pin, TRACE, 3, 19, LPC_INPUT(83)},
    {"(0, 20), trace (3, 20)", &lpc_on_last_pin, TRACE, 3, 20, NOTHING},
    {"base 65,472, route 65,472", &highest_base, ROUTE, 65472, 0, ARRIVES(3, 0)},
    {"base 65,472, route 65,473", &highest_base, ROUTE, 65473, 0, NO_OWNER},
    {"base 65,472, route 65,535", &highest_base, ROUTE, 65535, 0, NO_OWNER},
    /* Routes and traces of refused captures. 7 and 45 have no second place, and that of 52 is not printed here. */
    {"(0, 65), route 72", &over_64, ROUTE, 72, 0, "refused 7 at 18"},
    {"(0, 65), trace (3, 8)", &over_64, TRACE, 3, 8, "refused 7 at 18"},
    {"(0, 19), route 72", &lpc_past_its_bridge, ROUTE, 72, 0, "refused 45 at 287"},
    {"(0, 19), trace (3, 8)", &lpc_past_its_bridge, TRACE, 3, 8, "refused 45 at 287"},
    {"(0, 33), MSI from 32, route 72", &slot_on_pin, ROUTE, 72, 0, "refused 52 at 270"},
};

static const struct variant_answers all_pin_answers = {WITH_PAIRS, pin_answers, sizeof pin_answers / sizeof pin_answers[0]};

void ask_pin_answers(struct tally *tally, const struct reader *reader, const char *boards)
{
    ask_variant_answers(tally, reader, boards, all_pin_answers);
}

void ask_vectors_pin_answers(const char *boards)
{
    ask_vectors_variant_answers(boards, all_pin_answers);
}
