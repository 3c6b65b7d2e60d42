/*
 * Cases of request W-211: see owners.h. Documents 01 and 02 fix their answers.
 *
 * An answer is what the filling gave, and for each lookup a refusal, or whose the number is and then kind, core vector and number, as
 * W-209 has them: "filled lpc 0 3 19 nobody 2 0 0".
 */
#include "owners.h"

#include <stdio.h>
#include <string.h>

#include "questions.h"
#include "variants.h"

/* ---- Boards ---- */

struct owner_board {
    struct variant made; /* with a pair it is a capture of version 2 */
    uint8_t revision;    /* not 0: the MADT's, which is 1 on board A */
};

/* Structures of board A. It has LIO inputs 0 to 23 on core vector 2, and a bridge, with numbers from 64 on, on 3. */
#define LIO_2 {LIO, {2, 0, 0x00FFFFFF, 0}}
#define EIO_0 {EIO, {3, 0, 1}}
#define MSI_64 {MSI, {64, 192}}
#define BIO_0 {BIO, {0, 64}}
#define LPC_19 {LPC, {19}} /* behind bridge 0 */

/* Bits 44 to 47 of its base, which are 12 to 15 of the upper half, are the node of its bridge (W-208). */
#define LPC_BEHIND(node, cascade) {LPC, {cascade, (node) << 12}}

/* A second bridge, on core vector 4. */
#define BESIDE_BRIDGE_5(base) A_FADT, {{EIO, {4, 5, 1}}, {BIO, {5, base}}}

/* As on board A, but that the LIO's inputs 16 to 23 are on core vector 3, and an HT is in the EIO's place (W-201). */
#define NAMING(...) A_LIO, {{LIO, {2, 3, 0xFFFF, 0xFF0000}}, {HT, {__VA_ARGS__}}, MSI_64, BIO_0, LPC_19}

static const struct owner_board
    board_a = {.made = {.place = 0}},
    no_lpc = {.made = {.place = A_LPC, {{0}}}},
    no_bridge = {.made = {.place = A_MSI, {{MSI, {0, 256}}}, .sci = 26}},
    two_bridges = {.made = {.place = BESIDE_BRIDGE_5(128)}},
    four_bridges = {.made = {.place = A_EIO,
                             {{EIO, {3, 8, 1}}, {EIO, {4, 4, 1}}, {EIO, {5, 2, 1}}, {EIO, {6, 1, 1}}, {BIO, {8, 64}},
                              {BIO, {4, 128}}, {BIO, {2, 192}}, {BIO, {1, 256}}, MSI_64, LPC_BEHIND(2, 63)}}},
    on_ht = {.made = {.place = NAMING(16, 1, 2, 3, 4, 5, 6, 7)}};

/* Bridges at the table's end, beyond it, and with fewer pins (W-212). */
static const struct owner_board
    bridge_at_300 = {.made = {.place = A_BIO, {{BIO, {0, 300}}, LPC_19}, .sci = 26}},
    second_at_256 = {.made = {.place = BESIDE_BRIDGE_5(256)}},
    second_at_319 = {.made = {.place = BESIDE_BRIDGE_5(319)}},
    second_at_320 = {.made = {.place = BESIDE_BRIDGE_5(320)}},
    second_at_65472 = {.made = {.place = BESIDE_BRIDGE_5(65472)}},
    pins_32 = {.made = {.pair = {{0, 32}}}},
    pins_63 = {.made = {.pair = {{0, 63}}}},
    pins_64 = {.made = {.pair = {{0, 64}, {5, 1}}}}, /* as version 1 has them; there is no bridge 5 */
    pins_20_and_1 = {.made = {.pair = {{0, 20}, {5, 1}}, BESIDE_BRIDGE_5(84)}},
    pins_20_and_44 = {.made = {.pair = {{5, 44}, {0, 20}}, BESIDE_BRIDGE_5(84)}};

/* Boards that own 0 to 319 as board A does, two_bridges or on_ht, while lines arrive elsewhere, or nothing that is asked differs. */
static const struct owner_board
    lio_on_9 = {.made = {.place = A_LIO, {{LIO, {9, 0, 0xFFFFFFFF, 0}}, EIO_0, MSI_64, BIO_0, LPC_19}}},
    lio_on_2_and_4 = {.made = {.place = A_LIO, {{LIO, {2, 4, 0x0000FFFF, 0x00FF0000}}, EIO_0, MSI_64, BIO_0, LPC_19}}},
    eio_on_5 = {.made = {.place = A_EIO, {{EIO, {5, 0, 1}}, MSI_64, BIO_0, LPC_19}}},
    lpc_on_20 = {.made = {.place = A_LPC, {{LPC, {20}}}}},
    msi_100 = {.made = {.place = A_MSI, {{MSI, {100, 10}}, BIO_0, LPC_19}}},
    sci_26 = {.made = {.sci = 26}},
    lpc_behind_5 = {.made = {.place = A_LPC, {LPC_BEHIND(5, 19), {EIO, {4, 5, 1}}, {BIO, {5, 128}}}}},
    bridge_5_first = {.made = {.place = A_BIO, {{BIO, {5, 128}}, BIO_0, LPC_19, {EIO, {4, 5, 1}}}}},
    ht_1_and_16 = {.made = {.place = NAMING(1, 16, 2, 3, 4, 5, 6, 7)}};

/* Boards that own few of these numbers otherwise: 16 alone, the bridge's numbers by its hardware ID alone, or by one input. */
static const struct owner_board
    ht_names_0 = {.made = {.place = A_LIO, {LIO_2, {HT, {0}}, MSI_64, BIO_0, LPC_19}}},
    bridge_5 = {.made = {.place = A_EIO, {{EIO, {3, 5, 1}}, MSI_64, {BIO, {5, 64}}, LPC_BEHIND(5, 19)}}},
    bridges_swapped = {.made = {.place = A_EIO, {EIO_0, {EIO, {4, 5, 1}}, MSI_64, {BIO, {5, 64}}, {BIO, {0, 128}}, LPC_19}}},
    bridge_at_65 = {.made = {.place = A_BIO, {{BIO, {0, 65}}, LPC_19}}};

/* Refused: 54 and 40. Their map is the empty one. The last is refused in the strict reading alone, with 29 (W-207). */
static const struct owner_board
    sci_50 = {.made = {.sci = 50}},
    no_eio = {.made = {.place = A_EIO, {BIO_0, LPC_19}}},
    revision_5 = {.revision = 5};

/* ---- Some lookups ---- */

struct owner_example {
    const char *what;
    enum question question;
    const struct owner_board *table, *board; /* what fills the table that LOOK_UP has, and whose map is asked */
    uint32_t number, count;                  /* as a question has them */
    uint32_t numbers[16];
    const char *printed;
    const char *strict; /* not NULL: the strict reading refuses a board, and prints this */
};

#define WITH_TABLE(table, board) LOOK_UP, &table, &board, 0
#define BY_MAP(board) BY_MAP_ALONE, NULL, &board, 0
#define CHANGED(board, number) CHANGED_ENTRIES, NULL, &board, number

#define NOBODYS " nobody 2 0 0"
#define REFUSED_61 " refused 61 at 0"
#define REFUSED_63 " refused 63 at 0"
#define TWICE(words) words words
#define FOUR_TIMES(words) words words words words
#define EIGHT_TIMES(words) FOUR_TIMES(words) FOUR_TIMES(words)

/* What is asked with a table that the map does not fill in, and its answers. */
#define ONE_OF_EACH 8, {3, 26, 45, 50, 72, 319, 320, UINT32_MAX}
#define ALL_63 "filled" EIGHT_TIMES(REFUSED_63)

/* Answers with a board's own table and by its map. */
#define ALL_KINDS " lpc 0 3 19 lio 10 0 2 10 lio 29 1 0 0 nobody 2 0 0 bio 0 8 0 3 8" TWICE(NOBODYS)
#define ON_HT \
    " lpc 0 3 275 lio 0 0 2 0 nobody 2 0 0 lio 8 0 2 8 nobody 2 0 0 lio 17 0 3 17 lio 29 1 0 0 bio 0 8 0 3 264 bio 0 31 0 3 287" \
    " bio 0 32 0 2 288 bio 0 63 0 2 319 nobody 2 0 0"
#define AROUND_320 \
    " nobody 2 0 0 bio 0 0 0 3 0 bio 0 18 0 3 18 bio 0 19 0 3 19 bio 0 20 0 3 20 bio 0 21 0 3 21 bio 0 63 0 3 63 nobody 2 0 0"
#define UP_TO_65535 " nobody 2 0 0 nobody 2 0 0 nobody 2 0 0 bio 5 0 0 4 0 bio 5 63 0 4 63 nobody 2 0 0"

static const struct owner_example owner_examples[] = {
    /* Lines of the LPC, of the LIO and of a bridge, wired or not, and what has no owner. */
    {"A, all kinds", WITH_TABLE(board_a, board_a), 7, {3, 26, 45, 50, 72, 128, UINT32_MAX}, .printed = "filled" ALL_KINDS},
    {"A, all kinds, by the map", BY_MAP(board_a), 7, {3, 26, 45, 50, 72, 128, UINT32_MAX}, .printed = "asked" ALL_KINDS},
    {"A, falling, some again", WITH_TABLE(board_a, board_a), 6, {127, 83, 40, 3, 3, 127},
     .printed = "filled bio 0 63 0 3 63 bio 0 19 0 3 19 lio 24 1 0 0 lpc 0 3 19 lpc 0 3 19 bio 0 63 0 3 63"},
    {"on HT", WITH_TABLE(on_ht, on_ht), 12, {3, 16, 17, 24, 32, 33, 45, 72, 95, 96, 127, 128}, .printed = "filled" ON_HT},
    {"on HT, by the map", BY_MAP(on_ht), 12, {3, 16, 17, 24, 32, 33, 45, 72, 95, 96, 127, 128}, .printed = "asked" ON_HT},
    {"none", WITH_TABLE(board_a, board_a), 0, {0}, .printed = "filled"},
    {"none, by the map", BY_MAP(board_a), 0, {0}, .printed = "asked"},
    /* 319 is the table's last number, 320 the map's first. Nothing above them is taken for a number that the table has. */
    {"A, edges", WITH_TABLE(board_a, board_a), 8, {319, 320, 321, 65535, 65536, 0x7FFFFFFF, 0x80000000, UINT32_MAX},
     .printed = "filled" EIGHT_TIMES(NOBODYS)},
    {"A, edges, by the map", BY_MAP(board_a), 8, {319, 320, 321, 65535, 65536, 0x7FFFFFFF, 0x80000000, UINT32_MAX},
     .printed = "asked" EIGHT_TIMES(NOBODYS)},
    {"A, like 3, 26 and 72", WITH_TABLE(board_a, board_a), 8,
     {320 + 3, 320 + 72, 512 + 3, 256 + 72, 65536 + 26, 65536 + 72, 0x80000003, 0xFFFF0000 + 72},
     .printed = "filled" EIGHT_TIMES(NOBODYS)},
    {"bridge at 300", WITH_TABLE(bridge_at_300, bridge_at_300), 8, {299, 300, 318, 319, 320, 321, 363, 364},
     .printed = "filled" AROUND_320},
    {"bridge at 300, by the map", BY_MAP(bridge_at_300), 8, {299, 300, 318, 319, 320, 321, 363, 364}, .printed = "asked" AROUND_320},
    {"second at 65472", WITH_TABLE(second_at_65472, second_at_65472), 6, {319, 320, 65471, 65472, 65535, 65536},
     .printed = "filled" UP_TO_65535},
    {"second at 65472, by the map", BY_MAP(second_at_65472), 6, {319, 320, 65471, 65472, 65535, 65536},
     .printed = "asked" UP_TO_65535},
    {"second at 65472, low bits of 65472", WITH_TABLE(second_at_65472, second_at_65472), 4,
     {65472 % 256, 65536 + 65472, 0x80000000 + 65472, 0xFFFF0000 + 65535}, .printed = "filled" FOUR_TIMES(NOBODYS)},
    /* The table of another board that owns 0 to 319 alike is taken. The answers are those of the map that is asked. */
    {"A's table, LIO on 9", WITH_TABLE(board_a, lio_on_9), 5, {16, 26, 45, 47, 72},
     .printed = "filled lio 0 0 9 0 lio 10 0 9 10 lio 29 0 9 29 lio 31 0 9 31 bio 0 8 0 3 8"},
    {"table of LIO on 9, A", WITH_TABLE(lio_on_9, board_a), 4, {16, 26, 45, 47},
     .printed = "filled lio 0 0 2 0 lio 10 0 2 10 lio 29 1 0 0 lio 31 1 0 0"},
    {"A's table, LIO on 2 and 4", WITH_TABLE(board_a, lio_on_2_and_4), 4, {31, 32, 39, 40},
     .printed = "filled lio 15 0 2 15 lio 16 0 4 16 lio 23 0 4 23 lio 24 1 0 0"},
    {"A's table, EIO on 5", WITH_TABLE(board_a, eio_on_5), 3, {72, 3, 26}, .printed = "filled bio 0 8 0 5 8 lpc 0 5 19 lio 10 0 2 10"},
    {"table of EIO on 5, A", WITH_TABLE(eio_on_5, board_a), 3, {72, 3, 26},
     .printed = "filled bio 0 8 0 3 8 lpc 0 3 19 lio 10 0 2 10"},
    {"A's table, LPC on 20", WITH_TABLE(board_a, lpc_on_20), 3, {3, 83, 84},
     .printed = "filled lpc 0 3 20 bio 0 19 0 3 19 bio 0 20 0 3 20"},
    {"table of LPC on 20, A", WITH_TABLE(lpc_on_20, board_a), 2, {15, 84}, .printed = "filled lpc 0 3 19 bio 0 20 0 3 20"},
    {"A's table, MSI 100 to 109", WITH_TABLE(board_a, msi_100), 3, {100, 127, 128},
     .printed = "filled bio 0 36 0 3 36 bio 0 63 0 3 63 nobody 2 0 0"},
    {"A's table, SCI 26", WITH_TABLE(board_a, sci_26), 2, {26, 75}, .printed = "filled lio 10 0 2 10 bio 0 11 0 3 11"},
    {"A's table, (0, 64), (5, 1)", WITH_TABLE(board_a, pins_64), 3, {3, 127, 128},
     .printed = "filled lpc 0 3 19 bio 0 63 0 3 63 nobody 2 0 0"},
    {"A's table, second at 320", WITH_TABLE(board_a, second_at_320), 6, {72, 319, 320, 383, 384, 65536 + 320},
     .printed = "filled bio 0 8 0 3 8 nobody 2 0 0 bio 5 0 0 4 0 bio 5 63 0 4 63 nobody 2 0 0 nobody 2 0 0"},
    {"table of second at 320, A", WITH_TABLE(second_at_320, board_a), 4, {319, 320, 383, 384}, .printed = "filled" FOUR_TIMES(NOBODYS)},
    {"table of second at 320, at 65472", WITH_TABLE(second_at_320, second_at_65472), 3, {320, 65472, 72},
     .printed = "filled nobody 2 0 0 bio 5 0 0 4 0 bio 0 8 0 3 8"},
    {"table of LPC behind 0, behind 5", WITH_TABLE(two_bridges, lpc_behind_5), 3, {3, 83, 147},
     .printed = "filled lpc 0 4 19 bio 0 19 0 3 19 bio 5 19 0 4 19"},
    {"table of LPC behind 5, behind 0", WITH_TABLE(lpc_behind_5, two_bridges), 3, {3, 83, 147},
     .printed = "filled lpc 0 3 19 bio 0 19 0 3 19 bio 5 19 0 4 19"},
    {"table of BIO 0 first, BIO 5 first", WITH_TABLE(two_bridges, bridge_5_first), 4, {3, 127, 128, 191},
     .printed = "filled lpc 0 3 19 bio 0 63 0 3 63 bio 5 0 0 4 0 bio 5 63 0 4 63"},
    {"table of HT(16, 1, ..), HT(1, 16, ..)", WITH_TABLE(on_ht, ht_1_and_16), 5, {3, 72, 100, 17, 32},
     .printed = "filled lpc 0 2 275 bio 0 8 0 2 264 bio 0 36 0 3 292 nobody 2 0 0 nobody 2 0 0"},
    /* 63: one entry that differs is enough, whichever number is looked up, also above the table. */
    {"table of (0, 63), A", WITH_TABLE(pins_63, board_a), ONE_OF_EACH, .printed = ALL_63},
    {"A's table, (0, 63)", WITH_TABLE(board_a, pins_63), ONE_OF_EACH, .printed = ALL_63},
    {"table of second at 319, A", WITH_TABLE(second_at_319, board_a), ONE_OF_EACH, .printed = ALL_63},
    {"A's table, second at 319", WITH_TABLE(board_a, second_at_319), ONE_OF_EACH, .printed = ALL_63},
    {"table of HT(0, .. 0), A", WITH_TABLE(ht_names_0, board_a), ONE_OF_EACH, .printed = ALL_63},
    {"A's table, HT(0, .. 0)", WITH_TABLE(board_a, ht_names_0), ONE_OF_EACH, .printed = ALL_63},
    {"table of no LPC, A", WITH_TABLE(no_lpc, board_a), ONE_OF_EACH, .printed = ALL_63},
    {"A's table, no LPC", WITH_TABLE(board_a, no_lpc), ONE_OF_EACH, .printed = ALL_63},
    {"table of bridge 5, A", WITH_TABLE(bridge_5, board_a), ONE_OF_EACH, .printed = ALL_63},
    {"A's table, bridge 5", WITH_TABLE(board_a, bridge_5), ONE_OF_EACH, .printed = ALL_63},
    {"table of bridges 0 and 5, swapped", WITH_TABLE(two_bridges, bridges_swapped), ONE_OF_EACH, .printed = ALL_63},
    {"table of bridge at 65, A", WITH_TABLE(bridge_at_65, board_a), ONE_OF_EACH, .printed = ALL_63},
    {"A's table, two bridges", WITH_TABLE(board_a, two_bridges), ONE_OF_EACH, .printed = ALL_63},
    {"table of no bridge, A", WITH_TABLE(no_bridge, board_a), ONE_OF_EACH, .printed = ALL_63},
    {"table of second at 256, at 320", WITH_TABLE(second_at_256, second_at_320), ONE_OF_EACH, .printed = ALL_63},
    {"table of HT, A", WITH_TABLE(on_ht, board_a), ONE_OF_EACH, .printed = ALL_63},
    {"A's table, none", WITH_TABLE(board_a, two_bridges), 0, {0}, .printed = "filled"},
    /* 61 comes before 63. A table that could not be filled has nobody for each number, and no map fills that in. */
    {"table of SCI 50, A", WITH_TABLE(sci_50, board_a), 4, {3, 50, 72, 320}, .printed = "refused 61 at 0" FOUR_TIMES(REFUSED_63)},
    {"table of no EIO, no LPC", WITH_TABLE(no_eio, no_lpc), 4, {3, 50, 72, 320}, .printed = "refused 61 at 0" FOUR_TIMES(REFUSED_63)},
    {"table of SCI 50, A, none", WITH_TABLE(sci_50, board_a), 0, {0}, .printed = "refused 61 at 0"},
    {"A's table, SCI 50", WITH_TABLE(board_a, sci_50), 4, {3, 50, 72, 320}, .printed = "filled" FOUR_TIMES(REFUSED_61)},
    {"A's table, no EIO", WITH_TABLE(board_a, no_eio), 4, {3, 50, 72, 320}, .printed = "filled" FOUR_TIMES(REFUSED_61)},
    {"two bridges' table, SCI 50", WITH_TABLE(two_bridges, sci_50), 2, {3, 320}, .printed = "filled" TWICE(REFUSED_61)},
    {"SCI 50", WITH_TABLE(sci_50, sci_50), 4, {3, 50, 72, 320}, .printed = "refused 61 at 0" FOUR_TIMES(REFUSED_61)},
    {"table of no EIO, SCI 50", WITH_TABLE(no_eio, sci_50), 2, {3, 320}, .printed = "refused 61 at 0" TWICE(REFUSED_61)},
    {"SCI 50, none", WITH_TABLE(sci_50, sci_50), 0, {0}, .printed = "refused 61 at 0"},
    {"SCI 50, by the map", BY_MAP(sci_50), 4, {3, 50, 72, 320}, .printed = "asked" FOUR_TIMES(REFUSED_61)},
    {"no EIO, by the map", BY_MAP(no_eio), 4, {3, 50, 72, 320}, .printed = "asked" FOUR_TIMES(REFUSED_61)},
    {"SCI 50, none, by the map", BY_MAP(sci_50), 0, {0}, .printed = "asked"},
    /* Each reading holds both captures to its rules. */
    {"revision 5", WITH_TABLE(revision_5, revision_5), 2, {3, 320}, "filled lpc 0 3 19 nobody 2 0 0",
     "refused 61 at 0" TWICE(REFUSED_61)},
    {"table of revision 5, A", WITH_TABLE(revision_5, board_a), 2, {3, 320}, "filled lpc 0 3 19 nobody 2 0 0",
     "refused 61 at 0" TWICE(REFUSED_63)},
    {"A's table, revision 5", WITH_TABLE(board_a, revision_5), 2, {3, 320}, "filled lpc 0 3 19 nobody 2 0 0",
     "filled" TWICE(REFUSED_61)},
    {"two bridges' table, revision 5", WITH_TABLE(two_bridges, revision_5), 2, {3, 320}, "filled" TWICE(REFUSED_63),
     "filled" TWICE(REFUSED_61)},
    {"revision 5, by the map", BY_MAP(revision_5), 2, {72, 26}, "asked bio 0 8 0 3 8 lio 10 0 2 10", "asked" TWICE(REFUSED_61)},
    {"revision 5, changed", CHANGED(revision_5, 3), 2, {3, 72}, "filled" TWICE(REFUSED_63), "refused 61 at 0" TWICE(REFUSED_61)},
    /* An entry of any kind that is changed: the number that is looked up, another one, or one above the table. */
    {"A, 3 with 3 changed", CHANGED(board_a, 3), 1, {3}, .printed = "filled" REFUSED_63},
    {"A, 72 with 72 changed", CHANGED(board_a, 72), 1, {72}, .printed = "filled" REFUSED_63},
    {"A, 50 with others changed", CHANGED(board_a, 50), 8, {0, 15, 26, 45, 49, 51, 72, 319}, .printed = ALL_63},
    {"A, 320 with others changed", CHANGED(board_a, 320), 8, {0, 16, 47, 48, 63, 64, 127, 319}, .printed = ALL_63},
    {"A, 2^32 - 1 with others changed", CHANGED(board_a, UINT32_MAX), 4, {15, 40, 128, 319},
     .printed = "filled" FOUR_TIMES(REFUSED_63)},
    {"A, 3 with none changed", CHANGED(board_a, 3), 0, {0}, .printed = "filled"},
    {"on HT, 17 with others changed", CHANGED(on_ht, 17), 4, {17, 16, 72, 3}, .printed = "filled" FOUR_TIMES(REFUSED_63)},
    {"two bridges, 72 with others changed", CHANGED(two_bridges, 72), 4, {64, 128, 191, 192}, .printed = "filled" FOUR_TIMES(REFUSED_63)},
    {"SCI 50, changed", CHANGED(sci_50, 72), 2, {72, 3}, .printed = "refused 61 at 0" TWICE(REFUSED_61)},
    {"no EIO, changed", CHANGED(no_eio, 320), 2, {0, 319}, .printed = "refused 61 at 0" TWICE(REFUSED_61)},
};

enum { OWNER_EXAMPLES = sizeof owner_examples / sizeof owner_examples[0] };

/* ---- All numbers of some boards ---- */

enum { OWNED_MAX = 12, ALL_NUMBERS = LOOKED_UP_MAX };

/* Global numbers from one to another, and whose they are. */
struct owned {
    uint32_t first, last; /* last is never 0, unless there are no more */
    const char *whose;    /* "lpc"; or "lio", or a bridge: then they are its inputs in turn ... */
    uint32_t input;       /* ... from this one on */
    uint32_t vector;      /* where they arrive; 0: they are not wired */
    uint32_t number;      /* with which the first arrives, and each other with one more than the one before, but all of the LPC's alike */
};

/* A board, and all that is owned of its numbers from 0 to 399: the others are nobody's. */
struct owned_board {
    const char *what;
    const struct owner_board *board;
    struct owned owned[OWNED_MAX];
};

#define LIO_OF_A {16, 39, "lio", 0, 2, 0}, {40, 47, "lio", 24, 0, 0}

static const struct owned_board owned_boards[] = {
    {"A", &board_a, {{0, 15, "lpc", 0, 3, 19}, LIO_OF_A, {64, 127, "bio 0", 0, 3, 0}}},
    {"no LPC", &no_lpc, {LIO_OF_A, {64, 127, "bio 0", 0, 3, 0}}},
    {"no bridge", &no_bridge, {LIO_OF_A}},
    {"two bridges", &two_bridges, {{0, 15, "lpc", 0, 3, 19}, LIO_OF_A, {64, 127, "bio 0", 0, 3, 0}, {128, 191, "bio 5", 0, 4, 0}}},
    {"bridges swapped", &bridges_swapped,
     {{0, 15, "lpc", 0, 3, 19}, LIO_OF_A, {64, 127, "bio 5", 0, 4, 0}, {128, 191, "bio 0", 0, 3, 0}}},
    {"four bridges", &four_bridges,
     {{0, 15, "lpc", 0, 5, 63}, LIO_OF_A, {64, 127, "bio 8", 0, 3, 0}, {128, 191, "bio 4", 0, 4, 0}, {192, 255, "bio 2", 0, 5, 0},
      {256, 319, "bio 1", 0, 6, 0}}},
    {"bridge at 300", &bridge_at_300, {{0, 15, "lpc", 0, 3, 19}, LIO_OF_A, {300, 363, "bio 0", 0, 3, 0}}},
    {"second at 319", &second_at_319,
     {{0, 15, "lpc", 0, 3, 19}, LIO_OF_A, {64, 127, "bio 0", 0, 3, 0}, {319, 382, "bio 5", 0, 4, 0}}},
    {"second at 320", &second_at_320,
     {{0, 15, "lpc", 0, 3, 19}, LIO_OF_A, {64, 127, "bio 0", 0, 3, 0}, {320, 383, "bio 5", 0, 4, 0}}},
    {"(0, 32)", &pins_32, {{0, 15, "lpc", 0, 3, 19}, LIO_OF_A, {64, 95, "bio 0", 0, 3, 0}}},
    {"(0, 20), (5, 1)", &pins_20_and_1,
     {{0, 15, "lpc", 0, 3, 19}, LIO_OF_A, {64, 83, "bio 0", 0, 3, 0}, {84, 84, "bio 5", 0, 4, 0}}},
    {"(0, 20), (5, 44)", &pins_20_and_44,
     {{0, 15, "lpc", 0, 3, 19}, LIO_OF_A, {64, 83, "bio 0", 0, 3, 0}, {84, 127, "bio 5", 0, 4, 0}}},
    {"HT(16, 1, .. 7)", &on_ht,
     {{0, 15, "lpc", 0, 3, 275}, {16, 16, "lio", 0, 2, 0}, {24, 31, "lio", 8, 2, 8}, {33, 39, "lio", 17, 3, 17},
      {40, 47, "lio", 24, 0, 0}, {64, 95, "bio 0", 0, 3, 256}, {96, 127, "bio 0", 32, 2, 288}}},
    {"HT(0, .. 0)", &ht_names_0,
     {{0, 15, "lpc", 0, 2, 275}, {17, 39, "lio", 1, 2, 1}, {40, 47, "lio", 24, 0, 0}, {64, 127, "bio 0", 0, 2, 256}}},
};

enum { OWNED_BOARDS = sizeof owned_boards / sizeof owned_boards[0] };

/* Adds the answer to a number; gives how long it is. */
static int print_owned(const struct owned_board *board, uint32_t number, char *answer, size_t room)
{
    for (size_t i = 0; i < OWNED_MAX && board->owned[i].last != 0; i++) {
        const struct owned *owned = &board->owned[i];
        uint32_t turn = number - owned->first;

        if (number < owned->first || number > owned->last)
            continue;
        if (strcmp(owned->whose, "lpc") == 0)
            return snprintf(answer, room, " lpc 0 %u %u", owned->vector, owned->number);
        if (owned->vector == 0)
            return snprintf(answer, room, " %s %u 1 0 0", owned->whose, owned->input + turn);
        return snprintf(answer, room, " %s %u 0 %u %u", owned->whose, owned->input + turn, owned->vector, owned->number + turn);
    }
    return snprintf(answer, room, "%s", NOBODYS);
}

/* ---- Asking ---- */

/* One case in a reading: what is asked, and what must be printed. The next one takes all of it over. */
struct owner_case {
    struct text label;
    struct owner_query query;
    const char *printed;
};

static struct bytes make_board(const char *boards, const struct owner_board *board, struct capture *capture)
{
    uint16_t version = board->made.pair[0].number == 0 ? 1 : WITH_PAIRS;

    make_variant(boards, &board->made, version, board->revision == 0 ? 1 : board->revision, capture);
    return (struct bytes){capture->bytes, capture->length};
}

static struct owner_case case_of_example(const char *boards, const struct owner_example *example, enum reading reading)
{
    static struct capture table, map;
    struct owner_case made = {.query = {reading, example->question, example->number, example->count, example->numbers, {NULL, 0},
                                        make_board(boards, example->board, &map)}};

    if (example->question == LOOK_UP)
        made.query.table = make_board(boards, example->table, &table);
    made.printed = reading == STRICT && example->strict != NULL ? example->strict : example->printed;
    snprintf(made.label.words, sizeof made.label.words, "W-211, %s", example->what);
    return made;
}

/* All that a board owns is asked with its own table and by the map; and then one number, with each entry changed. */
static const enum question whole_questions[] = {LOOK_UP, BY_MAP_ALONE, CHANGED_ENTRIES};
enum { WHOLE_QUESTIONS = sizeof whole_questions / sizeof whole_questions[0], WITH_EACH_CHANGED = 72 };

static const char *print_whole(const struct owned_board *board, enum question question, uint32_t count)
{
    static char answer[ANSWER_ROOM];
    int length = snprintf(answer, sizeof answer, "%s", question == BY_MAP_ALONE ? "asked" : "filled");

    for (uint32_t number = 0; number < count; number++) {
        char *next = answer + length;
        size_t room = sizeof answer - (size_t)length;

        length += question == CHANGED_ENTRIES ? snprintf(next, room, "%s", REFUSED_63) : print_owned(board, number, next, room);
    }
    return answer;
}

static struct owner_case case_of_whole(const char *boards, const struct owned_board *board, enum question question,
                                       enum reading reading)
{
    static const char *const what[] = {[LOOK_UP] = "all with its table", [BY_MAP_ALONE] = "all by the map",
                                       [CHANGED_ENTRIES] = "each entry changed"};
    static struct capture capture;
    static uint32_t numbers[ALL_NUMBERS];
    uint32_t count = question == CHANGED_ENTRIES ? OWNERS : ALL_NUMBERS;
    uint32_t looked_up = question == CHANGED_ENTRIES ? WITH_EACH_CHANGED : 0;
    struct bytes map = make_board(boards, board->board, &capture);
    struct owner_case made = {.query = {reading, question, looked_up, count, numbers, {NULL, 0}, map}};

    for (uint32_t i = 0; i < count; i++)
        numbers[i] = i;
    if (question == LOOK_UP)
        made.query.table = map;
    made.printed = print_whole(board, question, count);
    snprintf(made.label.words, sizeof made.label.words, "W-211, %s, %s", board->what, what[question]);
    return made;
}

enum { OWNER_CASES = OWNER_EXAMPLES + OWNED_BOARDS * WHOLE_QUESTIONS };

static struct owner_case make_case(const char *boards, size_t number, enum reading reading)
{
    if (number < OWNER_EXAMPLES)
        return case_of_example(boards, &owner_examples[number], reading);

    size_t whole = number - OWNER_EXAMPLES;

    return case_of_whole(boards, &owned_boards[whole / WHOLE_QUESTIONS], whole_questions[whole % WHOLE_QUESTIONS], reading);
}

void ask_owner_examples(struct tally *tally, const struct reader *reader, const char *boards)
{
    char said[ANSWER_ROOM];

    if (reader == &yasmirand)
        return;
    for (size_t i = 0; i < OWNER_CASES; i++) {
        struct owner_case asked = make_case(boards, i, reading_of(reader));

        answer_owner_query(&asked.query, said);
        tally->asked++;
        if (strcmp(said, asked.printed) != 0 && ++tally->wrong <= WRONG_TOLD)
            printf("%s, %s: %s, but the documents say %s\n", reader->name, asked.label.words, said, asked.printed);
    }
}

void ask_vectors_owner_examples(const char *boards)
{
    for (size_t i = 0; i < OWNER_CASES; i++)
        for (enum reading reading = ORDINARY; reading <= STRICT; reading++) {
            struct owner_case asked = make_case(boards, i, reading);

            write_owner_question(asked.label.words, &asked.query, asked.printed);
        }
}
