/*
 * Cases of request W-201: see ht.h. Documents 01 and 02 fix their answers.
 *
 * Byte n of an HT is for its vectors 32n to 32n + 31, and names the LIO input that they go to. So on most of these boards HT
 * vectors 0 to 31 arrive at core vector 3, by input 16, and those from 32 on at core vector 2, by inputs 1 to 7.
 */
#include "ht.h"

#include <inttypes.h>
#include <stdbool.h>
#include <stdio.h>

#include "board_a.h"

/* ---- Boards ---- */

/* An LPC with its base, as board_a.h has it written. */
#define LPC_AT(cascade, base) {LPC, {cascade, (uint32_t)(UINT64_C(base) >> 32), (uint32_t)UINT64_C(base)}}

/* The LIO has inputs 0 to 15 on core vector 2, and 16 to 23 on 3. Inputs 24 to 31 are unwired. */
#define LIO_2_3 {LIO, {2, 3, 0xFFFF, 0xFF0000}}
#define HT_16 {HT, {16, 1, 2, 3, 4, 5, 6, 7}}
#define EIO_0 {EIO, {4, 0, 1}}
#define MSI_64 {MSI, {64, 192}}
#define BIO_0 {BIO, {0, 64}}
#define LPC_19 {LPC, {19}}

/*
 * Board A with these: the LIO is at 207, the HT at 230, the MSI at 251, the BIO at 270, the LPC at 287, and what follows at 302, which
 * is the FADT if there is nothing else. In version 2 all of them are 8 bytes further on. CORE are at 162, 177 and 192, and the MADT
 * is at 118.
 */
#define HT_BOARD A_LIO, {LIO_2_3, HT_16, MSI_64, BIO_0, LPC_19}
#define HT_BOARD_AND(...) {.place = A_LIO, {LIO_2_3, HT_16, MSI_64, BIO_0, LPC_19, __VA_ARGS__}}

/* With other structures from the HT on: at 230. */
#define FROM_HT_ON(...) A_LIO, {LIO_2_3, __VA_ARGS__}

/* With other bytes of the HT. */
#define NAMING(...) A_LIO, {LIO_2_3, {HT, {__VA_ARGS__}}, MSI_64, BIO_0, LPC_19}

/* With an LPC whose base is given. */
#define WITH_LPC_AT(cascade, base) A_LIO, {LIO_2_3, HT_16, MSI_64, BIO_0, LPC_AT(cascade, base)}

/* What is printed: the lines before the HT's, and its own if it is that of most of these boards. */
#define PRINTED(from_ht_on) "map 1\ncore 0 0\ncore 1 1\nlio 2 65535\nlio 3 16711680\n" from_ht_on
#define PRINTED_2(from_ht_on) "map 2\ncore 0 0\ncore 1 1\nlio 2 65535\nlio 3 16711680\n" from_ht_on
#define PRINTED_HT_16 "ht 16 1 2 3 4 5 6 7\n"
#define PRINTED_REST "bio 0 64 127\nmsi 64 255\nlpc 0 19\n"
#define PRINTED_SCI(sci) PRINTED(PRINTED_HT_16 PRINTED_REST "sci " sci "\n")

/* ---- What is printed ---- */

struct ht_example {
    const char *what;
    uint16_t version; /* of the capture */
    struct variant board;
    struct {
        size_t place; /* not 0: this byte of the capture ... */
        uint8_t byte; /* ... becomes this */
    } change;
    const char *printed;
};

/* Structures are named as the documents do: HT(16, 1, ..) by its bytes, EIO(4, 0) by cascade and node. (0, 32) is a pair of version 2. */
static const struct ht_example ht_examples[] = {
    /* Maps. The SCI is 75, pin 11, if nothing else is said. */
    {"HT(16, 1, .. 7)", 1, {.place = HT_BOARD}, .printed = PRINTED_SCI("75 3 267")},
    {"HT(16, 1, .. 7), version 2", 2, {.pair = {{0}}, HT_BOARD},
     .printed = PRINTED_2(PRINTED_HT_16 PRINTED_REST "sci 75 3 267\n")},
    {"HT(0, .. 0)", 1, {.place = NAMING(0, 0, 0, 0, 0, 0, 0, 0)},
     .printed = PRINTED("ht 0 0 0 0 0 0 0 0\n" PRINTED_REST "sci 75 2 267\n")},
    {"HT(16, .. 23)", 1, {.place = NAMING(16, 17, 18, 19, 20, 21, 22, 23)},
     .printed = PRINTED("ht 16 17 18 19 20 21 22 23\n" PRINTED_REST "sci 75 3 267\n")},
    {"HT(15, 16, 15, 16, ..), SCI 100", 1, {.place = NAMING(15, 16, 15, 16, 15, 16, 15, 16), .sci = 100},
     .printed = PRINTED("ht 15 16 15 16 15 16 15 16\n" PRINTED_REST "sci 100 3 292\n")},
    {"HT(7, .. 0)", 1, {.place = NAMING(7, 6, 5, 4, 3, 2, 1, 0)},
     .printed = PRINTED("ht 7 6 5 4 3 2 1 0\n" PRINTED_REST "sci 75 2 267\n")},
    {"HT names all wired inputs, 0 and 31", 1,
     {.place = A_LIO, {{LIO, {2, 3, 1, 0x80000000}}, {HT, {31, 0, 31, 0, 31, 0, 31, 0}}, MSI_64, BIO_0, LPC_19}},
     .printed = "map 1\ncore 0 0\ncore 1 1\nlio 2 1\nlio 3 2147483648\nht 31 0 31 0 31 0 31 0\n" PRINTED_REST "sci 75 3 267\n"},
    {"HT, one wired input", 1, {.place = A_LIO, {{LIO, {2, 0, 0x100, 0}}, {HT, {8, 8, 8, 8, 8, 8, 8, 8}}, MSI_64, BIO_0, LPC_19}},
     .printed = "map 1\ncore 0 0\ncore 1 1\nlio 2 256\nht 8 8 8 8 8 8 8 8\n" PRINTED_REST "sci 75 2 267\n"},
    /* The HT enters no core vector: whatever vectors the LIO has, 53 has nothing to say. */
    {"HT, both LIO halves on 2", 1, {.place = A_LIO, {{LIO, {2, 2, 0xFFFF, 0xFF0000}}, HT_16, MSI_64, BIO_0, LPC_19}},
     .printed = "map 1\ncore 0 0\ncore 1 1\nlio 2 65535\nlio 2 16711680\n" PRINTED_HT_16 PRINTED_REST "sci 75 2 267\n"},
    {"HT, LIO's high half alone, on 9", 1,
     {.place = A_LIO, {{LIO, {0, 9, 0, 0xFFFFFFFF}}, {HT, {31, 30, 29, 28, 27, 26, 25, 24}}, MSI_64, BIO_0, LPC_19}},
     .printed = "map 1\ncore 0 0\ncore 1 1\nlio 9 4294967295\nht 31 30 29 28 27 26 25 24\n" PRINTED_REST "sci 75 9 267\n"},
    {"HT, LIO's high half unused, its byte 255", 1,
     {.place = A_LIO, {{LIO, {2, 255, 0xFFFF, 0}}, {HT, {1, 2, 3, 4, 5, 6, 7, 8}}, MSI_64, BIO_0, LPC_19}},
     .printed = "map 1\ncore 0 0\ncore 1 1\nlio 2 65535\nht 1 2 3 4 5 6 7 8\n" PRINTED_REST "sci 75 2 267\n"},
    /* The order of the table does not matter, nor what is passed over. */
    {"HT before the LIO", 1, {.place = A_LIO, {HT_16, LIO_2_3, MSI_64, BIO_0, LPC_19}}, .printed = PRINTED_SCI("75 3 267")},
    {"HT last", 1, {.place = A_LIO, {LIO_2_3, MSI_64, BIO_0, LPC_19, HT_16}}, .printed = PRINTED_SCI("75 3 267")},
    {"HT first of all", 1, {.place = A_CORE, {HT_16, {CORE, {0, 0, 1}}, {CORE, {1, 1, 1}}, BIO_0, LPC_19, MSI_64, LIO_2_3}},
     .printed = PRINTED_SCI("75 3 267")},
    {"HT among two-byte structures", 1,
     {.place = A_LIO, {LIO_2_3, {PASSED_OVER, {0}}, HT_16, {PASSED_OVER, {0}}, MSI_64, BIO_0, LPC_19, {PASSED_OVER, {0}}}},
     .printed = PRINTED_SCI("75 3 267")},
    /* What lands on the HT, if anything. */
    {"HT, no BIO, no LPC, MSI 0 to 255, SCI 16", 1, {.place = FROM_HT_ON(HT_16, {MSI, {0, 256}}), .sci = 16},
     .printed = PRINTED(PRINTED_HT_16 "msi 0 255\nsci 16 2 0\n")},
    {"HT, no BIO, no LPC, no MSI, SCI 39", 1, {.place = FROM_HT_ON(HT_16), .sci = 39},
     .printed = PRINTED(PRINTED_HT_16 "sci 39 3 23\n")},
    {"HT, no LPC", 1, {.place = FROM_HT_ON(HT_16, MSI_64, BIO_0)},
     .printed = PRINTED(PRINTED_HT_16 "bio 0 64 127\nmsi 64 255\nsci 75 3 267\n")},
    {"HT, no MSI", 1, {.place = FROM_HT_ON(HT_16, BIO_0, LPC_19)},
     .printed = PRINTED(PRINTED_HT_16 "bio 0 64 127\nlpc 0 19\nsci 75 3 267\n")},
    {"HT, MSI 96 to 96, 64 to 95, 97 to 127, 255 to 255", 1,
     {.place = FROM_HT_ON(HT_16, {MSI, {96, 1}}, {MSI, {64, 32}}, {MSI, {97, 31}}, {MSI, {255, 1}}, BIO_0, LPC_19)},
     .printed = PRINTED(PRINTED_HT_16 "bio 0 64 127\nmsi 96 96\nmsi 64 95\nmsi 97 127\nmsi 255 255\nlpc 0 19\nsci 75 3 267\n")},
    {"HT, BIO at 65,472, SCI 65,535", 1, {.place = FROM_HT_ON(HT_16, MSI_64, {BIO, {0, 65472}}, LPC_19), .sci = 65535},
     .printed = PRINTED(PRINTED_HT_16 "bio 0 65472 65535\nmsi 64 255\nlpc 0 19\nsci 65535 2 319\n")},
    /* An SCI on inputs that are not named, on LPC lines and on pins. */
    {"HT, SCI 16", 1, {.place = HT_BOARD, .sci = 16}, .printed = PRINTED_SCI("16 2 0")},
    {"HT, SCI 24", 1, {.place = HT_BOARD, .sci = 24}, .printed = PRINTED_SCI("24 2 8")},
    {"HT, SCI 31", 1, {.place = HT_BOARD, .sci = 31}, .printed = PRINTED_SCI("31 2 15")},
    {"HT, SCI 33", 1, {.place = HT_BOARD, .sci = 33}, .printed = PRINTED_SCI("33 3 17")},
    {"HT, SCI 39", 1, {.place = HT_BOARD, .sci = 39}, .printed = PRINTED_SCI("39 3 23")},
    {"HT, SCI 3", 1, {.place = HT_BOARD, .sci = 3}, .printed = PRINTED_SCI("3 3 275")},
    {"HT, SCI 15", 1, {.place = HT_BOARD, .sci = 15}, .printed = PRINTED_SCI("15 3 275")},
    {"HT, SCI 64", 1, {.place = HT_BOARD, .sci = 64}, .printed = PRINTED_SCI("64 3 256")},
    {"HT, SCI 83", 1, {.place = HT_BOARD, .sci = 83}, .printed = PRINTED_SCI("83 3 275")},
    {"HT, SCI 95", 1, {.place = HT_BOARD, .sci = 95}, .printed = PRINTED_SCI("95 3 287")},
    {"HT, SCI 96", 1, {.place = HT_BOARD, .sci = 96}, .printed = PRINTED_SCI("96 2 288")},
    {"HT, SCI 127", 1, {.place = HT_BOARD, .sci = 127}, .printed = PRINTED_SCI("127 2 319")},
    {"HT, LPC cascade 31, SCI 3", 1, {.place = FROM_HT_ON(HT_16, MSI_64, BIO_0, {LPC, {31}}), .sci = 3},
     .printed = PRINTED(PRINTED_HT_16 "bio 0 64 127\nmsi 64 255\nlpc 0 31\nsci 3 3 287\n")},
    {"HT, LPC cascade 32, SCI 3", 1, {.place = FROM_HT_ON(HT_16, MSI_64, BIO_0, {LPC, {32}}), .sci = 3},
     .printed = PRINTED(PRINTED_HT_16 "bio 0 64 127\nmsi 64 255\nlpc 0 32\nsci 3 2 288\n")},
    {"HT, LPC base 0xFFFF0E0010002000", 1, {.place = WITH_LPC_AT(19, 0xFFFF0E0010002000)}, .printed = PRINTED_SCI("75 3 267")},
    /* Bridges with fewer pins (W-212). */
    {"(0, 32), HT, MSI 32 to 255", 2, {.pair = {{0, 32}}, FROM_HT_ON(HT_16, {MSI, {32, 224}}, BIO_0, LPC_19)},
     .printed = PRINTED_2(PRINTED_HT_16 "bio 0 64 95\nmsi 32 255\nlpc 0 19\nsci 75 3 267\n")},
    {"(0, 33), HT, MSI 33 to 255, LPC cascade 32", 2,
     {.pair = {{0, 33}}, FROM_HT_ON(HT_16, {MSI, {33, 223}}, BIO_0, {LPC, {32}}), .sci = 96},
     .printed = PRINTED_2(PRINTED_HT_16 "bio 0 64 96\nmsi 33 255\nlpc 0 32\nsci 96 2 288\n")},
    {"(0, 1), HT, MSI 1 to 255, LPC cascade 0", 2,
     {.pair = {{5, 9}, {0, 1}}, FROM_HT_ON(HT_16, {MSI, {1, 255}}, BIO_0, {LPC, {0}}), .sci = 64},
     .printed = PRINTED_2(PRINTED_HT_16 "bio 0 64 64\nmsi 1 255\nlpc 0 0\nsci 64 3 256\n")},
    {"(0, 20), HT", 2, {.pair = {{0, 20}}, HT_BOARD},
     .printed = PRINTED_2(PRINTED_HT_16 "bio 0 64 83\nmsi 64 255\nlpc 0 19\nsci 75 3 267\n")},
    /* 34: the first structure that gives the board both kinds, or a second HT. */
    {"HT, EIO", 1, {.place = FROM_HT_ON(HT_16, EIO_0, MSI_64, BIO_0, LPC_19)}, .printed = "refused 34 at 251"},
    {"EIO, HT", 1, {.place = FROM_HT_ON(EIO_0, HT_16, MSI_64, BIO_0, LPC_19)}, .printed = "refused 34 at 243"},
    {"EIO, HT, version 2", 2, {.pair = {{0}}, FROM_HT_ON(EIO_0, HT_16, MSI_64, BIO_0, LPC_19)}, .printed = "refused 34 at 251"},
    {"HT, EIO, HT", 1, {.place = FROM_HT_ON(HT_16, EIO_0, HT_16, MSI_64, BIO_0, LPC_19)}, .printed = "refused 34 at 251"},
    {"EIO, HT, EIO", 1, {.place = FROM_HT_ON(EIO_0, HT_16, {EIO, {5, 5, 1}}, BIO_0, LPC_19)}, .printed = "refused 34 at 243"},
    {"EIO, EIO, HT", 1, {.place = FROM_HT_ON(EIO_0, {EIO, {5, 5, 1}}, HT_16, BIO_0, LPC_19)}, .printed = "refused 34 at 256"},
    {"HT, EIO, EIO", 1, {.place = FROM_HT_ON(HT_16, EIO_0, {EIO, {5, 5, 1}}, BIO_0, LPC_19)}, .printed = "refused 34 at 251"},
    {"EIO, HT, HT", 1, {.place = FROM_HT_ON(EIO_0, HT_16, HT_16, BIO_0, LPC_19)}, .printed = "refused 34 at 243"},
    {"HT, HT, EIO", 1, {.place = FROM_HT_ON(HT_16, HT_16, EIO_0, BIO_0, LPC_19)}, .printed = "refused 34 at 251"},
    {"HT last, far behind the EIO", 1, {.place = A_FADT, {HT_16}}, .printed = "refused 34 at 294"},
    {"EIO last, far behind the HT", 1, HT_BOARD_AND({EIO, {4, 9, 1}}), .printed = "refused 34 at 302"},
    {"HT first of all, board A's EIO", 1,
     {.place = A_CORE, {HT_16, {CORE, {0, 0, 1}}, {CORE, {1, 1, 1}}, LIO_2_3, EIO_0, MSI_64, BIO_0, LPC_19}},
     .printed = "refused 34 at 236"},
    {"HT twice", 1, {.place = FROM_HT_ON(HT_16, HT_16, MSI_64, BIO_0, LPC_19)}, .printed = "refused 34 at 251"},
    {"HT, another HT", 1, {.place = FROM_HT_ON(HT_16, {HT, {0}}, MSI_64, BIO_0, LPC_19)}, .printed = "refused 34 at 251"},
    {"HT three times", 1, {.place = FROM_HT_ON(HT_16, HT_16, HT_16, MSI_64, BIO_0, LPC_19)}, .printed = "refused 34 at 251"},
    {"HT twice, first and last", 1, HT_BOARD_AND(HT_16), .printed = "refused 34 at 302"},
    /* It comes before 39 to 54 ... */
    {"HT, EIO, repeated UID", 1, HT_BOARD_AND(EIO_0, {CORE, {0, 3, 1}}), .printed = "refused 34 at 302"},
    {"repeated UID, then HT and EIO", 1,
     {.place = A_CORE, {{CORE, {0, 0, 1}}, {CORE, {0, 1, 1}}, LIO_2_3, HT_16, EIO_0, MSI_64, BIO_0, LPC_19}},
     .printed = "refused 34 at 236"},
    {"HT twice, repeated UID", 1, HT_BOARD_AND(HT_16, {CORE, {0, 3, 1}}), .printed = "refused 34 at 302"},
    {"HT, EIO, no LIO", 1, {.place = A_LIO, {HT_16, EIO_0, MSI_64, BIO_0, LPC_19}}, .printed = "refused 34 at 228"},
    {"HT, EIO, no CORE", 1, {.place = A_CORE, {LIO_2_3, HT_16, EIO_0, MSI_64, BIO_0, LPC_19}}, .printed = "refused 34 at 206"},
    {"HT, EIO, no enabled CORE", 1,
     {.place = A_CORE, {{CORE, {0, 0, 0}}, LIO_2_3, HT_16, EIO_0, MSI_64, BIO_0, LPC_19}}, .printed = "refused 34 at 221"},
    {"HT and EIO alone", 1, {.place = A_CORE, {HT_16, EIO_0}}, .printed = "refused 34 at 183"},
    {"HT, two EIO of node 0", 1, {.place = FROM_HT_ON(HT_16, EIO_0, EIO_0, BIO_0, LPC_19)}, .printed = "refused 34 at 251"},
    {"two EIO of node 0, HT", 1, {.place = FROM_HT_ON(EIO_0, EIO_0, HT_16, BIO_0, LPC_19)}, .printed = "refused 34 at 256"},
    {"HT, EIO, BIO 5", 1, {.place = FROM_HT_ON(HT_16, EIO_0, {BIO, {5, 64}})}, .printed = "refused 34 at 251"},
    {"HT, EIO, LPC without a BIO", 1, {.place = FROM_HT_ON(HT_16, EIO_0, LPC_19), .sci = 16}, .printed = "refused 34 at 251"},
    {"HT names an unwired input, EIO", 1, {.place = FROM_HT_ON({HT, {24}}, EIO_0, BIO_0, LPC_19)}, .printed = "refused 34 at 251"},
    {"EIO, HT names an unwired input", 1, {.place = FROM_HT_ON(EIO_0, {HT, {24}}, BIO_0, LPC_19)}, .printed = "refused 34 at 243"},
    {"(0, 19), HT, EIO", 2, {.pair = {{0, 19}}, FROM_HT_ON(HT_16, EIO_0, BIO_0, LPC_19)}, .printed = "refused 34 at 259"},
    {"HT, EIO, two BIO at 64", 1, {.place = FROM_HT_ON(HT_16, EIO_0, BIO_0, BIO_0)}, .printed = "refused 34 at 251"},
    {"HT, EIO, MSI twice", 1, {.place = FROM_HT_ON(HT_16, EIO_0, MSI_64, MSI_64, BIO_0)}, .printed = "refused 34 at 251"},
    {"HT, EIO on the LIO's vector", 1, {.place = FROM_HT_ON(HT_16, {EIO, {2, 0, 1}}, BIO_0, LPC_19)},
     .printed = "refused 34 at 251"},
    {"HT, EIO, SCI 50", 1, {.place = FROM_HT_ON(HT_16, EIO_0, BIO_0, LPC_19), .sci = 50}, .printed = "refused 34 at 251"},
    /* ... and behind all that a structure breaks, wherever that stands. */
    {"HT, EIO, then an LPC of length 1", 1, {.place = FROM_HT_ON(HT_16, EIO_0, BIO_0, LPC_19)}, {282, 1}, "refused 31 at 281"},
    {"HT, EIO, then an LPC past the end", 1, {.place = FROM_HT_ON(HT_16, EIO_0, BIO_0, LPC_19)}, {282, 16}, "refused 31 at 281"},
    {"HT twice, then an LPC of length 1", 1, {.place = FROM_HT_ON(HT_16, HT_16, BIO_0, LPC_19)}, {290, 1}, "refused 31 at 289"},
    {"HT, EIO, then a CORE of length 14", 1, {.place = FROM_HT_ON(HT_16, EIO_0, {CORE, {3, 3, 1}})}, {265, 14}, "refused 32 at 264"},
    {"HT, EIO, then a CORE of version 0", 1, {.place = FROM_HT_ON(HT_16, EIO_0, {CORE, {3, 3, 1}})}, {266, 0}, "refused 33 at 264"},
    {"HT, EIO, then a CORE with flags 2", 1, {.place = FROM_HT_ON(HT_16, EIO_0, {CORE, {3, 3, 2}})},
     .printed = "refused 35 at 264"},
    {"HT, EIO, then EIO(10, 1)", 1, {.place = FROM_HT_ON(HT_16, EIO_0, {EIO, {10, 1, 1}})}, .printed = "refused 71 at 264"},
    {"HT, EIO(1, 0)", 1, {.place = FROM_HT_ON(HT_16, {EIO, {1, 0, 1}})}, .printed = "refused 71 at 251"},
    {"HT, EIO(4, 64)", 1, {.place = FROM_HT_ON(HT_16, {EIO, {4, 64, 1}})}, .printed = "refused 72 at 251"},
    {"HT, EIO(4, 0) of node map 0", 1, {.place = FROM_HT_ON(HT_16, {EIO, {4, 0, 0}})}, .printed = "refused 73 at 251"},
    {"HT, EIO, then an MSI of count 0", 1, {.place = FROM_HT_ON(HT_16, EIO_0, {MSI, {64, 0}})}, .printed = "refused 74 at 264"},
    {"HT, EIO, then MSI 65 to 256", 1, {.place = FROM_HT_ON(HT_16, EIO_0, {MSI, {65, 192}})}, .printed = "refused 75 at 264"},
    {"HT, EIO, then a BIO at 63", 1, {.place = FROM_HT_ON(HT_16, EIO_0, {BIO, {0, 63}})}, .printed = "refused 76 at 264"},
    {"HT, EIO, then LPC cascade 64", 1, {.place = FROM_HT_ON(HT_16, EIO_0, {LPC, {64}})}, .printed = "refused 77 at 264"},
    {"HT, EIO, then an HT with byte 32", 1, {.place = FROM_HT_ON(HT_16, EIO_0, {HT, {32}})}, .printed = "refused 78 at 264"},
    {"HT, EIO, then a LIO with a shared bit", 1, {.place = A_LIO, {HT_16, EIO_0, {LIO, {2, 3, 3, 6}}}},
     .printed = "refused 37 at 241"},
    {"HT, EIO, then a second LIO", 1, {.place = FROM_HT_ON(HT_16, EIO_0, LIO_2_3)}, .printed = "refused 38 at 264"},
    {"HT, EIO, then a second LPC", 1, HT_BOARD_AND(EIO_0, LPC_19), .printed = "refused 38 at 315"},
    /* There is no 38 for HT, but for EIO there is. */
    {"HT, five EIO", 1, {.place = FROM_HT_ON(HT_16, EIO_0, {EIO, {5, 1, 1}}, {EIO, {6, 2, 1}}, {EIO, {7, 3, 1}}, {EIO, {8, 4, 1}})},
     .printed = "refused 38 at 303"},
    {"five EIO, HT", 1, {.place = FROM_HT_ON(EIO_0, {EIO, {5, 1, 1}}, {EIO, {6, 2, 1}}, {EIO, {7, 3, 1}}, {EIO, {8, 4, 1}}, HT_16)},
     .printed = "refused 38 at 282"},
    {"HT, four EIO", 1, {.place = FROM_HT_ON(HT_16, EIO_0, {EIO, {5, 1, 1}}, {EIO, {6, 2, 1}}, {EIO, {7, 3, 1}})},
     .printed = "refused 34 at 251"},
    {"four EIO, HT", 1, {.place = FROM_HT_ON(EIO_0, {EIO, {5, 1, 1}}, {EIO, {6, 2, 1}}, {EIO, {7, 3, 1}}, HT_16)},
     .printed = "refused 34 at 282"},
    {"HT six times", 1, {.place = FROM_HT_ON(HT_16, HT_16, HT_16, HT_16, HT_16, HT_16)}, .printed = "refused 34 at 251"},
    /* The HT's own length and version, before its bytes. */
    {"HT of length 20", 1, {.place = HT_BOARD}, {231, 20}, "refused 32 at 230"},
    {"HT of length 22", 1, {.place = HT_BOARD}, {231, 22}, "refused 32 at 230"},
    {"HT of version 0", 1, {.place = HT_BOARD}, {232, 0}, "refused 33 at 230"},
    {"HT of version 2", 1, {.place = HT_BOARD}, {232, 2}, "refused 33 at 230"},
    {"HT of version 0, byte 32", 1, {.place = NAMING(32, 1, 2, 3, 4, 5, 6, 7)}, {232, 0}, "refused 33 at 230"},
    {"EIO, HT of length 20", 1, {.place = A_FADT, {HT_16}}, {295, 20}, "refused 32 at 294"},
    {"EIO, HT of version 0", 1, {.place = A_FADT, {HT_16}}, {296, 0}, "refused 33 at 294"},
    {"HT first, board A, its second CORE of length 14", 1,
     {.place = A_CORE, {HT_16, {CORE, {0, 0, 1}}, {CORE, {1, 1, 1}}, LIO_2_3, EIO_0, MSI_64, BIO_0, LPC_19}}, {199, 14},
     "refused 32 at 198"},
    /* 78: a byte over 31, before 34, 37 and 38 and behind what stands earlier. */
    {"HT(32, 1, .. 7)", 1, {.place = NAMING(32, 1, 2, 3, 4, 5, 6, 7)}, .printed = "refused 78 at 230"},
    {"HT(16, 1, .. 6, 32)", 1, {.place = NAMING(16, 1, 2, 3, 4, 5, 6, 32)}, .printed = "refused 78 at 230"},
    {"HT(16, 1, 2, 255, 4, .. 7)", 1, {.place = NAMING(16, 1, 2, 255, 4, 5, 6, 7)}, .printed = "refused 78 at 230"},
    {"HT(16, 1, .. 7) with byte 4 64", 1, {.place = NAMING(16, 1, 2, 3, 64, 5, 6, 7)}, .printed = "refused 78 at 230"},
    {"HT(128, .. 128), version 2", 2, {.pair = {{0}}, NAMING(128, 128, 128, 128, 128, 128, 128, 128)},
     .printed = "refused 78 at 238"},
    {"all inputs wired, HT(31, .. 31, 32)", 1,
     {.place = A_LIO, {{LIO, {2, 3, 0xFFFF, 0xFFFF0000}}, {HT, {31, 31, 31, 31, 31, 31, 31, 32}}, MSI_64, BIO_0, LPC_19}},
     .printed = "refused 78 at 230"},
    {"HT names input 24 and 32", 1, {.place = NAMING(24, 1, 2, 3, 4, 5, 6, 32)}, .printed = "refused 78 at 230"},
    {"HT, HT with byte 32", 1, {.place = FROM_HT_ON(HT_16, {HT, {32}}, BIO_0, LPC_19)}, .printed = "refused 78 at 251"},
    {"EIO, HT with byte 32", 1, {.place = A_FADT, {{HT, {32}}}}, .printed = "refused 78 at 294"},
    {"HT with byte 32, EIO", 1, {.place = FROM_HT_ON({HT, {32}}, EIO_0, BIO_0, LPC_19)}, .printed = "refused 78 at 230"},
    {"HT with byte 32, then LIO cascade 10", 1, {.place = A_LIO, {{HT, {32}}, {LIO, {10, 0, 1, 0}}}},
     .printed = "refused 78 at 207"},
    {"LIO cascade 10, then HT with byte 32", 1, {.place = A_LIO, {{LIO, {10, 0, 1, 0}}, {HT, {32}}}},
     .printed = "refused 71 at 207"},
    {"LIO with a shared bit, then HT with byte 32", 1, {.place = A_LIO, {{LIO, {2, 3, 3, 6}}, {HT, {32}}}},
     .printed = "refused 37 at 207"},
    {"HT with byte 32, no LIO, no CORE", 1, {.place = A_CORE, {{HT, {32}}}}, .printed = "refused 78 at 162"},
    {"HT with byte 32, then length 1", 1, {.place = NAMING(32, 1, 2, 3, 4, 5, 6, 7)}, {288, 1}, "refused 78 at 230"},
    /* 39 and 40 on HT boards. Neither EIO nor HT is 40, and so is no LIO. */
    {"HT, repeated UID", 1, HT_BOARD_AND({CORE, {0, 3, 1}}), .printed = "refused 39 at 302"},
    {"HT, repeated UID, no LIO", 1, {.place = A_LIO, {HT_16, MSI_64, BIO_0, LPC_19, {CORE, {0, 3, 1}}}},
     .printed = "refused 39 at 279"},
    {"neither EIO nor HT", 1, {.place = FROM_HT_ON(MSI_64, BIO_0, LPC_19)}, .printed = "refused 40 at 118"},
    {"HT, no LIO", 1, {.place = A_LIO, {HT_16, MSI_64, BIO_0, LPC_19}}, .printed = "refused 40 at 118"},
    {"HT, no CORE", 1, {.place = A_CORE, {LIO_2_3, HT_16, MSI_64, BIO_0, LPC_19}}, .printed = "refused 40 at 118"},
    {"HT, no enabled CORE", 1, {.place = A_CORE, {{CORE, {0, 0, 0}}, LIO_2_3, HT_16, MSI_64, BIO_0, LPC_19}},
     .printed = "refused 40 at 118"},
    {"HT, no LIO, BIO 5", 1, {.place = A_LIO, {HT_16, MSI_64, {BIO, {5, 64}}, LPC_19}}, .printed = "refused 40 at 118"},
    {"HT, no LIO, version 2", 2, {.pair = {{0}}, A_LIO, {HT_16, MSI_64, BIO_0, LPC_19}}, .printed = "refused 40 at 126"},
    /* 42: a bridge on the HT has hardware ID 0. */
    {"HT, BIO 5", 1, {.place = FROM_HT_ON(HT_16, MSI_64, {BIO, {5, 64}})}, .printed = "refused 42 at 270"},
    {"HT, BIO 1", 1, {.place = FROM_HT_ON(HT_16, MSI_64, {BIO, {1, 64}})}, .printed = "refused 42 at 270"},
    {"HT, BIO 63", 1, {.place = FROM_HT_ON(HT_16, MSI_64, {BIO, {63, 64}})}, .printed = "refused 42 at 270"},
    {"HT, BIO 16", 1, {.place = FROM_HT_ON(HT_16, MSI_64, {BIO, {16, 64}}, LPC_19)}, .printed = "refused 42 at 270"},
    {"HT, BIO 5, LPC base 0x5E0010002000", 1, {.place = FROM_HT_ON(HT_16, MSI_64, {BIO, {5, 64}}, LPC_AT(19, 0x5E0010002000))},
     .printed = "refused 42 at 270"},
    {"HT, BIO 0, then BIO 5", 1, HT_BOARD_AND({BIO, {5, 128}}), .printed = "refused 42 at 302"},
    {"HT, BIO 5, then BIO 0", 1, {.place = FROM_HT_ON(HT_16, {BIO, {5, 128}}, BIO_0, LPC_19)}, .printed = "refused 42 at 251"},
    {"HT, BIO 256", 1, {.place = FROM_HT_ON(HT_16, {BIO, {256, 64}})}, .printed = "refused 72 at 251"},
    {"HT names input 24, BIO 5", 1, {.place = FROM_HT_ON({HT, {24}}, {BIO, {5, 64}})}, .printed = "refused 42 at 251"},
    {"HT, BIO 5, LPC without a bridge", 1, {.place = FROM_HT_ON(HT_16, LPC_19, {BIO, {5, 64}})}, .printed = "refused 42 at 266"},
    /* 43: the LPC's node is the bridge's, which is 0. It comes before 44. */
    {"HT, LPC base 0x5E0010002000", 1, {.place = WITH_LPC_AT(19, 0x5E0010002000)}, .printed = "refused 43 at 287"},
    {"HT, LPC base 0x1E0010002000", 1, {.place = WITH_LPC_AT(19, 0x1E0010002000)}, .printed = "refused 43 at 287"},
    {"HT, LPC base 0xFE0010002000", 1, {.place = WITH_LPC_AT(19, 0xFE0010002000)}, .printed = "refused 43 at 287"},
    {"HT, LPC without a BIO", 1, {.place = FROM_HT_ON(HT_16, MSI_64, LPC_19), .sci = 16}, .printed = "refused 43 at 270"},
    {"HT names input 24, LPC base 0x5E0010002000", 1,
     {.place = A_LIO, {LIO_2_3, {HT, {24, 1, 2, 3, 4, 5, 6, 7}}, MSI_64, BIO_0, LPC_AT(19, 0x5E0010002000)}},
     .printed = "refused 43 at 287"},
    {"HT names input 24, LPC without a BIO", 1, {.place = FROM_HT_ON({HT, {24}}, MSI_64, LPC_19), .sci = 16},
     .printed = "refused 43 at 270"},
    {"(0, 19), HT, LPC base 0x5E0010002000", 2, {.pair = {{0, 19}}, WITH_LPC_AT(19, 0x5E0010002000)},
     .printed = "refused 43 at 295"},
    /* 44: each of the eight bytes, and also where nothing lands on its vectors. */
    {"HT(24, 1, .. 7)", 1, {.place = NAMING(24, 1, 2, 3, 4, 5, 6, 7)}, .printed = "refused 44 at 230"},
    {"HT(16, 24, 2, .. 7)", 1, {.place = NAMING(16, 24, 2, 3, 4, 5, 6, 7)}, .printed = "refused 44 at 230"},
    {"HT(16, 1, 24, 3, .. 7)", 1, {.place = NAMING(16, 1, 24, 3, 4, 5, 6, 7)}, .printed = "refused 44 at 230"},
    {"HT(16, 1, 2, 24, 4, .. 7)", 1, {.place = NAMING(16, 1, 2, 24, 4, 5, 6, 7)}, .printed = "refused 44 at 230"},
    {"HT(16, 1, 2, 3, 24, 5, 6, 7)", 1, {.place = NAMING(16, 1, 2, 3, 24, 5, 6, 7)}, .printed = "refused 44 at 230"},
    {"HT(16, 1, .. 4, 24, 6, 7)", 1, {.place = NAMING(16, 1, 2, 3, 4, 24, 6, 7)}, .printed = "refused 44 at 230"},
    {"HT(16, 1, .. 5, 24, 7)", 1, {.place = NAMING(16, 1, 2, 3, 4, 5, 24, 7)}, .printed = "refused 44 at 230"},
    {"HT(16, 1, .. 6, 24)", 1, {.place = NAMING(16, 1, 2, 3, 4, 5, 6, 24)}, .printed = "refused 44 at 230"},
    {"HT(16, 1, .. 6, 31), version 2", 2, {.pair = {{0}}, NAMING(16, 1, 2, 3, 4, 5, 6, 31)}, .printed = "refused 44 at 238"},
    {"HT(24, .. 31)", 1, {.place = NAMING(24, 25, 26, 27, 28, 29, 30, 31)}, .printed = "refused 44 at 230"},
    {"no MSI, HT(16, 1, 24, 3, .. 7)", 1, {.place = FROM_HT_ON({HT, {16, 1, 24, 3, 4, 5, 6, 7}}, BIO_0, LPC_19)},
     .printed = "refused 44 at 230"},
    {"no MSI, HT(16, 1, .. 6, 24)", 1, {.place = FROM_HT_ON({HT, {16, 1, 2, 3, 4, 5, 6, 24}}, BIO_0, LPC_19)},
     .printed = "refused 44 at 230"},
    {"no BIO, HT(24, 1, .. 7)", 1, {.place = FROM_HT_ON({HT, {24, 1, 2, 3, 4, 5, 6, 7}}, MSI_64), .sci = 16},
     .printed = "refused 44 at 230"},
    {"nothing lands on it, HT(16, 24, 2, .. 7)", 1, {.place = FROM_HT_ON({HT, {16, 24, 2, 3, 4, 5, 6, 7}}), .sci = 16},
     .printed = "refused 44 at 230"},
    {"(0, 32), no MSI, HT(16, 24, 2, .. 7)", 2, {.pair = {{0, 32}}, FROM_HT_ON({HT, {16, 24, 2, 3, 4, 5, 6, 7}}, BIO_0, LPC_19)},
     .printed = "refused 44 at 238"},
    {"LIO with both masks 0, HT(0, .. 0)", 1, {.place = A_LIO, {{LIO, {2, 3, 0, 0}}, {HT, {0}}, MSI_64, BIO_0, LPC_19}},
     .printed = "refused 44 at 230"},
    {"LIO's high half unused, HT(16, 1, .. 7)", 1, {.place = A_LIO, {{LIO, {2, 3, 0xFFFF, 0}}, HT_16, MSI_64, BIO_0, LPC_19}},
     .printed = "refused 44 at 230"},
    {"LIO without input 16, HT(16, 1, .. 7)", 1, {.place = A_LIO, {{LIO, {2, 3, 0xFFFF, 0xFE0000}}, HT_16, MSI_64, BIO_0, LPC_19}},
     .printed = "refused 44 at 230"},
    {"LIO without input 7, HT(16, 1, .. 7)", 1, {.place = A_LIO, {{LIO, {2, 3, 0xFF7F, 0xFF0000}}, HT_16, MSI_64, BIO_0, LPC_19}},
     .printed = "refused 44 at 230"},
    {"HT(24, 1, .. 7) before the LIO", 1, {.place = A_LIO, {{HT, {24, 1, 2, 3, 4, 5, 6, 7}}, LIO_2_3, MSI_64, BIO_0, LPC_19}},
     .printed = "refused 44 at 207"},
    {"HT(24, 1, .. 7) last", 1, {.place = A_LIO, {LIO_2_3, MSI_64, BIO_0, LPC_19, {HT, {24, 1, 2, 3, 4, 5, 6, 7}}}},
     .printed = "refused 44 at 281"},
    /* It comes before 45 and 51 to 54. */
    {"(0, 19), HT(24, 1, .. 7)", 2, {.pair = {{0, 19}}, NAMING(24, 1, 2, 3, 4, 5, 6, 7)}, .printed = "refused 44 at 238"},
    {"(0, 19), HT(16, 1, .. 6, 24)", 2, {.pair = {{0, 19}}, NAMING(16, 1, 2, 3, 4, 5, 6, 24)}, .printed = "refused 44 at 238"},
    {"HT(24, 1, .. 7), BIO 0 at 64 and 127", 1, {.place = FROM_HT_ON({HT, {24, 1, 2, 3, 4, 5, 6, 7}}, BIO_0, {BIO, {0, 127}})},
     .printed = "refused 44 at 230"},
    {"HT(24, 1, .. 7), MSI 63 to 255", 1, {.place = FROM_HT_ON({HT, {24, 1, 2, 3, 4, 5, 6, 7}}, {MSI, {63, 193}}, BIO_0)},
     .printed = "refused 44 at 230"},
    {"HT(24, 1, .. 7), SCI 50", 1, {.place = NAMING(24, 1, 2, 3, 4, 5, 6, 7), .sci = 50}, .printed = "refused 44 at 230"},
    {"HT(24, 1, .. 7), SCI 40", 1, {.place = NAMING(24, 1, 2, 3, 4, 5, 6, 7), .sci = 40}, .printed = "refused 44 at 230"},
    /* 45 on HT boards. */
    {"(0, 19), HT", 2, {.pair = {{0, 19}}, HT_BOARD}, .printed = "refused 45 at 295"},
    {"(0, 1), HT", 2, {.pair = {{0, 1}}, HT_BOARD}, .printed = "refused 45 at 295"},
    {"(0, 19), HT, BIO 0 again at 64", 2, {.pair = {{0, 19}}, A_LIO, {LIO_2_3, HT_16, MSI_64, BIO_0, LPC_19, BIO_0}},
     .printed = "refused 45 at 295"},
    {"(0, 19), HT, SCI 17", 2, {.pair = {{0, 19}}, HT_BOARD, .sci = 17}, .printed = "refused 45 at 295"},
    /* 51 and 52: two bridges on the HT have one hardware ID, and share its vectors from 0 on. Slots are on the HT. */
    {"HT, BIO 0 at 64 and 127", 1, HT_BOARD_AND({BIO, {0, 127}}), .printed = "refused 51 at 302 with 270"},
    {"HT, BIO 0 at 64 and 128", 1, HT_BOARD_AND({BIO, {0, 128}}), .printed = "refused 52 at 302 with 270"},
    {"(0, 1), HT, BIO 0 at 64 and 128", 2, {.pair = {{0, 1}}, FROM_HT_ON(HT_16, BIO_0, {BIO, {0, 128}})},
     .printed = "refused 52 at 276 with 259"},
    {"HT, MSI 63 to 255", 1, {.place = FROM_HT_ON(HT_16, {MSI, {63, 193}}, BIO_0, LPC_19)},
     .printed = "refused 52 at 270 with 251"},
    {"HT, BIO, MSI 63 to 63", 1, {.place = FROM_HT_ON(HT_16, BIO_0, {MSI, {63, 1}}, LPC_19)},
     .printed = "refused 52 at 268 with 251"},
    {"HT, the same MSI again", 1, HT_BOARD_AND(MSI_64), .printed = "refused 52 at 302 with 251"},
    {"HT, MSI 0 to 7, MSI 8 to 15, BIO", 1, {.place = FROM_HT_ON(HT_16, {MSI, {0, 8}}, {MSI, {8, 8}}, BIO_0)},
     .printed = "refused 52 at 289 with 251"},
    {"MSI 63 to 255, BIO, HT last", 1, {.place = A_LIO, {LIO_2_3, {MSI, {63, 193}}, BIO_0, HT_16}},
     .printed = "refused 52 at 249 with 230"},
    {"(0, 32), HT, MSI 31 to 255", 2, {.pair = {{0, 32}}, FROM_HT_ON(HT_16, {MSI, {31, 225}}, BIO_0, LPC_19)},
     .printed = "refused 52 at 278 with 259"},
    {"HT, MSI 63 to 255, SCI 17", 1, {.place = FROM_HT_ON(HT_16, {MSI, {63, 193}}, BIO_0, LPC_19), .sci = 17},
     .printed = "refused 52 at 270 with 251"},
    /* 54: an input that the HT names has no owner, whether anything lands on its vectors or not. */
    {"HT, SCI 17", 1, {.place = HT_BOARD, .sci = 17}, .printed = "refused 54 at 302"},
    {"HT, SCI 18", 1, {.place = HT_BOARD, .sci = 18}, .printed = "refused 54 at 302"},
    {"HT, SCI 23", 1, {.place = HT_BOARD, .sci = 23}, .printed = "refused 54 at 302"},
    {"HT, SCI 32", 1, {.place = HT_BOARD, .sci = 32}, .printed = "refused 54 at 302"},
    {"HT, SCI 40", 1, {.place = HT_BOARD, .sci = 40}, .printed = "refused 54 at 302"},
    {"HT, SCI 47", 1, {.place = HT_BOARD, .sci = 47}, .printed = "refused 54 at 302"},
    {"HT, SCI 48", 1, {.place = HT_BOARD, .sci = 48}, .printed = "refused 54 at 302"},
    {"HT, SCI 128", 1, {.place = HT_BOARD, .sci = 128}, .printed = "refused 54 at 302"},
    {"HT, SCI 267", 1, {.place = HT_BOARD, .sci = 267}, .printed = "refused 54 at 302"},
    {"HT, no LPC, SCI 3", 1, {.place = FROM_HT_ON(HT_16, MSI_64, BIO_0), .sci = 3}, .printed = "refused 54 at 287"},
    {"nothing lands on the HT, SCI 23", 1, {.place = FROM_HT_ON(HT_16), .sci = 23}, .printed = "refused 54 at 251"},
    {"HT(0, .. 0), SCI 16", 1, {.place = NAMING(0, 0, 0, 0, 0, 0, 0, 0), .sci = 16}, .printed = "refused 54 at 302"},
    {"HT names all wired inputs, no BIO, SCI 24", 1,
     {.place = A_LIO, {{LIO, {2, 0, 0x100, 0}}, {HT, {8, 8, 8, 8, 8, 8, 8, 8}}, MSI_64}, .sci = 24},
     .printed = "refused 54 at 270"},
    {"(0, 32), HT, SCI 96", 2, {.pair = {{0, 32}}, HT_BOARD, .sci = 96}, .printed = "refused 54 at 310"},
    /* 38 on HT boards. */
    {"HT, five MSI", 1, {.place = FROM_HT_ON(HT_16, {MSI, {64, 1}}, {MSI, {65, 1}}, {MSI, {66, 1}}, {MSI, {67, 1}}, {MSI, {68, 1}})},
     .printed = "refused 38 at 327"},
    {"HT, five BIO", 1,
     {.place = FROM_HT_ON(HT_16, BIO_0, {BIO, {0, 128}}, {BIO, {0, 192}}, {BIO, {0, 256}}, {BIO, {0, 320}})},
     .printed = "refused 38 at 319"},
};

enum { HT_EXAMPLES = sizeof ht_examples / sizeof ht_examples[0] };

size_t count_ht_examples(void)
{
    return HT_EXAMPLES;
}

struct made_example make_ht_example(const char *boards, size_t number, uint8_t revision, struct capture *capture)
{
    const struct ht_example *example = &ht_examples[number];

    make_variant(boards, &example->board, example->version, revision, capture);
    if (example->change.place != 0) {
        capture->bytes[example->change.place] = example->change.byte;
        make_sums_good(capture);
    }
    return (struct made_example){example->what, example->printed};
}

/* ---- Routes and traces, one by one ---- */

static const struct variant
    on_ht = {.place = HT_BOARD},
    ht_and_eio = {.place = FROM_HT_ON(HT_16, EIO_0, MSI_64, BIO_0, LPC_19)},
    byte_32 = {.place = NAMING(32, 1, 2, 3, 4, 5, 6, 7)},
    byte_24 = {.place = NAMING(24, 1, 2, 3, 4, 5, 6, 7)},
    bridge_5 = {.place = FROM_HT_ON(HT_16, MSI_64, {BIO, {5, 64}})},
    sci_17 = {.place = HT_BOARD, .sci = 17};

static const struct variant_answer answers_of_version_1[] = {
    {"on HT, route 72", &on_ht, ROUTE, 72, 0, ARRIVES(3, 264)},
    {"on HT, route 100", &on_ht, ROUTE, 100, 0, ARRIVES(2, 292)},
    {"on HT, route 3", &on_ht, ROUTE, 3, 0, ARRIVES(3, 275)},
    {"on HT, route 16", &on_ht, ROUTE, 16, 0, ARRIVES(2, 0)},
    {"on HT, route 17", &on_ht, ROUTE, 17, 0, NO_OWNER},
    {"on HT, route 32", &on_ht, ROUTE, 32, 0, NO_OWNER},
    {"on HT, route 45", &on_ht, ROUTE, 45, 0, UNWIRED},
    {"on HT, route 50", &on_ht, ROUTE, 50, 0, NO_OWNER},
    {"on HT, trace (3, 264)", &on_ht, TRACE, 3, 264, BIO_INPUT(72)},
    {"on HT, trace (2, 264)", &on_ht, TRACE, 2, 264, NOTHING},
    {"on HT, trace (3, 8)", &on_ht, TRACE, 3, 8, NOTHING},
    {"on HT, trace (2, 8)", &on_ht, TRACE, 2, 8, LIO_INPUT(24)},
    {"on HT, trace (2, 1)", &on_ht, TRACE, 2, 1, NOTHING},
    {"on HT, trace (3, 16)", &on_ht, TRACE, 3, 16, NOTHING},
    {"on HT, trace (2, 320)", &on_ht, TRACE, 2, 320, SLOT(64, 0)},
    {"on HT, trace (3, 320)", &on_ht, TRACE, 3, 320, NOTHING},
    {"on HT, trace (2, 511)", &on_ht, TRACE, 2, 511, SLOT(255, 0)},
    {"on HT, trace (2, 512)", &on_ht, TRACE, 2, 512, NOTHING},
    {"on HT, trace (3, 275)", &on_ht, TRACE, 3, 275, LPC_INPUT(83)},
    {"on HT, trace (3, 287)", &on_ht, TRACE, 3, 287, BIO_INPUT(95)},
    {"on HT, trace (2, 288)", &on_ht, TRACE, 2, 288, BIO_INPUT(96)},
    {"on HT, trace (3, 288)", &on_ht, TRACE, 3, 288, NOTHING},
    {"on HT, trace (259, 264)", &on_ht, TRACE, 256 + 3, 264, NOTHING},
    /* Refused, whatever is asked. */
    {"HT and EIO, route 72", &ht_and_eio, ROUTE, 72, 0, "refused 34 at 251"},
    {"HT and EIO, trace (3, 264)", &ht_and_eio, TRACE, 3, 264, "refused 34 at 251"},
    {"HT byte 32, route 100", &byte_32, ROUTE, 100, 0, "refused 78 at 230"},
    {"HT byte 32, trace (2, 292)", &byte_32, TRACE, 2, 292, "refused 78 at 230"},
    {"HT byte 24, route 100", &byte_24, ROUTE, 100, 0, "refused 44 at 230"},
    {"HT byte 24, trace (2, 292)", &byte_24, TRACE, 2, 292, "refused 44 at 230"},
    {"HT, BIO 5, route 72", &bridge_5, ROUTE, 72, 0, "refused 42 at 270"},
    {"HT, SCI 17, route 72", &sci_17, ROUTE, 72, 0, "refused 54 at 302"},
};

static const struct variant_answers one_by_one = {
    1, answers_of_version_1, sizeof answers_of_version_1 / sizeof answers_of_version_1[0]};

/* ---- All that a board answers ---- */

enum { ROUTES_MAX = 8, TRACES_MAX = 16 };

/* Global numbers from one to another. */
struct routes {
    uint32_t first, last; /* last is never 0, unless there are no more */
    enum { IN_TURN, TOGETHER, NOT_WIRED } how;
    uint32_t vector, number; /* with which the first of them arrives; in turn, each other with one more than the one before */
};

/* What arrives at a core vector with numbers from one to another. */
struct traces {
    uint32_t vector; /* 0: there are no more */
    uint32_t first, last;
    uint64_t (*source)(uint64_t number);
    uint32_t value; /* of the first; each other has one more than the one before */
};

/* A slot on the HT has node 0. */
static uint64_t slot_on_ht(uint64_t slot)
{
    return msi_slot(slot, 0);
}

/* A board, and all that it answers: other numbers have no owner, and elsewhere nothing arrives. */
struct answered {
    const char *what;
    uint16_t version;
    struct variant board;
    struct routes routes[ROUTES_MAX];
    struct traces traces[TRACES_MAX];
};

static const struct answered answered[] = {
    {"HT(16, 1, .. 7)", 1, {.place = HT_BOARD},
     {{0, 15, TOGETHER, 3, 275}, {16, 16, IN_TURN, 2, 0}, {24, 31, IN_TURN, 2, 8}, {33, 39, IN_TURN, 3, 17}, {40, 47, NOT_WIRED, 0, 0},
      {64, 95, IN_TURN, 3, 256}, {96, 127, IN_TURN, 2, 288}},
     {{2, 0, 0, lio_input, 16}, {2, 8, 15, lio_input, 24}, {3, 17, 23, lio_input, 33}, {3, 256, 274, bio_input, 64},
      {3, 275, 275, lpc_cascade, 83}, {3, 276, 287, bio_input, 84}, {2, 288, 319, bio_input, 96}, {2, 320, 511, slot_on_ht, 64}}},
    {"HT(0, .. 0)", 1, {.place = NAMING(0, 0, 0, 0, 0, 0, 0, 0)},
     {{0, 15, TOGETHER, 2, 275}, {17, 31, IN_TURN, 2, 1}, {32, 39, IN_TURN, 3, 16}, {40, 47, NOT_WIRED, 0, 0},
      {64, 127, IN_TURN, 2, 256}},
     {{2, 1, 15, lio_input, 17}, {3, 16, 23, lio_input, 32}, {2, 256, 274, bio_input, 64}, {2, 275, 275, lpc_cascade, 83},
      {2, 276, 319, bio_input, 84}, {2, 320, 511, slot_on_ht, 64}}},
    {"HT(16, 0, 16, 0, ..)", 1, {.place = NAMING(16, 0, 16, 0, 16, 0, 16, 0)},
     {{0, 15, TOGETHER, 3, 275}, {17, 31, IN_TURN, 2, 1}, {33, 39, IN_TURN, 3, 17}, {40, 47, NOT_WIRED, 0, 0},
      {64, 95, IN_TURN, 3, 256}, {96, 127, IN_TURN, 2, 288}},
     {{2, 1, 15, lio_input, 17}, {3, 17, 23, lio_input, 33}, {3, 256, 274, bio_input, 64}, {3, 275, 275, lpc_cascade, 83},
      {3, 276, 287, bio_input, 84}, {2, 288, 319, bio_input, 96}, {3, 320, 351, slot_on_ht, 64}, {2, 352, 383, slot_on_ht, 96},
      {3, 384, 415, slot_on_ht, 128}, {2, 416, 447, slot_on_ht, 160}, {3, 448, 479, slot_on_ht, 192},
      {2, 480, 511, slot_on_ht, 224}}},
    /* Inputs 0 and 31 on 9, 15 and 16 on 2. */
    {"HT of inputs 31, 15 and 16, no BIO", 1,
     {.place = A_LIO, {{LIO, {9, 2, 0x80000001, 0x00018000}}, {HT, {31, 15, 31, 15, 16, 16, 31, 15}}, {MSI, {0, 256}}}, .sci = 16},
     {{16, 16, IN_TURN, 9, 0}, {17, 30, NOT_WIRED, 0, 0}, {33, 46, NOT_WIRED, 0, 0}},
     {{9, 0, 0, lio_input, 16}, {9, 256, 287, slot_on_ht, 0}, {2, 288, 319, slot_on_ht, 32}, {9, 320, 351, slot_on_ht, 64},
      {2, 352, 383, slot_on_ht, 96}, {2, 384, 415, slot_on_ht, 128}, {2, 416, 447, slot_on_ht, 160}, {9, 448, 479, slot_on_ht, 192},
      {2, 480, 511, slot_on_ht, 224}}},
    {"HT, both LIO halves on 2", 1, {.place = A_LIO, {{LIO, {2, 2, 0xFFFF, 0xFF0000}}, HT_16, MSI_64, BIO_0, LPC_19}},
     {{0, 15, TOGETHER, 2, 275}, {16, 16, IN_TURN, 2, 0}, {24, 31, IN_TURN, 2, 8}, {33, 39, IN_TURN, 2, 17}, {40, 47, NOT_WIRED, 0, 0},
      {64, 127, IN_TURN, 2, 256}},
     {{2, 0, 0, lio_input, 16}, {2, 8, 15, lio_input, 24}, {2, 17, 23, lio_input, 33}, {2, 256, 274, bio_input, 64},
      {2, 275, 275, lpc_cascade, 83}, {2, 276, 319, bio_input, 84}, {2, 320, 511, slot_on_ht, 64}}},
    {"HT, LIO's high half alone, on 9", 1,
     {.place = A_LIO, {{LIO, {0, 9, 0, 0xFFFFFFFF}}, {HT, {31, 30, 29, 28, 27, 26, 25, 24}}, MSI_64, BIO_0, LPC_19}},
     {{0, 15, TOGETHER, 9, 275}, {16, 39, IN_TURN, 9, 0}, {64, 127, IN_TURN, 9, 256}},
     {{9, 0, 23, lio_input, 16}, {9, 256, 274, bio_input, 64}, {9, 275, 275, lpc_cascade, 83}, {9, 276, 319, bio_input, 84},
      {9, 320, 511, slot_on_ht, 64}}},
    /* Inputs are named also where nothing lands on the HT. */
    {"HT(16, 1, .. 7), nothing lands on it", 1, {.place = FROM_HT_ON(HT_16), .sci = 16},
     {{16, 16, IN_TURN, 2, 0}, {24, 31, IN_TURN, 2, 8}, {33, 39, IN_TURN, 3, 17}, {40, 47, NOT_WIRED, 0, 0}},
     {{2, 0, 0, lio_input, 16}, {2, 8, 15, lio_input, 24}, {3, 17, 23, lio_input, 33}}},
    /* The LPC is on the last pin, which alone goes to input 1. */
    {"(0, 33), HT, LPC on its last pin", 2,
     {.pair = {{0, 33}}, FROM_HT_ON(HT_16, {MSI, {33, 223}}, BIO_0, {LPC, {32}}), .sci = 3},
     {{0, 15, TOGETHER, 2, 288}, {16, 16, IN_TURN, 2, 0}, {24, 31, IN_TURN, 2, 8}, {33, 39, IN_TURN, 3, 17}, {40, 47, NOT_WIRED, 0, 0},
      {64, 95, IN_TURN, 3, 256}, {96, 96, IN_TURN, 2, 288}},
     {{2, 0, 0, lio_input, 16}, {2, 8, 15, lio_input, 24}, {3, 17, 23, lio_input, 33}, {3, 256, 287, bio_input, 64},
      {2, 288, 288, lpc_cascade, 96}, {2, 289, 511, slot_on_ht, 33}}},
    /* Slots before multiples of 32 and at them: 31, 32, 63, 64, 95 and 255. */
    {"(0, 31), HT, single slots, no LPC", 2,
     {.pair = {{0, 31}},
      FROM_HT_ON({HT, {16, 1, 17, 2, 18, 3, 19, 4}}, {MSI, {31, 2}}, {MSI, {63, 2}}, {MSI, {95, 1}}, {MSI, {255, 1}}, BIO_0), .sci = 94},
     {{16, 16, IN_TURN, 2, 0}, {21, 31, IN_TURN, 2, 5}, {36, 39, IN_TURN, 3, 20}, {40, 47, NOT_WIRED, 0, 0}, {64, 94, IN_TURN, 3, 256}},
     {{2, 0, 0, lio_input, 16}, {2, 5, 15, lio_input, 21}, {3, 20, 23, lio_input, 36}, {3, 256, 286, bio_input, 64},
      {3, 287, 287, slot_on_ht, 31}, {2, 288, 288, slot_on_ht, 32}, {2, 319, 319, slot_on_ht, 63}, {3, 320, 320, slot_on_ht, 64},
      {3, 351, 351, slot_on_ht, 95}, {2, 511, 511, slot_on_ht, 255}}},
};

enum { ANSWERED = sizeof answered / sizeof answered[0] };

static uint64_t route_on(const struct answered *board, uint32_t number)
{
    for (size_t i = 0; i < ROUTES_MAX && board->routes[i].last != 0; i++) {
        const struct routes *routes = &board->routes[i];

        if (number < routes->first || number > routes->last)
            continue;
        if (routes->how == NOT_WIRED)
            return unwired();
        return arrives(routes->vector, routes->number + (routes->how == IN_TURN ? number - routes->first : 0));
    }
    return no_owner();
}

static uint64_t trace_on(const struct answered *board, uint32_t vector, uint32_t number)
{
    for (size_t i = 0; i < TRACES_MAX && board->traces[i].vector != 0; i++) {
        const struct traces *traces = &board->traces[i];

        if (vector == traces->vector && number >= traces->first && number <= traces->last)
            return traces->source(traces->value + (number - traces->first));
    }
    return nothing();
}

/* ---- Asking ---- */

/* What is asked of a board. */
struct asked {
    enum question question;
    uint32_t first, second;
};

static uint64_t answer_on(const struct answered *board, struct asked asked)
{
    return asked.question == ROUTE ? route_on(board, asked.first) : trace_on(board, asked.first, asked.second);
}

/* A label for `vectors` too. */
static struct text name_asked(const struct answered *board, struct asked asked)
{
    struct text name;

    if (asked.question == ROUTE)
        snprintf(name.words, sizeof name.words, "%s, route %" PRIu32, board->what, asked.first);
    else
        snprintf(name.words, sizeof name.words, "%s, trace (%" PRIu32 ", %" PRIu32 ")", board->what, asked.first, asked.second);
    return name;
}

/* A reader that is asked about a board. */
struct talk {
    struct tally *tally;
    const struct reader *reader;
    const struct answered *board;
    const struct capture *capture;
};

static void expect(const struct talk *talk, struct asked asked)
{
    const struct reader *reader = talk->reader;
    const uint8_t *capture = talk->capture->bytes;
    size_t length = talk->capture->length;
    bool routed = asked.question == ROUTE;
    uint64_t result = routed ? reader->route(capture, length, asked.first) : reader->trace(capture, length, asked.first, asked.second);
    uint64_t answer = answer_on(talk->board, asked);
    struct text (*tell)(uint64_t) = routed ? tell_route : tell_trace;

    talk->tally->asked++;
    if (result != answer && ++talk->tally->wrong <= WRONG_TOLD)
        printf("%s, %s: %s, but the documents say %s\n", reader->name, name_asked(talk->board, asked).words, tell(result).words,
               tell(answer).words);
}

/* All numbers and arrivals up to a few behind the last that can be, and some that are like them in their low bits. */
static void expect_all(const struct talk *talk)
{
    static const uint32_t above[] = {256, 65536, UINT32_C(1) << 31, UINT32_MAX - 127};
    enum { NUMBERS_END = 340, VECTORS_END = CASCADE_MAX + 2, ARRIVALS_END = 521 };

    for (uint32_t number = 0; number < NUMBERS_END; number++)
        expect(talk, (struct asked){ROUTE, number, 0});
    for (uint32_t vector = 0; vector < VECTORS_END; vector++) {
        for (uint32_t number = 0; number < ARRIVALS_END; number++)
            expect(talk, (struct asked){TRACE, vector, number});
        expect(talk, (struct asked){TRACE, vector, UINT32_MAX});
        expect(talk, (struct asked){TRACE, 256 + vector, 264});
        expect(talk, (struct asked){TRACE, vector, 65536 + 264});
    }
    for (size_t i = 0; i < sizeof above / sizeof above[0]; i++)
        for (uint32_t number = 0; number < 128; number++)
            expect(talk, (struct asked){ROUTE, above[i] + number, 0});
}

void ask_ht_answers(struct tally *tally, const struct reader *reader, const char *boards)
{
    static struct capture capture;

    ask_variant_answers(tally, reader, boards, one_by_one);
    for (size_t i = 0; i < ANSWERED; i++) {
        make_variant(boards, &answered[i].board, answered[i].version, 1, &capture);
        expect_all(&(struct talk){tally, reader, &answered[i], &capture});
    }
}

static void ask_vectors(const struct answered *board, const struct capture *capture, struct asked asked)
{
    struct text answer = print_answer(answer_on(board, asked));

    for (enum reading reading = ORDINARY; reading <= STRICT; reading++)
        write_question(name_asked(board, asked).words,
                       &(struct query){reading, asked.question, asked.first, asked.second, capture->bytes, capture->length},
                       answer.words);
}

/* The ends of what the board answers, and what is next to them. */
static void ask_vectors_ends(const struct answered *board, const struct capture *capture)
{
    for (size_t i = 0; i < ROUTES_MAX && board->routes[i].last != 0; i++) {
        const struct routes *routes = &board->routes[i];
        const uint32_t ends[] = {routes->first, routes->last, routes->last + 1};

        for (size_t j = 0; j < sizeof ends / sizeof ends[0]; j++)
            ask_vectors(board, capture, (struct asked){ROUTE, ends[j], 0});
    }
    for (size_t i = 0; i < TRACES_MAX && board->traces[i].vector != 0; i++) {
        const struct traces *traces = &board->traces[i];
        const uint32_t ends[] = {traces->first, traces->last, traces->last + 1};

        for (size_t j = 0; j < sizeof ends / sizeof ends[0]; j++)
            ask_vectors(board, capture, (struct asked){TRACE, traces->vector, ends[j]});
    }
}

void ask_vectors_ht_answers(const char *boards)
{
    static struct capture capture;

    ask_vectors_variant_answers(boards, one_by_one);
    for (size_t i = 0; i < ANSWERED; i++) {
        make_variant(boards, &answered[i].board, answered[i].version, 1, &capture);
        ask_vectors_ends(&answered[i], &capture);
    }
}
