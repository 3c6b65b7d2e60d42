/*
 * Cases of request W-208: see bridges.h. Documents 01 and 02 fix their answers.
 *
 * The LPC's node is bits 44 to 47 of its base: the twelfth hexadecimal digit from the right. Its bridge is the BIO with this
 * hardware ID.
 */
#include "bridges.h"

#include "board_a.h"

/* ---- Boards ---- */

/* An LPC with its base, as board_a.h has it written. */
#define LPC_AT(cascade, base) {LPC, {cascade, (uint32_t)(UINT64_C(base) >> 32), (uint32_t)UINT64_C(base)}}

/* What is printed, with other lines from the EIO on. */
#define PRINTED(version, from_eio_on) "map " #version "\ncore 0 0\ncore 1 1\nlio 2 16777215\n" from_eio_on

/*
 * Board A with a second bridge, and with another base of its LPC. In version 1 the LPC is at 279, the second EIO at 294, its BIO at
 * 307; in version 2 all of them are 8 bytes further on.
 */
#define BESIDE_BRIDGE(id, base) A_LPC, {LPC_AT(19, base), {EIO, {4, id, 1}}, {BIO, {id, 128}}}
#define BESIDE_BRIDGE_5(base) {.place = BESIDE_BRIDGE(5, base)}
#define PRINTED_BESIDE(id, node) \
    PRINTED(1, "eio 0 3 1\neio " #id " 4 1\nbio 0 64 127\nbio " #id " 128 191\nmsi 64 255\nlpc " #node " 19\nsci 75 3 11\n")

/* The same two bridges, but BIO 5 stands first: it is at 262, BIO 0 at 279, and the LPC at 296, in version 2 at 304. */
#define BRIDGE_5_FIRST(base) A_BIO, {{BIO, {5, 128}}, {BIO, {0, 64}}, LPC_AT(19, base), {EIO, {4, 5, 1}}}

/* The LPC is the first structure of all, at 162. */
#define LPC_FIRST(base) \
    {.place = A_CORE, {LPC_AT(19, base), {CORE, {0, 0, 1}}, {CORE, {1, 1, 1}}, {LIO, {2, 0, 0x00FFFFFF, 0}}, {BIO, {0, 64}}, \
                       {BIO, {5, 128}}, {EIO, {4, 5, 1}}, {EIO, {3, 0, 1}}, {MSI, {64, 192}}}}

/* Four bridges, whose LPC leads to the pin `cascade`. It is at 369, and in version 2 at 377. */
#define FOUR_BRIDGES(a, b, c, d, cascade, base) \
    A_EIO, {{EIO, {3, a, 1}}, {EIO, {4, b, 1}}, {EIO, {5, c, 1}}, {EIO, {6, d, 1}}, {BIO, {a, 64}}, {BIO, {b, 128}}, \
            {BIO, {c, 192}}, {BIO, {d, 256}}, {MSI, {64, 192}}, LPC_AT(cascade, base)}

/* One bit of four each: hardware IDs 8, 4, 2 and 1. */
#define BRIDGES_8_4_2_1(base) {.place = FOUR_BRIDGES(8, 4, 2, 1, 63, base)}
#define PRINTED_8_4_2_1(node) \
    PRINTED(1, "eio 8 3 1\neio 4 4 1\neio 2 5 1\neio 1 6 1\nbio 8 64 127\nbio 4 128 191\nbio 2 192 255\nbio 1 256 319\n" \
               "msi 64 255\nlpc " #node " 63\nsci 75 3 11\n")

/* Of one bridge alone, on board A's places: the LPC is at 279. */
#define ONE_BRIDGE(id, base) {.place = A_EIO, {{EIO, {3, id, 1}}, {MSI, {64, 192}}, {BIO, {id, 64}}, LPC_AT(19, base)}}

/* ---- What is printed ---- */

struct bridge_example {
    const char *what;
    uint16_t version; /* of the capture */
    struct variant board;
    const char *printed;
};

/* In a name, (5, 8) is a pair: hardware ID 5 has 8 inputs. */
static const struct bridge_example bridge_examples[] = {
    /* Bits 44 to 47 are the node. */
    {"bridges 0 and 5, base 0x5E0010002000", 1, BESIDE_BRIDGE_5(0x5E0010002000), PRINTED_BESIDE(5, 5)},
    {"bridges 0 and 5, base 0x0E0010002000", 1, BESIDE_BRIDGE_5(0x0E0010002000), PRINTED_BESIDE(5, 0)},
    {"bridges 0 and 5, base 0x00005EFE00000000", 1, BESIDE_BRIDGE_5(0x00005EFE00000000), PRINTED_BESIDE(5, 5)},
    {"bridges 0 and 5, base 0x00000EFE00000000", 1, BESIDE_BRIDGE_5(0x00000EFE00000000), PRINTED_BESIDE(5, 0)},
    {"bridges 0 and 5, base 0", 1, BESIDE_BRIDGE_5(0), PRINTED_BESIDE(5, 0)},
    {"bridges 8, 4, 2, 1, base 0x8E0010002000", 1, BRIDGES_8_4_2_1(0x8E0010002000), PRINTED_8_4_2_1(8)},
    {"bridges 8, 4, 2, 1, base 0x4E0010002000", 1, BRIDGES_8_4_2_1(0x4E0010002000), PRINTED_8_4_2_1(4)},
    {"bridges 8, 4, 2, 1, base 0x2E0010002000", 1, BRIDGES_8_4_2_1(0x2E0010002000), PRINTED_8_4_2_1(2)},
    {"bridges 8, 4, 2, 1, base 0x1E0010002000", 1, BRIDGES_8_4_2_1(0x1E0010002000), PRINTED_8_4_2_1(1)},
    /* No bit above them is looked at, and none below. */
    {"bridges 0 and 5, base 0xFFFF0E0010002000", 1, BESIDE_BRIDGE_5(0xFFFF0E0010002000), PRINTED_BESIDE(5, 0)},
    {"bridges 0 and 5, base 0xFFFF5E0010002000", 1, BESIDE_BRIDGE_5(0xFFFF5E0010002000), PRINTED_BESIDE(5, 5)},
    {"bridges 0 and 5, base 0x00050E0010002000", 1, BESIDE_BRIDGE_5(0x00050E0010002000), PRINTED_BESIDE(5, 0)},
    {"bridges 0 and 5, base 0x050010002000", 1, BESIDE_BRIDGE_5(0x050010002000), PRINTED_BESIDE(5, 0)},
    {"bridges 0 and 5, base 0x500010002000", 1, BESIDE_BRIDGE_5(0x500010002000), PRINTED_BESIDE(5, 5)},
    {"bridges 0 and 5, all other bits of the base", 1, BESIDE_BRIDGE_5(0xFFFF0FFFFFFFFFFF), PRINTED_BESIDE(5, 0)},
    {"bridges 0 and 5, all lower bits of the base", 1, BESIDE_BRIDGE_5(0x5FFFFFFFFFFF), PRINTED_BESIDE(5, 5)},
    /* The order of the table does not matter. */
    {"BIO 5 before BIO 0, base 0x0E0010002000", 1, {.place = BRIDGE_5_FIRST(0x0E0010002000)},
     PRINTED(1, "eio 0 3 1\neio 5 4 1\nbio 5 128 191\nbio 0 64 127\nmsi 64 255\nlpc 0 19\nsci 75 3 11\n")},
    {"BIO 5 before BIO 0, base 0x5E0010002000", 1, {.place = BRIDGE_5_FIRST(0x5E0010002000)},
     PRINTED(1, "eio 0 3 1\neio 5 4 1\nbio 5 128 191\nbio 0 64 127\nmsi 64 255\nlpc 5 19\nsci 75 3 11\n")},
    {"LPC first of all, base 0x5E0010002000", 1, LPC_FIRST(0x5E0010002000),
     PRINTED(1, "eio 5 4 1\neio 0 3 1\nbio 0 64 127\nbio 5 128 191\nmsi 64 255\nlpc 5 19\nsci 75 3 11\n")},
    /* Bridge 5 alone. */
    {"bridge 5, base 0x5E0010002000", 1, ONE_BRIDGE(5, 0x5E0010002000),
     PRINTED(1, "eio 5 3 1\nbio 5 64 127\nmsi 64 255\nlpc 5 19\nsci 75 3 11\n")},
    {"bridge 5, base 0x0E0010002000", 1, ONE_BRIDGE(5, 0x0E0010002000), "refused 43 at 279"},
    /* 15 is the last node that a base can name. A bridge above it has no LPC, also where the low four bits agree. */
    {"bridges 0 and 15, base 0xFE0010002000", 1, {.place = BESIDE_BRIDGE(15, 0xFE0010002000)}, PRINTED_BESIDE(15, 15)},
    {"bridges 0 and 15, all bits of the base", 1, {.place = BESIDE_BRIDGE(15, 0xFFFFFFFFFFFFFFFF)}, PRINTED_BESIDE(15, 15)},
    {"bridges 0 and 16, base 0x0E0010002000", 1, {.place = BESIDE_BRIDGE(16, 0x0E0010002000)}, PRINTED_BESIDE(16, 0)},
    {"bridges 0 and 16, base 0x00010E0010002000", 1, {.place = BESIDE_BRIDGE(16, 0x00010E0010002000)}, PRINTED_BESIDE(16, 0)},
    {"BIO 16 before BIO 0, base 0x0E0010002000", 1,
     {.place = A_BIO, {{BIO, {16, 128}}, {BIO, {0, 64}}, LPC_AT(19, 0x0E0010002000), {EIO, {4, 16, 1}}}},
     PRINTED(1, "eio 0 3 1\neio 16 4 1\nbio 16 128 191\nbio 0 64 127\nmsi 64 255\nlpc 0 19\nsci 75 3 11\n")},
    {"BIO 21 before BIO 5, base 0x5E0010002000", 1,
     {.place = A_EIO,
      {{EIO, {3, 21, 1}}, {EIO, {4, 5, 1}}, {BIO, {21, 64}}, {BIO, {5, 128}}, {MSI, {64, 192}}, LPC_AT(19, 0x5E0010002000)}},
     PRINTED(1, "eio 21 3 1\neio 5 4 1\nbio 21 64 127\nbio 5 128 191\nmsi 64 255\nlpc 5 19\nsci 75 3 11\n")},
    {"bridge 16, base 0x0E0010002000", 1, ONE_BRIDGE(16, 0x0E0010002000), "refused 43 at 279"},
    {"bridge 16, base 0x00010E0010002000", 1, ONE_BRIDGE(16, 0x00010E0010002000), "refused 43 at 279"},
    {"bridges 0 and 21, base 0x5E0010002000", 1, {.place = BESIDE_BRIDGE(21, 0x5E0010002000)}, "refused 43 at 279"},
    {"bridges 16, 31, 47, 63, base 0x0E0010002000", 1, {.place = FOUR_BRIDGES(16, 31, 47, 63, 19, 0x0E0010002000)},
     "refused 43 at 369"},
    {"bridges 16, 31, 47, 63, base 0xFE0010002000", 1, {.place = FOUR_BRIDGES(16, 31, 47, 63, 19, 0xFE0010002000)},
     "refused 43 at 369"},
    {"(63, 5), bridge 63, base 0xFE0010002000", 2,
     {.pair = {{63, 5}}, A_EIO, {{EIO, {3, 63, 1}}, {MSI, {64, 192}}, {BIO, {63, 64}}, LPC_AT(4, 0xFE0010002000)}, 68},
     "refused 43 at 287"},
    /* 43: there are bridges, and none of the node. */
    {"bridges 0 and 5, base 0x3E0010002000", 1, BESIDE_BRIDGE_5(0x3E0010002000), "refused 43 at 279"},
    {"bridges 0 and 5, base 0x1E0010002000", 1, BESIDE_BRIDGE_5(0x1E0010002000), "refused 43 at 279"},
    {"bridges 0 and 5, base 0x4E0010002000", 1, BESIDE_BRIDGE_5(0x4E0010002000), "refused 43 at 279"},
    {"bridges 0 and 5, base 0x6E0010002000", 1, BESIDE_BRIDGE_5(0x6E0010002000), "refused 43 at 279"},
    {"bridges 0 and 5, base 0x350010002000", 1, BESIDE_BRIDGE_5(0x350010002000), "refused 43 at 279"},
    {"bridges 0 and 5, base 0x00053E0010002000", 1, BESIDE_BRIDGE_5(0x00053E0010002000), "refused 43 at 279"},
    {"bridges 8, 4, 2, 1, base 0x0E0010002000", 1, BRIDGES_8_4_2_1(0x0E0010002000), "refused 43 at 369"},
    {"bridges 8, 4, 2, 1, base 0x3E0010002000", 1, BRIDGES_8_4_2_1(0x3E0010002000), "refused 43 at 369"},
    {"bridges 8, 4, 2, 1, base 0xFE0010002000", 1, BRIDGES_8_4_2_1(0xFE0010002000), "refused 43 at 369"},
    {"BIO 5 before BIO 0, base 0x3E0010002000", 1, {.place = BRIDGE_5_FIRST(0x3E0010002000)}, "refused 43 at 296"},
    {"LPC first of all, base 0x3E0010002000", 1, LPC_FIRST(0x3E0010002000), "refused 43 at 162"},
    {"board A, base 0x5E0010002000", 1, {.place = A_LPC, {LPC_AT(19, 0x5E0010002000)}}, "refused 43 at 279"},
    {"no BIO, base 0x0E0010002000", 1, {.place = A_BIO, {LPC_AT(19, 0x0E0010002000)}, 26}, "refused 43 at 262"},
    {"no BIO, base 0x5E0010002000", 1, {.place = A_BIO, {LPC_AT(19, 0x5E0010002000)}, 26}, "refused 43 at 262"},
    /* It comes behind 77, 38, 39, 40, 41 and 42 ... */
    {"no bridge 3, cascade 64", 1, {.place = A_LPC, {LPC_AT(64, 0x3E0010002000)}}, "refused 77 at 279"},
    {"no bridge 3, a second LPC", 1, {.place = A_LPC, {LPC_AT(19, 0x3E0010002000), LPC_AT(19, 0x0E0010002000)}}, "refused 38 at 294"},
    {"no bridge 3, a repeated UID", 1, {.place = A_LPC, {LPC_AT(19, 0x3E0010002000), {CORE, {0, 3, 1}}}}, "refused 39 at 294"},
    {"no bridge 3, no EIO", 1, {.place = A_EIO, {{BIO, {0, 64}}, LPC_AT(19, 0x3E0010002000)}}, "refused 40 at 118"},
    {"no bridge 3, a second EIO of node 0", 1, {.place = A_LPC, {LPC_AT(19, 0x3E0010002000), {EIO, {4, 0, 1}}}}, "refused 41 at 294"},
    {"no bridge 3, BIO 9 without an EIO", 1, {.place = A_BIO, {{BIO, {9, 64}}, LPC_AT(19, 0x3E0010002000)}}, "refused 42 at 262"},
    {"BIO 9 without an EIO, base 0x9E0010002000", 1, {.place = A_BIO, {{BIO, {9, 64}}, LPC_AT(19, 0x9E0010002000)}}, "refused 42 at 262"},
    /* ... and before 45 and 51 to 54. */
    {"(0, 1), no bridge 3", 2, {.pair = {{0, 1}}, A_LPC, {LPC_AT(19, 0x3E0010002000)}}, "refused 43 at 287"},
    {"no bridge 3, BIO 5 at 127", 1, {.place = A_LPC, {LPC_AT(19, 0x3E0010002000), {EIO, {4, 5, 1}}, {BIO, {5, 127}}}},
     "refused 43 at 279"},
    {"no bridge 3, MSI 63 to 255", 1, {.place = A_MSI, {{MSI, {63, 193}}, {BIO, {0, 64}}, LPC_AT(19, 0x3E0010002000)}},
     "refused 43 at 279"},
    {"no bridge 3, BIO 0 twice", 1, {.place = A_LPC, {LPC_AT(19, 0x3E0010002000), {BIO, {0, 128}}}}, "refused 43 at 279"},
    {"no bridge 3, EIO cascade 2", 1,
     {.place = A_EIO, {{EIO, {2, 0, 1}}, {MSI, {64, 192}}, {BIO, {0, 64}}, LPC_AT(19, 0x3E0010002000)}}, "refused 43 at 279"},
    {"no bridge 3, SCI 50", 1, {.place = A_LPC, {LPC_AT(19, 0x3E0010002000)}, 50}, "refused 43 at 279"},
    {"no bridge 3, SCI 3", 1, {.place = A_LPC, {LPC_AT(19, 0x3E0010002000)}, 3}, "refused 43 at 279"},
    /* Two BIO of the node: the earlier is the bridge, and the later clashes with it. They are at 307 and 324. */
    {"BIO 5 at 128 and 192, base 0x5E0010002000", 1,
     {.place = A_LPC, {LPC_AT(19, 0x5E0010002000), {EIO, {4, 5, 1}}, {BIO, {5, 128}}, {BIO, {5, 192}}}}, "refused 52 at 324 with 307"},
    {"BIO 5 twice at 128, base 0x5E0010002000", 1,
     {.place = A_LPC, {LPC_AT(19, 0x5E0010002000), {EIO, {4, 5, 1}}, {BIO, {5, 128}}, {BIO, {5, 128}}}}, "refused 51 at 324 with 307"},
    /* An LPC line as SCI, and the pin itself. */
    {"bridges 0 and 5, base 0x5E0010002000, SCI 3", 1, {.place = BESIDE_BRIDGE(5, 0x5E0010002000), 3},
     PRINTED(1, "eio 0 3 1\neio 5 4 1\nbio 0 64 127\nbio 5 128 191\nmsi 64 255\nlpc 5 19\nsci 3 4 19\n")},
    {"bridges 0 and 5, base 0x5E0010002000, SCI 15", 1, {.place = BESIDE_BRIDGE(5, 0x5E0010002000), 15},
     PRINTED(1, "eio 0 3 1\neio 5 4 1\nbio 0 64 127\nbio 5 128 191\nmsi 64 255\nlpc 5 19\nsci 15 4 19\n")},
    {"bridges 0 and 5, base 0x5E0010002000, SCI 147", 1, {.place = BESIDE_BRIDGE(5, 0x5E0010002000), 147},
     PRINTED(1, "eio 0 3 1\neio 5 4 1\nbio 0 64 127\nbio 5 128 191\nmsi 64 255\nlpc 5 19\nsci 147 4 19\n")},
    {"bridges 0 and 5, base 0x0E0010002000, SCI 3", 1, {.place = BESIDE_BRIDGE(5, 0x0E0010002000), 3},
     PRINTED(1, "eio 0 3 1\neio 5 4 1\nbio 0 64 127\nbio 5 128 191\nmsi 64 255\nlpc 0 19\nsci 3 3 19\n")},
    /* 45 is about the LPC's own bridge. */
    {"no pairs, base 0x5E0010002000", 2, BESIDE_BRIDGE_5(0x5E0010002000),
     PRINTED(2, "eio 0 3 1\neio 5 4 1\nbio 0 64 127\nbio 5 128 191\nmsi 64 255\nlpc 5 19\nsci 75 3 11\n")},
    {"(0, 8), base 0x5E0010002000", 2, {.pair = {{0, 8}}, BESIDE_BRIDGE(5, 0x5E0010002000), 26},
     PRINTED(2, "eio 0 3 1\neio 5 4 1\nbio 0 64 71\nbio 5 128 191\nmsi 64 255\nlpc 5 19\nsci 26 2 10\n")},
    {"(0, 8), base 0x0E0010002000", 2, {.pair = {{0, 8}}, BESIDE_BRIDGE(5, 0x0E0010002000), 26}, "refused 45 at 287"},
    {"(0, 8), base 0xFFFF0E0010002000", 2, {.pair = {{0, 8}}, BESIDE_BRIDGE(5, 0xFFFF0E0010002000), 26}, "refused 45 at 287"},
    {"(5, 8), base 0x5E0010002000", 2, {.pair = {{5, 8}}, BESIDE_BRIDGE(5, 0x5E0010002000)}, "refused 45 at 287"},
    {"(5, 19), base 0x5E0010002000", 2, {.pair = {{5, 19}}, BESIDE_BRIDGE(5, 0x5E0010002000)}, "refused 45 at 287"},
    {"(5, 20), base 0x5E0010002000", 2, {.pair = {{5, 20}}, BESIDE_BRIDGE(5, 0x5E0010002000)},
     PRINTED(2, "eio 0 3 1\neio 5 4 1\nbio 0 64 127\nbio 5 128 147\nmsi 64 255\nlpc 5 19\nsci 75 3 11\n")},
    {"(5, 19), base 0x0E0010002000", 2, {.pair = {{5, 19}}, BESIDE_BRIDGE(5, 0x0E0010002000)},
     PRINTED(2, "eio 0 3 1\neio 5 4 1\nbio 0 64 127\nbio 5 128 146\nmsi 64 255\nlpc 0 19\nsci 75 3 11\n")},
    {"(21, 1), base 0x5E0010002000", 2, {.pair = {{21, 1}}, BESIDE_BRIDGE(5, 0x5E0010002000)},
     PRINTED(2, "eio 0 3 1\neio 5 4 1\nbio 0 64 127\nbio 5 128 191\nmsi 64 255\nlpc 5 19\nsci 75 3 11\n")},
    {"(0, 8), BIO 5 first, base 0x5E0010002000", 2, {.pair = {{0, 8}}, BRIDGE_5_FIRST(0x5E0010002000), 26},
     PRINTED(2, "eio 0 3 1\neio 5 4 1\nbio 5 128 191\nbio 0 64 71\nmsi 64 255\nlpc 5 19\nsci 26 2 10\n")},
    {"(0, 8), BIO 5 first, base 0x0E0010002000", 2, {.pair = {{0, 8}}, BRIDGE_5_FIRST(0x0E0010002000), 26}, "refused 45 at 304"},
    {"(5, 8), BIO 5 first, base 0x5E0010002000", 2, {.pair = {{5, 8}}, BRIDGE_5_FIRST(0x5E0010002000)}, "refused 45 at 304"},
    {"(5, 8), BIO 5 first, base 0x0E0010002000", 2, {.pair = {{5, 8}}, BRIDGE_5_FIRST(0x0E0010002000)},
     PRINTED(2, "eio 0 3 1\neio 5 4 1\nbio 5 128 135\nbio 0 64 127\nmsi 64 255\nlpc 0 19\nsci 75 3 11\n")},
    {"1 to 4 inputs, LPC on pin 3 of the fourth", 2,
     {.pair = {{8, 1}, {4, 2}, {2, 3}, {1, 4}}, FOUR_BRIDGES(8, 4, 2, 1, 3, 0x1E0010002000), 64},
     PRINTED(2, "eio 8 3 1\neio 4 4 1\neio 2 5 1\neio 1 6 1\nbio 8 64 64\nbio 4 128 129\nbio 2 192 194\nbio 1 256 259\n"
                "msi 64 255\nlpc 1 3\nsci 64 3 0\n")},
    {"1 to 4 inputs, LPC on pin 3 of the third", 2,
     {.pair = {{8, 1}, {4, 2}, {2, 3}, {1, 4}}, FOUR_BRIDGES(8, 4, 2, 1, 3, 0x2E0010002000), 64}, "refused 45 at 377"},
    {"4 to 1 inputs, LPC on pin 3 of the first", 2,
     {.pair = {{8, 4}, {4, 3}, {2, 2}, {1, 1}}, FOUR_BRIDGES(8, 4, 2, 1, 3, 0x8E0010002000), 64},
     PRINTED(2, "eio 8 3 1\neio 4 4 1\neio 2 5 1\neio 1 6 1\nbio 8 64 67\nbio 4 128 130\nbio 2 192 193\nbio 1 256 256\n"
                "msi 64 255\nlpc 8 3\nsci 64 3 0\n")},
    {"4 to 1 inputs, LPC on pin 3 of the second", 2,
     {.pair = {{8, 4}, {4, 3}, {2, 2}, {1, 1}}, FOUR_BRIDGES(8, 4, 2, 1, 3, 0x4E0010002000), 64}, "refused 45 at 377"},
    {"(5, 8), BIO 5 at 100, base 0x5E0010002000", 2, /* 51 as well */
     {.pair = {{5, 8}}, A_LPC, {LPC_AT(19, 0x5E0010002000), {EIO, {4, 5, 1}}, {BIO, {5, 100}}}}, "refused 45 at 287"},
};

enum { BRIDGE_EXAMPLES = sizeof bridge_examples / sizeof bridge_examples[0] };

size_t count_bridge_examples(void)
{
    return BRIDGE_EXAMPLES;
}

struct made_example make_bridge_example(const char *boards, size_t number, uint8_t revision, struct capture *capture)
{
    const struct bridge_example *example = &bridge_examples[number];

    make_variant(boards, &example->board, example->version, revision, capture);
    return (struct made_example){example->what, example->printed};
}

/* ---- Routes and traces ---- */

static const struct variant
    lpc_behind_5 = BESIDE_BRIDGE_5(0x5E0010002000),
    lpc_behind_0 = BESIDE_BRIDGE_5(0xFFFF0E0010002000),
    five_below_the_node = BESIDE_BRIDGE_5(0x050010002000),
    bridge_5_first = {.place = BRIDGE_5_FIRST(0x0E0010002000)},
    lpc_behind_15 = {.place = BESIDE_BRIDGE(15, 0xFFFFFFFFFFFFFFFF)},
    bridge_16 = {.place = BESIDE_BRIDGE(16, 0x00010E0010002000)},
    lpc_behind_2 = BRIDGES_8_4_2_1(0x2E0010002000),
    lpc_behind_3 = BESIDE_BRIDGE_5(0x3E0010002000),
    all_above_15 = {.place = FOUR_BRIDGES(16, 31, 47, 63, 19, 0xFE0010002000)},
    lpc_without_bio = {.place = A_BIO, {LPC_AT(19, 0x0E0010002000)}, 26};

#define LINE_BEHIND_5(line) {"LPC behind 5, route " #line, &lpc_behind_5, ROUTE, line, 0, ARRIVES(4, 19)}

static const struct variant_answer answers_of_version_1[] = {
    /* All lines of the LPC arrive at the cascade of its bridge's EIO, and what is next to them does not. */
    LINE_BEHIND_5(0), LINE_BEHIND_5(1), LINE_BEHIND_5(2), LINE_BEHIND_5(3), LINE_BEHIND_5(4), LINE_BEHIND_5(5),
    LINE_BEHIND_5(6), LINE_BEHIND_5(7), LINE_BEHIND_5(8), LINE_BEHIND_5(9), LINE_BEHIND_5(10), LINE_BEHIND_5(11),
    LINE_BEHIND_5(12), LINE_BEHIND_5(13), LINE_BEHIND_5(14), LINE_BEHIND_5(15),
    {"LPC behind 5, route 16", &lpc_behind_5, ROUTE, 16, 0, ARRIVES(2, 0)},
    {"LPC behind 5, route 65,539", &lpc_behind_5, ROUTE, 65536 + 3, 0, NO_OWNER},
    /* The pin is that of one bridge. On the other it is an input as any. */
    {"LPC behind 5, route 147", &lpc_behind_5, ROUTE, 147, 0, ARRIVES(4, 19)},
    {"LPC behind 5, route 83", &lpc_behind_5, ROUTE, 83, 0, ARRIVES(3, 19)},
    {"LPC behind 5, trace (4, 19)", &lpc_behind_5, TRACE, 4, 19, LPC_INPUT(147)},
    {"LPC behind 5, trace (3, 19)", &lpc_behind_5, TRACE, 3, 19, BIO_INPUT(83)},
    {"LPC behind 5, trace (4, 18)", &lpc_behind_5, TRACE, 4, 18, BIO_INPUT(146)},
    {"LPC behind 5, trace (4, 20)", &lpc_behind_5, TRACE, 4, 20, BIO_INPUT(148)},
    {"LPC behind 5, trace (4, 275)", &lpc_behind_5, TRACE, 4, 256 + 19, NOTHING},
    {"LPC behind 5, trace (4, 64)", &lpc_behind_5, TRACE, 4, 64, SLOT(64, 5)},
    {"LPC behind 0, route 0", &lpc_behind_0, ROUTE, 0, 0, ARRIVES(3, 19)},
    {"LPC behind 0, route 3", &lpc_behind_0, ROUTE, 3, 0, ARRIVES(3, 19)},
    {"LPC behind 0, route 15", &lpc_behind_0, ROUTE, 15, 0, ARRIVES(3, 19)},
    {"LPC behind 0, trace (3, 19)", &lpc_behind_0, TRACE, 3, 19, LPC_INPUT(83)},
    {"LPC behind 0, trace (4, 19)", &lpc_behind_0, TRACE, 4, 19, BIO_INPUT(147)},
    {"5 below the node 0, route 3", &five_below_the_node, ROUTE, 3, 0, ARRIVES(3, 19)},
    {"5 below the node 0, trace (3, 19)", &five_below_the_node, TRACE, 3, 19, LPC_INPUT(83)},
    {"5 below the node 0, trace (4, 19)", &five_below_the_node, TRACE, 4, 19, BIO_INPUT(147)},
    {"BIO 5 first, LPC behind 0, route 3", &bridge_5_first, ROUTE, 3, 0, ARRIVES(3, 19)},
    {"BIO 5 first, LPC behind 0, trace (3, 19)", &bridge_5_first, TRACE, 3, 19, LPC_INPUT(83)},
    {"BIO 5 first, LPC behind 0, trace (4, 19)", &bridge_5_first, TRACE, 4, 19, BIO_INPUT(147)},
    {"LPC behind 15, route 3", &lpc_behind_15, ROUTE, 3, 0, ARRIVES(4, 19)},
    {"LPC behind 15, trace (3, 19)", &lpc_behind_15, TRACE, 3, 19, BIO_INPUT(83)},
    {"LPC behind 15, trace (4, 19)", &lpc_behind_15, TRACE, 4, 19, LPC_INPUT(147)},
    {"bridge 16, LPC behind 0, route 3", &bridge_16, ROUTE, 3, 0, ARRIVES(3, 19)},
    {"bridge 16, LPC behind 0, trace (3, 19)", &bridge_16, TRACE, 3, 19, LPC_INPUT(83)},
    {"bridge 16, LPC behind 0, trace (4, 19)", &bridge_16, TRACE, 4, 19, BIO_INPUT(147)},
    {"four bridges, LPC behind 2, route 7", &lpc_behind_2, ROUTE, 7, 0, ARRIVES(5, 63)},
    {"four bridges, LPC behind 2, trace (3, 63)", &lpc_behind_2, TRACE, 3, 63, BIO_INPUT(127)},
    {"four bridges, LPC behind 2, trace (4, 63)", &lpc_behind_2, TRACE, 4, 63, BIO_INPUT(191)},
    {"four bridges, LPC behind 2, trace (5, 63)", &lpc_behind_2, TRACE, 5, 63, LPC_INPUT(255)},
    {"four bridges, LPC behind 2, trace (6, 63)", &lpc_behind_2, TRACE, 6, 63, BIO_INPUT(319)},
    /* Refused, whatever is asked. */
    {"no bridge 3, route 3", &lpc_behind_3, ROUTE, 3, 0, "refused 43 at 279"},
    {"no bridge 3, route 72", &lpc_behind_3, ROUTE, 72, 0, "refused 43 at 279"},
    {"no bridge 3, trace (3, 19)", &lpc_behind_3, TRACE, 3, 19, "refused 43 at 279"},
    {"all above 15, route 3", &all_above_15, ROUTE, 3, 0, "refused 43 at 369"},
    {"all above 15, trace (3, 19)", &all_above_15, TRACE, 3, 19, "refused 43 at 369"},
    {"LPC without a BIO, route 26", &lpc_without_bio, ROUTE, 26, 0, "refused 43 at 262"},
};

static const struct variant
    short_0_lpc_behind_5 = {.pair = {{0, 8}}, BESIDE_BRIDGE(5, 0x5E0010002000), 26},
    short_5_lpc_behind_0 = {.pair = {{5, 19}}, BESIDE_BRIDGE(5, 0x0E0010002000)},
    lpc_on_last_pin_of_5 = {.pair = {{5, 20}}, BESIDE_BRIDGE(5, 0x5E0010002000)},
    lpc_past_bridge_5 = {.pair = {{5, 8}}, BESIDE_BRIDGE(5, 0x5E0010002000)};

static const struct variant_answer answers_of_version_2[] = {
    /* The other bridge need not have the pin. */
    {"(0, 8), LPC behind 5, route 3", &short_0_lpc_behind_5, ROUTE, 3, 0, ARRIVES(4, 19)},
    {"(0, 8), LPC behind 5, route 72", &short_0_lpc_behind_5, ROUTE, 72, 0, NO_OWNER},
    {"(0, 8), LPC behind 5, trace (4, 19)", &short_0_lpc_behind_5, TRACE, 4, 19, LPC_INPUT(147)},
    {"(0, 8), LPC behind 5, trace (3, 19)", &short_0_lpc_behind_5, TRACE, 3, 19, NOTHING},
    {"(0, 8), LPC behind 5, trace (3, 7)", &short_0_lpc_behind_5, TRACE, 3, 7, BIO_INPUT(71)},
    {"(5, 19), LPC behind 0, route 3", &short_5_lpc_behind_0, ROUTE, 3, 0, ARRIVES(3, 19)},
    {"(5, 19), LPC behind 0, trace (3, 19)", &short_5_lpc_behind_0, TRACE, 3, 19, LPC_INPUT(83)},
    {"(5, 19), LPC behind 0, trace (4, 19)", &short_5_lpc_behind_0, TRACE, 4, 19, NOTHING},
    {"(5, 19), LPC behind 0, trace (4, 18)", &short_5_lpc_behind_0, TRACE, 4, 18, BIO_INPUT(146)},
    /* Its own must. */
    {"(5, 20), LPC behind 5, route 3", &lpc_on_last_pin_of_5, ROUTE, 3, 0, ARRIVES(4, 19)},
    {"(5, 20), LPC behind 5, route 148", &lpc_on_last_pin_of_5, ROUTE, 148, 0, NO_OWNER},
    {"(5, 20), LPC behind 5, trace (4, 19)", &lpc_on_last_pin_of_5, TRACE, 4, 19, LPC_INPUT(147)},
    {"(5, 20), LPC behind 5, trace (4, 20)", &lpc_on_last_pin_of_5, TRACE, 4, 20, NOTHING},
    {"(5, 20), LPC behind 5, trace (3, 19)", &lpc_on_last_pin_of_5, TRACE, 3, 19, BIO_INPUT(83)},
    {"(5, 8), LPC behind 5, route 3", &lpc_past_bridge_5, ROUTE, 3, 0, "refused 45 at 287"},
    {"(5, 8), LPC behind 5, trace (3, 8)", &lpc_past_bridge_5, TRACE, 3, 8, "refused 45 at 287"},
};

static const struct variant_answers both_versions[] = {
    {1, answers_of_version_1, sizeof answers_of_version_1 / sizeof answers_of_version_1[0]},
    {WITH_PAIRS, answers_of_version_2, sizeof answers_of_version_2 / sizeof answers_of_version_2[0]},
};

enum { VERSIONS = sizeof both_versions / sizeof both_versions[0] };

void ask_bridge_answers(struct tally *tally, const struct reader *reader, const char *boards)
{
    for (size_t i = 0; i < VERSIONS; i++)
        ask_variant_answers(tally, reader, boards, both_versions[i]);
}

void ask_vectors_bridge_answers(const char *boards)
{
    for (size_t i = 0; i < VERSIONS; i++)
        ask_vectors_variant_answers(boards, both_versions[i]);
}
