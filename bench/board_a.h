/*
 * Board A of document 01, to make cases of: its places, its capture with any MADT revision or as version 2, and other
 * structures in the place of its own.
 */
#ifndef BOARD_A_H
#define BOARD_A_H

#include <stddef.h>
#include <stdint.h>

#include "board.h"

/* The places of "Board A and its neighbours". In version 2 all of them are 8 bytes further on. */
enum {
    A_LENGTH = 538,
    A_MEMORY = 508,
    A_DESCRIPTOR = 18,
    A_RSDP = 30,
    A_XSDT = 66,
    A_MADT = 118,
    A_CORE = 162,
    A_LIO = 207,
    A_EIO = 230,
    A_MSI = 243,
    A_BIO = 262,
    A_LPC = 279,
    A_FADT = 294,
};

extern const uint64_t A_ADDRESS; /* of its memory */

enum { LONG_LIST = 2 * CORES_MAX }; /* numbers that are enough for any board */

/* What the program `vectors` prints of its processors. */
extern const char A_READ[];

/* Board A as it is, or with a MADT revision other than 1 and the sum made good. `boards` is the path of the folder boards/. */
void load_board_a(const char *boards, uint8_t revision, struct capture *a);

/*
 * A structure as the documents write it: its kind, and its fields in the order of "MADT structures"; those of an HT are its eight
 * bytes (W-201). Sizes are free, and bases too, except that of an LPC, which names its bridge (W-208): it stands behind the
 * cascade, as two numbers, the high half first.
 */
enum { WRITTEN_FIELDS = 8 };

struct written {
    uint8_t kind; /* 0: none; a type that is passed over: two bytes, the shortest that there are */
    uint32_t field[WRITTEN_FIELDS];
};

enum { WRITTEN_MAX = 10 };

/* Puts structures in the place of those that board A has from a place on, and mends what this moves. Sums are not made good. */
void replace_structures(struct capture *a, size_t place, const struct written written[WRITTEN_MAX]);

/* A CORE as the documents write it. */
struct written_core {
    uint32_t uid, physical_id, flags;
};

/* Puts these CORE, 257 at most, in the place of board A's own; its other structures stay. Sums are not made good. */
void replace_cores(struct capture *a, const struct written_core *cores, size_t count);

/* CORE that say the same, one behind another. */
struct equal_cores {
    size_t count; /* 0: none */
    uint32_t uid, physical_id, flags;
};

enum { EQUAL_CORES_MAX = 8 };

/* As replace_cores(). */
void replace_equal_cores(struct capture *a, const struct equal_cores cores[EQUAL_CORES_MAX]);

/* Makes a version 2 capture of it (W-212), with these pairs: all that stands behind the header moves. It must be the last edit. */
void become_version_2(struct capture *a, const struct pair pair[PAIRS]);

/* Adds an EIO (node 5, cascade 4) with a BIO whose base is 128. */
void second_bridge_at_128(struct capture *a);

#endif
