/*
 * Captures for bench and stack to measure: some that are hard to read, each in a way of its own, and many of every sort.
 */
#ifndef HARD_H
#define HARD_H

#include <stddef.h>

#include "board.h"

/* Board A, and the hard ones. "Two-byte structures" are of a type that is passed over: no structure can be shorter. */
enum hard {
    BOARD_A,
    LARGE_TABLES,
    RISING,              /* 256 CORE, all enabled: UIDs and physical IDs rise ... */
    FALLING,             /* ... or fall */
    RISING_AMONG_OTHERS, /* the same behind and between two-byte structures, as many as a capture can hold */
    FALLING_AMONG_OTHERS,
    TWO_FAR_APART, /* two CORE, and all of these between them */
    SPARE_CORES,
    TABLE_NAMED_OFTEN,
    TOUCHING_SEGMENTS,
    SHORT_BRIDGE, /* version 2 with four pairs, the last of them the bridge's */
    ON_HT,        /* an HT in place of the EIO */
    HARD_CAPTURES
};

struct hard_capture {
    const char *what;
    struct capture capture;
};

/* Makes all of them. `boards` is the path of the folder boards/. */
void make_hard_captures(const char *boards, struct hard_capture captures[HARD_CAPTURES]);

/*
 * Makes the capture of a number, and gives what it is; NULL if there are not so many. They are boards that keep all rules, and
 * boards that are broken in each of the known ways, several for each.
 */
const char *make_varied_capture(size_t number, struct capture *capture);

#endif
