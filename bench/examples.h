/*
 * The cases that document 01 writes down, cases of requests W-201, W-202, W-203, W-205, W-206, W-207, W-208, W-211 and W-212 of
 * document 02, and the captures of boards/ with their printed maps: asked of one reader.
 */
#ifndef EXAMPLES_H
#define EXAMPLES_H

#include "readers.h"

struct tally {
    unsigned asked;
    unsigned wrong;
};

enum { WRONG_TOLD = 20 }; /* more are only counted */

/* Asks everything and says what is wrong. `boards` is the path of the folder boards/. */
struct tally ask_examples(const struct reader *reader, const char *boards);

/*
 * Saves the refused cases among them, and all of version 2, of W-208 and of W-201, for ./map to print, in a folder (files.h).
 * Only there do Yasmirand's second places show, the version, and the last numbers of bridges, the LPC's node and the HT's bytes
 * as they are printed.
 */
void save_examples_for_map(const char *boards, const char *folder);

/* Writes questions about them for `vectors`, and those of W-209, in both readings, with the lines that the documents fix. */
void ask_vectors_examples(const char *boards);

#endif
