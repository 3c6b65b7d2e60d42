/*
 * Captures that are not as document 01 wants them: boards broken in a chosen way, and noise.
 */
#ifndef DAMAGE_H
#define DAMAGE_H

#include <stddef.h>

#include "board.h"
#include "random.h"

/* A way to break one rule of a board that keeps them all. It is laid out in three steps, and a way takes part in one. */
struct way {
    unsigned refusal; /* the number that the strict reading must then give */
    const char *what;
    void (*in_board)(struct random *random, struct board *board);
    void (*in_tables)(struct random *random, const struct board *board, struct capture *capture); /* sums come after it */
    void (*in_capture)(struct random *random, struct capture *capture);
};

/* The ways one by one; NULL if there are not so many. */
const struct way *way_at(size_t number);

/* Every refusal that a capture can bring about is picked equally often, then one of its ways. */
const struct way *pick_way(struct random *random);

/* The same for refusals close to one: which of two broken rules comes first is most easily mistaken there. */
const struct way *pick_way_near(struct random *random, unsigned refusal);

/* Lays the board out, broken in one or several ways. */
void lay_out_broken(struct random *random, struct board *board, struct capture *capture, const struct way *const *ways,
                    size_t count);

/* Noise: what happens to files by accident. */
void change_some_bytes(struct random *random, struct capture *capture);
void truncate_capture(struct random *random, struct capture *capture);
void make_random_bytes(struct random *random, struct capture *capture);

#endif
