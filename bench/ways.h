/*
 * The ways to break a board, in two lists: by what they break.
 */
#ifndef WAYS_H
#define WAYS_H

#include <stddef.h>

#include "damage.h"

extern const struct way capture_ways[]; /* refusals 1 to 30 */
extern const size_t capture_way_count;

extern const struct way madt_ways[]; /* refusals 31 to 54, with 71 to 78 in the place of 36 */
extern const size_t madt_way_count;

#endif
