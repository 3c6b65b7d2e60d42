/*
 * The stack that a call needs, measured by painting the stack that it runs on.
 */
#ifndef STACK_DEPTH_H
#define STACK_DEPTH_H

#include <stddef.h>
#include <stdint.h>

#include "calls.h"

enum { STACK_LIMIT = 4096 }; /* the fixture's small board has no more (W-205): a call must stay under it */

struct depth {
    uint64_t answer;
    size_t bytes; /* of stack that the reader needs below its caller's */
};

struct depth measure_depth(const struct reader *reader, const struct call *call);

#endif
