/*
 * One call of a C entry, to be measured.
 */
#ifndef CALLS_H
#define CALLS_H

#include <stdint.h>

#include "board.h"
#include "readers.h"

enum question { READ, ROUTE, TRACE, QUESTIONS };

extern const char *const name_of_question[QUESTIONS];

enum { LONGEST_LIST = 8 * CORES_MAX }; /* bytes; enough for any board */

struct call {
    enum question question;
    const struct capture *capture;
    uint32_t first, second; /* READ: how many bytes the list has; ROUTE: the number; TRACE: the vector and the number */
};

uint64_t make_call(const struct reader *reader, const struct call *call);

/* A reader that does nothing: what remains is what the measuring itself takes. */
extern const struct reader idle;

#endif
