/*
 * Cases of request W-212: board A as a version 2 capture, its bridges with fewer pins, and faults of the longer header. What
 * is printed for each, and what routes and traces of some answer.
 */
#ifndef PINS_H
#define PINS_H

#include <stddef.h>
#include <stdint.h>

#include "board.h"
#include "examples.h"
#include "readers.h"
#include "variants.h"

size_t count_pin_examples(void);

/* Makes the capture of a number, with a MADT revision. */
struct made_example make_pin_example(const char *boards, size_t number, uint8_t revision, struct capture *capture);

/* Asks a reader the routes and traces, as ask_examples() does. */
void ask_pin_answers(struct tally *tally, const struct reader *reader, const char *boards);

/* Writes them as questions for `vectors`, as ask_vectors_examples() does. */
void ask_vectors_pin_answers(const char *boards);

#endif
