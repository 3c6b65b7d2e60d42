/*
 * Cases of request W-208: boards whose LPC is behind any one of their bridges, or behind none. What is printed for each, and
 * what routes and traces of some answer.
 */
#ifndef BRIDGES_H
#define BRIDGES_H

#include <stddef.h>
#include <stdint.h>

#include "board.h"
#include "examples.h"
#include "readers.h"
#include "variants.h"

size_t count_bridge_examples(void);

/* Makes the capture of a number, with a MADT revision. */
struct made_example make_bridge_example(const char *boards, size_t number, uint8_t revision, struct capture *capture);

/* Asks a reader the routes and traces, as ask_examples() does. */
void ask_bridge_answers(struct tally *tally, const struct reader *reader, const char *boards);

/* Writes them as questions for `vectors`, as ask_vectors_examples() does. */
void ask_vectors_bridge_answers(const char *boards);

#endif
