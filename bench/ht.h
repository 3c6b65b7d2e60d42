/*
 * Cases of request W-201: boards with an HT in the place of EIOs, and boards with both. What is printed for each, what routes
 * and traces of some answer, and of a few what they answer to all numbers that matter.
 */
#ifndef HT_H
#define HT_H

#include <stddef.h>
#include <stdint.h>

#include "board.h"
#include "examples.h"
#include "readers.h"
#include "variants.h"

size_t count_ht_examples(void);

/* Makes the capture of a number, with a MADT revision. */
struct made_example make_ht_example(const char *boards, size_t number, uint8_t revision, struct capture *capture);

/* Asks a reader the routes and traces, as ask_examples() does. */
void ask_ht_answers(struct tally *tally, const struct reader *reader, const char *boards);

/* Writes questions for `vectors`, as ask_vectors_examples() does: the routes and traces, and of the few boards some. */
void ask_vectors_ht_answers(const char *boards);

#endif
