/*
 * Cases of request W-207: board A with MADT revisions and with other rules broken beside, and what the two readings answer.
 */
#ifndef READINGS_H
#define READINGS_H

#include "examples.h"
#include "readers.h"

/* Asks a reader all of them, as ask_examples() does. */
void ask_reading_examples(struct tally *tally, const struct reader *reader, const char *boards);

/* Saves those that the strict reading refuses for ./map to print, as save_examples_for_map() does. */
void save_reading_examples_for_map(const char *boards, const char *folder);

/* Writes questions for `vectors`, as ask_vectors_examples() does. */
void ask_vectors_reading_examples(const char *boards);

#endif
