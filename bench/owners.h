/*
 * Cases of request W-211: tables of owners, about board A and boards made of it, and lookups with them, with tables of other boards,
 * with changed ones and by the map alone.
 */
#ifndef OWNERS_H
#define OWNERS_H

#include "examples.h"
#include "readers.h"

/* Asks a reader, as ask_examples() does. Yasmirand is not asked: no entry for C takes tables. */
void ask_owner_examples(struct tally *tally, const struct reader *reader, const char *boards);

/* Writes them as questions for `vectors`, as ask_vectors_examples() does. */
void ask_vectors_owner_examples(const char *boards);

#endif
