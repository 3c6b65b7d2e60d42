/*
 * Cases of request W-209: lists of global numbers, about board A and boards made of it, and what becomes of the answers' list.
 */
#ifndef LISTS_H
#define LISTS_H

/* Writes them as questions for `vectors`, as ask_vectors_examples() does. */
void ask_vectors_list_examples(const char *boards);

#endif
