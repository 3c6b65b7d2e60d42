/*
 * Boards that are made of board A by giving it other structures, another SCI and pairs, and questions about them with the
 * answers that the documents fix. pins.c, bridges.c, ht.c, lists.c and owners.c write such boards down.
 */
#ifndef VARIANTS_H
#define VARIANTS_H

#include <stddef.h>
#include <stdint.h>

#include "board.h"
#include "board_a.h"
#include "examples.h"
#include "questions.h"
#include "readers.h"

struct variant {
    struct pair pair[PAIRS]; /* of a version 2 capture */
    size_t place; /* not 0: from this place of board A on, which is that of version 1, it has ... */
    struct written written[WRITTEN_MAX]; /* ... these structures in place of its own */
    uint16_t sci; /* not 0: the SCI, which is 75 on board A */
};

/* Makes the capture, of version 1 or 2, with a MADT revision. */
void make_variant(const char *boards, const struct variant *variant, uint16_t version, uint8_t revision, struct capture *capture);

/* A case that was made, and what both readings print for it if its MADT has revision 1. */
struct made_example {
    const char *what, *printed;
};

/* A route or a trace, and its answer in both readings as `vectors` prints it. */
struct variant_answer {
    const char *what;
    const struct variant *board;
    enum question question;
    uint32_t first, second;
    const char *answer;
};

/* Answers as `vectors` prints them. */
#define ARRIVES(vector, number) "kind 0 " #vector " " #number
#define UNWIRED "kind 1 0 0"
#define NO_OWNER "kind 2 0 0"
#define NOTHING "kind 0 0 0"
#define LIO_INPUT(number) "kind 1 0 " #number
#define BIO_INPUT(number) "kind 2 0 " #number
#define LPC_INPUT(number) "kind 3 0 " #number
#define SLOT(slot, node) "kind 4 " #node " " #slot

/* Some of them, about boards that are captures of one version. */
struct variant_answers {
    uint16_t version;
    const struct variant_answer *answer;
    size_t count;
};

/* Asks a reader, as ask_examples() does. */
void ask_variant_answers(struct tally *tally, const struct reader *reader, const char *boards, struct variant_answers answers);

/* Writes questions for `vectors`, as ask_vectors_examples() does. */
void ask_vectors_variant_answers(const char *boards, struct variant_answers answers);

#endif
