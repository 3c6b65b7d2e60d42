/*
 * Questions for the program `vectors`, and the lines that it must print for them.
 *
 * Yasmirand's entries for C are the strict reading. Of its programs only `vectors` answers in the ordinary one (W-207): it
 * takes questions about captures from standard input, each in the reading that it names. So the questions are written to
 * files, READING.in for each reading, the lines to READING.txt beside it, and bench/run compares what `vectors` prints. Lists of
 * numbers (W-209) and tables of owners (W-211) are asked about in this way too: no entry for C takes them.
 */
#ifndef QUESTIONS_H
#define QUESTIONS_H

#include <stdbool.h>
#include <stddef.h>
#include <stdint.h>

#include "readers.h"

/* As `vectors` numbers them. */
enum question { READ = 4, ROUTE = 5, TRACE = 6, ROUTE_EACH = 8, LOOK_UP = 10, BY_MAP_ALONE = 11, CHANGED_ENTRIES = 12 };

enum {
    ASKED_BYTES_MAX = 65537, /* behind a head: one byte more than a capture may have */
    LENT_MAX = 520,          /* numbers of a list that READ fills */
    EACH_MAX = 320,          /* numbers of a list that ROUTE_EACH is asked about ... */
    ANSWERS_MAX = 963,       /* ... and of the one for its answers */
    LOOKED_UP_MAX = 400,     /* numbers or entries of a question about owners */
    ANSWER_ROOM = 64 + 12 * ANSWERS_MAX,
};

/* One question about a capture: READ, ROUTE or TRACE. */
struct query {
    enum reading reading;
    enum question question;
    uint32_t first, second; /* READ: how many numbers the list has; ROUTE: the number; TRACE: the vector and the number */
    const uint8_t *capture;
    size_t length;
};

/* ROUTE_EACH: a question about a capture and a list of numbers (W-209). */
struct list_query {
    enum reading reading;
    uint32_t answers, count; /* how many numbers the answers' list has, and how many are asked about */
    const uint32_t *numbers;
    const uint8_t *capture;
    size_t length;
};

struct bytes {
    const uint8_t *bytes;
    size_t length;
};

/*
 * A question about owners (W-211). LOOK_UP: each number is looked up with the map of one capture and the table that the map of
 * another, or of the same one, fills in. BY_MAP_ALONE: without a table. CHANGED_ENTRIES: one number is looked up with one map as
 * often as there are entries, each time with a table of this map in which the entry is changed.
 */
struct owner_query {
    enum reading reading;
    enum question question;
    uint32_t number; /* CHANGED_ENTRIES: the one that is looked up; else 0 */
    uint32_t count;
    const uint32_t *numbers; /* that are looked up; CHANGED_ENTRIES: the entries, 0 to 319 */
    struct bytes table;      /* LOOK_UP: the capture that fills the table; else none */
    struct bytes map;        /* the capture whose map is asked */
};

/* Makes the files in a folder, before the first question, and closes them, after the last. */
void open_questions(const char *folder);
void close_questions(void);

/* Writes a question, and the line that must be printed for it: the label, which says what is asked, and the answer. */
void write_question(const char *label, const struct query *query, const char *answer);
void write_list_question(const char *label, const struct list_query *query, const char *answer);
void write_owner_question(const char *label, const struct owner_query *query, const char *answer);

/* Whether `vectors` takes as many bytes as a question about owners has: numbers and captures together. */
bool has_room_for_owner_question(const struct owner_query *query);

/*
 * The answer of a reader as `vectors` would print it; its result is given back too. Only of `read` a second place is printed,
 * and only if the reader is reference.c: Yasmirand's entries for C do not give it.
 */
uint64_t answer_query(const struct reader *reader, const struct query *query, char answer[ANSWER_ROOM]);

/*
 * The answer of reference.c about a list as `vectors` would print it, made of its single routes; the refusal number, or 0, is
 * given back. A refused capture has no map: `vectors` then asks the empty one, which breaks rule 40, and so is refused with 61.
 */
enum { BROKEN_MAP = 61, ANSWERS_TOO_SHORT = 62, OTHER_TABLE = 63 };
unsigned answer_list_query(const struct list_query *query, char answer[ANSWER_ROOM]);

/* The same about owners. The refusal number is that of the lookups: each of a question has the same one, or 0. */
unsigned answer_owner_query(const struct owner_query *query, char answer[ANSWER_ROOM]);

#endif
