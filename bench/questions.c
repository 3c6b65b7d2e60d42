/*
 * Questions for the program `vectors`, and the lines that it must print: see questions.h.
 */
#include "questions.h"

#include <assert.h>
#include <inttypes.h>
#include <stdio.h>
#include <stdlib.h>
#include <string.h>

#include "board.h"
#include "readers.h"

enum { QUESTIONS_MAX = 100000 }; /* that `vectors` takes in one run */

/* Of each reading: how many questions there are, and where they and the lines go. */
static struct files {
    unsigned count;
    FILE *questions, *lines;
} files[READINGS];

/* ---- The files ---- */

static FILE *open_file(const char *folder, enum reading reading, const char *ending)
{
    char path[4096];

    snprintf(path, sizeof path, "%s/%s.%s", folder, name_of_reading(reading), ending);

    FILE *file = fopen(path, "wb");

    if (file == NULL) {
        perror(path);
        exit(2);
    }
    return file;
}

void open_questions(const char *folder)
{
    for (enum reading reading = ORDINARY; reading <= STRICT; reading++) {
        files[reading].questions = open_file(folder, reading, "in");
        files[reading].lines = open_file(folder, reading, "txt");
    }
}

/* What could not be written shows here at the latest. */
static void close_file(FILE *file)
{
    int failed = ferror(file);

    if (fclose(file) != 0 || failed) {
        fprintf(stderr, "the questions for vectors could not be written\n");
        exit(2);
    }
}

void close_questions(void)
{
    for (enum reading reading = ORDINARY; reading <= STRICT; reading++) {
        close_file(files[reading].questions);
        close_file(files[reading].lines);
    }
}

/* ---- Questions ---- */

/* A question is a head of 96 bytes and the capture or two, before which the numbers of a list stand. Where the head's fields stand: */
enum {
    HEAD_LENGTH = 96,
    HEAD_LABEL = 0, /* padded with zeros */
    LABEL_MAX = 64,
    HEAD_QUESTION = 64,
    HEAD_BYTES = 68, /* how many follow */
    HEAD_FIRST = 72,
    HEAD_SECOND = 80,
    HEAD_LABEL_LENGTH = 88,
    HEAD_STRICTNESS = 92, /* the reading: 0 ordinary, 1 strict */
};

void write_question(const char *label, const struct query *query, const char *answer)
{
    struct files *file = &files[query->reading];
    uint8_t head[HEAD_LENGTH] = {0};
    size_t label_length = strlen(label);

    assert(label_length <= LABEL_MAX && query->length <= ASKED_BYTES_MAX && file->count < QUESTIONS_MAX);
    file->count++;
    memcpy(head + HEAD_LABEL, label, label_length);
    put_u32(head + HEAD_QUESTION, query->question);
    put_u32(head + HEAD_BYTES, (uint32_t)query->length);
    put_u64(head + HEAD_FIRST, query->first);
    put_u64(head + HEAD_SECOND, query->second);
    put_u32(head + HEAD_LABEL_LENGTH, (uint32_t)label_length);
    put_u32(head + HEAD_STRICTNESS, query->reading == STRICT);
    fwrite(head, 1, sizeof head, file->questions);
    fwrite(query->capture, 1, query->length, file->questions);
    fprintf(file->lines, "%s: %s\n", label, answer);
}

/* Writes numbers, 32 bits each; gives how many bytes they take. */
static size_t put_numbers(uint8_t *bytes, const uint32_t *numbers, uint32_t count)
{
    for (size_t i = 0; i < count; i++)
        put_u32(bytes + 4 * i, numbers[i]);
    return 4 * (size_t)count;
}

void write_list_question(const char *label, const struct list_query *query, const char *answer)
{
    static uint8_t bytes[ASKED_BYTES_MAX];

    assert(query->answers <= ANSWERS_MAX && query->count <= EACH_MAX && 4 * query->count + query->length <= ASKED_BYTES_MAX);

    size_t list_length = put_numbers(bytes, query->numbers, query->count), length = list_length + query->length;

    memcpy(bytes + list_length, query->capture, query->length);
    write_question(label, &(struct query){query->reading, ROUTE_EACH, query->answers, query->count, bytes, length}, answer);
}

bool has_room_for_owner_question(const struct owner_query *query)
{
    return 4 * (size_t)query->count + query->table.length + query->map.length <= ASKED_BYTES_MAX;
}

/* The head's first number tells where the first of two captures ends, or which number is looked up with changed tables. */
void write_owner_question(const char *label, const struct owner_query *query, const char *answer)
{
    static uint8_t bytes[ASKED_BYTES_MAX];
    uint32_t first = query->question == LOOK_UP ? (uint32_t)query->table.length : query->number;

    assert(query->count <= LOOKED_UP_MAX && has_room_for_owner_question(query));

    size_t length = put_numbers(bytes, query->numbers, query->count);

    if (query->question == LOOK_UP)
        memcpy(bytes + length, query->table.bytes, query->table.length);
    length += query->table.length;
    memcpy(bytes + length, query->map.bytes, query->map.length);
    length += query->map.length;
    write_question(label, &(struct query){query->reading, query->question, first, query->count, bytes, length}, answer);
}

/* ---- Answers ---- */

enum { FILLING = 0xA5 }; /* every byte of a list before it is lent */

/* The count or the refusal, and then every number of the list that is not as it was, also behind the part that was lent. */
static uint64_t answer_read(const struct reader *reader, const struct query *query, char answer[ANSWER_ROOM])
{
    uint8_t list[4 * LENT_MAX], filling[4];

    memset(list, FILLING, sizeof list);
    memset(filling, FILLING, sizeof filling);

    uint64_t result = reader->read(query->capture, query->length, list, 4 * (size_t)query->first);
    struct reference_refusal judged = judge(query->capture, query->length, query->reading);
    bool has_second = reader != &yasmirand && judged.second != 0;
    struct text said = has_second ? tell_refusal(judged) : tell_read(result);
    int length = snprintf(answer, ANSWER_ROOM, "%s", said.words);

    for (const uint8_t *number = list; number < list + sizeof list; number += sizeof filling)
        if (memcmp(number, filling, sizeof filling) != 0)
            length += snprintf(answer + length, ANSWER_ROOM - (size_t)length, " %" PRIu32, get_u32(number));
    return result;
}

uint64_t answer_query(const struct reader *reader, const struct query *query, char answer[ANSWER_ROOM])
{
    if (query->question == READ)
        return answer_read(reader, query, answer);

    uint64_t result = query->question == ROUTE ? reader->route(query->capture, query->length, query->first)
                                               : reader->trace(query->capture, query->length, query->first, query->second);

    snprintf(answer, ANSWER_ROOM, "%s", print_answer(result).words);
    return result;
}

enum { TRIPLE = 3 }; /* the numbers of an answer to one of a list: kind, core vector and number */

/* 61 comes first, also for an empty list. A refused capture refuses any route. */
static unsigned refusal_of_list(const struct list_query *query)
{
    if (refusal_number(reference_in(query->reading)->route(query->capture, query->length, 0)) != 0)
        return BROKEN_MAP;
    return query->answers < TRIPLE * query->count ? ANSWERS_TOO_SHORT : 0;
}

/* Each number of the answers' list, or a dash where it stays as it was: everywhere, if it is refused. */
unsigned answer_list_query(const struct list_query *query, char answer[ANSWER_ROOM])
{
    unsigned refusal = refusal_of_list(query);
    uint32_t answered = refusal == 0 ? query->count : 0;
    struct text said = tell_refusal((struct reference_refusal){refusal, 0, 0});
    int length = snprintf(answer, ANSWER_ROOM, "%s", refusal == 0 ? "answered" : said.words);

    for (uint32_t i = 0; i < answered; i++) {
        uint64_t single = reference_in(query->reading)->route(query->capture, query->length, query->numbers[i]);

        length += snprintf(answer + length, ANSWER_ROOM - (size_t)length, "%s", print_answer(single).words + strlen("kind"));
    }
    for (uint32_t i = TRIPLE * answered; i < query->answers; i++)
        length += snprintf(answer + length, ANSWER_ROOM - (size_t)length, " -");
    return refusal;
}

/* What `vectors` makes of an entry that it changes. */
static void change_owner(struct reference_owner *owner)
{
    switch (owner->kind) {
    case OWNED_BY_LPC:
        owner->kind = OWNED_BY_NOBODY;
        break;
    case OWNED_BY_NOBODY:
        owner->kind = OWNED_BY_LPC;
        break;
    default: /* another input */
        owner->input ^= 1;
        break;
    }
}

/* The lookup of a place in the question's list, with the table that was filled in. */
static uint64_t look_up(const struct owner_query *query, const struct reference_owners *filled, uint32_t place,
                        struct reference_owner *owner)
{
    uint32_t listed = query->numbers[place];
    bool is_changed = query->question == CHANGED_ENTRIES;
    struct reference_owners table = *filled;

    if (is_changed)
        change_owner(&table.of[listed]);
    return reference_look_up(query->map.bytes, query->map.length, query->reading,
                             query->question == BY_MAP_ALONE ? NULL : &table, is_changed ? query->number : listed, owner);
}

/* What the filling gave, or "asked" without a table, and then of each lookup the refusal, or the owner and the answer. */
unsigned answer_owner_query(const struct owner_query *query, char answer[ANSWER_ROOM])
{
    const struct bytes *filling_capture = query->question == LOOK_UP ? &query->table : &query->map;
    struct reference_owners filled;
    uint64_t filling = reference_fill(filling_capture->bytes, filling_capture->length, query->reading, &filled);
    struct text said = filling == 0 ? (struct text){"filled"} : print_answer(filling);
    int length = snprintf(answer, ANSWER_ROOM, "%s", query->question == BY_MAP_ALONE ? "asked" : said.words);
    unsigned refusal = 0;

    for (uint32_t i = 0; i < query->count; i++) {
        struct reference_owner owner;
        uint64_t result = look_up(query, &filled, i, &owner);
        struct text answered = print_answer(result);

        refusal = refusal_number(result);
        if (refusal != 0)
            length += snprintf(answer + length, ANSWER_ROOM - (size_t)length, " %s", answered.words);
        else
            length += snprintf(answer + length, ANSWER_ROOM - (size_t)length, " %s%s", print_owner(owner).words,
                               answered.words + strlen("kind"));
    }
    return refusal;
}
