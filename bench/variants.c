/*
 * Boards made of board A, and questions about them: see variants.h.
 */
#include "variants.h"

#include <stdio.h>
#include <string.h>

void make_variant(const char *boards, const struct variant *variant, uint16_t version, uint8_t revision, struct capture *capture)
{
    load_board_a(boards, revision, capture);
    if (variant->place != 0)
        replace_structures(capture, variant->place, variant->written);
    if (variant->sci != 0)
        put_u16(capture->bytes + capture->place[FADT] + FADT_SCI, variant->sci);
    make_sums_good(capture);
    if (version == WITH_PAIRS)
        become_version_2(capture, variant->pair);
}

/* The question, about a capture that the next one takes over. */
static struct query query_of(const char *boards, const struct variant_answer *answer, uint16_t version, enum reading reading)
{
    static struct capture capture;

    make_variant(boards, answer->board, version, 1, &capture);
    return (struct query){reading, answer->question, answer->first, answer->second, capture.bytes, capture.length};
}

void ask_variant_answers(struct tally *tally, const struct reader *reader, const char *boards, struct variant_answers answers)
{
    char said[ANSWER_ROOM];

    for (size_t i = 0; i < answers.count; i++) {
        const struct variant_answer *answer = &answers.answer[i];
        struct query query = query_of(boards, answer, answers.version, reading_of(reader));

        answer_query(reader, &query, said);
        tally->asked++;
        if (strcmp(said, answer->answer) != 0 && ++tally->wrong <= WRONG_TOLD)
            printf("%s, version %u, %s: %s, but the documents say %s\n", reader->name, answers.version, answer->what, said,
                   answer->answer);
    }
}

void ask_vectors_variant_answers(const char *boards, struct variant_answers answers)
{
    for (size_t i = 0; i < answers.count; i++)
        for (enum reading reading = ORDINARY; reading <= STRICT; reading++) {
            const struct variant_answer *answer = &answers.answer[i];
            struct query query = query_of(boards, answer, answers.version, reading);

            write_question(answer->what, &query, answer->answer);
        }
}
