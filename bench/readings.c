/*
 * Cases of request W-207: see readings.h. Document 01 and the request fix their answers.
 */
#include "readings.h"

#include <stdio.h>
#include <string.h>

#include "board_a.h"
#include "files.h"
#include "questions.h"

/* ---- What is done to board A ---- */

static void reserved_flag(struct capture *a)
{
    put_u32(a->bytes + A_CORE + CORE_FLAGS, 3);
}

static void short_madt(struct capture *a)
{
    a->table_length[MADT] = MADT_HEADER - 1;
    put_u32(a->bytes + A_MADT + 4, MADT_HEADER - 1);
}

static void short_fadt(struct capture *a)
{
    a->table_length[FADT] = FADT_MIN - 1;
    put_u32(a->bytes + A_FADT + 4, FADT_MIN - 1);
}

static void madt_sum_wrong(struct capture *a)
{
    a->sum_error[MADT] = 1;
}

static void madt_flags_1(struct capture *a)
{
    put_u32(a->bytes + A_MADT + 40, 1);
}

static void rsdp_revision_5(struct capture *a)
{
    a->bytes[A_RSDP + 15] = 5;
}

static void xsdt_revision_5(struct capture *a)
{
    a->bytes[A_XSDT + TABLE_REVISION] = 5;
}

static void fadt_revision_0(struct capture *a)
{
    a->bytes[A_FADT + TABLE_REVISION] = 0;
}

static void no_fadt(struct capture *a)
{
    a->bytes[A_FADT] = 'f';
}

static void lio_version_5(struct capture *a)
{
    a->bytes[A_LIO + 2] = 5;
}

static void lpc_past_the_end(struct capture *a)
{
    a->bytes[A_LPC + 1] = 16;
}

static void eio_cascade_2(struct capture *a)
{
    a->bytes[A_EIO + EIO_CASCADE] = 2;
}

static void sci_50(struct capture *a)
{
    put_u16(a->bytes + A_FADT + FADT_SCI, 50);
}

/* ---- The cases ---- */

/* Board A with a MADT revision, and with what else is done to it: what each reading answers, as `vectors` prints it. */
struct reading_example {
    uint8_t revision;
    const char *what;
    void (*edit)(struct capture *a);
    enum question question;
    uint32_t first, second;
    const char *ordinary, *strict;
};

static const char REVISION_REFUSED[] = "refused 29 at 118";

static const struct reading_example reading_examples[] = {
    {0, "board A", NULL, READ, LONG_LIST, 0, REVISION_REFUSED, REVISION_REFUSED},
    {1, "board A", NULL, READ, LONG_LIST, 0, A_READ, A_READ},
    {2, "board A", NULL, READ, LONG_LIST, 0, A_READ, REVISION_REFUSED},
    {3, "board A", NULL, READ, LONG_LIST, 0, A_READ, REVISION_REFUSED},
    {5, "board A", NULL, READ, LONG_LIST, 0, A_READ, REVISION_REFUSED},
    {128, "board A", NULL, READ, LONG_LIST, 0, A_READ, REVISION_REFUSED},
    {255, "board A", NULL, READ, LONG_LIST, 0, A_READ, REVISION_REFUSED},
    /* 60 comes behind 29. Board A needs four numbers. */
    {0, "no list", NULL, READ, 0, 0, REVISION_REFUSED, REVISION_REFUSED},
    {1, "list of 3", NULL, READ, 3, 0, "refused 60 at 0", "refused 60 at 0"},
    {1, "list of 4", NULL, READ, 4, 0, A_READ, A_READ},
    {5, "no list", NULL, READ, 0, 0, "refused 60 at 0", REVISION_REFUSED},
    {5, "list of 3", NULL, READ, 3, 0, "refused 60 at 0", REVISION_REFUSED},
    {5, "list of 4", NULL, READ, 4, 0, A_READ, REVISION_REFUSED},
    /* Rules before 29 win in both readings. */
    {5, "RSDP revision 5", rsdp_revision_5, READ, LONG_LIST, 0, "refused 12 at 30", "refused 12 at 30"},
    {0, "MADT sum wrong", madt_sum_wrong, READ, LONG_LIST, 0, "refused 22 at 118", "refused 22 at 118"},
    {5, "MADT sum wrong", madt_sum_wrong, READ, LONG_LIST, 0, "refused 22 at 118", "refused 22 at 118"},
    {5, "XSDT revision 5", xsdt_revision_5, READ, LONG_LIST, 0, "refused 24 at 66", "refused 24 at 66"},
    {0, "no FADT", no_fadt, READ, LONG_LIST, 0, "refused 26 at 66", "refused 26 at 66"},
    {5, "no FADT", no_fadt, READ, LONG_LIST, 0, "refused 26 at 66", "refused 26 at 66"},
    {0, "MADT of 43 bytes", short_madt, READ, LONG_LIST, 0, "refused 28 at 118", "refused 28 at 118"},
    {5, "MADT of 43 bytes", short_madt, READ, LONG_LIST, 0, "refused 28 at 118", "refused 28 at 118"},
    {0, "FADT of 47 bytes", short_fadt, READ, LONG_LIST, 0, "refused 28 at 294", "refused 28 at 294"},
    {5, "FADT of 47 bytes", short_fadt, READ, LONG_LIST, 0, "refused 28 at 294", "refused 28 at 294"},
    /* Of those behind it, the ordinary reading tells the same as with revision 1. */
    {0, "MADT flags 1", madt_flags_1, READ, LONG_LIST, 0, REVISION_REFUSED, REVISION_REFUSED},
    {1, "MADT flags 1", madt_flags_1, READ, LONG_LIST, 0, "refused 30 at 118", "refused 30 at 118"},
    {5, "MADT flags 1", madt_flags_1, READ, LONG_LIST, 0, "refused 30 at 118", REVISION_REFUSED},
    {0, "LPC past the end", lpc_past_the_end, READ, LONG_LIST, 0, REVISION_REFUSED, REVISION_REFUSED},
    {5, "LPC past the end", lpc_past_the_end, READ, LONG_LIST, 0, "refused 31 at 279", REVISION_REFUSED},
    {0, "LIO version 5", lio_version_5, READ, LONG_LIST, 0, REVISION_REFUSED, REVISION_REFUSED},
    {5, "LIO version 5", lio_version_5, READ, LONG_LIST, 0, "refused 33 at 207", REVISION_REFUSED},
    {0, "CORE with a reserved flag", reserved_flag, READ, LONG_LIST, 0, REVISION_REFUSED, REVISION_REFUSED},
    {1, "CORE with a reserved flag", reserved_flag, READ, LONG_LIST, 0, "refused 35 at 162", "refused 35 at 162"},
    {5, "CORE with a reserved flag", reserved_flag, READ, LONG_LIST, 0, "refused 35 at 162", REVISION_REFUSED},
    {5, "EIO cascade 2", eio_cascade_2, READ, LONG_LIST, 0, "refused 53 at 230 with 207", REVISION_REFUSED},
    {0, "SCI 50", sci_50, READ, LONG_LIST, 0, REVISION_REFUSED, REVISION_REFUSED},
    {5, "SCI 50", sci_50, READ, LONG_LIST, 0, "refused 54 at 294", REVISION_REFUSED},
    {5, "FADT revision 0", fadt_revision_0, READ, LONG_LIST, 0, A_READ, REVISION_REFUSED},
    /* The map is the same. */
    {5, "route 72", NULL, ROUTE, 72, 0, "kind 0 3 8", REVISION_REFUSED},
    {5, "route 26", NULL, ROUTE, 26, 0, "kind 0 2 10", REVISION_REFUSED},
    {5, "route 3", NULL, ROUTE, 3, 0, "kind 0 3 19", REVISION_REFUSED},
    {5, "route 45", NULL, ROUTE, 45, 0, "kind 1 0 0", REVISION_REFUSED},
    {5, "route 50", NULL, ROUTE, 50, 0, "kind 2 0 0", REVISION_REFUSED},
    {5, "route 128", NULL, ROUTE, 128, 0, "kind 2 0 0", REVISION_REFUSED},
    {5, "route 4,294,967,295", NULL, ROUTE, UINT32_MAX, 0, "kind 2 0 0", REVISION_REFUSED},
    {5, "trace (3, 19)", NULL, TRACE, 3, 19, "kind 3 0 83", REVISION_REFUSED},
    {5, "trace (3, 64)", NULL, TRACE, 3, 64, "kind 4 0 64", REVISION_REFUSED},
    {5, "trace (3, 8)", NULL, TRACE, 3, 8, "kind 2 0 72", REVISION_REFUSED},
    {5, "trace (2, 10)", NULL, TRACE, 2, 10, "kind 1 0 26", REVISION_REFUSED},
    {5, "trace (2, 24)", NULL, TRACE, 2, 24, "kind 0 0 0", REVISION_REFUSED},
    {5, "second bridge, route 130", second_bridge_at_128, ROUTE, 130, 0, "kind 0 4 2", REVISION_REFUSED},
    {5, "second bridge, trace (4, 70)", second_bridge_at_128, TRACE, 4, 70, "kind 4 5 70", REVISION_REFUSED},
    {255, "route 72", NULL, ROUTE, 72, 0, "kind 0 3 8", REVISION_REFUSED},
    {255, "trace (3, 64)", NULL, TRACE, 3, 64, "kind 4 0 64", REVISION_REFUSED},
    {1, "route 72", NULL, ROUTE, 72, 0, "kind 0 3 8", "kind 0 3 8"},
    {1, "second bridge, trace (4, 70)", second_bridge_at_128, TRACE, 4, 70, "kind 4 5 70", "kind 4 5 70"},
    {0, "route 72", NULL, ROUTE, 72, 0, REVISION_REFUSED, REVISION_REFUSED},
    {0, "trace (3, 64)", NULL, TRACE, 3, 64, REVISION_REFUSED, REVISION_REFUSED},
    /* Routes and traces carry no second place. */
    {5, "EIO cascade 2, route 72", eio_cascade_2, ROUTE, 72, 0, "refused 53 at 230", REVISION_REFUSED},
    {5, "EIO cascade 2, trace (2, 10)", eio_cascade_2, TRACE, 2, 10, "refused 53 at 230", REVISION_REFUSED},
    {5, "FADT of 47 bytes, route 72", short_fadt, ROUTE, 72, 0, "refused 28 at 294", "refused 28 at 294"},
};

enum { READING_EXAMPLES = sizeof reading_examples / sizeof reading_examples[0] };

/* ---- Asking ---- */

static struct text name_reading_example(const struct reading_example *example)
{
    struct text name;

    snprintf(name.words, sizeof name.words, "W-207, revision %u, %s", example->revision, example->what);
    return name;
}

/* The example's question, about a capture that the next one takes over. */
static struct query query_of(const char *boards, const struct reading_example *example, enum reading reading)
{
    static struct capture a;

    load_board_a(boards, example->revision, &a);
    if (example->edit != NULL)
        example->edit(&a);
    make_sums_good(&a);
    return (struct query){reading, example->question, example->first, example->second, a.bytes, a.length};
}

static const char *answer_in(enum reading reading, const struct reading_example *example)
{
    return reading == ORDINARY ? example->ordinary : example->strict;
}

void ask_reading_examples(struct tally *tally, const struct reader *reader, const char *boards)
{
    enum reading reading = reading_of(reader);
    char said[ANSWER_ROOM];

    for (size_t i = 0; i < READING_EXAMPLES; i++) {
        const struct reading_example *example = &reading_examples[i];
        struct query query = query_of(boards, example, reading);

        answer_query(reader, &query, said);
        tally->asked++;
        if (strcmp(said, answer_in(reading, example)) != 0 && ++tally->wrong <= WRONG_TOLD)
            printf("%s, %s: %s, but the documents say %s\n", reader->name, name_reading_example(example).words, said,
                   answer_in(reading, example));
    }
}

void ask_vectors_reading_examples(const char *boards)
{
    for (size_t i = 0; i < READING_EXAMPLES; i++)
        for (enum reading reading = ORDINARY; reading <= STRICT; reading++) {
            const struct reading_example *example = &reading_examples[i];
            struct query query = query_of(boards, example, reading);

            write_question(name_reading_example(example).words, &query, answer_in(reading, example));
        }
}

void save_reading_examples_for_map(const char *boards, const char *folder)
{
    char name[64];

    for (size_t i = 0; i < READING_EXAMPLES; i++) {
        const struct reading_example *example = &reading_examples[i];
        struct query query = query_of(boards, example, STRICT);

        if (example->question != READ || example->first != LONG_LIST || example->strict == A_READ)
            continue;
        snprintf(name, sizeof name, "reading-example-%zu", i + 1);
        save_for_map(folder, name, query.capture, query.length, example->strict);
    }
}
