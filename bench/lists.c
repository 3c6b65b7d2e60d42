/*
 * Cases of request W-209: see lists.h. Documents 01 and 02 fix their answers.
 */
#include "lists.h"

#include <stdio.h>

#include "questions.h"
#include "variants.h"

/*
 * Board A has LIO inputs 0 to 23 on core vector 2, and a bridge, with numbers from 64 on, on 3; the LPC's lines share its pin 19.
 * With an HT, inputs 0 to 15 are on 2 and 16 to 23 on 3, and the HT names input 16 for pins 0 to 31, and input 1 for the others.
 */
static const struct variant
    board_a = {.place = 0},
    two_bridges = {.place = A_FADT, {{EIO, {4, 5, 1}}, {BIO, {5, 128}}}},
    on_ht = {.place = A_LIO,
             {{LIO, {2, 3, 0xFFFF, 0xFF0000}}, {HT, {16, 1, 2, 3, 4, 5, 6, 7}}, {MSI, {64, 192}}, {BIO, {0, 64}}, {LPC, {19}}}},
    sci_50 = {.sci = 50}; /* refused with 54: there is no map */

struct list_example {
    const char *what;
    const struct variant *board;
    uint32_t answers, count; /* as a question has them */
    uint32_t numbers[12];
    const char *printed;
    const char *strict; /* not NULL: the MADT has revision 5, and the strict reading, which refuses it, prints this (W-207) */
};

static const struct list_example list_examples[] = {
    /* Lines of the LPC, of the LIO and of the bridge, what is unwired or has no owner, and what stands at the ends of all these. */
    {"all kinds", &board_a, 21, 7, {3, 26, 45, 50, 72, 128, UINT32_MAX},
     .printed = "answered 0 3 19 0 2 10 1 0 0 2 0 0 0 3 8 2 0 0 2 0 0"},
    {"firsts and lasts", &board_a, 33, 11, {0, 15, 16, 39, 40, 47, 48, 63, 64, 83, 127},
     .printed = "answered 0 3 19 0 3 19 0 2 0 0 2 23 1 0 0 1 0 0 2 0 0 2 0 0 0 3 0 0 3 19 0 3 63"},
    {"falling", &board_a, 15, 5, {127, 64, 40, 16, 0}, .printed = "answered 0 3 63 0 3 0 1 0 0 0 2 0 0 3 19"},
    {"equal in their low bits to 72, 26 and 3", &board_a, 9, 3, {256 + 72, 65536 + 26, 0x80000003},
     .printed = "answered 2 0 0 2 0 0 2 0 0"},
    {"72 twice", &board_a, 6, 2, {72, 72}, .printed = "answered 0 3 8 0 3 8"},
    {"26 before and behind 45", &board_a, 9, 3, {26, 45, 26}, .printed = "answered 0 2 10 1 0 0 0 2 10"},
    {"two bridges", &two_bridges, 21, 7, {3, 83, 147, 127, 128, 191, 192},
     .printed = "answered 0 3 19 0 3 19 0 4 19 0 3 63 0 4 0 0 4 63 2 0 0"},
    {"on HT", &on_ht, 36, 12, {3, 16, 17, 24, 32, 33, 45, 72, 95, 96, 127, 128},
     .printed = "answered 0 3 275 0 2 0 2 0 0 0 2 8 2 0 0 0 3 17 1 0 0 0 3 264 0 3 287 0 2 288 0 2 319 2 0 0"},
    {"on HT, 17 and 64, list of 7", &on_ht, 7, 2, {17, 64}, .printed = "answered 2 0 0 0 3 256 -"},
    /* The answers' list: three numbers each, and what lies behind them stays. */
    {"none, no list", &board_a, 0, 0, {0}, .printed = "answered"},
    {"none, list of 1", &board_a, 1, 0, {0}, .printed = "answered -"},
    {"72, no list", &board_a, 0, 1, {72}, .printed = "refused 62 at 0"},
    {"72, list of 2", &board_a, 2, 1, {72}, .printed = "refused 62 at 0 - -"},
    {"72, list of 3", &board_a, 3, 1, {72}, .printed = "answered 0 3 8"},
    {"72, list of 4", &board_a, 4, 1, {72}, .printed = "answered 0 3 8 -"},
    {"50, list of 1", &board_a, 1, 1, {50}, .printed = "refused 62 at 0 -"},
    {"72 and 60, list of 5", &board_a, 5, 2, {72, 60}, .printed = "refused 62 at 0 - - - - -"},
    {"72 and 60, list of 6", &board_a, 6, 2, {72, 60}, .printed = "answered 0 3 8 2 0 0"},
    {"72 and 60, list of 7", &board_a, 7, 2, {72, 60}, .printed = "answered 0 3 8 2 0 0 -"},
    {"72, 26 and 3, list of 3", &board_a, 3, 3, {72, 26, 3}, .printed = "refused 62 at 0 - - -"},
    /* 61 comes before 62, and for an empty list too. */
    {"SCI 50, 72, list of 3", &sci_50, 3, 1, {72}, .printed = "refused 61 at 0 - - -"},
    {"SCI 50, 72, list of 2", &sci_50, 2, 1, {72}, .printed = "refused 61 at 0 - -"},
    {"SCI 50, none, no list", &sci_50, 0, 0, {0}, .printed = "refused 61 at 0"},
    {"SCI 50, none, list of 2", &sci_50, 2, 0, {0}, .printed = "refused 61 at 0 - -"},
    {"revision 5, 72 and 26", &board_a, 7, 2, {72, 26}, "answered 0 3 8 0 2 10 -", "refused 61 at 0 - - - - - - -"},
    {"revision 5, 72 and 26, list of 5", &board_a, 5, 2, {72, 26}, "refused 62 at 0 - - - - -", "refused 61 at 0 - - - - -"},
    {"revision 5, none", &board_a, 1, 0, {0}, "answered -", "refused 61 at 0 -"},
};

static void ask_vectors_list_example(const char *boards, const struct list_example *example)
{
    static struct capture capture;
    const char *strict = example->strict == NULL ? example->printed : example->strict;
    struct text label;

    make_variant(boards, example->board, 1, example->strict == NULL ? 1 : 5, &capture);
    snprintf(label.words, sizeof label.words, "W-209, %s", example->what);
    for (enum reading reading = ORDINARY; reading <= STRICT; reading++) {
        struct list_query query = {reading, example->answers, example->count, example->numbers, capture.bytes, capture.length};

        write_list_question(label.words, &query, reading == STRICT ? strict : example->printed);
    }
}

void ask_vectors_list_examples(const char *boards)
{
    for (size_t i = 0; i < sizeof list_examples / sizeof list_examples[0]; i++)
        ask_vectors_list_example(boards, &list_examples[i]);
}
