/*
 * Board A and its neighbours, the five errors that look right, the refusals of request W-202, board A with spare CORE and
 * repeated IDs for requests W-203 and W-205, cut into segments for request W-206, as version 2 for request W-212, with other
 * bridges for request W-208, and with an HT for request W-201, all of it with the MADT revisions of request W-207, and the
 * captures of boards/: see examples.h.
 */
#define _DEFAULT_SOURCE /* opendir */

#include "examples.h"

#include <assert.h>
#include <dirent.h>
#include <inttypes.h>
#include <stdarg.h>
#include <stdbool.h>
#include <stdio.h>
#include <stdlib.h>
#include <string.h>

#include "board.h"
#include "board_a.h"
#include "bridges.h"
#include "files.h"
#include "ht.h"
#include "lists.h"
#include "owners.h"
#include "pins.h"
#include "questions.h"
#include "readings.h"

/* ---- Asking ---- */

static void expect(struct tally *tally, const struct reader *reader, uint64_t result, uint64_t answer,
                   struct text (*tell)(uint64_t), const char *format, ...)
{
    va_list words;

    tally->asked++;
    if (result == answer || ++tally->wrong > WRONG_TOLD)
        return;
    printf("%s, ", reader->name);
    va_start(words, format);
    vprintf(format, words);
    va_end(words);
    printf(": %s, but the documents say %s\n", tell(result).words, tell(answer).words);
}

/* ---- Board A and its neighbours ---- */

/* What is printed for board A with some processors, given as their lines. */
#define A_PRINTED_FIRST "map 1\n"
#define A_PRINTED_LAST "lio 2 16777215\neio 0 3 1\nbio 0 64 127\nmsi 64 255\nlpc 0 19\nsci 75 3 11\n"
#define A_PRINTED_WITH(processors) A_PRINTED_FIRST processors A_PRINTED_LAST

static const char A_PRINTED[] = A_PRINTED_WITH("core 0 0\ncore 1 1\n");

static void no_bio_no_lpc(struct capture *a)
{
    replace_structures(a, A_MSI, (struct written[WRITTEN_MAX]){{MSI, {0, 256}}});
    put_u16(a->bytes + a->place[FADT] + FADT_SCI, 26);
}

static void both_halves(struct capture *a)
{
    a->bytes[A_LIO + LIO_CASCADES] = 2;
    a->bytes[A_LIO + LIO_CASCADES + 1] = 5;
    put_u32(a->bytes + A_LIO + LIO_MASKS, 0x0F);
    put_u32(a->bytes + A_LIO + LIO_MASKS + 4, 0xF0);
}

/* All 36 bytes of the RSDP still sum to 0. The other tables' sums are good as they are. */
static void first_20_bytes_sum_wrong(struct capture *a)
{
    a->bytes[A_RSDP + 9]++;
    a->bytes[A_RSDP + 33]--;
}

struct example {
    const char *what;
    void (*edit)(struct capture *a);
    enum question question;
    uint32_t first, second;
    uint64_t answer;
};

static void ask_example(struct tally *tally, const struct reader *reader, const struct capture *a, const struct example *example)
{
    uint8_t list[8 * CORES_MAX];

    switch (example->question) {
    case READ:
        expect(tally, reader, reader->read(a->bytes, a->length, list, sizeof list), example->answer, tell_read, "%s",
               example->what);
        break;
    case ROUTE:
        expect(tally, reader, reader->route(a->bytes, a->length, example->first), example->answer, tell_route, "%s, route %" PRIu32,
               example->what, example->first);
        break;
    case TRACE:
        expect(tally, reader, reader->trace(a->bytes, a->length, example->first, example->second), example->answer, tell_trace,
               "%s, trace (%" PRIu32 ", %" PRIu32 ")", example->what, example->first, example->second);
        break;
    case ROUTE_EACH: case LOOK_UP: case BY_MAP_ALONE: case CHANGED_ENTRIES: /* lists.c and owners.c have them */
        break;
    }
}

static void ask_neighbours(struct tally *tally, const struct reader *reader, const char *boards)
{
    const struct example examples[] = {
        /* The twelve; three of them are refusals and stand below. */
        {"board A", NULL, ROUTE, 72, 0, arrives(3, 8)},
        {"board A", NULL, ROUTE, 26, 0, arrives(2, 10)},
        {"board A", NULL, ROUTE, 3, 0, arrives(3, 19)},
        {"board A", NULL, ROUTE, 45, 0, unwired()},
        {"board A", NULL, ROUTE, 50, 0, no_owner()},
        {"board A", NULL, ROUTE, 128, 0, no_owner()},
        {"board A", NULL, TRACE, 3, 19, lpc_cascade(83)},
        {"board A", NULL, TRACE, 3, 64, msi_slot(64, 0)},
        {"board A", NULL, TRACE, 2, 24, nothing()},
        /* Run by a program. */
        {"board A", NULL, ROUTE, 127, 0, arrives(3, 63)},
        {"no BIO, no LPC, MSI 0 to 255, SCI 26", no_bio_no_lpc, READ, 0, 0, 2},
        {"a second bridge at 128", second_bridge_at_128, READ, 0, 0, 2},
        {"a second bridge at 128", second_bridge_at_128, ROUTE, 130, 0, arrives(4, 2)},
        /* Errors that look right. */
        {"no BIO, no LPC, MSI 0 to 255", no_bio_no_lpc, TRACE, 3, 0, msi_slot(0, 0)},
        {"both LIO halves", both_halves, ROUTE, 16, 0, arrives(2, 0)},
        {"both LIO halves", both_halves, ROUTE, 20, 0, arrives(5, 4)},
        {"the RSDP's first 20 bytes sum wrong", first_20_bytes_sum_wrong, READ, 0, 0, refused(14, A_RSDP)},
    };
    static struct capture a;

    for (size_t i = 0; i < sizeof examples / sizeof examples[0]; i++) {
        load_board_a(boards, 1, &a);
        if (examples[i].edit != NULL)
            examples[i].edit(&a);
        if (examples[i].edit != NULL && examples[i].edit != first_20_bytes_sum_wrong)
            make_sums_good(&a);
        ask_example(tally, reader, &a, &examples[i]);
    }
}

/* ---- Captures with their printed maps ---- */

/* A map as the program prints it ("Board A and its neighbours"). An `ht` line stands where `eio` ones do (W-201). */
struct printed {
    size_t cores, lios, hts, eios, bios, msis, lpcs;
    uint32_t uid[CORES_MAX], physical_id[CORES_MAX];
    struct { uint32_t cascade, mask; } lio[2];
    uint32_t ht[HT_GROUPS];
    struct { uint32_t node, cascade; } eio[EIOS_MAX];
    struct { uint32_t node, first, last; } bio[BIOS_MAX];
    struct { uint32_t first, last; } msi[MSIS_MAX];
    struct { uint32_t node, input; } lpc;
    struct { uint32_t number, vector, arrival; } sci;
};

/* The next number of a line; the line goes on behind it. */
static uint32_t take_number(char **line)
{
    return (uint32_t)strtoull(*line, line, 10);
}

static bool take_word(char **line, const char *word)
{
    size_t length = strlen(word);

    if (strncmp(*line, word, length) != 0)
        return false;
    *line += length;
    return true;
}

static void take_line(struct printed *map, char *line)
{
    if (take_word(&line, "core ") && map->cores < CORES_MAX) {
        map->uid[map->cores] = take_number(&line);
        map->physical_id[map->cores++] = take_number(&line);
    } else if (take_word(&line, "lio ") && map->lios < 2) {
        map->lio[map->lios].cascade = take_number(&line);
        map->lio[map->lios++].mask = take_number(&line);
    } else if (take_word(&line, "ht ")) {
        map->hts = 1;
        for (size_t i = 0; i < HT_GROUPS; i++)
            map->ht[i] = take_number(&line);
    } else if (take_word(&line, "eio ") && map->eios < EIOS_MAX) {
        map->eio[map->eios].node = take_number(&line);
        map->eio[map->eios++].cascade = take_number(&line);
    } else if (take_word(&line, "bio ") && map->bios < BIOS_MAX) {
        map->bio[map->bios].node = take_number(&line);
        map->bio[map->bios].first = take_number(&line);
        map->bio[map->bios++].last = take_number(&line);
    } else if (take_word(&line, "msi ") && map->msis < MSIS_MAX) {
        map->msi[map->msis].first = take_number(&line);
        map->msi[map->msis++].last = take_number(&line);
    } else if (take_word(&line, "lpc ")) {
        map->lpcs = 1;
        map->lpc.node = take_number(&line);
        map->lpc.input = take_number(&line);
    } else if (take_word(&line, "sci ")) {
        map->sci.number = take_number(&line);
        map->sci.vector = take_number(&line);
        map->sci.arrival = take_number(&line);
    }
}

/* The core vector of a LIO input; 0 if it is unwired. */
static uint32_t vector_of_input(const struct printed *map, uint32_t input)
{
    for (size_t half = 0; half < map->lios; half++)
        if (map->lio[half].mask >> input & 1)
            return map->lio[half].cascade;
    return 0;
}

static bool is_named(const struct printed *map, uint32_t input)
{
    for (size_t i = 0; i < HT_GROUPS && map->hts == 1; i++)
        if (map->ht[i] == input)
            return true;
    return false;
}

struct arrival {
    uint32_t vector, number;
};

/* Where what lands on a vector of the hub of a node arrives: through the EIO of the node, or through the HT. */
static struct arrival arrival_by_hub(const struct printed *map, uint32_t node, uint32_t vector)
{
    if (map->hts == 1)
        return (struct arrival){vector_of_input(map, map->ht[vector / HT_GROUP]), HT_FIRST + vector};
    for (size_t i = 0; i < map->eios; i++)
        if (map->eio[i].node == node)
            return (struct arrival){map->eio[i].cascade, vector};
    return (struct arrival){0, vector};
}

static uint64_t arrives_by_hub(const struct printed *map, uint32_t node, uint32_t vector)
{
    struct arrival arrival = arrival_by_hub(map, node, vector);

    return arrives(arrival.vector, arrival.number);
}

/* One capture, asked about by one reader; answers are counted in one tally. */
struct talk {
    struct tally *tally;
    const struct reader *reader;
    const char *name;
    const uint8_t *capture;
    size_t length;
};

static void expect_route(const struct talk *talk, uint32_t number, uint64_t answer)
{
    expect(talk->tally, talk->reader, talk->reader->route(talk->capture, talk->length, number), answer, tell_route,
           "%s, route %" PRIu32, talk->name, number);
}

static void expect_trace(const struct talk *talk, uint32_t vector, uint32_t number, uint64_t answer)
{
    expect(talk->tally, talk->reader, talk->reader->trace(talk->capture, talk->length, vector, number), answer, tell_trace,
           "%s, trace (%" PRIu32 ", %" PRIu32 ")", talk->name, vector, number);
}

static void expect_cores(const struct talk *talk, const struct printed *map)
{
    uint8_t list[8 * CORES_MAX];
    uint64_t result = talk->reader->read(talk->capture, talk->length, list, sizeof list);

    expect(talk->tally, talk->reader, result, map->cores, tell_read, "%s", talk->name);
    if (result != map->cores)
        return;
    for (size_t i = 0; i < map->cores; i++) {
        expect(talk->tally, talk->reader, get_u32(list + 8 * i), map->uid[i], tell_read, "%s, UID %zu", talk->name, i);
        expect(talk->tally, talk->reader, get_u32(list + 8 * i + 4), map->physical_id[i], tell_read, "%s, physical ID %zu",
               talk->name, i);
    }
}

/* An input that the HT names is wired, and no source: nothing arrives with its number where it did (W-201). */
static void expect_lio(const struct talk *talk, const struct printed *map)
{
    for (uint32_t input = 0; input < LIO_INPUTS; input++) {
        uint32_t vector = vector_of_input(map, input), number = LIO_FIRST + input;

        if (vector == 0) {
            expect_route(talk, number, unwired());
            continue;
        }
        expect_route(talk, number, is_named(map, input) ? no_owner() : arrives(vector, input));
        expect_trace(talk, vector, input, is_named(map, input) ? nothing() : lio_input(number));
    }
}

/* Where a number from 64 on arrives. */
static uint64_t printed_route(const struct printed *map, uint32_t number)
{
    for (size_t i = 0; i < map->bios; i++)
        if (number >= map->bio[i].first && number <= map->bio[i].last)
            return arrives_by_hub(map, map->bio[i].node, number - map->bio[i].first);
    return no_owner();
}

/* What lands on a vector of the hub of a node. */
static uint64_t printed_source(const struct printed *map, uint32_t node, uint32_t vector)
{
    for (size_t i = 0; i < map->bios; i++) {
        uint32_t number = map->bio[i].first + vector;

        if (map->bio[i].node == node && number <= map->bio[i].last) {
            bool is_lpc = map->lpcs == 1 && map->lpc.node == node && map->lpc.input == vector;

            return is_lpc ? lpc_cascade(number) : bio_input(number);
        }
    }
    for (size_t i = 0; i < map->msis; i++)
        if (vector >= map->msi[i].first && vector <= map->msi[i].last)
            return msi_slot(vector, node);
    return nothing();
}

/* Asks where it arrives. */
static void expect_source(const struct talk *talk, const struct printed *map, uint32_t node, uint32_t vector)
{
    struct arrival arrival = arrival_by_hub(map, node, vector);

    expect_trace(talk, arrival.vector, arrival.number, printed_source(map, node, vector));
}

/* Behind the last pin of a bridge its numbers end (W-212): up to where they would with one pin more than there can be. */
static void expect_missing_pins(const struct talk *talk, const struct printed *map)
{
    for (size_t i = 0; i < map->bios; i++)
        for (uint32_t pin = map->bio[i].last - map->bio[i].first + 1; pin <= PINS; pin++) {
            expect_route(talk, map->bio[i].first + pin, printed_route(map, map->bio[i].first + pin));
            expect_source(talk, map, map->bio[i].node, pin);
        }
}

static void expect_bios(const struct talk *talk, const struct printed *map)
{
    for (size_t i = 0; i < map->bios; i++)
        for (uint32_t pin = 0; pin <= map->bio[i].last - map->bio[i].first; pin++) {
            expect_route(talk, map->bio[i].first + pin, arrives_by_hub(map, map->bio[i].node, pin));
            expect_source(talk, map, map->bio[i].node, pin);
        }
}

static void expect_msis(const struct talk *talk, const struct printed *map)
{
    for (size_t i = 0; i < map->msis; i++)
        for (size_t j = 0; j < map->eios; j++)
            for (uint32_t slot = map->msi[i].first; slot <= map->msi[i].last; slot++)
                expect_source(talk, map, map->eio[j].node, slot);
}

/* W-201: behind the LIO's own numbers, what arrives at its vectors comes through the HT, each HT vector at one of them. */
static void expect_ht(const struct talk *talk, const struct printed *map)
{
    const uint32_t ht_last = HT_FIRST + HT_GROUPS * HT_GROUP - 1;

    for (size_t half = 0; half < map->lios && map->hts == 1; half++)
        for (uint32_t number = LIO_INPUTS; number <= ht_last + 1; number++) {
            bool from_ht = number >= HT_FIRST && number <= ht_last;
            uint32_t vector = map->lio[half].cascade;
            bool there = from_ht && arrival_by_hub(map, HT_NODE, number - HT_FIRST).vector == vector;

            expect_trace(talk, vector, number, there ? printed_source(map, HT_NODE, number - HT_FIRST) : nothing());
        }
}

/* Every line of the printed map, as the answers that it stands for. The EIO's map of nodes shows in no answer. */
static void expect_map(const struct talk *talk, const struct printed *map)
{
    expect_cores(talk, map);
    expect_lio(talk, map);
    expect_bios(talk, map);
    expect_missing_pins(talk, map);
    expect_msis(talk, map);
    expect_ht(talk, map);
    for (uint32_t line = 0; line < LIO_FIRST; line++)
        expect_route(talk, line, map->lpcs == 1 ? arrives_by_hub(map, map->lpc.node, map->lpc.input) : no_owner());
    expect_route(talk, map->sci.number, arrives(map->sci.vector, map->sci.arrival));
}

static struct text tell_place(uint64_t place)
{
    struct text text;

    snprintf(text.words, sizeof text.words, "place %" PRIu64, place);
    return text;
}

static void expect_refusal(const struct talk *talk, struct reference_refusal refusal)
{
    uint8_t list[8 * CORES_MAX];
    uint64_t result = refused(refusal.number, refusal.place);

    expect(talk->tally, talk->reader, talk->reader->read(talk->capture, talk->length, list, sizeof list), result, tell_read,
           "%s", talk->name);
    expect_route(talk, 72, result);
    expect_trace(talk, 3, 19, result);
    if (talk->reader != &yasmirand) { /* Yasmirand's entries for C give no second place: ./map and `vectors` print it */
        struct reference_refusal judged = judge(talk->capture, talk->length, reading_of(talk->reader));

        expect(talk->tally, talk->reader, refused(judged.number, judged.place), result, tell_read, "%s, judged", talk->name);
        expect(talk->tally, talk->reader, judged.second, refusal.second, tell_place, "%s, second place", talk->name);
    }
}

/* The refusal that is printed, or zeros if it is a map. */
static struct reference_refusal take_refusal(char *printed)
{
    struct reference_refusal refusal = {0};

    if (take_word(&printed, "refused "))
        refusal.number = take_number(&printed);
    if (take_word(&printed, " at "))
        refusal.place = take_number(&printed);
    if (take_word(&printed, " with "))
        refusal.second = take_number(&printed);
    return refusal;
}

static void take_map(char *printed, struct printed *map)
{
    memset(map, 0, sizeof *map);
    for (char *line = strtok(printed, "\n"); line != NULL; line = strtok(NULL, "\n"))
        take_line(map, line);
}

/* Holds a reader to what must be printed for a capture. */
static void expect_printed(const struct talk *talk, char *printed)
{
    struct reference_refusal refusal = take_refusal(printed);
    struct printed map;

    if (refusal.number != 0) {
        expect_refusal(talk, refusal);
        return;
    }
    take_map(printed, &map);
    expect_map(talk, &map);
}

static bool is_map(const char *printed)
{
    return strncmp(printed, "map ", 4) == 0;
}

/* What `vectors` prints of the processors of a printed map; a refusal stays as it is. */
static void print_processors(char *printed, char answer[ANSWER_ROOM])
{
    struct printed map;

    if (!is_map(printed)) {
        snprintf(answer, ANSWER_ROOM, "%.*s", (int)strcspn(printed, "\n"), printed);
        return;
    }
    take_map(printed, &map);

    int length = snprintf(answer, ANSWER_ROOM, "read %zu", map.cores);

    for (size_t i = 0; i < map.cores; i++)
        length += snprintf(answer + length, ANSWER_ROOM - (size_t)length, " %" PRIu32 " %" PRIu32, map.uid[i],
                           map.physical_id[i]);
}

/* ---- MADT revisions ---- */

static const uint8_t revisions[] = {0, 1, 2, 5, 255};
enum { REVISIONS = sizeof revisions / sizeof revisions[0] };

/* A case that is made of board A. Its MADT is given a revision; with revision 1, both readings print the text for it. */
struct revised {
    const char *what, *printed;
    uint8_t revision;
    const struct capture *capture;
};

/* The case's name, which is a label for `vectors` too. */
static struct text name_revised(const struct revised *revised)
{
    struct text name;
    int length = snprintf(name.words, sizeof name.words, "%s, revision %u", revised->what, revised->revision);

    assert(length < (int)sizeof name.words);
    return name;
}

enum { PRINTED_ROOM = 8192 }; /* for the lines of 256 processors */

/* What a reading prints for the case: the text for revision 1, or 29 where that comes first. */
static void print_revised(const struct revised *revised, enum reading reading, char printed[PRINTED_ROOM])
{
    int length = snprintf(printed, PRINTED_ROOM, "%s", revised->printed);

    assert(length < PRINTED_ROOM);

    unsigned refusal = (unsigned)take_refusal(printed).number;

    if (refusal_with_revision(refusal, revised->revision, reading) != refusal)
        snprintf(printed, PRINTED_ROOM, "refused %d at %zu", MADT_REVISION, revised->capture->place[MADT]);
}

static void ask_revised(struct tally *tally, const struct reader *reader, const struct revised *revised)
{
    const struct capture *capture = revised->capture;
    struct text name = name_revised(revised);
    char printed[PRINTED_ROOM];

    print_revised(revised, reading_of(reader), printed);
    expect_printed(&(struct talk){tally, reader, name.words, capture->bytes, capture->length}, printed);
}

static void ask_vectors_revised(const struct revised *revised)
{
    const struct capture *capture = revised->capture;
    char printed[PRINTED_ROOM], answer[ANSWER_ROOM];

    for (enum reading reading = ORDINARY; reading <= STRICT; reading++) {
        print_revised(revised, reading, printed);
        print_processors(printed, answer);
        write_question(name_revised(revised).words,
                       &(struct query){reading, READ, LONG_LIST, 0, capture->bytes, capture->length}, answer);
    }
}

static void ask_board_a(struct tally *tally, const struct reader *reader, const char *boards)
{
    static struct capture a;

    for (size_t i = 0; i < REVISIONS; i++) {
        load_board_a(boards, revisions[i], &a);
        ask_revised(tally, reader, &(struct revised){"board A", A_PRINTED, revisions[i], &a});
    }
}

/* ---- Refusals near board A ---- */

struct refused_example {
    const char *what;
    size_t place; /* from here on, board A has ... */
    struct written written[WRITTEN_MAX]; /* ... these structures in place of its own */
    const char *printed;
};

static const struct refused_example refused_examples[] = {
    /* Of the twelve. */
    {"MSI start 63, count 193", A_MSI, {{MSI, {63, 193}}, {BIO, {0, 64}}, {LPC, {19}}}, "refused 52 at 262 with 243"},
    {"MSI start 65, count 192", A_MSI, {{MSI, {65, 192}}, {BIO, {0, 64}}, {LPC, {19}}}, "refused 75 at 243"},
    {"EIO cascade 2", A_EIO, {{EIO, {2, 0, 1}}, {MSI, {64, 192}}, {BIO, {0, 64}}, {LPC, {19}}}, "refused 53 at 230 with 207"},
    /* Run by a program. */
    {"BIO base 63", A_BIO, {{BIO, {0, 63}}, {LPC, {19}}}, "refused 76 at 262"},
    {"no BIO, no LPC, MSI 0 to 255, SCI 75", A_MSI, {{MSI, {0, 256}}}, "refused 54 at 262"},
    {"a second bridge at 127", A_FADT, {{EIO, {4, 5, 1}}, {BIO, {5, 127}}}, "refused 51 at 307 with 262"},
    /* An error that looks right. */
    {"MSI start 4,294,967,295, count 2", A_MSI, {{MSI, {UINT32_MAX, 2}}, {BIO, {0, 64}}, {LPC, {19}}}, "refused 75 at 243"},
    /* W-202 splits 36. The lowest number of a structure is told, before 37 and 38. */
    {"LIO low cascade 1", A_LIO, {{LIO, {1, 9, 0xFF, 0xFF00}}}, "refused 71 at 207"},
    {"LIO high cascade 10", A_LIO, {{LIO, {2, 10, 0xFF, 0xFF00}}}, "refused 71 at 207"},
    {"LIO cascade 10, shared bit", A_LIO, {{LIO, {10, 2, 3, 6}}}, "refused 71 at 207"},
    {"LIO shared bit", A_LIO, {{LIO, {9, 2, 3, 6}}}, "refused 37 at 207"},
    {"a second LIO, cascade 10", A_FADT, {{LIO, {10, 0, 1, 0}}}, "refused 71 at 294"},
    {"EIO cascade 1, node 64, map 0", A_EIO, {{EIO, {1, 64, 0}}}, "refused 71 at 230"},
    {"EIO node 64, map 0", A_EIO, {{EIO, {3, 64, 0}}}, "refused 72 at 230"},
    {"EIO map 0", A_EIO, {{EIO, {3, 0, 0}}}, "refused 73 at 230"},
    {"MSI start 300, count 0", A_MSI, {{MSI, {300, 0}}}, "refused 74 at 243"},
    {"MSI start 256, count 0", A_MSI, {{MSI, {256, 0}}}, "refused 74 at 243"},
    {"a fifth MSI, count 0", A_MSI, {{MSI, {64, 1}}, {MSI, {65, 1}}, {MSI, {66, 1}}, {MSI, {67, 1}}, {MSI, {68, 0}}},
     "refused 74 at 319"},
    {"BIO hardware ID 64, base 63", A_BIO, {{BIO, {64, 63}}}, "refused 72 at 262"},
    {"BIO hardware ID 256", A_BIO, {{BIO, {256, 64}}}, "refused 72 at 262"},
    {"BIO base 65,473", A_BIO, {{BIO, {0, 65473}}}, "refused 76 at 262"},
    {"LPC cascade 64", A_LPC, {{LPC, {64}}}, "refused 77 at 279"},
    {"LPC cascade 275", A_LPC, {{LPC, {275}}}, "refused 77 at 279"},
    /* W-202 says which two: each of 51 to 53 has partners of its own, and the earliest in the table is told. */
    {"MSI 0 to 7, MSI 8 to 15, BIO", A_MSI, {{MSI, {0, 8}}, {MSI, {8, 8}}, {BIO, {0, 64}}}, "refused 52 at 281 with 243"},
    {"BIO, MSI 66 to 67, MSI 60 to 67", A_MSI, {{BIO, {0, 64}}, {MSI, {66, 2}}, {MSI, {60, 8}}}, "refused 52 at 279 with 243"},
    {"MSI 66 to 67, BIO, MSI 60 to 67", A_MSI, {{MSI, {66, 2}}, {BIO, {0, 64}}, {MSI, {60, 8}}}, "refused 52 at 279 with 243"},
    {"BIO, MSI 64 to 127, MSI 100 to 107, MSI 0 to 7", A_MSI,
     {{BIO, {0, 64}}, {MSI, {64, 64}}, {MSI, {100, 8}}, {MSI, {0, 8}}}, "refused 52 at 279 with 260"},
    {"MSI 0 to 255, BIO on the second of two EIO", A_EIO,
     {{EIO, {3, 0, 1}}, {EIO, {4, 5, 1}}, {MSI, {0, 256}}, {BIO, {5, 64}}}, "refused 52 at 275 with 256"},
    {"a second BIO of the node", A_FADT, {{BIO, {0, 128}}}, "refused 52 at 294 with 262"},
    {"the same MSI again", A_FADT, {{MSI, {64, 192}}}, "refused 52 at 294 with 243"},
    {"the same BIO again", A_FADT, {{BIO, {0, 64}}}, "refused 51 at 294 with 262"},
    {"bridges at 128, 64 and 100", A_EIO,
     {{EIO, {3, 0, 1}}, {EIO, {4, 5, 1}}, {EIO, {5, 9, 1}}, {BIO, {0, 128}}, {BIO, {5, 64}}, {BIO, {9, 100}}},
     "refused 51 at 303 with 269"},
    {"MSI 0 to 7, bridges at 64 and 127", A_EIO,
     {{EIO, {3, 0, 1}}, {MSI, {0, 8}}, {EIO, {4, 5, 1}}, {BIO, {0, 64}}, {BIO, {5, 127}}}, "refused 51 at 292 with 275"},
    {"MSI 0 to 7, bridges at 64 and 128", A_EIO,
     {{EIO, {3, 0, 1}}, {MSI, {0, 8}}, {EIO, {4, 5, 1}}, {BIO, {0, 64}}, {BIO, {5, 128}}}, "refused 52 at 275 with 243"},
    {"EIO cascade 2, bridges at 64 and 127", A_EIO,
     {{EIO, {2, 0, 1}}, {EIO, {4, 5, 1}}, {BIO, {0, 64}}, {BIO, {5, 127}}}, "refused 51 at 273 with 256"},
    {"EIO cascades 3, 4, 4, 3", A_EIO, {{EIO, {3, 0, 1}}, {EIO, {4, 1, 1}}, {EIO, {4, 2, 1}}, {EIO, {3, 3, 1}}},
     "refused 53 at 256 with 243"},
    {"EIO cascades 5 and 2, LIO cascades 2 and 5", A_LIO,
     {{EIO, {5, 0, 1}}, {EIO, {2, 1, 1}}, {LIO, {2, 5, 0xFF, 0xFF00}}}, "refused 53 at 233 with 207"},
    {"unused LIO half with byte 3, two EIO of cascade 3", A_LIO,
     {{LIO, {2, 3, 0xFF, 0}}, {EIO, {3, 0, 1}}, {EIO, {3, 5, 1}}}, "refused 53 at 243 with 230"},
    /* All others have no second place, though a structure that is one too many, or repeats, has a partner too. */
    {"an HT behind the EIO", A_FADT, {{HT, {0}}}, "refused 34 at 294"},
    {"a second LPC", A_FADT, {{LPC, {20}}}, "refused 38 at 294"},
    {"a second EIO of the node", A_FADT, {{EIO, {4, 0, 1}}}, "refused 41 at 294"},
    {"a fourth CORE with the first one's UID", A_FADT, {{CORE, {0, 3, 1}}}, "refused 39 at 294"},
    /* 39 with two-byte structures before, between and behind the CORE. */
    {"two CORE of a UID among others", A_CORE,
     {{PASSED_OVER, {0}}, {CORE, {0, 0, 1}}, {PASSED_OVER, {0}}, {PASSED_OVER, {0}}, {CORE, {0, 1, 1}}, {PASSED_OVER, {0}}},
     "refused 39 at 183"},
    {"two CORE of a physical ID among others, one last", A_CORE,
     {{PASSED_OVER, {0}}, {CORE, {0, 0, 1}}, {PASSED_OVER, {0}}, {CORE, {1, 1, 1}}, {PASSED_OVER, {0}}, {CORE, {2, 1, 1}}},
     "refused 39 at 198"},
};

enum { REFUSED_EXAMPLES = sizeof refused_examples / sizeof refused_examples[0] };

static void make_refused(const char *boards, const struct refused_example *example, uint8_t revision, struct capture *capture)
{
    load_board_a(boards, revision, capture);
    replace_structures(capture, example->place, example->written);
    make_sums_good(capture);
}

/* The example of a number with a revision, in a capture that the next one takes over. */
static struct revised refused_example(const char *boards, size_t number, uint8_t revision)
{
    static struct capture capture;
    const struct refused_example *example = &refused_examples[number];

    make_refused(boards, example, revision, &capture);
    return (struct revised){example->what, example->printed, revision, &capture};
}

/* ---- Board A with other CORE ---- */

/* Board A with these CORE in place of its own: disabled ones, whose IDs mean nothing (W-203), and repeated IDs. */
struct core_example {
    const char *what;
    struct equal_cores cores[EQUAL_CORES_MAX];
    const char *printed;
};

/*
 * In a name, a CORE is its UID and its physical ID; in the list, how many there are comes before these, and the flags behind.
 * The first one is at 162, and each is 15 bytes behind the one before: the next are at 177, 192, 207 and 222, the 102nd is
 * at 1677, the 256th at 3987, and the 257th at 4002.
 */
static const struct core_example core_examples[] = {
    /* W-203: a disabled CORE may have an ID of an enabled one, or both, before it or behind it. */
    {"enabled (0, 0), disabled (0, 5)", {{1, 0, 0, 1}, {1, 0, 5, 0}}, A_PRINTED_WITH("core 0 0\n")},
    {"disabled (0, 5), enabled (0, 0)", {{1, 0, 5, 0}, {1, 0, 0, 1}}, A_PRINTED_WITH("core 0 0\n")},
    {"enabled (0, 0), disabled (5, 0)", {{1, 0, 0, 1}, {1, 5, 0, 0}}, A_PRINTED_WITH("core 0 0\n")},
    {"disabled (5, 0), enabled (0, 0)", {{1, 5, 0, 0}, {1, 0, 0, 1}}, A_PRINTED_WITH("core 0 0\n")},
    {"enabled (0, 0), disabled (0, 0)", {{1, 0, 0, 1}, {1, 0, 0, 0}}, A_PRINTED_WITH("core 0 0\n")},
    {"disabled (0, 0), enabled (0, 0)", {{1, 0, 0, 0}, {1, 0, 0, 1}}, A_PRINTED_WITH("core 0 0\n")},
    {"enabled (0, 0), disabled (0, 1), enabled (1, 1)", {{1, 0, 0, 1}, {1, 0, 1, 0}, {1, 1, 1, 1}},
     A_PRINTED_WITH("core 0 0\ncore 1 1\n")},
    {"greatest IDs, the third of four enabled",
     {{2, UINT32_MAX, UINT32_MAX, 0}, {1, UINT32_MAX, UINT32_MAX, 1}, {1, UINT32_MAX, UINT32_MAX, 0}},
     A_PRINTED_WITH("core 4294967295 4294967295\n")},
    /* It may have those of other disabled ones. */
    {"two disabled (0, 0), enabled (0, 0)", {{2, 0, 0, 0}, {1, 0, 0, 1}}, A_PRINTED_WITH("core 0 0\n")},
    {"enabled (0, 0), two disabled (0, 0)", {{1, 0, 0, 1}, {2, 0, 0, 0}}, A_PRINTED_WITH("core 0 0\n")},
    {"enabled (0, 0), two disabled (5, 5)", {{1, 0, 0, 1}, {2, 5, 5, 0}}, A_PRINTED_WITH("core 0 0\n")},
    {"disabled (5, 5), (5, 6) and (6, 5)", {{1, 5, 5, 0}, {1, 5, 6, 0}, {1, 6, 5, 0}, {1, 0, 0, 1}},
     A_PRINTED_WITH("core 0 0\n")},
    {"200 disabled (7, 7), four enabled",
     {{1, 0, 0, 1}, {66, 7, 7, 0}, {1, 1, 1, 1}, {67, 7, 7, 0}, {1, 2, 2, 1}, {67, 7, 7, 0}, {1, 3, 3, 1}},
     A_PRINTED_WITH("core 0 0\ncore 1 1\ncore 2 2\ncore 3 3\n")},
    {"200 disabled (2, 2), four enabled",
     {{66, 2, 2, 0}, {1, 0, 0, 1}, {70, 2, 2, 0}, {1, 3, 3, 1}, {1, 2, 2, 1}, {64, 2, 2, 0}, {1, 1, 1, 1}},
     A_PRINTED_WITH("core 0 0\ncore 3 3\ncore 2 2\ncore 1 1\n")},
    {"252 disabled (0, 0), four enabled", {{252, 0, 0, 0}, {1, 3, 3, 1}, {1, 2, 2, 1}, {1, 1, 1, 1}, {1, 0, 0, 1}},
     A_PRINTED_WITH("core 3 3\ncore 2 2\ncore 1 1\ncore 0 0\n")},
    /* A UID is no physical ID. */
    {"enabled (0, 1), enabled (1, 0)", {{1, 0, 1, 1}, {1, 1, 0, 1}}, A_PRINTED_WITH("core 0 1\ncore 1 0\n")},
    {"enabled (0, 1), (1, 2), (2, 0)", {{1, 0, 1, 1}, {1, 1, 2, 1}, {1, 2, 0, 1}},
     A_PRINTED_WITH("core 0 1\ncore 1 2\ncore 2 0\n")},
    /* IDs that differ in one byte differ. */
    {"UIDs that differ in one byte", {{1, 0, 0, 1}, {1, 256, 1, 1}, {1, 65536, 2, 1}, {1, 16777216, 3, 1}},
     A_PRINTED_WITH("core 0 0\ncore 256 1\ncore 65536 2\ncore 16777216 3\n")},
    {"physical IDs that differ in one byte", {{1, 0, 0, 1}, {1, 1, 256, 1}, {1, 2, 65536, 1}, {1, 3, 16777216, 1}},
     A_PRINTED_WITH("core 0 0\ncore 1 256\ncore 2 65536\ncore 3 16777216\n")},
    /* Two enabled ones still may not have an ID in common, and the later of them is named. */
    {"enabled, disabled, enabled of a UID", {{1, 0, 0, 1}, {1, 0, 5, 0}, {1, 0, 1, 1}}, "refused 39 at 192"},
    {"enabled, disabled, enabled of a physical ID", {{1, 0, 0, 1}, {1, 5, 0, 0}, {1, 1, 0, 1}}, "refused 39 at 192"},
    {"disabled, two enabled of a UID", {{1, 0, 5, 0}, {1, 0, 0, 1}, {1, 0, 1, 1}}, "refused 39 at 192"},
    {"disabled, two enabled of a physical ID", {{1, 5, 0, 0}, {1, 0, 0, 1}, {1, 1, 0, 1}}, "refused 39 at 192"},
    {"two enabled, disabled of a UID", {{1, 0, 0, 1}, {1, 0, 1, 1}, {1, 0, 5, 0}}, "refused 39 at 177"},
    {"two enabled, disabled of a physical ID", {{1, 0, 0, 1}, {1, 1, 0, 1}, {1, 5, 0, 0}}, "refused 39 at 177"},
    {"one repeats a disabled one, the next an enabled", {{1, 0, 0, 1}, {1, 1, 5, 0}, {1, 1, 1, 1}, {1, 2, 1, 1}},
     "refused 39 at 207"},
    {"102 CORE (0, 0), first and last enabled", {{1, 0, 0, 1}, {100, 0, 0, 0}, {1, 0, 0, 1}}, "refused 39 at 1677"},
    {"256 CORE (0, 0), last two enabled", {{254, 0, 0, 0}, {2, 0, 0, 1}}, "refused 39 at 3987"},
    /* The UID may be that of one CORE, and the physical ID that of another. */
    {"UID of the first, physical ID of the second", {{1, 0, 0, 1}, {1, 1, 1, 1}, {1, 0, 1, 1}}, "refused 39 at 192"},
    {"UID of the second, physical ID of the first", {{1, 0, 0, 1}, {1, 1, 1, 1}, {1, 1, 0, 1}}, "refused 39 at 192"},
    /* Several repeat an earlier one's: the first of them in the table is named, whichever CORE it is that they repeat. */
    {"third repeats second, fourth first", {{1, 0, 0, 1}, {1, 1, 1, 1}, {1, 2, 1, 1}, {1, 0, 3, 1}}, "refused 39 at 192"},
    {"third repeats first, fourth second", {{1, 0, 0, 1}, {1, 1, 1, 1}, {1, 0, 2, 1}, {1, 1, 3, 1}}, "refused 39 at 192"},
    {"fourth repeats third, fifth first",
     {{1, 0, 0, 1}, {1, 1, 1, 1}, {1, 2, 2, 1}, {1, 2, 3, 1}, {1, 4, 0, 1}}, "refused 39 at 207"},
    /* One behind a CORE that is not above all before it. */
    {"third repeats first, second below", {{1, 3, 3, 1}, {1, 1, 1, 1}, {1, 3, 0, 1}}, "refused 39 at 192"},
    {"fourth repeats second, third below", {{1, 0, 0, 1}, {1, 2, 2, 1}, {1, 1, 1, 1}, {1, 5, 2, 1}}, "refused 39 at 207"},
    {"fourth repeats third, second below", {{1, 1, 1, 1}, {1, 0, 0, 1}, {1, 2, 2, 1}, {1, 2, 3, 1}}, "refused 39 at 207"},
    /* Reserved flags are checked on disabled ones too. */
    {"enabled (0, 0), then (0, 0) with flags 2", {{1, 0, 0, 1}, {1, 0, 0, 2}}, "refused 35 at 177"},
    {"(0, 0) with flags 2, then enabled (0, 0)", {{1, 0, 0, 2}, {1, 0, 0, 1}}, "refused 35 at 162"},
    {"enabled (0, 0), then (5, 5) with the highest flag", {{1, 0, 0, 1}, {1, 5, 5, UINT32_C(1) << 31}}, "refused 35 at 177"},
    {"two enabled (0, 0), then (0, 0) with flags 2", {{2, 0, 0, 1}, {1, 0, 0, 2}}, "refused 35 at 192"},
    {"255 disabled, enabled, then flags 2", {{255, 5, 5, 0}, {1, 0, 0, 1}, {1, 5, 5, 2}}, "refused 35 at 4002"},
    /* 38 counts them, and 40 does not. */
    {"256 disabled, enabled", {{256, 5, 5, 0}, {1, 0, 0, 1}}, "refused 38 at 4002"},
    {"enabled, 256 disabled", {{1, 0, 0, 1}, {256, 5, 5, 0}}, "refused 38 at 4002"},
    {"two enabled (0, 0), 255 disabled", {{2, 0, 0, 1}, {255, 5, 5, 0}}, "refused 38 at 4002"},
    {"257 disabled", {{257, 5, 5, 0}}, "refused 38 at 4002"},
    {"256 disabled", {{256, 5, 5, 0}}, "refused 40 at 118"},
    {"three disabled (0, 0)", {{3, 0, 0, 0}}, "refused 40 at 118"},
};

enum { CORE_EXAMPLES = sizeof core_examples / sizeof core_examples[0] };

/* As refused_example(). */
static struct revised core_example(const char *boards, size_t number, uint8_t revision)
{
    static struct capture capture;
    const struct core_example *example = &core_examples[number];

    load_board_a(boards, revision, &capture);
    replace_equal_cores(&capture, example->cores);
    make_sums_good(&capture);
    return (struct revised){example->what, example->printed, revision, &capture};
}

/* ---- Board A with 256 CORE ---- */

enum { LAST_CORE = CORES_MAX - 1 };

enum direction { RISING, FALLING };

/*
 * Board A with 256 CORE in place of its own, the most that there may be. Their UIDs and physical IDs are 0 to 255, and rise or
 * fall. Then the last CORE, which is at 3987, gets the UID of one CORE and the physical ID of one; of itself, if it keeps it.
 */
struct full_example {
    const char *what;
    enum direction uids, physical_ids;
    size_t uid_of, physical_id_of;
    bool every_other_spare; /* the second, the fourth and so on are disabled and have the first one's IDs */
    const char *printed;    /* NULL: it is accepted */
};

static const struct full_example full_examples[] = {
    /* A repeat in the very last pair that is compared, or of the CORE that is farthest away. */
    {"256 falling, the last two of a UID", FALLING, FALLING, LAST_CORE - 1, LAST_CORE, .printed = "refused 39 at 3987"},
    {"256 falling, the last two of a physical ID", FALLING, FALLING, LAST_CORE, LAST_CORE - 1, .printed = "refused 39 at 3987"},
    {"256 falling, first and last of a UID", FALLING, FALLING, 0, LAST_CORE, .printed = "refused 39 at 3987"},
    {"256 falling, first and last of a physical ID", FALLING, FALLING, LAST_CORE, 0, .printed = "refused 39 at 3987"},
    {"256 rising, the last two of a UID", RISING, RISING, LAST_CORE - 1, LAST_CORE, .printed = "refused 39 at 3987"},
    {"256 rising, the last two of a physical ID", RISING, RISING, LAST_CORE, LAST_CORE - 1, .printed = "refused 39 at 3987"},
    {"256 rising, first and last of a UID", RISING, RISING, 0, LAST_CORE, .printed = "refused 39 at 3987"},
    {"256 rising, first and last of a physical ID", RISING, RISING, LAST_CORE, 0, .printed = "refused 39 at 3987"},
    {"256, UIDs fall, first and last of a physical ID", FALLING, RISING, LAST_CORE, 0, .printed = "refused 39 at 3987"},
    {"256, UIDs rise, first and last of a UID", RISING, FALLING, 0, LAST_CORE, .printed = "refused 39 at 3987"},
    /* The UID of one, and the physical ID of another. */
    {"256 falling, last: first UID, physical ID before", FALLING, FALLING, 0, LAST_CORE - 1, .printed = "refused 39 at 3987"},
    {"256 falling, last: UID before, first physical ID", FALLING, FALLING, LAST_CORE - 1, 0, .printed = "refused 39 at 3987"},
    /* None. A UID may be the physical ID of another, and those of disabled ones mean nothing. */
    {"256 falling", FALLING, FALLING, LAST_CORE, LAST_CORE, .printed = NULL},
    {"256, UIDs fall, physical IDs rise", FALLING, RISING, LAST_CORE, LAST_CORE, .printed = NULL},
    {"128 rising, among 128 disabled of the first IDs", RISING, RISING, LAST_CORE, LAST_CORE, .every_other_spare = true},
    {"128 falling, among 128 disabled of the first IDs", FALLING, FALLING, LAST_CORE, LAST_CORE, .every_other_spare = true},
};

enum { FULL_EXAMPLES = sizeof full_examples / sizeof full_examples[0] };

static void write_full_cores(const struct full_example *example, struct written_core cores[CORES_MAX])
{
    for (uint32_t i = 0; i < CORES_MAX; i++) {
        uint32_t uid = example->uids == FALLING ? LAST_CORE - i : i;
        uint32_t physical_id = example->physical_ids == FALLING ? LAST_CORE - i : i;

        cores[i] = (struct written_core){uid, physical_id, 1};
        if (example->every_other_spare && i % 2 == 1)
            cores[i] = (struct written_core){cores[0].uid, cores[0].physical_id, 0};
    }
    cores[LAST_CORE].uid = cores[example->uid_of].uid;
    cores[LAST_CORE].physical_id = cores[example->physical_id_of].physical_id;
}

/* What is printed if they are accepted: the enabled ones in table order. */
static void print_full(const struct written_core cores[CORES_MAX], char printed[PRINTED_ROOM])
{
    int length = snprintf(printed, PRINTED_ROOM, A_PRINTED_FIRST);

    for (size_t i = 0; i < CORES_MAX; i++)
        if (cores[i].flags == 1)
            length += snprintf(printed + length, PRINTED_ROOM - (size_t)length, "core %" PRIu32 " %" PRIu32 "\n", cores[i].uid,
                               cores[i].physical_id);
    snprintf(printed + length, PRINTED_ROOM - (size_t)length, A_PRINTED_LAST);
}

/* As refused_example(). */
static struct revised full_example(const char *boards, size_t number, uint8_t revision)
{
    static struct capture capture;
    static char accepted[PRINTED_ROOM];
    const struct full_example *example = &full_examples[number];
    struct written_core cores[CORES_MAX];

    write_full_cores(example, cores);
    print_full(cores, accepted);
    load_board_a(boards, revision, &capture);
    replace_cores(&capture, cores, CORES_MAX);
    make_sums_good(&capture);
    return (struct revised){example->what, example->printed == NULL ? accepted : example->printed, revision, &capture};
}

/* ---- Board A in several segments ---- */

/*
 * Board A's memory, cut at places of board A into segments. Each starts at the end of the one before it, except that memory
 * may have a gap at one of the cuts: what lies behind it lies so much further on, and is named by its new address.
 */
struct cut_example {
    const char *what;
    size_t first, cuts, step; /* the first cut, how many there are, and how far each is from the one before */
    size_t gap_at;
    uint64_t gap;
    uint64_t below_2_64; /* not 0: the memory starts so many bytes below 2^64, and not where board A's does */
    bool exchanged;      /* of two segments, the one with the RSDP comes second in the capture */
    const char *printed;
};

/*
 * Each cut adds a descriptor, which moves board A's places by 12. With one cut the RSDP is at 42, its field for the XSDT at
 * 66, the XSDT at 78, its entries for MADT and FADT at 114 and 122, the MADT at 130 and the FADT at 306; with fifteen cuts
 * these are 210, 234, 246, 282, 290, 298 and 474.
 */
static const struct cut_example cut_examples[] = {
    /* W-206: segments that touch. */
    {"RSDP cut at 20", A_RSDP + 20, 1, .printed = A_PRINTED},
    {"XSDT cut inside its header", A_XSDT + 5, 1, .printed = A_PRINTED},
    {"XSDT cut inside its second entry", A_XSDT + 48, 1, .printed = A_PRINTED},
    {"MADT cut inside its header", A_MADT + 6, 1, .printed = A_PRINTED},
    {"MADT cut at its header's end", A_MADT + 36, 1, .printed = A_PRINTED},
    {"LIO cut inside its mask", A_LIO + 17, 1, .printed = A_PRINTED},
    {"MADT cut at the LIO's end", A_EIO, 1, .printed = A_PRINTED},
    {"FADT cut inside SCI_INT", A_FADT + 47, 1, .printed = A_PRINTED},
    {"sixteen segments", A_RSDP + 32, 15, 32, .printed = A_PRINTED},
    {"15 bytes of the RSDP, each a segment", A_RSDP + 1, 15, 1, .printed = A_PRINTED},
    {"14 bytes of the MADT's header, each a segment", A_MADT, 15, 1, .printed = A_PRINTED},
    {"14 bytes of the LIO, each a segment", A_LIO + 3, 15, 1, .printed = A_PRINTED},
    /* A byte is missing between the two: inside a table, or between tables. */
    {"gap at 1 of the RSDP", A_RSDP + 1, 1, 0, A_RSDP + 1, 1, .printed = "refused 10 at 10"},
    {"gap at 20 of the RSDP", A_RSDP + 20, 1, 0, A_RSDP + 20, 1, .printed = "refused 10 at 10"},
    {"gap at 35 of the RSDP", A_RSDP + 35, 1, 0, A_RSDP + 35, 1, .printed = "refused 10 at 10"},
    {"gap between RSDP and XSDT", A_XSDT, 1, 0, A_XSDT, 1, .printed = A_PRINTED},
    {"gap at 35 of the XSDT", A_XSDT + 35, 1, 0, A_XSDT + 35, 1, .printed = "refused 20 at 66"},
    {"gap at 36 of the XSDT", A_XSDT + 36, 1, 0, A_XSDT + 36, 1, .printed = "refused 21 at 78"},
    {"gap inside the XSDT's second entry", A_XSDT + 48, 1, 0, A_XSDT + 48, 1, .printed = "refused 21 at 78"},
    {"gap between XSDT and MADT", A_MADT, 1, 0, A_MADT, 1, .printed = A_PRINTED},
    {"gap at 6 of the MADT", A_MADT + 6, 1, 0, A_MADT + 6, 1, .printed = "refused 20 at 114"},
    {"gap at 35 of the MADT", A_MADT + 35, 1, 0, A_MADT + 35, 1, .printed = "refused 20 at 114"},
    {"gap at 36 of the MADT", A_MADT + 36, 1, 0, A_MADT + 36, 1, .printed = "refused 21 at 130"},
    {"gap inside the LIO's mask", A_LIO + 17, 1, 0, A_LIO + 17, 1, .printed = "refused 21 at 130"},
    {"gap at the LIO's end", A_EIO, 1, 0, A_EIO, 1, .printed = "refused 21 at 130"},
    {"gap before the MADT's last byte", A_FADT - 1, 1, 0, A_FADT - 1, 1, .printed = "refused 21 at 130"},
    {"gap between MADT and FADT", A_FADT, 1, 0, A_FADT, 1, .printed = A_PRINTED},
    {"gap at 1 of the FADT", A_FADT + 1, 1, 0, A_FADT + 1, 1, .printed = "refused 20 at 122"},
    {"gap inside SCI_INT", A_FADT + 47, 1, 0, A_FADT + 47, 1, .printed = "refused 21 at 306"},
    {"gap before the FADT's last byte", A_LENGTH - 1, 1, 0, A_LENGTH - 1, 1, .printed = "refused 21 at 306"},
    /* A byte is missing at one of fifteen cuts. */
    {"sixteen segments, gap at 32 of the RSDP", A_RSDP + 32, 15, 32, A_RSDP + 32, 1, .printed = "refused 10 at 10"},
    {"sixteen segments, gap at 28 of the XSDT", A_RSDP + 32, 15, 32, A_XSDT + 28, 1, .printed = "refused 20 at 234"},
    {"sixteen segments, gap at 8 of the MADT", A_RSDP + 32, 15, 32, A_MADT + 8, 1, .printed = "refused 20 at 282"},
    {"sixteen segments, gap at 40 of the MADT", A_RSDP + 32, 15, 32, A_MADT + 40, 1, .printed = "refused 21 at 298"},
    {"sixteen segments, gap at 168 of the MADT", A_RSDP + 32, 15, 32, A_MADT + 168, 1, .printed = "refused 21 at 298"},
    {"sixteen segments, gap at 24 of the FADT", A_RSDP + 32, 15, 32, A_FADT + 24, 1, .printed = "refused 20 at 290"},
    {"sixteen segments, gap at 216 of the FADT", A_RSDP + 32, 15, 32, A_FADT + 216, 1, .printed = "refused 21 at 474"},
    /* The addresses agree in their low 32 bits. */
    {"gap of 2^32 in the RSDP", A_RSDP + 20, 1, 0, A_RSDP + 20, UINT64_C(1) << 32, .printed = "refused 10 at 10"},
    {"gap of 2^32 in the MADT's header", A_MADT + 6, 1, 0, A_MADT + 6, UINT64_C(1) << 32, .printed = "refused 20 at 114"},
    {"gap of 2^32 in the LIO", A_LIO + 17, 1, 0, A_LIO + 17, UINT64_C(1) << 32, .printed = "refused 21 at 130"},
    /*
     * Up to 2^64. Address 0 does not follow: a segment there stands first in the capture, or breaks rule 6. The RSDP then
     * stands behind it: at 42 + 414 with the MADT cut at 6, which puts its entry at 528, and at 42 + 314 with the MADT cut
     * at 106, which puts the MADT at 444.
     */
    {"up to 2^64", A_FADT + 200, 1, .below_2_64 = A_MEMORY, .printed = A_PRINTED},
    {"sixteen segments up to 2^64", A_RSDP + 32, 15, 32, .below_2_64 = A_MEMORY, .printed = A_PRINTED},
    {"up to 2^64, gap in the FADT", A_FADT + 200, 1, 0, A_FADT + 200, 1, A_MEMORY + 1, .printed = "refused 21 at 306"},
    {"RSDP from 2^64 - 20 on, its rest at 0", A_RSDP + 20, 1, .below_2_64 = 20, .printed = "refused 6 at 30"},
    {"RSDP from 2^64 - 20 on, its rest at 0 and first", A_RSDP + 20, 1, .below_2_64 = 20, .exchanged = true,
     .printed = "refused 10 at 10"},
    {"MADT from 2^64 - 6 on, its rest at 0 and first", A_MADT + 6, 1, .below_2_64 = 94, .exchanged = true,
     .printed = "refused 20 at 528"},
    {"MADT from 2^64 - 106 on, its rest at 0 and first", A_MADT + 106, 1, .below_2_64 = 194, .exchanged = true,
     .printed = "refused 21 at 444"},
    /* Segments whose addresses touch, in the other order. */
    {"MADT cut, its end first", A_MADT + 106, 1, .exchanged = true, .printed = "refused 6 at 30"},
};

enum { CUT_EXAMPLES = sizeof cut_examples / sizeof cut_examples[0] };

/* The place of board A at which a segment of the example starts, or the end of all. */
static size_t start_of_segment(const struct cut_example *example, size_t number)
{
    if (number == 0)
        return A_RSDP;
    return number > example->cuts ? A_LENGTH : example->first + (number - 1) * example->step;
}

/* The address that the example gives to what stands at a place of board A. */
static uint64_t address_in_example(const struct cut_example *example, size_t place)
{
    uint64_t first = example->below_2_64 != 0 ? 0 - example->below_2_64 : A_ADDRESS;

    return first + (place - A_RSDP) + (place >= example->gap_at ? example->gap : 0);
}

static void exchange_two_segments(struct capture *capture)
{
    uint8_t *memory = capture->bytes + capture->descriptors + 2 * DESCRIPTOR_LENGTH;
    uint64_t address = segment_address(capture, 0);
    uint32_t length = segment_length(capture, 0);
    uint8_t bytes[A_LENGTH];

    memcpy(bytes, memory, length);
    memmove(memory, memory + length, segment_length(capture, 1));
    memcpy(memory + segment_length(capture, 1), bytes, length);
    set_segment_address(capture, 0, segment_address(capture, 1));
    set_segment_length(capture, 0, segment_length(capture, 1));
    set_segment_address(capture, 1, address);
    set_segment_length(capture, 1, length);
}

static void make_cut(const char *boards, const struct cut_example *example, uint8_t revision, struct capture *capture)
{
    size_t more = DESCRIPTOR_LENGTH * example->cuts;

    load_board_a(boards, revision, capture);
    memmove(capture->bytes + A_RSDP + more, capture->bytes + A_RSDP, A_LENGTH - A_RSDP);
    for (size_t table = 0; table < capture->tables; table++)
        capture->place[table] += more;
    capture->length += more;
    set_total(capture, capture->length);
    capture->segments = example->cuts + 1;
    capture->bytes[5] = (uint8_t)capture->segments;
    for (size_t i = 0; i < capture->segments; i++) {
        size_t start = start_of_segment(example, i);

        set_segment_address(capture, i, address_in_example(example, start));
        set_segment_length(capture, i, (uint32_t)(start_of_segment(example, i + 1) - start));
    }
    put_u64(capture->bytes + 10, address_in_example(example, A_RSDP));
    put_u64(capture->bytes + capture->place[RSDP] + 24, address_in_example(example, A_XSDT));
    put_u64(capture->bytes + capture->place[XSDT] + TABLE_HEADER, address_in_example(example, A_MADT));
    put_u64(capture->bytes + capture->place[XSDT] + TABLE_HEADER + 8, address_in_example(example, A_FADT));
    make_sums_good(capture);
    if (example->exchanged)
        exchange_two_segments(capture);
}

/* As refused_example(). */
static struct revised cut_example(const char *boards, size_t number, uint8_t revision)
{
    static struct capture capture;
    const struct cut_example *example = &cut_examples[number];

    make_cut(boards, example, revision, &capture);
    return (struct revised){example->what, example->printed, revision, &capture};
}

/* ---- Board A as version 2, with other bridges, and with an HT ---- */

/* Those of pins.c, behind them those of bridges.c, and behind these those of ht.c. */
static struct made_example make_variant_example(const char *boards, size_t number, uint8_t revision, struct capture *capture)
{
    size_t pins = count_pin_examples(), bridges = count_bridge_examples();

    if (number < pins)
        return make_pin_example(boards, number, revision, capture);
    if (number < pins + bridges)
        return make_bridge_example(boards, number - pins, revision, capture);
    return make_ht_example(boards, number - pins - bridges, revision, capture);
}

/* As refused_example(). */
static struct revised variant_example(const char *boards, size_t number, uint8_t revision)
{
    static struct capture capture;
    struct made_example example = make_variant_example(boards, number, revision, &capture);

    return (struct revised){example.what, example.printed, revision, &capture};
}

/* ---- All of these, with each of the revisions ---- */

enum { OWN_EXAMPLES = REFUSED_EXAMPLES + CORE_EXAMPLES + FULL_EXAMPLES + CUT_EXAMPLES };

static size_t count_revised_examples(void)
{
    return OWN_EXAMPLES + count_pin_examples() + count_bridge_examples() + count_ht_examples();
}

static struct revised revised_example(const char *boards, size_t number, uint8_t revision)
{
    if (number >= OWN_EXAMPLES)
        return variant_example(boards, number - OWN_EXAMPLES, revision);
    if (number < REFUSED_EXAMPLES)
        return refused_example(boards, number, revision);
    number -= REFUSED_EXAMPLES;
    if (number < CORE_EXAMPLES)
        return core_example(boards, number, revision);
    number -= CORE_EXAMPLES;
    return number < FULL_EXAMPLES ? full_example(boards, number, revision)
                                  : cut_example(boards, number - FULL_EXAMPLES, revision);
}

static void ask_revised_examples(struct tally *tally, const struct reader *reader, const char *boards)
{
    for (size_t i = 0; i < count_revised_examples(); i++)
        for (size_t j = 0; j < REVISIONS; j++) {
            struct revised revised = revised_example(boards, i, revisions[j]);

            ask_revised(tally, reader, &revised);
        }
}

static void ask_vectors_revised_examples(const char *boards)
{
    for (size_t i = 0; i < count_revised_examples(); i++)
        for (size_t j = 0; j < REVISIONS; j++) {
            struct revised revised = revised_example(boards, i, revisions[j]);

            ask_vectors_revised(&revised);
        }
}

/* ---- The captures of boards/real ---- */

enum { FOLDER_ROOM = 4096, NAME_ROOM = 256 };

/* One of them: NAME.cap, and what ./map prints for it, NAME.txt. */
struct real {
    char name[NAME_ROOM];
    size_t length;
    uint8_t capture[CAPTURE_ROOM];
    char printed[16384];
};

static DIR *open_real_captures(const char *boards, char folder[FOLDER_ROOM])
{
    snprintf(folder, FOLDER_ROOM, "%s/real", boards);

    DIR *names = opendir(folder);

    if (names == NULL) {
        perror(folder);
        exit(2);
    }
    return names;
}

static void load_real_capture(const char *folder, struct real *real)
{
    char path[FOLDER_ROOM + NAME_ROOM + 8];

    snprintf(path, sizeof path, "%s/%s.cap", folder, real->name);
    real->length = load_file(path, real->capture, sizeof real->capture);
    snprintf(path, sizeof path, "%s/%s.txt", folder, real->name);
    real->printed[load_file(path, (uint8_t *)real->printed, sizeof real->printed - 1)] = '\0';
}

/* Loads the next one; gives whether there was one. */
static bool next_real_capture(DIR *names, const char *folder, struct real *real)
{
    static const char ending[] = ".cap";

    for (struct dirent *entry = readdir(names); entry != NULL; entry = readdir(names)) {
        char *dot = strrchr(entry->d_name, '.');

        if (dot == NULL || strcmp(dot, ending) != 0)
            continue;
        *dot = '\0';
        snprintf(real->name, sizeof real->name, "%s", entry->d_name);
        load_real_capture(folder, real);
        return true;
    }
    return false;
}

/* ./map is the strict reading. Of a capture that it refuses with 29, its text does not say what the ordinary one prints. */
static bool text_is_of(enum reading reading, char *printed)
{
    return reading == STRICT || take_refusal(printed).number != MADT_REVISION;
}

static void ask_real_captures(struct tally *tally, const struct reader *reader, const char *boards)
{
    static struct real real;
    char folder[FOLDER_ROOM];
    DIR *names = open_real_captures(boards, folder);

    while (next_real_capture(names, folder, &real))
        if (text_is_of(reading_of(reader), real.printed))
            expect_printed(&(struct talk){tally, reader, real.name, real.capture, real.length}, real.printed);
    closedir(names);
}

static void ask_vectors_real_captures(const char *boards)
{
    static struct real real;
    char folder[FOLDER_ROOM], answer[ANSWER_ROOM];
    DIR *names = open_real_captures(boards, folder);

    while (next_real_capture(names, folder, &real)) {
        bool of_ordinary = text_is_of(ORDINARY, real.printed);

        print_processors(real.printed, answer);
        if (of_ordinary)
            write_question(real.name, &(struct query){ORDINARY, READ, LONG_LIST, 0, real.capture, real.length}, answer);
        write_question(real.name, &(struct query){STRICT, READ, LONG_LIST, 0, real.capture, real.length}, answer);
    }
    closedir(names);
}

/* ---- All of it ---- */

/* The maps of this file are board A's but for the processors, which the entries for C give too. */
void save_examples_for_map(const char *boards, const char *folder)
{
    char name[64];

    for (size_t i = 0; i < count_revised_examples(); i++) {
        struct revised revised = revised_example(boards, i, 1);

        if (is_map(revised.printed) && i < OWN_EXAMPLES)
            continue;
        snprintf(name, sizeof name, "example-%zu", i + 1);
        save_for_map(folder, name, revised.capture->bytes, revised.capture->length, revised.printed);
    }
    save_reading_examples_for_map(boards, folder);
}

void ask_vectors_examples(const char *boards)
{
    ask_vectors_revised_examples(boards);
    ask_vectors_pin_answers(boards);
    ask_vectors_bridge_answers(boards);
    ask_vectors_ht_answers(boards);
    ask_vectors_reading_examples(boards);
    ask_vectors_list_examples(boards);
    ask_vectors_owner_examples(boards);
    ask_vectors_real_captures(boards);
}

struct tally ask_examples(const struct reader *reader, const char *boards)
{
    struct tally tally = {0, 0};

    ask_board_a(&tally, reader, boards);
    ask_neighbours(&tally, reader, boards);
    ask_revised_examples(&tally, reader, boards);
    ask_pin_answers(&tally, reader, boards);
    ask_bridge_answers(&tally, reader, boards);
    ask_ht_answers(&tally, reader, boards);
    ask_owner_examples(&tally, reader, boards);
    ask_reading_examples(&tally, reader, boards);
    ask_real_captures(&tally, reader, boards);
    return tally;
}
