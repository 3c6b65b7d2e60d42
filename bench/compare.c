/*
 * Compares Yasmirand with reference.c: both are asked the same questions about the same captures.
 *
 *     compare BOARDS DIFFERENCES PRINTED ASKED [SEED [COUNT]]
 *
 * First the cases of documents 01 and 02 and the captures of the folder BOARDS. Then COUNT generated captures: boards that
 * keep all rules, boards broken on purpose in one or two ways, and noise; a third of them have version 2, a third an HT in place
 * of EIOs, and the MADTs of some a revision other than 1.
 * Of each, the result of `read`, every byte of the list lent to it, and the answers of `route` and `trace` to a sample of
 * questions are compared. A capture that the two sides tell differently is written to the folder DIFFERENCES.
 *
 * The second place of a refusal is in no result: Yasmirand only prints it. So some refused captures are written to the
 * folder PRINTED, each with the line that reference.c expects, and bench/run compares what ./map prints.
 *
 * All that is strict reading. Of Yasmirand's programs only `vectors` answers in the ordinary one (W-207), and it alone takes
 * lists of numbers (W-209) and tables of owners (W-211). So questions about some captures are written to the folder ASKED, with
 * the lines that reference.c expects, and bench/run compares what `vectors` prints.
 *
 * Captures and lists end where the memory ends that may be touched, so that a byte too far stops the program.
 */
#define _DEFAULT_SOURCE /* mmap and its flags */

#include <inttypes.h>
#include <signal.h>
#include <stdbool.h>
#include <stdio.h>
#include <stdlib.h>
#include <string.h>
#include <sys/mman.h>
#include <unistd.h>

#include "board.h"
#include "damage.h"
#include "examples.h"
#include "files.h"
#include "questions.h"
#include "random.h"
#include "readers.h"
#include "valid.h"

enum {
    DEFAULT_SEED = 1,
    DEFAULT_COUNT = 24000,
    LEAST_HITS = 20,        /* of every refusal, and in version 2 of every one that it can have */
    PRINTED_CLASHES = 60,   /* captures of each of 51, 52 and 53 for ./map to print ... */
    PRINTED_REVISIONS = 20, /* ... of 29, which tells the strict reading from the ordinary one ... */
    PRINTED_OTHERS = 3,     /* ... and of every other refusal */
    DIFFERENCES_TOLD = 5,   /* then it ends */
    LIST_ROOM = 8 * CORES_MAX + 64,
    MARGIN = 64,            /* bytes before the list that must stay */
    SAMPLE = 6,             /* questions of each sort about an accepted capture */
    THOROUGH = 128,         /* one accepted capture in so many is asked much more */
};

/* The captures that `vectors` is asked about. */
enum {
    ASKED_ACCEPTED = 600,  /* that the ordinary reading accepts, with a MADT revision other than 1 ... */
    ASKED_REVISIONS = 200, /* ... that it refuses with 29 ... */
    ASKED_OTHERS = 32,     /* ... and with each other number */
    FEWER_OF_ONE = 4,      /* with revision 1 there are so many times fewer of each */
    ASKED_STRICTLY = 4,    /* one in so many is asked about in the strict reading too */
    ASKED_SAMPLE = 2,      /* questions of each sort about an accepted one */
    REFUSED_LISTS = 4,     /* all accepted ones are asked about with a list of numbers (W-209), and one refused one in so many */
    REFUSED_OWNERS = 8,    /* the same for owners (W-211) */
    OTHER_REFUSED = 4,     /* one other capture in so many, whose table is tried, is a refused one */
    WHOLE_TABLES = 16,     /* one list in so many to be looked up has all numbers of a table */
};

/* ---- One case: how a capture is made, and what is known of it beforehand ---- */

/* Of 100 captures, added up. */
enum {
    VALID = 25,
    BROKEN_ONCE = VALID + 31,
    BROKEN_TWICE = BROKEN_ONCE + 19,
    CHANGED = BROKEN_TWICE + 16,
    TRUNCATED = CHANGED + 5, /* and the rest are random bytes */
};

enum { OTHER_REVISION = 4 }; /* one capture in so many has a MADT revision other than 1, whatever else is done to it */

enum { UNKNOWN = -1, ACCEPTED = 0 };

struct test {
    uint64_t number;
    int expected[READINGS]; /* ACCEPTED, the refusal number that the capture was made for, or UNKNOWN */
    const char *what[2];
    struct board board;
    struct capture capture;
};

/* What the board breaks, other than by its MADT's revision, is this rule or none. */
static void expect(struct test *test, unsigned refusal)
{
    uint8_t revision = test->board.table[MADT].revision;

    for (enum reading reading = ORDINARY; reading <= STRICT; reading++)
        test->expected[reading] = (int)refusal_with_revision(refusal, revision, reading);
}

static void make_broken(struct random *random, struct test *test, size_t count)
{
    const struct way *ways[2];

    for (size_t i = 0; i < count; i++) {
        ways[i] = i > 0 && one_in(random, 2) ? pick_way_near(random, ways[0]->refusal) : pick_way(random);
        test->what[i] = ways[i]->what;
    }
    lay_out_broken(random, &test->board, &test->capture, ways, count);
    if (count == 1)
        expect(test, ways[0]->refusal == MADT_REVISION ? ACCEPTED : ways[0]->refusal);
}

static void make_changed(struct random *random, struct test *test)
{
    bool sums_good = one_in(random, 2);

    lay_out(&test->board, &test->capture);
    change_some_bytes(random, &test->capture);
    test->what[0] = "changed bytes";
    if (sums_good) {
        make_sums_good(&test->capture);
        test->what[1] = "sums made good";
    }
}

static void make_test(struct random *random, struct test *test)
{
    uint64_t sort = below(random, 100);

    test->expected[ORDINARY] = test->expected[STRICT] = UNKNOWN;
    test->what[0] = test->what[1] = "";
    make_valid_board(random, &test->board);
    if (one_in(random, OTHER_REVISION))
        test->board.table[MADT].revision = other_revision(random);
    if (sort < VALID) {
        expect(test, ACCEPTED);
        test->what[0] = "valid board";
        lay_out(&test->board, &test->capture);
    } else if (sort < BROKEN_ONCE) {
        make_broken(random, test, 1);
    } else if (sort < BROKEN_TWICE) {
        make_broken(random, test, 2);
    } else if (sort < CHANGED) {
        make_changed(random, test);
    } else if (sort < TRUNCATED) {
        test->what[0] = "truncated";
        lay_out(&test->board, &test->capture);
        truncate_capture(random, &test->capture);
    } else {
        test->what[0] = "random bytes";
        make_random_bytes(random, &test->capture);
    }
}

/* ---- Memory that ends at its last byte ---- */

/* Memory of at least `room` bytes; behind the address given, nothing may be touched. */
static uint8_t *end_of_memory(size_t room)
{
    size_t page = (size_t)sysconf(_SC_PAGESIZE);
    size_t pages = (room + page - 1) / page * page;
    uint8_t *memory = mmap(NULL, pages + page, PROT_READ | PROT_WRITE, MAP_PRIVATE | MAP_ANONYMOUS, -1, 0);

    if (memory == MAP_FAILED || mprotect(memory + pages, page, PROT_NONE) != 0) {
        perror("compare: memory");
        exit(2);
    }
    return memory + pages;
}

/* What a case is asked in: the capture, and a list for each side. */
static uint8_t *capture_end, *yasmirand_list_end, *reference_list_end;

/* Who is being asked about which case, for the message when memory out of bounds is touched. */
static const struct reader *volatile asked = &reference;
static char asked_case[64];

static void say(const char *words)
{
    if (write(STDOUT_FILENO, words, strlen(words)) < 0)
        _exit(2);
}

static void touched_out_of_bounds(int signal_number)
{
    (void)signal_number;
    say("compare: ");
    say(asked->name);
    say(asked_case);
    _exit(1);
}

static uint64_t ask_read(const struct reader *reader, const uint8_t *capture, size_t length, uint8_t *list, size_t list_length)
{
    asked = reader;
    return reader->read(capture, length, list, list_length);
}

static uint64_t ask_route(const struct reader *reader, const uint8_t *capture, size_t length, uint32_t number)
{
    asked = reader;
    return reader->route(capture, length, number);
}

static uint64_t ask_trace(const struct reader *reader, const uint8_t *capture, size_t length, uint32_t vector, uint32_t number)
{
    asked = reader;
    return reader->trace(capture, length, vector, number);
}

/* ---- Comparing ---- */

static const char *differences_folder;
static unsigned differences;

/* Says where two differ, keeps the capture, and ends the program when there are enough. */
static void tell_two(const struct test *test, const char *question, const char *one, const char *one_says, const char *other,
                     const char *other_says)
{
    char path[4096];

    printf("compare: case %" PRIu64 " (%s%s%s), %s:\n    %s: %s\n    %s: %s\n", test->number, test->what[0],
           test->what[1][0] == '\0' ? "" : ", ", test->what[1], question, one, one_says, other, other_says);
    snprintf(path, sizeof path, "%s/case-%" PRIu64 ".cap", differences_folder, test->number);
    save_file(path, test->capture.bytes, test->capture.length);
    printf("    capture: %s\n", path);
    fflush(stdout);
    if (++differences == DIFFERENCES_TOLD) {
        printf("compare: %u differences, and no further look\n", differences);
        exit(1);
    }
}

static void tell_difference(const struct test *test, const char *question, const char *yasmirand_says, const char *reference_says)
{
    tell_two(test, question, yasmirand.name, yasmirand_says, reference.name, reference_says);
}

static void compare_results(const struct test *test, const char *question, uint64_t by_yasmirand, uint64_t by_reference,
                            struct text (*tell)(uint64_t))
{
    if (by_yasmirand != by_reference)
        tell_difference(test, question, tell(by_yasmirand).words, tell(by_reference).words);
}

/* The bytes past the written part stay, and so do all if it is refused. */
static bool rest_stayed(uint64_t result, const uint8_t *list, const uint8_t *before, size_t length)
{
    size_t written = refusal_number(result) != 0 ? 0 : 8 * (size_t)result;

    return memcmp(list - MARGIN, before, MARGIN) == 0 &&
           (written >= length || memcmp(list + written, before + MARGIN + written, length - written) == 0);
}

static void compare_lists(const struct test *test, const char *question, const uint8_t *yasmirand_list,
                          const uint8_t *reference_list, size_t length)
{
    char yasmirand_says[64], reference_says[64];

    for (size_t i = 0; i < length; i++)
        if (yasmirand_list[i] != reference_list[i]) {
            snprintf(yasmirand_says, sizeof yasmirand_says, "byte %zu of the list is %u", i, yasmirand_list[i]);
            snprintf(reference_says, sizeof reference_says, "byte %zu of the list is %u", i, reference_list[i]);
            tell_difference(test, question, yasmirand_says, reference_says);
            return;
        }
}

static const char *const rest[] = {"changed the list where it had nothing to write", "left the rest of the list alone"};

/* `read` with a list of a given length, filled beforehand; gives the result of reference.c. */
static uint64_t compare_read(struct random *random, const struct test *test, const uint8_t *capture, size_t list_length)
{
    uint8_t before[MARGIN + LIST_ROOM];
    uint8_t *yasmirand_list = yasmirand_list_end - list_length, *reference_list = reference_list_end - list_length;
    char question[64];

    fill(any(random), before, MARGIN + list_length);
    memcpy(yasmirand_list - MARGIN, before, MARGIN + list_length);
    memcpy(reference_list - MARGIN, before, MARGIN + list_length);

    uint64_t by_yasmirand = ask_read(&yasmirand, capture, test->capture.length, yasmirand_list, list_length);
    uint64_t by_reference = ask_read(&reference, capture, test->capture.length, reference_list, list_length);
    bool yasmirand_good = rest_stayed(by_yasmirand, yasmirand_list, before, list_length);
    bool reference_good = rest_stayed(by_reference, reference_list, before, list_length);

    snprintf(question, sizeof question, "read with a list of %zu bytes", list_length);
    compare_results(test, question, by_yasmirand, by_reference, tell_read);
    compare_lists(test, question, yasmirand_list, reference_list, list_length);
    if (!yasmirand_good || !reference_good)
        tell_difference(test, question, rest[yasmirand_good], rest[reference_good]);
    return by_reference;
}

static uint64_t compare_route(const struct test *test, const uint8_t *capture, uint32_t number)
{
    uint64_t by_yasmirand = ask_route(&yasmirand, capture, test->capture.length, number);
    uint64_t by_reference = ask_route(&reference, capture, test->capture.length, number);
    char question[64];

    snprintf(question, sizeof question, "route %" PRIu32, number);
    compare_results(test, question, by_yasmirand, by_reference, tell_route);
    return by_reference;
}

static void compare_trace(const struct test *test, const uint8_t *capture, uint32_t vector, uint32_t number)
{
    uint64_t by_yasmirand = ask_trace(&yasmirand, capture, test->capture.length, vector, number);
    uint64_t by_reference = ask_trace(&reference, capture, test->capture.length, vector, number);
    char question[64];

    snprintf(question, sizeof question, "trace (%" PRIu32 ", %" PRIu32 ")", vector, number);
    compare_results(test, question, by_yasmirand, by_reference, tell_trace);
}

/* ---- Second places ---- */

static const char *printed_folder;
static unsigned printed[NUMBERS]; /* captures written there, by refusal number */

static bool is_clash(unsigned refusal)
{
    return refusal >= 51 && refusal <= 53;
}

static unsigned printed_at_most(unsigned refusal)
{
    if (is_clash(refusal))
        return PRINTED_CLASHES;
    return refusal == MADT_REVISION ? PRINTED_REVISIONS : PRINTED_OTHERS;
}

/*
 * reference.c tells a refusal in full as well. Number and place are those that `read` gave with a list long enough; the
 * second place is before the place if it is a clash, and 0 if not.
 */
static struct reference_refusal check_judgement(const struct test *test, const uint8_t *capture, uint64_t result,
                                                enum reading reading)
{
    asked = reference_in(reading);

    struct reference_refusal judged = judge(capture, test->capture.length, reading);
    uint64_t expected = refusal_number(result) == 0 ? 0 : result;
    bool partner_before = judged.second != 0 && judged.second < judged.place;
    bool second_good = is_clash((unsigned)judged.number) ? partner_before : judged.second == 0;

    if (refused(judged.number, judged.place) != expected || !second_good)
        tell_two(test, "the refusal in full", asked->name, tell_read(result).words, "in full", tell_refusal(judged).words);
    return judged;
}

/* Writes a refused capture for ./map to print, unless there are enough of its number. */
static void keep_for_map(const struct test *test, struct reference_refusal refusal)
{
    char name[64];

    if (printed[refusal.number] == printed_at_most((unsigned)refusal.number))
        return;
    printed[refusal.number]++;
    snprintf(name, sizeof name, "case-%" PRIu64, test->number);
    save_for_map(printed_folder, name, test->capture.bytes, test->capture.length, tell_refusal(refusal).words);
}

/* ---- What is asked ---- */

/* A number at or next to `first`, or the end of what starts there. */
static uint32_t near_edge(struct random *random, uint32_t first, uint32_t count)
{
    uint32_t edge = one_in(random, 2) ? first : first + count - 1;

    return edge - 1 + (uint32_t)below(random, 3);
}

/* A global number near the first or the last of a bridge, or near what would be its last with 64 pins. */
static uint32_t number_near_bridge(struct random *random, const struct board *board, const uint8_t *bio)
{
    return near_edge(random, get_u16(bio + BIO_BASE), one_in(random, 3) ? PINS : pins_of_bio(board, bio));
}

/* The LPC's cascade; 0 if there is no LPC. */
static uint32_t pin_of_lpc(const struct board *board)
{
    const uint8_t *lpc = first_of_kind(board, LPC);

    return lpc == NULL ? 0 : get_u16(lpc + LPC_CASCADE);
}

/* W-201: the global number of a LIO input that the HT names, or of one next to it, or of a pin whose vector begins or ends a group. */
static uint32_t number_on_ht_board(struct random *random, const struct board *board, const uint8_t *bio)
{
    uint32_t input = some_input(random, named_inputs(board)), group_end = HT_GROUP - (uint32_t)below(random, 2);

    if (bio != NULL && one_in(random, 3))
        return get_u16(bio + BIO_BASE) + group_end;
    return near_edge(random, LIO_FIRST + input, 1);
}

/* A global number that tells readers apart. */
static uint32_t interesting_number(struct random *random, const struct board *board)
{
    const uint8_t *bio = some_bio(random, board);
    uint32_t low = (uint32_t)below(random, BASE_MIN); /* LPC, LIO and what lies between LIO and BIO */

    if (is_ht_board(board) && one_in(random, 3))
        return number_on_ht_board(random, board, bio);
    switch (below(random, 10)) {
    case 0:
        return (uint32_t)any(random);
    case 1:
        return UINT32_MAX - (uint32_t)below(random, 2);
    case 2: /* equal to an owned number in its low 8 or 16 bits */
        return low + (one_in(random, 2) ? 256 : 65536);
    case 3: case 4: case 5:
        return bio == NULL ? low : number_near_bridge(random, board, bio);
    case 6: /* a line of the LPC */
        return low % LIO_FIRST;
    case 7: /* the pin of the LPC's number, of any bridge: it is the LPC's on one of them (W-208) */
        return bio == NULL ? low : get_u16(bio + BIO_BASE) + pin_of_lpc(board);
    default:
        return low;
    }
}

/* What `trace` is asked. */
struct arrival {
    uint32_t vector, number;
};

/* Where the answer of `route` says that a number arrives. */
static struct arrival arrival_of(uint64_t answer)
{
    return (struct arrival){(uint32_t)(answer >> 32), (uint32_t)answer};
}

/* The core vector that a half of the LIO enters; 0 if there is no LIO. */
static uint8_t cascade_of_half(const struct board *board, size_t half)
{
    const uint8_t *lio = first_of_kind(board, LIO);

    return lio == NULL ? 0 : lio[LIO_CASCADES + half];
}

/* The half that a LIO input is wired to; the low one, if it is to none. */
static size_t half_of_input(const struct board *board, uint32_t input)
{
    const uint8_t *lio = first_of_kind(board, LIO);

    return lio != NULL && input < LIO_INPUTS && get_u32(lio + LIO_MASKS + 4) >> input & 1;
}

/* W-201: where a vector of the HT arrives, if it is a vector. */
static struct arrival arrival_from_ht(const struct board *board, uint32_t vector)
{
    uint8_t input = first_of_kind(board, HT)[HT_BYTES + vector / HT_GROUP % HT_GROUPS];

    return (struct arrival){cascade_of_half(board, half_of_input(board, input)), HT_FIRST + vector};
}

/* One with a number, at the vector of a bridge's EIO if there is one, or from the HT. */
static struct arrival arrival_at_bridge(const struct board *board, const uint8_t *bio, uint32_t number)
{
    struct arrival arrival = {CASCADE_MIN, number};

    if (is_ht_board(board))
        return arrival_from_ht(board, number);
    for (size_t i = 0; i < board->structures; i++) {
        const uint8_t *bytes = board->structure[i].bytes;

        if (bytes[0] == EIO && bytes[EIO_NODE] == get_u16(bio + BIO_HARDWARE_ID))
            arrival.vector = bytes[EIO_CASCADE];
    }
    return arrival;
}

/* A vector of the HT: any, one that begins or ends a group, or one at an end of an MSI's slots. */
static uint32_t vector_of_ht(struct random *random, const struct board *board)
{
    const uint8_t *msi = first_of_kind(board, MSI);
    uint32_t next_group = HT_GROUP * (uint32_t)between(random, 1, HT_GROUPS); /* up to one vector more than there are */

    switch (below(random, 3)) {
    case 0:
        return (uint32_t)below(random, SLOTS);
    case 1:
        return msi == NULL ? 0 : near_edge(random, get_u32(msi + MSI_START), get_u32(msi + MSI_COUNT));
    default:
        return next_group - (uint32_t)below(random, 2);
    }
}

/* W-201: one that tells readers of an HT board apart. */
static struct arrival arrival_on_ht_board(struct random *random, const struct board *board)
{
    struct arrival arrival = arrival_from_ht(board, vector_of_ht(random, board));
    uint8_t input = some_input(random, named_inputs(board));

    switch (below(random, 6)) {
    case 0: /* at the vector of a half, which may be the other one */
        arrival.vector = cascade_of_half(board, below(random, 2));
        break;
    case 1: /* with the number that the vector has on an EIO */
        arrival.number -= HT_FIRST;
        break;
    case 2: /* an input that the HT names */
        return (struct arrival){cascade_of_half(board, half_of_input(board, input)), input};
    default:
        break;
    }
    return arrival;
}

/* One that tells readers apart. */
static struct arrival interesting_arrival(struct random *random, const struct board *board)
{
    static const uint32_t edges[] = {0, 31, 32, 63, 64, 255, 256, 511, 512};
    const uint8_t *bio = some_bio(random, board);
    uint32_t vector = (uint32_t)between(random, CASCADE_MIN - 1, CASCADE_MAX + 1);
    uint32_t number = (uint32_t)below(random, SLOTS);

    if (is_ht_board(board) && !one_in(random, 3))
        return arrival_on_ht_board(random, board);
    for (size_t i = 0; i < board->structures; i++)
        if (board->structure[i].bytes[0] == EIO && one_in(random, 2))
            vector = board->structure[i].bytes[EIO_CASCADE];
    switch (below(random, 10)) {
    case 0:
        number = edges[below(random, sizeof edges / sizeof edges[0])];
        break;
    case 1: /* equal to a vector in its low byte */
        vector += 256;
        break;
    case 2:
        number += one_in(random, 2) ? 256 : 65536;
        break;
    case 3:
        vector = one_in(random, 2) ? vector : (uint32_t)any(random);
        number = one_in(random, 2) ? UINT32_MAX : (uint32_t)any(random);
        break;
    case 4: case 5: /* near the last pin of a bridge */
        if (bio != NULL)
            return arrival_at_bridge(board, bio, near_edge(random, 0, pins_of_bio(board, bio)));
        break;
    case 6: case 7: /* on the pin of the LPC's number, of any bridge */
        if (bio != NULL)
            return arrival_at_bridge(board, bio, pin_of_lpc(board));
        break;
    default:
        break;
    }
    return (struct arrival){vector, number};
}

static void compare_random_trace(struct random *random, const struct test *test, const uint8_t *capture)
{
    struct arrival arrival = interesting_arrival(random, &test->board);

    compare_trace(test, capture, arrival.vector, arrival.number);
}

/* Each number is routed, and traced back from where it arrives. */
static void compare_way_and_back(const struct test *test, const uint8_t *capture, uint32_t number)
{
    uint64_t answer = compare_route(test, capture, number);
    struct arrival arrival = arrival_of(answer);

    if (refusal_number(answer) == 0)
        compare_trace(test, capture, arrival.vector, arrival.number);
}

static void compare_thoroughly(const struct test *test, const uint8_t *capture)
{
    for (uint32_t number = 0; number < BASE_MIN; number++)
        compare_way_and_back(test, capture, number);
    for (size_t i = 0; i < test->board.structures; i++) {
        const uint8_t *bytes = test->board.structure[i].bytes;

        if (bytes[0] == BIO)
            for (uint32_t pin = 0; pin < PINS + 2; pin++)
                compare_way_and_back(test, capture, get_u16(bytes + BIO_BASE) - 1 + pin);
        if (bytes[0] == EIO)
            for (uint32_t number = 0; number <= SLOTS; number++)
                compare_trace(test, capture, bytes[EIO_CASCADE], number);
        for (size_t half = 0; half < 2 && bytes[0] == LIO; half++)
            for (uint32_t number = 0; number <= HT_FIRST + SLOTS; number++)
                compare_trace(test, capture, bytes[LIO_CASCADES + half], number);
    }
}

static size_t random_list_length(struct random *random, size_t needed)
{
    switch (below(random, 10)) {
    case 0:
        return 0;
    case 1:
        return below(random, needed + 1);
    case 2:
        return needed == 0 ? 0 : needed - 1;
    case 3: case 4:
        return needed;
    case 5:
        return needed + between(random, 1, 7);
    case 6:
        return needed + between(random, 8, 64);
    default:
        return 8 * CORES_MAX;
    }
}

/* A capture was made to be accepted in a reading, or for a refusal, and it must be seen so. */
static void compare_with_intent(const struct test *test, uint64_t result, enum reading reading)
{
    int expected = test->expected[reading];
    char intent[64];

    if (expected == UNKNOWN || refusal_number(result) == (unsigned)expected)
        return;
    if (expected == ACCEPTED)
        snprintf(intent, sizeof intent, "to be accepted");
    else
        snprintf(intent, sizeof intent, "for refusal %d", expected);
    tell_two(test, "what it was made for", "made", intent, reference_in(reading)->name, tell_read(result).words);
}

/* ---- How often each refusal was given ---- */

/* By a reading, by refusal number. */
struct hits {
    unsigned all[NUMBERS];
    unsigned of_version_2[NUMBERS];
};

static bool is_version_2(const struct capture *capture)
{
    return capture->length >= HEADER_LENGTH && get_u16(capture->bytes + CAPTURE_VERSION) == WITH_PAIRS;
}

static void count_hit(struct hits *hits, const struct test *test, uint64_t result)
{
    hits->all[refusal_number(result)]++;
    if (is_version_2(&test->capture))
        hits->of_version_2[refusal_number(result)]++;
}

/* ---- The ordinary reading ---- */

/* `read` by reference.c alone, with a list of a given length, filled beforehand. */
static uint64_t read_ordinarily(struct random *random, const struct test *test, const uint8_t *capture, size_t list_length)
{
    uint8_t before[MARGIN + LIST_ROOM];
    uint8_t *list = reference_list_end - list_length;

    fill(any(random), before, MARGIN + list_length);
    memcpy(list - MARGIN, before, MARGIN + list_length);

    uint64_t result = ask_read(&ordinary_reference, capture, test->capture.length, list, list_length);

    if (!rest_stayed(result, list, before, list_length))
        tell_two(test, "read", ordinary_reference.name, rest[false], "must have", rest[true]);
    return result;
}

/*
 * W-207 itself, in the refusals that reference.c gives: the strict reading gives that of the ordinary one, unless the MADT's
 * revision is above 1 and no rule before 29 is broken; then it gives 29, and the ordinary one goes on to the rules behind.
 */
static void check_readings(const struct test *test, struct reference_refusal ordinary, struct reference_refusal strict)
{
    bool above_one = strict.number == MADT_REVISION && test->capture.bytes[strict.place + TABLE_REVISION] > 1;
    bool went_on = ordinary.number == ACCEPTED || ordinary.number > MADT_REVISION;
    bool equal = ordinary.number == strict.number && ordinary.place == strict.place && ordinary.second == strict.second;

    if (above_one ? !went_on : !equal)
        tell_two(test, "the two readings", ordinary_reference.name, tell_refusal(ordinary).words, reference.name,
                 tell_refusal(strict).words);
}

/* Writes a question about a capture, with the answer of reference.c; gives its result. */
static uint64_t ask_vectors(const struct test *test, struct query about, enum question question, uint32_t first,
                            uint32_t second)
{
    static const char *const names[] = {[READ] = "read", [ROUTE] = "route", [TRACE] = "trace"};
    char label[64], answer[ANSWER_ROOM];
    int length = snprintf(label, sizeof label, "case %" PRIu64 " %s %" PRIu32, test->number, names[question], first);

    if (question == TRACE)
        snprintf(label + length, sizeof label - (size_t)length, " %" PRIu32, second);
    about.question = question;
    about.first = first;
    about.second = second;
    asked = reference_in(about.reading);

    uint64_t result = answer_query(asked, &about, answer);

    write_question(label, &about, answer);
    return result;
}

/* The questions about an accepted capture with so many processors. */
static void ask_vectors_more(struct random *random, const struct test *test, struct query about, uint64_t processors)
{
    size_t lent = random_list_length(random, 2 * (size_t)processors);

    ask_vectors(test, about, READ, lent > LENT_MAX ? LENT_MAX : (uint32_t)lent, 0);
    for (int i = 0; i < ASKED_SAMPLE; i++) {
        uint64_t answer = ask_vectors(test, about, ROUTE, interesting_number(random, &test->board), 0);
        struct arrival arrival = answer < unwired() ? arrival_of(answer) : interesting_arrival(random, &test->board);

        ask_vectors(test, about, TRACE, arrival.vector, arrival.number);
    }
}

/* A refused capture is asked about once more at times: with another list, or another way. */
static void ask_vectors_again(struct random *random, const struct test *test, struct query about)
{
    struct arrival arrival = interesting_arrival(random, &test->board);

    switch (below(random, 6)) {
    case 0:
        ask_vectors(test, about, READ, (uint32_t)below(random, LENT_MAX), 0);
        break;
    case 1:
        ask_vectors(test, about, ROUTE, interesting_number(random, &test->board), 0);
        break;
    case 2:
        ask_vectors(test, about, TRACE, arrival.vector, arrival.number);
        break;
    default:
        break;
    }
}

static const char *asked_folder;
static unsigned asked_lists[NUMBERS]; /* of both readings, by refusal number */

/* A number for a list that has so many: one of them again, the next after the last, an end, or one that tells readers apart. */
static uint32_t next_of_list(struct random *random, const struct board *board, const uint32_t *numbers, uint32_t count)
{
    static const uint32_t edges[] = {0, 15, 16, 47, 48, 63, 64, 65535, UINT32_MAX};
    uint64_t sort = below(random, 8);

    if (count > 0 && sort == 0)
        return numbers[below(random, count)];
    if (count > 0 && sort <= 2)
        return numbers[count - 1] + 1;
    return sort == 3 ? edges[below(random, sizeof edges / sizeof edges[0])] : interesting_number(random, board);
}

/* Makes a list, of numbers from 0 on or of mixed ones; gives how many there are. `vectors` must have room for the capture too. */
static uint32_t make_list(struct random *random, const struct test *test, uint32_t numbers[EACH_MAX])
{
    size_t room = (ASKED_BYTES_MAX - test->capture.length) / 4;
    bool from_0_on = one_in(random, 8), is_short = one_in(random, 2);
    size_t count = from_0_on ? EACH_MAX : below(random, is_short ? 8 : EACH_MAX + 1);

    if (count > room)
        count = room;
    for (uint32_t i = 0; i < count; i++)
        numbers[i] = from_0_on ? i : next_of_list(random, &test->board, numbers, i);
    return (uint32_t)count;
}

/* Keeps what a label has no room for. */
static void keep_beside_question(const struct test *test, enum reading reading, const char *ending, const void *bytes, size_t length)
{
    char path[4096];

    snprintf(path, sizeof path, "%s/case-%" PRIu64 "-%s.%s", asked_folder, test->number, name_of_reading(reading), ending);
    save_file(path, bytes, length);
}

/* Writes a question about a list of numbers, and keeps the list. */
static void ask_vectors_list(struct random *random, const struct test *test, struct query about)
{
    uint32_t numbers[EACH_MAX], count = make_list(random, test, numbers);
    size_t lent = random_list_length(random, 3 * count), answers = lent > ANSWERS_MAX ? ANSWERS_MAX : lent;
    struct list_query query = {about.reading, (uint32_t)answers, count, numbers, about.capture, about.length};
    char label[64], answer[ANSWER_ROOM];

    asked = reference_in(about.reading);
    asked_lists[answer_list_query(&query, answer)]++;
    snprintf(label, sizeof label, "case %" PRIu64 " routes of %" PRIu32 ", list of %zu", test->number, count, answers);
    write_list_question(label, &query, answer);
    keep_beside_question(test, about.reading, "numbers", numbers, 4 * count);
}

/* ---- Owners (W-211) ---- */

/* How often lookups are answered, by where the table is from, and how often they are refused, by number: questions. */
static struct {
    unsigned by_map, by_own_table, by_other_table;
    unsigned refused[NUMBERS];
} asked_owners;

/* The last captures before that were asked about, one that the ordinary reading accepts and one that it refuses. */
static struct kept {
    uint64_t number; /* of the case */
    size_t length;   /* 0: there was none */
    uint8_t bytes[CAPTURE_ROOM];
} last_accepted, last_refused;

static void keep_capture(const struct test *test, struct kept *kept)
{
    kept->number = test->number;
    kept->length = test->capture.length;
    memcpy(kept->bytes, test->capture.bytes, kept->length);
}

/* Makes a list of numbers to look up: all that a table has, or some, many of which are at its end or above it. It has one at least. */
static uint32_t make_looked_up(struct random *random, const struct board *board, uint32_t numbers[OWNERS])
{
    static const uint32_t edges[] = {OWNERS - 2, OWNERS - 1, OWNERS, OWNERS + 1, 255, 256, 65535, 65536, UINT32_C(1) << 31};
    bool is_whole = one_in(random, WHOLE_TABLES);
    uint32_t count = is_whole ? OWNERS : (uint32_t)between(random, 1, 16);

    for (uint32_t i = 0; i < count; i++)
        if (is_whole)
            numbers[i] = i;
        else if (one_in(random, 4))
            numbers[i] = edges[below(random, sizeof edges / sizeof edges[0])];
        else
            numbers[i] = next_of_list(random, board, numbers, i);
    return count;
}

/* Writes a question about owners, if `vectors` takes so many bytes. An answer is counted where the caller says. */
static void ask_vectors_owner(const struct test *test, const struct owner_query *query, const char *how, unsigned *answered)
{
    char label[64], answer[ANSWER_ROOM];

    if (query->count == 0 || !has_room_for_owner_question(query))
        return;
    asked = reference_in(query->reading);

    unsigned refusal = answer_owner_query(query, answer);

    ++*(refusal == 0 ? answered : &asked_owners.refused[refusal]);
    snprintf(label, sizeof label, "case %" PRIu64 " owners of %" PRIu32 ", %s", test->number, query->count, how);
    write_owner_question(label, query, answer);
}

/* A number is looked up with tables in which an entry is changed, one for each of the numbers that a table has. */
static void ask_vectors_changed(const struct test *test, struct owner_query query, uint32_t number)
{
    uint32_t entries[OWNERS], count = 0;
    char how[32];

    for (uint32_t i = 0; i < query.count; i++)
        if (query.numbers[i] < OWNERS)
            entries[count++] = query.numbers[i];
    query.question = CHANGED_ENTRIES;
    query.number = number;
    query.count = count;
    query.numbers = entries;
    snprintf(how, sizeof how, "changed, for %" PRIu32, number);
    ask_vectors_owner(test, &query, how, &asked_owners.by_other_table);
}

/* Numbers are looked up by the map alone, with its own table, with another capture's, and with changed ones. */
static void ask_vectors_owners(struct random *random, const struct test *test, struct query about)
{
    const struct kept *other = one_in(random, OTHER_REFUSED) ? &last_refused : &last_accepted;
    uint32_t numbers[OWNERS], count = make_looked_up(random, &test->board, numbers);
    struct bytes map = {about.capture, about.length};
    struct owner_query by_map = {about.reading, BY_MAP_ALONE, 0, count, numbers, {NULL, 0}, map};
    struct owner_query by_own = {about.reading, LOOK_UP, 0, count, numbers, map, map};
    struct owner_query by_other = {about.reading, LOOK_UP, 0, count, numbers, {other->bytes, other->length}, map};
    char how[32];

    ask_vectors_owner(test, &by_map, "by the map", &asked_owners.by_map);
    ask_vectors_owner(test, &by_own, "own table", &asked_owners.by_own_table);
    snprintf(how, sizeof how, "table of case %" PRIu64, other->number);
    if (other->length != 0)
        ask_vectors_owner(test, &by_other, how, &asked_owners.by_other_table);
    ask_vectors_changed(test, by_map, numbers[below(random, count)]);
    keep_beside_question(test, about.reading, "owners", numbers, 4 * count);
}

/* Moves a bridge by one, or to the table's end, where it has both 319 and 320, or ends or begins beside the end. */
static void move_bridge(struct random *random, struct board *board)
{
    uint8_t *bio = nth_of_kind(board, BIO, below(random, count_kind(board, BIO)));
    uint16_t base = get_u16(bio + BIO_BASE), by_one = (uint16_t)(one_in(random, 2) ? base + 1 : base - 1);
    uint16_t at_end = (uint16_t)(OWNERS - below(random, PINS + 1));

    put_u16(bio + BIO_BASE, one_in(random, 3) ? by_one : at_end);
}

/* Has a line of the LIO, the LPC or the HT arrive elsewhere, or gives a bridge another number of pins; or the LPC is gone. */
static void change_lines(struct random *random, struct board *board)
{
    size_t some_byte = below(random, 8); /* of the LIO's masks, or of the HT's bytes */

    switch (below(random, 5)) {
    case 0:
        if (count_kind(board, LPC) != 0)
            put_u16(nth_of_kind(board, LPC, 0) + LPC_CASCADE, (uint16_t)below(random, PINS));
        break;
    case 1:
        remove_kind(board, LPC);
        break;
    case 2:
        if (is_ht_board(board))
            nth_of_kind(board, HT, 0)[HT_BYTES + some_byte] = some_input(random, named_inputs(board));
        break;
    case 3: /* where this makes 0 or 65 of it, the pair is empty or wrong */
        board->pair[below(random, PAIRS)].number ^= 1;
        break;
    default:
        if (count_kind(board, LIO) != 0)
            nth_of_kind(board, LIO, 0)[LIO_MASKS + some_byte] ^= (uint8_t)(1 << below(random, 8));
        break;
    }
}

/* Lookups with the map of a board that is much like an accepted one, and with its own table, or that of the one it was made of. */
static void ask_vectors_owners_alike(struct random *random, const struct test *test, struct query about)
{
    static struct board board;
    static struct capture alike;

    board = test->board;
    if (count_kind(&board, BIO) != 0 && one_in(random, 2))
        move_bridge(random, &board);
    else
        change_lines(random, &board);
    lay_out(&board, &alike);

    uint32_t numbers[OWNERS], count = make_looked_up(random, &board, numbers);
    struct bytes map = {alike.bytes, alike.length}, first = {about.capture, about.length};
    struct owner_query by_own = {about.reading, LOOK_UP, 0, count, numbers, map, map};
    struct owner_query by_first = {about.reading, LOOK_UP, 0, count, numbers, first, map};

    ask_vectors_owner(test, &by_own, "alike, own table", &asked_owners.by_own_table);
    ask_vectors_owner(test, &by_first, "alike, table of the first", &asked_owners.by_other_table);
    keep_beside_question(test, about.reading, "alike.owners", numbers, 4 * count);
    keep_beside_question(test, about.reading, "alike.cap", alike.bytes, alike.length);
}

/* ---- Which captures `vectors` is asked about ---- */

/* The generator is handed over as a copy: where the readings agree, both are asked the same. */
static void ask_vectors_all(struct random random, const struct test *test, const uint8_t *capture, enum reading reading)
{
    struct query about = {.reading = reading, .capture = capture, .length = test->capture.length};
    uint64_t result = ask_vectors(test, about, READ, 2 * CORES_MAX, 0);

    if (refusal_number(result) == 0)
        ask_vectors_more(&random, test, about, result);
    else
        ask_vectors_again(&random, test, about);
    if (refusal_number(result) == 0 || one_in(&random, REFUSED_LISTS))
        ask_vectors_list(&random, test, about);
    if (refusal_number(result) == 0 || one_in(&random, REFUSED_OWNERS))
        ask_vectors_owners(&random, test, about);
    if (refusal_number(result) == 0)
        ask_vectors_owners_alike(&random, test, about);
}

static unsigned asked_other[NUMBERS], asked_one[NUMBERS]; /* captures of other revisions and of revision 1, by refusal number */

static unsigned asked_at_most(unsigned refusal)
{
    if (refusal == ACCEPTED)
        return ASKED_ACCEPTED;
    return refusal == MADT_REVISION ? ASKED_REVISIONS : ASKED_OTHERS;
}

/*
 * Has `vectors` asked about a capture that the ordinary reading refuses with a number, or accepts, unless there are enough
 * of its sort.
 */
static void keep_for_vectors(struct random *random, const struct test *test, const uint8_t *capture, unsigned refusal)
{
    bool one = test->board.table[MADT].revision == 1;
    unsigned *kept = one ? &asked_one[refusal] : &asked_other[refusal];
    char path[4096];

    if (test->capture.length > ASKED_BYTES_MAX || *kept == asked_at_most(refusal) / (one ? FEWER_OF_ONE : 1))
        return;
    ++*kept;
    ask_vectors_all(*random, test, capture, ORDINARY);
    if (one_in(random, ASKED_STRICTLY))
        ask_vectors_all(*random, test, capture, STRICT);
    keep_capture(test, refusal == ACCEPTED ? &last_accepted : &last_refused);
    snprintf(path, sizeof path, "%s/case-%" PRIu64 ".cap", asked_folder, test->number);
    save_file(path, test->capture.bytes, test->capture.length);
}

/* Looks at a capture in the ordinary reading; what the strict one says is known. */
static void look_at_ordinary(struct random *random, const struct test *test, const uint8_t *capture,
                             struct reference_refusal strict, struct hits *hits)
{
    uint64_t result = read_ordinarily(random, test, capture, 8 * CORES_MAX);
    bool accepted = refusal_number(result) == 0;
    struct reference_refusal judged = check_judgement(test, capture, result, ORDINARY);

    check_readings(test, judged, strict);
    compare_with_intent(test, result, ORDINARY);
    result = read_ordinarily(random, test, capture, random_list_length(random, accepted ? 8 * (size_t)result : 16));
    count_hit(hits, test, result);
    keep_for_vectors(random, test, capture, (unsigned)judged.number);
}

/* ---- One case ---- */

static void compare_case(struct random *random, const struct test *test, struct hits hits[READINGS])
{
    uint8_t *capture = capture_end - test->capture.length;

    memcpy(capture, test->capture.bytes, test->capture.length);

    uint64_t result = compare_read(random, test, capture, 8 * CORES_MAX); /* long enough for any board */
    bool accepted = refusal_number(result) == 0;
    struct reference_refusal judged = check_judgement(test, capture, result, STRICT);

    if (judged.number != 0)
        keep_for_map(test, judged);
    compare_with_intent(test, result, STRICT);
    result = compare_read(random, test, capture, random_list_length(random, accepted ? 8 * (size_t)result : 16));
    count_hit(&hits[STRICT], test, result);
    for (int i = 0; i < (accepted ? SAMPLE : 1); i++) {
        compare_way_and_back(test, capture, interesting_number(random, &test->board));
        compare_random_trace(random, test, capture);
    }
    if (accepted && one_in(random, THOROUGH))
        compare_thoroughly(test, capture);
    look_at_ordinary(random, test, capture, judged, &hits[ORDINARY]);
    if (memcmp(capture, test->capture.bytes, test->capture.length) != 0)
        tell_difference(test, "all questions", "the capture was changed, by this side ...", "... or by this one");
}

/* ---- All of it ---- */

/* Prints how often a reading gave each refusal. */
static void print_hits(enum reading reading, const struct hits *hits)
{
    printf("%s reading: accepted %u, %u of them in version 2\nrefused", name_of_reading(reading), hits->all[ACCEPTED],
           hits->of_version_2[ACCEPTED]);
    for (size_t i = 0; i < REFUSALS; i++)
        printf("%s%4u: %4u", i > 0 && i % 10 == 0 ? "\n       " : "", refusals[i], hits->all[refusals[i]]);
    printf("\n");
}

enum { OTHER_VERSION = 3 }; /* the refusal of versions other than 1 and 2 */

/* Every refusal that version 2 can have must be met there too. */
static bool hit_often_enough(unsigned refusal, const struct hits *hits)
{
    bool in_version_2 = refusal == OTHER_VERSION || hits->of_version_2[refusal] >= LEAST_HITS;

    return hits->all[refusal] >= LEAST_HITS && in_version_2;
}

/* Whether a reading gave each refusal often enough, and no other; says which not. */
static bool hits_suffice(enum reading reading, const struct hits *hits)
{
    bool suffice = true;
    unsigned known = hits->all[ACCEPTED], all = 0;

    print_hits(reading, hits);
    for (size_t i = 0; i < REFUSALS; i++) {
        unsigned refusal = refusals[i];

        known += hits->all[refusal];
        if (hit_often_enough(refusal, hits))
            continue;
        printf("compare: refusal %u was given %u times, %u of them in version 2, and not %u\n", refusal, hits->all[refusal],
               hits->of_version_2[refusal], LEAST_HITS);
        suffice = false;
    }
    for (size_t i = 0; i < NUMBERS; i++)
        all += hits->all[i];
    if (all != known) {
        printf("compare: a refusal number that the documents do not know was given\n");
        suffice = false;
    }
    return suffice;
}

/* Whether lists of numbers are answered often enough, and refused with each number. */
static bool lists_suffice(void)
{
    unsigned answered = asked_lists[ACCEPTED], broken = asked_lists[BROKEN_MAP], too_short = asked_lists[ANSWERS_TOO_SHORT];
    bool suffice = answered >= LEAST_HITS && broken >= LEAST_HITS && too_short >= LEAST_HITS;

    printf("lists of numbers: answered %u\nrefused%4u: %4u%4u: %4u\n", answered, BROKEN_MAP, broken, ANSWERS_TOO_SHORT, too_short);
    if (!suffice)
        printf("compare: lists of numbers were not answered and refused with 61 and 62 %u times each\n", LEAST_HITS);
    return suffice;
}

/* Whether lookups are answered often enough in each way, and refused with each number. */
static bool owners_suffice(void)
{
    unsigned broken = asked_owners.refused[BROKEN_MAP], other_table = asked_owners.refused[OTHER_TABLE];
    bool answered = asked_owners.by_map >= LEAST_HITS && asked_owners.by_own_table >= LEAST_HITS &&
                    asked_owners.by_other_table >= LEAST_HITS;
    bool suffice = answered && broken >= LEAST_HITS && other_table >= LEAST_HITS;

    printf("owners: answered %u by the map, %u with its own table, %u with another capture's\nrefused%4u: %4u%4u: %4u\n",
           asked_owners.by_map, asked_owners.by_own_table, asked_owners.by_other_table, BROKEN_MAP, broken, OTHER_TABLE, other_table);
    if (!suffice)
        printf("compare: owners were not answered in each way and refused with 61 and 63 %u times each\n", LEAST_HITS);
    return suffice;
}

static void check_examples(const struct reader *reader, const char *boards)
{
    struct tally tally = ask_examples(reader, boards);

    printf("%s: %u answers about board A, its neighbours and the captures of boards/, %u wrong\n", reader->name, tally.asked,
           tally.wrong);
    if (tally.wrong != 0)
        exit(1);
}

int main(int argc, char **argv)
{
    static struct test test;
    static struct hits hits[READINGS];

    if (argc < 5) {
        fprintf(stderr, "usage: compare BOARDS DIFFERENCES PRINTED ASKED [SEED [COUNT]]\n");
        return 2;
    }
    differences_folder = argv[2];
    printed_folder = argv[3];
    asked_folder = argv[4];

    uint64_t seed = argc > 5 ? strtoull(argv[5], NULL, 10) : DEFAULT_SEED;
    uint64_t count = argc > 6 ? strtoull(argv[6], NULL, 10) : DEFAULT_COUNT;

    check_examples(&reference, argv[1]);
    check_examples(&ordinary_reference, argv[1]);
    check_examples(&yasmirand, argv[1]);
    save_examples_for_map(argv[1], printed_folder);
    open_questions(asked_folder);
    ask_vectors_examples(argv[1]);
    printf("%" PRIu64 " generated captures, seed %" PRIu64 "\n", count, seed);
    fflush(stdout);
    capture_end = end_of_memory(CAPTURE_ROOM);
    yasmirand_list_end = end_of_memory(MARGIN + LIST_ROOM);
    reference_list_end = end_of_memory(MARGIN + LIST_ROOM);
    signal(SIGSEGV, touched_out_of_bounds);
    signal(SIGBUS, touched_out_of_bounds);
    for (uint64_t number = 0; number < count; number++) {
        struct random random = random_for_case(seed, number);

        test.number = number;
        snprintf(asked_case, sizeof asked_case, " touched memory out of bounds in case %" PRIu64 "\n", number);
        make_test(&random, &test);
        compare_case(&random, &test, hits);
    }

    close_questions();

    bool strict_suffices = hits_suffice(STRICT, &hits[STRICT]);
    bool ordinary_suffices = hits_suffice(ORDINARY, &hits[ORDINARY]);
    bool enough_lists = lists_suffice();
    bool enough_owners = owners_suffice();

    if (differences != 0)
        printf("compare: %u differences\n", differences);
    if (differences != 0 || !strict_suffices || !ordinary_suffices || !enough_lists || !enough_owners)
        return 1;
    printf("compare: %" PRIu64 " captures, every refusal at least %d times in both readings, no difference\n", count,
           LEAST_HITS);
    return 0;
}
