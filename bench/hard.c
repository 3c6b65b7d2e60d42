/*
 * Captures to measure: see hard.h.
 */
#include "hard.h"

#include <string.h>

#include "board_a.h"
#include "damage.h"
#include "random.h"
#include "valid.h"

static struct board board;

/* ---- Boards like board A ---- */

/* The controllers and the SCI of board A. */
static void append_controllers(struct random *random)
{
    static const uint8_t cascades[2] = {2, 0};
    static const uint32_t masks[2] = {0x00FFFFFF, 0};

    append_structure(&board, make_lio(random, cascades, masks));
    append_structure(&board, make_eio(random, 3, 0, 1));
    append_structure(&board, make_msi(random, 64, 192));
    append_structure(&board, make_bio(random, 0, 64));
    append_structure(&board, make_lpc(random, 0, 19));
    board.sci = 75;
}

/* A board with these and so many processors, whose IDs rise or fall. */
static void start_like_board_a(struct random *random, uint32_t processors, bool falling)
{
    start_board(random, &board);
    for (uint32_t i = 0; i < processors; i++) {
        uint32_t id = falling ? processors - 1 - i : i;

        append_structure(&board, make_core(random, id, id, 1));
    }
    append_controllers(random);
}

/* Lays the board out as a capture of the greatest length, which what is behind the last table fills up. */
static void lay_out_to_the_end(struct capture *capture)
{
    board.tail = CAPTURE_MAX - capture_length(&board);
    lay_out(&board, capture);
}

/* ---- Tables and segments ---- */

static void make_large_tables(struct random *random, struct capture *capture)
{
    start_like_board_a(random, 2, false);
    for (int i = 0; i < 4; i++)
        add_entry(&board, board.entries, add_table(&board, "SSDT", 16000));
    lay_out_to_the_end(capture);
}

static void make_table_named_often(struct random *random, struct capture *capture)
{
    start_like_board_a(random, 2, false);

    size_t large = add_table(&board, "SSDT", 64000);

    while (board.entries < ENTRIES_MAX)
        add_entry(&board, board.entries, large);
    lay_out(&board, capture);
}

/* Each of the four tables runs across four segments, and all sixteen touch (W-206). */
static void make_touching_segments(struct random *random, struct capture *capture)
{
    const size_t parts = SEGMENTS_MAX / OTHERS;

    start_like_board_a(random, 2, false);
    settle_lengths(&board);
    for (size_t table = RSDP; table < OTHERS; table++) {
        board.table[table].opens_segment = true;
        for (size_t part = 1; part < parts; part++)
            cut_table(&board, table, board.table[table].length * part / parts, 0);
    }
    lay_out(&board, capture);
}

/* ---- Version 2 ---- */

/* The new bridge of W-212: 32 inputs. Its pair is the last that is looked at. */
static void make_short_bridge(struct random *random, struct capture *capture)
{
    static const struct pair pairs[PAIRS] = {{1, 64}, {5, 16}, {200, 1}, {0, 32}};

    start_like_board_a(random, 2, false);
    board.version = WITH_PAIRS;
    memcpy(board.pair, pairs, sizeof pairs);
    lay_out(&board, capture);
}

/* ---- HT ---- */

/* Request W-201's board: both halves of the LIO are used, and the HT names inputs of both. */
static void make_on_ht(struct random *random, struct capture *capture)
{
    static const uint8_t cascades[2] = {2, 3}, inputs[HT_GROUPS] = {16, 1, 2, 3, 4, 5, 6, 7};
    static const uint32_t masks[2] = {0xFFFF, 0xFF0000};
    const uint32_t processors = 2; /* behind them stand the LIO and the EIO */

    start_like_board_a(random, processors, false);
    board.structure[processors] = make_lio(random, cascades, masks);
    board.structure[processors + 1] = make_ht(random, inputs);
    lay_out(&board, capture);
}

/* ---- CORE ---- */

static void make_rising(struct random *random, struct capture *capture)
{
    start_like_board_a(random, CORES_MAX, false);
    lay_out(&board, capture);
}

static void make_falling(struct random *random, struct capture *capture)
{
    start_like_board_a(random, CORES_MAX, true);
    lay_out(&board, capture);
}

/*
 * The server of W-203: the CORE of its four processors stand far apart, and its firmware has filled all others, which are
 * disabled, with one and the same ID.
 */
static void make_spare_cores(struct random *random, struct capture *capture)
{
    const size_t processors = 4, distance = (CORES_MAX - 1) / (processors - 1);
    const uint32_t spare_id = UINT32_MAX;

    start_like_board_a(random, CORES_MAX, false);
    for (size_t i = 0; i < CORES_MAX; i++)
        if (i % distance != 0)
            board.structure[i] = make_core(random, spare_id, spare_id, 0);
    lay_out(&board, capture);
}

/* ---- CORE among two-byte structures ---- */

enum { BLOCK_MAX = sizeof board.structure[0].bytes / SHORTEST }; /* what the bytes of one `struct structure` can hold */

/* So many two-byte structures, one behind another, put before the structure of a number. */
static void add_block(size_t at, size_t count)
{
    const struct structure one = shortest_structure(PASSED_OVER);
    struct structure block = {.length = one.length * count};

    for (size_t i = 0; i < count; i++)
        memcpy(block.bytes + one.length * i, one.bytes, one.length);
    add_structure(&board, at, &block);
}

static void add_blocks(size_t at, size_t count)
{
    for (; count > BLOCK_MAX; count -= BLOCK_MAX)
        add_block(at, BLOCK_MAX);
    add_block(at, count);
}

/* How many more of them the capture can hold. */
static size_t room_for_two_bytes(void)
{
    return (CAPTURE_MAX - capture_length(&board)) / SHORTEST;
}

/* Half of them stand before the first CORE, and half between two CORE each. */
static void make_among_others(struct random *random, struct capture *capture, bool falling)
{
    start_like_board_a(random, CORES_MAX, falling);

    size_t between_two = room_for_two_bytes() / 2 / (CORES_MAX - 1);

    for (size_t at = CORES_MAX - 1; at > 0; at--)
        add_block(at, between_two);
    add_blocks(0, room_for_two_bytes());
    lay_out_to_the_end(capture);
}

static void make_rising_among_others(struct random *random, struct capture *capture)
{
    make_among_others(random, capture, false);
}

static void make_falling_among_others(struct random *random, struct capture *capture)
{
    make_among_others(random, capture, true);
}

/* The first structure is a CORE, and so is the last. */
static void make_two_far_apart(struct random *random, struct capture *capture)
{
    start_like_board_a(random, 1, false);
    append_structure(&board, make_core(random, 1, 1, 1));
    add_blocks(board.structures - 1, room_for_two_bytes());
    lay_out_to_the_end(capture);
}

/* ---- All of them ---- */

void make_hard_captures(const char *boards, struct hard_capture captures[HARD_CAPTURES])
{
    static const struct {
        const char *what;
        void (*make)(struct random *random, struct capture *capture);
    } others[HARD_CAPTURES] = {
        [LARGE_TABLES] = {"large tables that are passed over", make_large_tables},
        [RISING] = {"256 processors", make_rising},
        [FALLING] = {"256 processors, falling", make_falling},
        [RISING_AMONG_OTHERS] = {"256 processors among two-byte structures", make_rising_among_others},
        [FALLING_AMONG_OTHERS] = {"256 processors, falling, among two-byte structures", make_falling_among_others},
        [TWO_FAR_APART] = {"2 processors, two-byte structures between them", make_two_far_apart},
        [SPARE_CORES] = {"256 CORE, 4 of them enabled, the others alike", make_spare_cores},
        [TABLE_NAMED_OFTEN] = {"32 XSDT entries, 30 of them naming one large table", make_table_named_often},
        [TOUCHING_SEGMENTS] = {"a board like A, each table across 4 of 16 segments", make_touching_segments},
        [SHORT_BRIDGE] = {"a board like A, version 2, its bridge with 32 pins", make_short_bridge},
        [ON_HT] = {"a board like A with an HT", make_on_ht},
    };
    struct random random = random_for_case(1, 0);

    captures[BOARD_A].what = "board A";
    load_board_a(boards, 1, &captures[BOARD_A].capture);
    for (enum hard i = BOARD_A + 1; i < HARD_CAPTURES; i++) {
        captures[i].what = others[i].what;
        others[i].make(&random, &captures[i].capture);
    }
}

/* ---- Captures of every sort ---- */

enum { SOUND_BOARDS = 250, BOARDS_OF_A_WAY = 6 };

const char *make_varied_capture(size_t number, struct capture *capture)
{
    struct random random = random_for_case(1, number);
    const struct way *way = NULL;

    if (number >= SOUND_BOARDS && (way = way_at((number - SOUND_BOARDS) / BOARDS_OF_A_WAY)) == NULL)
        return NULL;
    make_valid_board(&random, &board);
    lay_out_broken(&random, &board, capture, &way, way == NULL ? 0 : 1);
    return way == NULL ? "a board that keeps all rules" : way->what;
}
