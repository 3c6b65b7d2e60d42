/*
 * Ways to break rules 1 to 30 of a board: the capture and its tables. They stand in the order of document 01's table
 * "Refusals in order". A way works on any board, also on one that another way has broken already; on a board that keeps
 * all rules it breaks its own rule and none before it.
 */
#include "ways.h"

#include <string.h>

#include "valid.h"

/* ---- 1 to 7: the capture ---- */

static void too_short(struct random *random, struct capture *capture)
{
    capture->length = below(random, capture->descriptors);
}

/* A length that is enough for a header without pairs only. */
static size_t length_without_pairs(struct random *random)
{
    return between(random, HEADER_LENGTH, HEADER_LENGTH + PAIRS_LENGTH - 1);
}

/* A version that is refused; often one byte of it is right. */
static uint16_t refused_version(struct random *random)
{
    static const uint16_t known[] = {0, 3, 256, 257, 258, 512, 513, UINT16_MAX};
    uint16_t version;

    do
        version = one_in(random, 2) ? known[below(random, sizeof known / sizeof known[0])] : (uint16_t)any(random);
    while (version == 1 || version == WITH_PAIRS);
    return version;
}

/* All else stays right: the last segment grows. */
static void too_long(struct random *random, struct capture *capture)
{
    size_t length = between(random, CAPTURE_MAX + 1, CAPTURE_ROOM);
    size_t last = capture->segments - 1;

    if (length <= capture->length)
        return;
    memset(capture->bytes + capture->length, 0, length - capture->length);
    set_segment_length(capture, last, segment_length(capture, last) + (uint32_t)(length - capture->length));
    set_total(capture, length);
    capture->length = length;
}

static void wrong_mark(struct random *random, struct capture *capture)
{
    spoil(random, capture->bytes + below(random, 3));
}

static void wrong_version(struct random *random, struct capture *capture)
{
    put_u16(capture->bytes + CAPTURE_VERSION, refused_version(random));
}

static void wrong_segment_count(struct random *random, struct capture *capture)
{
    capture->bytes[5] = (uint8_t)(one_in(random, 3) ? 0 : between(random, SEGMENTS_MAX + 1, 255));
}

/* The version alone makes it too short (W-212): mark and segment count may be wrong as well. */
static void too_short_for_pairs(struct random *random, struct capture *capture)
{
    put_u16(capture->bytes + CAPTURE_VERSION, WITH_PAIRS);
    capture->length = length_without_pairs(random);
    if (one_in(random, 2))
        wrong_mark(random, capture);
    if (one_in(random, 2))
        wrong_segment_count(random, capture);
}

/* No other version makes it too short, also none that is refused. */
static void wrong_mark_without_room_for_pairs(struct random *random, struct capture *capture)
{
    put_u16(capture->bytes + CAPTURE_VERSION, one_in(random, 2) ? 1 : refused_version(random));
    capture->length = length_without_pairs(random);
    wrong_mark(random, capture);
}

static void wrong_version_without_room_for_pairs(struct random *random, struct capture *capture)
{
    wrong_version(random, capture);
    capture->length = length_without_pairs(random);
}

/* How much is left of the descriptors: often nothing, or all but what a reader that leaves the pairs out would not miss. */
static size_t part_of_descriptors(struct random *random, size_t length)
{
    switch (below(random, 4)) {
    case 0:
        return 0;
    case 1:
        return length - between(random, 1, PAIRS_LENGTH);
    default:
        return below(random, length);
    }
}

static void descriptors_past_end(struct random *random, struct capture *capture)
{
    capture->length = capture->descriptors + part_of_descriptors(random, DESCRIPTOR_LENGTH * capture->segments);
    if (one_in(random, 2))
        set_total(capture, capture->length);
}

static void wrong_total(struct random *random, struct capture *capture)
{
    uint32_t error = (uint32_t)(one_in(random, 2) ? between(random, 1, UINT32_MAX) : UINT32_C(1) << below(random, 32));

    put_u32(capture->bytes + 6, get_u32(capture->bytes + 6) + error);
}

static void bytes_behind_the_end(struct random *random, struct capture *capture)
{
    size_t more = between(random, 1, 8);

    if (capture->length + more > CAPTURE_MAX) {
        wrong_total(random, capture);
        return;
    }
    memset(capture->bytes + capture->length, 0, more);
    capture->length += more;
    if (one_in(random, 2))
        set_total(capture, capture->length);
}

static void bytes_missing(struct random *random, struct capture *capture)
{
    size_t descriptors_end = capture->descriptors + DESCRIPTOR_LENGTH * capture->segments;

    if (capture->length > descriptors_end)
        capture->length -= between(random, 1, capture->length - descriptors_end);
    if (one_in(random, 2))
        set_total(capture, capture->length);
}

static void wrong_segment_length(struct random *random, struct capture *capture)
{
    size_t number = below(random, capture->segments);

    set_segment_length(capture, number, segment_length(capture, number) ^ (uint32_t)between(random, 1, UINT32_MAX));
}

/* The lengths would sum right if the pairs were left out of the total, or counted where there are none. */
static void total_of_the_other_version(struct random *random, struct capture *capture)
{
    size_t number = below(random, capture->segments);
    uint32_t length = segment_length(capture, number);
    bool with_pairs = capture->descriptors > HEADER_LENGTH;

    set_segment_length(capture, number, with_pairs ? length + PAIRS_LENGTH : length - PAIRS_LENGTH);
}

/* With two segments or more the lengths sum right, but only modulo 2^32. */
static void lengths_right_modulo_2_32(struct random *random, struct capture *capture)
{
    size_t first = below(random, capture->segments), second = below(random, capture->segments);

    set_segment_length(capture, first, segment_length(capture, first) + (UINT32_C(1) << 31));
    if (second != first)
        set_segment_length(capture, second, segment_length(capture, second) + (UINT32_C(1) << 31));
}

static void segment_past_2_64(struct random *random, struct capture *capture)
{
    size_t number = below(random, capture->segments);

    for (size_t i = 0; i < capture->segments && segment_length(capture, number) < 2; i++)
        number = (number + 1) % capture->segments;

    uint64_t length = segment_length(capture, number);

    if (length >= 2)
        set_segment_address(capture, number, 0 - length + 1 + below(random, length - 1));
}

/* Its bytes go to a neighbour, so that the total stays right. */
static void empty_segment(struct random *random, struct capture *capture)
{
    if (capture->segments < 2) {
        segment_past_2_64(random, capture);
        return;
    }

    size_t empty = below(random, capture->segments);
    size_t neighbour = empty == 0 ? 1 : empty - 1;

    set_segment_length(capture, neighbour, segment_length(capture, neighbour) + segment_length(capture, empty));
    set_segment_length(capture, empty, 0);
}

static void segments_overlap(struct random *random, struct capture *capture)
{
    if (capture->segments < 2) {
        segment_past_2_64(random, capture);
        return;
    }

    size_t number = between(random, 1, capture->segments - 1);
    uint64_t length_before = segment_length(capture, number - 1);
    uint64_t into = length_before == 0 || one_in(random, 2) ? 1 : between(random, 1, length_before);

    set_segment_address(capture, number, segment_address(capture, number - 1) + length_before - into);
}

static void segments_out_of_order(struct random *random, struct capture *capture)
{
    if (capture->segments < 2) {
        segment_past_2_64(random, capture);
        return;
    }

    size_t number = between(random, 1, capture->segments - 1);
    size_t other = below(random, number);
    uint64_t address = segment_address(capture, number);

    set_segment_address(capture, number, segment_address(capture, other));
    set_segment_address(capture, other, address);
}

/* 7 is about version 2. The pairs that are not broken stay as they are. */

static uint8_t number_over_64(struct random *random)
{
    switch (below(random, 4)) {
    case 0: case 1:
        return PINS + 1;
    case 2:
        return UINT8_MAX;
    default:
        return (uint8_t)between(random, PINS + 1, UINT8_MAX);
    }
}

static void too_many_inputs(struct random *random, struct board *board)
{
    make_version_2(random, board);

    uint8_t number = number_over_64(random);

    board->pair[below(random, PAIRS)].number = number;
}

/* Two pairs, neither of them empty, give one ID. Their numbers may be equal: it is given twice all the same. */
static void hardware_id_given_twice(struct random *random, struct board *board)
{
    size_t first = below(random, PAIRS), second = (first + between(random, 1, PAIRS - 1)) % PAIRS;

    make_version_2(random, board);
    if (board->pair[first].number == 0)
        board->pair[first].number = random_pins(random);
    board->pair[second].hardware_id = board->pair[first].hardware_id;
    board->pair[second].number = one_in(random, 3) ? board->pair[first].number : random_pins(random);
}

/* Of pairs that are empty, too great or alike, the first one that is wrong is named. */
static void crowded_pairs(struct random *random, struct board *board)
{
    static const uint8_t numbers[] = {0, 1, PINS / 2, PINS, PINS + 1};
    uint8_t id = (uint8_t)any(random);

    board->version = WITH_PAIRS;
    for (size_t i = 0; i < PAIRS; i++) {
        board->pair[i].hardware_id = (uint8_t)(id + below(random, 2));
        board->pair[i].number = numbers[below(random, sizeof numbers)];
    }

    uint8_t number = number_over_64(random);

    board->pair[between(random, 1, PAIRS - 1)].number = number;
}

/* ---- 10 to 14: the RSDP ---- */

static uint64_t end_of_segment(const struct capture *capture, size_t number)
{
    return segment_address(capture, number) + segment_length(capture, number);
}

/* The last of the segments that touch one another from this one on. */
static size_t last_touching(const struct capture *capture, size_t number)
{
    while (number + 1 < capture->segments && segment_address(capture, number + 1) == end_of_segment(capture, number))
        number++;
    return number;
}

/* An address at which no 36 bytes are present. */
static uint64_t absent_address(struct random *random, const struct capture *capture)
{
    uint64_t first = segment_address(capture, 0);
    size_t number = below(random, capture->segments);
    size_t last = last_touching(capture, number);
    uint64_t end = end_of_segment(capture, last), present = end - segment_address(capture, number);

    switch (below(random, 6)) {
    case 0: /* before all segments */
        if (first > 0)
            return below(random, first);
        break;
    case 1: /* in the gap behind a segment, or behind all of them, perhaps round the end of memory */
        return end + below(random, last + 1 < capture->segments ? segment_address(capture, last + 1) - end : 64);
    case 2: /* 36 bytes from here reach over the end of memory */
        return 0 - between(random, 1, 35);
    default:
        break;
    }
    return end - between(random, 1, present < 35 ? present : 35);
}

static void rsdp_absent(struct random *random, const struct board *board, struct capture *capture)
{
    (void)board;
    put_u64(capture->bytes + 10, absent_address(random, capture));
}

/* How much memory is missing: often one byte, and sometimes so much that the addresses around it agree in their low bits. */
static uint64_t random_gap(struct random *random)
{
    switch (below(random, 4)) {
    case 0:
        return between(random, 2, 64);
    case 1:
        return UINT64_C(1) << below(random, 41);
    default:
        return 1;
    }
}

/*
 * A segment ends inside a table and the next one does not touch it. What lies behind lies so much further on, and is named
 * by its new address, so that this table alone is not present. Other segments of the table may touch.
 */
static void open_gap(struct random *random, struct board *board, size_t table, size_t at)
{
    settle_lengths(board);
    cut_at_random(random, board, table, below(random, 4));
    while (board->cuts > 0 && count_segments(board) >= SEGMENTS_MAX)
        remove_cut(board, below(random, board->cuts));
    for (size_t i = 1; i < board->tables && count_segments(board) >= SEGMENTS_MAX; i++)
        board->table[board->order[i]].opens_segment = false;
    cut_table(board, table, at, random_gap(random));
}

/* An offset from first to last, often one of the two. */
static size_t offset_between(struct random *random, size_t first, size_t last)
{
    switch (below(random, 4)) {
    case 0:
        return first;
    case 1:
        return last;
    default:
        return between(random, first, last);
    }
}

static void gap_in_rsdp(struct random *random, struct board *board)
{
    open_gap(random, board, RSDP, offset_between(random, 1, RSDP_LENGTH - 1));
}

static void rsdp_signature(struct random *random, const struct board *board, struct capture *capture)
{
    (void)board;
    if (one_in(random, 3)) /* the source's print drops the blank */
        capture->bytes[capture->place[RSDP] + 7] = 0;
    else
        spoil(random, capture->bytes + capture->place[RSDP] + below(random, 8));
}

static void rsdp_revision(struct random *random, const struct board *board, struct capture *capture)
{
    (void)board;
    spoil(random, capture->bytes + capture->place[RSDP] + 15);
}

static void rsdp_length(struct random *random, const struct board *board, struct capture *capture)
{
    (void)board;
    spoil(random, capture->bytes + capture->place[RSDP] + 20 + below(random, 4));
}

/* The first 20 bytes' sum, that of all 36, or both. */
static void rsdp_sums(struct random *random, struct capture *capture)
{
    uint8_t *rsdp = capture->bytes + capture->place[RSDP];
    uint8_t error = (uint8_t)between(random, 1, 255);

    switch (below(random, 3)) {
    case 0:
        rsdp[8] = (uint8_t)(rsdp[8] + error);
        rsdp[32] = (uint8_t)(rsdp[32] - error);
        break;
    case 1:
        rsdp[32] = (uint8_t)(rsdp[32] + error);
        break;
    default:
        rsdp[8] = (uint8_t)(rsdp[8] + error);
        break;
    }
}

/* ---- 20 to 30: the other tables ---- */

/* The XSDT, or a table that it names. */
static size_t named_table(struct random *random, const struct board *board)
{
    size_t entry = below(random, board->entries + 1);

    return entry == board->entries ? XSDT : board->entry[entry];
}

static void table_absent(struct random *random, const struct board *board, struct capture *capture)
{
    size_t entry = below(random, board->entries + 1);
    size_t field = entry == board->entries ? capture->place[RSDP] + 24 : capture->place[XSDT] + TABLE_HEADER + 8 * entry;

    put_u64(capture->bytes + field, absent_address(random, capture));
}

static void gap_in_header(struct random *random, struct board *board)
{
    size_t table = named_table(random, board);

    open_gap(random, board, table, offset_between(random, 1, TABLE_HEADER - 1));
}

static void set_table_length(struct capture *capture, size_t table, uint64_t length)
{
    put_u32(capture->bytes + capture->place[table] + 4, (uint32_t)length);
}

static void table_under_36(struct random *random, const struct board *board, struct capture *capture)
{
    size_t table = named_table(random, board);

    set_table_length(capture, table, below(random, TABLE_HEADER));
}

/* How many bytes are present from a table's start on. */
static uint64_t present_from(const struct capture *capture, size_t table)
{
    size_t number = 0;
    uint64_t end = capture->descriptors + DESCRIPTOR_LENGTH * capture->segments + segment_length(capture, 0);

    while (end <= capture->place[table])
        end += segment_length(capture, ++number);
    for (size_t last = last_touching(capture, number); number < last;)
        end += segment_length(capture, ++number);
    return end - capture->place[table];
}

static void table_past_what_is_present(struct random *random, const struct board *board, struct capture *capture)
{
    size_t table = named_table(random, board);
    uint64_t least = present_from(capture, table) + 1;

    set_table_length(capture, table, between(random, least, one_in(random, 2) ? least + 7 : UINT32_MAX));
}

static void gap_in_body(struct random *random, struct board *board)
{
    size_t table = named_table(random, board);

    make_room(board, DESCRIPTOR_LENGTH * SEGMENTS_MAX); /* then more segments will not shorten the table */
    if (board->table[table].length == TABLE_HEADER) /* it has no body, the FADT of a sound board does */
        table = FADT;

    size_t length = board->table[table].length;

    open_gap(random, board, table, length == TABLE_HEADER ? 1 : offset_between(random, TABLE_HEADER, length - 1));
}

static void table_sum(struct random *random, const struct board *board, struct capture *capture)
{
    spoil(random, &capture->sum_error[named_table(random, board)]);
}

static void spoil_signature(struct random *random, struct table *table)
{
    char *letter = &table->signature[below(random, 4)];

    *letter = (char)(*letter ^ (char)between(random, 1, 127));
}

static void xsdt_signature(struct random *random, struct board *board)
{
    spoil_signature(random, &board->table[XSDT]);
}

static void xsdt_revision(struct random *random, struct board *board)
{
    spoil(random, &board->table[XSDT].revision);
}

static void xsdt_odd_body(struct random *random, struct board *board)
{
    board->xsdt_tail = between(random, 1, 7);
}

static void xsdt_too_many_entries(struct random *random, struct board *board)
{
    size_t count = between(random, ENTRIES_MAX + 1, ENTRIES_MAX + 4);

    while (board->entries < count) {
        size_t table = named_table(random, board);

        add_entry(board, below(random, board->entries + 1), table);
    }
}

static void madt_or_fadt_not_named(struct random *random, struct board *board)
{
    size_t missing = one_in(random, 2) ? MADT : FADT;
    size_t kept = 0;

    for (size_t i = 0; i < board->entries; i++)
        if (board->entry[i] != missing)
            board->entry[kept++] = board->entry[i];
    board->entries = kept;
}

/* One is missing and the other is there twice: 26 comes before 27. */
static void madt_or_fadt_for_the_other(struct random *random, struct board *board)
{
    size_t missing = one_in(random, 2) ? MADT : FADT;

    for (size_t i = 0; i < board->entries; i++)
        if (board->entry[i] == missing)
            board->entry[i] = missing == MADT ? FADT : MADT;
}

static void madt_or_fadt_signature(struct random *random, struct board *board)
{
    spoil_signature(random, &board->table[one_in(random, 2) ? MADT : FADT]);
}

/* An entry that may be lost; on a full XSDT of a board with one MADT and one FADT there is one. */
static size_t spare_entry(const struct board *board)
{
    size_t entry = 0;

    while (entry + 1 < board->entries && (board->entry[entry] == MADT || board->entry[entry] == FADT))
        entry++;
    return entry;
}

static void table_named_twice(struct random *random, struct board *board)
{
    size_t table = one_in(random, 2) ? MADT : FADT;

    if (board->entries == ENTRIES_MAX)
        board->entry[spare_entry(board)] = table;
    else
        add_entry(board, below(random, board->entries + 1), table);
}

/* A table that was passed over becomes a second MADT or FADT. */
static void second_table(struct random *random, struct board *board)
{
    for (size_t i = 0; i < board->entries; i++)
        if (board->entry[i] >= OTHERS) {
            memcpy(board->table[board->entry[i]].signature, one_in(random, 2) ? "APIC" : "FACP", 4);
            return;
        }
    table_named_twice(random, board);
}

static void madt_too_short(struct random *random, struct board *board)
{
    board->madt_cut = between(random, TABLE_HEADER, MADT_HEADER - 1);
}

static void fadt_too_short(struct random *random, struct board *board)
{
    board->table[FADT].length = between(random, TABLE_HEADER, FADT_MIN - 1);
}

/* For the strict reading; the ordinary one takes it, unless it is 0 (W-207). */
static void madt_revision(struct random *random, struct board *board)
{
    board->table[MADT].revision = other_revision(random);
}

static void madt_flags(struct random *random, struct board *board)
{
    board->madt_flags = one_in(random, 2) ? UINT32_C(1) << below(random, 32) : (uint32_t)any(random) | 1;
}

/* ---- All of them ---- */

const struct way capture_ways[] = {
    {1, "under 18 bytes, or 26 in version 2", .in_capture = too_short},
    {1, "under 26 bytes in version 2", .in_capture = too_short_for_pairs},
    {1, "over 65,536 bytes", .in_capture = too_long},
    {2, "mark", .in_capture = wrong_mark},
    {2, "mark, under 26 bytes", .in_capture = wrong_mark_without_room_for_pairs},
    {3, "version", .in_capture = wrong_version},
    {3, "version, under 26 bytes", .in_capture = wrong_version_without_room_for_pairs},
    {4, "segment count", .in_capture = wrong_segment_count},
    {5, "descriptors past the end", .in_capture = descriptors_past_end},
    {5, "total", .in_capture = wrong_total},
    {5, "bytes behind the end", .in_capture = bytes_behind_the_end},
    {5, "bytes missing", .in_capture = bytes_missing},
    {5, "a segment's length", .in_capture = wrong_segment_length},
    {5, "lengths that sum right in the other version", .in_capture = total_of_the_other_version},
    {5, "lengths that sum right modulo 2^32", .in_capture = lengths_right_modulo_2_32},
    {6, "empty segment", .in_capture = empty_segment},
    {6, "segment past 2^64", .in_capture = segment_past_2_64},
    {6, "overlapping segments", .in_capture = segments_overlap},
    {6, "segments out of order", .in_capture = segments_out_of_order},
    {7, "over 64 inputs", .in_board = too_many_inputs},
    {7, "hardware ID given twice", .in_board = hardware_id_given_twice},
    {7, "crowded pairs", .in_board = crowded_pairs},
    {10, "RSDP absent", .in_tables = rsdp_absent},
    {10, "gap inside the RSDP", .in_board = gap_in_rsdp},
    {11, "RSDP signature", .in_tables = rsdp_signature},
    {12, "RSDP revision", .in_tables = rsdp_revision},
    {13, "RSDP length", .in_tables = rsdp_length},
    {14, "RSDP sums", .in_capture = rsdp_sums},
    {20, "table absent", .in_tables = table_absent},
    {20, "gap inside a table's header", .in_board = gap_in_header},
    {21, "table under 36 bytes", .in_tables = table_under_36},
    {21, "table past what is present", .in_tables = table_past_what_is_present},
    {21, "gap inside a table's body", .in_board = gap_in_body},
    {22, "table sum", .in_tables = table_sum},
    {23, "XSDT signature", .in_board = xsdt_signature},
    {24, "XSDT revision", .in_board = xsdt_revision},
    {25, "XSDT body no multiple of 8", .in_board = xsdt_odd_body},
    {25, "XSDT with over 32 entries", .in_board = xsdt_too_many_entries},
    {26, "MADT or FADT not named", .in_board = madt_or_fadt_not_named},
    {26, "MADT or FADT in place of the other", .in_board = madt_or_fadt_for_the_other},
    {26, "MADT or FADT signature", .in_board = madt_or_fadt_signature},
    {27, "MADT or FADT named twice", .in_board = table_named_twice},
    {27, "second MADT or FADT", .in_board = second_table},
    {28, "MADT under 44 bytes", .in_board = madt_too_short},
    {28, "FADT under 48 bytes", .in_board = fadt_too_short},
    {29, "MADT revision", .in_board = madt_revision},
    {30, "MADT flags", .in_board = madt_flags},
};

const size_t capture_way_count = sizeof capture_ways / sizeof capture_ways[0];
