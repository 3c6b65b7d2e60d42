/*
 * Boards and how they are laid out as captures: see board.h.
 */
#include "board.h"

#include <assert.h>
#include <string.h>

void put_u16(uint8_t *bytes, uint16_t number)
{
    bytes[0] = (uint8_t)number;
    bytes[1] = (uint8_t)(number >> 8);
}

void put_u32(uint8_t *bytes, uint32_t number)
{
    put_u16(bytes, (uint16_t)number);
    put_u16(bytes + 2, (uint16_t)(number >> 16));
}

void put_u64(uint8_t *bytes, uint64_t number)
{
    put_u32(bytes, (uint32_t)number);
    put_u32(bytes + 4, (uint32_t)(number >> 32));
}

uint16_t get_u16(const uint8_t *bytes)
{
    return (uint16_t)(bytes[0] | bytes[1] << 8);
}

uint32_t get_u32(const uint8_t *bytes)
{
    return get_u16(bytes) | (uint32_t)get_u16(bytes + 2) << 16;
}

uint64_t get_u64(const uint8_t *bytes)
{
    return get_u32(bytes) | (uint64_t)get_u32(bytes + 4) << 32;
}

/* ---- Structures ---- */

uint8_t length_of_kind(enum kind kind)
{
    switch (kind) {
    case CORE:
        return 15;
    case LIO:
        return 23;
    case HT:
        return 21;
    case EIO:
        return 13;
    case MSI:
        return 19;
    case BIO:
        return 17;
    default: /* LPC */
        return 15;
    }
}

struct structure random_structure(struct random *random, enum kind kind)
{
    struct structure structure = {.length = length_of_kind(kind)};

    for (size_t i = 3; i < structure.length; i++)
        structure.bytes[i] = (uint8_t)any(random);
    structure.bytes[0] = (uint8_t)kind;
    structure.bytes[1] = (uint8_t)structure.length;
    structure.bytes[2] = 1;
    return structure;
}

struct structure shortest_structure(uint8_t type)
{
    return (struct structure){.length = SHORTEST, .bytes = {type, SHORTEST}};
}

struct structure make_core(struct random *random, uint32_t uid, uint32_t physical_id, uint32_t flags)
{
    struct structure core = random_structure(random, CORE);

    put_u32(core.bytes + CORE_UID, uid);
    put_u32(core.bytes + CORE_PHYSICAL_ID, physical_id);
    put_u32(core.bytes + CORE_FLAGS, flags);
    return core;
}

struct structure make_lio(struct random *random, const uint8_t cascades[2], const uint32_t masks[2])
{
    struct structure lio = random_structure(random, LIO);

    for (int half = 0; half < 2; half++) {
        lio.bytes[LIO_CASCADES + half] = cascades[half];
        put_u32(lio.bytes + LIO_MASKS + 4 * half, masks[half]);
    }
    return lio;
}

struct structure make_ht(struct random *random, const uint8_t inputs[HT_GROUPS])
{
    struct structure ht = random_structure(random, HT);

    memcpy(ht.bytes + HT_BYTES, inputs, HT_GROUPS);
    return ht;
}

struct structure make_eio(struct random *random, uint8_t cascade, uint8_t node, uint64_t node_map)
{
    struct structure eio = random_structure(random, EIO);

    eio.bytes[EIO_CASCADE] = cascade;
    eio.bytes[EIO_NODE] = node;
    put_u64(eio.bytes + EIO_NODE_MAP, node_map);
    return eio;
}

struct structure make_msi(struct random *random, uint32_t start, uint32_t count)
{
    struct structure msi = random_structure(random, MSI);

    put_u32(msi.bytes + MSI_START, start);
    put_u32(msi.bytes + MSI_COUNT, count);
    return msi;
}

struct structure make_bio(struct random *random, uint16_t hardware_id, uint16_t base)
{
    struct structure bio = random_structure(random, BIO);

    put_u16(bio.bytes + BIO_HARDWARE_ID, hardware_id);
    put_u16(bio.bytes + BIO_BASE, base);
    return bio;
}

struct structure make_lpc(struct random *random, uint8_t node, uint16_t cascade)
{
    struct structure lpc = random_structure(random, LPC);
    const uint64_t up_to_node = (UINT64_C(1) << (LPC_NODE_BIT + LPC_NODE_BITS)) - 1;

    if (one_in(random, 2))
        put_u64(lpc.bytes + LPC_BASE, get_u64(lpc.bytes + LPC_BASE) & up_to_node);
    set_base_bits(lpc.bytes, LPC_NODE_BIT, node);
    put_u16(lpc.bytes + LPC_CASCADE, cascade);
    return lpc;
}

uint8_t node_of_lpc(const uint8_t *lpc)
{
    return get_u64(lpc + LPC_BASE) >> LPC_NODE_BIT & (LPC_NODES - 1);
}

void set_base_bits(uint8_t *lpc, unsigned first_bit, uint8_t number)
{
    uint64_t mask = (uint64_t)(LPC_NODES - 1) << first_bit;

    put_u64(lpc + LPC_BASE, (get_u64(lpc + LPC_BASE) & ~mask) | (uint64_t)number << first_bit);
}

/* ---- The board ---- */

size_t add_table(struct board *board, const char signature[4], size_t length)
{
    size_t number = board->tables;
    struct table *table = &board->table[number];

    assert(number < TABLES_ROOM && length >= TABLE_HEADER);
    *table = (struct table){.revision = 1, .length = length};
    memcpy(table->signature, signature, 4);
    board->order[number] = number;
    board->tables++;
    return number;
}

void add_entry(struct board *board, size_t at, size_t table)
{
    assert(board->entries < ENTRIES_ROOM && at <= board->entries);
    memmove(&board->entry[at + 1], &board->entry[at], (board->entries - at) * sizeof board->entry[0]);
    board->entry[at] = table;
    board->entries++;
}

void start_board(struct random *random, struct board *board)
{
    board->filling = any(random);
    board->version = 1;
    memset(board->pair, 0, sizeof board->pair);
    board->tables = board->entries = board->structures = 0;
    board->xsdt_tail = board->madt_cut = board->tail = board->cuts = 0;
    board->madt_flags = 0;
    board->sci = 0;
    board->base = UINT64_C(0x90000000);
    board->at_top = false;
    add_table(board, "RSD ", RSDP_LENGTH);
    add_table(board, "XSDT", TABLE_HEADER);
    add_table(board, "APIC", MADT_HEADER);
    add_table(board, "FACP", 244);
    add_entry(board, 0, MADT);
    add_entry(board, 1, FADT);
}

void add_structure(struct board *board, size_t at, const struct structure *structure)
{
    assert(board->structures < STRUCTURES_ROOM && at <= board->structures);
    memmove(&board->structure[at + 1], &board->structure[at], (board->structures - at) * sizeof *structure);
    board->structure[at] = *structure;
    board->structures++;
}

void append_structure(struct board *board, struct structure structure)
{
    add_structure(board, board->structures, &structure);
}

size_t count_kind(const struct board *board, enum kind kind)
{
    size_t count = 0;

    for (size_t i = 0; i < board->structures; i++)
        count += board->structure[i].bytes[0] == kind;
    return count;
}

uint8_t *nth_of_kind(struct board *board, enum kind kind, size_t number)
{
    size_t i = 0;

    while (board->structure[i].bytes[0] != kind || number-- > 0)
        i++;
    return board->structure[i].bytes;
}

const uint8_t *first_of_kind(const struct board *board, enum kind kind)
{
    for (size_t i = 0; i < board->structures; i++)
        if (board->structure[i].bytes[0] == kind)
            return board->structure[i].bytes;
    return NULL;
}

void remove_kind(struct board *board, enum kind kind)
{
    size_t kept = 0;

    for (size_t i = 0; i < board->structures; i++)
        if (board->structure[i].bytes[0] != kind)
            board->structure[kept++] = board->structure[i];
    board->structures = kept;
}

uint8_t pins_of(const struct board *board, uint16_t hardware_id)
{
    for (size_t i = 0; i < PAIRS && board->version == WITH_PAIRS; i++) {
        const struct pair *pair = &board->pair[i];

        if (pair->number >= 1 && pair->number <= PINS && pair->hardware_id == hardware_id)
            return pair->number;
    }
    return PINS;
}

uint8_t pins_of_bio(const struct board *board, const uint8_t *bio)
{
    return pins_of(board, get_u16(bio + BIO_HARDWARE_ID));
}

void settle_lengths(struct board *board)
{
    size_t madt = MADT_HEADER;

    for (size_t i = 0; i < board->structures; i++)
        madt += board->structure[i].length;
    board->table[XSDT].length = TABLE_HEADER + 8 * board->entries + board->xsdt_tail;
    board->table[MADT].length = board->madt_cut != 0 ? board->madt_cut : madt;
}

void cut_table(struct board *board, size_t table, size_t at, uint64_t distance)
{
    size_t number = 0;

    while (number < board->cuts && (board->cut[number].table != table || board->cut[number].at < at))
        number++;
    if (number == board->cuts || board->cut[number].at != at) {
        assert(board->cuts < CUTS_ROOM && at > 0);
        memmove(&board->cut[number + 1], &board->cut[number], (board->cuts - number) * sizeof board->cut[0]);
        board->cuts++;
    }
    board->cut[number] = (struct cut){table, at, distance};
}

void remove_cut(struct board *board, size_t number)
{
    board->cuts--;
    memmove(&board->cut[number], &board->cut[number + 1], (board->cuts - number) * sizeof board->cut[0]);
}

static bool is_inside(const struct board *board, const struct cut *cut)
{
    return cut->at < board->table[cut->table].length;
}

size_t count_segments(const struct board *board)
{
    size_t count = 1;

    for (size_t i = 1; i < board->tables; i++)
        count += board->table[board->order[i]].opens_segment;
    for (size_t i = 0; i < board->cuts; i++)
        count += is_inside(board, &board->cut[i]);
    return count;
}

size_t place_of_descriptors(uint16_t version)
{
    return version == WITH_PAIRS ? HEADER_LENGTH + PAIRS_LENGTH : HEADER_LENGTH;
}

size_t capture_length(struct board *board)
{
    settle_lengths(board);

    size_t length = place_of_descriptors(board->version) + DESCRIPTOR_LENGTH * count_segments(board) + board->tail;

    for (size_t i = 0; i < board->tables; i++)
        length += board->table[i].gap + board->table[i].length;
    return length;
}

void make_room(struct board *board, size_t more)
{
    size_t wanted = capture_length(board) + more;
    size_t longest = OTHERS;

    for (size_t i = OTHERS; i < board->tables; i++)
        if (board->table[i].length > board->table[longest].length)
            longest = i;
    if (wanted > CAPTURE_MAX)
        board->table[longest].length -= wanted - CAPTURE_MAX;
}

/* ---- Laying out ---- */

struct segment {
    size_t offset; /* in the memory's bytes, all segments one behind another */
    size_t length;
    uint64_t distance;
    uint64_t address;
};

/* Puts the tables one behind another and finds the segments; gives the number of segments. */
static size_t divide(const struct board *board, size_t *offset_of, struct segment *segment)
{
    size_t offset = 0, segments = 0;

    for (size_t i = 0; i < board->tables; i++) {
        size_t number = board->order[i];
        const struct table *table = &board->table[number];

        if (i == 0 || table->opens_segment)
            segment[segments++] = (struct segment){.offset = offset, .distance = table->distance};
        offset += table->gap;
        offset_of[number] = offset;
        for (const struct cut *cut = board->cut; cut < board->cut + board->cuts; cut++)
            if (cut->table == number && is_inside(board, cut))
                segment[segments++] = (struct segment){.offset = offset + cut->at, .distance = cut->distance};
        offset += table->length;
    }
    offset += board->tail;
    for (size_t i = 0; i < segments; i++)
        segment[i].length = (i + 1 < segments ? segment[i + 1].offset : offset) - segment[i].offset;
    return segments;
}

static void give_addresses(const struct board *board, struct segment *segment, size_t segments)
{
    uint64_t span = 0;

    for (size_t i = 0; i < segments; i++) {
        if (i > 0)
            span += segment[i].distance;
        segment[i].address = span;
        span += segment[i].length;
    }
    for (size_t i = 0; i < segments; i++)
        segment[i].address += board->at_top ? 0 - span : board->base;
}

static uint64_t address_of(const struct segment *segment, size_t segments, size_t offset)
{
    size_t i = segments - 1;

    while (segment[i].offset > offset)
        i--;
    return segment[i].address + (offset - segment[i].offset);
}

void fill(uint64_t seed, uint8_t *bytes, size_t length)
{
    struct random random = {seed};

    for (size_t i = 0; i < length; i += 8) {
        uint8_t eight[8];

        put_u64(eight, any(&random));
        memcpy(bytes + i, eight, length - i < 8 ? length - i : 8);
    }
}

static void write_rsdp(uint8_t *rsdp, uint64_t xsdt)
{
    memcpy(rsdp, "RSD PTR ", 8);
    rsdp[15] = 2;
    put_u32(rsdp + 20, RSDP_LENGTH);
    put_u64(rsdp + 24, xsdt);
}

static void write_header(uint8_t *bytes, const struct table *table)
{
    memcpy(bytes, table->signature, 4);
    put_u32(bytes + 4, (uint32_t)table->length);
    bytes[TABLE_REVISION] = table->revision;
}

static void write_madt(const struct board *board, uint8_t *madt)
{
    uint8_t *end = madt + MADT_HEADER;

    if (board->madt_cut != 0)
        return;
    put_u32(madt + 40, board->madt_flags);
    for (size_t i = 0; i < board->structures; i++) {
        memcpy(end, board->structure[i].bytes, board->structure[i].length);
        end += board->structure[i].length;
    }
}

static size_t descriptor(const struct capture *capture, size_t number)
{
    return capture->descriptors + DESCRIPTOR_LENGTH * number;
}

uint64_t segment_address(const struct capture *capture, size_t number)
{
    return get_u64(capture->bytes + descriptor(capture, number));
}

uint32_t segment_length(const struct capture *capture, size_t number)
{
    return get_u32(capture->bytes + descriptor(capture, number) + 8);
}

void set_segment_address(struct capture *capture, size_t number, uint64_t address)
{
    put_u64(capture->bytes + descriptor(capture, number), address);
}

void set_segment_length(struct capture *capture, size_t number, uint32_t length)
{
    put_u32(capture->bytes + descriptor(capture, number) + 8, length);
}

void set_total(struct capture *capture, size_t total)
{
    put_u32(capture->bytes + 6, (uint32_t)total);
}

void write_pairs(uint8_t *bytes, const struct pair pair[PAIRS])
{
    for (size_t i = 0; i < PAIRS; i++) {
        bytes[PAIR_LENGTH * i] = pair[i].hardware_id;
        bytes[PAIR_LENGTH * i + 1] = pair[i].number;
    }
}

static void write_capture_header(const struct board *board, struct capture *capture, const struct segment *segment,
                                 size_t segments, uint64_t rsdp)
{
    uint8_t *bytes = capture->bytes;

    memcpy(bytes, "TBC", 3);
    put_u16(bytes + CAPTURE_VERSION, board->version);
    if (board->version == WITH_PAIRS)
        write_pairs(bytes + HEADER_LENGTH, board->pair);
    bytes[5] = (uint8_t)segments;
    set_total(capture, capture->length);
    put_u64(bytes + 10, rsdp);
    for (size_t i = 0; i < segments; i++) {
        set_segment_address(capture, i, segment[i].address);
        set_segment_length(capture, i, (uint32_t)segment[i].length);
    }
}

void lay_out(struct board *board, struct capture *capture)
{
    struct segment segment[TABLES_ROOM + CUTS_ROOM];
    size_t offset_of[TABLES_ROOM];

    capture->length = capture_length(board);
    assert(capture->length <= CAPTURE_ROOM);

    size_t segments = divide(board, offset_of, segment);

    capture->descriptors = place_of_descriptors(board->version);

    size_t memory = descriptor(capture, segments);

    give_addresses(board, segment, segments);
    fill(board->filling, capture->bytes + memory, capture->length - memory);
    capture->segments = segments;
    capture->tables = board->tables;
    memset(capture->sum_error, 0, sizeof capture->sum_error);
    for (size_t i = 0; i < board->tables; i++) {
        capture->place[i] = memory + offset_of[i];
        capture->table_length[i] = board->table[i].length;
        if (i != RSDP)
            write_header(capture->bytes + capture->place[i], &board->table[i]);
    }
    write_capture_header(board, capture, segment, segments, address_of(segment, segments, offset_of[RSDP]));
    write_rsdp(capture->bytes + capture->place[RSDP], address_of(segment, segments, offset_of[XSDT]));
    for (size_t i = 0; i < board->entries; i++)
        put_u64(capture->bytes + capture->place[XSDT] + TABLE_HEADER + 8 * i,
                address_of(segment, segments, offset_of[board->entry[i]]));
    write_madt(board, capture->bytes + capture->place[MADT]);
    if (board->table[FADT].length >= FADT_MIN)
        put_u16(capture->bytes + capture->place[FADT] + FADT_SCI, board->sci);
    make_sums_good(capture);
}

/* Chooses the byte at `sum_byte` so that all of them sum to `sum` modulo 256. */
static void make_sum(uint8_t sum, uint8_t *bytes, size_t length, size_t sum_byte)
{
    uint8_t total = 0;

    bytes[sum_byte] = 0;
    for (size_t i = 0; i < length; i++)
        total = (uint8_t)(total + bytes[i]);
    bytes[sum_byte] = (uint8_t)(sum - total);
}

void make_sums_good(struct capture *capture)
{
    uint8_t *rsdp = capture->bytes + capture->place[RSDP];

    make_sum(0, rsdp, 20, 8);
    make_sum(0, rsdp, RSDP_LENGTH, 32);
    for (size_t i = XSDT; i < capture->tables; i++)
        make_sum(capture->sum_error[i], capture->bytes + capture->place[i], capture->table_length[i], 9);
}
