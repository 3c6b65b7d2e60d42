/*
 * The reference: document 01 and requests W-201, W-202, W-203, W-206, W-207, W-208, W-211 and W-212 of document 02 written down
 * in plain C, from the documents alone, without a look at the proved reader, so that an error would have to be made twice to go
 * unseen.
 *
 * Titles in quotation marks are sections of document 01; the numbers given to refuse() are those of its table
 * "Refusals in order", where W-202 puts 71 to 78 in the place of 36: after 35 and before 37. W-212 adds 7 and 45, W-208 gives
 * 43 another meaning, and W-201 adds 44 and puts 34 behind all structures, before 39.
 */
#include "reference.h"

#include <stdbool.h>
#include <string.h>

enum { REFUSAL_SHIFT = 48 };

/* A check gives 0 when the rule holds, else the refusal as it is returned: number × 2^48 + place. */
static uint64_t refuse(uint64_t number, uint64_t place)
{
    return number << REFUSAL_SHIFT | place;
}

/* Numbers are little-endian ("What the bench reads"). */
static uint16_t u16(const uint8_t *bytes)
{
    return (uint16_t)(bytes[0] | bytes[1] << 8);
}

static uint32_t u32(const uint8_t *bytes)
{
    return u16(bytes) | (uint32_t)u16(bytes + 2) << 16;
}

static uint64_t u64(const uint8_t *bytes)
{
    return u32(bytes) | (uint64_t)u32(bytes + 4) << 32;
}

static void put_u32(uint8_t *bytes, uint32_t number)
{
    for (int i = 0; i < 4; i++)
        bytes[i] = (uint8_t)(number >> 8 * i);
}

/* The sum of some bytes modulo 256. */
static uint8_t sum(const uint8_t *bytes, size_t length)
{
    uint8_t total = 0;

    for (size_t i = 0; i < length; i++)
        total = (uint8_t)(total + bytes[i]);
    return total;
}

/* ---- "The capture" ---- */

enum {
    CAPTURE_MAX = 65536,
    VERSION = 3, /* where it stands */
    RSDP_ADDRESS = 10,
    HEADER_LENGTH = 18, /* the descriptors follow, in version 2 behind the pairs */
    DESCRIPTOR_LENGTH = 12,
    SEGMENTS_MAX = 16,
};

/* W-212: version 2 has pairs of bytes behind the header, each a hardware ID and a number of inputs; with number 0 it is empty. */
enum {
    WITH_PAIRS = 2, /* the version */
    PAIRS = 4,
    PAIR_LENGTH = 2,
    PINS_MAX = 64, /* inputs of a BIO; so many it has without a pair */
};

struct segment {
    uint64_t address;
    uint64_t length;
    uint64_t place; /* of its first byte in the capture */
};

struct capture {
    const uint8_t *bytes;
    const uint8_t *pairs; /* NULL: the version has none */
    size_t descriptors;   /* the place of the first */
    size_t segments;
    struct segment segment[SEGMENTS_MAX]; /* in an open capture those that touch are joined */
};

/* Where the descriptors begin. The version alone decides it, also one that is refused. */
static size_t descriptors_of(uint16_t version)
{
    return version == WITH_PAIRS ? HEADER_LENGTH + PAIRS * PAIR_LENGTH : HEADER_LENGTH;
}

/* Rule 6, segments in turn. An end may be 2^64, so the comparisons use the last byte of a segment. */
static uint64_t check_segments(const struct capture *capture)
{
    uint64_t last_of_previous = 0;

    for (size_t i = 0; i < capture->segments; i++) {
        const struct segment *segment = &capture->segment[i];
        uint64_t descriptor = capture->descriptors + DESCRIPTOR_LENGTH * i;

        if (segment->length == 0 || segment->address > UINT64_MAX - (segment->length - 1))
            return refuse(6, descriptor);
        if (i > 0 && segment->address <= last_of_previous)
            return refuse(6, descriptor);
        last_of_previous = segment->address + (segment->length - 1);
    }
    return 0;
}

/* The number of inputs that the first pairs give to a hardware ID; 0 if none of them does. An empty pair's ID is free. */
static uint8_t inputs_given(const uint8_t *pairs, size_t count, uint16_t hardware_id)
{
    for (size_t i = 0; i < count; i++) {
        const uint8_t *pair = pairs + PAIR_LENGTH * i;

        if (pair[1] != 0 && pair[0] == hardware_id)
            return pair[1];
    }
    return 0;
}

/* Rule 7, pairs in turn. */
static uint64_t check_pairs(const uint8_t *pairs)
{
    for (size_t i = 0; i < PAIRS; i++) {
        const uint8_t *pair = pairs + PAIR_LENGTH * i;

        if (pair[1] > PINS_MAX || (pair[1] != 0 && inputs_given(pairs, i, pair[0]) != 0))
            return refuse(7, HEADER_LENGTH + PAIR_LENGTH * i);
    }
    return 0;
}

/*
 * W-206: where a segment starts exactly at the end of the one before it, a stretch may run across the two, or across
 * several such. Their bytes follow one another in the capture as well, so they are as good as one segment, and become one.
 * By rule 6 no segment starts below the one before it: the distance between the two does not wrap.
 */
static void join_touching(struct capture *capture)
{
    size_t joined = 0; /* the number of the segment that the next one may be joined to */

    for (size_t i = 1; i < capture->segments; i++) {
        const struct segment *next = &capture->segment[i];
        struct segment *before = &capture->segment[joined];

        if (next->address - before->address == before->length)
            before->length += next->length;
        else
            capture->segment[++joined] = *next;
    }
    capture->segments = joined + 1;
}

/* Rules 1 to 4. */
static uint64_t check_header(struct capture *capture, const uint8_t *bytes, size_t length)
{
    if (length < HEADER_LENGTH || length > CAPTURE_MAX)
        return refuse(1, 0);

    uint16_t version = u16(bytes + VERSION);

    capture->bytes = bytes;
    capture->pairs = version == WITH_PAIRS ? bytes + HEADER_LENGTH : NULL;
    capture->descriptors = descriptors_of(version);
    capture->segments = bytes[5];
    if (length < capture->descriptors)
        return refuse(1, 0);
    if (memcmp(bytes, "TBC", 3) != 0)
        return refuse(2, 0);
    if (version != 1 && version != WITH_PAIRS)
        return refuse(3, 0);
    if (capture->segments < 1 || capture->segments > SEGMENTS_MAX)
        return refuse(4, 0);
    return 0;
}

/* Rule 5. It notes the segments. */
static uint64_t find_segments(struct capture *capture, size_t length)
{
    const uint8_t *bytes = capture->bytes;
    uint64_t place = capture->descriptors + DESCRIPTOR_LENGTH * capture->segments;

    if (place > length || u32(bytes + 6) != length)
        return refuse(5, 0);
    for (size_t i = 0; i < capture->segments; i++) {
        const uint8_t *descriptor = bytes + capture->descriptors + DESCRIPTOR_LENGTH * i;
        struct segment *segment = &capture->segment[i];

        segment->address = u64(descriptor);
        segment->length = u32(descriptor + 8);
        segment->place = place;
        place += segment->length;
    }
    return place == length ? 0 : refuse(5, 0);
}

/* Rules 1 to 7. */
static uint64_t open_capture(struct capture *capture, const uint8_t *bytes, size_t length)
{
    uint64_t refusal;

    if ((refusal = check_header(capture, bytes, length)) != 0)
        return refusal;
    if ((refusal = find_segments(capture, length)) != 0)
        return refusal;
    if ((refusal = check_segments(capture)) != 0)
        return refusal;
    if (capture->pairs != NULL && (refusal = check_pairs(capture->pairs)) != 0)
        return refusal;
    join_touching(capture);
    return 0;
}

/* Finds the place of a stretch of memory: it is present if it lies wholly inside one segment, or across some that touch. */
static bool locate(const struct capture *capture, uint64_t address, uint64_t length, uint64_t *place)
{
    for (size_t i = 0; i < capture->segments; i++) {
        const struct segment *segment = &capture->segment[i];

        if (address < segment->address)
            continue;

        uint64_t offset = address - segment->address;

        if (offset < segment->length && length <= segment->length - offset) {
            *place = segment->place + offset;
            return true;
        }
    }
    return false;
}

/* ---- "Tables" ---- */

enum {
    RSDP_LENGTH = 36,
    RSDP_FIRST_PART = 20, /* has a sum of its own */
    TABLE_HEADER = 36,
    XSDT_ENTRIES_MAX = 32,
    MADT_HEADER = 44,
    FADT_MIN = 48,
};

struct table {
    uint64_t place;
    uint64_t length;
};

/* What the XSDT leads to. */
struct tables {
    struct table xsdt, madt, fadt;
};

/* Rules 10 to 14. */
static uint64_t find_rsdp(const struct capture *capture, uint64_t *place)
{
    if (!locate(capture, u64(capture->bytes + RSDP_ADDRESS), RSDP_LENGTH, place))
        return refuse(10, RSDP_ADDRESS);

    const uint8_t *rsdp = capture->bytes + *place;

    if (memcmp(rsdp, "RSD PTR ", 8) != 0)
        return refuse(11, *place);
    if (rsdp[15] != 2)
        return refuse(12, *place);
    if (u32(rsdp + 20) != RSDP_LENGTH)
        return refuse(13, *place);
    if (sum(rsdp, RSDP_FIRST_PART) != 0 || sum(rsdp, RSDP_LENGTH) != 0)
        return refuse(14, *place);
    return 0;
}

/* Rules 20 to 22, for the table that the address field at a place names. */
static uint64_t find_table(const struct capture *capture, uint64_t field, struct table *table)
{
    uint64_t address = u64(capture->bytes + field);

    if (!locate(capture, address, TABLE_HEADER, &table->place))
        return refuse(20, field);
    table->length = u32(capture->bytes + table->place + 4);
    if (table->length < TABLE_HEADER || !locate(capture, address, table->length, &table->place))
        return refuse(21, table->place);
    if (sum(capture->bytes + table->place, table->length) != 0)
        return refuse(22, table->place);
    return 0;
}

/* The XSDT's own rules, 20 to 25. */
static uint64_t find_xsdt(const struct capture *capture, uint64_t field, struct table *xsdt)
{
    uint64_t refusal = find_table(capture, field, xsdt);

    if (refusal != 0)
        return refusal;

    const uint8_t *bytes = capture->bytes + xsdt->place;
    uint64_t body = xsdt->length - TABLE_HEADER;

    if (memcmp(bytes, "XSDT", 4) != 0)
        return refuse(23, xsdt->place);
    if (bytes[8] != 1)
        return refuse(24, xsdt->place);
    if (body % 8 != 0 || body / 8 > XSDT_ENTRIES_MAX)
        return refuse(25, xsdt->place);
    return 0;
}

/* The XSDT's entries in turn (20 to 22), then 26 and 27. */
static uint64_t find_named_tables(const struct capture *capture, struct tables *tables)
{
    bool has_madt = false, has_fadt = false;
    uint64_t field_of_second = 0; /* of the first entry that names a second MADT or FADT */
    uint64_t end = tables->xsdt.place + tables->xsdt.length;

    for (uint64_t field = tables->xsdt.place + TABLE_HEADER; field < end; field += 8) {
        struct table table;
        uint64_t refusal = find_table(capture, field, &table);

        if (refusal != 0)
            return refusal;

        const uint8_t *signature = capture->bytes + table.place;
        bool is_madt = memcmp(signature, "APIC", 4) == 0;
        bool is_fadt = memcmp(signature, "FACP", 4) == 0;

        if (((is_madt && has_madt) || (is_fadt && has_fadt)) && field_of_second == 0)
            field_of_second = field;
        if (is_madt && !has_madt) {
            has_madt = true;
            tables->madt = table;
        }
        if (is_fadt && !has_fadt) {
            has_fadt = true;
            tables->fadt = table;
        }
    }
    if (!has_madt || !has_fadt)
        return refuse(26, tables->xsdt.place);
    if (field_of_second != 0)
        return refuse(27, field_of_second);
    return 0;
}

/* Rule 29, all that the two readings differ in (W-207): both take revision 1, and the ordinary one takes those above it. */
static bool takes_revision(uint8_t revision, enum reading reading)
{
    return revision == 1 || (revision > 1 && reading == ORDINARY);
}

/* Rules 10 to 30. */
static uint64_t find_tables(const struct capture *capture, struct tables *tables, enum reading reading)
{
    uint64_t rsdp, refusal;

    if ((refusal = find_rsdp(capture, &rsdp)) != 0)
        return refusal;
    if ((refusal = find_xsdt(capture, rsdp + 24, &tables->xsdt)) != 0)
        return refusal;
    if ((refusal = find_named_tables(capture, tables)) != 0)
        return refusal;

    const uint8_t *madt = capture->bytes + tables->madt.place;

    if (tables->madt.length < MADT_HEADER)
        return refuse(28, tables->madt.place);
    if (tables->fadt.length < FADT_MIN)
        return refuse(28, tables->fadt.place);
    if (!takes_revision(madt[8], reading))
        return refuse(29, tables->madt.place);
    if (u32(madt + 40) != 0)
        return refuse(30, tables->madt.place);
    return 0;
}

/* ---- "MADT structures" ---- */

enum kind { CORE = 17, LIO = 18, HT = 19, EIO = 20, MSI = 21, BIO = 22, LPC = 23 };

enum {
    CORES_MAX = 256,
    EIOS_MAX = 4,
    BIOS_MAX = 4,
    MSIS_MAX = 4,
    CASCADE_MIN = 2,
    CASCADE_MAX = 9,
    NODES = 64,
    EXTENDED_VECTORS = 256,
    BASE_MIN = 64,
    BASE_MAX = 65472,
    LIO_INPUTS = 32,
    HT_GROUPS = 8, /* of HT vectors: each has a byte, which names the LIO input that they go to (W-201) */
    HT_GROUP = 32, /* vectors */
};

struct core {
    uint64_t place;
    uint32_t uid, physical_id;
};

struct half {
    uint8_t cascade;
    uint32_t mask; /* 0: the half is unused and its cascade byte is free */
};

struct lio {
    uint64_t place;
    struct half half[2];
};

/* W-201: byte n is for HT vectors 32n to 32n + 31. Its address and size are not kept. */
struct ht {
    uint64_t place;
    uint8_t input[HT_GROUPS];
};

struct eio {
    uint64_t place;
    uint8_t cascade, node;
};

struct msi {
    uint64_t place;
    uint32_t start, count;
};

struct bio {
    uint64_t place;
    uint16_t node; /* its hardware ID */
    uint16_t base;
    uint8_t pins; /* how many inputs it has, from 0 on */
};

struct lpc {
    uint64_t place;
    uint16_t node; /* the hardware ID of its BIO */
    uint16_t cascade;
};

/* The structure that 51, 52 or 53 names, and the earliest one that it clashes with: places. */
struct clash {
    uint64_t named, partner;
};

/* What the MADT, the FADT and the pairs say. LIO and LPC occur at most once; their counts are 0 or 1. */
struct board {
    const uint8_t *pairs; /* NULL: none */
    uint64_t madt, fadt; /* places */
    uint16_t sci;
    size_t cores, enabled, lios, hts, eios, msis, bios, lpcs; /* `cores` counts all CORE, enabled or not */
    uint64_t mixed; /* 0, or the place of the first structure that gives the board both HT and EIO, or a second HT: 34 */
    struct lio lio;
    struct ht ht; /* the first one, if there are several */
    struct lpc lpc;
    struct eio eio[EIOS_MAX];
    struct msi msi[MSIS_MAX];
    struct bio bio[BIOS_MAX];
    struct core core[CORES_MAX]; /* the enabled ones */
    struct clash clash; /* what the board is refused for, if by 51 to 53 */
};

static bool cascade_in_range(uint8_t cascade)
{
    return cascade >= CASCADE_MIN && cascade <= CASCADE_MAX;
}

/* 35 and 38 are about every CORE. Of a disabled one nothing else counts: its IDs mean nothing (W-203), so they are not kept. */
static uint64_t take_core(struct board *board, const uint8_t *bytes, uint64_t place)
{
    uint32_t flags = u32(bytes + 11);

    if ((flags & ~UINT32_C(1)) != 0)
        return refuse(35, place);
    if (board->cores == CORES_MAX)
        return refuse(38, place);
    board->cores++;
    if (flags == 1)
        board->core[board->enabled++] = (struct core){place, u32(bytes + 3), u32(bytes + 7)};
    return 0;
}

static uint64_t take_lio(struct board *board, const uint8_t *bytes, uint64_t place)
{
    struct lio lio = {place, {{bytes[13], u32(bytes + 15)}, {bytes[14], u32(bytes + 19)}}};

    for (int i = 0; i < 2; i++)
        if (lio.half[i].mask != 0 && !cascade_in_range(lio.half[i].cascade))
            return refuse(71, place);
    if ((lio.half[0].mask & lio.half[1].mask) != 0)
        return refuse(37, place);
    if (board->lios == 1)
        return refuse(38, place);
    board->lios = 1;
    board->lio = lio;
    return 0;
}

/* W-201: a board has HT or EIO. Which structure is the first to break this is known once it is there; 34 waits for the others. */
static void note_mixed(struct board *board, uint64_t place)
{
    if (board->mixed == 0 && (board->hts > 1 || (board->hts == 1 && board->eios > 0)))
        board->mixed = place;
}

/* There is no limit for 38: a second HT is 34. */
static uint64_t take_ht(struct board *board, const uint8_t *bytes, uint64_t place)
{
    const uint8_t *input = bytes + 13;

    for (size_t i = 0; i < HT_GROUPS; i++)
        if (input[i] >= LIO_INPUTS)
            return refuse(78, place);
    if (board->hts++ == 0) {
        board->ht.place = place;
        memcpy(board->ht.input, input, HT_GROUPS);
    }
    note_mixed(board, place);
    return 0;
}

static uint64_t take_eio(struct board *board, const uint8_t *bytes, uint64_t place)
{
    struct eio eio = {place, bytes[3], bytes[4]};
    uint64_t node_map = u64(bytes + 5);

    if (!cascade_in_range(eio.cascade))
        return refuse(71, place);
    if (eio.node >= NODES)
        return refuse(72, place);
    if (node_map == 0)
        return refuse(73, place);
    if (board->eios == EIOS_MAX)
        return refuse(38, place);
    board->eio[board->eios++] = eio;
    note_mixed(board, place);
    return 0;
}

static uint64_t take_msi(struct board *board, const uint8_t *bytes, uint64_t place)
{
    struct msi msi = {place, u32(bytes + 11), u32(bytes + 15)};

    if (msi.count < 1)
        return refuse(74, place);
    if ((uint64_t)msi.start + msi.count > EXTENDED_VECTORS)
        return refuse(75, place);
    if (board->msis == MSIS_MAX)
        return refuse(38, place);
    board->msi[board->msis++] = msi;
    return 0;
}

/* W-212: a BIO without a pair has 64 inputs, and so has every BIO of a version 1 capture. */
static uint8_t pins_of(const struct board *board, uint16_t hardware_id)
{
    uint8_t given = board->pairs == NULL ? 0 : inputs_given(board->pairs, PAIRS, hardware_id);

    return given == 0 ? PINS_MAX : given;
}

static uint64_t take_bio(struct board *board, const uint8_t *bytes, uint64_t place)
{
    struct bio bio = {place, u16(bytes + 13), u16(bytes + 15), 0};

    if (bio.node >= NODES)
        return refuse(72, place);
    if (bio.base < BASE_MIN || bio.base > BASE_MAX)
        return refuse(76, place);
    if (board->bios == BIOS_MAX)
        return refuse(38, place);
    bio.pins = pins_of(board, bio.node);
    board->bio[board->bios++] = bio;
    return 0;
}

/* W-208: four bits of the LPC's base are its node. The others, above and below them, are not looked at. */
static uint16_t node_in_base(uint64_t base)
{
    enum { FIRST_BIT = 44, NODES_IN_FOUR_BITS = 16 };

    return base >> FIRST_BIT & (NODES_IN_FOUR_BITS - 1);
}

/* Its range is that of all pins that a bridge can have: 77. Whether its own is there, and has so many, is asked later: 43, 45. */
static uint64_t take_lpc(struct board *board, const uint8_t *bytes, uint64_t place)
{
    struct lpc lpc = {place, node_in_base(u64(bytes + 3)), u16(bytes + 13)};

    if (lpc.cascade >= PINS_MAX)
        return refuse(77, place);
    if (board->lpcs == 1)
        return refuse(38, place);
    board->lpcs = 1;
    board->lpc = lpc;
    return 0;
}

/* One structure through 32, 33, 35, 71 to 78, 37 and 38; types other than 17 to 23 are passed over. */
static uint64_t take_structure(struct board *board, const uint8_t *bytes, uint64_t place)
{
    static const uint8_t length_of[] = {
        [CORE - CORE] = 15, [LIO - CORE] = 23, [HT - CORE] = 21, [EIO - CORE] = 13,
        [MSI - CORE] = 19,  [BIO - CORE] = 17, [LPC - CORE] = 15,
    };
    uint8_t type = bytes[0];

    if (type < CORE || type > LPC)
        return 0;
    if (bytes[1] != length_of[type - CORE])
        return refuse(32, place);
    if (bytes[2] != 1)
        return refuse(33, place);
    switch (type) {
    case CORE:
        return take_core(board, bytes, place);
    case LIO:
        return take_lio(board, bytes, place);
    case HT:
        return take_ht(board, bytes, place);
    case EIO:
        return take_eio(board, bytes, place);
    case MSI:
        return take_msi(board, bytes, place);
    case BIO:
        return take_bio(board, bytes, place);
    default: /* LPC */
        return take_lpc(board, bytes, place);
    }
}

/* The structures in turn, each through 31 to 38 without 34, and with 71 to 78 among them. */
static uint64_t walk_madt(const struct capture *capture, const struct table *madt, struct board *board)
{
    uint64_t end = madt->place + madt->length;
    uint64_t place = madt->place + MADT_HEADER;

    while (place < end) {
        uint64_t left = end - place;
        const uint8_t *bytes = capture->bytes + place;

        if (left == 1 || bytes[1] < 2 || bytes[1] > left)
            return refuse(31, place);

        uint64_t refusal = take_structure(board, bytes, place);

        if (refusal != 0)
            return refusal;
        place += bytes[1];
    }
    return 0;
}

/* ---- "Where a line arrives" ---- */

enum {
    LPC_INPUTS = 16,
    LIO_FIRST = 16, /* the global number of LIO input 0 */
    HT_NODE = 0,    /* of slots on the HT, and the hardware ID of bridges on it */
    HT_FIRST = 256, /* the number with which HT vector 0 arrives */
};

/* Answers as include/yasmirand.h codes them. */
static const uint64_t UNWIRED = UINT64_C(1) << 40;
static const uint64_t NO_OWNER = UINT64_C(2) << 40;
static const uint64_t NOTHING = 0;

enum source { LIO_INPUT = 1, BIO_INPUT = 2, LPC_CASCADE = 3, MSI_SLOT = 4 };

static uint64_t arrives(uint8_t vector, uint32_t number)
{
    return (uint64_t)vector << 32 | number;
}

static bool is_arrival(uint64_t answer)
{
    return answer < UNWIRED;
}

static uint64_t traced(enum source source, uint8_t node, uint32_t value)
{
    return (uint64_t)source << 40 | (uint64_t)node << 32 | value;
}

static const struct eio *eio_of_node(const struct board *board, uint16_t node)
{
    for (size_t i = 0; i < board->eios; i++)
        if (board->eio[i].node == node)
            return &board->eio[i];
    return NULL;
}

/* W-208: the BIO whose hardware ID is the LPC's node, the earliest of equals; NULL if there is none. */
static const struct bio *bridge_of_lpc(const struct board *board)
{
    for (size_t i = 0; i < board->bios; i++)
        if (board->bio[i].node == board->lpc.node)
            return &board->bio[i];
    return NULL;
}

/* The half that a LIO input is wired to, if any. */
static const struct half *half_of_input(const struct lio *lio, uint32_t input)
{
    for (int i = 0; i < 2; i++)
        if (lio->half[i].mask >> input & 1)
            return &lio->half[i];
    return NULL;
}

/* W-201: a LIO input that the HT names leads to the HT. It is no source any more, and its global number has no owner. */
static bool is_named_by_ht(const struct board *board, uint32_t input)
{
    for (size_t i = 0; i < HT_GROUPS && board->hts != 0; i++)
        if (board->ht.input[i] == input)
            return true;
    return false;
}

/*
 * Pins and slots land on a hub, each on the vector of its number there: on the EIO of the node, or on the HT. An EIO's vectors
 * arrive at its cascade, with their number; those of the HT at the core vector of the LIO input that they go to, and behind the
 * LIO's own numbers (W-201).
 */
static uint64_t arrives_by_eio(const struct eio *eio, uint32_t vector)
{
    return arrives(eio->cascade, vector);
}

static uint64_t arrives_by_ht(const struct board *board, uint32_t vector)
{
    return arrives(half_of_input(&board->lio, board->ht.input[vector / HT_GROUP])->cascade, HT_FIRST + vector);
}

/* The input of a BIO lands on the EIO whose node is the BIO's hardware ID, or on the HT if the board has that. */
static uint64_t route_pin(const struct board *board, uint16_t hardware_id, uint32_t pin)
{
    return board->hts != 0 ? arrives_by_ht(board, pin) : arrives_by_eio(eio_of_node(board, hardware_id), pin);
}

static uint64_t route_lio_input(const struct board *board, uint32_t input)
{
    const struct half *half = half_of_input(&board->lio, input);

    return half == NULL ? UNWIRED : arrives(half->cascade, input);
}

static const struct reference_owner NOBODY = {OWNED_BY_NOBODY, 0, 0};

/* Whose a number is. A LIO input that is not wired owns its number too; a BIO owns as many as it has inputs (W-212). */
static struct reference_owner owner_of(const struct board *board, uint32_t number)
{
    uint32_t lio_input = number - LIO_FIRST; /* if it is one */

    if (number < LPC_INPUTS)
        return board->lpcs == 0 ? NOBODY : (struct reference_owner){OWNED_BY_LPC, 0, 0};
    if (number < LIO_FIRST + LIO_INPUTS)
        return is_named_by_ht(board, lio_input) ? NOBODY : (struct reference_owner){OWNED_BY_LIO, lio_input, 0};
    for (size_t i = 0; i < board->bios; i++) {
        const struct bio *bio = &board->bio[i];

        if (number >= bio->base && number - bio->base < bio->pins)
            return (struct reference_owner){OWNED_BY_BIO, number - bio->base, bio->node};
    }
    return NOBODY;
}

/* The answer to a global number follows from its owner. */
static uint64_t route_owner(const struct board *board, struct reference_owner owner)
{
    switch (owner.kind) {
    case OWNED_BY_LPC:
        return route_pin(board, board->lpc.node, board->lpc.cascade);
    case OWNED_BY_LIO:
        return route_lio_input(board, owner.input);
    case OWNED_BY_BIO:
        return route_pin(board, owner.hardware_id, owner.input);
    default:
        return NO_OWNER;
    }
}

static uint64_t route(const struct board *board, uint32_t number)
{
    return route_owner(board, owner_of(board, number));
}

/*
 * What lands on a vector of the hub of a node. BIO of one hardware ID have equally many inputs, so the first that has this one
 * is the earliest of its equals: if the LPC has their node, it is the LPC's.
 */
static uint64_t trace_hub(const struct board *board, uint8_t node, uint32_t vector)
{
    for (size_t i = 0; i < board->bios; i++) {
        const struct bio *bio = &board->bio[i];

        if (bio->node != node || vector >= bio->pins)
            continue;
        if (board->lpcs == 1 && bio->node == board->lpc.node && vector == board->lpc.cascade)
            return traced(LPC_CASCADE, 0, bio->base + vector);
        return traced(BIO_INPUT, 0, bio->base + vector);
    }
    for (size_t i = 0; i < board->msis; i++)
        if (vector >= board->msi[i].start && vector - board->msi[i].start < board->msi[i].count)
            return traced(MSI_SLOT, node, vector);
    return NOTHING;
}

/* What arrives through the HT, each of whose vectors does so at one core vector. */
static uint64_t trace_ht(const struct board *board, uint8_t vector, uint32_t number)
{
    if (number < HT_FIRST || number - HT_FIRST >= HT_GROUPS * HT_GROUP)
        return NOTHING;

    uint32_t ht_vector = number - HT_FIRST;
    bool arrives_there = arrives_by_ht(board, ht_vector) == arrives(vector, number);

    return arrives_there ? trace_hub(board, HT_NODE, ht_vector) : NOTHING;
}

/* What arrives through the EIO that enters a core vector. */
static uint64_t trace_eio(const struct board *board, uint8_t vector, uint32_t number)
{
    for (size_t i = 0; i < board->eios; i++)
        if (board->eio[i].cascade == vector)
            return trace_hub(board, board->eio[i].node, number);
    return NOTHING;
}

static uint64_t trace(const struct board *board, uint32_t asked, uint32_t number)
{
    uint8_t vector = (uint8_t)asked;

    if (vector != asked) /* no cascade is so high */
        return NOTHING;
    if (number < LIO_INPUTS && route(board, LIO_FIRST + number) == arrives(vector, number))
        return traced(LIO_INPUT, 0, LIO_FIRST + number);
    return board->hts != 0 ? trace_ht(board, vector, number) : trace_eio(board, vector, number);
}

/* ---- "Refusals in order", 34 and 39 to 54: rules about the board as a whole ---- */

static const struct clash NO_CLASH = {UINT64_MAX, 0};

/*
 * Two structures clash by a rule: the later of them is named, unless one before it already is; the other is its partner,
 * unless it has an earlier one. After all pairs of the rule this leaves the first structure in table order that clashes
 * with an earlier one, and the earliest that it clashes with.
 */
static void name_later(struct clash *clash, uint64_t place, uint64_t other)
{
    uint64_t later = place > other ? place : other;
    uint64_t earlier = place > other ? other : place;

    if (later < clash->named || (later == clash->named && earlier < clash->partner))
        *clash = (struct clash){later, earlier};
}

/* The refusal for the pairs that a rule has found; 0 if it found none. */
static uint64_t refuse_clash(uint64_t number, const struct clash *clash)
{
    return clash->named == NO_CLASH.named ? 0 : refuse(number, clash->named);
}

/* Rule 39. It binds the enabled CORE only (W-203), and these are all that the board has kept. */
static uint64_t check_ids(const struct board *board)
{
    for (size_t i = 0; i < board->enabled; i++)
        for (size_t j = 0; j < i; j++)
            if (board->core[i].uid == board->core[j].uid || board->core[i].physical_id == board->core[j].physical_id)
                return refuse(39, board->core[i].place);
    return 0;
}

/* W-201: whether a bridge has a hub to land on. Those on the HT have hardware ID 0. */
static bool has_hub(const struct board *board, const struct bio *bio)
{
    return board->hts != 0 ? bio->node == HT_NODE : eio_of_node(board, bio->node) != NULL;
}

/* Rule 44: all bytes of the HT name wired inputs, also those for vectors that nothing lands on. */
static uint64_t check_ht(const struct board *board)
{
    for (size_t i = 0; i < HT_GROUPS && board->hts != 0; i++)
        if (half_of_input(&board->lio, board->ht.input[i]) == NULL)
            return refuse(44, board->ht.place);
    return 0;
}

/* Rules 43 to 45: 43 and 45 are about the LPC if there is one, 44 about the HT. */
static uint64_t check_lpc_and_ht(const struct board *board)
{
    const struct bio *bridge = board->lpcs == 0 ? NULL : bridge_of_lpc(board);
    uint64_t refusal;

    if (board->lpcs == 1 && bridge == NULL)
        return refuse(43, board->lpc.place);
    if ((refusal = check_ht(board)) != 0)
        return refusal;
    if (board->lpcs == 1 && board->lpc.cascade >= bridge->pins)
        return refuse(45, board->lpc.place);
    return 0;
}

/* Rules 40 to 45. */
static uint64_t check_parts(const struct board *board)
{
    if (board->enabled == 0 || board->lios == 0 || (board->eios == 0 && board->hts == 0))
        return refuse(40, board->madt);
    for (size_t i = 0; i < board->eios; i++)
        for (size_t j = 0; j < i; j++)
            if (board->eio[i].node == board->eio[j].node)
                return refuse(41, board->eio[i].place);
    for (size_t i = 0; i < board->bios; i++)
        if (!has_hub(board, &board->bio[i]))
            return refuse(42, board->bio[i].place);
    return check_lpc_and_ht(board);
}

static bool numbers_meet(const struct bio *a, const struct bio *b)
{
    return a->base < b->base + b->pins && b->base < a->base + a->pins;
}

/* Global numbers of different sources can meet between BIOs only: LIO has 16 to 47, bases are 64 and up. */
static uint64_t check_global_numbers(struct board *board)
{
    for (size_t i = 0; i < board->bios; i++)
        for (size_t j = 0; j < i; j++)
            if (numbers_meet(&board->bio[i], &board->bio[j]))
                name_later(&board->clash, board->bio[i].place, board->bio[j].place);
    return refuse_clash(51, &board->clash);
}

static bool slots_meet(const struct msi *a, const struct msi *b)
{
    return a->start < b->start + b->count && b->start < a->start + a->count;
}

/*
 * A BIO's pins are the vectors of its hub from 0 on, and it has at least one; a slot is on every EIO, or on the HT, so it meets
 * every BIO with a pin of its number. HT vectors count as extended ones do (W-201).
 */
static uint64_t check_extended_vectors(struct board *board)
{
    for (size_t i = 0; i < board->bios; i++) {
        for (size_t j = 0; j < i; j++)
            if (board->bio[i].node == board->bio[j].node)
                name_later(&board->clash, board->bio[i].place, board->bio[j].place);
        for (size_t j = 0; j < board->msis; j++)
            if (board->msi[j].start < board->bio[i].pins)
                name_later(&board->clash, board->bio[i].place, board->msi[j].place);
    }
    for (size_t i = 0; i < board->msis; i++)
        for (size_t j = 0; j < i; j++)
            if (slots_meet(&board->msi[i], &board->msi[j]))
                name_later(&board->clash, board->msi[i].place, board->msi[j].place);
    return refuse_clash(52, &board->clash);
}

/* Both halves of the LIO may use one vector; an unused half enters nowhere. The HT enters the LIO, and no core vector (W-201). */
static uint64_t check_core_vectors(struct board *board)
{
    for (size_t i = 0; i < board->eios; i++) {
        for (size_t j = 0; j < i; j++)
            if (board->eio[i].cascade == board->eio[j].cascade)
                name_later(&board->clash, board->eio[i].place, board->eio[j].place);
        for (int half = 0; half < 2; half++)
            if (board->lio.half[half].mask != 0 && board->lio.half[half].cascade == board->eio[i].cascade)
                name_later(&board->clash, board->eio[i].place, board->lio.place);
    }
    return refuse_clash(53, &board->clash);
}

/* Rules 34 and 39 to 54. */
static uint64_t check_board(struct board *board)
{
    uint64_t refusal;

    if (board->mixed != 0)
        return refuse(34, board->mixed);
    if ((refusal = check_ids(board)) != 0)
        return refusal;
    if ((refusal = check_parts(board)) != 0)
        return refusal;
    if ((refusal = check_global_numbers(board)) != 0)
        return refusal;
    if ((refusal = check_extended_vectors(board)) != 0)
        return refusal;
    if ((refusal = check_core_vectors(board)) != 0)
        return refusal;
    if (!is_arrival(route(board, board->sci)))
        return refuse(54, board->fadt);
    return 0;
}

/* Rules 1 to 54 in one of the readings. The clash is set whatever the result is. */
static uint64_t read_board(const uint8_t *bytes, size_t length, struct board *board, enum reading reading)
{
    struct capture capture;
    struct tables tables;
    uint64_t refusal;

    board->clash = NO_CLASH;
    if ((refusal = open_capture(&capture, bytes, length)) != 0)
        return refusal;
    if ((refusal = find_tables(&capture, &tables, reading)) != 0)
        return refusal;

    board->pairs = capture.pairs;
    board->madt = tables.madt.place;
    board->fadt = tables.fadt.place;
    board->sci = u16(bytes + tables.fadt.place + 46);
    board->cores = board->enabled = 0;
    board->lios = board->hts = board->eios = board->msis = board->bios = board->lpcs = 0;
    board->mixed = 0;
    if ((refusal = walk_madt(&capture, &tables.madt, board)) != 0)
        return refusal;
    return check_board(board);
}

/* ---- The calls, for either reading ---- */

static uint64_t fill_list(const uint8_t *capture, size_t capture_len, uint8_t *list, size_t list_len, enum reading reading)
{
    struct board board;
    uint64_t refusal = read_board(capture, capture_len, &board, reading);

    if (refusal != 0)
        return refusal;
    if (list_len < 8 * board.enabled)
        return refuse(60, 0);
    for (size_t i = 0; i < board.enabled; i++) {
        put_u32(list + 8 * i, board.core[i].uid);
        put_u32(list + 8 * i + 4, board.core[i].physical_id);
    }
    return board.enabled;
}

static uint64_t route_number(const uint8_t *capture, size_t capture_len, uint32_t number, enum reading reading)
{
    struct board board;
    uint64_t refusal = read_board(capture, capture_len, &board, reading);

    return refusal != 0 ? refusal : route(&board, number);
}

static uint64_t trace_arrival(const uint8_t *capture, size_t capture_len, uint32_t vector, uint32_t number,
                              enum reading reading)
{
    struct board board;
    uint64_t refusal = read_board(capture, capture_len, &board, reading);

    return refusal != 0 ? refusal : trace(&board, vector, number);
}

static struct reference_refusal judge(const uint8_t *capture, size_t capture_len, enum reading reading)
{
    struct board board;
    uint64_t refusal = read_board(capture, capture_len, &board, reading);
    uint64_t place = refusal & ((UINT64_C(1) << REFUSAL_SHIFT) - 1);

    return (struct reference_refusal){refusal >> REFUSAL_SHIFT, place, board.clash.partner};
}

/* ---- The strict reading ---- */

uint64_t reference_read(const uint8_t *capture, size_t capture_len, uint8_t *list, size_t list_len)
{
    return fill_list(capture, capture_len, list, list_len, STRICT);
}

uint64_t reference_route(const uint8_t *capture, size_t capture_len, uint32_t number)
{
    return route_number(capture, capture_len, number, STRICT);
}

uint64_t reference_trace(const uint8_t *capture, size_t capture_len, uint32_t vector, uint32_t number)
{
    return trace_arrival(capture, capture_len, vector, number, STRICT);
}

struct reference_refusal reference_judge(const uint8_t *capture, size_t capture_len)
{
    return judge(capture, capture_len, STRICT);
}

/* ---- The ordinary reading ---- */

uint64_t reference_ordinary_read(const uint8_t *capture, size_t capture_len, uint8_t *list, size_t list_len)
{
    return fill_list(capture, capture_len, list, list_len, ORDINARY);
}

uint64_t reference_ordinary_route(const uint8_t *capture, size_t capture_len, uint32_t number)
{
    return route_number(capture, capture_len, number, ORDINARY);
}

uint64_t reference_ordinary_trace(const uint8_t *capture, size_t capture_len, uint32_t vector, uint32_t number)
{
    return trace_arrival(capture, capture_len, vector, number, ORDINARY);
}

struct reference_refusal reference_ordinary_judge(const uint8_t *capture, size_t capture_len)
{
    return judge(capture, capture_len, ORDINARY);
}

/* ---- W-211: tables of owners ---- */

static bool is_same_owner(struct reference_owner a, struct reference_owner b)
{
    return a.kind == b.kind && a.input == b.input && a.hardware_id == b.hardware_id;
}

/* Rule 63: the content of all entries counts, whichever number is looked up, and nothing else of the map that filled them in. */
static bool is_filled_from(const struct board *board, const struct reference_owners *table)
{
    for (uint32_t number = 0; number < OWNERS; number++)
        if (!is_same_owner(table->of[number], owner_of(board, number)))
            return false;
    return true;
}

uint64_t reference_fill(const uint8_t *capture, size_t capture_len, enum reading reading, struct reference_owners *table)
{
    struct board board;
    bool is_refused = read_board(capture, capture_len, &board, reading) != 0;

    for (uint32_t number = 0; number < OWNERS; number++)
        table->of[number] = is_refused ? NOBODY : owner_of(&board, number);
    return is_refused ? refuse(61, 0) : 0;
}

uint64_t reference_look_up(const uint8_t *capture, size_t capture_len, enum reading reading, const struct reference_owners *table,
                           uint32_t number, struct reference_owner *owner)
{
    struct board board;

    if (read_board(capture, capture_len, &board, reading) != 0)
        return refuse(61, 0);
    if (table != NULL && !is_filled_from(&board, table))
        return refuse(63, 0);
    *owner = table != NULL && number < OWNERS ? table->of[number] : owner_of(&board, number);
    return route_owner(&board, *owner);
}
