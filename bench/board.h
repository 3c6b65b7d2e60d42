/*
 * A board as it is thought up, and the capture that is made of it. Document 01's sections "The capture", "Tables" and
 * "MADT structures" say how a capture is laid out, and request W-212 of document 02 its version 2; here this is written,
 * where reference.c reads it.
 *
 * A board may be wrong in any way: what breaks a rule is set in the board, or in the capture's bytes afterwards.
 */
#ifndef BOARD_H
#define BOARD_H

#include <stdbool.h>
#include <stddef.h>
#include <stdint.h>

#include "random.h"

enum {
    CAPTURE_MAX = 65536,
    CAPTURE_ROOM = CAPTURE_MAX + 256, /* for captures that are too long */
    CAPTURE_VERSION = 3, /* where the header has it */
    HEADER_LENGTH = 18,  /* the descriptors follow, in version 2 behind the pairs */
    DESCRIPTOR_LENGTH = 12,
    SEGMENTS_MAX = 16,
    ENTRIES_MAX = 32,
    ENTRIES_ROOM = 48,
    TABLES_ROOM = 40,
    STRUCTURES_ROOM = 640,
    CUTS_ROOM = 32,
    RSDP_LENGTH = 36,
    TABLE_HEADER = 36,
    TABLE_REVISION = 8, /* where the header has it */
    MADT_HEADER = 44,
    FADT_MIN = 48,
    FADT_SCI = 46, /* where the FADT has the SCI number */
};

/* ---- Pairs of version 2 (W-212) ---- */

enum {
    WITH_PAIRS = 2, /* the version */
    PAIRS = 4,
    PAIR_LENGTH = 2,
    PAIRS_LENGTH = PAIRS * PAIR_LENGTH,
};

/* Where the descriptors begin: the version alone decides it. */
size_t place_of_descriptors(uint16_t version);

/* How many inputs the bridges of a hardware ID have. With number 0 the pair is empty, and its ID is free. */
struct pair {
    uint8_t hardware_id, number;
};

/* ---- Structures of the MADT ---- */

enum kind { CORE = 17, LIO = 18, HT = 19, EIO = 20, MSI = 21, BIO = 22, LPC = 23 };

enum {
    CORES_MAX = 256,
    EIOS_MAX = 4,
    BIOS_MAX = 4,
    MSIS_MAX = 4,
    CASCADE_MIN = 2,
    CASCADE_MAX = 9,
    NODES = 64,
    PINS = 64, /* of a bridge without a pair, and the most that there can be */
    SLOTS = 256,
    BASE_MIN = 64,
    BASE_MAX = 65472,
    LIO_FIRST = 16,
    LIO_INPUTS = 32,
};

/* W-201: each of the HT's eight bytes names the LIO input that 32 vectors go to. They arrive with numbers from 256 on. */
enum { HT_GROUPS = 8, HT_GROUP = 32, HT_FIRST = 256 };

enum { HT_NODE = 0 }; /* the hardware ID that a BIO has on an HT board */

/* Where the fields stand in a structure. */
enum {
    CORE_UID = 3,
    CORE_PHYSICAL_ID = 7,
    CORE_FLAGS = 11,
    LIO_CASCADES = 13,
    LIO_MASKS = 15,
    HT_BYTES = 13,
    EIO_CASCADE = 3,
    EIO_NODE = 4,
    EIO_NODE_MAP = 5,
    MSI_START = 11,
    MSI_COUNT = 15,
    BIO_HARDWARE_ID = 13,
    BIO_BASE = 15,
    LPC_BASE = 3,
    LPC_CASCADE = 13,
};

/* Four bits of an LPC's base, from this one on, are the hardware ID of its bridge: its node (W-208). */
enum { LPC_NODE_BIT = 44, LPC_NODE_BITS = 4, LPC_NODES = 1 << LPC_NODE_BITS };

/* The bytes of one structure; a broken one may have more or fewer than its length byte says. */
struct structure {
    size_t length;
    uint8_t bytes[255];
};

uint8_t length_of_kind(enum kind kind);

/* A structure of a kind with type, length and version right and every other byte random. */
struct structure random_structure(struct random *random, enum kind kind);

/* Type and length, and nothing else: the shortest structure that there can be. Its type is one that is passed over. */
enum { SHORTEST = 2, PASSED_OVER = LPC + 1 };
struct structure shortest_structure(uint8_t type);

struct structure make_core(struct random *random, uint32_t uid, uint32_t physical_id, uint32_t flags);
struct structure make_lio(struct random *random, const uint8_t cascades[2], const uint32_t masks[2]);
struct structure make_ht(struct random *random, const uint8_t inputs[HT_GROUPS]);
struct structure make_eio(struct random *random, uint8_t cascade, uint8_t node, uint64_t node_map);
struct structure make_msi(struct random *random, uint32_t start, uint32_t count);
struct structure make_bio(struct random *random, uint16_t hardware_id, uint16_t base);

/* All bits of its base but those of the node are random, or those above the node are 0, as they are in addresses. */
struct structure make_lpc(struct random *random, uint8_t node, uint16_t cascade);

/* The node of an LPC. It gets another if the four bits of its base from LPC_NODE_BIT on are set; others can be set as well. */
uint8_t node_of_lpc(const uint8_t *lpc);
void set_base_bits(uint8_t *lpc, unsigned first_bit, uint8_t number);

/* ---- The board ---- */

/* The tables that every board has, by number; those that are passed over follow. */
enum { RSDP, XSDT, MADT, FADT, OTHERS };

struct table {
    char signature[4];
    uint8_t revision;
    size_t length;
    size_t gap;         /* free bytes before it in memory */
    bool opens_segment; /* its gap begins a segment ... */
    uint64_t distance;  /* ... this far behind the one before; 0: they touch */
};

/* Where a segment ends inside a table. A table may become too short for its cut, which is then none. */
struct cut {
    size_t table, at;  /* so many bytes of the table lie before the cut */
    uint64_t distance; /* how far behind it the next segment begins; 0: they touch */
};

struct board {
    uint64_t filling; /* the seed of all bytes that mean nothing */
    uint16_t version;
    struct pair pair[PAIRS]; /* version 1 has no place for them */
    size_t tables;
    struct table table[TABLES_ROOM];
    size_t order[TABLES_ROOM]; /* the tables' numbers as they stand in memory */
    size_t entries;
    size_t entry[ENTRIES_ROOM]; /* the table that each entry of the XSDT names */
    size_t xsdt_tail;           /* bytes behind the last entry */
    uint32_t madt_flags;
    size_t madt_cut; /* not 0: the MADT ends here, inside its own header */
    uint16_t sci;
    size_t structures;
    struct structure structure[STRUCTURES_ROOM];
    uint64_t base; /* the address of the first segment */
    bool at_top;   /* the last segment ends at 2^64, whatever base says */
    size_t tail;   /* free bytes behind the last table */
    size_t cuts;
    struct cut cut[CUTS_ROOM]; /* those of one table stand in order */
};

/* An empty board: RSDP, XSDT, MADT and FADT in this order in one segment, no structures. */
void start_board(struct random *random, struct board *board);

/* Adds a table at the end of the memory, in the last segment; gives its number. */
size_t add_table(struct board *board, const char signature[4], size_t length);
void add_entry(struct board *board, size_t at, size_t table);
void add_structure(struct board *board, size_t at, const struct structure *structure);
void append_structure(struct board *board, struct structure structure);
size_t count_kind(const struct board *board, enum kind kind);

/* The bytes of the structure of a kind with a number, counted in table order from 0; there must be one. */
uint8_t *nth_of_kind(struct board *board, enum kind kind, size_t number);
void remove_kind(struct board *board, enum kind kind);

/* The first structure of a kind; NULL if there is none. */
const uint8_t *first_of_kind(const struct board *board, enum kind kind);

/* How many pins the bridges of a hardware ID have. A pair that is over 64 says nothing. */
uint8_t pins_of(const struct board *board, uint16_t hardware_id);
uint8_t pins_of_bio(const struct board *board, const uint8_t *bio);

/* Cuts the memory inside a table. A cut that is there already gets the new distance. */
void cut_table(struct board *board, size_t table, size_t at, uint64_t distance);
void remove_cut(struct board *board, size_t number);

/* Sets the lengths of XSDT and MADT, which follow from what they hold. Segments are counted by the lengths set last. */
void settle_lengths(struct board *board);
size_t count_segments(const struct board *board);

/* The length of the capture that lay_out() will make. It settles the lengths. */
size_t capture_length(struct board *board);

/* Keeps the capture within its greatest length with so many bytes more: the longest table that is passed over gives way. */
void make_room(struct board *board, size_t more);

/* ---- The capture ---- */

struct capture {
    size_t length;
    uint8_t bytes[CAPTURE_ROOM];
    /* Where the layout put things. */
    size_t descriptors; /* the first one's place */
    size_t segments;
    size_t tables;
    size_t place[TABLES_ROOM];
    size_t table_length[TABLES_ROOM];
    uint8_t sum_error[TABLES_ROOM]; /* what a table's bytes sum to; 0: its sum is good */
};

/* Fills bytes from a seed. */
void fill(uint64_t seed, uint8_t *bytes, size_t length);

/* Makes the capture, its sums all good. */
void lay_out(struct board *board, struct capture *capture);
void make_sums_good(struct capture *capture); /* ... or wrong by sum_error */

/* Its header. */
void write_pairs(uint8_t *bytes, const struct pair pair[PAIRS]);
uint64_t segment_address(const struct capture *capture, size_t number);
uint32_t segment_length(const struct capture *capture, size_t number);
void set_segment_address(struct capture *capture, size_t number, uint64_t address);
void set_segment_length(struct capture *capture, size_t number, uint32_t length);
void set_total(struct capture *capture, size_t total);

/* Little-endian numbers in bytes. */
void put_u16(uint8_t *bytes, uint16_t number);
void put_u32(uint8_t *bytes, uint32_t number);
void put_u64(uint8_t *bytes, uint64_t number);
uint16_t get_u16(const uint8_t *bytes);
uint32_t get_u32(const uint8_t *bytes);
uint64_t get_u64(const uint8_t *bytes);

#endif
