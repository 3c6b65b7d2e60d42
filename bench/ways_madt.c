/*
 * Ways to break rules 31 to 54 of a board, with 71 to 78 in the place of 36: the MADT's structures one by one, then all
 * together. What ways_capture.c says of its ways goes for these.
 *
 * A board has an HT or EIOs (W-201). Most ways take it as it is; one that is about the other kind makes it such a board first.
 */
#include "ways.h"

#include <string.h>

#include "valid.h"

/* ---- Structures in range, to break one of or to have one too many of ---- */

static bool has_core(const struct board *board, size_t field, uint32_t id)
{
    for (size_t i = 0; i < board->structures; i++)
        if (board->structure[i].bytes[0] == CORE && get_u32(board->structure[i].bytes + field) == id)
            return true;
    return false;
}

static uint32_t unused_id(struct random *random, const struct board *board, size_t field)
{
    uint32_t id;

    do
        id = (uint32_t)any(random);
    while (has_core(board, field, id));
    return id;
}

static uint8_t cascade_in_range(struct random *random)
{
    return (uint8_t)between(random, CASCADE_MIN, CASCADE_MAX);
}

static uint8_t cascade_out_of_range(struct random *random)
{
    switch (below(random, 4)) {
    case 0:
        return (uint8_t)(CASCADE_MIN - 1);
    case 1:
        return (uint8_t)(CASCADE_MAX + 1);
    case 2:
        return 0;
    default:
        return (uint8_t)between(random, CASCADE_MAX + 1, 255);
    }
}

static struct structure fresh_lio(struct random *random)
{
    uint32_t low = (uint32_t)any(random);
    uint32_t masks[2] = {low, ~low};
    uint8_t cascades[2];

    for (int half = 0; half < 2; half++)
        cascades[half] = cascade_in_range(random);
    return make_lio(random, cascades, masks);
}

static struct structure fresh_core(struct random *random, const struct board *board)
{
    uint32_t uid = unused_id(random, board, CORE_UID);
    uint32_t physical_id = unused_id(random, board, CORE_PHYSICAL_ID);

    return make_core(random, uid, physical_id, (uint32_t)below(random, 2));
}

static struct structure fresh_eio(struct random *random, const struct board *board)
{
    uint8_t cascade = cascade_in_range(random), node = unused_node(random, board);

    return make_eio(random, cascade, node, node_map(random));
}

/* Inputs that there are; whether they are wired is another matter. */
static struct structure fresh_ht(struct random *random)
{
    uint8_t inputs[HT_GROUPS];

    for (size_t i = 0; i < HT_GROUPS; i++)
        inputs[i] = (uint8_t)below(random, LIO_INPUTS);
    return make_ht(random, inputs);
}

/* On the HT, or on the node of some EIO, if there is one. */
static struct structure fresh_bio(struct random *random, const struct board *board)
{
    uint8_t node = is_ht_board(board) ? HT_NODE : NODES;

    for (size_t i = 0; i < board->structures; i++)
        if (board->structure[i].bytes[0] == EIO && (node == NODES || one_in(random, 2)))
            node = board->structure[i].bytes[EIO_NODE] % NODES;
    if (node == NODES)
        node = (uint8_t)below(random, NODES);
    return make_bio(random, node, free_base(random, board, pins_of(board, node)));
}

/* Behind a bridge that is there, if its base can name one. */
static struct structure fresh_lpc(struct random *random, const struct board *board)
{
    const uint8_t *bridge = some_bridge_for_lpc(random, board);
    uint8_t node = bridge == NULL ? (uint8_t)below(random, LPC_NODES) : bridge[BIO_HARDWARE_ID];

    return make_lpc(random, node, (uint16_t)below(random, PINS));
}

static struct structure fresh(struct random *random, const struct board *board, enum kind kind)
{
    switch (kind) {
    case CORE:
        return fresh_core(random, board);
    case LIO:
        return fresh_lio(random);
    case HT:
        return fresh_ht(random);
    case EIO:
        return fresh_eio(random, board);
    case MSI:
        return make_msi(random, (uint32_t)between(random, PINS, SLOTS - 1), 1);
    case BIO:
        return fresh_bio(random, board);
    default: /* LPC */
        return fresh_lpc(random, board);
    }
}

static void insert(struct random *random, struct board *board, struct structure structure)
{
    add_structure(board, below(random, board->structures + 1), &structure);
}

static void insert_fresh(struct random *random, struct board *board, enum kind kind)
{
    insert(random, board, fresh(random, board, kind));
}

/* Makes sure of so many structures of a kind. */
static void have(struct random *random, struct board *board, enum kind kind, size_t count)
{
    while (count_kind(board, kind) < count)
        insert_fresh(random, board, kind);
}

/* The bytes of some structure of a kind; one is made if there is none. */
static uint8_t *some(struct random *random, struct board *board, enum kind kind)
{
    if (count_kind(board, kind) == 0)
        insert_fresh(random, board, kind);
    return nth_of_kind(board, kind, below(random, count_kind(board, kind)));
}

struct two {
    uint8_t *first, *second;
};

/* Two structures of a kind, in any order; made if there are not enough, and sometimes even so. */
static struct two some_two(struct random *random, struct board *board, enum kind kind, size_t limit)
{
    while (count_kind(board, kind) < 2 || (count_kind(board, kind) < limit && one_in(random, 3)))
        insert_fresh(random, board, kind);

    size_t count = count_kind(board, kind);
    size_t first = below(random, count);
    size_t second = (first + between(random, 1, count - 1)) % count;

    return (struct two){nth_of_kind(board, kind, first), nth_of_kind(board, kind, second)};
}

static enum kind known_kind(struct random *random)
{
    return (enum kind)between(random, CORE, LPC);
}

/* ---- CORE that are enabled, and spare ones, whose IDs mean nothing (W-203) ---- */

static void enable(uint8_t *core)
{
    core[CORE_FLAGS] |= 1;
}

/* Disables all CORE of a board. They get the UID of one of them, or its physical ID, or both. */
static void make_all_spare(struct random *random, struct board *board)
{
    const uint8_t *one = some(random, board, CORE);
    uint32_t uid = get_u32(one + CORE_UID), physical_id = get_u32(one + CORE_PHYSICAL_ID);
    bool uid_alike = !one_in(random, 3), physical_id_alike = !uid_alike || one_in(random, 2);

    for (size_t i = 0; i < board->structures; i++) {
        uint8_t *bytes = board->structure[i].bytes;

        if (bytes[0] != CORE)
            continue;
        if (uid_alike)
            put_u32(bytes + CORE_UID, uid);
        if (physical_id_alike)
            put_u32(bytes + CORE_PHYSICAL_ID, physical_id);
        put_u32(bytes + CORE_FLAGS, 0);
    }
}

/* Puts some spare CORE that have an ID here and there: before, between and behind those that have it already. */
static void insert_spares(struct random *random, struct board *board, size_t field, uint32_t id)
{
    for (size_t more = below(random, 8); more > 0 && count_kind(board, CORE) < CORES_MAX; more--) {
        struct structure spare = random_structure(random, CORE);

        put_u32(spare.bytes + CORE_FLAGS, 0);
        put_u32(spare.bytes + field, id);
        insert(random, board, spare);
    }
}

/* ---- Bridges: their hardware IDs decide on their pins (W-212), and on which is the LPC's (W-208) ---- */

/* A bridge that has got shorter may lack the LPC's pin: then the LPC gets one that is there. */
static void put_lpc_on_a_pin(struct random *random, struct board *board)
{
    const uint8_t *bridge = bridge_of_lpc(board);

    if (bridge == NULL)
        return;

    uint8_t pins = pins_of_bio(board, bridge), *lpc = nth_of_kind(board, LPC, 0);

    if (get_u16(lpc + LPC_CASCADE) >= pins)
        put_u16(lpc + LPC_CASCADE, (uint16_t)below(random, pins));
}

/* Bridges may have got new hardware IDs. An LPC that has lost its own goes behind another, or away if its base can name none. */
static void put_lpc_behind_a_bridge(struct random *random, struct board *board)
{
    const uint8_t *bridge = some_bridge_for_lpc(random, board);

    if (bridge == NULL)
        remove_kind(board, LPC);
    else if (count_kind(board, LPC) != 0 && bridge_of_lpc(board) == NULL)
        set_base_bits(nth_of_kind(board, LPC, 0), LPC_NODE_BIT, bridge[BIO_HARDWARE_ID]);
    put_lpc_on_a_pin(random, board);
}

/* The EIO of a node, with its bridges, gets another node. */
static void move_node(struct board *board, uint16_t from, uint8_t to)
{
    for (size_t i = 0; i < board->structures; i++) {
        uint8_t *bytes = board->structure[i].bytes;

        if (bytes[0] == EIO && bytes[EIO_NODE] == from)
            bytes[EIO_NODE] = to;
        if (bytes[0] == BIO && get_u16(bytes + BIO_HARDWARE_ID) == from)
            put_u16(bytes + BIO_HARDWARE_ID, to);
    }
}

/* Makes sure of a bridge that an LPC's base can name: if there is none, one gets a node from 0 to 15 that no hub has. */
static void have_bridge_for_lpc(struct random *random, struct board *board)
{
    uint8_t *bio = some(random, board, BIO);
    uint8_t node;

    if (some_bridge_for_lpc(random, board) != NULL)
        return;
    do
        node = (uint8_t)below(random, LPC_NODES);
    while (has_hub(board, node));
    move_node(board, get_u16(bio + BIO_HARDWARE_ID), node);
}

/* Bridges with new hardware IDs may have more pins than before: all get bases at which they own no number in common. */
static void part_bridges(struct random *random, struct board *board)
{
    for (size_t i = 0; i < board->structures; i++) {
        uint8_t *bytes = board->structure[i].bytes;

        if (bytes[0] == BIO)
            put_u16(bytes + BIO_BASE, free_base(random, board, pins_of_bio(board, bytes)));
    }
}

/*
 * Sets the pins of a bridge to fewer than 64, if it has so many; gives how many it has. Others keep theirs. A bridge whose
 * hardware ID another way has broken may have no pair, and so keeps 64.
 */
static uint8_t shorten(struct random *random, struct board *board, const uint8_t *bio)
{
    make_version_2(random, board);
    if (pins_of_bio(board, bio) == PINS)
        give_pair(random, board, (uint8_t)get_u16(bio + BIO_HARDWARE_ID), (uint8_t)between(random, 1, PINS - 1));
    return pins_of_bio(board, bio);
}

/* A pin that a bridge with fewer than 64 has not; often the first such. */
static uint16_t missing_pin(struct random *random, uint8_t pins)
{
    return pins == PINS || one_in(random, 2) ? pins : (uint16_t)between(random, pins, PINS - 1);
}

/* ---- HT or EIO (W-201) ---- */

static bool is_on_line(const struct board *board, uint8_t line)
{
    for (size_t i = 0; i < board->structures; i++) {
        const uint8_t *bytes = board->structure[i].bytes;

        if (bytes[0] == EIO && bytes[EIO_CASCADE] == line)
            return true;
        for (size_t half = 0; half < 2 && bytes[0] == LIO; half++)
            if (get_u32(bytes + LIO_MASKS + 4 * half) != 0 && bytes[LIO_CASCADES + half] == line)
                return true;
    }
    return false;
}

/* A line that neither an EIO nor the LIO enters; any, if there is none. */
static uint8_t free_cascade(struct random *random, const struct board *board)
{
    const size_t lines = CASCADE_MAX - CASCADE_MIN + 1;
    size_t first = below(random, lines);

    for (size_t i = 0; i < lines; i++) {
        uint8_t line = (uint8_t)(CASCADE_MIN + (first + i) % lines);

        if (!is_on_line(board, line))
            return line;
    }
    return cascade_in_range(random);
}

/* An HT board gets an EIO in the place of its HT, and keeps the rules that it kept: the node is that of its bridge. */
static void become_eio_board(struct random *random, struct board *board)
{
    for (size_t i = 0; i < board->structures; i++)
        if (board->structure[i].bytes[0] == HT) {
            uint8_t cascade = free_cascade(random, board);

            board->structure[i] = make_eio(random, cascade, HT_NODE, node_map(random));
        }
}

/* All bridges go but one, the LPC's if there is an LPC. It keeps its pins, and gets hardware ID 0, as the LPC does. */
static void keep_one_bridge(struct random *random, struct board *board)
{
    bool for_lpc = bridge_of_lpc(board) != NULL;
    const uint8_t *bridge = for_lpc ? bridge_of_lpc(board) : some_bio(random, board);

    if (bridge == NULL)
        return;

    uint8_t pins = pins_of_bio(board, bridge);
    struct structure kept = make_bio(random, HT_NODE, get_u16(bridge + BIO_BASE));

    remove_kind(board, BIO);
    insert(random, board, kept);
    if (for_lpc)
        set_base_bits(nth_of_kind(board, LPC, 0), LPC_NODE_BIT, HT_NODE);
    if (board->version == WITH_PAIRS)
        give_pair(random, board, HT_NODE, pins);
}

/* The first LIO, if another way has made two; made if there is none. */
static uint8_t *first_lio(struct random *random, struct board *board)
{
    have(random, board, LIO, 1);
    return nth_of_kind(board, LIO, 0);
}

/* Wires inputs of the LIO that are not, so many times. */
static void wire_inputs(struct random *random, struct board *board, size_t count)
{
    uint8_t *lio = first_lio(random, board);

    for (; count > 0 && wired_inputs(board) != UINT32_MAX; count--) {
        size_t half = below(random, 2);
        uint8_t *mask = lio + LIO_MASKS + 4 * half;

        if (get_u32(mask) == 0)
            lio[LIO_CASCADES + half] = cascade_in_range(random);
        put_u32(mask, get_u32(mask) | UINT32_C(1) << some_input(random, ~wired_inputs(board)));
    }
}

/*
 * An EIO board gets an HT in the place of its EIOs, and keeps the rules that it kept: there are inputs to name, one bridge is
 * left at most, and the SCI arrives. Gives the HT's bytes.
 */
static uint8_t *become_ht_board(struct random *random, struct board *board)
{
    if (is_ht_board(board))
        return nth_of_kind(board, HT, 0);
    keep_one_bridge(random, board);
    wire_inputs(random, board, 2);
    remove_kind(board, EIO);
    insert(random, board, wired_ht(random, board));
    board->sci = arriving_number(random, board);
    return nth_of_kind(board, HT, 0);
}

/* An input that is not wired. If all are, the LIO loses one that no HT names. */
static uint8_t unwired_input(struct random *random, struct board *board)
{
    uint8_t *lio = first_lio(random, board);

    if (wired_inputs(board) == UINT32_MAX) {
        uint32_t lost = UINT32_C(1) << some_input(random, ~named_inputs(board));

        for (int half = 0; half < 2; half++)
            put_u32(lio + LIO_MASKS + 4 * half, get_u32(lio + LIO_MASKS + 4 * half) & ~lost);
    }
    return some_input(random, ~wired_inputs(board));
}

/* ---- 31 to 38 and 71 to 78: structures in turn ---- */

static void one_byte_left(struct random *random, struct board *board)
{
    append_structure(board, (struct structure){.length = 1, .bytes = {(uint8_t)any(random)}});
}

static void length_under_2(struct random *random, struct board *board)
{
    struct structure structure = one_in(random, 2) ? passed_over_structure(random) : random_structure(random, known_kind(random));

    structure.bytes[1] = (uint8_t)below(random, 2);
    insert(random, board, structure);
}

static void past_the_end(struct random *random, struct board *board)
{
    struct structure structure = one_in(random, 2) ? passed_over_structure(random) : random_structure(random, known_kind(random));

    if (structure.length == 255)
        structure.length = 254;
    structure.bytes[1] = (uint8_t)between(random, structure.length + 1, one_in(random, 2) ? structure.length + 1 : 255);
    append_structure(board, structure);
}

static void wrong_length(struct random *random, struct board *board)
{
    struct structure structure = random_structure(random, known_kind(random));
    size_t right = structure.length;

    if (one_in(random, 2))
        structure.length = one_in(random, 2) ? right - 1 : right + 1;
    else
        do
            structure.length = between(random, 2, 255);
        while (structure.length == right);
    for (size_t i = right; i < structure.length; i++)
        structure.bytes[i] = (uint8_t)any(random);
    structure.bytes[1] = (uint8_t)structure.length;
    insert(random, board, structure);
}

static void wrong_structure_version(struct random *random, struct board *board)
{
    struct structure structure = random_structure(random, known_kind(random));

    spoil(random, &structure.bytes[2]);
    insert(random, board, structure);
}

static uint32_t reserved_flag(struct random *random)
{
    return UINT32_C(1) << between(random, 1, 31);
}

static void reserved_flags(struct random *random, struct board *board)
{
    uint8_t *core = some(random, board, CORE);

    put_u32(core + CORE_FLAGS, get_u32(core + CORE_FLAGS) | reserved_flag(random));
}

/* They are checked there too (W-203). */
static void reserved_flags_of_disabled(struct random *random, struct board *board)
{
    uint8_t *core = some(random, board, CORE);

    put_u32(core + CORE_FLAGS, reserved_flag(random));
}

/* 71 to 78. Of several fields out of their range the lowest number is told, so some ways break more than the field they name. */

static void lio_cascade(struct random *random, struct board *board)
{
    uint8_t *lio = some(random, board, LIO);
    size_t half = below(random, 2);

    if (get_u32(lio + LIO_MASKS + 4 * half) == 0)
        put_u32(lio + LIO_MASKS + 4 * half, UINT32_C(1) << below(random, 32));
    lio[LIO_CASCADES + half] = cascade_out_of_range(random);
}

static void eio_cascade(struct random *random, struct board *board)
{
    uint8_t *eio = some(random, board, EIO);

    eio[EIO_CASCADE] = cascade_out_of_range(random);
}

static uint8_t node_out_of_range(struct random *random)
{
    return (uint8_t)between(random, NODES, one_in(random, 2) ? NODES : 255);
}

static void eio_cascade_node_and_map(struct random *random, struct board *board)
{
    uint8_t *eio = some(random, board, EIO);

    eio[EIO_CASCADE] = cascade_out_of_range(random);
    eio[EIO_NODE] = node_out_of_range(random);
    put_u64(eio + EIO_NODE_MAP, 0);
}

static void eio_cascade_and_map(struct random *random, struct board *board)
{
    uint8_t *eio = some(random, board, EIO);

    eio[EIO_CASCADE] = cascade_out_of_range(random);
    put_u64(eio + EIO_NODE_MAP, 0);
}

static void eio_node(struct random *random, struct board *board)
{
    uint8_t *eio = some(random, board, EIO);

    eio[EIO_NODE] = node_out_of_range(random);
}

static void eio_node_and_map(struct random *random, struct board *board)
{
    uint8_t *eio = some(random, board, EIO);

    eio[EIO_NODE] = node_out_of_range(random);
    put_u64(eio + EIO_NODE_MAP, 0);
}

/* A field of two bytes that is not below its limit: just there, or anywhere above. */
static void put_past(struct random *random, uint8_t *field, uint16_t limit)
{
    put_u16(field, (uint16_t)between(random, limit, one_in(random, 2) ? limit : UINT16_MAX));
}

/* One with a low byte that would be right. */
static void put_high_byte(struct random *random, uint8_t *field)
{
    field[1] = (uint8_t)between(random, 1, 255);
}

static void bio_hardware_id(struct random *random, struct board *board)
{
    put_past(random, some(random, board, BIO) + BIO_HARDWARE_ID, NODES);
}

static void bio_hardware_id_high_byte(struct random *random, struct board *board)
{
    put_high_byte(random, some(random, board, BIO) + BIO_HARDWARE_ID);
}

static uint16_t base_out_of_range(struct random *random)
{
    uint64_t low = one_in(random, 2) ? BASE_MIN - 1 : below(random, BASE_MIN);
    uint64_t high = one_in(random, 2) ? BASE_MAX + 1 : between(random, BASE_MAX + 1, UINT16_MAX);

    return (uint16_t)(one_in(random, 2) ? low : high);
}

static void bio_hardware_id_and_base(struct random *random, struct board *board)
{
    uint8_t *bio = some(random, board, BIO);

    put_u16(bio + BIO_HARDWARE_ID, (uint16_t)between(random, NODES, UINT16_MAX));
    put_u16(bio + BIO_BASE, base_out_of_range(random));
}

static void eio_node_map(struct random *random, struct board *board)
{
    put_u64(some(random, board, EIO) + EIO_NODE_MAP, 0);
}

static void msi_no_slots(struct random *random, struct board *board)
{
    put_u32(some(random, board, MSI) + MSI_COUNT, 0);
}

/* The end is past 256 as well. */
static void msi_no_slots_past_256(struct random *random, struct board *board)
{
    uint8_t *msi = some(random, board, MSI);

    put_u32(msi + MSI_START, (uint32_t)between(random, SLOTS + 1, one_in(random, 2) ? SLOTS + 64 : UINT32_MAX));
    put_u32(msi + MSI_COUNT, 0);
}

static void msi_past_256(struct random *random, struct board *board)
{
    uint8_t *msi = some(random, board, MSI);
    uint32_t start = (uint32_t)below(random, SLOTS + 8);
    uint32_t least = start < SLOTS ? SLOTS + 1 - start : 1;

    put_u32(msi + MSI_START, start);
    put_u32(msi + MSI_COUNT, (uint32_t)between(random, least, one_in(random, 2) ? least + 8 : UINT32_MAX));
}

/* Added in 32 bits, start and count would seem to end in range. */
static void msi_wraps(struct random *random, struct board *board)
{
    uint8_t *msi = some(random, board, MSI);
    uint32_t start = UINT32_MAX - (uint32_t)below(random, 512);

    put_u32(msi + MSI_START, start);
    put_u32(msi + MSI_COUNT, (uint32_t)below(random, SLOTS + 1) - start);
}

static void bio_base(struct random *random, struct board *board)
{
    uint8_t *bio = some(random, board, BIO);

    put_u16(bio + BIO_BASE, base_out_of_range(random));
}

/* The range is that of 64 pins (W-212), also where fewer would end at 65,535 or before. */
static void base_of_short_bridge(struct random *random, struct board *board)
{
    uint8_t *bio = some(random, board, BIO);
    uint8_t pins = shorten(random, board, bio);

    put_u16(bio + BIO_BASE, (uint16_t)(BASE_MAX + 1 + (pins == PINS ? 0 : below(random, PINS - pins))));
}

static void lpc_cascade(struct random *random, struct board *board)
{
    put_past(random, some(random, board, LPC) + LPC_CASCADE, PINS);
}

static void lpc_cascade_high_byte(struct random *random, struct board *board)
{
    put_high_byte(random, some(random, board, LPC) + LPC_CASCADE);
}

/* A byte over 31, often just above. */
static void spoil_ht_byte(struct random *random, uint8_t *ht, size_t group)
{
    static const uint8_t edges[] = {LIO_INPUTS, LIO_INPUTS + 1, 2 * LIO_INPUTS, UINT8_MAX};
    uint8_t any_above = (uint8_t)between(random, LIO_INPUTS, UINT8_MAX);

    ht[HT_BYTES + group] = one_in(random, 4) ? any_above : edges[below(random, sizeof edges)];
}

/* On an EIO board the HT is one that must not be there: 78 comes before 34. */
static void ht_byte(struct random *random, struct board *board)
{
    uint8_t *ht = some(random, board, HT);

    spoil_ht_byte(random, ht, below(random, HT_GROUPS));
}

static void several_ht_bytes(struct random *random, struct board *board)
{
    uint8_t *ht = become_ht_board(random, board);

    for (size_t group = below(random, HT_GROUPS); group < HT_GROUPS; group++)
        spoil_ht_byte(random, ht, group);
}

/* There is no 38 for it. */
static void surplus_ht_byte(struct random *random, struct board *board)
{
    (void)become_ht_board(random, board);
    append_structure(board, fresh_ht(random));
    spoil_ht_byte(random, board->structure[board->structures - 1].bytes, below(random, HT_GROUPS));
}

static void masks_share_a_bit(struct random *random, struct board *board)
{
    uint8_t *lio = some(random, board, LIO);
    uint32_t shared = UINT32_C(1) << below(random, 32);

    for (int half = 0; half < 2; half++) {
        put_u32(lio + LIO_MASKS + 4 * half, get_u32(lio + LIO_MASKS + 4 * half) | shared);
        lio[LIO_CASCADES + half] = cascade_in_range(random);
    }
}

/* 71 comes before 37. */
static void lio_cascade_and_shared_bit(struct random *random, struct board *board)
{
    masks_share_a_bit(random, board);
    lio_cascade(random, board);
}

/* One too many, which is also broken in itself: 35, 71 to 78 and 37 come before 38. */

static void surplus_core_with_flags(struct random *random, struct board *board)
{
    have(random, board, CORE, CORES_MAX);
    append_structure(board, make_core(random, 0, 0, reserved_flag(random)));
}

static void surplus_cascade(struct random *random, struct board *board)
{
    static const uint32_t masks[2] = {1, 0};
    uint8_t cascades[2] = {cascade_out_of_range(random), 0};

    if (one_in(random, 2)) {
        have(random, board, LIO, 1);
        append_structure(board, make_lio(random, cascades, masks));
    } else {
        have(random, board, EIO, EIOS_MAX);
        append_structure(board, make_eio(random, cascades[0], 0, 1));
    }
}

static void surplus_node(struct random *random, struct board *board)
{
    if (one_in(random, 2)) {
        have(random, board, EIO, EIOS_MAX);
        append_structure(board, make_eio(random, CASCADE_MIN, NODES, 1));
    } else {
        have(random, board, BIO, BIOS_MAX);
        append_structure(board, make_bio(random, NODES, BASE_MIN));
    }
}

static void surplus_node_map(struct random *random, struct board *board)
{
    have(random, board, EIO, EIOS_MAX);
    append_structure(board, make_eio(random, CASCADE_MIN, 0, 0));
}

static void surplus_no_slots(struct random *random, struct board *board)
{
    have(random, board, MSI, MSIS_MAX);
    append_structure(board, make_msi(random, 0, 0));
}

static void surplus_end(struct random *random, struct board *board)
{
    have(random, board, MSI, MSIS_MAX);
    append_structure(board, make_msi(random, SLOTS, 1));
}

static void surplus_base(struct random *random, struct board *board)
{
    have(random, board, BIO, BIOS_MAX);
    append_structure(board, make_bio(random, 0, BASE_MIN - 1));
}

static void surplus_lpc_cascade(struct random *random, struct board *board)
{
    have(random, board, LPC, 1);
    append_structure(board, make_lpc(random, 0, PINS));
}

static void surplus_lio_with_shared_bit(struct random *random, struct board *board)
{
    static const uint8_t cascades[2] = {CASCADE_MIN, CASCADE_MAX};
    static const uint32_t masks[2] = {3, 6};

    have(random, board, LIO, 1);
    append_structure(board, make_lio(random, cascades, masks));
}

static void too_many_cores(struct random *random, struct board *board)
{
    have(random, board, CORE, CORES_MAX + 1);
}

/* Those that are disabled count as well. */
static void too_many_spare_cores(struct random *random, struct board *board)
{
    have(random, board, CORE, CORES_MAX + 1);
    make_all_spare(random, board);
    if (one_in(random, 2))
        enable(some(random, board, CORE));
}

static void two_lios(struct random *random, struct board *board)
{
    have(random, board, LIO, 2);
}

static void too_many_eios(struct random *random, struct board *board)
{
    have(random, board, EIO, EIOS_MAX + 1);
}

static void too_many_msis(struct random *random, struct board *board)
{
    have(random, board, MSI, MSIS_MAX + 1);
}

static void too_many_bios(struct random *random, struct board *board)
{
    have(random, board, BIO, BIOS_MAX + 1);
}

static void two_lpcs(struct random *random, struct board *board)
{
    have(random, board, LPC, 2);
}

/* Beside an HT too: 38 comes before 34, wherever the HT stands. */
static void too_many_eios_beside_ht(struct random *random, struct board *board)
{
    have(random, board, HT, 1);
    have(random, board, EIO, EIOS_MAX + 1);
}

/* ---- 34 and 39 to 54: the board as a whole ---- */

/* 34: HT and EIO, or two HT. The first structure that gives the board both, or a second HT, is named. */

/* Often of the node that the HT's bridge has. */
static void insert_eio_beside_ht(struct random *random, struct board *board)
{
    struct structure eio = fresh_eio(random, board);

    if (one_in(random, 2))
        eio.bytes[EIO_NODE] = HT_NODE;
    insert(random, board, eio);
}

/* One or two of the kind that the board has not. */
static void ht_and_eio(struct random *random, struct board *board)
{
    bool eio = is_ht_board(board);

    for (size_t more = between(random, 1, 2); more > 0; more--)
        if (eio)
            insert_eio_beside_ht(random, board);
        else
            insert_fresh(random, board, HT);
}

/* One is the first structure of all, the other the last. */
static void ht_and_eio_far_apart(struct random *random, struct board *board)
{
    struct structure ht = fresh_ht(random), eio = fresh_eio(random, board);
    bool ht_first = one_in(random, 2);

    remove_kind(board, HT);
    remove_kind(board, EIO);
    add_structure(board, 0, ht_first ? &ht : &eio);
    append_structure(board, ht_first ? eio : ht);
}

/* The second one may be the first one again. */
static void two_hts(struct random *random, struct board *board)
{
    struct structure ht = fresh_ht(random);
    const uint8_t *first = become_ht_board(random, board);

    if (one_in(random, 2))
        memcpy(ht.bytes, first, ht.length);
    for (size_t more = between(random, 1, 2); more > 0; more--)
        insert(random, board, ht);
}

/* Several of each, in any order: HT, EIO, HT among them. */
static void hts_among_eios(struct random *random, struct board *board)
{
    remove_kind(board, HT);
    remove_kind(board, EIO);
    for (size_t more = between(random, 1, 3); more > 0; more--)
        insert_fresh(random, board, HT);
    for (size_t more = between(random, 1, EIOS_MAX); more > 0; more--)
        insert_eio_beside_ht(random, board);
}

/*
 * Two enabled CORE have an ID in common (W-203). Spare ones that have it too are around them: a reader that names one of
 * these, compares with one or stops at one gives another place or another number.
 */

/* The CORE of a number gets an ID that another one has; gives whether this is the UID or the physical ID, as its offset. */
static size_t share_id(struct random *random, struct board *board, size_t of, size_t by)
{
    uint8_t *first = nth_of_kind(board, CORE, of), *second = nth_of_kind(board, CORE, by);
    size_t field = one_in(random, 2) ? CORE_UID : CORE_PHYSICAL_ID;

    put_u32(second + field, get_u32(first + field));
    enable(first);
    enable(second);
    return field;
}

/* The same, with spare ones around. */
static void repeat_id(struct random *random, struct board *board, size_t of, size_t by)
{
    size_t field = share_id(random, board, of, by);

    insert_spares(random, board, field, get_u32(nth_of_kind(board, CORE, of) + field));
}

/* As many CORE as there may be, often all of them enabled, with IDs in an order. */
static void have_most_cores(struct random *random, struct board *board)
{
    bool all_enabled = one_in(random, 2);

    have(random, board, CORE, CORES_MAX);
    for (size_t i = 0; i < board->structures && all_enabled; i++)
        if (board->structure[i].bytes[0] == CORE)
            enable(board->structure[i].bytes);
    give_ids(random, board);
}

/* Makes sure of some CORE, sometimes of as many as there may be; gives how many there are. */
static size_t have_cores(struct random *random, struct board *board, size_t least)
{
    have(random, board, CORE, least);
    if (one_in(random, 4))
        have_most_cores(random, board);
    return count_kind(board, CORE);
}

static void repeat_any_id(struct random *random, struct board *board)
{
    size_t count = count_kind(board, CORE), of = below(random, count);

    repeat_id(random, board, of, (of + between(random, 1, count - 1)) % count);
}

static void repeated_id(struct random *random, struct board *board)
{
    have_cores(random, board, between(random, 2, 4));
    repeat_any_id(random, board);
}

static void repeated_id_of_first_two(struct random *random, struct board *board)
{
    have_cores(random, board, 2);
    repeat_id(random, board, 0, 1);
}

static void repeated_id_of_last_two(struct random *random, struct board *board)
{
    size_t count = have_cores(random, board, 2);

    repeat_id(random, board, count - 2, count - 1);
}

static void repeated_id_of_first_and_last(struct random *random, struct board *board)
{
    size_t count = have_cores(random, board, 2);

    repeat_id(random, board, 0, count - 1);
}

/* Which of them is named depends on which of the three stands first. */
static void uid_of_one_physical_id_of_another(struct random *random, struct board *board)
{
    size_t count = have_cores(random, board, 3);
    size_t by = below(random, count), to_one = between(random, 1, count - 1), to_other = between(random, 1, count - 2);
    uint8_t *core = nth_of_kind(board, CORE, by), *one = nth_of_kind(board, CORE, (by + to_one) % count);
    uint8_t *other = nth_of_kind(board, CORE, (by + to_other + (to_other >= to_one)) % count);

    put_u32(core + CORE_UID, get_u32(one + CORE_UID));
    put_u32(core + CORE_PHYSICAL_ID, get_u32(other + CORE_PHYSICAL_ID));
    enable(core);
    enable(one);
    enable(other);
    insert_spares(random, board, CORE_UID, get_u32(core + CORE_UID));
}

/* The first CORE that repeats an earlier one's is named, whichever pair was made first. */
static void several_repeated_ids(struct random *random, struct board *board)
{
    have_cores(random, board, between(random, 4, 8));
    for (size_t more = between(random, 2, 4); more > 0; more--)
        repeat_any_id(random, board);
}

/* Of four CORE the first and the last have an ID in common, and the two between them: the third is named. */
static void repeated_ids_inside_repeated_ids(struct random *random, struct board *board)
{
    size_t count = have_cores(random, board, between(random, 4, 8));
    size_t first = below(random, count - 3), last = between(random, first + 3, count - 1);
    size_t second = between(random, first + 1, last - 2), third = between(random, second + 1, last - 1);

    share_id(random, board, first, last);
    share_id(random, board, second, third);
}

static void all_alike_two_enabled(struct random *random, struct board *board)
{
    struct two cores = some_two(random, board, CORE, CORES_MAX);

    make_all_spare(random, board);
    enable(cores.first);
    enable(cores.second);
}

static void none_enabled(struct random *random, struct board *board)
{
    if (one_in(random, 2)) {
        remove_kind(board, CORE);
        return;
    }
    for (size_t i = 0; i < board->structures; i++)
        if (board->structure[i].bytes[0] == CORE)
            put_u32(board->structure[i].bytes + CORE_FLAGS, 0);
}

static void no_lio(struct random *random, struct board *board)
{
    (void)random;
    remove_kind(board, LIO);
}

static void no_hub(struct random *random, struct board *board)
{
    (void)random;
    remove_kind(board, EIO);
    remove_kind(board, HT);
}

/* The HT is not enough. */
static void ht_without_lio(struct random *random, struct board *board)
{
    (void)become_ht_board(random, board);
    remove_kind(board, LIO);
}

static void repeat_node(struct random *random, struct board *board)
{
    struct two eios = some_two(random, board, EIO, EIOS_MAX);

    eios.second[EIO_NODE] = eios.first[EIO_NODE];
}

static void repeated_node(struct random *random, struct board *board)
{
    become_eio_board(random, board);
    repeat_node(random, board);
}

/* On an HT board its hardware ID is other than 0 (W-201). */
static void bio_without_hub(struct random *random, struct board *board)
{
    uint8_t *bio = some(random, board, BIO);

    put_u16(bio + BIO_HARDWARE_ID, unused_node(random, board));
}

/* An LPC may be behind the bridge all the same. */
static void bio_beside_ht(struct random *random, struct board *board)
{
    (void)become_ht_board(random, board);
    bio_without_hub(random, board);
    put_lpc_behind_a_bridge(random, board);
}

/* 34 comes before 39, 40, 41 and 42. */

static void ht_and_eio_and_repeated_id(struct random *random, struct board *board)
{
    ht_and_eio(random, board);
    repeated_id(random, board);
}

static void ht_and_eio_none_enabled(struct random *random, struct board *board)
{
    ht_and_eio(random, board);
    none_enabled(random, board);
}

static void ht_and_eio_no_lio(struct random *random, struct board *board)
{
    ht_and_eio(random, board);
    no_lio(random, board);
}

static void ht_and_repeated_node(struct random *random, struct board *board)
{
    have(random, board, HT, 1);
    repeat_node(random, board);
}

static void ht_and_eio_and_bio_without_hub(struct random *random, struct board *board)
{
    ht_and_eio(random, board);
    bio_without_hub(random, board);
}

/* It comes behind all that a structure can break, wherever that stands. */

static void ht_and_eio_one_byte_left(struct random *random, struct board *board)
{
    ht_and_eio(random, board);
    one_byte_left(random, board);
}

static void ht_and_eio_wrong_length(struct random *random, struct board *board)
{
    ht_and_eio(random, board);
    wrong_length(random, board);
}

static void ht_and_eio_wrong_version(struct random *random, struct board *board)
{
    ht_and_eio(random, board);
    wrong_structure_version(random, board);
}

static void ht_and_eio_reserved_flags(struct random *random, struct board *board)
{
    ht_and_eio(random, board);
    reserved_flags(random, board);
}

static void ht_and_eio_shared_bit(struct random *random, struct board *board)
{
    ht_and_eio(random, board);
    masks_share_a_bit(random, board);
}

static void lpc_without_bio(struct random *random, struct board *board)
{
    remove_kind(board, BIO);
    (void)some(random, board, LPC);
}

/* W-208: there are bridges, and the LPC is behind none of them. What the bits beside its node name does not matter. */

/* A node that the LPC's base can name, and that no bridge has: this one or the next. */
static uint8_t node_without_bio(const struct board *board, uint8_t node, int step)
{
    while (has_bio(board, node))
        node = (uint8_t)(node + LPC_NODES + step) % LPC_NODES;
    return node;
}

static void lpc_of_no_bridge(struct random *random, struct board *board)
{
    have_bridge_for_lpc(random, board);

    uint8_t *lpc = some(random, board, LPC);

    set_base_bits(lpc, LPC_NODE_BIT, node_without_bio(board, (uint8_t)below(random, LPC_NODES), 1));
    name_bridge_beside_node(random, board, lpc);
}

/* The bridge's hardware ID has the LPC's node in its low four bits, and more above them. */
static void lpc_16_below_a_bridge(struct random *random, struct board *board)
{
    become_eio_board(random, board);
    have(random, board, BIO, 1);
    have(random, board, LPC, 1);

    uint16_t hardware_id = get_u16(some(random, board, BIO) + BIO_HARDWARE_ID);
    uint8_t node, above;

    do {
        node = node_without_bio(board, (uint8_t)below(random, LPC_NODES), 1);
        above = (uint8_t)(node + LPC_NODES * between(random, 1, NODES / LPC_NODES - 1));
    } while (has_hub(board, above));
    move_node(board, hardware_id, above);
    set_base_bits(some(random, board, LPC), LPC_NODE_BIT, node);
}

static void lpc_next_to_a_bridge(struct random *random, struct board *board)
{
    have_bridge_for_lpc(random, board);

    uint8_t *lpc = some(random, board, LPC);
    uint8_t bridge = some_bridge_for_lpc(random, board)[BIO_HARDWARE_ID];

    set_base_bits(lpc, LPC_NODE_BIT, node_without_bio(board, bridge, one_in(random, 2) ? 1 : -1));
}

/* Every bridge has a higher hardware ID. */
static void lpc_of_node_0_without_bio(struct random *random, struct board *board)
{
    become_eio_board(random, board);
    have(random, board, BIO, 1);
    if (has_bio(board, 0))
        move_node(board, 0, unused_node(random, board));
    set_base_bits(some(random, board, LPC), LPC_NODE_BIT, 0);
}

/* The LPC is behind a bridge, and on a pin that this one lacks. Other bridges may have the pin. */
static void lpc_past_its_bridge(struct random *random, struct board *board)
{
    have_bridge_for_lpc(random, board);
    have(random, board, LPC, 1);
    put_lpc_behind_a_bridge(random, board);

    uint8_t pins = shorten(random, board, bridge_of_lpc(board));

    put_u16(nth_of_kind(board, LPC, 0) + LPC_CASCADE, missing_pin(random, pins));
}

/* 42 comes before 43 and 45. */
static void bio_without_hub_and_lpc_of_no_bridge(struct random *random, struct board *board)
{
    bio_without_hub(random, board);
    lpc_of_no_bridge(random, board);
}

static void bio_without_hub_and_lpc_past_its_bridge(struct random *random, struct board *board)
{
    bio_without_hub(random, board);
    lpc_past_its_bridge(random, board);
}

/* 44: a byte of the HT names an unwired input (W-201), whether anything lands on its vectors or not. */

/* A group of vectors that a pin or a slot lands on. */
static size_t used_group(struct random *random, struct board *board)
{
    if (count_kind(board, BIO) > 0 && one_in(random, 2))
        return 0;
    return get_u32(some(random, board, MSI) + MSI_START) / HT_GROUP % HT_GROUPS;
}

static void unwired_byte(struct random *random, struct board *board)
{
    (void)become_ht_board(random, board);

    uint8_t input = unwired_input(random, board);
    size_t group = used_group(random, board);

    nth_of_kind(board, HT, 0)[HT_BYTES + group] = input;
}

/* Without slots nothing lands on the vectors behind the pins. */
static void unwired_byte_of_unused_vectors(struct random *random, struct board *board)
{
    (void)become_ht_board(random, board);
    remove_kind(board, MSI);

    uint8_t input = unwired_input(random, board);

    nth_of_kind(board, HT, 0)[HT_BYTES + between(random, PINS / HT_GROUP, HT_GROUPS - 1)] = input;
}

/* The LIO loses an input that the HT names, or all. */
static void named_input_unwired(struct random *random, struct board *board)
{
    (void)become_ht_board(random, board);

    uint8_t *lio = first_lio(random, board);
    uint32_t lost = one_in(random, 4) ? UINT32_MAX : UINT32_C(1) << some_input(random, named_inputs(board));

    for (int half = 0; half < 2; half++)
        put_u32(lio + LIO_MASKS + 4 * half, get_u32(lio + LIO_MASKS + 4 * half) & ~lost);
}

/* 42 and 43 come before it, and 45 behind it. */

static void bio_beside_ht_and_unwired_byte(struct random *random, struct board *board)
{
    bio_beside_ht(random, board);
    named_input_unwired(random, board);
}

static void lpc_of_no_bridge_and_unwired_byte(struct random *random, struct board *board)
{
    (void)become_ht_board(random, board);
    lpc_of_no_bridge(random, board);
    if (one_in(random, 2))
        unwired_byte(random, board);
    else
        named_input_unwired(random, board);
}

static void unwired_byte_and_lpc_past_its_bridge(struct random *random, struct board *board)
{
    unwired_byte(random, board);
    lpc_past_its_bridge(random, board);
}

/* One of two bridges begins among the numbers of the other, often at its last. */
static void bases_too_close(struct random *random, struct board *board)
{
    struct two bios = some_two(random, board, BIO, BIOS_MAX);
    bool behind = one_in(random, 2);
    uint8_t pins = pins_of_bio(board, behind ? bios.first : bios.second);
    int distance = one_in(random, 2) ? pins - 1 : (int)below(random, pins);
    int base = get_u16(bios.first + BIO_BASE) + (behind ? distance : -distance);

    if (base < BASE_MIN)
        base = BASE_MIN;
    if (base > BASE_MAX)
        base = BASE_MAX;
    put_u16(bios.second + BIO_BASE, (uint16_t)base);
}

/* The first two bridges are free of each other, and the third meets both. One with a single pin could not. */
static void base_between_two(struct random *random, struct board *board)
{
    bool low_first = one_in(random, 2);

    have(random, board, BIO, 3);

    uint8_t *low = nth_of_kind(board, BIO, low_first ? 0 : 1), *high = nth_of_kind(board, BIO, low_first ? 1 : 0);
    uint8_t *third = nth_of_kind(board, BIO, 2);

    if (pins_of_bio(board, third) == 1)
        give_pair(random, board, (uint8_t)get_u16(third + BIO_HARDWARE_ID), (uint8_t)between(random, 2, PINS));

    uint32_t pins = pins_of_bio(board, third), gap = (uint32_t)below(random, pins - 1);
    uint32_t low_base = (uint32_t)between(random, BASE_MIN + PINS, BASE_MAX - 2 * PINS);
    uint32_t low_end = low_base + pins_of_bio(board, low), high_base = low_end + gap;

    put_u16(low + BIO_BASE, (uint16_t)low_base);
    put_u16(high + BIO_BASE, (uint16_t)high_base);
    put_u16(third + BIO_BASE, (uint16_t)between(random, high_base + 1 - pins, low_end - 1));
}

static void two_bios_of_a_node(struct random *random, struct board *board)
{
    struct two bios = some_two(random, board, BIO, BIOS_MAX);

    memcpy(bios.second + BIO_HARDWARE_ID, bios.first + BIO_HARDWARE_ID, 2);
    part_bridges(random, board);
    put_lpc_behind_a_bridge(random, board);
}

static void set_slots(struct random *random, uint8_t *msi, uint32_t start)
{
    put_u32(msi + MSI_START, start);
    put_u32(msi + MSI_COUNT, (uint32_t)between(random, 1, start < SLOTS ? SLOTS - start : 1));
}

static void slots_on_slots(struct random *random, struct board *board)
{
    struct two msis = some_two(random, board, MSI, MSIS_MAX);
    uint32_t count = get_u32(msis.first + MSI_COUNT);
    uint32_t into = count == 0 ? 0 : one_in(random, 2) ? count - 1 : (uint32_t)below(random, count);

    set_slots(random, msis.second, get_u32(msis.first + MSI_START) + into);
}

static void slots_on_pins(struct random *random, struct board *board)
{
    if (count_kind(board, BIO) == 0)
        insert_fresh(random, board, BIO);

    uint8_t *msi = some(random, board, MSI);
    uint32_t pins = most_pins(board);

    set_slots(random, msi, one_in(random, 2) ? pins - 1 : (uint32_t)below(random, pins));
}

/* A bridge meets other structures by 52 than by 51. */
static void bases_too_close_and_slots_on_pins(struct random *random, struct board *board)
{
    bases_too_close(random, board);
    slots_on_pins(random, board);
}

/* 43 comes before 45, 51 and 52. On half of the boards the bridges lack the LPC's pin too. */
static void lpc_of_no_bridge_and_clashes(struct random *random, struct board *board)
{
    if (one_in(random, 2))
        for (size_t i = 0; i < count_kind(board, BIO); i++)
            (void)shorten(random, board, nth_of_kind(board, BIO, i));
    bases_too_close_and_slots_on_pins(random, board);
    lpc_of_no_bridge(random, board);
    put_u16(nth_of_kind(board, LPC, 0) + LPC_CASCADE, PINS - 1);
}

/* 45 comes before 51 and 52. */
static void lpc_past_its_bridge_and_clashes(struct random *random, struct board *board)
{
    bases_too_close_and_slots_on_pins(random, board);
    lpc_past_its_bridge(random, board);
}

/* Behind the pins of a short bridge, and on those of one that has more. */
static void slots_between_counts(struct random *random, struct board *board)
{
    have(random, board, BIO, 2);

    uint8_t pins = shorten(random, board, some(random, board, BIO)), most = most_pins(board);
    uint8_t *msi = some(random, board, MSI);

    put_lpc_on_a_pin(random, board);
    set_slots(random, msi, pins < most ? (uint32_t)between(random, pins, most - 1) : pins - 1u);
}

/* Each MSI has slots of its own, and all that there are pins for are on pins of the bridge, which stands behind them. */
static void bio_behind_several_msis(struct random *random, struct board *board)
{
    have(random, board, MSI, between(random, 2, MSIS_MAX));
    remove_kind(board, BIO);
    append_structure(board, fresh_bio(random, board));
    put_lpc_behind_a_bridge(random, board);

    uint32_t pins = most_pins(board), share = pins < MSIS_MAX ? 1 : pins / MSIS_MAX, first = 0;

    for (size_t i = 0; i < board->structures; i++)
        if (board->structure[i].bytes[0] == MSI) {
            put_u32(board->structure[i].bytes + MSI_START, first);
            put_u32(board->structure[i].bytes + MSI_COUNT, (uint32_t)between(random, 1, share));
            first += share;
        }
}

/* 44 comes before 51 and 52. */
static void unwired_byte_and_clashes(struct random *random, struct board *board)
{
    unwired_byte(random, board);
    bases_too_close_and_slots_on_pins(random, board);
}

/* Bridges on the HT have one hardware ID. */
static void two_bios_on_the_ht(struct random *random, struct board *board)
{
    (void)become_ht_board(random, board);
    two_bios_of_a_node(random, board);
}

/* Bridges on any of the nodes and some slots anywhere: one pair is sure to meet, others may. */
static void crowded_vectors(struct random *random, struct board *board)
{
    bool on_ht = is_ht_board(board);

    have(random, board, EIO, on_ht ? 0 : 1);
    have(random, board, BIO, between(random, 1, BIOS_MAX));
    have(random, board, MSI, between(random, 1, MSIS_MAX));
    for (size_t i = 0; i < board->structures; i++) {
        uint8_t *bytes = board->structure[i].bytes;

        if (bytes[0] == BIO)
            put_u16(bytes + BIO_HARDWARE_ID, on_ht ? HT_NODE : some(random, board, EIO)[EIO_NODE]);
        if (bytes[0] == MSI) {
            put_u32(bytes + MSI_START, (uint32_t)between(random, PINS / 2, SLOTS - PINS));
            put_u32(bytes + MSI_COUNT, (uint32_t)between(random, 1, PINS));
        }
    }
    part_bridges(random, board);
    put_lpc_behind_a_bridge(random, board);
    slots_on_slots(random, board);
}

/* 53 is about EIOs and the LIO: an HT enters no core vector (W-201). */

static void eio_on_the_lio(struct random *random, struct board *board)
{
    size_t half = below(random, 2);

    become_eio_board(random, board);
    if (count_kind(board, EIO) == 0)
        insert_fresh(random, board, EIO);

    uint8_t *lio = some(random, board, LIO);

    if (get_u32(lio + LIO_MASKS + 4 * half) == 0)
        half = 1 - half;
    if (get_u32(lio + LIO_MASKS + 4 * half) == 0) {
        put_u32(lio + LIO_MASKS + 4 * half, UINT32_C(1) << below(random, 32));
        lio[LIO_CASCADES + half] = cascade_in_range(random);
    }
    some(random, board, EIO)[EIO_CASCADE] = lio[LIO_CASCADES + half];
}

static void eio_on_an_eio(struct random *random, struct board *board)
{
    become_eio_board(random, board);

    struct two eios = some_two(random, board, EIO, EIOS_MAX);

    eios.second[EIO_CASCADE] = eios.first[EIO_CASCADE];
}

/* Of three EIOs on two lines, two must meet; the LIO may be on those lines too. */
static void crowded_lines(struct random *random, struct board *board)
{
    uint64_t first = between(random, CASCADE_MIN, CASCADE_MAX - 1);
    bool lio_too = one_in(random, 2);

    become_eio_board(random, board);
    have(random, board, EIO, between(random, 3, EIOS_MAX));
    for (size_t i = 0; i < board->structures; i++) {
        uint8_t *bytes = board->structure[i].bytes;

        if (bytes[0] == EIO)
            bytes[EIO_CASCADE] = (uint8_t)(first + below(random, 2));
        for (size_t half = 0; half < 2; half++)
            if (bytes[0] == LIO && lio_too)
                bytes[LIO_CASCADES + half] = (uint8_t)(first + below(random, 2));
    }
}

/* Each half of the LIO is on the line of another EIO, and it stands behind them. */
static void lio_behind_two_eios(struct random *random, struct board *board)
{
    static const uint32_t masks[2] = {UINT32_C(0x0000FFFF), UINT32_C(0xFFFF0000)};

    become_eio_board(random, board);

    struct two eios = some_two(random, board, EIO, EIOS_MAX);
    uint8_t cascades[2] = {eios.first[EIO_CASCADE], eios.second[EIO_CASCADE]};

    remove_kind(board, LIO);
    append_structure(board, make_lio(random, cascades, masks));
}

/* Between the LIO's numbers and the lowest base. */
static void sci_between(struct random *random, struct board *board)
{
    board->sci = (uint16_t)between(random, LIO_FIRST + LIO_INPUTS, BASE_MIN - 1);
}

static void sci_behind_the_bridges(struct random *random, struct board *board)
{
    uint16_t number;

    do
        number = one_in(random, 4) ? UINT16_MAX : (uint16_t)between(random, BASE_MIN, UINT16_MAX);
    while (base_is_taken(board, number, 1));
    board->sci = number;
}

/* On a pin that its bridge would have if it had 64, and that no other bridge has. */
static void sci_on_a_missing_pin(struct random *random, struct board *board)
{
    if (count_kind(board, BIO) == 0) {
        sci_behind_the_bridges(random, board);
        return;
    }

    const uint8_t *bio = some(random, board, BIO);
    uint8_t pins = shorten(random, board, bio);

    put_lpc_on_a_pin(random, board);
    board->sci = (uint16_t)(get_u16(bio + BIO_BASE) + missing_pin(random, pins));
    if (base_is_taken(board, board->sci, 1))
        sci_behind_the_bridges(random, board);
}

/* The LIO loses the input that the SCI is put on, which is none that an HT names: that would be 44. */
static void sci_unwired(struct random *random, struct board *board)
{
    uint8_t *lio = some(random, board, LIO);
    uint32_t input = some_input(random, ~named_inputs(board));

    for (int half = 0; half < 2; half++)
        put_u32(lio + LIO_MASKS + 4 * half, get_u32(lio + LIO_MASKS + 4 * half) & ~(UINT32_C(1) << input));
    board->sci = (uint16_t)(LIO_FIRST + input);
}

static void sci_without_lpc(struct random *random, struct board *board)
{
    remove_kind(board, LPC);
    board->sci = (uint16_t)below(random, 16);
}

/* The input is wired, but it leads to the HT, and its number has no owner. */
static void sci_on_a_named_input(struct random *random, struct board *board)
{
    (void)become_ht_board(random, board);
    board->sci = (uint16_t)(LIO_FIRST + some_input(random, named_inputs(board)));
}

/* 44 comes before 54. */
static void sci_on_a_named_input_that_is_unwired(struct random *random, struct board *board)
{
    sci_on_a_named_input(random, board);
    named_input_unwired(random, board);
}

/* ---- All of them ---- */

const struct way madt_ways[] = {
    {31, "one byte left", .in_board = one_byte_left},
    {31, "structure length under 2", .in_board = length_under_2},
    {31, "structure past the end", .in_board = past_the_end},
    {31, "HT and EIO, and one byte left", .in_board = ht_and_eio_one_byte_left},
    {32, "length of a known type", .in_board = wrong_length},
    {32, "HT and EIO, and length of a known type", .in_board = ht_and_eio_wrong_length},
    {33, "structure version", .in_board = wrong_structure_version},
    {33, "HT and EIO, and structure version", .in_board = ht_and_eio_wrong_version},
    {35, "reserved CORE flags", .in_board = reserved_flags},
    {35, "HT and EIO, and reserved CORE flags", .in_board = ht_and_eio_reserved_flags},
    {35, "reserved flags of a disabled CORE", .in_board = reserved_flags_of_disabled},
    {35, "reserved flags of the 257th CORE", .in_board = surplus_core_with_flags},
    {71, "LIO cascade", .in_board = lio_cascade},
    {71, "LIO cascade, and masks that share a bit", .in_board = lio_cascade_and_shared_bit},
    {71, "EIO cascade", .in_board = eio_cascade},
    {71, "EIO cascade, node and node map", .in_board = eio_cascade_node_and_map},
    {71, "EIO cascade and node map", .in_board = eio_cascade_and_map},
    {71, "cascade of one too many", .in_board = surplus_cascade},
    {72, "EIO node", .in_board = eio_node},
    {72, "EIO node and node map", .in_board = eio_node_and_map},
    {72, "BIO hardware ID", .in_board = bio_hardware_id},
    {72, "BIO hardware ID, high byte", .in_board = bio_hardware_id_high_byte},
    {72, "BIO hardware ID and base", .in_board = bio_hardware_id_and_base},
    {72, "node of one too many", .in_board = surplus_node},
    {73, "EIO node map", .in_board = eio_node_map},
    {73, "node map of the fifth EIO", .in_board = surplus_node_map},
    {74, "MSI count 0", .in_board = msi_no_slots},
    {74, "MSI count 0, start past 256", .in_board = msi_no_slots_past_256},
    {74, "count 0 of the fifth MSI", .in_board = surplus_no_slots},
    {75, "MSI end", .in_board = msi_past_256},
    {75, "MSI end with wrap", .in_board = msi_wraps},
    {75, "end of the fifth MSI", .in_board = surplus_end},
    {76, "BIO base", .in_board = bio_base},
    {76, "BIO base past the range, with few pins", .in_board = base_of_short_bridge},
    {76, "base of the fifth BIO", .in_board = surplus_base},
    {77, "LPC cascade", .in_board = lpc_cascade},
    {77, "LPC cascade, high byte", .in_board = lpc_cascade_high_byte},
    {77, "cascade of the second LPC", .in_board = surplus_lpc_cascade},
    {78, "HT byte", .in_board = ht_byte},
    {78, "several HT bytes", .in_board = several_ht_bytes},
    {78, "byte of a second HT", .in_board = surplus_ht_byte},
    {37, "LIO masks share a bit", .in_board = masks_share_a_bit},
    {37, "HT and EIO, and LIO masks share a bit", .in_board = ht_and_eio_shared_bit},
    {37, "second LIO whose masks share a bit", .in_board = surplus_lio_with_shared_bit},
    {38, "257 CORE", .in_board = too_many_cores},
    {38, "257 CORE, alike, at most one of them enabled", .in_board = too_many_spare_cores},
    {38, "two LIO", .in_board = two_lios},
    {38, "five EIO", .in_board = too_many_eios},
    {38, "five EIO beside an HT", .in_board = too_many_eios_beside_ht},
    {38, "five MSI", .in_board = too_many_msis},
    {38, "five BIO", .in_board = too_many_bios},
    {38, "two LPC", .in_board = two_lpcs},
    {34, "HT and EIO", .in_board = ht_and_eio},
    {34, "HT and EIO, first and last of all", .in_board = ht_and_eio_far_apart},
    {34, "two HT", .in_board = two_hts},
    {34, "HT among EIO", .in_board = hts_among_eios},
    {34, "HT and EIO, and repeated ID", .in_board = ht_and_eio_and_repeated_id},
    {34, "HT and EIO, no enabled CORE", .in_board = ht_and_eio_none_enabled},
    {34, "HT and EIO, no LIO", .in_board = ht_and_eio_no_lio},
    {34, "HT and two EIO of a node", .in_board = ht_and_repeated_node},
    {34, "HT and EIO, BIO without its hub", .in_board = ht_and_eio_and_bio_without_hub},
    {39, "repeated ID", .in_board = repeated_id},
    {39, "repeated ID, the first two CORE", .in_board = repeated_id_of_first_two},
    {39, "repeated ID, the last two CORE", .in_board = repeated_id_of_last_two},
    {39, "repeated ID, the first CORE and the last", .in_board = repeated_id_of_first_and_last},
    {39, "UID of one CORE, physical ID of another", .in_board = uid_of_one_physical_id_of_another},
    {39, "several repeated IDs", .in_board = several_repeated_ids},
    {39, "repeated IDs inside repeated IDs", .in_board = repeated_ids_inside_repeated_ids},
    {39, "all CORE alike, two of them enabled", .in_board = all_alike_two_enabled},
    {40, "no enabled CORE", .in_board = none_enabled},
    {40, "all CORE alike, none of them enabled", .in_board = make_all_spare},
    {40, "no LIO", .in_board = no_lio},
    {40, "neither EIO nor HT", .in_board = no_hub},
    {40, "HT without a LIO", .in_board = ht_without_lio},
    {41, "repeated node", .in_board = repeated_node},
    {42, "BIO without its hub", .in_board = bio_without_hub},
    {42, "BIO without its hub, LPC of no bridge", .in_board = bio_without_hub_and_lpc_of_no_bridge},
    {42, "BIO without its hub, LPC past its bridge", .in_board = bio_without_hub_and_lpc_past_its_bridge},
    {42, "BIO of another hardware ID beside an HT", .in_board = bio_beside_ht},
    {42, "BIO of another hardware ID, HT byte unwired", .in_board = bio_beside_ht_and_unwired_byte},
    {43, "LPC without a BIO", .in_board = lpc_without_bio},
    {43, "LPC of no bridge, bits beside its node name one", .in_board = lpc_of_no_bridge},
    {43, "LPC of no bridge, 16 or more below one", .in_board = lpc_16_below_a_bridge},
    {43, "LPC of no bridge, next to one", .in_board = lpc_next_to_a_bridge},
    {43, "LPC of node 0, all bridges above it", .in_board = lpc_of_node_0_without_bio},
    {43, "LPC of no bridge, bases too close, slots on pins", .in_board = lpc_of_no_bridge_and_clashes},
    {43, "LPC of no bridge, HT byte unwired", .in_board = lpc_of_no_bridge_and_unwired_byte},
    {44, "HT byte unwired", .in_board = unwired_byte},
    {44, "HT byte of unused vectors unwired", .in_board = unwired_byte_of_unused_vectors},
    {44, "LIO input that the HT names unwired", .in_board = named_input_unwired},
    {44, "HT byte unwired, LPC past its bridge", .in_board = unwired_byte_and_lpc_past_its_bridge},
    {44, "HT byte unwired, bases too close, slots on pins", .in_board = unwired_byte_and_clashes},
    {44, "SCI on the input of an HT byte that is unwired", .in_board = sci_on_a_named_input_that_is_unwired},
    {45, "LPC past its bridge", .in_board = lpc_past_its_bridge},
    {45, "LPC past its bridge, bases too close, slots on pins", .in_board = lpc_past_its_bridge_and_clashes},
    {51, "bases too close", .in_board = bases_too_close},
    {51, "base between two", .in_board = base_between_two},
    {51, "bases too close, and slots on pins", .in_board = bases_too_close_and_slots_on_pins},
    {52, "two BIO of a node", .in_board = two_bios_of_a_node},
    {52, "two BIO on the HT", .in_board = two_bios_on_the_ht},
    {52, "slots on slots", .in_board = slots_on_slots},
    {52, "slots on pins", .in_board = slots_on_pins},
    {52, "slots behind one bridge's pins, on another's", .in_board = slots_between_counts},
    {52, "BIO behind several MSI", .in_board = bio_behind_several_msis},
    {52, "crowded vectors", .in_board = crowded_vectors},
    {53, "EIO on the LIO's vector", .in_board = eio_on_the_lio},
    {53, "EIO on an EIO's vector", .in_board = eio_on_an_eio},
    {53, "crowded lines", .in_board = crowded_lines},
    {53, "LIO behind two EIO", .in_board = lio_behind_two_eios},
    {54, "SCI between LIO and BIO", .in_board = sci_between},
    {54, "SCI behind the bridges", .in_board = sci_behind_the_bridges},
    {54, "SCI on a pin that is not there", .in_board = sci_on_a_missing_pin},
    {54, "SCI unwired", .in_board = sci_unwired},
    {54, "SCI on an input that the HT names", .in_board = sci_on_a_named_input},
    {54, "SCI without LPC", .in_board = sci_without_lpc},
};

const size_t madt_way_count = sizeof madt_ways / sizeof madt_ways[0];
