/*
 * Random boards that keep every rule of document 01: see valid.h. They are varied on purpose in what the rules do not
 * fix: the order of structures and tables, the order of UIDs and of physical IDs, the IDs of disabled CORE, the pairs of
 * version 2, HT or EIO, which inputs the HT names, which bridge the LPC is behind, what is passed over, the segments, what
 * runs across segments that touch, the free bytes.
 */
#include "valid.h"

#include <string.h>

/* ---- CORE and their IDs ---- */

static size_t random_core_count(struct random *random)
{
    switch (below(random, 64)) {
    case 0:
        return CORES_MAX;
    case 1:
        return between(random, 41, CORES_MAX);
    case 2: case 3: case 4: case 5:
        return between(random, 9, 40);
    default:
        return between(random, 1, 8);
    }
}

/* About `spare_of_four` in four CORE are spare: on some boards none, on some all but one. They have no IDs yet. */
static void add_cores(struct random *random, struct board *board)
{
    size_t count = random_core_count(random);
    size_t surely_enabled = below(random, count), spare_of_four = below(random, 5);

    for (size_t i = 0; i < count; i++) {
        uint32_t enabled = i == surely_enabled || below(random, 4) >= spare_of_four;

        append_structure(board, make_core(random, 0, 0, enabled));
    }
}

/* Numbers that differ, from the least on: each is a step above the one before, and none wraps. */
struct numbers {
    uint32_t least, step;
};

/* Small ones, great ones or any, for so many CORE: side by side, far apart, or equal in all bytes but one. */
static struct numbers random_numbers(struct random *random, size_t count)
{
    uint32_t step = 1;

    switch (below(random, 4)) {
    case 0:
        step = UINT32_C(1) << 8 * below(random, 4);
        break;
    case 1:
        step = (uint32_t)between(random, 1, UINT32_MAX / count);
        break;
    default:
        break;
    }

    uint32_t least_at_most = UINT32_MAX - step * (uint32_t)(count - 1);

    switch (below(random, 3)) {
    case 0:
        return (struct numbers){0, step};
    case 1:
        return (struct numbers){least_at_most, step};
    default:
        return (struct numbers){(uint32_t)between(random, 0, least_at_most), step};
    }
}

static void shuffle_ranks(struct random *random, size_t *rank, size_t count)
{
    for (size_t i = 1; i < count; i++) {
        size_t other = below(random, i + 1), moved = rank[i];

        rank[i] = rank[other];
        rank[other] = moved;
    }
}

static void move_one_rank(struct random *random, size_t *rank, size_t count)
{
    size_t from = below(random, count), to = below(random, count), moved = rank[from];

    memmove(&rank[from], &rank[from + 1], (count - from - 1) * sizeof *rank);
    memmove(&rank[to + 1], &rank[to], (count - to - 1) * sizeof *rank);
    rank[to] = moved;
}

enum order { RISING, FALLING, SHUFFLED, RISING_BUT_ONE, ORDERS };

/* Of each CORE, in table order, which of the numbers it gets: ranks rise, fall, or have another order. */
static void random_order(struct random *random, size_t *rank, size_t count)
{
    enum order order = (enum order)below(random, ORDERS);

    for (size_t i = 0; i < count; i++)
        rank[i] = order == FALLING ? count - 1 - i : i;
    if (order == SHUFFLED)
        shuffle_ranks(random, rank, count);
    if (order == RISING_BUT_ONE)
        move_one_rank(random, rank, count);
}

static void give_numbers(struct random *random, struct board *board, size_t field, struct numbers numbers)
{
    size_t rank[STRUCTURES_ROOM], number = 0;

    random_order(random, rank, count_kind(board, CORE));
    for (size_t i = 0; i < board->structures; i++)
        if (board->structure[i].bytes[0] == CORE)
            put_u32(board->structure[i].bytes + field, numbers.least + numbers.step * (uint32_t)rank[number++]);
}

/* An ID of a spare CORE: the least one, the greatest, or any. */
static uint32_t random_id(struct random *random)
{
    switch (below(random, 4)) {
    case 0:
        return 0;
    case 1:
        return UINT32_MAX;
    default:
        return (uint32_t)any(random);
    }
}

struct ids {
    uint32_t uid, physical_id;
};

/* IDs for a spare CORE: those of any CORE, or one of them, or filled in. */
static struct ids spare_ids(struct random *random, struct board *board)
{
    const uint8_t *twin = nth_of_kind(board, CORE, below(random, count_kind(board, CORE)));
    uint32_t filled_in = random_id(random);
    uint32_t uid = one_in(random, 3) ? filled_in : get_u32(twin + CORE_UID);
    uint32_t physical_id = one_in(random, 3) ? filled_in : get_u32(twin + CORE_PHYSICAL_ID);

    return (struct ids){uid, physical_id};
}

/*
 * The IDs of spare CORE, the disabled ones, mean nothing (W-203): they may be those of enabled CORE, before them or behind
 * them, and of each other. Firmware gives all of them one and the same.
 */
static void give_spare_ids(struct random *random, struct board *board)
{
    bool alike = one_in(random, 2);
    struct ids ids = spare_ids(random, board);

    for (size_t i = 0; i < board->structures; i++) {
        uint8_t *core = board->structure[i].bytes;

        if (core[0] != CORE || get_u32(core + CORE_FLAGS) != 0)
            continue;
        put_u32(core + CORE_UID, ids.uid);
        put_u32(core + CORE_PHYSICAL_ID, ids.physical_id);
        if (!alike)
            ids = spare_ids(random, board);
    }
}

/*
 * UIDs have an order of their own, and physical IDs have one. Both are often made of the same numbers: then a CORE's UID is
 * the physical ID of another one, which no rule forbids. The spare CORE of most boards repeat IDs.
 */
void give_ids(struct random *random, struct board *board)
{
    size_t count = count_kind(board, CORE);
    struct numbers uids = random_numbers(random, count);
    struct numbers physical_ids = one_in(random, 2) ? uids : random_numbers(random, count);

    give_numbers(random, board, CORE_UID, uids);
    give_numbers(random, board, CORE_PHYSICAL_ID, physical_ids);
    if (!one_in(random, 8))
        give_spare_ids(random, board);
}

/* ---- Other structures ---- */

/* The core's hardware lines in random order: taking them one by one, no two controllers enter one core vector. */
struct lines {
    uint8_t line[CASCADE_MAX - CASCADE_MIN + 1];
    size_t taken;
};

static struct lines shuffled_lines(struct random *random)
{
    struct lines lines = {.taken = 0};
    size_t count = sizeof lines.line;

    for (size_t i = 0; i < count; i++) {
        size_t other = below(random, i + 1);

        lines.line[i] = lines.line[other];
        lines.line[other] = (uint8_t)(CASCADE_MIN + i);
    }
    return lines;
}

static void random_masks(struct random *random, uint32_t masks[2])
{
    uint32_t wired = one_in(random, 4) ? UINT32_MAX : (uint32_t)any(random);
    uint32_t low = (uint32_t)any(random);

    switch (below(random, 6)) {
    case 0: /* both halves unused */
        wired = 0;
        break;
    case 1:
        low = UINT32_MAX;
        break;
    case 2:
        low = 0;
        break;
    default:
        break;
    }
    masks[0] = wired & low;
    masks[1] = wired & ~low;
}

/* An unused half's byte is free: any byte, often one that an EIO uses. */
static void add_lio(struct random *random, struct board *board, struct lines *lines, const uint32_t masks[2])
{
    uint8_t cascades[2];
    uint8_t line = lines->line[lines->taken++];

    for (int half = 0; half < 2; half++) {
        if (half == 1 && !one_in(random, 4))
            line = lines->line[lines->taken++];
        cascades[half] = line;
        if (masks[half] == 0)
            cascades[half] = (uint8_t)(one_in(random, 2) ? any(random) : between(random, CASCADE_MIN, CASCADE_MAX));
    }
    append_structure(board, make_lio(random, cascades, masks));
}

/* ---- Bridges, their pins and the pairs of version 2 ---- */

uint8_t random_pins(struct random *random)
{
    static const uint8_t edges[] = {1, 2, PINS / 2 - 1, PINS / 2, PINS / 2 + 1, PINS - 1, PINS};

    return one_in(random, 2) ? edges[below(random, sizeof edges)] : (uint8_t)between(random, 1, PINS);
}

/* The last pin is where readers are told apart, and 31 and 32, which go to two LIO inputs on an HT board (W-201). */
static uint16_t random_pin(struct random *random, uint8_t pins)
{
    uint16_t pin = (uint16_t)(one_in(random, 4) ? HT_GROUP - below(random, 2) : below(random, pins));

    return pin >= pins || one_in(random, 4) ? pins - 1 : pin;
}

static struct pair *pair_of(struct board *board, uint8_t hardware_id)
{
    for (size_t i = 0; i < PAIRS; i++)
        if (board->pair[i].number != 0 && board->pair[i].hardware_id == hardware_id)
            return &board->pair[i];
    return NULL;
}

static uint16_t hardware_id_of(const uint8_t *bio)
{
    return get_u16(bio + BIO_HARDWARE_ID);
}

bool has_bio(const struct board *board, uint16_t hardware_id)
{
    for (size_t i = 0; i < board->structures; i++)
        if (board->structure[i].bytes[0] == BIO && hardware_id_of(board->structure[i].bytes) == hardware_id)
            return true;
    return false;
}

/* Some pair that no bridge has, or any if there is none. */
static struct pair *spare_pair(struct random *random, struct board *board)
{
    size_t first = below(random, PAIRS);

    for (size_t i = 0; i < PAIRS; i++) {
        struct pair *pair = &board->pair[(first + i) % PAIRS];

        if (pair->number == 0 || !has_bio(board, pair->hardware_id))
            return pair;
    }
    return &board->pair[first];
}

void give_pair(struct random *random, struct board *board, uint8_t hardware_id, uint8_t number)
{
    struct pair *pair = pair_of(board, hardware_id);

    if (pair == NULL)
        pair = spare_pair(random, board);
    *pair = (struct pair){hardware_id, number};
}

/* Some BIO with a hardware ID below a limit; NULL if there is none. */
static const uint8_t *some_bio_below(struct random *random, const struct board *board, uint32_t limit)
{
    const uint8_t *bio = NULL;

    for (size_t i = 0; i < board->structures; i++) {
        const uint8_t *bytes = board->structure[i].bytes;

        if (bytes[0] == BIO && hardware_id_of(bytes) < limit && (bio == NULL || one_in(random, 2)))
            bio = bytes;
    }
    return bio;
}

const uint8_t *some_bio(struct random *random, const struct board *board)
{
    return some_bio_below(random, board, UINT16_MAX + 1);
}

const uint8_t *some_bridge_for_lpc(struct random *random, const struct board *board)
{
    return some_bio_below(random, board, LPC_NODES);
}

const uint8_t *bridge_of_lpc(const struct board *board)
{
    const uint8_t *lpc = NULL;

    for (size_t i = 0; i < board->structures && lpc == NULL; i++)
        if (board->structure[i].bytes[0] == LPC)
            lpc = board->structure[i].bytes;
    for (size_t i = 0; i < board->structures && lpc != NULL; i++) {
        const uint8_t *bytes = board->structure[i].bytes;

        if (bytes[0] == BIO && hardware_id_of(bytes) == node_of_lpc(lpc))
            return bytes;
    }
    return NULL;
}

void name_bridge_beside_node(struct random *random, const struct board *board, uint8_t *lpc)
{
    const uint8_t *bridge = some_bridge_for_lpc(random, board);
    unsigned bit = one_in(random, 2) ? LPC_NODE_BIT - LPC_NODE_BITS : LPC_NODE_BIT + LPC_NODE_BITS;

    if (bridge != NULL)
        set_base_bits(lpc, bit, (uint8_t)hardware_id_of(bridge));
}

bool has_hub(const struct board *board, uint8_t node)
{
    for (size_t i = 0; i < board->structures; i++)
        if (board->structure[i].bytes[0] == EIO && board->structure[i].bytes[EIO_NODE] == node)
            return true;
    return node == HT_NODE && is_ht_board(board);
}

/* A node whose low four bits, which are all that an LPC's base can hold, are those of an EIO's node; of any, if there is none. */
static uint8_t node_like_another(struct random *random, const struct board *board)
{
    uint8_t low = (uint8_t)below(random, LPC_NODES);

    for (size_t i = 0; i < board->structures; i++)
        if (board->structure[i].bytes[0] == EIO && one_in(random, 2))
            low = board->structure[i].bytes[EIO_NODE] % LPC_NODES;
    return (uint8_t)(low + LPC_NODES * below(random, NODES / LPC_NODES));
}

uint8_t unused_node(struct random *random, const struct board *board)
{
    uint8_t node;

    do {
        switch (below(random, 8)) {
        case 0:
            node = (uint8_t)below(random, NODES);
            break;
        case 1: case 2:
            node = node_like_another(random, board);
            break;
        default:
            node = (uint8_t)below(random, LPC_NODES);
            break;
        }
    } while (has_hub(board, node));
    return node;
}

uint8_t most_pins(const struct board *board)
{
    uint8_t most = 0;

    for (size_t i = 0; i < board->structures; i++) {
        const uint8_t *bytes = board->structure[i].bytes;

        if (bytes[0] == BIO && pins_of_bio(board, bytes) > most)
            most = pins_of_bio(board, bytes);
    }
    return most;
}

/* An ID of no bridge and no pair, for a pair that changes nothing: it may be a node's, and need not be one (W-212). */
static uint8_t unused_hardware_id(struct random *random, struct board *board)
{
    uint8_t id;

    do
        id = (uint8_t)below(random, one_in(random, 2) ? NODES : UINT8_MAX + 1);
    while (has_bio(board, id) || pair_of(board, id) != NULL);
    return id;
}

/* The ID of an empty pair is free: any, or one that a bridge or another pair has. */
static uint8_t free_hardware_id(struct random *random, const struct board *board)
{
    const uint8_t *bio = some_bio(random, board);

    switch (below(random, 3)) {
    case 0:
        return (uint8_t)any(random);
    case 1:
        return board->pair[below(random, PAIRS)].hardware_id;
    default:
        return bio == NULL ? 0 : (uint8_t)hardware_id_of(bio);
    }
}

/* The pairs that no bridge has got: some name none, the others are empty. */
static void fill_other_pairs(struct random *random, struct board *board)
{
    for (size_t i = 0; i < PAIRS; i++) {
        if (board->pair[i].number != 0)
            continue;
        if (one_in(random, 3)) {
            board->pair[i].hardware_id = unused_hardware_id(random, board);
            board->pair[i].number = random_pins(random);
        } else {
            board->pair[i].hardware_id = free_hardware_id(random, board);
        }
    }
}

void make_version_2(struct random *random, struct board *board)
{
    if (board->version == WITH_PAIRS)
        return;
    board->version = WITH_PAIRS;
    fill_other_pairs(random, board);
}

bool base_is_taken(const struct board *board, uint16_t base, uint8_t pins)
{
    for (size_t i = 0; i < board->structures; i++) {
        const uint8_t *bytes = board->structure[i].bytes;
        int distance = base - get_u16(bytes + BIO_BASE);

        if (bytes[0] == BIO && distance < pins_of_bio(board, bytes) && -distance < pins)
            return true;
    }
    return false;
}

/* Just behind the last pin of a bridge, or so far before it that there is room for the pins. */
static uint16_t base_beside(struct random *random, const struct board *board, uint8_t pins)
{
    const uint8_t *bio = some_bio(random, board);

    if (bio == NULL)
        return BASE_MIN;

    int base = get_u16(bio + BIO_BASE);

    return (uint16_t)(one_in(random, 2) ? base + pins_of_bio(board, bio) : base - pins);
}

uint16_t free_base(struct random *random, const struct board *board, uint8_t pins)
{
    uint16_t base;

    do {
        switch (below(random, 6)) {
        case 0: /* close together */
            base = (uint16_t)(BASE_MIN + PINS * below(random, 8));
            break;
        case 1:
            base = BASE_MAX;
            break;
        case 2: case 3:
            base = base_beside(random, board, pins);
            break;
        default:
            base = (uint16_t)between(random, BASE_MIN, BASE_MAX);
            break;
        }
    } while (base < BASE_MIN || base > BASE_MAX || base_is_taken(board, base, pins));
    return base;
}

uint64_t node_map(struct random *random)
{
    return one_in(random, 2) ? any(random) | 1 : UINT64_C(1) << below(random, 64);
}

/* A bridge with a base of its own. In version 2 most bridges have a pair. */
static void add_bio(struct random *random, struct board *board, uint8_t hardware_id)
{
    if (board->version == WITH_PAIRS && !one_in(random, 4))
        give_pair(random, board, hardware_id, random_pins(random));

    uint16_t base = free_base(random, board, pins_of(board, hardware_id));

    append_structure(board, make_bio(random, hardware_id, base));
}

/* ---- HT boards ---- */

bool is_ht_board(const struct board *board)
{
    return count_kind(board, HT) > 0;
}

uint32_t wired_inputs(const struct board *board)
{
    const uint8_t *lio = first_of_kind(board, LIO);

    return lio == NULL ? 0 : get_u32(lio + LIO_MASKS) | get_u32(lio + LIO_MASKS + 4);
}

uint32_t named_inputs(const struct board *board)
{
    uint32_t named = 0;

    for (size_t i = 0; i < board->structures; i++)
        for (size_t group = 0; group < HT_GROUPS && board->structure[i].bytes[0] == HT; group++)
            named |= UINT32_C(1) << board->structure[i].bytes[HT_BYTES + group] % LIO_INPUTS;
    return named;
}

uint8_t some_input(struct random *random, uint32_t mask)
{
    uint8_t first = (uint8_t)below(random, LIO_INPUTS);

    for (uint8_t i = 0; i < LIO_INPUTS; i++)
        if (mask >> (first + i) % LIO_INPUTS & 1)
            return (uint8_t)(first + i) % LIO_INPUTS;
    return first;
}

/* The inputs that an HT may name: all that are wired, but one for the SCI if that can arrive nowhere else. */
static uint32_t inputs_to_name(struct random *random, const struct board *board)
{
    uint32_t wired = wired_inputs(board);

    return count_kind(board, BIO) > 0 ? wired : wired & ~(UINT32_C(1) << some_input(random, wired));
}

struct structure wired_ht(struct random *random, const struct board *board)
{
    uint32_t inputs = inputs_to_name(random, board);
    uint8_t named[HT_GROUPS], first = some_input(random, inputs), second = some_input(random, inputs);
    uint64_t sort = below(random, 6);

    for (size_t i = 0; i < HT_GROUPS; i++) {
        named[i] = some_input(random, inputs);
        if (sort == 0)
            named[i] = first;
        if (sort == 1 || sort == 2)
            named[i] = one_in(random, 2) ? first : second;
    }
    return make_ht(random, named);
}

static size_t count_bits(uint32_t mask)
{
    size_t count = 0;

    for (; mask != 0; mask &= mask - 1)
        count++;
    return count;
}

/* Masks that have so many bits at least, for the HT to name inputs. On many boards both halves are used, on some there are few. */
static void random_masks_for_ht(struct random *random, uint32_t masks[2], size_t least)
{
    random_masks(random, masks);
    if (one_in(random, 2)) {
        masks[0] = (uint32_t)any(random);
        masks[1] = (uint32_t)any(random) & ~masks[0];
    }
    if (one_in(random, 4))
        for (int half = 0; half < 2; half++)
            masks[half] &= (uint32_t)(any(random) & any(random) & any(random));
    while (count_bits(masks[0] | masks[1]) < least) {
        size_t half = below(random, 2);

        masks[half] |= UINT32_C(1) << below(random, LIO_INPUTS) & ~masks[1 - half];
    }
}

/* An HT, the LIO whose inputs it names, and on most boards a BIO. Bridges on it have one hardware ID, so there is one at most. */
static void add_lio_and_ht(struct random *random, struct board *board, struct lines *lines)
{
    bool bridge = !one_in(random, 4);
    uint32_t masks[2];

    random_masks_for_ht(random, masks, bridge ? 1 : 2);
    add_lio(random, board, lines, masks);
    if (bridge)
        add_bio(random, board, HT_NODE);
    append_structure(board, wired_ht(random, board));
}

/* ---- EIO boards ---- */

/* EIOs of different nodes, and on most boards a BIO on each or on some of them; gives the number of BIOs. */
static size_t add_hubs(struct random *random, struct board *board, struct lines *lines)
{
    size_t eios = between(random, 1, EIOS_MAX), sure_bio = below(random, eios);
    bool bridges = !one_in(random, 4);

    for (size_t i = 0; i < eios; i++) {
        uint8_t node = unused_node(random, board);

        append_structure(board, make_eio(random, lines->line[lines->taken++], node, node_map(random)));
        if (bridges && (i == sure_bio || !one_in(random, 4)))
            add_bio(random, board, node);
    }
    return count_kind(board, BIO);
}

static void add_lio_and_eios(struct random *random, struct board *board, struct lines *lines)
{
    uint32_t masks[2];
    size_t bios = add_hubs(random, board, lines);

    random_masks(random, masks);
    if (bios == 0 && (masks[0] | masks[1]) == 0) /* the SCI has to arrive somewhere */
        masks[any(random) & 1] = 1;
    add_lio(random, board, lines, masks);
}

/* ---- LPC, MSI, and what is passed over ---- */

/* Behind any bridge that its base can name, on one of this bridge's pins: others may lack it. Many boards have none. */
static void add_lpc(struct random *random, struct board *board)
{
    const uint8_t *bridge = some_bridge_for_lpc(random, board);

    if (bridge == NULL || one_in(random, 4))
        return;

    uint16_t cascade = random_pin(random, pins_of_bio(board, bridge));
    struct structure lpc = make_lpc(random, (uint8_t)hardware_id_of(bridge), cascade);

    if (one_in(random, 2))
        name_bridge_beside_node(random, board, lpc.bytes);
    append_structure(board, lpc);
}

/* Some slots of a range, at least one. */
static struct structure msi_within(struct random *random, uint32_t first, uint32_t count)
{
    uint32_t left_out = one_in(random, 2) ? 0 : (uint32_t)below(random, count);

    return make_msi(random, first + left_out, (uint32_t)between(random, 1, count - left_out));
}

/* A slot from one to another, just before a multiple of 32 or there, if one is near. */
static uint32_t slot_beside_group(struct random *random, uint32_t first, uint32_t last)
{
    uint32_t group = (uint32_t)between(random, first / HT_GROUP, last / HT_GROUP + 1);
    uint32_t slot = group == 0 ? 0 : group * HT_GROUP - (uint32_t)below(random, 2);

    return slot < first ? first : slot > last ? last : slot;
}

/* Those that begin and end where the vectors of the HT go to another LIO input (W-201). */
static struct structure msi_beside_groups(struct random *random, uint32_t first, uint32_t count)
{
    uint32_t start = slot_beside_group(random, first, first + count - 1);
    uint32_t end = slot_beside_group(random, start, first + count - 1);

    return make_msi(random, start, end - start + 1);
}

/* MSIs with slots of their own: behind the pins of all BIOs, from 0 if there is none. */
static void add_msis(struct random *random, struct board *board)
{
    size_t count = below(random, MSIS_MAX + 1);
    uint32_t first = most_pins(board);
    bool beside_groups = is_ht_board(board) && one_in(random, 2);

    for (size_t i = 0; i < count; i++) {
        uint32_t share = (uint32_t)((SLOTS - first) / count);
        uint32_t start = first + share * (uint32_t)i;

        append_structure(board, beside_groups ? msi_beside_groups(random, start, share) : msi_within(random, start, share));
    }
    if (count == 1 && one_in(random, 2)) /* all slots that there are */
        put_u32(board->structure[board->structures - 1].bytes + MSI_COUNT,
                SLOTS - get_u32(board->structure[board->structures - 1].bytes + MSI_START));
}

struct structure passed_over_structure(struct random *random)
{
    uint64_t type = below(random, 256 - (LPC - CORE + 1));
    struct structure structure;

    structure.length = one_in(random, 3) ? SHORTEST : one_in(random, 16) ? 255 : between(random, SHORTEST, 24);
    for (size_t i = 0; i < structure.length; i++)
        structure.bytes[i] = (uint8_t)any(random);
    structure.bytes[0] = (uint8_t)(type < CORE ? type : type + (LPC - CORE + 1));
    structure.bytes[1] = (uint8_t)structure.length;
    return structure;
}

/* Structures that are passed over, before, between and behind the others: a few, or as many as there are others. */
static void add_passed_over(struct random *random, struct board *board)
{
    size_t count = one_in(random, 3) ? board->structures : below(random, 4);

    for (; count > 0; count--) {
        struct structure structure = passed_over_structure(random);

        add_structure(board, below(random, board->structures + 1), &structure);
    }
}

static void shuffle_structures(struct random *random, struct board *board)
{
    for (size_t i = 1; i < board->structures; i++) {
        size_t other = below(random, i + 1);
        struct structure moved = board->structure[i];

        board->structure[i] = board->structure[other];
        board->structure[other] = moved;
    }
}

uint16_t arriving_number(struct random *random, const struct board *board)
{
    uint32_t sources = wired_inputs(board) & ~named_inputs(board);
    const uint8_t *bio = some_bio(random, board);

    if (count_kind(board, LPC) == 1 && one_in(random, 3))
        return (uint16_t)below(random, 16);
    if (bio != NULL && (sources == 0 || one_in(random, 2)))
        return (uint16_t)(get_u16(bio + BIO_BASE) + random_pin(random, pins_of_bio(board, bio)));
    return (uint16_t)(LIO_FIRST + some_input(random, sources));
}

enum { HT_BOARDS = 3 }; /* one board in so many has an HT */

static void add_structures(struct random *random, struct board *board)
{
    struct lines lines = shuffled_lines(random);

    add_cores(random, board);
    if (one_in(random, HT_BOARDS))
        add_lio_and_ht(random, board, &lines);
    else
        add_lio_and_eios(random, board, &lines);
    add_msis(random, board);
    add_lpc(random, board);
    if (board->version == WITH_PAIRS)
        fill_other_pairs(random, board);
    if (!one_in(random, 3))
        shuffle_structures(random, board);
    add_passed_over(random, board);
    give_ids(random, board); /* their orders are those of the table */
    board->sci = arriving_number(random, board);
}

/* ---- Tables and memory ---- */

uint8_t other_revision(struct random *random)
{
    static const uint8_t known[] = {2, 3, 5, 6, UINT8_MAX};

    if (one_in(random, 4))
        return 0;
    return one_in(random, 4) ? (uint8_t)between(random, 2, UINT8_MAX) : known[below(random, sizeof known)];
}

static void add_other_tables(struct random *random, struct board *board)
{
    static const char signatures[][4] = {"SSDT", "DSDT", "MCFG", "SRAT", "PPTT", "FADT", "MADT", "apic"};
    size_t count = one_in(random, 16) ? between(random, 5, 20) : below(random, 4);

    for (size_t i = 0; i < count; i++) {
        const char *signature = signatures[below(random, sizeof signatures / sizeof signatures[0])];
        size_t number = add_table(board, signature, TABLE_HEADER + below(random, 80));

        if (!one_in(random, 4))
            add_entry(board, below(random, board->entries + 1), number);
    }
    if (one_in(random, 8)) /* nothing forbids it */
        add_entry(board, below(random, board->entries + 1), XSDT);
    if (board->tables > OTHERS && one_in(random, 16)) /* one table named again and again */
        while (board->entries < ENTRIES_MAX)
            add_entry(board, board->entries, OTHERS);
}

static void shuffle_tables(struct random *random, struct board *board)
{
    for (size_t i = 1; i < board->tables; i++) {
        size_t other = below(random, i + 1);
        size_t moved = board->order[i];

        board->order[i] = board->order[other];
        board->order[other] = moved;
    }
}

static void scatter_over_memory(struct random *random, struct board *board)
{
    uint64_t rarity = between(random, 1, 8);

    for (size_t i = 0; i < board->tables; i++) {
        struct table *table = &board->table[board->order[i]];

        table->revision = board->order[i] >= FADT ? (uint8_t)any(random) : table->revision;
        table->gap = one_in(random, 3) ? below(random, 9) : 0;
        table->opens_segment = one_in(random, rarity) && count_segments(board) < SEGMENTS_MAX;
        table->distance = one_in(random, 3) ? 0 : below(random, one_in(random, 2) ? 64 : UINT64_C(1) << 40);
    }
    board->tail = one_in(random, 3) ? below(random, 9) : 0;
    board->at_top = one_in(random, 8);
    if (one_in(random, 2))
        board->base = one_in(random, 4) ? 0 : any(random) >> 2;
}

/* A table that fills the capture up to its greatest length, or half of the way. */
static void add_large_table(struct random *random, struct board *board)
{
    size_t room = CAPTURE_MAX - capture_length(board) - 8; /* its entry takes eight bytes */
    size_t length = one_in(random, 4) ? room : between(random, room / 2, room);

    add_entry(board, below(random, board->entries + 1), add_table(board, "SSDT", length));
}

/* ---- Tables that run across segments ---- */

/* The offset in the MADT of one of its structures, which is the end of the one before. */
static size_t start_of_structure(struct random *random, const struct board *board)
{
    size_t before = below(random, board->structures);
    size_t at = MADT_HEADER;

    for (size_t i = 0; i < before; i++)
        at += board->structure[i].length;
    return at;
}

/* An offset in a table to cut it at: next to its ends, inside its header, at the end of a structure, or anywhere. */
static size_t random_cut(struct random *random, const struct board *board, size_t table)
{
    size_t last = board->table[table].length - 1;

    switch (below(random, 6)) {
    case 0:
        return one_in(random, 2) ? 1 : last;
    case 1:
        return between(random, 1, TABLE_HEADER - 1);
    case 2: case 3:
        if (table == MADT && board->structures > 0)
            return start_of_structure(random, board);
        break;
    default:
        break;
    }
    return between(random, 1, last);
}

void cut_at_random(struct random *random, struct board *board, size_t table, size_t cuts)
{
    for (; cuts > 0 && count_segments(board) < SEGMENTS_MAX; cuts--)
        cut_table(board, table, random_cut(random, board, table), 0);
}

/* Cuts a table again and again at one distance, as page ends do; a distance of one byte makes segments of one byte. */
static void cut_evenly(struct random *random, struct board *board, size_t table)
{
    size_t length = board->table[table].length;
    size_t step = between(random, 1, one_in(random, 2) ? 4 : length / 2);

    for (size_t at = between(random, 1, step); at < length && count_segments(board) < SEGMENTS_MAX; at += step)
        cut_table(board, table, at, 0);
}

/* Segments that touch hold a table as one does (W-206). One table may take all that there are, or many have a few. */
static void cut_tables(struct random *random, struct board *board)
{
    size_t table = one_in(random, 2) ? below(random, OTHERS) : below(random, board->tables);

    settle_lengths(board);
    switch (below(random, 4)) {
    case 0:
        cut_evenly(random, board, table);
        break;
    case 1:
        cut_at_random(random, board, table, between(random, 1, SEGMENTS_MAX - 1));
        break;
    default:
        for (size_t i = 0; i < board->tables; i++)
            cut_at_random(random, board, i, below(random, 4));
        break;
    }
    make_room(board, 0);
}

void make_valid_board(struct random *random, struct board *board)
{
    start_board(random, board);
    board->version = one_in(random, 3) ? WITH_PAIRS : 1;
    board->table[FADT].length = one_in(random, 4) ? FADT_MIN : between(random, FADT_MIN, 280);
    add_structures(random, board);
    add_other_tables(random, board);
    if (!one_in(random, 3))
        shuffle_tables(random, board);
    scatter_over_memory(random, board);
    if (board->entries < ENTRIES_MAX && one_in(random, 100))
        add_large_table(random, board);
    if (one_in(random, 2))
        cut_tables(random, board);
}
