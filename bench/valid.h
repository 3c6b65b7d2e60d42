/*
 * Random boards that keep every rule of document 01, with the meaning that W-206 gives to a stretch that is present. A third of
 * them have an HT in place of EIOs (W-201). W-203 leaves the IDs of disabled CORE free, and theirs often repeat others. A third
 * of them have capture version 2, and many of these keep the rules only because their bridges have fewer pins (W-212). Their LPC
 * is behind any of their bridges that its base can name (W-208). Their MADT has revision 1, which both readings of W-207 take.
 */
#ifndef VALID_H
#define VALID_H

#include "board.h"
#include "random.h"

void make_valid_board(struct random *random, struct board *board);

/* A MADT revision other than 1: often 0, which no reading takes, else one that the ordinary reading takes (W-207). */
uint8_t other_revision(struct random *random);

/* Gives the CORE of a board IDs in some order: no two have a UID or a physical ID in common, unless one of them is disabled. */
void give_ids(struct random *random, struct board *board);

/* A node map: not 0, with many nodes or one. */
uint64_t node_map(struct random *random);

/* How many pins a bridge may have: often 1, 32, 64, or one next to these. */
uint8_t random_pins(struct random *random);

/* Gives a board of version 1 the next one, with pairs that name none of its bridges or are empty. */
void make_version_2(struct random *random, struct board *board);

/* Gives a number of inputs to the bridges of a hardware ID. Other bridges keep their pairs, unless they have all four. */
void give_pair(struct random *random, struct board *board, uint8_t hardware_id, uint8_t number);

/* A node without a hub. Most are 0 to 15, which an LPC's base can name; some are 16, 32 or 48 apart from an EIO's (W-208). */
uint8_t unused_node(struct random *random, const struct board *board);

/* Whether a bridge of this hardware ID has a hub, the EIO of this node or the HT (W-201), and whether there is such a bridge. */
bool has_hub(const struct board *board, uint8_t node);
bool has_bio(const struct board *board, uint16_t hardware_id);

/* Some BIO; NULL if there is none. */
const uint8_t *some_bio(struct random *random, const struct board *board);

/* Some BIO that an LPC's base can name, with a hardware ID of 0 to 15 (W-208); NULL if there is none. */
const uint8_t *some_bridge_for_lpc(struct random *random, const struct board *board);

/* The LPC's bridge, the earliest BIO whose hardware ID is the LPC's node (W-208); NULL if there is none, or no LPC. */
const uint8_t *bridge_of_lpc(const struct board *board);

/* The bits just below the LPC's node, or those just above it, which mean nothing, become the hardware ID of a bridge, if any can. */
void name_bridge_beside_node(struct random *random, const struct board *board, uint8_t *lpc);

/* How many pins the bridge with the most has; 0 if there is none. */
uint8_t most_pins(const struct board *board);

/* Whether a BIO with this base and so many pins would own a global number that a BIO of the board owns already. */
bool base_is_taken(const struct board *board, uint16_t base, uint8_t pins);

/* A base that is free on a board with few bridges, for one more with so many pins; often just behind or before another. */
uint16_t free_base(struct random *random, const struct board *board, uint8_t pins);

/* ---- HT boards (W-201) ---- */

bool is_ht_board(const struct board *board);

/* LIO inputs as a mask: those that are wired, to the first LIO if there are two, and those that an HT names. */
uint32_t wired_inputs(const struct board *board);
uint32_t named_inputs(const struct board *board);

/* Some LIO input of a mask; any, if the mask is 0. */
uint8_t some_input(struct random *random, uint32_t mask);

/*
 * An HT whose bytes name wired inputs of the LIO, which has one, or two if there is no BIO: then one is left for the SCI. Often
 * all bytes name one input, or two.
 */
struct structure wired_ht(struct random *random, const struct board *board);

/* A global number that arrives: there is a BIO, or a wired LIO input that no HT names. */
uint16_t arriving_number(struct random *random, const struct board *board);

/* A structure of a type that is passed over, of any length that fits, often the shortest. */
struct structure passed_over_structure(struct random *random);

/* Cuts a table of settled length at random, up to so many times: the segments touch, and are no more than a capture may have. */
void cut_at_random(struct random *random, struct board *board, size_t table, size_t cuts);

#endif
