/*
 * Yasmirand's entries for C (crates/reading_c, over crates/reading/src/entries.rt). A slice of bytes is a pointer and a length.
 *
 * All of them take captures of version 1 and of version 2, which tells how many inputs bridges have (README, "Two versions of the
 * capture"), and give the strict reading: a MADT of another revision than 1 is refused with 29 (README, "Newer tables").
 *
 * A result of 2^48 or more is a refusal: refusal number × 2^48 + place in the capture. Any other result is an answer.
 * (The second place that 51 to 53 have is not in a result; `./map` prints it.)
 * The functions keep nothing between calls, allocate nothing and end for any bytes.
 *
 * The caller answers for what no proof can see. Each pointer is valid for its length, the capture's to be read, the list's
 * to be read and written, and is not null, also where the length is 0. List and capture do not overlap, and nothing else
 * changes them during a call. A call takes under 4 KiB of stack (docs/SPEED.md). Of a C library the calls need memset alone.
 */
#ifndef YASMIRAND_H
#define YASMIRAND_H

#include <stddef.h>
#include <stdint.h>

#ifdef __cplusplus
extern "C" {
#endif

/*
 * The reading: UID and physical ID of each enabled processor go to the front of the list, in table order, each as four
 * little-endian bytes; what lies behind them stays. The result is the number of processors, or a refusal, which leaves
 * the list as it was: 60 where the list is under 8 bytes for each processor.
 */
uint64_t yasmirand_read(const uint8_t *capture, size_t capture_len, uint8_t *list, size_t list_len);

/*
 * Where a global number arrives: kind × 2^40 + vector × 2^32 + number.
 * kind 0 arrives; 1 unwired, 2 no owner (vector and number are 0).
 */
uint64_t yasmirand_route(const uint8_t *capture, size_t capture_len, uint32_t number);

/*
 * What arrives at a core vector with a number: kind × 2^40 + node × 2^32 + value.
 * kind 0 nothing; 1 LIO input, 2 BIO input, 3 LPC cascade input (value is the global number);
 * 4 MSI slot (value is the slot, node its EIO's node, 0 on an HT board; node is 0 in every other kind).
 */
uint64_t yasmirand_trace(const uint8_t *capture, size_t capture_len, uint32_t vector, uint32_t number);

#ifdef __cplusplus
}
#endif

#endif
