/*
 * Board A of document 01: see board_a.h.
 */
#include "board_a.h"

#include <assert.h>
#include <stdio.h>
#include <stdlib.h>
#include <string.h>

#include "files.h"

const uint64_t A_ADDRESS = UINT64_C(0x90000000);

const char A_READ[] = "read 2 0 0 1 1";

void load_board_a(const char *boards, uint8_t revision, struct capture *a)
{
    static const size_t place[] = {[RSDP] = A_RSDP, [XSDT] = A_XSDT, [MADT] = A_MADT, [FADT] = A_FADT};
    static const size_t length[] = {[RSDP] = RSDP_LENGTH, [XSDT] = 52, [MADT] = 176, [FADT] = 244};
    char path[4096];

    snprintf(path, sizeof path, "%s/A.cap", boards);
    a->length = load_file(path, a->bytes, CAPTURE_ROOM);
    if (a->length != A_LENGTH) {
        fprintf(stderr, "%s is not board A: it has %zu bytes\n", path, a->length);
        exit(2);
    }
    a->descriptors = A_DESCRIPTOR;
    a->segments = 1;
    a->tables = OTHERS;
    memcpy(a->place, place, sizeof place);
    memcpy(a->table_length, length, sizeof length);
    memset(a->sum_error, 0, sizeof a->sum_error);
    if (revision == 1) /* it has this one */
        return;
    a->bytes[A_MADT + TABLE_REVISION] = revision;
    make_sums_good(a);
}

static struct structure make_written_lpc(struct random *random, const uint32_t field[3])
{
    struct structure lpc = make_lpc(random, 0, (uint16_t)field[0]);

    put_u64(lpc.bytes + LPC_BASE, (uint64_t)field[1] << 32 | field[2]);
    return lpc;
}

static struct structure make_written_ht(struct random *random, const uint32_t field[HT_GROUPS])
{
    uint8_t inputs[HT_GROUPS];

    for (size_t i = 0; i < HT_GROUPS; i++)
        inputs[i] = (uint8_t)field[i];
    return make_ht(random, inputs);
}

static struct structure make_written(const struct written *written)
{
    const uint32_t *field = written->field;
    struct random random = {0};

    switch (written->kind) {
    case CORE:
        return make_core(&random, field[0], field[1], field[2]);
    case LIO:
        return make_lio(&random, (uint8_t[]){(uint8_t)field[0], (uint8_t)field[1]}, field + 2);
    case HT:
        return make_written_ht(&random, field);
    case EIO:
        return make_eio(&random, (uint8_t)field[0], (uint8_t)field[1], field[2]);
    case MSI:
        return make_msi(&random, field[0], field[1]);
    case BIO:
        return make_bio(&random, (uint16_t)field[0], (uint16_t)field[1]);
    case LPC:
        return make_written_lpc(&random, field);
    case 0:
        return (struct structure){.length = 0};
    default:
        return shortest_structure(written->kind);
    }
}

/* Puts bytes in the place of those from one place of the MADT to another, and mends what this moves: the FADT is behind it. */
static void replace_bytes(struct capture *a, size_t place, size_t end, const uint8_t *bytes, size_t length)
{
    uint8_t *fadt_address = a->bytes + A_XSDT + TABLE_HEADER + 8;
    size_t new_end = place + length;
    long grown = (long)new_end - (long)end;

    memmove(a->bytes + new_end, a->bytes + end, a->length - end);
    memcpy(a->bytes + place, bytes, length);
    a->length += (size_t)grown;
    a->place[FADT] += (size_t)grown;
    a->table_length[MADT] += (size_t)grown;
    put_u32(a->bytes + 6, (uint32_t)a->length);
    put_u32(a->bytes + A_DESCRIPTOR + 8, (uint32_t)(a->length - A_RSDP));
    put_u32(a->bytes + A_MADT + 4, (uint32_t)a->table_length[MADT]);
    put_u64(fadt_address, get_u64(fadt_address) + (uint64_t)grown);
}

void replace_structures(struct capture *a, size_t place, const struct written written[WRITTEN_MAX])
{
    uint8_t bytes[WRITTEN_MAX * sizeof(struct structure)];
    size_t length = 0;

    for (size_t i = 0; i < WRITTEN_MAX; i++) {
        struct structure structure = make_written(&written[i]);

        memcpy(bytes + length, structure.bytes, structure.length);
        length += structure.length;
    }
    replace_bytes(a, place, a->place[FADT], bytes, length);
}

void replace_cores(struct capture *a, const struct written_core *cores, size_t count)
{
    static uint8_t bytes[(CORES_MAX + 1) * sizeof(struct structure)];
    struct random random = {0};
    size_t length = 0;

    assert(count <= CORES_MAX + 1);
    for (size_t i = 0; i < count; i++) {
        struct structure core = make_core(&random, cores[i].uid, cores[i].physical_id, cores[i].flags);

        memcpy(bytes + length, core.bytes, core.length);
        length += core.length;
    }
    replace_bytes(a, A_CORE, A_LIO, bytes, length);
}

void replace_equal_cores(struct capture *a, const struct equal_cores cores[EQUAL_CORES_MAX])
{
    struct written_core written[CORES_MAX + 1];
    size_t count = 0;

    for (size_t i = 0; i < EQUAL_CORES_MAX; i++)
        for (size_t j = 0; j < cores[i].count; j++) {
            assert(count <= CORES_MAX);
            written[count++] = (struct written_core){cores[i].uid, cores[i].physical_id, cores[i].flags};
        }
    replace_cores(a, written, count);
}

void become_version_2(struct capture *a, const struct pair pair[PAIRS])
{
    memmove(a->bytes + HEADER_LENGTH + PAIRS_LENGTH, a->bytes + HEADER_LENGTH, a->length - HEADER_LENGTH);
    write_pairs(a->bytes + HEADER_LENGTH, pair);
    put_u16(a->bytes + CAPTURE_VERSION, WITH_PAIRS);
    a->length += PAIRS_LENGTH;
    set_total(a, a->length);
    a->descriptors += PAIRS_LENGTH;
    for (size_t table = 0; table < a->tables; table++)
        a->place[table] += PAIRS_LENGTH;
}

void second_bridge_at_128(struct capture *a)
{
    replace_structures(a, A_FADT, (struct written[WRITTEN_MAX]){{EIO, {4, 5, 1}}, {BIO, {5, 128}}});
}
