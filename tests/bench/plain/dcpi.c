/* DCPI samples: chunks of offset, number and that many counts, for offsets one apart; then two totals. */
#include "bytes.h"
#include "plain.h"

enum { TOTALS_SIZE = 8, HEAD_SIZE = 8, COUNT_SIZE = 4, ENTRY_SIZE = 24 };

struct chunk {
    uint64_t offset, number;
    const uint8_t *counts;
};

struct totals {
    uint64_t offsets, samples;
};

/* The chunk at a place before the totals. */
static inline struct chunk chunk_at(const uint8_t *at)
{
    return (struct chunk){load32(at), load32(at + 4), at + HEAD_SIZE};
}

static inline const uint8_t *place_behind(const struct chunk *chunk)
{
    return chunk->counts + COUNT_SIZE * chunk->number;
}

static inline uint32_t count_of(const struct chunk *chunk, uint64_t i)
{
    return load32(chunk->counts + COUNT_SIZE * i);
}

static inline void add_counts(const struct chunk *chunk, struct totals *totals)
{
    for (uint64_t i = 0; i < chunk->number; i++) {
        uint32_t count = count_of(chunk, i);
        totals->offsets += count != 0;
        totals->samples += count;
    }
}

/* All checks; `totals` are those of a sound section. */
static uint32_t check(const uint8_t *samples, size_t length, struct totals *totals)
{
    if (length < TOTALS_SIZE)
        return HPCDB_SHORT;
    const uint8_t *end = samples + (length - TOTALS_SIZE);
    uint64_t least = 0;
    *totals = (struct totals){0, 0};
    for (const uint8_t *at = samples; at < end;) {
        uint64_t left = (uint64_t)(end - at);
        if (left < HEAD_SIZE)
            return HPCDB_ARRAY;
        struct chunk chunk = chunk_at(at);
        if (chunk.number == 0 || HEAD_SIZE + COUNT_SIZE * chunk.number > left ||
            chunk.offset + chunk.number > (uint64_t)UINT32_MAX + 1)
            return HPCDB_ARRAY;
        if (chunk.offset < least)
            return HPCDB_ORDER;
        add_counts(&chunk, totals);
        least = chunk.offset + chunk.number;
        at = place_behind(&chunk);
    }
    return totals->offsets == load32(end) && totals->samples == load32(end + 4) ? HPCDB_OK : HPCDB_TOTAL;
}

uint32_t plain_dcpi_totals(const uint8_t *samples, size_t samples_length, uint64_t out[2])
{
    struct totals totals;
    uint32_t code = check(samples, samples_length, &totals);
    if (code != HPCDB_OK)
        return code;
    out[0] = totals.offsets;
    out[1] = totals.samples;
    return HPCDB_OK;
}

uint32_t plain_dcpi_lookup(const uint8_t *samples, size_t samples_length, uint64_t offset, uint64_t out[1])
{
    struct totals totals;
    uint32_t code = check(samples, samples_length, &totals);
    if (code != HPCDB_OK)
        return code;
    const uint8_t *end = samples + (samples_length - TOTALS_SIZE);
    for (const uint8_t *at = samples; at < end;) {
        struct chunk chunk = chunk_at(at);
        if (offset < chunk.offset)
            return HPCDB_ABSENT;
        if (offset < chunk.offset + chunk.number) {
            out[0] = count_of(&chunk, offset - chunk.offset);
            return HPCDB_OK;
        }
        at = place_behind(&chunk);
    }
    return HPCDB_ABSENT;
}

static inline void store_entry(uint8_t *at, uint32_t profile, uint32_t offset, uint16_t metric, uint32_t count)
{
    uint64_t number = metric;
    double value = count;
    memcpy(at, &profile, 4);
    memcpy(at + 4, &offset, 4);
    memcpy(at + 8, &number, 8);
    memcpy(at + 16, &value, 8);
}

uint32_t plain_dcpi_entries(const uint8_t *samples, size_t samples_length, uint32_t profile, uint16_t metric,
                            uint8_t *entries, size_t entries_length, uint64_t out[1])
{
    struct totals totals;
    uint32_t code = check(samples, samples_length, &totals);
    if (code != HPCDB_OK)
        return code;
    if (entries_length / ENTRY_SIZE < totals.offsets)
        return HPCDB_ROOM;
    const uint8_t *end = samples + (samples_length - TOTALS_SIZE);
    for (const uint8_t *at = samples; at < end;) {
        struct chunk chunk = chunk_at(at);
        for (uint64_t i = 0; i < chunk.number; i++) {
            uint32_t count = count_of(&chunk, i);
            if (count != 0) {
                store_entry(entries, profile, (uint32_t)(chunk.offset + i), metric, count);
                entries += ENTRY_SIZE;
            }
        }
        at = place_behind(&chunk);
    }
    out[0] = totals.offsets;
    return HPCDB_OK;
}
