/* cct.db: the values of each context, and totals over them. Metrics are the indices of a block, profiles its values;
 * the summary profile 0 has none. */
#include "block.h"
#include "plain.h"

#include <math.h>

static const struct format format = {"HPCTOOLKITctxt", "__ctx.db", 1};
static const struct layout layout = {2, 4, 1};

enum { LEAST_STRIDE = 32 };

static uint32_t open_block(const uint8_t *file, size_t length, uint64_t context, struct block *block)
{
    struct infos infos;
    uint32_t code = read_infos(file, length, &format, LEAST_STRIDE, &infos);
    if (code != HPCDB_OK)
        return code;
    return read_block(file, &infos, context, &layout, block);
}

uint32_t plain_cct_open(const uint8_t *file, size_t file_length, uint64_t out[1])
{
    struct infos infos;
    uint32_t code = read_infos(file, file_length, &format, LEAST_STRIDE, &infos);
    if (code != HPCDB_OK)
        return code;
    out[0] = infos.elements.count;
    return HPCDB_OK;
}

uint32_t plain_cct_lookup(const uint8_t *file, size_t file_length, uint64_t profile, uint64_t context, uint64_t metric,
                          uint8_t *out, size_t out_length)
{
    if (out_length < 8)
        return HPCDB_ROOM;
    struct block block;
    uint32_t code = open_block(file, file_length, context, &block);
    if (code != HPCDB_OK)
        return code;
    return answer(&block, &layout, metric, profile, out);
}

uint32_t plain_cct_lookup_many(const uint8_t *file, size_t file_length, uint64_t context, const uint64_t *pairs,
                               size_t pairs_length, uint64_t *answers, size_t answers_length)
{
    if (answers_length / 2 < pairs_length / 2)
        return HPCDB_ROOM;
    struct block block;
    uint32_t code = open_block(file, file_length, context, &block);
    if (code != HPCDB_OK)
        return code;
    answer_many(&block, &layout, pairs, pairs_length / 2, answers);
    return HPCDB_OK;
}

static inline uint64_t profile_at(struct run run, uint64_t k)
{
    return id_of(element_at(run.values, layout.value_id_size, k), layout.value_id_size);
}

static inline double value_at(struct run run, uint64_t k)
{
    uint64_t bits = word_of(element_at(run.values, layout.value_id_size, k), layout.value_id_size);
    double value;
    memcpy(&value, &bits, sizeof value);
    return value;
}

struct extreme {
    uint64_t profile;
    double value;
};

static void store_double(uint64_t *word, double value)
{
    memcpy(word, &value, sizeof value);
}

/* The first smallest, the first greatest, and the sum from left to right; there is at least one value. */
static uint32_t total(struct run run, uint64_t out[6])
{
    double sum = value_at(run, 0);
    if (!isfinite(sum))
        return HPCDB_NOT_FINITE;
    struct extreme smallest = {profile_at(run, 0), sum}, greatest = smallest;

    for (uint64_t k = 1; k < run.count; k++) {
        double value = value_at(run, k);
        if (!isfinite(value))
            return HPCDB_NOT_FINITE;
        if (value < smallest.value)
            smallest = (struct extreme){profile_at(run, k), value};
        if (value > greatest.value)
            greatest = (struct extreme){profile_at(run, k), value};
        sum += value;
    }
    out[0] = run.count;
    out[1] = smallest.profile;
    store_double(&out[2], smallest.value);
    out[3] = greatest.profile;
    store_double(&out[4], greatest.value);
    store_double(&out[5], sum);
    return HPCDB_OK;
}

uint32_t plain_cct_totals(const uint8_t *file, size_t file_length, uint64_t context, uint64_t metric, uint64_t out[6])
{
    struct block block;
    uint32_t code = open_block(file, file_length, context, &block);
    if (code != HPCDB_OK)
        return code;
    struct run run = run_of(&block, &layout, metric);
    return run.count == 0 ? HPCDB_ABSENT : total(run, out);
}
