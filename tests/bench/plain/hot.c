/* The hot path of meta.db and profile.db: from the root with the greatest value down, always to the child with the
 * greatest. */
#include "meta.h"
#include "plain.h"
#include "profile.h"

#include <math.h>

/* The place of the first context with the greatest value, in an array that a walk has checked; 0 if none has one. */
static inline uint32_t find_hottest(const uint8_t *meta, struct span siblings, const struct block *block,
                                    uint64_t metric, uint64_t *hint, uint64_t *hottest)
{
    double greatest = 0;

    *hottest = 0;
    for (uint64_t place = siblings.start; place < siblings.end; place += HEAD_SIZE + 8 * meta[place + 23]) {
        uint64_t bits;
        double value;
        if (!find_near(block, &profile_layout, load32(meta + place + 16), metric, hint, &bits))
            continue;
        memcpy(&value, &bits, sizeof value);
        if (!isfinite(value))
            return HPCDB_NOT_FINITE;
        if (*hottest == 0 || value > greatest) {
            *hottest = place;
            greatest = value;
        }
    }
    return HPCDB_OK;
}

/* The way is followed to its end before its length counts. */
static uint32_t go_down(const uint8_t *meta, struct span roots, const struct block *block, uint64_t metric,
                        uint64_t path[DEEPEST], uint64_t *depth)
{
    struct span siblings = roots;
    uint64_t hint = 0, hottest;

    for (*depth = 0;; path[(*depth)++] = hottest) {
        uint32_t code = find_hottest(meta, siblings, block, metric, &hint, &hottest);
        if (code != HPCDB_OK || hottest == 0)
            return code;
        siblings.start = load64(meta + hottest + 8);
        siblings.end = siblings.start + load64(meta + hottest);
    }
}

uint32_t plain_hot_path(const uint8_t *meta, size_t meta_length, const uint8_t *profile_db, size_t profile_db_length,
                        uint64_t profile, uint64_t metric, uint64_t *listing, size_t listing_length, uint64_t *table,
                        size_t table_length, uint64_t *hot, size_t hot_length, uint64_t out[1])
{
    uint64_t listed[1], path[DEEPEST], depth;
    struct meta opened;
    struct block block;
    uint32_t code = plain_meta_walk(meta, meta_length, listing, listing_length, table, table_length, listed);

    if (code != HPCDB_OK)
        return code == HPCDB_CUT ? HPCDB_ROOM : code;
    if ((code = plain_read_meta(meta, meta_length, &opened)) != HPCDB_OK)
        return code;
    if ((code = open_profile_block(profile_db, profile_db_length, profile, &block)) != HPCDB_OK)
        return code;
    if ((code = go_down(meta, opened.roots, &block, metric, path, &depth)) != HPCDB_OK)
        return code;
    if (depth > hot_length)
        return HPCDB_ROOM;
    for (uint64_t k = 0; k < depth; k++)
        hot[k] = path[k];
    out[0] = depth;
    return HPCDB_OK;
}
