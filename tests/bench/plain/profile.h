/* The blocks of profile.db. Contexts are the indices of a block, metrics its values. */
#ifndef PLAIN_PROFILE_H
#define PLAIN_PROFILE_H

#include "block.h"

static const struct format profile_format = {"HPCTOOLKITprof", "_prof.db", 2};
static const struct layout profile_layout = {4, 2, 0};

enum { LEAST_PROFILE_STRIDE = 40 };

static inline uint32_t open_profile_block(const uint8_t *file, size_t length, uint64_t profile, struct block *block)
{
    struct infos infos;
    uint32_t code = read_infos(file, length, &profile_format, LEAST_PROFILE_STRIDE, &infos);
    if (code != HPCDB_OK)
        return code;
    return read_block(file, &infos, profile, &profile_layout, block);
}

#endif
