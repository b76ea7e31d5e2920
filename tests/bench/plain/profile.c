/* profile.db: the values of each profile. */
#include "plain.h"
#include "profile.h"

uint32_t plain_profile_open(const uint8_t *file, size_t file_length, uint64_t out[1])
{
    struct infos infos;
    uint32_t code = read_infos(file, file_length, &profile_format, LEAST_PROFILE_STRIDE, &infos);
    if (code != HPCDB_OK)
        return code;
    out[0] = infos.elements.count;
    return HPCDB_OK;
}

uint32_t plain_profile_lookup(const uint8_t *file, size_t file_length, uint64_t profile, uint64_t context,
                              uint64_t metric, uint8_t *out, size_t out_length)
{
    if (out_length < 8)
        return HPCDB_ROOM;
    struct block block;
    uint32_t code = open_profile_block(file, file_length, profile, &block);
    if (code != HPCDB_OK)
        return code;
    return answer(&block, &profile_layout, context, metric, out);
}

uint32_t plain_profile_lookup_many(const uint8_t *file, size_t file_length, uint64_t profile, const uint64_t *pairs,
                                   size_t pairs_length, uint64_t *answers, size_t answers_length)
{
    if (answers_length / 2 < pairs_length / 2)
        return HPCDB_ROOM;
    struct block block;
    uint32_t code = open_profile_block(file, file_length, profile, &block);
    if (code != HPCDB_OK)
        return code;
    answer_many(&block, &profile_layout, pairs, pairs_length / 2, answers);
    return HPCDB_OK;
}
