/* trace.db: trace lines and their samples. A sample is a timestamp of 8 bytes and a ctxId of 4. */
#include "opening.h"
#include "plain.h"

static const struct format format = {"HPCTOOLKITtrce", NULL, 1};

enum { LEAST_STRIDE = 24, SAMPLE_SIZE = 12 };

struct line {
    const uint8_t *samples;
    uint64_t count;
};

static inline uint64_t timestamp(const struct line *line, uint64_t k)
{
    return load64(line->samples + k * SAMPLE_SIZE);
}

static inline bool a_timestamp_falls(const struct line *line)
{
    for (uint64_t k = 1; k < line->count; k++)
        if (timestamp(line, k) < timestamp(line, k - 1))
            return true;
    return false;
}

/* Line i with all its checks. */
static uint32_t read_line(const uint8_t *file, const struct infos *infos, uint64_t i, struct line *line)
{
    if (i >= infos->elements.count)
        return HPCDB_INDEX;
    const uint8_t *header = file + element_place(&infos->elements, i);
    uint64_t start = load64(header + 8), end = load64(header + 16);
    if (start > end || !outside_sections(infos, start, end - start))
        return HPCDB_ARRAY;
    if (start % 8 != 0 || end % 4 != 0 || (end - start) % SAMPLE_SIZE != 0)
        return HPCDB_ARRAY;
    *line = (struct line){file + start, (end - start) / SAMPLE_SIZE};
    return a_timestamp_falls(line) ? HPCDB_ORDER : HPCDB_OK;
}

/* How many samples are not later than a time. */
static uint64_t count_until(const struct line *line, uint64_t time)
{
    uint64_t low = 0, high = line->count;

    while (low < high) {
        uint64_t middle = low + (high - low) / 2;
        if (timestamp(line, middle) <= time)
            low = middle + 1;
        else
            high = middle;
    }
    return low;
}

uint32_t plain_trace_open(const uint8_t *file, size_t file_length, uint64_t out[1])
{
    struct infos infos;
    uint32_t code = read_infos(file, file_length, &format, LEAST_STRIDE, &infos);
    if (code != HPCDB_OK)
        return code;
    out[0] = infos.elements.count;
    return HPCDB_OK;
}

uint32_t plain_trace_at(const uint8_t *file, size_t file_length, uint64_t i, uint64_t time, uint64_t out[3])
{
    struct infos infos;
    struct line line;
    uint32_t code;

    if ((code = read_infos(file, file_length, &format, LEAST_STRIDE, &infos)) != HPCDB_OK)
        return code;
    if ((code = read_line(file, &infos, i, &line)) != HPCDB_OK)
        return code;
    uint64_t count = count_until(&line, time);
    if (count == 0)
        return HPCDB_ABSENT;
    out[0] = count - 1;
    out[1] = timestamp(&line, count - 1);
    out[2] = load32(line.samples + (count - 1) * SAMPLE_SIZE + 8);
    return HPCDB_OK;
}
