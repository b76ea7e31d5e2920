/* Sparse blocks, once for both files. An index is an id and a start, a value is an id and its bits; the id has 2 or 4
 * bytes, the word behind it 8. profile.c and cct.c have one constant layout each, for which the code is compiled. */
#ifndef PLAIN_BLOCK_H
#define PLAIN_BLOCK_H

#include "opening.h"

struct layout {
    unsigned index_id_size, value_id_size;
    uint64_t least_value_id;
};

struct block {
    const uint8_t *indices, *values;
    uint64_t index_count, value_count;
};

/* The values of one index. */
struct run {
    const uint8_t *values;
    uint64_t count;
};

static inline uint64_t element_size(unsigned id_size)
{
    return id_size + 8;
}

static inline const uint8_t *element_at(const uint8_t *elements, unsigned id_size, uint64_t k)
{
    return elements + k * element_size(id_size);
}

static inline uint64_t id_of(const uint8_t *element, unsigned id_size)
{
    return id_size == 2 ? load16(element) : load32(element);
}

static inline uint64_t word_of(const uint8_t *element, unsigned id_size)
{
    return load64(element + id_size);
}

static inline uint64_t start_of(const struct block *block, const struct layout *layout, uint64_t k)
{
    return word_of(element_at(block->indices, layout->index_id_size, k), layout->index_id_size);
}

/* Where the values of index k end. */
static inline uint64_t end_of(const struct block *block, const struct layout *layout, uint64_t k)
{
    return k + 1 < block->index_count ? start_of(block, layout, k + 1) : block->value_count;
}

/* Where the block lies. */
static inline uint32_t read_ranges(const uint8_t *file, const struct infos *infos, const uint8_t *header,
                                   const struct layout *layout, struct block *block)
{
    uint64_t value_count = load64(header), values = load64(header + 8);
    uint64_t index_count = id_of(header + 16, layout->index_id_size), indices = load64(header + 24);
    uint64_t value_size = element_size(layout->value_id_size);

    *block = (struct block){file, file, 0, 0};
    if (index_count == 0)
        return value_count == 0 ? HPCDB_OK : HPCDB_ARRAY;
    if (value_count == 0 || value_count > UINT64_MAX / value_size)
        return HPCDB_ARRAY;
    if (!outside_sections(infos, values, value_count * value_size) ||
        !outside_sections(infos, indices, index_count * element_size(layout->index_id_size)))
        return HPCDB_ARRAY;
    if (values % 2 != 0 || indices % 4 != 0 || values + value_count * value_size > indices)
        return HPCDB_ARRAY;
    *block = (struct block){file + indices, file + values, index_count, value_count};
    return HPCDB_OK;
}

/* Whether ids increase from `least` on. */
static inline bool ids_increase(const uint8_t *elements, unsigned id_size, uint64_t count, uint64_t least)
{
    for (uint64_t k = 0; k < count; k++) {
        uint64_t id = id_of(element_at(elements, id_size, k), id_size);
        if (id < least)
            return false;
        least = id + 1;
    }
    return true;
}

/* Whether starts and ids are in order. */
static inline bool is_ordered(const struct block *block, const struct layout *layout)
{
    if (block->index_count > 0 && start_of(block, layout, 0) != 0)
        return false;
    uint64_t least_id = 0;
    for (uint64_t k = 0; k < block->index_count; k++) {
        uint64_t id = id_of(element_at(block->indices, layout->index_id_size, k), layout->index_id_size);
        uint64_t start = start_of(block, layout, k), end = end_of(block, layout, k);
        if (id < least_id || start >= end || end > block->value_count)
            return false;
        const uint8_t *values = element_at(block->values, layout->value_id_size, start);
        if (!ids_increase(values, layout->value_id_size, end - start, layout->least_value_id))
            return false;
        least_id = id + 1;
    }
    return true;
}

/* The block whose header stands in element i, with all its checks. */
static inline uint32_t read_block(const uint8_t *file, const struct infos *infos, uint64_t i,
                                  const struct layout *layout, struct block *block)
{
    if (i >= infos->elements.count)
        return HPCDB_INDEX;
    uint32_t code = read_ranges(file, infos, file + element_place(&infos->elements, i), layout, block);
    if (code != HPCDB_OK)
        return code;
    return is_ordered(block, layout) ? HPCDB_OK : HPCDB_ORDER;
}

/* The position of an id, or `count`. */
static inline uint64_t search(const uint8_t *elements, unsigned id_size, uint64_t count, uint64_t id)
{
    uint64_t low = 0, high = count;

    while (low < high) {
        uint64_t middle = low + (high - low) / 2;
        if (id_of(element_at(elements, id_size, middle), id_size) < id)
            low = middle + 1;
        else
            high = middle;
    }
    if (low < count && id_of(element_at(elements, id_size, low), id_size) != id)
        return count;
    return low;
}

/* How many elements are looked at from a hint on before all are. */
enum { WINDOW = 8 };

/* The same, where it may be at a hint, or among the elements behind that. */
static inline uint64_t search_near(const uint8_t *elements, unsigned id_size, uint64_t count, uint64_t id,
                                   uint64_t hint)
{
    if (hint < count) {
        const uint8_t *from = element_at(elements, id_size, hint);
        uint64_t first = id_of(from, id_size);
        if (first == id)
            return hint;
        if (count - hint > WINDOW && first < id && id < id_of(element_at(from, id_size, WINDOW), id_size)) {
            uint64_t k = search(from, id_size, WINDOW, id);
            return k == WINDOW ? count : hint + k;
        }
    }
    return search(elements, id_size, count, id);
}

/* The values of index k; none if it is the number of indices. */
static inline struct run run_at(const struct block *block, const struct layout *layout, uint64_t k)
{
    if (k == block->index_count)
        return (struct run){block->values, 0};
    uint64_t start = start_of(block, layout, k), end = end_of(block, layout, k);
    return (struct run){element_at(block->values, layout->value_id_size, start), end - start};
}

/* The values of the index with this id; none if there is no such index, and only then. */
static inline struct run run_of(const struct block *block, const struct layout *layout, uint64_t index_id)
{
    return run_at(block, layout, search(block->indices, layout->index_id_size, block->index_count, index_id));
}

/* The bits of a value of a run; false if it is absent. */
static inline bool find_in(struct run run, const struct layout *layout, uint64_t value_id, uint64_t *bits)
{
    uint64_t k = search(run.values, layout->value_id_size, run.count, value_id);
    if (k == run.count)
        return false;
    *bits = word_of(element_at(run.values, layout->value_id_size, k), layout->value_id_size);
    return true;
}

static inline bool find(const struct block *block, const struct layout *layout, uint64_t index_id, uint64_t value_id,
                        uint64_t *bits)
{
    return find_in(run_of(block, layout, index_id), layout, value_id, bits);
}

/* The same. The hint is set to where the index was, if it is there. */
static inline bool find_near(const struct block *block, const struct layout *layout, uint64_t index_id,
                             uint64_t value_id, uint64_t *hint, uint64_t *bits)
{
    uint64_t k = search_near(block->indices, layout->index_id_size, block->index_count, index_id, *hint);
    if (k == block->index_count)
        return false;
    *hint = k;
    return find_in(run_at(block, layout, k), layout, value_id, bits);
}

/* The answer of a single lookup. */
static inline uint32_t answer(const struct block *block, const struct layout *layout, uint64_t index_id,
                              uint64_t value_id, uint8_t *out)
{
    uint64_t bits;

    if (!find(block, layout, index_id, value_id, &bits))
        return HPCDB_ABSENT;
    memcpy(out, &bits, sizeof bits);
    return HPCDB_OK;
}

/* The answers of a batch, two words for each of the pairs. */
static inline void answer_many(const struct block *block, const struct layout *layout, const uint64_t *pairs,
                               size_t pair_count, uint64_t *answers)
{
    for (size_t k = 0; k < pair_count; k++) {
        uint64_t bits = 0;
        bool found = find(block, layout, pairs[2 * k], pairs[2 * k + 1], &bits);
        answers[2 * k] = found ? HPCDB_OK : HPCDB_ABSENT;
        answers[2 * k + 1] = bits;
    }
}

#endif
