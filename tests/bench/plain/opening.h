/* Opening: what the four files have in common. Checks come in document 01's order, and the first that fails gives the
 * code. */
#ifndef PLAIN_OPENING_H
#define PLAIN_OPENING_H

#include "bytes.h"
#include "hpcdb.h"

enum { MAGIC_SIZE = 14, MAJOR_VERSION = 4, FOOTER_SIZE = 8 };

struct format {
    const char *magic;
    const char *footer; /* null where none is compared */
    uint64_t section_count;
};

/* The frame: all but header and footer lies in `body`. */
static inline uint32_t read_frame(const uint8_t *file, size_t length, const struct format *format, struct span *body)
{
    uint64_t header_end = 16 + 16 * format->section_count;

    if (length < header_end + FOOTER_SIZE)
        return HPCDB_SHORT;
    if (memcmp(file, format->magic, MAGIC_SIZE) != 0)
        return HPCDB_MAGIC;
    if (file[MAGIC_SIZE] != MAJOR_VERSION)
        return HPCDB_VERSION;
    *body = (struct span){header_end, length - FOOTER_SIZE};
    if (format->footer != NULL && memcmp(file + body->end, format->footer, FOOTER_SIZE) != 0)
        return HPCDB_FOOTER;
    return HPCDB_OK;
}

/* The k-th section of the header. The alignment is a power of two. A section that may be empty and is contains nothing,
 * and its pointer is ignored. */
static inline uint32_t read_section(const uint8_t *file, struct span body, unsigned k, uint64_t least_size,
                                    uint64_t alignment, struct span *section)
{
    uint64_t size = load64(file + 16 + 16 * k);
    uint64_t place = load64(file + 24 + 16 * k);

    if (size < least_size)
        return HPCDB_SECTION;
    *section = (struct span){0, 0};
    if (size == 0)
        return HPCDB_OK;
    if (!holds(body, place, size) || (place & (alignment - 1)) != 0)
        return HPCDB_SECTION;
    *section = (struct span){place, place + size};
    return HPCDB_OK;
}

static inline bool is_stride(uint64_t stride, uint64_t least)
{
    return stride >= least && stride % 8 == 0;
}

/* Elements that lie `stride` bytes apart. */
struct array {
    uint64_t start, count, stride;
};

/* An array in a section, behind the section's header. Count and stride have at most 32 and 16 bits, so that the product
 * is exact. The pointer of an empty array is ignored. */
static inline uint32_t read_array(struct span section, uint64_t header_size, uint64_t place, uint64_t count,
                                  uint64_t stride, struct array *array)
{
    struct span room = {section.start + header_size, section.end};

    *array = (struct array){place, count, stride};
    if (count == 0)
        return HPCDB_OK;
    if (place % 8 != 0 || !holds(room, place, count * stride))
        return HPCDB_ARRAY;
    return HPCDB_OK;
}

static inline uint64_t element_place(const struct array *array, uint64_t i)
{
    return array->start + i * array->stride;
}

/* profile.db, cct.db and trace.db have one array, in their first section, whose elements tell what lies outside the
 * sections. The second section is empty where the file has none. */
struct infos {
    struct span body;
    struct span sections[2];
    struct array elements;
};

enum { INFOS_HEADER_SIZE = 13 };

static inline uint32_t read_infos(const uint8_t *file, size_t length, const struct format *format,
                                  uint64_t least_stride, struct infos *infos)
{
    uint32_t code;

    if ((code = read_frame(file, length, format, &infos->body)) != HPCDB_OK)
        return code;
    if ((code = read_section(file, infos->body, 0, INFOS_HEADER_SIZE, 8, &infos->sections[0])) != HPCDB_OK)
        return code;
    infos->sections[1] = (struct span){0, 0};
    if (format->section_count > 1) {
        if ((code = read_section(file, infos->body, 1, 0, 8, &infos->sections[1])) != HPCDB_OK)
            return code;
    }

    const uint8_t *header = file + infos->sections[0].start;
    uint64_t stride = header[12];
    if (!is_stride(stride, least_stride))
        return HPCDB_STRIDE;
    return read_array(infos->sections[0], INFOS_HEADER_SIZE, load64(header), load32(header + 8), stride,
                      &infos->elements);
}

/* Whether the `size` bytes at `place` lie between header and footer and share no byte with a section. */
static inline bool outside_sections(const struct infos *infos, uint64_t place, uint64_t size)
{
    if (!holds(infos->body, place, size))
        return false;
    struct span part = {place, place + size};
    return !share_a_byte(part, infos->sections[0]) && !share_a_byte(part, infos->sections[1]);
}

#endif
