/* An opened meta.db, as meta.c reads it; walk.c has its contexts, hot.c the hottest of them. */
#ifndef PLAIN_META_H
#define PLAIN_META_H

#include "opening.h"

enum section { GENERAL, ID_NAMES, METRICS, CONTEXT, STRINGS, MODULES, FILES, FUNCTIONS, SECTION_COUNT };

struct meta {
    const uint8_t *file;
    struct span sections[SECTION_COUNT];
    struct array id_names, metrics, modules, files, functions;
    uint64_t scope_stride, summary_stride;
    struct span context_room; /* where roots and children lie */
    struct span roots;
};

/* HEAD_SIZE: bytes of a context before its flex. DEEPEST: a context below this depth is refused, but only after its
 * other checks. */
enum { HEAD_SIZE = 24, DEEPEST = 200 };

uint32_t plain_read_meta(const uint8_t *file, size_t length, struct meta *meta);

/* Roots or children: place and size are both 0, or a range in the room. */
static inline bool read_context_array(struct span room, uint64_t place, uint64_t size, struct span *array)
{
    *array = (struct span){place, place + size};
    if (place == 0 && size == 0)
        return true;
    return place != 0 && size != 0 && place % 8 == 0 && holds(room, place, size);
}

/* Whether a link leads to an element of the array. */
static inline bool leads_to(uint64_t link, const struct array *array)
{
    if (link < array->start)
        return false;
    uint64_t offset = link - array->start;
    return offset / array->stride < array->count && offset % array->stride == 0;
}

#endif
