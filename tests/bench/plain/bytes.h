/* Numbers in the bytes of a file, and parts of a file. The numbers of a file are little-endian, and the machine has to
 * be. */
#ifndef PLAIN_BYTES_H
#define PLAIN_BYTES_H

#include <stdbool.h>
#include <stdint.h>
#include <string.h>

static inline uint16_t load16(const uint8_t *at)
{
    uint16_t number;
    memcpy(&number, at, sizeof number);
    return number;
}

static inline uint32_t load32(const uint8_t *at)
{
    uint32_t number;
    memcpy(&number, at, sizeof number);
    return number;
}

static inline uint64_t load64(const uint8_t *at)
{
    uint64_t number;
    memcpy(&number, at, sizeof number);
    return number;
}

/* The bytes of a file from `start` to just before `end`. */
struct span {
    uint64_t start, end;
};

/* Whether the `size` bytes at `place` lie in the span. */
static inline bool holds(struct span span, uint64_t place, uint64_t size)
{
    return place >= span.start && place <= span.end && size <= span.end - place;
}

/* An empty span shares no byte, wherever it lies. */
static inline bool share_a_byte(struct span a, struct span b)
{
    uint64_t start = a.start > b.start ? a.start : b.start;
    uint64_t end = a.end < b.end ? a.end : b.end;
    return start < end;
}

#endif
