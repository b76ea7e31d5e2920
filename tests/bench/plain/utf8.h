/* UTF-8 as RFC 3629 has it: no overlong forms, no surrogates, nothing above U+10FFFF. */
#ifndef PLAIN_UTF8_H
#define PLAIN_UTF8_H

#include "bytes.h"

static inline bool in_range(uint8_t byte, uint8_t low, uint8_t high)
{
    return byte >= low && byte <= high;
}

static inline bool is_continuation(uint8_t byte)
{
    return in_range(byte, 0x80, 0xbf);
}

/* The size of the character of several bytes at `at`; 0 if there is none. The NUL behind the text is no continuation, so
 * that nothing past it is read. */
static inline unsigned multibyte_size(const uint8_t *at)
{
    uint8_t lead = at[0];

    if (lead < 0xc2)
        return 0;
    if (lead < 0xe0)
        return is_continuation(at[1]) ? 2 : 0;
    if (lead < 0xf0) {
        uint8_t low = lead == 0xe0 ? 0xa0 : 0x80, high = lead == 0xed ? 0x9f : 0xbf;
        return in_range(at[1], low, high) && is_continuation(at[2]) ? 3 : 0;
    }
    if (lead < 0xf5) {
        uint8_t low = lead == 0xf0 ? 0x90 : 0x80, high = lead == 0xf4 ? 0x8f : 0xbf;
        return in_range(at[1], low, high) && is_continuation(at[2]) && is_continuation(at[3]) ? 4 : 0;
    }
    return 0;
}

static inline const uint8_t *skip_ascii(const uint8_t *at, const uint8_t *end)
{
    while (end - at >= 8 && (load64(at) & 0x8080808080808080) == 0)
        at += 8;
    while (at < end && *at < 0x80)
        at++;
    return at;
}

/* Whether the bytes up to `end`, where a NUL stands, are UTF-8. */
static inline bool is_utf8(const uint8_t *at, const uint8_t *end)
{
    while ((at = skip_ascii(at, end)) < end) {
        unsigned size = multibyte_size(at);
        if (size == 0)
            return false;
        at += size;
    }
    return true;
}

#endif
