/* Calls both lookups of libhpcdb.a: on the sample files, and on files made here whose second sub-array starts past 65,535. */
#include "../include/hpcdb.h"
#include <stdio.h>
#include <stdlib.h>
#include <string.h>

static int failures;

static void expect(const char *what, uint64_t got, uint64_t want)
{
    if (got != want) {
        printf("%s: got %llu, want %llu\n", what, (unsigned long long)got, (unsigned long long)want);
        failures++;
    }
}

static uint8_t *read_file(const char *path, size_t *length)
{
    FILE *f = fopen(path, "rb");
    if (!f) {
        printf("cannot open %s\n", path);
        exit(1);
    }
    uint8_t *bytes = malloc(65536);
    *length = fread(bytes, 1, 65536, f);
    fclose(f);
    return bytes;
}

static void put(uint8_t *at, int width, uint64_t x)
{
    for (int i = 0; i < width; i++)
        at[i] = (uint8_t)(x >> (8 * i));
}

typedef uint32_t (*lookup)(const uint8_t *, size_t, uint64_t, uint64_t, uint64_t, uint8_t *, size_t);

/* The code of a lookup. Bytes around the eight must stay, and all of them unless it is found. */
static uint32_t ask(lookup f, const uint8_t *file, size_t length, uint64_t profile, uint64_t context, uint64_t metric, uint64_t *bits)
{
    uint8_t out[24];
    memset(out, 0xa5, sizeof out);
    uint32_t code = f(file, length, profile, context, metric, out + 8, 9);
    for (int i = 0; i < 24; i++)
        if (out[i] != 0xa5 && (code != 0 || i < 8 || i >= 16))
            expect("an untouched byte", out[i], 0xa5);
    *bits = 0;
    for (int i = 0; i < 8; i++)
        *bits |= (uint64_t)out[8 + i] << (8 * i);
    return code;
}

static void samples(void)
{
    size_t length;
    uint64_t bits;
    uint8_t *file = read_file("crates/block_cases/data/p-b.db", &length);
    expect("context 5 metric 4", ask(hpcdb_profile_lookup, file, length, 1, 5, 4, &bits), 0);
    expect("its bits", bits, 0x4008000000000000);
    expect("context 9 metric 1", ask(hpcdb_profile_lookup, file, length, 1, 9, 1, &bits), 0);
    expect("its bits", bits, 0x4014000000000000);
    expect("context 9 metric 4", ask(hpcdb_profile_lookup, file, length, 1, 9, 4, &bits), 100);
    expect("context 7 metric 1", ask(hpcdb_profile_lookup, file, length, 1, 7, 1, &bits), 100);
    expect("a metric of 17 bits", ask(hpcdb_profile_lookup, file, length, 1, 5, 65536 + 4, &bits), 100);
    expect("no such profile", ask(hpcdb_profile_lookup, file, length, UINT64_MAX, 5, 4, &bits), 15);
    expect("the wrong file", ask(hpcdb_cct_lookup, file, length, 1, 5, 4, &bits), 2);
    expect("a short file", ask(hpcdb_profile_lookup, file, 55, 1, 5, 4, &bits), 1);
    expect("no bytes", ask(hpcdb_profile_lookup, file, 0, 1, 5, 4, &bits), 1);
    uint8_t small[7] = {1, 2, 3, 4, 5, 6, 7};
    expect("seven lent bytes", hpcdb_profile_lookup(file, length, 1, 5, 4, small, 7), 17);
    expect("before all else", hpcdb_cct_lookup(file, 0, 1, 5, 4, small, 0), 17);
    for (int i = 0; i < 7; i++)
        expect("a byte after 17", small[i], i + 1);
    free(file);
}

/* A file of one block with two sub-arrays, the first of n values: ids of the first are from `least` on, that of the second is 1. */
static uint8_t *long_file(const char *magic, const char *footer, size_t header, int outer, int inner, uint64_t least, uint64_t n, size_t *length)
{
    size_t infos = header, block = infos + 16, values = block + 40;
    size_t indices = (values + (n + 1) * (inner + 8) + 3) / 4 * 4;
    *length = indices + 2 * (outer + 8) + 8;
    uint8_t *f = calloc(*length, 1);
    memcpy(f, magic, 14);
    f[14] = 4;
    put(f + 16, 8, values - infos);
    put(f + 24, 8, infos);
    put(f + infos, 8, block);
    put(f + infos + 8, 4, 1);
    put(f + infos + 12, 1, 40);
    put(f + block, 8, n + 1);
    put(f + block + 8, 8, values);
    put(f + block + 16, outer, 2);
    put(f + block + 24, 8, indices);
    for (uint64_t i = 0; i <= n; i++) {
        put(f + values + i * (inner + 8), inner, i == n ? 1 : i + least);
        put(f + values + i * (inner + 8) + inner, 8, i == n ? 7777 : i);
    }
    put(f + indices, outer, 3);
    put(f + indices + outer + 8, outer, 8);
    put(f + indices + outer + 8 + outer, 8, n);
    memcpy(f + *length - 8, footer, 8);
    return f;
}

/* Starts past 65,535: the second sub-array must not roll over onto the first. */
static void starts_of_17_bits(void)
{
    size_t length;
    uint64_t bits;
    /* as many metrics as a sub-array of profile.db can have: 0 to 65,535 */
    uint8_t *file = long_file("HPCTOOLKITprof", "_prof.db", 48, 4, 2, 0, 65536, &length);
    expect("profile.db, second sub-array", ask(hpcdb_profile_lookup, file, length, 0, 8, 1, &bits), 0);
    expect("its bits", bits, 7777);
    expect("profile.db, last of the first", ask(hpcdb_profile_lookup, file, length, 0, 3, 65535, &bits), 0);
    expect("its bits", bits, 65535);
    free(file);
    file = long_file("HPCTOOLKITctxt", "__ctx.db", 32, 2, 4, 1, 70000, &length);
    expect("cct.db, second sub-array", ask(hpcdb_cct_lookup, file, length, 1, 0, 8, &bits), 0);
    expect("its bits", bits, 7777);
    expect("cct.db, last of the first", ask(hpcdb_cct_lookup, file, length, 70000, 0, 3, &bits), 0);
    expect("its bits", bits, 69999);
    expect("cct.db, the id that 16 bits would make of it", ask(hpcdb_cct_lookup, file, length, 70000 - 65536, 0, 8, &bits), 100);
    free(file);
}

int main(void)
{
    samples();
    starts_of_17_bits();
    printf(failures ? "%d failed\n" : "both lookups answer as they must\n", failures);
    return failures != 0;
}
