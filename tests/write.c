/* Writes files with hpcdb_profile_write of libhpcdb.a, from lists written by hand, and reads them back with every reader of a profile.db;
 * a refused call leaves all as it was. */
#include "../include/hpcdb.h"
#include <stdio.h>
#include <stdlib.h>
#include <string.h>

static int checks, failures;

static void expect(const char *what, uint64_t got, uint64_t want)
{
    checks++;
    if (got != want) {
        printf("%s: got %llu, want %llu\n", what, (unsigned long long)got, (unsigned long long)want);
        failures++;
    }
}

/* Three profiles. The first and the last share a tuple, the one of no identification is nobody's, and the second profile has no entry. */
static const uint64_t profiles[] = {2, 0, 2}, tuples[] = {1, 0, 2};
static const struct hpcdb_identifier identifiers[] = {
    {7, 0xff, 0x8000, UINT32_MAX, UINT64_MAX}, {1, 0xff, 0xffff, 5, 5}, {2, 0, 0, 6, 0x123456789abcdef}};
static const struct hpcdb_entry entries[] = {
    {0, 5, 1, {9, 9, 9}, 0x4000000000000000},
    {0, 5, 4, {0, 0, 0}, 0}, /* 0.0 is a value as any other */
    {0, 9, 1, {9, 9, 9}, 0x8000000000000000},
    {2, 0, 0, {0, 0, 0}, 0x7ff0000000000001}, /* a signalling NaN */
    {2, UINT32_MAX, 65535, {0, 0, 0}, 0x4014000000000000}};

enum { PROFILES = 3, TUPLES = 3, ENTRIES = 5, LENGTH = 64 + 40 * 3 + 24 + 8 + 40 + (32 + 24) + (20 + 24) + 8, LENT = 1000 };

static uint8_t file[LENT];
static uint64_t out[1];

static void unwritten(void)
{
    memset(file, 0xa5, sizeof file);
    out[0] = 0xa5;
}

/* Into so many of the lent bytes. */
static uint32_t write_lists(size_t identifiers_length, const struct hpcdb_entry *of, size_t n, size_t lent)
{
    unwritten();
    return hpcdb_profile_write(profiles, PROFILES, tuples, TUPLES, (const uint8_t *)identifiers, identifiers_length, (const uint8_t *)of,
                               n * sizeof *of, file, lent, out);
}

static void expect_untouched(const char *what, size_t from)
{
    size_t changed = 0;
    for (size_t i = from; i < sizeof file; i++)
        changed += file[i] != 0xa5;
    expect(what, changed, 0);
}

static void written(void)
{
    static const uint64_t sections[4] = {48, 136, 184, 72};
    uint64_t got[4];
    expect("written", write_lists(sizeof identifiers, entries, ENTRIES, LENT), HPCDB_OK);
    expect("its length", out[0], LENGTH);
    expect_untouched("bytes behind the file", LENGTH);
    expect("sections", hpcdb_profile_sections(file, LENGTH, got), HPCDB_OK);
    for (int i = 0; i < 4; i++)
        expect("a word of the sections", got[i], sections[i]);
    expect("opened", hpcdb_profile_open(file, LENGTH, got), HPCDB_OK);
    expect("profiles", got[0], PROFILES);
    expect("in just enough room", write_lists(sizeof identifiers, entries, ENTRIES, LENGTH), HPCDB_OK);
    expect_untouched("bytes that were not lent", LENGTH);
}

static void tuples_of_profiles(void)
{
    static const int first[PROFILES] = {1, 0, 1}; /* identification of each profile's tuple */
    uint64_t got[HPCDB_IDENTIFIER_WORDS];
    for (uint64_t p = 0; p < PROFILES; p++) {
        expect("a tuple", hpcdb_profile_tuple(file, LENGTH, p, got), HPCDB_OK);
        expect("its identifications", got[0], tuples[profiles[p]]);
        for (uint64_t k = 0; k < tuples[profiles[p]]; k++) {
            const struct hpcdb_identifier *id = &identifiers[first[p] + (int)k];
            expect("an identification", hpcdb_profile_identifier(file, LENGTH, p, k, got), HPCDB_OK);
            expect("its kind", got[HPCDB_IDENTIFIER_KIND], id->kind);
            expect("its flags", got[HPCDB_IDENTIFIER_FLAGS], id->flags);
            expect("its logicalId", got[HPCDB_IDENTIFIER_LOGICAL], id->logical_id);
            expect("its physicalId", got[HPCDB_IDENTIFIER_PHYSICAL], id->physical_id);
        }
        expect("no more", hpcdb_profile_identifier(file, LENGTH, p, tuples[profiles[p]], got), HPCDB_INDEX);
    }
    expect("no fourth profile", hpcdb_profile_tuple(file, LENGTH, PROFILES, got), HPCDB_INDEX);
}

static void values(void)
{
    uint8_t value[8];
    for (int i = 0; i < ENTRIES; i++) {
        const struct hpcdb_entry *e = &entries[i];
        expect("a value", hpcdb_profile_lookup(file, LENGTH, e->profile, e->context, e->metric, value, 8), HPCDB_OK);
        expect("its bits", memcmp(value, &e->bits, 8), 0);
        expect("none of the second profile", hpcdb_profile_lookup(file, LENGTH, 1, e->context, e->metric, value, 8), HPCDB_ABSENT);
        expect("no other metric", hpcdb_profile_lookup(file, LENGTH, e->profile, e->context, e->metric + 1, value, 8), HPCDB_ABSENT);
    }
    expect("no fourth profile", hpcdb_profile_lookup(file, LENGTH, PROFILES, 5, 1, value, 8), HPCDB_INDEX);
    static const uint64_t pairs[8] = {5, 1, 5, 4, 9, 1, 9, 4};
    static const uint64_t want[8] = {0, 0x4000000000000000, 0, 0, 0, 0x8000000000000000, HPCDB_ABSENT, 0};
    uint64_t answers[8];
    expect("many", hpcdb_profile_lookup_many(file, LENGTH, 0, pairs, 8, answers, 8), HPCDB_OK);
    for (int i = 0; i < 8; i++)
        expect("an answer", answers[i], want[i]);
    expect("many of the second profile", hpcdb_profile_lookup_many(file, LENGTH, 1, pairs, 8, answers, 8), HPCDB_OK);
    for (int i = 0; i < 8; i++)
        expect("an answer of it", answers[i], i % 2 ? 0 : HPCDB_ABSENT);
}

static void expect_refused(const char *what, uint32_t code, uint32_t want)
{
    expect(what, code, want);
    expect("out after it", out[0], 0xa5);
    expect_untouched("bytes after it", 0);
}

static void refused(void)
{
    struct hpcdb_entry other[ENTRIES];
    expect_refused("one byte too few", write_lists(sizeof identifiers, entries, ENTRIES, LENGTH - 1), HPCDB_ROOM);
    expect_refused("no room", write_lists(sizeof identifiers, entries, ENTRIES, 0), HPCDB_ROOM);
    memcpy(other, entries, sizeof other);
    other[1].metric = 1;
    expect_refused("an entry twice", write_lists(sizeof identifiers, other, ENTRIES, LENT), HPCDB_ORDER);
    expect_refused("before the room", write_lists(sizeof identifiers, other, ENTRIES, 0), HPCDB_ORDER);
    other[4].profile = PROFILES;
    expect_refused("a profile that is not there, last", write_lists(sizeof identifiers, other, ENTRIES, LENT), HPCDB_INDEX);
    expect_refused("an identification too few", write_lists(sizeof identifiers - 1, entries, ENTRIES, LENT), HPCDB_INDEX);
    static const uint64_t too_high[PROFILES] = {2, UINT64_MAX, 2};
    unwritten();
    expect_refused("a tuple that is not there", hpcdb_profile_write(too_high, PROFILES, tuples, TUPLES, (const uint8_t *)identifiers,
                   sizeof identifiers, NULL, 0, file, LENT, out), HPCDB_INDEX);
}

/* A tuple of 65,536 identifications is too long, one of 65,535 is not. */
static void long_tuples(void)
{
    static const uint64_t one[1] = {0}, too_many[1] = {65536}, most[1] = {65535};
    size_t ids = 16 * 65536, length = 64 + 40 + 8 + 16 * 65535 + 8;
    uint8_t *zeros = calloc(ids, 1), *large = malloc(length);
    uint64_t got[4];
    if (!zeros || !large) {
        printf("no memory\n");
        exit(1);
    }
    unwritten();
    expect_refused("too many", hpcdb_profile_write(one, 1, too_many, 1, zeros, ids, NULL, 0, file, LENT, out), HPCDB_ARRAY);
    expect("the most there can be", hpcdb_profile_write(one, 1, most, 1, zeros, ids, NULL, 0, large, length, out), HPCDB_OK);
    expect("its length", out[0], length);
    expect("the last of them", hpcdb_profile_identifier(large, length, 0, 65534, got), HPCDB_OK);
    free(zeros);
    free(large);
}

/* A pointer for length 0 may be null. */
static void nothing(void)
{
    unwritten();
    expect_refused("no room for nothing", hpcdb_profile_write(NULL, 0, NULL, 0, NULL, 0, NULL, 0, NULL, 0, out), HPCDB_ROOM);
    expect("nothing", hpcdb_profile_write(NULL, 0, NULL, 0, NULL, 0, NULL, 0, file, 72, out), HPCDB_OK);
    expect("its length", out[0], 72);
    expect("opened", hpcdb_profile_open(file, 72, out), HPCDB_OK);
    expect("profiles of nothing", out[0], 0);
}

int main(void)
{
    written();
    tuples_of_profiles();
    values();
    refused();
    long_tuples();
    nothing();
    if (failures)
        printf("%d of %d checks failed\n", failures, checks);
    else
        printf("what is written is read back: %d checks\n", checks);
    return failures != 0;
}
