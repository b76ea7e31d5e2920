/* Turns DCPI samples into entries with hpcdb_dcpi_entries of libhpcdb.a, writes a profile.db from them with hpcdb_profile_write, and looks
 * each offset up in it: there is a value exactly where a count is not 0, and it equals the count. */
#include "../include/hpcdb.h"
#include <stdio.h>
#include <stdlib.h>
#include <string.h>

static int checks, failures;

static void expect(const char *what, uint64_t got, uint64_t want)
{
    checks++;
    if (got != want) {
        printf("%s: got %llu, want %llu\n", what, (unsigned long long)got, (unsigned long long)want);
        failures++;
    }
}

/* Samples under construction: their bytes, and both totals so far. */
struct samples {
    uint8_t *bytes;
    size_t length, room;
    uint32_t not_zero, sum;
};

static void put(struct samples *s, uint32_t number)
{
    if (s->room - s->length < 4) {
        s->room = 2 * s->room + 64;
        s->bytes = realloc(s->bytes, s->room);
        if (!s->bytes) {
            printf("no memory\n");
            exit(1);
        }
    }
    for (int k = 0; k < 4; k++)
        s->bytes[s->length++] = (uint8_t)(number >> (8 * k));
}

static void put_chunk(struct samples *s, uint32_t offset, uint32_t number, const uint32_t *counts)
{
    put(s, offset);
    put(s, number);
    for (uint32_t i = 0; i < number; i++) {
        put(s, counts[i]);
        s->not_zero += counts[i] != 0;
        s->sum += counts[i];
    }
}

static void put_totals(struct samples *s)
{
    put(s, s->not_zero);
    put(s, s->sum);
}

enum { PROFILE = 1, METRIC = 65535, PROFILES = 3 };

/* The profile.db of the samples' entries: of three profiles the second has them all. */
struct written {
    uint8_t *bytes;
    uint64_t length[1];
};

static struct written write_entries(const struct samples *s)
{
    static const uint64_t profiles[PROFILES] = {0, 0, 0}, tuples[1] = {1};
    static const struct hpcdb_identifier identifier = {1, 0, 0, 7, 4711};
    struct written file = {NULL, {0}};
    size_t lent = s->not_zero * sizeof(struct hpcdb_entry), room = 72 + 40 * PROFILES + 8 + sizeof identifier + lent;
    uint8_t *entries = malloc(lent + 1);
    uint64_t listed[1] = {0};
    file.bytes = malloc(room);
    if (!entries || !file.bytes) {
        printf("no memory\n");
        exit(1);
    }
    memset(entries, 0xa5, lent + 1);
    expect("entries", hpcdb_dcpi_entries(s->bytes, s->length, PROFILE, METRIC, entries, lent, listed), HPCDB_OK);
    expect("how many", listed[0], s->not_zero);
    expect("the byte behind them", entries[lent], 0xa5);
    expect("written", hpcdb_profile_write(profiles, PROFILES, tuples, 1, (const uint8_t *)&identifier, sizeof identifier, entries, lent,
                                          file.bytes, room, file.length), HPCDB_OK);
    free(entries);
    return file;
}

/* The value at an offset is the count, if that is not 0; by both readers. */
static void expect_count(const struct samples *s, const struct written *file, uint64_t offset, uint32_t count)
{
    uint64_t out[1] = {0};
    double value = -1;
    expect("a count", hpcdb_dcpi_lookup(s->bytes, s->length, offset, out), HPCDB_OK);
    expect("its number", out[0], count);
    uint32_t code = hpcdb_profile_lookup(file->bytes, file->length[0], PROFILE, offset, METRIC, (uint8_t *)&value, 8);
    expect("a value", code, count ? HPCDB_OK : HPCDB_ABSENT);
    expect("the value of the count", value == (count ? (double)count : -1), 1);
    code = hpcdb_profile_lookup(file->bytes, file->length[0], PROFILE + 1, offset, METRIC, (uint8_t *)&value, 8);
    expect("none in another profile", code, HPCDB_ABSENT);
    code = hpcdb_profile_lookup(file->bytes, file->length[0], PROFILE, offset, METRIC - 1, (uint8_t *)&value, 8);
    expect("none of another metric", code, HPCDB_ABSENT);
}

static void expect_none(const struct samples *s, const struct written *file, uint64_t offset)
{
    uint64_t out[1] = {0xa5};
    uint8_t value[8];
    expect("no count", hpcdb_dcpi_lookup(s->bytes, s->length, offset, out), HPCDB_ABSENT);
    expect("out after it", out[0], 0xa5);
    expect("no value", hpcdb_profile_lookup(file->bytes, file->length[0], PROFILE, offset, METRIC, value, 8), HPCDB_ABSENT);
}

static void discard(struct samples *s, struct written *file)
{
    free(s->bytes);
    free(file->bytes);
}

/* Chunks that touch and one apart from them; the sum is the greatest that there can be. */
static void few_chunks(void)
{
    static const uint32_t first[3] = {5, 0, 7}, second[4] = {1, 0, 0, 0x80000000}, last[2] = {0, 0x7ffffff2};
    struct samples s = {0};
    put_chunk(&s, 100, 3, first);
    put_chunk(&s, 103, 4, second);
    put_chunk(&s, UINT32_MAX - 1, 2, last);
    put_totals(&s);
    uint64_t totals[2];
    expect("totals", hpcdb_dcpi_totals(s.bytes, s.length, totals), HPCDB_OK);
    expect("not 0", totals[0], 5);
    expect("their sum", totals[1], UINT32_MAX);
    struct written file = write_entries(&s);
    for (uint32_t i = 0; i < 3; i++)
        expect_count(&s, &file, 100 + i, first[i]);
    for (uint32_t i = 0; i < 4; i++)
        expect_count(&s, &file, 103 + i, second[i]);
    for (uint32_t i = 0; i < 2; i++)
        expect_count(&s, &file, UINT32_MAX - 1 + i, last[i]);
    static const uint64_t beside[] = {0, 99, 107, UINT32_MAX - 2, (uint64_t)1 << 32, ((uint64_t)1 << 32) + 100, UINT64_MAX};
    for (size_t i = 0; i < sizeof beside / sizeof *beside; i++)
        expect_none(&s, &file, beside[i]);
    discard(&s, &file);
}

/* The greatest count, and every power of 2 and its neighbours, each in samples of its own. */
static void large_counts(void)
{
    for (int bit = 0; bit < 32; bit++) {
        uint32_t power = (uint32_t)1 << bit, around[4] = {power, power - 1, power + 1, UINT32_MAX - power};
        for (int i = 0; i < 4; i++) {
            struct samples s = {0};
            put_chunk(&s, power, 1, &around[i]);
            put_totals(&s);
            struct written file = write_entries(&s);
            expect_count(&s, &file, power, around[i]);
            expect_none(&s, &file, (uint64_t)power + 1);
            discard(&s, &file);
        }
    }
}

/* Count number i of so many; two of three are not 0. */
static uint32_t count_number(uint32_t i)
{
    return i % 3 == 1 ? 0 : i * 2654435761u >> 12;
}

/* Chunks of 1 to 20 counts, with gaps of 0 to 2 offsets. */
static void many_chunks(void)
{
    enum { CHUNKS = 300 };
    struct samples s = {0};
    uint32_t offset = 7, i = 0;
    for (uint32_t k = 0; k < CHUNKS; k++) {
        uint32_t counts[20], number = 1 + k % 20;
        for (uint32_t j = 0; j < number; j++)
            counts[j] = count_number(i++);
        put_chunk(&s, offset += k % 3, number, counts);
        offset += number;
    }
    put_totals(&s);
    struct written file = write_entries(&s);
    offset = 7;
    i = 0;
    for (uint32_t k = 0; k < CHUNKS; k++) {
        for (uint32_t gap = 0; gap < k % 3; gap++)
            expect_none(&s, &file, offset++);
        for (uint32_t j = 0; j < 1 + k % 20; j++)
            expect_count(&s, &file, offset++, count_number(i++));
    }
    expect_none(&s, &file, offset);
    discard(&s, &file);
}

/* No chunk, and a chunk of nothing but zeros: no entries, of which a file is written too. */
static void no_entries(void)
{
    static const uint32_t zeros[2] = {0, 0};
    struct samples none = {0}, s = {0};
    put_totals(&none);
    struct written file = write_entries(&none);
    expect_none(&none, &file, 0);
    discard(&none, &file);
    put_chunk(&s, 0, 2, zeros);
    put_totals(&s);
    file = write_entries(&s);
    expect_count(&s, &file, 0, 0);
    expect_count(&s, &file, 1, 0);
    expect_none(&s, &file, 2);
    discard(&s, &file);
}

/* The entries of two sample files, one behind the other, are written together: the second file is for a later profile. */
static void two_files(void)
{
    static const uint64_t profiles[2] = {0, 0}, tuples[1] = {1};
    static const struct hpcdb_identifier identifier = {1, 0, 0, 7, 4711};
    static const uint32_t counts[2][2] = {{5, 7}, {0, 9}};
    enum { LISTED = 3, LENT = LISTED * sizeof(struct hpcdb_entry) };
    uint8_t entries[LENT], file[72 + 2 * 40 + 8 + sizeof identifier + LENT];
    uint64_t listed[1], length[1];
    size_t end = 0;
    for (uint32_t profile = 0; profile < 2; profile++) {
        struct samples s = {0};
        put_chunk(&s, 100, 2, counts[profile]);
        put_totals(&s);
        expect("listed", hpcdb_dcpi_entries(s.bytes, s.length, profile, METRIC, entries + end, LENT - end, listed), HPCDB_OK);
        end += listed[0] * sizeof(struct hpcdb_entry);
        free(s.bytes);
    }
    expect("entries of both", end, LENT);
    expect("both written", hpcdb_profile_write(profiles, 2, tuples, 1, (const uint8_t *)&identifier, sizeof identifier, entries, end, file,
                                               sizeof file, length), HPCDB_OK);
    for (uint32_t profile = 0; profile < 2; profile++)
        for (uint32_t i = 0; i < 2; i++) {
            double value = -1;
            uint32_t count = counts[profile][i];
            uint32_t code = hpcdb_profile_lookup(file, length[0], profile, 100 + i, METRIC, (uint8_t *)&value, 8);
            expect("a value of two files", code, count ? HPCDB_OK : HPCDB_ABSENT);
            expect("its count", value == (count ? (double)count : -1), 1);
        }
}

int main(void)
{
    few_chunks();
    large_counts();
    many_chunks();
    no_entries();
    two_files();
    if (failures)
        printf("%d of %d checks failed\n", failures, checks);
    else
        printf("counts are read back as values: %d checks\n", checks);
    return failures != 0;
}
