/* Calls every reading function of libhpcdb.a on the sample files, on DCPI samples and on values made here, with answers written by hand,
 * and with null pointers for nothing. */
#include "../include/hpcdb.h"
#include <stdio.h>
#include <stdlib.h>
#include <string.h>

static int checks, failures;

static void expect(const char *what, uint64_t got, uint64_t want)
{
    checks++;
    if (got != want) {
        printf("%s: got %llu, want %llu\n", what, (unsigned long long)got, (unsigned long long)want);
        failures++;
    }
}

static void expect_words(const char *what, uint32_t code, const uint64_t *out, size_t n, const uint64_t *want)
{
    expect(what, code, HPCDB_OK);
    for (size_t i = 0; i < n; i++)
        expect(what, out[i], want[i]);
}
#define WORDS(what, call, n, ...) \
    do { \
        uint64_t out[n], want[n] = {__VA_ARGS__}; \
        memset(out, 0xa5, sizeof out); \
        uint32_t code = call; \
        expect_words(what, code, out, n, want); \
    } while (0)
/* A refusal or absence leaves `out` as it was. */
#define CODE(what, call, n, want) \
    do { \
        uint64_t out[n]; \
        memset(out, 0xa5, sizeof out); \
        expect(what, call, want); \
        for (size_t i = 0; i < (n); i++) \
            expect(what, out[i], 0xa5a5a5a5a5a5a5a5); \
    } while (0)

static uint8_t file[65536];
static size_t length;

static void load(const char *path)
{
    FILE *f = fopen(path, "rb");
    if (!f) {
        printf("cannot open %s\n", path);
        exit(1);
    }
    length = fread(file, 1, sizeof file, f);
    fclose(f);
}

static void sections_of_w(void)
{
    load("crates/listing/stdin");
    WORDS("sections", hpcdb_meta_open(file, length, out), 16, 144, 18, 168, 9, 184, 15, 200, 112, 0, 0, 312, 14, 328, 14, 344, 14);
    WORDS("counts of W", hpcdb_meta_counts(file, length, out), 5, 0);
    WORDS("title", hpcdb_meta_title(file, length, out), 2, 160, 1);
    WORDS("description", hpcdb_meta_description(file, length, out), 2, 161, 0);
    CODE("a kind of none", hpcdb_meta_id_name(file, length, 0, out), 2, HPCDB_INDEX);
    CODE("a cut file", hpcdb_meta_open(file, length - 1, out), 16, HPCDB_FOOTER);
}

/* In the order in which they are listed: A, C, D, B. */
static const uint64_t records_of_w[4][HPCDB_RECORD_WORDS] = {
    {216, 1, 1, 1, 0, 0, 0, 0, 0, 0, 0, 0},
    {264, 2, 2, 0, 1, 0, 0, 0, 0, 0, 0, 216},
    {288, 2, 3, 0, 2, 0, 0, 0, 0, 0, 0, 216},
    {240, 1, 4, 1, 0, 0, 0, 0, 0, 0, 0, 0}};

/* Of so many words: n records of W from `first` on, and behind them every word as it was. */
static void expect_records(const char *what, const uint64_t *words, size_t count, const uint64_t (*first)[HPCDB_RECORD_WORDS], size_t n)
{
    for (size_t i = 0; i < count; i++) {
        size_t record = i / HPCDB_RECORD_WORDS;
        expect(what, words[i], record < n ? first[record][i % HPCDB_RECORD_WORDS] : 0xa5a5a5a5a5a5a5a5);
    }
}

static void walks_of_w(void)
{
    uint64_t listing[5], table[5], records[4 * HPCDB_RECORD_WORDS + 1], out[1];
    memset(listing, 0xa5, sizeof listing);
    memset(records, 0xa5, sizeof records);
    expect("whole", hpcdb_meta_records(file, length, listing, 5, table, 5, records, 4 * HPCDB_RECORD_WORDS + 1, out), HPCDB_OK);
    expect("listed", out[0], 4);
    static const uint64_t places[] = {216, 264, 288, 240, 0xa5a5a5a5a5a5a5a5}, slots[] = {0, 216, 264, 288, 240};
    for (int i = 0; i < 5; i++) {
        expect("a word of the listing", listing[i], places[i]);
        expect("a slot of the table", table[i], slots[i]);
    }
    expect_records("a word of the records, or behind them", records, sizeof records / 8, records_of_w, 4);
    expect("cut", hpcdb_meta_walk(file, length, listing, 3, table, 5, out), HPCDB_CUT);
    expect("listed before the cut", out[0], 3);
    expect("no slot", hpcdb_meta_walk(file, length, listing, 5, table, 4, out), HPCDB_SLOT);
    expect("listed before the slot", out[0], 3);
    expect("not opened", hpcdb_meta_walk(file, 100, listing, 5, table, 5, out), HPCDB_SHORT);
    expect("listed of none", out[0], 0);
}

/* What a walk from a mark is lent; every word and byte has 0xa5 before. */
struct lent {
    uint64_t listing[4], table[5], records[4 * HPCDB_RECORD_WORDS], out[1];
    uint8_t new_mark[HPCDB_MARK_ROOM + 1];
};

static struct lent lent;

/* Lends listing words, table words and bytes for a new mark, which is asked for. */
static uint32_t go_on(const uint8_t *mark, size_t mark_length, size_t listing, size_t table, size_t new_mark)
{
    memset(&lent, 0xa5, sizeof lent);
    return hpcdb_meta_walk_from(file, length, mark, mark_length, 1, lent.listing, listing, lent.table, table, lent.records,
                                4 * HPCDB_RECORD_WORDS, lent.new_mark, new_mark, lent.out);
}

static void expect_table(const char *what, size_t n, const uint64_t *want)
{
    for (size_t i = 0; i < 5; i++)
        expect(what, lent.table[i], i < n ? want[i] : 0xa5a5a5a5a5a5a5a5);
}

/* The new mark, and that the bytes behind it are as they were. */
static void expect_mark(const char *what, const uint8_t *want, size_t n)
{
    size_t end = sizeof lent.new_mark;
    while (end > n && lent.new_mark[end - 1] == 0xa5)
        end--;
    expect(what, end, n);
    expect(what, memcmp(lent.new_mark, want, n), 0);
}

static const uint8_t before_the_roots[5] = {5, 0, 1, 0, 0};
static const uint8_t mark_of_a[9] = {9, 0, 1, 0, 1};
static const uint8_t mark_of_b[9] = {9, 0, 1, 0, 1, 1};
static const uint8_t mark_of_c[13] = {13, 0, 1, 0, 2};
static const uint8_t mark_of_d[13] = {13, 0, 1, 0, 2, 0, 0, 0, 0, 1};
static const uint8_t mark_of_none[13] = {13, 0, 1, 0, 2, 0, 0, 0, 0, 2};
static const uint64_t none[5], all[5] = {0, 216, 264, 288, 240}, all_but_b[5] = {0, 216, 264, 288, 0};

static void marks_of_w(void)
{
    expect("on from C", go_on(mark_of_c, 13, 1, 5, HPCDB_MARK_ROOM), HPCDB_CUT);
    expect("listed after C", lent.out[0], 1);
    expect("the word of D", lent.listing[0], 288);
    expect("the word behind it", lent.listing[1], 0xa5a5a5a5a5a5a5a5);
    expect_records("the record of D, whose parent is not listed", lent.records, sizeof lent.records / 8, records_of_w + 2, 1);
    expect_table("the table up to D", 5, all_but_b);
    expect_mark("the mark of D", mark_of_d, 13);
    expect("on from B", go_on(mark_of_b, 9, 4, 5, HPCDB_MARK_ROOM), HPCDB_OK);
    expect("listed after B", lent.out[0], 0);
    expect_table("the whole table", 5, all);
    expect_mark("the mark of B", mark_of_b, 9);
    expect("on from D", go_on(mark_of_d, 13, 4, 4, HPCDB_MARK_ROOM), HPCDB_SLOT);
    expect("listed after D", lent.out[0], 0);
    expect_table("the table without B's slot", 4, all_but_b);
    expect_mark("the mark of D again", mark_of_d, 13);
}

/* Words lent for records, and how many whole ones they have room for. */
static void records_in_little_room(void)
{
    static const struct {
        size_t words, whole;
    } rooms[] = {{0, 0}, {11, 0}, {12, 1}, {23, 1}, {24, 2}};
    for (size_t i = 0; i < sizeof rooms / sizeof *rooms; i++) {
        memset(&lent, 0xa5, sizeof lent);
        uint32_t code = hpcdb_meta_records(file, length, lent.listing, 4, lent.table, 5, lent.records, rooms[i].words, lent.out);
        expect("all, with few records", code, HPCDB_OK);
        expect("all listed, with few records", lent.out[0], 4);
        expect_records("few records", lent.records, sizeof lent.records / 8, records_of_w, rooms[i].whole);
        memset(&lent, 0xa5, sizeof lent);
        code = hpcdb_meta_walk_from(file, length, mark_of_c, 13, 0, lent.listing, 4, lent.table, 5, lent.records, rooms[i].words, NULL, 0,
                                    lent.out);
        expect("on from C, with few records", code, HPCDB_OK);
        expect("listed after C, with few records", lent.out[0], 2);
        expect_records("few records after C", lent.records, sizeof lent.records / 8, records_of_w + 2, rooms[i].whole);
    }
}

static void marks_before_the_roots(void)
{
    expect("room for none", go_on(NULL, 0, 0, 5, HPCDB_MARK_ROOM), HPCDB_CUT);
    expect("listed in no room", lent.out[0], 0);
    expect_table("a table of none", 5, none);
    expect_mark("the mark before the roots", before_the_roots, 5);
    expect("no slot at all", go_on(NULL, 0, 4, 0, HPCDB_MARK_ROOM), HPCDB_SLOT);
    expect("listed without a slot", lent.out[0], 0);
    expect_table("no table", 0, none);
    expect_mark("the mark before the roots", before_the_roots, 5);
    expect("on from before the roots", go_on(before_the_roots, 5, 1, 5, HPCDB_MARK_ROOM + 1), HPCDB_CUT);
    expect("the word of A", lent.listing[0], 216);
    expect_mark("the mark of A", mark_of_a, 9);
}

/* n slots are 0, the others as they were; so is all else but the number listed. */
static void expect_no_mark(const char *what, uint32_t code, uint32_t want, size_t n)
{
    expect(what, code, want);
    expect(what, lent.out[0], 0);
    for (size_t i = 0; i < sizeof lent.listing / 8; i++) {
        expect(what, lent.listing[i], 0xa5a5a5a5a5a5a5a5);
    }
    for (size_t i = 0; i < sizeof lent.records / 8; i++) {
        expect(what, lent.records[i], 0xa5a5a5a5a5a5a5a5);
    }
    expect_table(what, n, none);
    expect_mark(what, before_the_roots, 0);
}

static void no_new_marks(void)
{
    static const uint8_t malformed[13] = {12, 0, 1, 0, 2};
    static const uint8_t rolled_over[65536 + 13] = {13, 0, 1, 0, 2};
    uint8_t buffer[HPCDB_MARK_ROOM] = {13, 0, 1, 0, 2};
    expect_no_mark("no such context", go_on(mark_of_none, 13, 4, 5, HPCDB_MARK_ROOM), HPCDB_MARK, 5);
    expect_no_mark("no slot for B, and no such context", go_on(mark_of_none, 13, 4, 4, HPCDB_MARK_ROOM), HPCDB_SLOT, 4);
    expect_no_mark("no slot for B, which is named", go_on(mark_of_b, 9, 4, 4, HPCDB_MARK_ROOM), HPCDB_SLOT, 4);
    expect_no_mark("a length of 12", go_on(malformed, 13, 4, 5, HPCDB_MARK_ROOM), HPCDB_MARK, 0);
    expect_no_mark("the whole buffer", go_on(buffer, sizeof buffer, 4, 5, HPCDB_MARK_ROOM), HPCDB_MARK, 0);
    expect_no_mark("bytes whose number is 13 in 16 bits", go_on(rolled_over, sizeof rolled_over, 4, 5, HPCDB_MARK_ROOM), HPCDB_MARK, 0);
    expect_no_mark("room of 804", go_on(mark_of_c, 13, 4, 5, HPCDB_MARK_ROOM - 1), HPCDB_ROOM, 0);
    file[0] = 'h';
    expect_no_mark("a magic before a mark", go_on(malformed, 13, 4, 5, HPCDB_MARK_ROOM), HPCDB_MAGIC, 0);
    expect_no_mark("room before a magic", go_on(malformed, 13, 4, 5, HPCDB_MARK_ROOM - 1), HPCDB_ROOM, 0);
    file[0] = 'H';
    memset(&lent, 0xa5, sizeof lent);
    uint32_t code = hpcdb_meta_walk_from(file, length, mark_of_c, 13, 0, lent.listing, 1, lent.table, 5, NULL, 0, NULL, 0, lent.out);
    expect("no new mark asked for", code, HPCDB_CUT);
    expect("the word of D", lent.listing[0], 288);
    expect_table("the table up to D", 5, all_but_b);
}

/* Walks a file from mark to mark, so many contexts at a time, and once in one. */
static void walk_in_parts(const char *path, size_t room)
{
    static uint64_t in_parts[1024], parts_table[1024], in_one[1024], one_table[1024];
    uint8_t mark[HPCDB_MARK_ROOM], new_mark[HPCDB_MARK_ROOM] = {0};
    size_t mark_length = 0, listed = 0;
    uint64_t out[1];
    uint32_t code;
    load(path);
    do {
        code = hpcdb_meta_walk_from(file, length, mark, mark_length, 1, in_parts + listed, room, parts_table, 1024, NULL, 0, new_mark,
                                    sizeof new_mark, out);
        listed += out[0];
        mark_length = new_mark[0] + 256 * new_mark[1];
        memcpy(mark, new_mark, mark_length);
    } while (code == HPCDB_CUT && listed + room <= 1024);
    expect(path, code, hpcdb_meta_walk(file, length, in_one, 1024, one_table, 1024, out));
    expect(path, listed, out[0]);
    expect(path, memcmp(in_parts, in_one, 8 * listed), 0);
    expect(path, memcmp(parts_table, one_table, sizeof one_table), 0);
}

static void walks_in_parts(void)
{
    for (size_t room = 1; room < 6; room++) {
        walk_in_parts("crates/listing/stdin", room);
        walk_in_parts("crates/walk_cases/data/deep-200-and-more-roots.db", room);
        walk_in_parts("crates/walk_cases/data/deep-201.db", room);
        walk_in_parts("crates/walk_cases/data/tree-14-cousin.db", room);
    }
    walk_in_parts("crates/walk_cases/data/roots-1024.db", 256);
}

/* Three levels below a root; siblings behind another's children, at depths 3 and 2; a root behind them all. */
static void parents(void)
{
    static const uint64_t want[7][2] = {{600, 0}, {648, 600}, {696, 648}, {744, 696}, {720, 648}, {672, 600}, {624, 0}};
    uint64_t listing[7], table[8], records[7 * HPCDB_RECORD_WORDS], out[1];
    load("crates/walk_cases/data/parents.db");
    expect("whole", hpcdb_meta_records(file, length, listing, 7, table, 8, records, 7 * HPCDB_RECORD_WORDS, out), HPCDB_OK);
    expect("listed", out[0], 7);
    for (int i = 0; i < 7; i++) {
        expect("a place", records[i * HPCDB_RECORD_WORDS + HPCDB_RECORD_PLACE], want[i][0]);
        expect("its parent", records[i * HPCDB_RECORD_WORDS + HPCDB_RECORD_PARENT], want[i][1]);
    }
    /* on from the context at 744, which is three levels below the root */
    static const uint8_t mark[21] = {21, 0, 1, 0, 4};
    expect("on", hpcdb_meta_walk_from(file, length, mark, 21, 0, listing, 7, table, 8, records, 7 * HPCDB_RECORD_WORDS, NULL, 0, out), HPCDB_OK);
    expect("listed after it", out[0], 3);
    for (int i = 0; i < 3; i++) {
        expect("a place after it", records[i * HPCDB_RECORD_WORDS + HPCDB_RECORD_PLACE], want[4 + i][0]);
        expect("its parent, which is not listed", records[i * HPCDB_RECORD_WORDS + HPCDB_RECORD_PARENT], want[4 + i][1]);
    }
}

/* The first of two contexts: its record; and where the second stands. */
static void first_of_two(const char *path, const uint64_t record[HPCDB_RECORD_WORDS], uint64_t second)
{
    uint64_t listing[2], table[3], records[2 * HPCDB_RECORD_WORDS], out[1];
    load(path);
    expect("whole", hpcdb_meta_records(file, length, listing, 2, table, 3, records, 2 * HPCDB_RECORD_WORDS, out), HPCDB_OK);
    expect("listed", out[0], 2);
    for (int i = 0; i < HPCDB_RECORD_WORDS; i++)
        expect(path, records[i], record[i]);
    expect("the next sibling", listing[1], second);
}

/* Of the flags only the lowest three bits bring fields; a word that no field needs moves the next sibling on, and nothing else. */
static void flags_mod_8(void)
{
    static const uint64_t row_6[HPCDB_RECORD_WORDS] = {600, 1, 1, 0, 0, 6, 0, 360, 77, 264, 0x401000, 0};
    static const uint64_t row_7[HPCDB_RECORD_WORDS] = {600, 1, 1, 0, 0, 7, 488, 360, 77, 264, 0x401000, 0};
    first_of_two("crates/walk_cases/data/flags-14.db", row_6, 600 + 56);
    first_of_two("crates/walk_cases/data/flags-255.db", row_7, 600 + 64);
    first_of_two("crates/walk_cases/data/flags-6-5-words.db", row_6, 600 + 64);
}

static void names(void)
{
    load("crates/meta_cases/data/sound.db");
    uint64_t out[7];
    WORDS("counts", hpcdb_meta_counts(file, length, out), 5, 2, 2, 2, 2, 2);
    expect("a kind's name", hpcdb_meta_id_name(file, length, 1, out), HPCDB_OK);
    expect("its bytes", memcmp(file + out[0], "RANK", out[1]), 0);
    expect("a metric", hpcdb_meta_metric(file, length, 0, out), HPCDB_OK);
    expect("its name", memcmp(file + out[0], "cycles", out[1]), 0);
    expect("its scopes", out[2], 2);
    expect("a scope", hpcdb_meta_scope(file, length, 0, 1, out), HPCDB_OK);
    expect("its name", memcmp(file + out[0], "execution", out[1]), 0);
    expect("propMetricId", out[3], 65535);
    expect("a summary", hpcdb_meta_summary(file, length, 0, 0, 1, out), HPCDB_OK);
    expect("its formula", memcmp(file + out[0], "($$^2)", out[1]), 0);
    expect("combine", out[2], 2);
    expect("statMetricId", out[3], 21);
    expect("a module", hpcdb_meta_module(file, length, 1, out), HPCDB_OK);
    expect("its path", memcmp(file + out[0], "/bin/app", out[1]), 0);
    expect("a file", hpcdb_meta_file(file, length, 0, out), HPCDB_OK);
    expect("its path", memcmp(file + out[0], "src/solve.c", out[1]), 0);
    expect("copied", out[2], 1);
    expect("a function", hpcdb_meta_function(file, length, 0, out), HPCDB_OK);
    expect("has a name", out[0], 0);
    expect("its name", memcmp(file + out[1], "solve", out[2]), 0);
    WORDS("without a name", hpcdb_meta_function(file, length, 1, out), 7, 1, 0, 0, 664, 4096, 0, 0);
    CODE("no third", hpcdb_meta_function(file, length, 2, out), 7, HPCDB_INDEX);
    CODE("no such scope", hpcdb_meta_summary(file, length, 0, UINT64_MAX, 0, out), 4, HPCDB_INDEX);
}

/* A string that is handed back, its place in word `first` of out and its length in the next; refused with a byte of no character in it. */
#define STRING(what, call, n, first, text) \
    do { \
        uint64_t out[n] = {0}; \
        expect(what, call, HPCDB_OK); \
        uint8_t *start = file + out[first]; \
        expect(what, out[(first) + 1], strlen(text)); \
        expect(what, memcmp(start, text, strlen(text)), 0); \
        uint8_t byte = *start; \
        *start = 0xff; \
        CODE(what, call, n, HPCDB_SPELLING); \
        *start = byte; \
    } while (0)

static void names_in_utf_8(void)
{
    load("crates/meta_cases/data/utf-8.db");
    STRING("title in UTF-8", hpcdb_meta_title(file, length, out), 2, 0, "\xc3\xa9rvey of a solver");
    STRING("description in UTF-8", hpcdb_meta_description(file, length, out), 2, 0, "\xef\xbb\xbfwo ranks");
    STRING("kind in UTF-8", hpcdb_meta_id_name(file, length, 0, out), 2, 0, "\xf4\x8f\xbf\xbf");
    STRING("metric in UTF-8", hpcdb_meta_metric(file, length, 0, out), HPCDB_METRIC_WORDS, HPCDB_METRIC_NAME, "\xef\xbf\xbfles");
    STRING("scope in UTF-8", hpcdb_meta_scope(file, length, 0, 0, out), HPCDB_SCOPE_WORDS, HPCDB_SCOPE_NAME, "\xe2\x82\xac\xc3\xa9");
    STRING("summary in UTF-8", hpcdb_meta_summary(file, length, 0, 0, 0, out), HPCDB_SUMMARY_WORDS, HPCDB_SUMMARY_FORMULA, "\xc3\xa9");
    STRING("module in UTF-8", hpcdb_meta_module(file, length, 0, out), 2, 0, "\xc2\x80\xdf\xbf\xe0\xa0\x80" "bsolver.so");
    STRING("file in UTF-8", hpcdb_meta_file(file, length, 0, out), HPCDB_FILE_WORDS, HPCDB_FILE_PATH, "\xed\x9f\xbf\xee\x80\x80lve.c");
    STRING("function in UTF-8", hpcdb_meta_function(file, length, 0, out), HPCDB_FUNCTION_WORDS, HPCDB_FUNCTION_NAME, "\xf0\x90\x80\x80" "e");
}

/* What is refused before a name for its spelling, and what does not depend on it. */
static void spelling_among_others(void)
{
    uint64_t listing[2], table[3];
    load("crates/meta_cases/data/two-spelling-and-no-nul.db");
    CODE("no NUL", hpcdb_meta_function(file, length, 0, out), 7, HPCDB_STRING);
    load("crates/meta_cases/data/two-spelling-and-link.db");
    CODE("a link", hpcdb_meta_function(file, length, 0, out), 7, HPCDB_LINK);
    load("crates/meta_cases/data/two-spelling-and-array-of-metric.db");
    CODE("the scopes of a metric", hpcdb_meta_metric(file, length, 0, out), 3, HPCDB_ARRAY);
    load("crates/meta_cases/data/two-spelling-and-array-of-scope.db");
    CODE("the summaries of a scope", hpcdb_meta_scope(file, length, 0, 0, out), 4, HPCDB_ARRAY);
    load("crates/meta_cases/data/two-spelling-of-metric-and-scope.db");
    CODE("a metric", hpcdb_meta_metric(file, length, 0, out), 3, HPCDB_SPELLING);
    CODE("a scope of it", hpcdb_meta_scope(file, length, 0, 0, out), 4, HPCDB_SPELLING);
    WORDS("another scope of it", hpcdb_meta_scope(file, length, 0, 1, out), 4, 534, 9, 0, 65535);
    WORDS("a summary of the scope", hpcdb_meta_summary(file, length, 0, 0, 0, out), 4, 553, 2, 0, 20);
    load("crates/walk_cases/data/flags-255.db");
    file[216] = 0xe9;
    CODE("a function", hpcdb_meta_function(file, length, 0, out), 7, HPCDB_SPELLING);
    WORDS("a walk past it", hpcdb_meta_walk(file, length, listing, 2, table, 3, out), 1, 2);
}

static void values(void)
{
    static const uint64_t pairs[7] = {5, 4, 9, 1, 7, 1, 5};
    static const uint64_t want[7] = {0, 0x4008000000000000, 0, 0x4014000000000000, 100, 0, 9};
    uint64_t answers[7] = {9, 9, 9, 9, 9, 9, 9};
    load("crates/block_cases/data/p-b.db");
    expect("too few answers", hpcdb_profile_lookup_many(file, 0, 1, pairs, 7, answers, 5), HPCDB_ROOM);
    expect("no such profile", hpcdb_profile_lookup_many(file, length, 9, pairs, 7, answers, 7), HPCDB_INDEX);
    for (int i = 0; i < 7; i++)
        expect("an answer untouched", answers[i], 9);
    expect("many", hpcdb_profile_lookup_many(file, length, 1, pairs, 7, answers, 7), HPCDB_OK);
    for (int i = 0; i < 7; i++)
        expect("an answer", answers[i], want[i]);
    load("crates/block_cases/data/c-b.db");
    static const uint64_t of_context[6] = {5, 4, 9, 1, 7, 1};
    static const uint64_t want_of_context[6] = {0, 0x4008000000000000, 0, 0x4014000000000000, 100, 0};
    expect("many of a context", hpcdb_cct_lookup_many(file, length, 1, of_context, 6, answers, 6), HPCDB_OK);
    for (int i = 0; i < 6; i++)
        expect("an answer of it", answers[i], want_of_context[i]);
    WORDS("contexts", hpcdb_cct_open(file, length, out), 1, 4);
    WORDS("the section of cct.db", hpcdb_cct_sections(file, length, out), 2, 32, 176);
    WORDS("totals", hpcdb_cct_totals(file, length, 1, 5, out), 6, 2, 1, 0x4000000000000000, 4, 0x4008000000000000, 0x4014000000000000);
    CODE("no totals", hpcdb_cct_totals(file, length, 1, 7, out), 6, HPCDB_ABSENT);
}

static void tuples_and_lines(void)
{
    load("crates/record_cases/data/p-tuples.db");
    WORDS("profiles", hpcdb_profile_open(file, length, out), 1, 6);
    WORDS("the sections of profile.db", hpcdb_profile_sections(file, length, out), 4, 4944, 256, 48, 4896);
    CODE("the sections of a cut file", hpcdb_profile_sections(file, length - 1, out), 4, HPCDB_FOOTER);
    WORDS("a tuple", hpcdb_profile_tuple(file, length, 3, out), 1, 300);
    WORDS("an identification", hpcdb_profile_identifier(file, length, 0, 1, out), 4, 255, 65535, 4294967295, UINT64_MAX);
    CODE("no such identification", hpcdb_profile_identifier(file, length, 1, 0, out), 4, HPCDB_INDEX);
    load("crates/record_cases/data/t-times.db");
    WORDS("lines", hpcdb_trace_open(file, length, out), 1, 4);
    WORDS("the section of trace.db", hpcdb_trace_sections(file, length, out), 2, 88, 112);
    WORDS("a line", hpcdb_trace_line(file, length, 0, out), 2, 100, 2);
    WORDS("a sample", hpcdb_trace_sample(file, length, 0, 1, out), 2, 20, 6);
    CODE("too early", hpcdb_trace_at(file, length, 0, 9, out), 3, HPCDB_ABSENT);
    WORDS("the first", hpcdb_trace_at(file, length, 0, 19, out), 3, 0, 10, 5);
    WORDS("the second", hpcdb_trace_at(file, length, 0, 20, out), 3, 1, 20, 6);
    CODE("an empty line", hpcdb_trace_at(file, length, 1, UINT64_MAX, out), 3, HPCDB_ABSENT);
}

/* Times 10, 10, 20; 10, 20, 19; the greatest twice; 1,000 equal ones. */
static void repeated_times(void)
{
    load("crates/record_cases/data/t-repeat.db");
    WORDS("three samples", hpcdb_trace_line(file, length, 0, out), 2, 100, 3);
    CODE("before both", hpcdb_trace_at(file, length, 0, 9, out), 3, HPCDB_ABSENT);
    WORDS("the second of both", hpcdb_trace_at(file, length, 0, 10, out), 3, 1, 10, 2);
    WORDS("just before the third", hpcdb_trace_at(file, length, 0, 19, out), 3, 1, 10, 2);
    WORDS("the first of both", hpcdb_trace_sample(file, length, 0, 0, out), 2, 10, 1);
    CODE("a fall", hpcdb_trace_line(file, length, 1, out), 2, HPCDB_ORDER);
    CODE("a sample before it", hpcdb_trace_sample(file, length, 1, 0, out), 2, HPCDB_ORDER);
    CODE("no such sample", hpcdb_trace_sample(file, length, 1, 3, out), 2, HPCDB_ORDER);
    CODE("a time before it", hpcdb_trace_at(file, length, 1, 5, out), 3, HPCDB_ORDER);
    WORDS("the greatest", hpcdb_trace_at(file, length, 2, UINT64_MAX, out), 3, 1, UINT64_MAX, 5);
    WORDS("of 1,000", hpcdb_trace_at(file, length, 3, 1000000000000000000, out), 3, 999, 1000000000000000000, 999);
    CODE("one below", hpcdb_trace_at(file, length, 3, 999999999999999999, out), 3, HPCDB_ABSENT);
}

/* DCPI samples: two chunks that touch, the first of 5, 0, 7 from offset 100 on, and then one up to the last offset of all. */
enum { SECOND = 5, THIRD = 8, TOTALS = 12, SAMPLES = 14 };
static const uint32_t sound_samples[SAMPLES] = {100, 3, 5, 0, 7, 103, 1, UINT32_MAX - 100, UINT32_MAX - 1, 2, 0, 9, 4, UINT32_MAX - 79};
static uint8_t samples[4 * SAMPLES];

static void put_number(size_t at, uint32_t number)
{
    for (int k = 0; k < 4; k++)
        samples[4 * at + k] = (uint8_t)(number >> (8 * k));
}

/* The sound samples with one number changed. */
static void set_samples(size_t at, uint32_t number)
{
    for (size_t i = 0; i < SAMPLES; i++)
        put_number(i, sound_samples[i]);
    put_number(at, number);
}

static void counts_of_samples(void)
{
    set_samples(0, 100);
    WORDS("totals of samples", hpcdb_dcpi_totals(samples, sizeof samples, out), 2, 4, UINT32_MAX - 79);
    WORDS("the first count", hpcdb_dcpi_lookup(samples, sizeof samples, 100, out), 1, 5);
    WORDS("a count of 0", hpcdb_dcpi_lookup(samples, sizeof samples, 101, out), 1, 0);
    WORDS("the last of a chunk", hpcdb_dcpi_lookup(samples, sizeof samples, 102, out), 1, 7);
    WORDS("in the chunk that touches", hpcdb_dcpi_lookup(samples, sizeof samples, 103, out), 1, UINT32_MAX - 100);
    WORDS("the last offset", hpcdb_dcpi_lookup(samples, sizeof samples, UINT32_MAX, out), 1, 9);
    CODE("before the first", hpcdb_dcpi_lookup(samples, sizeof samples, 99, out), 1, HPCDB_ABSENT);
    CODE("in a gap", hpcdb_dcpi_lookup(samples, sizeof samples, 104, out), 1, HPCDB_ABSENT);
    CODE("behind the last offset", hpcdb_dcpi_lookup(samples, sizeof samples, (uint64_t)1 << 32, out), 1, HPCDB_ABSENT);
    CODE("an offset of 33 bits", hpcdb_dcpi_lookup(samples, sizeof samples, ((uint64_t)1 << 32) + 100, out), 1, HPCDB_ABSENT);
    CODE("the greatest number", hpcdb_dcpi_lookup(samples, sizeof samples, UINT64_MAX, out), 1, HPCDB_ABSENT);
}

/* Bytes lent for entries, with as many before and behind them; all have 0xa5 before. */
enum { ENTRY = sizeof(struct hpcdb_entry), LENT = 6 * ENTRY };
#define PROFILE 0xfffefdfc
#define METRIC 0xfffe
static uint8_t lent_for_entries[3 * LENT];

/* The code; every byte that is not one of so many entries is as it was, and out[0] too unless they are listed. */
static uint32_t list_entries(const char *what, size_t length, size_t lent_length, size_t entries)
{
    uint64_t out[1] = {0xa5};
    size_t changed = 0;
    memset(lent_for_entries, 0xa5, sizeof lent_for_entries);
    uint32_t code = hpcdb_dcpi_entries(samples, length, PROFILE, METRIC, lent_for_entries + LENT, lent_length, out);
    expect(what, out[0], code == HPCDB_OK ? entries : 0xa5);
    for (size_t i = 0; i < sizeof lent_for_entries; i++)
        changed += lent_for_entries[i] != 0xa5 && (i < LENT || i >= LENT + ENTRY * entries);
    expect(what, changed, 0);
    return code;
}

static void entries_of_samples(void)
{
    static const struct hpcdb_entry want[4] = {
        {PROFILE, 100, METRIC, {0}, 0x4014000000000000}, /* 5.0 */
        {PROFILE, 102, METRIC, {0}, 0x401c000000000000}, /* 7.0 */
        {PROFILE, 103, METRIC, {0}, 0x41effffff3600000}, /* 2^32 - 101 */
        {PROFILE, UINT32_MAX, METRIC, {0}, 0x4022000000000000}}; /* 9.0 */
    set_samples(0, 100);
    static const size_t enough[] = {4 * ENTRY, 4 * ENTRY + 1, 5 * ENTRY - 1, 5 * ENTRY, LENT};
    for (size_t i = 0; i < sizeof enough / sizeof *enough; i++) {
        expect("entries", list_entries("around the entries", sizeof samples, enough[i], 4), HPCDB_OK);
        expect("their bytes", memcmp(lent_for_entries + LENT, want, sizeof want), 0);
    }
    static const size_t too_few[] = {0, 1, ENTRY, 3 * ENTRY, 4 * ENTRY - 1};
    for (size_t i = 0; i < sizeof too_few / sizeof *too_few; i++)
        expect("too few", list_entries("untouched after 17", sizeof samples, too_few[i], 0), HPCDB_ROOM);
}

/* All three functions refuse alike, whatever is lent. */
static void expect_refused_samples(const char *what, size_t length, uint32_t want)
{
    CODE(what, hpcdb_dcpi_totals(samples, length, out), 2, want);
    CODE(what, hpcdb_dcpi_lookup(samples, length, 100, out), 1, want);
    CODE(what, hpcdb_dcpi_lookup(samples, length, UINT64_MAX, out), 1, want);
    expect(what, list_entries(what, length, LENT, 0), want);
    expect(what, list_entries(what, length, 0, 0), want);
}

static void refused_samples(void)
{
    set_samples(0, 100);
    for (size_t length = 0; length < 8; length++)
        expect_refused_samples("fewer than eight bytes", length, HPCDB_SHORT);
    for (size_t length = 9; length < 28; length++)
        expect_refused_samples("a chunk cut short", length, HPCDB_ARRAY);
    expect_refused_samples("totals of one chunk", 28, HPCDB_TOTAL);
    set_samples(1, 0);
    expect_refused_samples("a chunk of no count", sizeof samples, HPCDB_ARRAY);
    set_samples(THIRD + 1, 3);
    expect_refused_samples("a count too many", sizeof samples, HPCDB_ARRAY);
    set_samples(1, (1u << 30) + 3);
    expect_refused_samples("as many bytes in 32 bits", sizeof samples, HPCDB_ARRAY);
    set_samples(THIRD, UINT32_MAX);
    expect_refused_samples("past the last offset", sizeof samples, HPCDB_ARRAY);
    set_samples(SECOND, 102);
    expect_refused_samples("an overlap", sizeof samples, HPCDB_ORDER);
    set_samples(0, UINT32_MAX - 2);
    expect_refused_samples("offsets that fall", sizeof samples, HPCDB_ORDER);
    set_samples(TOTALS, 5);
    expect_refused_samples("the first total", sizeof samples, HPCDB_TOTAL);
    set_samples(TOTALS + 1, UINT32_MAX - 80);
    expect_refused_samples("the second total", sizeof samples, HPCDB_TOTAL);
    set_samples(THIRD + 3, 9 + 80);
    put_number(TOTALS + 1, 0);
    expect_refused_samples("a sum of 2^32, stored as 0", sizeof samples, HPCDB_TOTAL);
}

/* Chunk by chunk, in a chunk first 7 and then 11; the totals come last. */
static void first_refusal_of_samples(void)
{
    set_samples(SECOND, 102);
    put_number(THIRD + 1, 0);
    expect_refused_samples("an overlap, and then a chunk of no count", sizeof samples, HPCDB_ORDER);
    put_number(SECOND + 1, 0);
    expect_refused_samples("an overlap by a chunk of no count", sizeof samples, HPCDB_ARRAY);
    set_samples(THIRD, 50);
    put_number(TOTALS, 9);
    expect_refused_samples("an offset that falls, and a total", sizeof samples, HPCDB_ORDER);
    put_number(THIRD + 1, 3);
    expect_refused_samples("a count too many, and an offset that falls", sizeof samples, HPCDB_ARRAY);
}

static void samples_of_no_chunk(void)
{
    memset(samples, 0, sizeof samples);
    WORDS("samples of no chunk", hpcdb_dcpi_totals(samples, 8, out), 2, 0, 0);
    CODE("a count of none", hpcdb_dcpi_lookup(samples, 8, 0, out), 1, HPCDB_ABSENT);
    expect("no entry", list_entries("untouched by none", 8, LENT, 0), HPCDB_OK);
    expect("no entry in no room", list_entries("untouched by none", 8, 0, 0), HPCDB_OK);
}

/* No bytes, and no room: a pointer for length 0 may be null. */
static void no_samples(void)
{
    CODE("samples", hpcdb_dcpi_totals(NULL, 0, out), 2, HPCDB_SHORT);
    CODE("count", hpcdb_dcpi_lookup(NULL, 0, 0, out), 1, HPCDB_SHORT);
    CODE("entries", hpcdb_dcpi_entries(NULL, 0, 0, 0, NULL, 0, out), 1, HPCDB_SHORT);
    set_samples(0, 100);
    CODE("no room", hpcdb_dcpi_entries(samples, sizeof samples, 0, 0, NULL, 0, out), 1, HPCDB_ROOM);
    memset(samples, 0, sizeof samples);
    WORDS("no entry", hpcdb_dcpi_entries(samples, 8, 0, 0, NULL, 0, out), 1, 0);
}

/* ---- The hot path of W. A profile.db whose profile 1 has values of metric 7 for contexts of W, by their letters; profile 0 has none. */
enum { HOT_A = 1, HOT_C = 2, HOT_D = 3, HOT_B = 4, HOT_METRIC = 7 };
#define HOT_1 0x3ff0000000000000
#define HOT_2 0x4000000000000000
#define HOT_MINUS_1 0xbff0000000000000
#define HOT_MINUS_0 0x8000000000000000
#define HOT_NAN 0x7ff8000000000000
#define HOT_INFINITY 0x7ff0000000000000
static uint8_t profile_db[1024];
static size_t profile_db_length;

struct value {
    uint32_t context;
    uint64_t bits;
};

static void set_values(uint16_t metric, size_t n, const struct value *values)
{
    static const uint64_t profiles[2], tuples[1];
    struct hpcdb_entry entries[4];
    uint64_t written[1] = {0};
    for (size_t i = 0; i < n; i++)
        entries[i] = (struct hpcdb_entry){1, values[i].context, metric, {0}, values[i].bits};
    uint32_t code = hpcdb_profile_write(profiles, 2, tuples, 1, NULL, 0, (const uint8_t *)entries, n * sizeof *entries, profile_db,
                                        sizeof profile_db, written);
    expect("a profile.db", code, HPCDB_OK);
    profile_db_length = written[0];
}
/* Each is {context, bits}; the contexts rise. */
#define VALUES_OF(metric, ...) \
    do { \
        static const struct value values[] = {__VA_ARGS__}; \
        set_values(metric, sizeof values / sizeof *values, values); \
    } while (0)
#define VALUES(...) VALUES_OF(HOT_METRIC, __VA_ARGS__)

/* What is lent, with words behind each slice that are not; all have 0xa5 before. */
enum { HOT_LISTING = 4, HOT_TABLE = 5, HOT_WORDS = 3, BEHIND = 3 };
struct hot_lent {
    uint64_t listing[HOT_LISTING + BEHIND], table[HOT_TABLE + BEHIND], hot[HOT_WORDS + BEHIND], out[1 + BEHIND];
};
static struct hot_lent hot_lent;

/* Listing and table are as a walk with as many words leaves them. */
static void expect_walked(const char *what, size_t listing, size_t table)
{
    struct hot_lent walked;
    memset(&walked, 0xa5, sizeof walked);
    hpcdb_meta_walk(file, length, walked.listing, listing, walked.table, table, walked.out);
    expect(what, memcmp(hot_lent.listing, walked.listing, sizeof walked.listing), 0);
    expect(what, memcmp(hot_lent.table, walked.table, sizeof walked.table), 0);
}

/* Asks with so many words of listing, table and path. The path is n places; with another code than OK it is n = 0, and out is as it was. */
static void expect_hot(const char *what, uint64_t profile, uint64_t metric, size_t listing, size_t table, size_t hot, uint32_t code,
                       size_t n, const uint64_t *places)
{
    memset(&hot_lent, 0xa5, sizeof hot_lent);
    uint32_t got = hpcdb_hot_path(file, length, profile_db, profile_db_length, profile, metric, hot_lent.listing, listing, hot_lent.table,
                                  table, hot_lent.hot, hot, hot_lent.out);
    expect(what, got, code);
    expect(what, hot_lent.out[0], code == HPCDB_OK ? n : 0xa5a5a5a5a5a5a5a5);
    for (size_t i = 1; i < 1 + BEHIND; i++)
        expect(what, hot_lent.out[i], 0xa5a5a5a5a5a5a5a5);
    for (size_t i = 0; i < HOT_WORDS + BEHIND; i++)
        expect(what, hot_lent.hot[i], i < n ? places[i] : 0xa5a5a5a5a5a5a5a5);
    expect_walked(what, listing, table);
}
#define PATH(what, n, ...) expect_hot(what, 1, HOT_METRIC, 4, 5, HOT_WORDS, HPCDB_OK, n, (const uint64_t[]){__VA_ARGS__})
#define NO_PATH(what, hot, code) expect_hot(what, 1, HOT_METRIC, 4, 5, hot, code, 0, NULL)

static void hot_paths_of_w(void)
{
    load("crates/listing/stdin");
    VALUES({HOT_A, HOT_1}, {HOT_D, HOT_MINUS_1}, {HOT_B, HOT_1});
    PATH("the first of equal roots, and a child below 0", 2, 216, 288);
    VALUES({HOT_A, HOT_MINUS_0}, {HOT_B, 0});
    PATH("-0.0 before 0.0", 1, 216);
    VALUES({HOT_A, 0}, {HOT_B, HOT_MINUS_0});
    PATH("0.0 before -0.0", 1, 216);
    VALUES({HOT_A, HOT_MINUS_0}, {HOT_B, HOT_NAN});
    NO_PATH("a root that is NaN", HOT_WORDS, HPCDB_NOT_FINITE);
    VALUES({HOT_A, HOT_INFINITY}, {HOT_B, HOT_1});
    NO_PATH("a root that is infinite", HOT_WORDS, HPCDB_NOT_FINITE);
    VALUES({HOT_A, HOT_2}, {HOT_C, HOT_NAN}, {HOT_B, HOT_1});
    NO_PATH("a child that is NaN", HOT_WORDS, HPCDB_NOT_FINITE);
    VALUES({HOT_A, HOT_1}, {HOT_C, HOT_NAN}, {HOT_B, HOT_2});
    PATH("NaN off the way", 1, 240);
    VALUES({HOT_C, HOT_1});
    PATH("no root has a value", 0, 0);
    expect_hot("no root has a value, and no word is lent", 1, HOT_METRIC, 4, 5, 0, HPCDB_OK, 0, NULL);
}

static void room_for_hot_paths(void)
{
    static const uint64_t path[2] = {216, 288};
    load("crates/listing/stdin");
    VALUES({HOT_A, HOT_1}, {HOT_D, HOT_2});
    expect_hot("just enough room", 1, HOT_METRIC, 4, 5, 2, HPCDB_OK, 2, path);
    NO_PATH("one word", 1, HPCDB_ROOM);
    NO_PATH("no word", 0, HPCDB_ROOM);
    expect_hot("a walk that is cut", 1, HOT_METRIC, 3, 5, HOT_WORDS, HPCDB_ROOM, 0, NULL);
    expect_hot("no slot for B", 1, HOT_METRIC, 4, 4, HOT_WORDS, HPCDB_SLOT, 0, NULL);
    VALUES({HOT_A, HOT_1}, {HOT_D, HOT_NAN});
    NO_PATH("one word, and NaN", 1, HPCDB_NOT_FINITE);
    NO_PATH("no word, and NaN", 0, HPCDB_NOT_FINITE);
    profile_db_length = 0;
    expect_hot("a walk that is cut, and no profile.db", 1, HOT_METRIC, 3, 5, 0, HPCDB_ROOM, 0, NULL);
    expect_hot("no profile.db", 1, HOT_METRIC, 4, 5, 0, HPCDB_SHORT, 0, NULL);
    static const uint64_t places[4] = {216, 264, 288, 240};
    expect("places listed before it", memcmp(hot_lent.listing, places, sizeof places), 0);
    expect("a table filled before it", memcmp(hot_lent.table, all, sizeof all), 0);
    length = 100;
    expect_hot("no meta.db and no profile.db", 1, HOT_METRIC, 4, 5, 0, HPCDB_SHORT, 0, NULL);
    expect("a listing untouched", hot_lent.listing[0], 0xa5a5a5a5a5a5a5a5);
    expect("a table untouched", hot_lent.table[0], 0xa5a5a5a5a5a5a5a5);
}

/* Profile and metric are never narrowed, and neither is a number of the block. */
static void hot_paths_of_huge_numbers(void)
{
    load("crates/listing/stdin");
    VALUES({HOT_A, HOT_1}, {HOT_D, HOT_2});
    expect_hot("a profile of no value", 0, HOT_METRIC, 4, 5, 0, HPCDB_OK, 0, NULL);
    expect_hot("no such profile", 2, HOT_METRIC, 4, 5, HOT_WORDS, HPCDB_INDEX, 0, NULL);
    expect_hot("a profile of 33 bits", ((uint64_t)1 << 32) + 1, HOT_METRIC, 4, 5, HOT_WORDS, HPCDB_INDEX, 0, NULL);
    expect_hot("the greatest profile", UINT64_MAX, UINT64_MAX, 4, 5, 0, HPCDB_INDEX, 0, NULL);
    expect_hot("the same metric in 16 bits", 1, 65536 + HOT_METRIC, 4, 5, 0, HPCDB_OK, 0, NULL);
    VALUES_OF(70000 - 65536, {HOT_A, HOT_1});
    expect_hot("a metric of 17 bits", 1, 70000, 4, 5, HOT_WORDS, HPCDB_OK, 0, NULL);
    VALUES_OF(65535, {HOT_A, HOT_1});
    expect_hot("the greatest metric", 1, UINT64_MAX, 4, 5, HOT_WORDS, HPCDB_OK, 0, NULL);
    VALUES({HOT_A, HOT_1}, {HOT_D, HOT_2});
    /* the block's number of values, and its place */
    memset(profile_db + 104, 0xff, 8);
    NO_PATH("2^64 - 1 values", HOT_WORDS, HPCDB_ARRAY);
    expect_hot("none of them asked for", 0, HOT_METRIC, 4, 5, HOT_WORDS, HPCDB_OK, 0, NULL);
    VALUES({HOT_A, HOT_1}, {HOT_D, HOT_2});
    memset(profile_db + 112, 0xff, 8);
    NO_PATH("values at 2^64 - 1", HOT_WORDS, HPCDB_ARRAY);
    VALUES({HOT_A, HOT_1}, {HOT_D, HOT_NAN});
    profile_db[profile_db_length - 20] = HOT_A; /* the second index */
    NO_PATH("an id twice, and NaN", 0, HPCDB_ORDER);
}

/* 200 contexts, each the child of the one before it; the words behind them are as they were. */
static void deepest_hot_path(void)
{
    static const uint64_t profiles[1], tuples[1];
    static struct hpcdb_entry entries[200];
    static uint8_t db[8192];
    static uint64_t listing[202], table[202], hot[202];
    uint64_t written[1] = {0}, out[1] = {0};
    load("crates/walk_cases/data/deep-200.db");
    for (uint32_t i = 0; i < 200; i++)
        entries[i] = (struct hpcdb_entry){0, i + 1, HOT_METRIC, {0}, HOT_MINUS_1};
    uint32_t code = hpcdb_profile_write(profiles, 1, tuples, 1, NULL, 0, (const uint8_t *)entries, sizeof entries, db, sizeof db, written);
    expect("a deep profile.db", code, HPCDB_OK);
    memset(hot, 0xa5, sizeof hot);
    code = hpcdb_hot_path(file, length, db, written[0], 0, HOT_METRIC, listing, 202, table, 202, hot, 199, out);
    expect("a word too few", code, HPCDB_ROOM);
    expect("no place of it", hot[0], 0xa5a5a5a5a5a5a5a5);
    code = hpcdb_hot_path(file, length, db, written[0], 0, HOT_METRIC, listing, 202, table, 202, hot, 201, out);
    expect("all", code, HPCDB_OK);
    expect("their number", out[0], 200);
    expect("each place, as it is listed", memcmp(hot, listing, 200 * sizeof *hot), 0);
    expect("the word behind them", hot[200], 0xa5a5a5a5a5a5a5a5);
}

/* A pointer for length 0 may be null. */
static void nothing(void)
{
    CODE("sections", hpcdb_meta_open(NULL, 0, out), 16, HPCDB_SHORT);
    CODE("counts", hpcdb_meta_counts(NULL, 0, out), 5, HPCDB_SHORT);
    CODE("title", hpcdb_meta_title(NULL, 0, out), 2, HPCDB_SHORT);
    CODE("description", hpcdb_meta_description(NULL, 0, out), 2, HPCDB_SHORT);
    CODE("kind", hpcdb_meta_id_name(NULL, 0, 0, out), 2, HPCDB_SHORT);
    CODE("metric", hpcdb_meta_metric(NULL, 0, 0, out), 3, HPCDB_SHORT);
    CODE("scope", hpcdb_meta_scope(NULL, 0, 0, 0, out), 4, HPCDB_SHORT);
    CODE("summary", hpcdb_meta_summary(NULL, 0, 0, 0, 0, out), 4, HPCDB_SHORT);
    CODE("module", hpcdb_meta_module(NULL, 0, 0, out), 2, HPCDB_SHORT);
    CODE("file", hpcdb_meta_file(NULL, 0, 0, out), 3, HPCDB_SHORT);
    CODE("function", hpcdb_meta_function(NULL, 0, 0, out), 7, HPCDB_SHORT);
    CODE("profiles", hpcdb_profile_open(NULL, 0, out), 1, HPCDB_SHORT);
    CODE("contexts", hpcdb_cct_open(NULL, 0, out), 1, HPCDB_SHORT);
    CODE("lines", hpcdb_trace_open(NULL, 0, out), 1, HPCDB_SHORT);
    CODE("sections of profile.db", hpcdb_profile_sections(NULL, 0, out), 4, HPCDB_SHORT);
    CODE("sections of cct.db", hpcdb_cct_sections(NULL, 0, out), 2, HPCDB_SHORT);
    CODE("sections of trace.db", hpcdb_trace_sections(NULL, 0, out), 2, HPCDB_SHORT);
    CODE("tuple", hpcdb_profile_tuple(NULL, 0, 0, out), 1, HPCDB_SHORT);
    CODE("identification", hpcdb_profile_identifier(NULL, 0, 0, 0, out), 4, HPCDB_SHORT);
    CODE("totals", hpcdb_cct_totals(NULL, 0, 0, 0, out), 6, HPCDB_SHORT);
    CODE("line", hpcdb_trace_line(NULL, 0, 0, out), 2, HPCDB_SHORT);
    CODE("sample", hpcdb_trace_sample(NULL, 0, 0, 0, out), 2, HPCDB_SHORT);
    CODE("time", hpcdb_trace_at(NULL, 0, 0, 0, out), 3, HPCDB_SHORT);
    uint64_t out[1];
    expect("lookup", hpcdb_profile_lookup(NULL, 0, 0, 0, 0, NULL, 0), HPCDB_ROOM);
    expect("lookup", hpcdb_cct_lookup(NULL, 0, 0, 0, 0, NULL, 0), HPCDB_ROOM);
    expect("lookups", hpcdb_profile_lookup_many(NULL, 0, 0, NULL, 0, NULL, 0), HPCDB_SHORT);
    expect("lookups", hpcdb_cct_lookup_many(NULL, 0, 0, NULL, 0, NULL, 0), HPCDB_SHORT);
    expect("walk", hpcdb_meta_records(NULL, 0, NULL, 0, NULL, 0, NULL, 0, out), HPCDB_SHORT);
    load("crates/listing/stdin");
    expect("walk of W", hpcdb_meta_records(file, length, NULL, 0, NULL, 0, NULL, 0, out), HPCDB_SLOT);
    expect("listed", out[0], 0);
    expect("walk on", hpcdb_meta_walk_from(NULL, 0, NULL, 0, 0, NULL, 0, NULL, 0, NULL, 0, NULL, 0, out), HPCDB_SHORT);
    expect("walk on with a new mark", hpcdb_meta_walk_from(NULL, 0, NULL, 0, 1, NULL, 0, NULL, 0, NULL, 0, NULL, 0, out), HPCDB_ROOM);
    expect("walk on in W", hpcdb_meta_walk_from(file, length, NULL, 0, 0, NULL, 0, NULL, 0, NULL, 0, NULL, 0, out), HPCDB_SLOT);
    CODE("hot path", hpcdb_hot_path(NULL, 0, NULL, 0, 0, 0, NULL, 0, NULL, 0, NULL, 0, out), 1, HPCDB_SHORT);
    CODE("hot path in W", hpcdb_hot_path(file, length, NULL, 0, 0, 0, NULL, 0, NULL, 0, NULL, 0, out), 1, HPCDB_SLOT);
    uint64_t listing[4], table[5];
    CODE("hot path without profile.db", hpcdb_hot_path(file, length, NULL, 0, 0, 0, listing, 4, table, 5, NULL, 0, out), 1, HPCDB_SHORT);
    VALUES({HOT_A, HOT_1});
    size_t n = profile_db_length;
    CODE("hot path without a word", hpcdb_hot_path(file, length, profile_db, n, 1, 7, listing, 4, table, 5, NULL, 0, out), 1, HPCDB_ROOM);
    WORDS("hot path of none", hpcdb_hot_path(file, length, profile_db, n, 0, 7, listing, 4, table, 5, NULL, 0, out), 1, 0);
    memset(file + 200, 0, 16); /* no roots */
    CODE("no context and no profile.db", hpcdb_hot_path(file, length, NULL, 0, 1, 7, NULL, 0, NULL, 0, NULL, 0, out), 1, HPCDB_SHORT);
    WORDS("hot path of no context", hpcdb_hot_path(file, length, profile_db, n, 1, 7, NULL, 0, NULL, 0, NULL, 0, out), 1, 0);
    load("crates/block_cases/data/p-b.db");
    expect("no pairs", hpcdb_profile_lookup_many(file, length, 1, NULL, 0, NULL, 0), HPCDB_OK);
}

int main(void)
{
    sections_of_w();
    walks_of_w();
    marks_of_w();
    records_in_little_room();
    marks_before_the_roots();
    no_new_marks();
    walks_in_parts();
    parents();
    flags_mod_8();
    names();
    names_in_utf_8();
    spelling_among_others();
    values();
    tuples_and_lines();
    repeated_times();
    counts_of_samples();
    entries_of_samples();
    refused_samples();
    first_refusal_of_samples();
    samples_of_no_chunk();
    no_samples();
    hot_paths_of_w();
    room_for_hot_paths();
    hot_paths_of_huge_numbers();
    deepest_hot_path();
    nothing();
    if (failures)
        printf("%d of %d checks failed\n", failures, checks);
    else
        printf("every function answers as it must: %d checks\n", checks);
    return failures != 0;
}
