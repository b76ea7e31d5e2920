/* libhpcdb: a proved reader and writer of HPCToolkit 4.0 databases (reads meta.db, profile.db, cct.db, trace.db, and the samples of old
 * DCPI files; writes profile.db).
 *
 * A file is lent as a pointer and a length. Its bytes may be any bytes, and the numbers beside it any numbers: nothing needs to be checked
 * before a call, every call ends, and no memory is touched but what this page says. No function allocates, and none keeps anything
 * between calls.
 *
 * What a caller must keep to:
 *   - a pointer leads to at least as many bytes or words as the length beside it says, words aligned as uint64_t is;
 *   - `out` leads to as many words as its declaration has;
 *   - what is lent to be written (out, listing, table, records, new_mark, answers, hot, the file of hpcdb_profile_write, the entries of
 *     hpcdb_dcpi_entries) overlaps nothing else that is lent, and no other thread reads or writes it during the call; files, DCPI samples,
 *     marks, pairs and lists, which are only read, may be shared by any number of calls;
 *   - the bytes that are only read do not change during a call. A file that is mapped (mmap) may be changed or cut by another process:
 *     then what is read may be part old and part new, or the process is stopped by a signal. Read it into memory where that can happen;
 *   - the floating-point environment is the default one: round to nearest even, subnormal numbers kept. Under another one the totals of
 *     hpcdb_cct_totals may be others, and where subnormal numbers are taken as 0 the path of hpcdb_hot_path too. The floats that
 *     hpcdb_dcpi_entries makes are exact in every one; no other function computes with floating-point numbers.
 * A pointer beside the length 0 may be null: nothing is read or written through it.
 *
 * Every function returns a code. HPCDB_OK: the answer stands in `out`. Any other: `out` is as it was (but for the three walks, which
 * always write it). Positions, ids, times and offsets are never narrowed: what is too large for its field is not there. (The profile and
 * metric of hpcdb_dcpi_entries are as wide as an entry's fields: C narrows a wider number without a word, so it must fit.) Places are
 * offsets from the file's first byte; a string is `length` bytes from `place` on, in UTF-8 (RFC 3629), without the NUL behind them. */
#ifndef HPCDB_H
#define HPCDB_H

#include <stddef.h>
#include <stdint.h>

/* The version of the library, which is not that of the format. The second number rises with a change of a declaration here, or of what a
 * code is given for. */
#define HPCDB_VERSION_MAJOR 0
#define HPCDB_VERSION_MINOR 9
#define HPCDB_VERSION_PATCH 0
#define HPCDB_LIBRARY_VERSION "0.9.0"

#ifdef __cplusplus
extern "C" {
#endif

/* The refusals have the numbers of document 01's table, and from 18 on of document 02. */
enum hpcdb_code {
    HPCDB_OK = 0,
    HPCDB_SHORT = 1,       /* fewer bytes than header and eight more; DCPI samples without their totals */
    HPCDB_MAGIC = 2,       /* magic differs */
    HPCDB_VERSION = 3,     /* major version is not 4 */
    HPCDB_FOOTER = 4,      /* last eight bytes differ (never for trace.db) */
    HPCDB_SECTION = 5,     /* a section rule is broken */
    HPCDB_STRIDE = 6,      /* a stride is too small, or not a multiple of 8 */
    HPCDB_ARRAY = 7,       /* an array, block, trace line, tuple or chunk breaks its range rule; a list to be written, or a profile's set
                            * of contexts, is too long for its count */
    HPCDB_STRING = 8,      /* a string outside its section, or without NUL before the section's end */
    HPCDB_LINK = 9,        /* a link that leads to no element; a function whose name, module and file are all 0; a context's link that is
                            * present and 0 */
    HPCDB_CONTEXT = 10,    /* a context that does not fit, or has too few flex words */
    HPCDB_ORDER = 11,      /* a start or order rule of a block is broken; a timestamp of a trace line falls; a chunk of DCPI samples does
                            * not lie behind the one before it; entries to be written are not strictly sorted */
    HPCDB_DEEP = 12,       /* a context at depth 201; roots have depth 1 */
    HPCDB_SLOT = 13,       /* a ctxId not below the table's length */
    HPCDB_TWICE = 14,      /* a ctxId that was met before */
    HPCDB_INDEX = 15,      /* a position that is not below its count; a profile, tuple or identification that is not among those to be
                            * written */
    HPCDB_NOT_FINITE = 16, /* infinity or NaN among the values of a total, or among those looked up on the way of a hot path */
    HPCDB_ROOM = 17,       /* fewer than 8 lent bytes for a value, too few answers for the pairs, too few bytes for a written file or for
                            * the entries of a sample file, fewer than 805 for a new mark that is asked for, too few words for a hot path
                            * or for the listing of its walk */
    HPCDB_MARK = 18,       /* a mark that is malformed, or that names a context which is not there */
    HPCDB_SPELLING = 19,   /* a string in its section whose bytes are not UTF-8 */
    HPCDB_TOTAL = 20,      /* a total of DCPI samples differs from what their counts come to */
    HPCDB_ABSENT = 100,    /* the file opens, the asked block or line is sound, and there is no such thing in it; no other block, line or
                            * tuple of the file was looked at. Of DCPI samples: all are sound, and no count is for the offset */
    HPCDB_CUT = 101        /* a walk listed as many contexts as there was room for, and there are more */
};

/* Every function that reads a database may return 1 to 7, by which opening refuses it. What else it may return stands beside it.
 *
 * What a call costs: each one that reads a database opens it, which takes the same time for any file (tens of nanoseconds). Names, counts
 * and tuples cost that and the length of their strings. A lookup or a total checks the whole block of its profile or context, a sample its
 * whole line: time in proportion to the values or samples in it. So many values of one block are asked by one hpcdb_*_lookup_many, which
 * checks the block once. A walk clears its table and visits each context once; one that goes on from a mark visits those before the mark
 * too, so that a listing in k parts costs k walks of what stands before and in them. A hot path costs a walk, one check of the profile's
 * block, and a search in it for each root and each child of a context on the path. hpcdb_profile_write takes time in proportion to its
 * lists. Each call for DCPI samples checks all of them: time in proportion to their counts. */

/* ---- meta.db */

/* The sections of a meta.db, in header order. */
enum hpcdb_meta_section {
    HPCDB_META_GENERAL,
    HPCDB_META_ID_NAMES,
    HPCDB_META_METRICS,
    HPCDB_META_CONTEXT,
    HPCDB_META_STRINGS,
    HPCDB_META_MODULES,
    HPCDB_META_FILES,
    HPCDB_META_FUNCTIONS
};

/* out: of section s the place, out[2 s], and the size, out[2 s + 1]. The place of a section of size 0 is 0. */
uint32_t hpcdb_meta_open(const uint8_t *file, size_t file_length, uint64_t out[16]);

/* out: how many there are of each. */
enum hpcdb_count {
    HPCDB_COUNT_ID_NAMES,
    HPCDB_COUNT_METRICS,
    HPCDB_COUNT_MODULES,
    HPCDB_COUNT_FILES,
    HPCDB_COUNT_FUNCTIONS,
    HPCDB_COUNT_WORDS
};
uint32_t hpcdb_meta_counts(const uint8_t *file, size_t file_length, uint64_t out[5]);

/* Strings. Where one is refused (STRING, SPELLING), nothing of its element is handed back: of a metric, say, not the number of its scopes
 * either. The strings of the elements around it are not read: the scopes of a metric whose name is refused can be asked for. Walks and
 * lookups read no string. */

/* out: place and length. STRING, SPELLING. */
uint32_t hpcdb_meta_title(const uint8_t *file, size_t file_length, uint64_t out[2]);
uint32_t hpcdb_meta_description(const uint8_t *file, size_t file_length, uint64_t out[2]);

/* The name of an identifier kind. out: place and length. INDEX, STRING, SPELLING. */
uint32_t hpcdb_meta_id_name(const uint8_t *file, size_t file_length, uint64_t kind, uint64_t out[2]);

/* Metric i. INDEX, ARRAY, STRING, SPELLING. */
enum hpcdb_metric {
    HPCDB_METRIC_NAME, /* its place */
    HPCDB_METRIC_NAME_LENGTH,
    HPCDB_METRIC_SCOPES, /* how many there are */
    HPCDB_METRIC_WORDS
};
uint32_t hpcdb_meta_metric(const uint8_t *file, size_t file_length, uint64_t i, uint64_t out[3]);

/* Scope j of metric i. INDEX, ARRAY, STRING, SPELLING. */
enum hpcdb_scope {
    HPCDB_SCOPE_NAME,
    HPCDB_SCOPE_NAME_LENGTH,
    HPCDB_SCOPE_SUMMARIES, /* how many there are */
    HPCDB_SCOPE_PROP_METRIC_ID,
    HPCDB_SCOPE_WORDS
};
uint32_t hpcdb_meta_scope(const uint8_t *file, size_t file_length, uint64_t i, uint64_t j, uint64_t out[4]);

/* Summary k of scope j of metric i. INDEX, ARRAY, STRING, SPELLING. */
enum hpcdb_summary {
    HPCDB_SUMMARY_FORMULA,
    HPCDB_SUMMARY_FORMULA_LENGTH,
    HPCDB_SUMMARY_COMBINE, /* as stored, whatever it is */
    HPCDB_SUMMARY_STAT_METRIC_ID,
    HPCDB_SUMMARY_WORDS
};
uint32_t hpcdb_meta_summary(const uint8_t *file, size_t file_length, uint64_t i, uint64_t j, uint64_t k, uint64_t out[4]);

/* Load module i. out: place and length of its path. INDEX, STRING, SPELLING. */
uint32_t hpcdb_meta_module(const uint8_t *file, size_t file_length, uint64_t i, uint64_t out[2]);

/* Source file i. INDEX, STRING, SPELLING. */
enum hpcdb_file {
    HPCDB_FILE_PATH,
    HPCDB_FILE_PATH_LENGTH,
    HPCDB_FILE_COPIED, /* 1 if it was copied into the database, and else 0 */
    HPCDB_FILE_WORDS
};
uint32_t hpcdb_meta_file(const uint8_t *file, size_t file_length, uint64_t i, uint64_t out[3]);

/* Function i. What is shown for a function without a name is the caller's own. INDEX, LINK, STRING, SPELLING. */
enum hpcdb_function {
    HPCDB_FUNCTION_NO_NAME, /* 1 if it has no name, and else 0 */
    HPCDB_FUNCTION_NAME,    /* place and length; 0 and 0 if it has none */
    HPCDB_FUNCTION_NAME_LENGTH,
    HPCDB_FUNCTION_MODULE, /* place of its module, or 0 */
    HPCDB_FUNCTION_OFFSET,
    HPCDB_FUNCTION_FILE, /* place of its source file, or 0 */
    HPCDB_FUNCTION_LINE,
    HPCDB_FUNCTION_WORDS
};
uint32_t hpcdb_meta_function(const uint8_t *file, size_t file_length, uint64_t i, uint64_t out[7]);

/* The contexts in preorder. The first words of the listing receive the places of the contexts; the table is 0 but for slot ctxId of each
 * listed context, which holds its place. out, written whatever the code: the number listed, n.
 *   OK       all contexts are listed;
 *   CUT      n is the listing's length, and there are more contexts;
 *   CONTEXT, LINK, ARRAY, DEEP, SLOT, TWICE   the context after the n listed is refused.
 * Words of the listing behind the first n are untouched. If opening refuses, n is 0, and listing and table are untouched. ARRAY with n
 * of 0 is opening's or that of the first root: hpcdb_meta_open tells which (it gives ARRAY only for opening's), or the table, which is
 * cleared past opening.
 *
 * How much room: a listing of size / 24 words, with the size of the Context section (out[2 HPCDB_META_CONTEXT + 1] of hpcdb_meta_open), is
 * enough for every file whose arrays of contexts do not overlap; where they do, CUT says so. A table needs one slot more than the greatest
 * ctxId; SLOT says that it has too few. What was listed stays the beginning of what is listed with more room:
 *   while ((code = hpcdb_meta_walk(file, file_length, listing, n, table, m, out)) == HPCDB_CUT || code == HPCDB_SLOT) {
 *       if (code == HPCDB_CUT) listing = realloc(listing, (n *= 2) * 8); else table = realloc(table, (m *= 2) * 8);
 *       if (!listing || !table) ..;
 *   }
 * (with n and m above 0 at first; a ctxId has 32 bits, so that a damaged file may ask for 2^32 slots). No call leads to another of its
 * kind: a walk took 2,240 bytes of the stack, and one from a mark 2,256, with a chain of 201 contexts. */
uint32_t hpcdb_meta_walk(const uint8_t *file, size_t file_length, uint64_t *listing, size_t listing_length, uint64_t *table,
                         size_t table_length, uint64_t out[1]);

/* A context's words in `records`. */
enum hpcdb_record {
    HPCDB_RECORD_PLACE,
    HPCDB_RECORD_DEPTH,        /* 1 for a root */
    HPCDB_RECORD_CTX_ID,
    HPCDB_RECORD_RELATION,
    HPCDB_RECORD_LEXICAL_TYPE,
    HPCDB_RECORD_FLAGS,        /* mod 8; bit 0: function is present; bit 1: file and line; bit 2: module and offset */
    HPCDB_RECORD_FUNCTION,     /* places and numbers; 0 where not present */
    HPCDB_RECORD_FILE,
    HPCDB_RECORD_LINE,
    HPCDB_RECORD_MODULE,
    HPCDB_RECORD_OFFSET,
    HPCDB_RECORD_PARENT,       /* the place of the context whose child it is; 0 for a root */
    HPCDB_RECORD_WORDS         /* how many they are */
};

/* The same walk. `records` receives HPCDB_RECORD_WORDS words for each listed context, one context after the other, as far as there is
 * room for whole ones; its other words are untouched. */
uint32_t hpcdb_meta_records(const uint8_t *file, size_t file_length, uint64_t *listing, size_t listing_length, uint64_t *table,
                            size_t table_length, uint64_t *records, size_t records_length, uint64_t out[1]);

/* The room for a new mark, in bytes. */
#define HPCDB_MARK_ROOM 805

/* The same walk, gone on from a mark: it follows the contexts from the first root, and lists those after the one that the mark names.
 * Record i is that of the i-th listed context. No mark (mark_length 0) is before the first root. `asks` is 0 if no new mark is asked for,
 * and new_mark is then not looked at; any other number asks for one. A new mark names the last context listed; if none is, it is the mark
 * that was given (that of depth 0 if none was). A mark may be kept as long as the file is the same, and given with a listing and a table
 * of other lengths. It has no trace of its file: with another one the walk goes on from whatever context has those numbers there, or MARK.
 * A context's parent in its record is the same as without a mark, whether that parent is listed or not.
 *
 * The bytes of a mark: u16 length, of the whole mark; u16 kind, 1; u8 depth, at most 200; then for each level, from the root down to the
 * context, a u32: its number among its siblings, from 0. All are little-endian, and the length is 5 + 4 depth. Depth 0 (05 00 01 00 00)
 * is before the first root. Only the mark's own bytes are given back, as many as its length says, new_mark[0] + 256 * new_mark[1], and not
 * the whole buffer: one byte more or less makes it malformed.
 *
 * Code and out are those of hpcdb_meta_records. In the order in which they are looked for:
 *   ROOM     a new mark is asked for, and new_mark_length is below HPCDB_MARK_ROOM;
 *   1 to 7   opening refuses;
 *   MARK     the mark is malformed.
 * After these three n is 0, and all that is lent but out is untouched.
 *   MARK     all contexts are sound, and the one that the mark names is not among them;
 *   CONTEXT, LINK, ARRAY, DEEP, SLOT, TWICE   a context is refused, and the one that the mark names was not met before: it comes later,
 *            is the one refused, or is not there.
 * After these two n is 0, the table is 0, and listing, records and new_mark are untouched.
 *   OK, CUT, CONTEXT, LINK, ARRAY, DEEP, SLOT, TWICE   the context that the mark names was met (before the first root nothing needs to be),
 *            and the contexts after it give this code, as they do without a mark.
 * Then the table holds the places of all contexts up to the new mark, of those before the given mark too, whether a new one is asked for or
 * not. If it is, it is written to the first bytes of new_mark, and the bytes behind it are untouched.
 * So, whatever the code: if n is above 0, and after OK and CUT, a new mark that was asked for is there. With n of 0 and another code the
 * mark that was given is the one to keep. MARK with a malformed mark leaves the table as it was, and the other MARK makes it 0; so ARRAY
 * with n of 0 is opening's where the table is as it was.
 *
 * Parts joined are one walk: the listings of walks, each from the mark that the one before it handed out, are together the listing of one
 * walk with as much room as they have together and a table of the same length, and so are their records, where each has room for
 * those of all that it lists; its code, table and new mark are those of the last (where each has HPCDB_MARK_ROOM bytes for the mark it is
 * asked for):
 *   mark_length = 0;
 *   do {
 *       code = hpcdb_meta_walk_from(file, file_length, mark, mark_length, 1, listing, n, table, m, NULL, 0, new_mark,
 *                                   HPCDB_MARK_ROOM, out);
 *       if (code != HPCDB_OK && code != HPCDB_CUT) ..; (what is listed stands; with n above 0 so does new_mark)
 *       mark_length = new_mark[0] + 256 * new_mark[1];
 *       memcpy(mark, new_mark, mark_length);
 *       ..
 *   } while (code == HPCDB_CUT);
 * (with n above 0: with room for none it would be cut forever). */
uint32_t hpcdb_meta_walk_from(const uint8_t *file, size_t file_length, const uint8_t *mark, size_t mark_length, uint64_t asks,
                              uint64_t *listing, size_t listing_length, uint64_t *table, size_t table_length, uint64_t *records,
                              size_t records_length, uint8_t *new_mark, size_t new_mark_length, uint64_t out[1]);

/* ---- profile.db */

/* out: place and size of the sections: profiles, out[0] and out[1], and identifier tuples, out[2] and out[3]. */
uint32_t hpcdb_profile_sections(const uint8_t *file, size_t file_length, uint64_t out[4]);

/* out: how many profiles there are. */
uint32_t hpcdb_profile_open(const uint8_t *file, size_t file_length, uint64_t out[1]);

/* The identifier tuple of a profile. out: how many identifications it has. INDEX, ARRAY. */
uint32_t hpcdb_profile_tuple(const uint8_t *file, size_t file_length, uint64_t profile, uint64_t out[1]);

/* Identification k of it. INDEX, ARRAY. */
enum hpcdb_identifier_word {
    HPCDB_IDENTIFIER_KIND,
    HPCDB_IDENTIFIER_FLAGS, /* all 16 bits; bit 0 is isPhysical */
    HPCDB_IDENTIFIER_LOGICAL,
    HPCDB_IDENTIFIER_PHYSICAL,
    HPCDB_IDENTIFIER_WORDS
};
uint32_t hpcdb_profile_identifier(const uint8_t *file, size_t file_length, uint64_t profile, uint64_t k, uint64_t out[4]);

/* The value of a metric in a context of a profile. (Each call checks the profile's whole block: for many values see
 * hpcdb_profile_lookup_many.) OK: its 64 bits stand little-endian in out[0] to out[7]. No byte behind the eighth is
 * ever touched. ROOM, which comes before all else; INDEX for the profile, ARRAY, ORDER, ABSENT. */
uint32_t hpcdb_profile_lookup(const uint8_t *file, size_t file_length, uint64_t profile, uint64_t context, uint64_t metric,
                              uint8_t *out, size_t out_length);

/* Many values of one profile, whose block is checked once. `pairs` has context, metric, context, metric, ..; an odd last word is no pair.
 * They may stand in any order; sorted ones are found fastest.
 * OK: for pair i, answers[2 i] is OK and answers[2 i + 1] the value's bits, or they are ABSENT and 0; words behind the answers are
 * untouched. Any other code: all words are. ROOM, before all else, if there are not two words for each pair; INDEX, ARRAY, ORDER. */
uint32_t hpcdb_profile_lookup_many(const uint8_t *file, size_t file_length, uint64_t profile, const uint64_t *pairs,
                                   size_t pairs_length, uint64_t *answers, size_t answers_length);

/* An identification of a tuple, and an entry, as hpcdb_profile_write takes them. Arrays of them are passed as bytes, which on a
 * little-endian machine are those of the structs: (const uint8_t *)entries, n * sizeof *entries. The fields are as wide as the file's:
 * a position or an id that was kept in a wider one must fit. */
struct hpcdb_identifier {
    uint8_t kind;
    uint8_t reserved; /* ignored */
    uint16_t flags;   /* all 16 bits are written */
    uint32_t logical_id;
    uint64_t physical_id;
};
struct hpcdb_entry {
    uint32_t profile; /* its position among the profiles */
    uint32_t context;
    uint16_t metric;
    uint16_t reserved[3]; /* ignored */
    uint64_t bits;        /* of the value, a double: memcpy(&entry.bits, &value, 8); any bits are written */
};
typedef char hpcdb_identifier_has_16_bytes[sizeof(struct hpcdb_identifier) == 16 ? 1 : -1];
typedef char hpcdb_entry_has_24_bytes[sizeof(struct hpcdb_entry) == 24 ? 1 : -1];

/* Writes a profile.db, version 4.0 with the least strides, to the first bytes of `file`. out: its length. The bytes behind it are
 * untouched. It opens, has these profiles, each with its tuple, and a value where there is an entry, with its bits, and nowhere else.
 * Every byte follows from the lists, by docs/LAYOUT.md.
 *   profiles      word p is the position of profile p's tuple among the tuples; profiles may share one. (To HPCToolkit the first is the
 *                 summary profile; nothing here treats it otherwise.) profiles_length and tuples_length count words;
 *   tuples        word j is how many identifications tuple j has; a tuple that no profile names is written too;
 *   identifiers   16 bytes for each identification, those of all tuples one after the other; what is behind them is ignored;
 *   entries       24 bytes for each; a last piece under 24 bytes is none. A profile may have no entry. identifiers_length and
 *                 entries_length count bytes, and not elements.
 * Any other code: `file` is as it was too. In this order, each for all the lists before the next:
 *   INDEX   an entry's profile or a profile's tuple is not there, or fewer identifications than the tuples have together;
 *   ORDER   the entries do not strictly rise by profile, context, metric;
 *   ARRAY   2^32 profiles or more, a tuple of 65,536 identifications or more, a profile with 2^32 contexts;
 *   ROOM    the file is longer than file_length. 72 + 40 profiles_length + 8 tuples_length + identifiers_length + entries_length bytes
 *           are always enough. */
uint32_t hpcdb_profile_write(const uint64_t *profiles, size_t profiles_length, const uint64_t *tuples, size_t tuples_length,
                             const uint8_t *identifiers, size_t identifiers_length, const uint8_t *entries, size_t entries_length,
                             uint8_t *file, size_t file_length, uint64_t out[1]);

/* ---- meta.db and profile.db */

/* The hot path: the root with the greatest value of a metric in a profile, its child with the greatest, and so on down, until no child has
 * a value; no share of its parent's value is asked of it. Of equal values, and zeros of either sign are equal, it takes the first in stored
 * order. A context has the value that hpcdb_profile_lookup finds for its ctxId, which may be 0 or below; one without a value is left out,
 * and so is all below it. out: how many contexts the path has, n, 0 if no root has a value; their places are written to the first n words
 * of `hot`, and the words behind them are untouched.
 *
 * The meta.db is walked first, as by hpcdb_meta_walk, and must be listed whole. Whatever the code, that walk's or another, listing and
 * table are as the walk leaves them. Any other code than OK: `hot` and out are as they were. In the order in which they are looked for:
 *   1 to 7, CONTEXT, LINK, ARRAY, DEEP, SLOT, TWICE   the walk refuses meta.db;
 *   ROOM           the walk is cut;
 *   1 to 7         opening refuses profile.db;
 *   INDEX          there is no such profile;
 *   ARRAY, ORDER   its block is refused;
 *   NOT_FINITE     a root, or a child of a context on the path, has infinity or NaN as its value. Other contexts may have it;
 *   ROOM           the path has more than hot_length contexts. It has 200 at most.
 * hpcdb_meta_walk with a listing and a table as long tells which file a code is of (it gives OK if profile.db's), and which ROOM it is. A
 * call took 5,176 bytes of the stack, where a walk takes 2,240. */
uint32_t hpcdb_hot_path(const uint8_t *meta, size_t meta_length, const uint8_t *profile_db, size_t profile_db_length, uint64_t profile,
                        uint64_t metric, uint64_t *listing, size_t listing_length, uint64_t *table, size_t table_length, uint64_t *hot,
                        size_t hot_length, uint64_t out[1]);

/* ---- cct.db */

/* out: place and size of the section. */
uint32_t hpcdb_cct_sections(const uint8_t *file, size_t file_length, uint64_t out[2]);

/* out: how many contexts there are. */
uint32_t hpcdb_cct_open(const uint8_t *file, size_t file_length, uint64_t out[1]);

/* As hpcdb_profile_lookup; INDEX is for the context. */
uint32_t hpcdb_cct_lookup(const uint8_t *file, size_t file_length, uint64_t profile, uint64_t context, uint64_t metric,
                          uint8_t *out, size_t out_length);

/* As hpcdb_profile_lookup_many, in a context; `pairs` has metric, profile, metric, profile, .. */
uint32_t hpcdb_cct_lookup_many(const uint8_t *file, size_t file_length, uint64_t context, const uint64_t *pairs, size_t pairs_length,
                               uint64_t *answers, size_t answers_length);

/* Over the values of a metric in a context. INDEX for the context, ARRAY, ORDER, NOT_FINITE, ABSENT. */
enum hpcdb_totals {
    HPCDB_TOTALS_COUNT,    /* how many values there are */
    HPCDB_TOTALS_LEAST_OF, /* the profile of the first smallest, and its bits */
    HPCDB_TOTALS_LEAST,
    HPCDB_TOTALS_GREATEST_OF, /* the same of the first greatest */
    HPCDB_TOTALS_GREATEST,
    HPCDB_TOTALS_SUM, /* bits of the sum, taken in stored order */
    HPCDB_TOTALS_WORDS
};
uint32_t hpcdb_cct_totals(const uint8_t *file, size_t file_length, uint64_t context, uint64_t metric, uint64_t out[6]);

/* ---- trace.db
 *
 * The timestamps of a line may repeat; they may not fall. A line that keeps its range rule and in which one falls is refused by ORDER,
 * whatever is asked of it. */

/* out: place and size of the section. */
uint32_t hpcdb_trace_sections(const uint8_t *file, size_t file_length, uint64_t out[2]);

/* out: how many lines there are. */
uint32_t hpcdb_trace_open(const uint8_t *file, size_t file_length, uint64_t out[1]);

/* Line i. out: its profile, the number of its samples. INDEX, ARRAY, ORDER. */
uint32_t hpcdb_trace_line(const uint8_t *file, size_t file_length, uint64_t i, uint64_t out[2]);

/* Sample k of line i. out: timestamp, ctxId. INDEX, ARRAY, ORDER. */
uint32_t hpcdb_trace_sample(const uint8_t *file, size_t file_length, uint64_t i, uint64_t k, uint64_t out[2]);

/* The last sample of line i that is not later than a time: of several with the same timestamp, the one at the highest position. INDEX,
 * ARRAY, ORDER, ABSENT. */
enum hpcdb_sample {
    HPCDB_SAMPLE_POSITION,
    HPCDB_SAMPLE_TIME,
    HPCDB_SAMPLE_CTX_ID,
    HPCDB_SAMPLE_WORDS
};
uint32_t hpcdb_trace_at(const uint8_t *file, size_t file_length, uint64_t i, uint64_t time, uint64_t out[3]);

/* ---- old DCPI sample files (versions 0.06 and 0.07)
 *
 * `samples` is the binary section of such a file, from the byte behind the newline of its text header (the line "samples") to its end:
 * chunks, each an offset, a number above 0 and that many counts, and then two totals, all of them u32, little-endian. Count i of a chunk
 * is for offset + i. The header is not read: neither its version nor what it says of the image.
 *
 * Every call checks all of it first. In this order:
 *   SHORT   fewer than 8 bytes;
 *   ARRAY   a chunk does not fit before the totals, has number 0, or reaches past offset 2^32 - 1;
 *   ORDER   a chunk's offset is not above every offset of the one before it (it may be the next). Both are looked for chunk by chunk, of
 *           one chunk ARRAY before ORDER: the first chunk that breaks a rule tells which;
 *   TOTAL   the first total is not the number of counts that are not 0, or the second not their exact sum: one of 2^32 or more is no
 *           u32, and so always TOTAL. */

/* out: how many counts are not 0, and the sum of all. SHORT, ARRAY, ORDER, TOTAL. */
uint32_t hpcdb_dcpi_totals(const uint8_t *samples, size_t samples_length, uint64_t out[2]);

/* The count for an offset. (Each call checks all samples: for many counts see hpcdb_dcpi_entries.) out: the count, which may be 0. ABSENT
 * if no count is for the offset. SHORT, ARRAY, ORDER, TOTAL. */
uint32_t hpcdb_dcpi_lookup(const uint8_t *samples, size_t samples_length, uint64_t offset, uint64_t out[1]);

/* The counts that are not 0, as entries for hpcdb_profile_write: with this profile and metric, the offset as the context, and the count as
 * a double, which has every count exactly. They rise by their offsets, so that hpcdb_profile_write does not refuse them by ORDER; give it
 * 24 n bytes, and not all that were lent. out: how many there are, n; they are written to the first 24 n bytes of `entries`, and the bytes
 * behind them are untouched. entries_length counts bytes; a last piece under 24 bytes is no entry. Any other code: `entries` is as it was
 * too. (Entries of several sample files may stand one after the other where each is for a later profile; those of two metrics of one
 * profile must be merged by their contexts.) SHORT, ARRAY, ORDER, TOTAL, and then
 *   ROOM   there are more than entries_length / 24. hpcdb_dcpi_totals tells how many there are. */
uint32_t hpcdb_dcpi_entries(const uint8_t *samples, size_t samples_length, uint32_t profile, uint16_t metric, uint8_t *entries,
                            size_t entries_length, uint64_t out[1]);

#ifdef __cplusplus
}
#endif

#endif
