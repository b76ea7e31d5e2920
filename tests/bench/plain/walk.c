/* The contexts of meta.db in preorder, without recursion: for each level from the roots to the current array, the stack
 * has the part that is yet to be visited, and `parents` the place of the context whose children it has, 0 for
 * the roots. */
#include "meta.h"

#include "plain.h"

/* Both walks are compiled as if each were alone, so that the one without a mark does not pay for the other. */
#define INLINED __attribute__((always_inline)) static inline

enum { HAS_FUNCTION = 1, HAS_SOURCE = 2, HAS_POINT = 4 };

/* Where the parts of a context's flex begin, and how many words it needs. */
struct flex {
    unsigned source, point, words;
};

static inline struct flex flex_of(unsigned flags)
{
    unsigned source = flags & HAS_FUNCTION ? 1 : 0;
    unsigned point = source + (flags & HAS_SOURCE ? 2 : 0);
    return (struct flex){source, point, point + (flags & HAS_POINT ? 2 : 0)};
}

static inline uint64_t flex_word(const uint8_t *context, unsigned k)
{
    return load64(context + HEAD_SIZE + 8 * k);
}

INLINED bool links_hold(const struct meta *meta, const uint8_t *context, struct flex flex)
{
    unsigned flags = context[20];

    if (flags & HAS_FUNCTION && !leads_to(flex_word(context, 0), &meta->functions))
        return false;
    if (flags & HAS_SOURCE && !leads_to(flex_word(context, flex.source), &meta->files))
        return false;
    if (flags & HAS_POINT && !leads_to(flex_word(context, flex.point), &meta->modules))
        return false;
    return true;
}

/* The checks of the first context of `rest` that need nothing but the file; gives its size and its children. */
INLINED uint32_t check_context(const struct meta *meta, struct span rest, uint64_t *size, struct span *children)
{
    const uint8_t *context = meta->file + rest.start;
    uint64_t left = rest.end - rest.start;

    if (left < HEAD_SIZE)
        return HPCDB_CONTEXT;
    unsigned words = context[23];
    struct flex flex = flex_of(context[20]);
    *size = HEAD_SIZE + 8 * words;
    if (left < *size || words < flex.words)
        return HPCDB_CONTEXT;
    if (!links_hold(meta, context, flex))
        return HPCDB_LINK;
    if (!read_context_array(meta->context_room, load64(context + 8), load64(context), children))
        return HPCDB_ARRAY;
    return HPCDB_OK;
}

INLINED void write_record(const uint8_t *context, uint64_t place, uint64_t depth, const uint64_t *parent,
                          uint64_t *record)
{
    unsigned flags = context[20] & (HAS_FUNCTION | HAS_SOURCE | HAS_POINT);
    struct flex flex = flex_of(flags);

    record[HPCDB_RECORD_PLACE] = place;
    record[HPCDB_RECORD_DEPTH] = depth;
    record[HPCDB_RECORD_CTX_ID] = load32(context + 16);
    record[HPCDB_RECORD_RELATION] = context[21];
    record[HPCDB_RECORD_LEXICAL_TYPE] = context[22];
    record[HPCDB_RECORD_FLAGS] = flags;
    record[HPCDB_RECORD_FUNCTION] = flags & HAS_FUNCTION ? flex_word(context, 0) : 0;
    record[HPCDB_RECORD_FILE] = flags & HAS_SOURCE ? flex_word(context, flex.source) : 0;
    record[HPCDB_RECORD_LINE] = flags & HAS_SOURCE ? (uint32_t)flex_word(context, flex.source + 1) : 0;
    record[HPCDB_RECORD_MODULE] = flags & HAS_POINT ? flex_word(context, flex.point) : 0;
    record[HPCDB_RECORD_OFFSET] = flags & HAS_POINT ? flex_word(context, flex.point + 1) : 0;
    record[HPCDB_RECORD_PARENT] = *parent;
}

/* What a walk may write to. */
struct lent {
    uint64_t *listing, *table, *records;
    size_t listing_length, table_length, record_count;
};

/* For each level down to a context, its number among its siblings. Depth 0 is before the first root. */
struct path {
    uint32_t numbers[DEEPEST];
    uint64_t depth;
};

/* From a context of the trail to the next one. */
static inline void step(struct path *path, uint64_t depth)
{
    path->numbers[depth - 1] = depth > path->depth ? 0 : path->numbers[depth - 1] + 1;
    path->depth = depth;
}

static inline bool same_path(const struct path *a, const struct path *b)
{
    return a->depth == b->depth && memcmp(a->numbers, b->numbers, 4 * a->depth) == 0;
}

/* Makes the other checks of a context and lists it, as the one after `listed` others; or only passes it. Its parent is
 * read only for a record. */
INLINED uint32_t list(const struct lent *lent, const uint8_t *context, uint64_t place, uint64_t depth,
                            const uint64_t *parent, bool passes, uint64_t listed)
{
    uint64_t id = load32(context + 16);

    if (depth > DEEPEST)
        return HPCDB_DEEP;
    if (id >= lent->table_length)
        return HPCDB_SLOT;
    if (lent->table[id] != 0)
        return HPCDB_TWICE;
    if (passes) {
        lent->table[id] = place;
        return HPCDB_OK;
    }
    if (listed == lent->listing_length)
        return HPCDB_CUT;
    lent->listing[listed] = place;
    lent->table[id] = place;
    if (listed < lent->record_count)
        write_record(context, place, depth, parent, lent->records + listed * HPCDB_RECORD_WORDS);
    return HPCDB_OK;
}

/* Lists the contexts, those up to a mark excepted: if there is one, the path goes along to the last context, from depth
 * 0 on. */
INLINED uint32_t walk(const struct meta *meta, const struct lent *lent, const struct path *mark, struct path *path,
                      uint64_t *listed)
{
    struct span stack[DEEPEST + 1];
    uint64_t parents[DEEPEST + 1];
    unsigned level = 0;
    bool passes = mark != NULL && mark->depth != 0;

    stack[0] = meta->roots;
    parents[0] = 0;
    for (;;) {
        while (stack[level].start == stack[level].end) {
            if (level == 0)
                return HPCDB_OK;
            level--;
        }
        uint64_t place = stack[level].start, size;
        struct span children;
        uint32_t code;
        if ((code = check_context(meta, stack[level], &size, &children)) != HPCDB_OK)
            return code;
        if ((code = list(lent, meta->file + place, place, level + 1, &parents[level], passes, *listed)) != HPCDB_OK)
            return code;
        *listed += !passes;
        if (mark != NULL) {
            step(path, level + 1);
            passes = passes && !same_path(path, mark);
        }
        stack[level].start += size;
        if (children.start != children.end) {
            stack[++level] = children;
            parents[level] = place;
        }
    }
}

static inline void clear(const struct lent *lent)
{
    for (size_t k = 0; k < lent->table_length; k++)
        lent->table[k] = 0;
}

uint32_t plain_meta_records(const uint8_t *file, size_t file_length, uint64_t *listing, size_t listing_length,
                            uint64_t *table, size_t table_length, uint64_t *records, size_t records_length,
                            uint64_t out[1])
{
    struct lent lent = {listing, table, records, listing_length, table_length, records_length / HPCDB_RECORD_WORDS};
    struct meta meta;

    out[0] = 0;
    uint32_t code = plain_read_meta(file, file_length, &meta);
    if (code != HPCDB_OK)
        return code;
    clear(&lent);
    return walk(&meta, &lent, NULL, NULL, out);
}

uint32_t plain_meta_walk(const uint8_t *file, size_t file_length, uint64_t *listing, size_t listing_length,
                         uint64_t *table, size_t table_length, uint64_t out[1])
{
    return plain_meta_records(file, file_length, listing, listing_length, table, table_length, NULL, 0, out);
}

enum { MARK_HEAD = 5, MARK_KIND = 1 };

/* False if the mark is malformed. No bytes are a mark too. */
static bool read_mark(const uint8_t *mark, size_t length, struct path *path)
{
    path->depth = 0;
    if (length == 0)
        return true;
    if (length < MARK_HEAD || load16(mark) != length || load16(mark + 2) != MARK_KIND)
        return false;
    path->depth = mark[4];
    if (path->depth > DEEPEST || length != MARK_HEAD + 4 * path->depth)
        return false;
    memcpy(path->numbers, mark + MARK_HEAD, 4 * path->depth);
    return true;
}

static void write_mark(const struct path *path, uint8_t *mark)
{
    uint16_t length = MARK_HEAD + 4 * path->depth, kind = MARK_KIND;

    memcpy(mark, &length, sizeof length);
    memcpy(mark + 2, &kind, sizeof kind);
    mark[4] = path->depth;
    memcpy(mark + MARK_HEAD, path->numbers, 4 * path->depth);
}

uint32_t plain_meta_walk_from(const uint8_t *file, size_t file_length, const uint8_t *mark, size_t mark_length,
                              uint64_t asks, uint64_t *listing, size_t listing_length, uint64_t *table,
                              size_t table_length, uint64_t *records, size_t records_length, uint8_t *new_mark,
                              size_t new_mark_length, uint64_t out[1])
{
    struct lent lent = {listing, table, records, listing_length, table_length, records_length / HPCDB_RECORD_WORDS};
    struct meta meta;
    struct path given, path;
    uint32_t code;

    out[0] = 0;
    if (asks != 0 && new_mark_length < HPCDB_MARK_ROOM)
        return HPCDB_ROOM;
    if ((code = plain_read_meta(file, file_length, &meta)) != HPCDB_OK)
        return code;
    if (!read_mark(mark, mark_length, &given))
        return HPCDB_MARK;
    clear(&lent);
    path.depth = 0;
    code = walk(&meta, &lent, &given, &path, out);
    if (out[0] == 0 && !same_path(&path, &given)) {
        clear(&lent);
        return code == HPCDB_OK ? HPCDB_MARK : code;
    }
    if (asks != 0)
        write_mark(&path, new_mark);
    return code;
}
