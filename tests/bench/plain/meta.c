/* meta.db: opening, and what is read of metrics, summaries, modules and functions. */
#include "meta.h"

#include "plain.h"
#include "utf8.h"

static const struct format format = {"HPCTOOLKITmeta", "_meta.db", SECTION_COUNT};

/* A section's header is its least size. */
static const uint8_t header_size[SECTION_COUNT] = {16, 9, 15, 16, 0, 14, 14, 14};

static uint32_t read_sections(struct meta *meta, struct span body)
{
    for (unsigned k = 0; k < SECTION_COUNT; k++) {
        uint64_t alignment = k == STRINGS ? 1 : 8;
        uint32_t code = read_section(meta->file, body, k, header_size[k], alignment, &meta->sections[k]);
        if (code != HPCDB_OK)
            return code;
    }
    return HPCDB_OK;
}

static uint32_t read_id_names(struct meta *meta)
{
    struct span section = meta->sections[ID_NAMES];
    const uint8_t *header = meta->file + section.start;

    return read_array(section, header_size[ID_NAMES], load64(header), header[8], 8, &meta->id_names);
}

static uint32_t read_metrics(struct meta *meta)
{
    struct span section = meta->sections[METRICS];
    const uint8_t *header = meta->file + section.start;
    uint64_t stride = header[12];

    meta->scope_stride = header[13];
    meta->summary_stride = header[14];
    if (!is_stride(stride, 24) || !is_stride(meta->scope_stride, 24) || !is_stride(meta->summary_stride, 16))
        return HPCDB_STRIDE;
    return read_array(section, header_size[METRICS], load64(header), load32(header + 8), stride, &meta->metrics);
}

static uint32_t read_roots(struct meta *meta)
{
    struct span section = meta->sections[CONTEXT];
    const uint8_t *header = meta->file + section.start;

    meta->context_room = (struct span){section.start + header_size[CONTEXT], section.end};
    if (!read_context_array(meta->context_room, load64(header + 8), load64(header), &meta->roots))
        return HPCDB_ARRAY;
    return HPCDB_OK;
}

/* Modules, files or functions. */
static uint32_t read_linked(const struct meta *meta, enum section which, uint64_t least_stride, struct array *array)
{
    struct span section = meta->sections[which];
    const uint8_t *header = meta->file + section.start;
    uint64_t stride = load16(header + 12);

    if (!is_stride(stride, least_stride))
        return HPCDB_STRIDE;
    return read_array(section, header_size[which], load64(header), load32(header + 8), stride, array);
}

uint32_t plain_read_meta(const uint8_t *file, size_t length, struct meta *meta)
{
    struct span body;
    uint32_t code;

    meta->file = file;
    if ((code = read_frame(file, length, &format, &body)) != HPCDB_OK)
        return code;
    if ((code = read_sections(meta, body)) != HPCDB_OK)
        return code;
    if ((code = read_id_names(meta)) != HPCDB_OK)
        return code;
    if ((code = read_metrics(meta)) != HPCDB_OK)
        return code;
    if ((code = read_roots(meta)) != HPCDB_OK)
        return code;
    if ((code = read_linked(meta, MODULES, 16, &meta->modules)) != HPCDB_OK)
        return code;
    if ((code = read_linked(meta, FILES, 16, &meta->files)) != HPCDB_OK)
        return code;
    return read_linked(meta, FUNCTIONS, 40, &meta->functions);
}

/* Place and length of the string at a place of a section. */
static uint32_t read_text(const struct meta *meta, enum section which, uint64_t place, uint64_t text[2])
{
    const struct span *section = &meta->sections[which];

    if (place < section->start || place >= section->end)
        return HPCDB_STRING;
    const uint8_t *start = meta->file + place;
    const uint8_t *nul = memchr(start, 0, section->end - place);
    if (nul == NULL)
        return HPCDB_STRING;
    if (!is_utf8(start, nul))
        return HPCDB_SPELLING;
    text[0] = place;
    text[1] = (uint64_t)(nul - start);
    return HPCDB_OK;
}

/* Element i of metrics or scopes, and the array that it leads to. */
static uint32_t read_outer(const struct meta *meta, const struct array *array, uint64_t i, uint64_t inner_stride,
                           const uint8_t **element, struct array *inner)
{
    if (i >= array->count)
        return HPCDB_INDEX;
    *element = meta->file + element_place(array, i);
    return read_array(meta->sections[METRICS], header_size[METRICS], load64(*element + 16), load16(*element + 8),
                      inner_stride, inner);
}

uint32_t plain_meta_open(const uint8_t *file, size_t file_length, uint64_t out[16])
{
    struct meta meta;
    uint32_t code = plain_read_meta(file, file_length, &meta);
    if (code != HPCDB_OK)
        return code;
    for (unsigned k = 0; k < SECTION_COUNT; k++) {
        out[2 * k] = meta.sections[k].start;
        out[2 * k + 1] = meta.sections[k].end - meta.sections[k].start;
    }
    return HPCDB_OK;
}

uint32_t plain_meta_metric(const uint8_t *file, size_t file_length, uint64_t i, uint64_t out[3])
{
    struct meta meta;
    struct array scopes;
    const uint8_t *metric;
    uint32_t code;

    if ((code = plain_read_meta(file, file_length, &meta)) != HPCDB_OK)
        return code;
    if ((code = read_outer(&meta, &meta.metrics, i, meta.scope_stride, &metric, &scopes)) != HPCDB_OK)
        return code;
    if ((code = read_text(&meta, METRICS, load64(metric), out)) != HPCDB_OK)
        return code;
    out[2] = scopes.count;
    return HPCDB_OK;
}

uint32_t plain_meta_summary(const uint8_t *file, size_t file_length, uint64_t i, uint64_t j, uint64_t k,
                            uint64_t out[4])
{
    struct meta meta;
    struct array scopes, summaries;
    const uint8_t *metric, *scope;
    uint32_t code;

    if ((code = plain_read_meta(file, file_length, &meta)) != HPCDB_OK)
        return code;
    if ((code = read_outer(&meta, &meta.metrics, i, meta.scope_stride, &metric, &scopes)) != HPCDB_OK)
        return code;
    if ((code = read_outer(&meta, &scopes, j, meta.summary_stride, &scope, &summaries)) != HPCDB_OK)
        return code;
    if (k >= summaries.count)
        return HPCDB_INDEX;
    const uint8_t *summary = file + element_place(&summaries, k);
    if ((code = read_text(&meta, METRICS, load64(summary), out)) != HPCDB_OK)
        return code;
    out[2] = summary[8];
    out[3] = load16(summary + 10);
    return HPCDB_OK;
}

uint32_t plain_meta_module(const uint8_t *file, size_t file_length, uint64_t i, uint64_t out[2])
{
    struct meta meta;
    uint32_t code = plain_read_meta(file, file_length, &meta);
    if (code != HPCDB_OK)
        return code;
    if (i >= meta.modules.count)
        return HPCDB_INDEX;
    return read_text(&meta, STRINGS, load64(file + element_place(&meta.modules, i) + 8), out);
}

uint32_t plain_meta_function(const uint8_t *file, size_t file_length, uint64_t i, uint64_t out[7])
{
    struct meta meta;
    uint32_t code = plain_read_meta(file, file_length, &meta);
    if (code != HPCDB_OK)
        return code;
    if (i >= meta.functions.count)
        return HPCDB_INDEX;
    const uint8_t *function = file + element_place(&meta.functions, i);
    uint64_t name = load64(function), module = load64(function + 8), source = load64(function + 24);
    if (name == 0 && module == 0 && source == 0)
        return HPCDB_LINK;
    if ((module != 0 && !leads_to(module, &meta.modules)) || (source != 0 && !leads_to(source, &meta.files)))
        return HPCDB_LINK;
    uint64_t text[2] = {0, 0};
    if (name != 0 && (code = read_text(&meta, STRINGS, name, text)) != HPCDB_OK)
        return code;
    out[0] = name == 0;
    out[1] = text[0];
    out[2] = text[1];
    out[3] = module;
    out[4] = load64(function + 16);
    out[5] = source;
    out[6] = load32(function + 32);
    return HPCDB_OK;
}
