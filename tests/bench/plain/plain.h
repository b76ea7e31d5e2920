/* A reader of HPCToolkit 4.0 databases and of DCPI samples in plain C, against which libhpcdb.a is timed. Each function makes the checks of
 * the function of hpcdb.h that has its name, and answers as that one does. */
#ifndef PLAIN_H
#define PLAIN_H

#include "hpcdb.h"

/* ---- meta.db: meta.c, walk.c */

uint32_t plain_meta_open(const uint8_t *file, size_t file_length, uint64_t out[16]);
uint32_t plain_meta_metric(const uint8_t *file, size_t file_length, uint64_t i, uint64_t out[3]);
uint32_t plain_meta_summary(const uint8_t *file, size_t file_length, uint64_t i, uint64_t j, uint64_t k,
                            uint64_t out[4]);
uint32_t plain_meta_module(const uint8_t *file, size_t file_length, uint64_t i, uint64_t out[2]);
uint32_t plain_meta_function(const uint8_t *file, size_t file_length, uint64_t i, uint64_t out[7]);
uint32_t plain_meta_walk(const uint8_t *file, size_t file_length, uint64_t *listing, size_t listing_length,
                         uint64_t *table, size_t table_length, uint64_t out[1]);
uint32_t plain_meta_records(const uint8_t *file, size_t file_length, uint64_t *listing, size_t listing_length,
                            uint64_t *table, size_t table_length, uint64_t *records, size_t records_length,
                            uint64_t out[1]);
uint32_t plain_meta_walk_from(const uint8_t *file, size_t file_length, const uint8_t *mark, size_t mark_length,
                              uint64_t asks, uint64_t *listing, size_t listing_length, uint64_t *table,
                              size_t table_length, uint64_t *records, size_t records_length, uint8_t *new_mark,
                              size_t new_mark_length, uint64_t out[1]);

/* ---- profile.db: profile.c */

uint32_t plain_profile_open(const uint8_t *file, size_t file_length, uint64_t out[1]);
uint32_t plain_profile_lookup(const uint8_t *file, size_t file_length, uint64_t profile, uint64_t context,
                              uint64_t metric, uint8_t *out, size_t out_length);
uint32_t plain_profile_lookup_many(const uint8_t *file, size_t file_length, uint64_t profile, const uint64_t *pairs,
                                   size_t pairs_length, uint64_t *answers, size_t answers_length);

/* ---- meta.db and profile.db: hot.c */

uint32_t plain_hot_path(const uint8_t *meta, size_t meta_length, const uint8_t *profile_db, size_t profile_db_length,
                        uint64_t profile, uint64_t metric, uint64_t *listing, size_t listing_length, uint64_t *table,
                        size_t table_length, uint64_t *hot, size_t hot_length, uint64_t out[1]);

/* ---- cct.db: cct.c */

uint32_t plain_cct_open(const uint8_t *file, size_t file_length, uint64_t out[1]);
uint32_t plain_cct_lookup(const uint8_t *file, size_t file_length, uint64_t profile, uint64_t context, uint64_t metric,
                          uint8_t *out, size_t out_length);
uint32_t plain_cct_lookup_many(const uint8_t *file, size_t file_length, uint64_t context, const uint64_t *pairs,
                               size_t pairs_length, uint64_t *answers, size_t answers_length);
uint32_t plain_cct_totals(const uint8_t *file, size_t file_length, uint64_t context, uint64_t metric, uint64_t out[6]);

/* ---- trace.db: trace.c */

uint32_t plain_trace_open(const uint8_t *file, size_t file_length, uint64_t out[1]);
uint32_t plain_trace_at(const uint8_t *file, size_t file_length, uint64_t i, uint64_t time, uint64_t out[3]);

/* ---- DCPI samples: dcpi.c */

uint32_t plain_dcpi_totals(const uint8_t *samples, size_t samples_length, uint64_t out[2]);
uint32_t plain_dcpi_lookup(const uint8_t *samples, size_t samples_length, uint64_t offset, uint64_t out[1]);
uint32_t plain_dcpi_entries(const uint8_t *samples, size_t samples_length, uint32_t profile, uint16_t metric,
                            uint8_t *entries, size_t entries_length, uint64_t out[1]);

#endif
