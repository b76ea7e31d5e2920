//! The C interface of libhpcdb.a: every function as it is exported, and a safe function of the same name over slices. A
//! slice is lent as a pointer and a length, `out` as a pointer to just so many words; all answer with a code. Sentinels
//! around what is lent are `lent`'s.

use crate::writer::Lists;

/// Functions that lend nothing but the file and `out`, with the numbers that they take.
macro_rules! word_functions {
    ($($name:ident($($number:ident),*) -> $words:literal;)*) => {
        mod words {
            extern "C" {
                $(pub fn $name(file: *const u8, file_length: usize, $($number: u64,)* out: *mut [u64; $words]) -> u32;)*
            }
        }
        $(
            pub fn $name(file: &[u8], $($number: u64,)* out: &mut [u64; $words]) -> u32 {
                // SAFETY: the file's pointer is valid for its length, `out` for its words.
                unsafe { words::$name(file.as_ptr(), file.len(), $($number,)* out) }
            }
        )*
    };
}

word_functions! {
    hpcdb_meta_open() -> 16;
    hpcdb_profile_open() -> 1;
    hpcdb_cct_open() -> 1;
    hpcdb_trace_open() -> 1;
    hpcdb_profile_sections() -> 4;
    hpcdb_cct_sections() -> 2;
    hpcdb_trace_sections() -> 2;
    hpcdb_meta_counts() -> 5;
    hpcdb_meta_title() -> 2;
    hpcdb_meta_description() -> 2;
    hpcdb_meta_id_name(kind) -> 2;
    hpcdb_meta_metric(i) -> 3;
    hpcdb_meta_scope(i, j) -> 4;
    hpcdb_meta_summary(i, j, k) -> 4;
    hpcdb_meta_module(i) -> 2;
    hpcdb_meta_file(i) -> 3;
    hpcdb_meta_function(i) -> 7;
    hpcdb_cct_totals(context, metric) -> 6;
    hpcdb_profile_tuple(profile) -> 1;
    hpcdb_profile_identifier(profile, k) -> 4;
    hpcdb_trace_line(i) -> 2;
    hpcdb_trace_sample(i, k) -> 2;
    hpcdb_trace_at(i, time) -> 3;
    hpcdb_dcpi_totals() -> 2;
    hpcdb_dcpi_lookup(offset) -> 1;
}

/// Functions that lend slices besides the file, or instead of it.
mod slices {
    extern "C" {
        pub fn hpcdb_meta_walk(
            file: *const u8,
            file_length: usize,
            listing: *mut u64,
            listing_length: usize,
            table: *mut u64,
            table_length: usize,
            out: *mut [u64; 1],
        ) -> u32;
        pub fn hpcdb_meta_records(
            file: *const u8,
            file_length: usize,
            listing: *mut u64,
            listing_length: usize,
            table: *mut u64,
            table_length: usize,
            records: *mut u64,
            records_length: usize,
            out: *mut [u64; 1],
        ) -> u32;
        pub fn hpcdb_meta_walk_from(
            file: *const u8,
            file_length: usize,
            mark: *const u8,
            mark_length: usize,
            asks: u64,
            listing: *mut u64,
            listing_length: usize,
            table: *mut u64,
            table_length: usize,
            records: *mut u64,
            records_length: usize,
            new_mark: *mut u8,
            new_mark_length: usize,
            out: *mut [u64; 1],
        ) -> u32;
        pub fn hpcdb_profile_lookup(
            file: *const u8,
            file_length: usize,
            profile: u64,
            context: u64,
            metric: u64,
            out: *mut u8,
            out_length: usize,
        ) -> u32;
        pub fn hpcdb_cct_lookup(
            file: *const u8,
            file_length: usize,
            profile: u64,
            context: u64,
            metric: u64,
            out: *mut u8,
            out_length: usize,
        ) -> u32;
        pub fn hpcdb_profile_lookup_many(
            file: *const u8,
            file_length: usize,
            profile: u64,
            pairs: *const u64,
            pairs_length: usize,
            answers: *mut u64,
            answers_length: usize,
        ) -> u32;
        pub fn hpcdb_cct_lookup_many(
            file: *const u8,
            file_length: usize,
            context: u64,
            pairs: *const u64,
            pairs_length: usize,
            answers: *mut u64,
            answers_length: usize,
        ) -> u32;
        pub fn hpcdb_profile_write(
            profiles: *const u64,
            profiles_length: usize,
            tuples: *const u64,
            tuples_length: usize,
            identifiers: *const u8,
            identifiers_length: usize,
            entries: *const u8,
            entries_length: usize,
            file: *mut u8,
            file_length: usize,
            out: *mut [u64; 1],
        ) -> u32;
        pub fn hpcdb_hot_path(
            meta: *const u8,
            meta_length: usize,
            profile_db: *const u8,
            profile_db_length: usize,
            profile: u64,
            metric: u64,
            listing: *mut u64,
            listing_length: usize,
            table: *mut u64,
            table_length: usize,
            hot: *mut u64,
            hot_length: usize,
            out: *mut [u64; 1],
        ) -> u32;
        pub fn hpcdb_dcpi_entries(
            samples: *const u8,
            samples_length: usize,
            profile: u32,
            metric: u16,
            entries: *mut u8,
            entries_length: usize,
            out: *mut [u64; 1],
        ) -> u32;
    }
}

pub fn hpcdb_meta_walk(file: &[u8], listing: &mut [u64], table: &mut [u64], out: &mut [u64; 1]) -> u32 {
    // SAFETY: each slice's pointer is valid for the length behind it, `out` for its word.
    unsafe {
        slices::hpcdb_meta_walk(
            file.as_ptr(),
            file.len(),
            listing.as_mut_ptr(),
            listing.len(),
            table.as_mut_ptr(),
            table.len(),
            out,
        )
    }
}

pub fn hpcdb_meta_records(
    file: &[u8],
    listing: &mut [u64],
    table: &mut [u64],
    records: &mut [u64],
    out: &mut [u64; 1],
) -> u32 {
    // SAFETY: each slice's pointer is valid for the length behind it, `out` for its word.
    unsafe {
        slices::hpcdb_meta_records(
            file.as_ptr(),
            file.len(),
            listing.as_mut_ptr(),
            listing.len(),
            table.as_mut_ptr(),
            table.len(),
            records.as_mut_ptr(),
            records.len(),
            out,
        )
    }
}

#[allow(clippy::too_many_arguments, reason = "they are those of the C function")]
pub fn hpcdb_meta_walk_from(
    file: &[u8],
    mark: &[u8],
    asks: u64,
    listing: &mut [u64],
    table: &mut [u64],
    records: &mut [u64],
    new_mark: &mut [u8],
    out: &mut [u64; 1],
) -> u32 {
    // SAFETY: each slice's pointer is valid for the length behind it, `out` for its word.
    unsafe {
        slices::hpcdb_meta_walk_from(
            file.as_ptr(),
            file.len(),
            mark.as_ptr(),
            mark.len(),
            asks,
            listing.as_mut_ptr(),
            listing.len(),
            table.as_mut_ptr(),
            table.len(),
            records.as_mut_ptr(),
            records.len(),
            new_mark.as_mut_ptr(),
            new_mark.len(),
            out,
        )
    }
}

pub fn hpcdb_profile_lookup(file: &[u8], profile: u64, context: u64, metric: u64, out: &mut [u8]) -> u32 {
    // SAFETY: each slice's pointer is valid for the length behind it.
    unsafe {
        slices::hpcdb_profile_lookup(file.as_ptr(), file.len(), profile, context, metric, out.as_mut_ptr(), out.len())
    }
}

pub fn hpcdb_cct_lookup(file: &[u8], profile: u64, context: u64, metric: u64, out: &mut [u8]) -> u32 {
    // SAFETY: each slice's pointer is valid for the length behind it.
    unsafe {
        slices::hpcdb_cct_lookup(file.as_ptr(), file.len(), profile, context, metric, out.as_mut_ptr(), out.len())
    }
}

pub fn hpcdb_profile_lookup_many(file: &[u8], profile: u64, pairs: &[u64], answers: &mut [u64]) -> u32 {
    // SAFETY: each slice's pointer is valid for the length behind it.
    unsafe {
        slices::hpcdb_profile_lookup_many(
            file.as_ptr(),
            file.len(),
            profile,
            pairs.as_ptr(),
            pairs.len(),
            answers.as_mut_ptr(),
            answers.len(),
        )
    }
}

pub fn hpcdb_cct_lookup_many(file: &[u8], context: u64, pairs: &[u64], answers: &mut [u64]) -> u32 {
    // SAFETY: each slice's pointer is valid for the length behind it.
    unsafe {
        slices::hpcdb_cct_lookup_many(
            file.as_ptr(),
            file.len(),
            context,
            pairs.as_ptr(),
            pairs.len(),
            answers.as_mut_ptr(),
            answers.len(),
        )
    }
}

pub fn hpcdb_profile_write(lists: &Lists, file: &mut [u8], out: &mut [u64; 1]) -> u32 {
    // SAFETY: each slice's pointer is valid for the length behind it, `out` for its word.
    unsafe {
        slices::hpcdb_profile_write(
            lists.profiles.as_ptr(),
            lists.profiles.len(),
            lists.tuples.as_ptr(),
            lists.tuples.len(),
            lists.identifiers.as_ptr(),
            lists.identifiers.len(),
            lists.entries.as_ptr(),
            lists.entries.len(),
            file.as_mut_ptr(),
            file.len(),
            out,
        )
    }
}

#[allow(clippy::too_many_arguments, reason = "they are those of the C function")]
pub fn hpcdb_hot_path(
    meta: &[u8],
    profile_db: &[u8],
    profile: u64,
    metric: u64,
    listing: &mut [u64],
    table: &mut [u64],
    hot: &mut [u64],
    out: &mut [u64; 1],
) -> u32 {
    // SAFETY: each slice's pointer is valid for the length behind it, `out` for its word.
    unsafe {
        slices::hpcdb_hot_path(
            meta.as_ptr(),
            meta.len(),
            profile_db.as_ptr(),
            profile_db.len(),
            profile,
            metric,
            listing.as_mut_ptr(),
            listing.len(),
            table.as_mut_ptr(),
            table.len(),
            hot.as_mut_ptr(),
            hot.len(),
            out,
        )
    }
}

pub fn hpcdb_dcpi_entries(samples: &[u8], profile: u32, metric: u16, entries: &mut [u8], out: &mut [u64; 1]) -> u32 {
    // SAFETY: each slice's pointer is valid for the length behind it, `out` for its word.
    unsafe {
        slices::hpcdb_dcpi_entries(
            samples.as_ptr(),
            samples.len(),
            profile,
            metric,
            entries.as_mut_ptr(),
            entries.len(),
            out,
        )
    }
}
