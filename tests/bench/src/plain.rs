//! The C interface of the plain C reader, as `differential::ffi` has the library's: for each function of plain.h a safe
//! function over slices, under the name that the library's has.

/// After the file come a mark or another file, numbers, a slice that is read, slices that are written, and `out`.
macro_rules! functions {
    ($($name:ident = $symbol:literal $(from $mark:ident)? ($($number:ident),*)
        $(reads($read:ident))? $(writes($($written:ident: $unit:ty),*))? $(out $words:literal)?;)*) => {
        mod exported {
            extern "C" {
                $(
                    #[link_name = $symbol]
                    pub fn $name(
                        file: *const u8,
                        file_length: usize,
                        $($mark: *const u8, _: usize,)?
                        $($number: u64,)*
                        $($read: *const u64, _: usize,)?
                        $($($written: *mut $unit, _: usize,)*)?
                        $(out: *mut [u64; $words],)?
                    ) -> u32;
                )*
            }
        }
        $(
            #[allow(clippy::too_many_arguments, reason = "they are those of the C function")]
            pub fn $name(
                file: &[u8],
                $($mark: &[u8],)?
                $($number: u64,)*
                $($read: &[u64],)?
                $($($written: &mut [$unit],)*)?
                $(out: &mut [u64; $words],)?
            ) -> u32 {
                // SAFETY: each slice's pointer is valid for the length behind it, `out` for its words.
                unsafe {
                    exported::$name(
                        file.as_ptr(),
                        file.len(),
                        $($mark.as_ptr(), $mark.len(),)?
                        $($number,)*
                        $($read.as_ptr(), $read.len(),)?
                        $($($written.as_mut_ptr(), $written.len(),)*)?
                        $(out as *mut [u64; $words],)?
                    )
                }
            }
        )*
    };
}

functions! {
    hpcdb_meta_open = "plain_meta_open"() out 16;
    hpcdb_meta_metric = "plain_meta_metric"(i) out 3;
    hpcdb_meta_summary = "plain_meta_summary"(i, j, k) out 4;
    hpcdb_meta_module = "plain_meta_module"(i) out 2;
    hpcdb_meta_function = "plain_meta_function"(i) out 7;
    hpcdb_meta_walk = "plain_meta_walk"() writes(listing: u64, table: u64) out 1;
    hpcdb_meta_records = "plain_meta_records"() writes(listing: u64, table: u64, records: u64) out 1;
    hpcdb_meta_walk_from = "plain_meta_walk_from" from mark (asks)
        writes(listing: u64, table: u64, records: u64, new_mark: u8) out 1;
    hpcdb_profile_open = "plain_profile_open"() out 1;
    hpcdb_profile_lookup = "plain_profile_lookup"(profile, context, metric) writes(value: u8);
    hpcdb_profile_lookup_many = "plain_profile_lookup_many"(profile) reads(pairs) writes(answers: u64);
    hpcdb_hot_path = "plain_hot_path" from profile_db (profile, metric)
        writes(listing: u64, table: u64, hot: u64) out 1;
    hpcdb_cct_open = "plain_cct_open"() out 1;
    hpcdb_cct_lookup = "plain_cct_lookup"(profile, context, metric) writes(value: u8);
    hpcdb_cct_lookup_many = "plain_cct_lookup_many"(context) reads(pairs) writes(answers: u64);
    hpcdb_cct_totals = "plain_cct_totals"(context, metric) out 6;
    hpcdb_trace_open = "plain_trace_open"() out 1;
    hpcdb_trace_at = "plain_trace_at"(i, time) out 3;
    hpcdb_dcpi_totals = "plain_dcpi_totals"() out 2;
    hpcdb_dcpi_lookup = "plain_dcpi_lookup"(offset) out 1;
}

/// The one whose numbers are not words.
pub fn hpcdb_dcpi_entries(samples: &[u8], profile: u32, metric: u16, entries: &mut [u8], out: &mut [u64; 1]) -> u32 {
    extern "C" {
        fn plain_dcpi_entries(
            samples: *const u8,
            samples_length: usize,
            profile: u32,
            metric: u16,
            entries: *mut u8,
            entries_length: usize,
            out: *mut [u64; 1],
        ) -> u32;
    }
    let (length, lent) = (samples.len(), entries.len());
    // SAFETY: each slice's pointer is valid for the length behind it, `out` for its word.
    unsafe { plain_dcpi_entries(samples.as_ptr(), length, profile, metric, entries.as_mut_ptr(), lent, out) }
}
