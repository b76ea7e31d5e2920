//! The functions of the C interface as the reader and the writer answer them: names, arguments, codes and words are
//! those of `ffi`.

use crate::reader::walk::{End, Walked};
use crate::reader::{cct, dcpi, hot, meta, profile, trace, walk, Refusal, Span, Text};
use crate::writer::{self, Lists};

pub const ANSWERED: u32 = 0;
pub const ABSENT: u32 = 100;
pub const CUT: u32 = 101;

/// Writes what was found; on absent or a refusal `out` stays as it is.
fn written<const N: usize>(found: Result<Option<[u64; N]>, Refusal>, out: &mut [u64; N]) -> u32 {
    match found {
        Ok(Some(words)) => {
            *out = words;
            ANSWERED
        }
        Ok(None) => ABSENT,
        Err(refusal) => refusal.number(),
    }
}

fn text_words(text: Text) -> [u64; 2] {
    [text.place as u64, text.length as u64]
}

/// Place and size of each section.
fn section_words<const N: usize>(sections: &[Span]) -> [u64; N] {
    let mut words = [0; N];
    for (pair, section) in words.chunks_exact_mut(2).zip(sections) {
        pair.copy_from_slice(&[section.start as u64, section.size() as u64]);
    }
    words
}

pub fn hpcdb_meta_open(file: &[u8], out: &mut [u64; 16]) -> u32 {
    written(meta::sections_of(file).map(|sections| Some(section_words(&sections))), out)
}

pub fn hpcdb_profile_sections(file: &[u8], out: &mut [u64; 4]) -> u32 {
    written(profile::sections_of(file).map(|sections| Some(section_words(&sections))), out)
}

pub fn hpcdb_cct_sections(file: &[u8], out: &mut [u64; 2]) -> u32 {
    written(cct::sections_of(file).map(|sections| Some(section_words(&sections))), out)
}

pub fn hpcdb_trace_sections(file: &[u8], out: &mut [u64; 2]) -> u32 {
    written(trace::sections_of(file).map(|sections| Some(section_words(&sections))), out)
}

pub fn hpcdb_profile_open(file: &[u8], out: &mut [u64; 1]) -> u32 {
    written(profile::count(file).map(|count| Some([count])), out)
}

pub fn hpcdb_cct_open(file: &[u8], out: &mut [u64; 1]) -> u32 {
    written(cct::count(file).map(|count| Some([count])), out)
}

pub fn hpcdb_trace_open(file: &[u8], out: &mut [u64; 1]) -> u32 {
    written(trace::count(file).map(|count| Some([count])), out)
}

pub fn hpcdb_meta_counts(file: &[u8], out: &mut [u64; 5]) -> u32 {
    written(meta::counts(file).map(Some), out)
}

pub fn hpcdb_meta_title(file: &[u8], out: &mut [u64; 2]) -> u32 {
    written(meta::title(file).map(|text| Some(text_words(text))), out)
}

pub fn hpcdb_meta_description(file: &[u8], out: &mut [u64; 2]) -> u32 {
    written(meta::description(file).map(|text| Some(text_words(text))), out)
}

pub fn hpcdb_meta_id_name(file: &[u8], kind: u64, out: &mut [u64; 2]) -> u32 {
    written(meta::id_name(file, kind).map(|text| Some(text_words(text))), out)
}

pub fn hpcdb_meta_metric(file: &[u8], i: u64, out: &mut [u64; 3]) -> u32 {
    let words = meta::metric(file, i).map(|metric| {
        let [place, length] = text_words(metric.name);
        Some([place, length, metric.scopes])
    });
    written(words, out)
}

pub fn hpcdb_meta_scope(file: &[u8], i: u64, j: u64, out: &mut [u64; 4]) -> u32 {
    let words = meta::scope(file, i, j).map(|scope| {
        let [place, length] = text_words(scope.name);
        Some([place, length, scope.summaries, scope.prop_metric_id.into()])
    });
    written(words, out)
}

pub fn hpcdb_meta_summary(file: &[u8], i: u64, j: u64, k: u64, out: &mut [u64; 4]) -> u32 {
    let words = meta::summary(file, i, j, k).map(|summary| {
        let [place, length] = text_words(summary.formula);
        Some([place, length, summary.combine.into(), summary.stat_metric_id.into()])
    });
    written(words, out)
}

pub fn hpcdb_meta_module(file: &[u8], i: u64, out: &mut [u64; 2]) -> u32 {
    written(meta::module(file, i).map(|path| Some(text_words(path))), out)
}

pub fn hpcdb_meta_file(file: &[u8], i: u64, out: &mut [u64; 3]) -> u32 {
    let words = meta::source_file(file, i).map(|source| {
        let [place, length] = text_words(source.path);
        Some([place, length, source.copied.into()])
    });
    written(words, out)
}

const NAME_IN_FILE: u64 = 0;
const PLACEHOLDER: u64 = 1;

pub fn hpcdb_meta_function(file: &[u8], i: u64, out: &mut [u64; 7]) -> u32 {
    let words = meta::function(file, i).map(|function| {
        let (which, [place, length]) =
            function.name.map_or((PLACEHOLDER, [0, 0]), |name| (NAME_IN_FILE, text_words(name)));
        Some([which, place, length, function.module, function.offset, function.file, function.line.into()])
    });
    written(words, out)
}

/// The number listed is written whatever the end.
fn walk_written(walked: Walked, out: &mut [u64; 1]) -> u32 {
    *out = [walked.listed as u64];
    match walked.end {
        End::Whole => ANSWERED,
        End::Cut => CUT,
        End::Refused(refusal) => refusal.number(),
    }
}

pub fn hpcdb_meta_walk(file: &[u8], listing: &mut [u64], table: &mut [u64], out: &mut [u64; 1]) -> u32 {
    walk_written(walk::walk(file, listing, table), out)
}

pub fn hpcdb_meta_records(
    file: &[u8],
    listing: &mut [u64],
    table: &mut [u64],
    records: &mut [u64],
    out: &mut [u64; 1],
) -> u32 {
    walk_written(walk::records(file, listing, table, records), out)
}

#[allow(clippy::too_many_arguments, reason = "they are those of the C function")]
pub fn hpcdb_meta_walk_from(
    file: &[u8],
    mark: &[u8],
    asks: u64,
    listing: &mut [u64],
    table: &mut [u64],
    records: &mut [u64],
    new_mark: &mut [u8],
    out: &mut [u64; 1],
) -> u32 {
    let asked = (asks != 0).then_some(new_mark);
    walk_written(walk::walk_from(file, mark, listing, table, records, asked), out)
}

pub fn hpcdb_cct_totals(file: &[u8], context: u64, metric: u64, out: &mut [u64; 6]) -> u32 {
    let words = cct::totals(file, context, metric).map(|found| {
        found.map(|totals| {
            let [(least, least_bits), (most, most_bits)] =
                [totals.smallest, totals.greatest].map(|entry| (entry.profile.into(), entry.value.to_bits()));
            [totals.count, least, least_bits, most, most_bits, totals.sum.to_bits()]
        })
    });
    written(words, out)
}

pub fn hpcdb_profile_tuple(file: &[u8], profile: u64, out: &mut [u64; 1]) -> u32 {
    written(profile::tuple(file, profile).map(|count| Some([count])), out)
}

pub fn hpcdb_profile_identifier(file: &[u8], profile: u64, k: u64, out: &mut [u64; 4]) -> u32 {
    let words = profile::identifier(file, profile, k)
        .map(|id| Some([id.kind.into(), id.flags.into(), id.logical_id.into(), id.physical_id]));
    written(words, out)
}

pub fn hpcdb_trace_line(file: &[u8], i: u64, out: &mut [u64; 2]) -> u32 {
    written(trace::line(file, i).map(|line| Some([line.prof_idx.into(), line.samples])), out)
}

pub fn hpcdb_trace_sample(file: &[u8], i: u64, k: u64, out: &mut [u64; 2]) -> u32 {
    written(trace::sample(file, i, k).map(|sample| Some([sample.timestamp, sample.ctx_id.into()])), out)
}

pub fn hpcdb_trace_at(file: &[u8], i: u64, time: u64, out: &mut [u64; 3]) -> u32 {
    let words = trace::at(file, i, time)
        .map(|found| found.map(|(position, sample)| [position, sample.timestamp, sample.ctx_id.into()]));
    written(words, out)
}

/// The value's bits in the first eight bytes; too little room is refused before the file is looked at.
fn lookup_written(out: &mut [u8], lookup: impl FnOnce() -> Result<Option<u64>, Refusal>) -> u32 {
    let Some(value) = out.first_chunk_mut::<8>() else {
        return Refusal::Room.number();
    };
    match lookup() {
        Ok(Some(bits)) => {
            *value = bits.to_le_bytes();
            ANSWERED
        }
        Ok(None) => ABSENT,
        Err(refusal) => refusal.number(),
    }
}

pub fn hpcdb_profile_lookup(file: &[u8], profile: u64, context: u64, metric: u64, out: &mut [u8]) -> u32 {
    lookup_written(out, || profile::lookup(file, profile, context, metric))
}

pub fn hpcdb_cct_lookup(file: &[u8], profile: u64, context: u64, metric: u64, out: &mut [u8]) -> u32 {
    lookup_written(out, || cct::lookup(file, profile, context, metric))
}

fn batch_code(answered: Result<(), Refusal>) -> u32 {
    answered.map_or_else(Refusal::number, |()| ANSWERED)
}

pub fn hpcdb_profile_lookup_many(file: &[u8], profile: u64, pairs: &[u64], answers: &mut [u64]) -> u32 {
    batch_code(profile::lookup_many(file, profile, pairs, answers))
}

pub fn hpcdb_cct_lookup_many(file: &[u8], context: u64, pairs: &[u64], answers: &mut [u64]) -> u32 {
    batch_code(cct::lookup_many(file, context, pairs, answers))
}

pub fn hpcdb_profile_write(lists: &Lists, file: &mut [u8], out: &mut [u64; 1]) -> u32 {
    written(writer::write(lists, file).map(|length| Some([length])), out)
}

#[allow(clippy::too_many_arguments, reason = "they are those of the C function")]
pub fn hpcdb_hot_path(
    meta: &[u8],
    profile_db: &[u8],
    profile: u64,
    metric: u64,
    listing: &mut [u64],
    table: &mut [u64],
    hot: &mut [u64],
    out: &mut [u64; 1],
) -> u32 {
    let found = hot::hot_path(meta, profile_db, [profile, metric], listing, table, hot);
    written(found.map(|places| Some([places])), out)
}

pub fn hpcdb_dcpi_totals(samples: &[u8], out: &mut [u64; 2]) -> u32 {
    written(dcpi::totals(samples).map(|totals| Some([totals.offsets, totals.samples])), out)
}

pub fn hpcdb_dcpi_lookup(samples: &[u8], offset: u64, out: &mut [u64; 1]) -> u32 {
    written(dcpi::lookup(samples, offset).map(|found| found.map(|count| [count.into()])), out)
}

pub fn hpcdb_dcpi_entries(samples: &[u8], profile: u32, metric: u16, entries: &mut [u8], out: &mut [u64; 1]) -> u32 {
    written(dcpi::entries(samples, profile, metric, entries).map(|number| Some([number])), out)
}
