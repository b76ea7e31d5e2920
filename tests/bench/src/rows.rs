//! The rows of the table, group by group: the files, and what is asked of them.

use std::hint::black_box;

use differential::gen::large;
use differential::reader::walk::{DEEPEST, MARK_ROOM, RECORD_WORDS};
use differential::{by_reader, ffi, writer};

use crate::paths::{path, with_latin_1, ASCII, MIXED};
use crate::questions::{random_numbers, random_pairs, regular_pairs, sorted, Ids};
use crate::run::{row, Run, Side};

const MILLION: usize = 1_000_000;

/// Calls of a turn: many where a call is short, few where it takes a million elements in.
const MANY: usize = 20_000;
const FEW: usize = 10;

/// Pairs of a batch, and single lookups in a small block.
const PAIRS: usize = 10_000;

/// What lent words hold at first, so that a word that should have been written shows.
const UNWRITTEN: u64 = 0xa5a5_5a5a_c3c3_3c3c;

#[derive(Clone, PartialEq)]
struct WalkMemory {
    listing: Vec<u64>,
    table: Vec<u64>,
    records: Vec<u64>,
    new_mark: [u8; MARK_ROOM],
    out: [u64; 1],
}

impl WalkMemory {
    fn new(contexts: usize, records: usize) -> WalkMemory {
        let [listing, table, records] = [contexts, contexts, RECORD_WORDS * records].map(|n| vec![UNWRITTEN; n]);
        WalkMemory { listing, table, records, new_mark: [UNWRITTEN as u8; MARK_ROOM], out: [UNWRITTEN] }
    }
}

/// The mark of the n-th context of a sound file.
fn mark_of(file: &[u8], n: usize) -> Vec<u8> {
    let WalkMemory { mut table, mut new_mark, mut out, .. } = WalkMemory::new(MILLION, 0);
    by_reader::hpcdb_meta_walk_from(file, &[], 1, &mut vec![0; n], &mut table, &mut [], &mut new_mark, &mut out);
    new_mark[..u16::from_le_bytes([new_mark[0], new_mark[1]]).into()].to_vec()
}

pub fn walks(run: &mut Run) {
    for (arrays, least, most) in [("arrays of 100", 100, 100), ("arrays of about two", 1, 3)] {
        let file = large::meta(MILLION, least, most);
        let what = format!("walk of 1,000,000 contexts, {arrays}");
        let memory = WalkMemory::new(MILLION, 0);
        row!(run, &what, &[()], memory, |_, m| hpcdb_meta_walk(&file, &mut m.listing, &mut m.table, &mut m.out));
        let what = format!("walk of 1,000,000 contexts with records, {arrays}");
        let memory = WalkMemory::new(MILLION, MILLION);
        row!(run, &what, &[()], memory, |_, m| hpcdb_meta_records(
            &file,
            &mut m.listing,
            &mut m.table,
            &mut m.records,
            &mut m.out
        ));
        let what = format!("walk of 1,000,000 contexts from a mark in the middle, {arrays}");
        let memory = WalkMemory::new(MILLION, 0);
        let mark = mark_of(&file, MILLION / 2);
        row!(run, &what, &[()], memory, |_, m| hpcdb_meta_walk_from(
            &file,
            &mark,
            1,
            &mut m.listing,
            &mut m.table,
            &mut m.records,
            &mut m.new_mark,
            &mut m.out
        ));
    }
}

/// A profile.db whose profile 1 has so many contexts and metrics, and their ids.
fn profile(contexts: usize, metrics: usize) -> (Vec<u8>, Ids) {
    (large::profile(contexts, metrics), Ids { outer: 0..contexts as u64, inner: 0..metrics as u64 })
}

/// A cct.db whose context 1 has so many metrics and profiles, and their ids.
fn cct(metrics: usize, profiles: usize) -> (Vec<u8>, Ids) {
    (large::cct(metrics, profiles), Ids { outer: 0..metrics as u64, inner: 1..profiles as u64 + 1 })
}

pub fn single_lookups(run: &mut Run) {
    let value = UNWRITTEN.to_le_bytes();

    let (file, ids) = profile(200, 10);
    for (kind, pairs) in [("regular", regular_pairs(PAIRS, &ids)), ("random", random_pairs(PAIRS, &ids))] {
        let what = format!("profile lookup in 2,000 values, {kind} pairs");
        row!(run, &what, &pairs, value, |&[context, metric], out| hpcdb_profile_lookup(&file, 1, context, metric, out));
    }
    for (contexts, metrics) in [(10_000, 100), (250_000, 4)] {
        let (file, ids) = profile(contexts, metrics);
        let what = format!("profile lookup in 1,000,000 values, {metrics} to a context");
        let pairs = random_pairs(FEW, &ids);
        row!(run, &what, &pairs, value, |&[context, metric], out| hpcdb_profile_lookup(&file, 1, context, metric, out));
    }
    let (file, ids) = cct(10, 100_000);
    let what = "cct lookup in 1,000,000 values, 100,000 to a metric";
    let pairs = random_pairs(FEW, &ids);
    row!(run, what, &pairs, value, |&[metric, profile], out| hpcdb_cct_lookup(&file, profile, 1, metric, out));

    let file = large::cct(1, MILLION);
    let what = "totals over 1,000,000 profiles";
    row!(run, what, &[(); FEW], [UNWRITTEN; 6], |_, out| hpcdb_cct_totals(&file, 1, 0, out));
}

/// The pairs of three batches. The sorted ones are the random ones.
fn batches(ids: &Ids) -> [(&'static str, Vec<[u64; 2]>); 3] {
    let random = random_pairs(PAIRS, ids);
    [("regular", regular_pairs(PAIRS, ids)), ("random", random.clone()), ("sorted", sorted(random))]
}

pub fn batch_lookups(run: &mut Run) {
    let answers = vec![UNWRITTEN; 2 * PAIRS];

    for (values, (file, ids)) in [("2,000 values", profile(200, 10)), ("1,000,000 values", profile(10_000, 100))] {
        for (kind, pairs) in batches(&ids) {
            let what = format!("batch of 10,000 {kind} pairs in {values}");
            let pairs = pairs.as_flattened();
            row!(run, &what, &[()], answers.clone(), |_, out| hpcdb_profile_lookup_many(&file, 1, pairs, out));
        }
    }
    let (file, ids) = cct(20, 100);
    for (kind, pairs) in batches(&ids) {
        let what = format!("batch of 10,000 {kind} pairs in 2,000 values of a cct.db");
        let pairs = pairs.as_flattened();
        row!(run, &what, &[()], answers.clone(), |_, out| hpcdb_cct_lookup_many(&file, 1, pairs, out));
    }
    let (file, _) = profile(10_000, 100);
    let what = "batch of 0 pairs in 1,000,000 values";
    row!(run, what, &[(); FEW], answers, |_, out| hpcdb_profile_lookup_many(&file, 1, &[], out));
}

#[derive(Clone, PartialEq)]
struct HotMemory {
    listing: Vec<u64>,
    table: Vec<u64>,
    hot: [u64; DEEPEST],
    out: [u64; 1],
}

/// Each context has one value.
pub fn hot_paths(run: &mut Run) {
    let profiles = large::scattered_profile(MILLION, 1);
    for (arrays, siblings) in [("arrays of 100", 100), ("arrays of two", 2), ("one array", MILLION)] {
        let file = large::meta(MILLION, siblings, siblings);
        let what = format!("hot path of 1,000,000 contexts, {arrays}, and 1,000,000 values");
        let [listing, table] = [vec![UNWRITTEN; MILLION], vec![UNWRITTEN; MILLION]];
        let memory = HotMemory { listing, table, hot: [UNWRITTEN; DEEPEST], out: [UNWRITTEN] };
        row!(run, &what, &[()], memory, |_, m| hpcdb_hot_path(
            &file,
            &profiles,
            1,
            0,
            &mut m.listing,
            &mut m.table,
            &mut m.hot,
            &mut m.out
        ));
    }
}

pub fn openings(run: &mut Run) {
    let questions = [(); MANY];
    let meta = large::meta(1000, 1, 3);
    let profile = large::profile(10, 10);
    let cct = large::cct(10, 10);
    let trace = large::trace(100);
    row!(run, "opening a meta.db", &questions, [UNWRITTEN; 16], |_, out| hpcdb_meta_open(&meta, out));
    row!(run, "opening a profile.db", &questions, [UNWRITTEN; 1], |_, out| hpcdb_profile_open(&profile, out));
    row!(run, "opening a cct.db", &questions, [UNWRITTEN; 1], |_, out| hpcdb_cct_open(&cct, out));
    row!(run, "opening a trace.db", &questions, [UNWRITTEN; 1], |_, out| hpcdb_trace_open(&trace, out));
}

pub fn small_answers(run: &mut Run) {
    let functions = random_numbers(MANY, large::FUNCTIONS as u64);
    let metrics = random_numbers(MANY, large::METRICS as u64);
    let modules = random_numbers(MANY, large::MODULES as u64);
    let file = large::meta(1000, 1, 3);
    row!(run, "reading a function", &functions, [UNWRITTEN; 7], |&i, out| hpcdb_meta_function(&file, i, out));
    row!(run, "reading a metric", &metrics, [UNWRITTEN; 3], |&i, out| hpcdb_meta_metric(&file, i, out));
    row!(run, "reading a summary", &metrics, [UNWRITTEN; 4], |&i, out| hpcdb_meta_summary(&file, i, 0, 0, out));
    row!(run, "reading a module", &modules, [UNWRITTEN; 2], |&i, out| hpcdb_meta_module(&file, i, out));

    let file = large::trace(MILLION);
    let what = "trace_at in a line of 1,000,000 samples";
    let times = random_numbers(FEW, large::SAMPLE_INTERVAL * MILLION as u64);
    row!(run, what, &times, [UNWRITTEN; 3], |&time, out| hpcdb_trace_at(&file, 0, time, out));
}

/// Short paths differ from module to module, so that a branch predictor does not learn one of them.
pub fn paths(run: &mut Run) {
    for (kind, text) in [("ASCII", ASCII), ("mixed", MIXED)] {
        let short: Vec<_> = (0..large::MODULES).map(|n| path(text, n, 40)).collect();
        path_row(run, &format!("40 bytes, {kind}"), MANY, &short);
        path_row(run, &format!("100,000 bytes, {kind}"), FEW, &[path(text, 0, 100_000)]);
    }
    path_row(run, "100,000 bytes, one of them Latin-1", FEW, &[with_latin_1(path(ASCII, 0, 100_000))]);
}

fn path_row(run: &mut Run, kind: &str, calls: usize, paths: &[Vec<u8>]) {
    let what = format!("reading a module whose path has {kind}");
    let modules = random_numbers(calls, paths.len() as u64);
    let file = large::modules(paths);
    row!(run, &what, &modules, [UNWRITTEN; 2], |&i, out| hpcdb_meta_module(&file, i, out));
}

#[derive(Clone, PartialEq)]
struct WriteMemory {
    file: Vec<u8>,
    out: [u64; 1],
}

/// There is no writer in plain C; what stands for it copies the finished file.
pub fn writes(run: &mut Run) {
    for (contexts, metrics) in [(100, 100), (2500, 4)] {
        let (survey, entries) = large::survey(100, contexts, metrics);
        let lists = survey.lists(&entries);
        let length = writer::length(&lists).expect("the lists are sound");
        let memory = WriteMemory { file: vec![UNWRITTEN as u8; length + 1], out: [UNWRITTEN] };
        let mut finished = memory.clone();
        by_reader::hpcdb_profile_write(&lists, &mut finished.file, &mut finished.out);
        let what =
            format!("write of 1,000,000 entries in 100 profiles, {metrics} to a context (plain C: memcpy of it)");
        run.row(&what, &[()], memory, |side, _, m| match side {
            Side::Library => ffi::hpcdb_profile_write(black_box(&lists), &mut m.file, &mut m.out),
            Side::RustReader => by_reader::hpcdb_profile_write(black_box(&lists), &mut m.file, &mut m.out),
            Side::PlainC => {
                m.file[..length].copy_from_slice(&black_box(&finished).file[..length]);
                m.out = finished.out;
                0
            }
        });
    }
}

#[derive(Clone, PartialEq)]
struct EntriesMemory {
    entries: Vec<u8>,
    out: [u64; 1],
}

pub fn samples(run: &mut Run) {
    for (chunks, number) in [("one chunk", MILLION), ("chunks of 100", 100), ("chunks of 4", 4)] {
        let samples = large::samples(MILLION, number);
        let what = format!("dcpi totals of 1,000,000 counts in {chunks}");
        row!(run, &what, &[(); FEW], [UNWRITTEN; 2], |_, out| hpcdb_dcpi_totals(&samples, out));
    }
    let samples = large::samples(MILLION, 100);
    let offsets = random_numbers(FEW, (MILLION / 100) as u64 * (100 + large::GAP));
    let what = "dcpi lookup in 1,000,000 counts, chunks of 100";
    row!(run, what, &offsets, [UNWRITTEN; 1], |&offset, out| hpcdb_dcpi_lookup(&samples, offset, out));

    let memory = EntriesMemory { entries: vec![UNWRITTEN as u8; 24 * MILLION], out: [UNWRITTEN] };
    let what = "dcpi entries of 1,000,000 counts, half of them 0, chunks of 100";
    row!(run, what, &[()], memory, |_, m| hpcdb_dcpi_entries(&samples, 1, 2, &mut m.entries, &mut m.out));
}
