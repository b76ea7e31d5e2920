//! Questions about a file: of what is there, of its neighbours, of what is far away; with too little, just enough and
//! more room.

use std::iter;

use super::rng::Rng;
use super::{blocks, dcpi, hot, lists, marks, meta, trace, Known, Specimen};
use crate::by_reader::ANSWERED;
use crate::lent::LentFile;
use crate::question::Function::{self, *};
use crate::question::{Database, Question, FUNCTIONS};
use crate::reader::walk::{DEEPEST, RECORD_WORDS};
use crate::writer::ENTRY;

/// Files longer than this are asked less.
const LONG: usize = 100_000;

pub fn questions(rng: &mut Rng, specimen: &Specimen) -> Vec<Question> {
    let long = specimen.bytes.len() > LONG;
    let count = match specimen.known {
        // a written file is asked in its turn
        Known::Lists(_) => rng.between(1, if long { 2 } else { 6 }),
        _ if long => 6,
        // more is asked of a meta.db
        Known::Meta(_) => rng.between(10, 20),
        _ => rng.between(8, 16),
    };
    (0..count).map(|_| question(rng, specimen)).collect()
}

/// A walk that a refusal ended is asked again with room for as many contexts as it listed, for one more and for one
/// less: a listing that is full does not hide a refusal, and one that is too short does. A path that was found is asked
/// for with just as much room as it needs, and with one word less.
pub fn follow_ups(question: &Question, code: u32, out: &[u64]) -> Vec<Question> {
    if question.function == HotPath && code == ANSWERED {
        let places = out[0] as usize;
        let [listing, table, _] = question.rooms;
        let again = |hot| Question { rooms: [listing, table, hot], ..question.clone() };
        return [places.checked_sub(1), Some(places)].into_iter().flatten().map(again).collect();
    }
    // 7 may be opening's too
    let within_the_tree = [7, 9, 10, 12, 13, 14].contains(&code);
    if !within_the_tree || !matches!(question.function, MetaWalk | MetaRecords | MetaWalkFrom) {
        return Vec::new();
    }
    let listed = out[0] as usize;
    let listings = [listed.checked_sub(1), Some(listed), Some(listed + 1)];
    let again = |listing| Question { rooms: [listing, question.rooms[1], question.rooms[2]], ..question.clone() };
    listings.into_iter().flatten().map(again).collect()
}

/// How often each function is asked of a file of its kind: those with more to find more often. The writer is asked of
/// lists.
const WEIGHTS: [(Function, usize); 34] = [
    (MetaOpen, 1),
    (MetaCounts, 1),
    (MetaTitle, 1),
    (MetaDescription, 1),
    (MetaIdName, 2),
    (MetaMetric, 2),
    (MetaScope, 3),
    (MetaSummary, 4),
    (MetaModule, 2),
    (MetaFile, 2),
    (MetaFunction, 4),
    (MetaWalk, 5),
    (MetaRecords, 5),
    (MetaWalkFrom, 8),
    (HotPath, 5),
    (ProfileOpen, 1),
    (ProfileSections, 1),
    (ProfileTuple, 2),
    (ProfileIdentifier, 2),
    (ProfileLookup, 4),
    (ProfileLookupMany, 3),
    (CctOpen, 1),
    (CctSections, 1),
    (CctTotals, 5),
    (CctLookup, 4),
    (CctLookupMany, 3),
    (TraceOpen, 1),
    (TraceSections, 1),
    (TraceLine, 2),
    (TraceSample, 3),
    (TraceAt, 4),
    (DcpiTotals, 2),
    (DcpiLookup, 5),
    (DcpiEntries, 5),
];

fn some_function(rng: &mut Rng, database: Database) -> Function {
    let of_database = || WEIGHTS.iter().filter(|(function, _)| function.row().database == database);
    let chosen = rng.below(of_database().map(|(_, weight)| weight).sum());
    let mut weighted = of_database().flat_map(|(function, weight)| iter::repeat_n(*function, *weight));
    weighted.nth(chosen).expect("a number below the sum of the weights")
}

fn question(rng: &mut Rng, specimen: &Specimen) -> Question {
    if rng.one_in(40) {
        // a function of any file
        return stray_question(rng);
    }
    match &specimen.known {
        Known::Meta(known) => meta_question(rng, known, specimen),
        Known::Blocks(known) => blocks_question(rng, specimen.database, known, specimen.focus),
        Known::Trace(known) => trace_question(rng, known, specimen.focus),
        Known::Lists(known) => write_question(rng, known),
        Known::Dcpi(known) => dcpi_question(rng, known, specimen.focus),
    }
}

fn stray_question(rng: &mut Rng) -> Question {
    let row = &FUNCTIONS[rng.below(FUNCTIONS.len())];
    let mut numbers = [0; 3];
    numbers[..row.numbers].fill_with(|| rng.edge());
    let mut question = Question::new(row.function, numbers);
    match row.function {
        MetaWalk | MetaRecords => {
            question.rooms = [rng.below(5), rng.below(5), if row.function == MetaRecords { rng.below(30) } else { 0 }];
        }
        MetaWalkFrom => {
            question.rooms = [rng.below(5), rng.below(5), rng.below(30)];
            question.byte_room = rng.pick(&MARK_ROOMS);
            question.mark = lent_mark(marks::any_bytes(rng), rng);
        }
        HotPath => question.rooms = [rng.below(5), rng.below(5), rng.below(3)],
        ProfileLookup | CctLookup => question.byte_room = rng.below(12),
        ProfileLookupMany | CctLookupMany => {
            question.pairs = (0..rng.below(6)).map(|_| rng.edge()).collect();
            question.rooms[0] = rng.below(8);
        }
        ProfileWrite => {
            // what is lent where the file is are the entries
            question.byte_room = rng.below(400);
            question.survey.profiles = (0..rng.below(4)).map(|_| rng.below(3) as u64).collect();
            question.survey.tuples = (0..rng.below(4)).map(|_| rng.below(3) as u64).collect();
            question.survey.identifiers = (0..rng.below(120)).map(|_| rng.word() as u8).collect();
        }
        DcpiEntries => {
            question.numbers = [u64::from(rng.edge() as u32), u64::from(rng.edge() as u16), 0];
            question.byte_room = rng.below(100);
        }
        _ => {}
    }
    question
}

/// A position in an array of `count`: mostly one that is there, else just behind the last, or one that would be there
/// if the number, or its product with a stride, were taken modulo 2^16, 2^32 or 2^64.
fn position(rng: &mut Rng, count: usize, focus: Option<usize>) -> u64 {
    let there = match focus {
        Some(focus) if focus < count && !rng.one_in(3) => focus,
        _ => rng.below(count.max(1)),
    } as u64;
    match rng.below(16) {
        0 => count as u64,
        1 => (count as u64).wrapping_sub(1),
        2 => there.wrapping_add(1 << rng.pick(&[8, 16, 32, 59, 60, 61, 63])),
        3 => rng.edge(),
        _ => there,
    }
}

/// An id that is there, mostly; else a neighbour, or one that is there modulo 2^16 or 2^32.
fn near_id(rng: &mut Rng, id: u64) -> u64 {
    match rng.below(16) {
        0 => id.wrapping_add(1),
        1 => id.wrapping_sub(1),
        2 => id.wrapping_add(1 << rng.pick(&[8, 16, 32, 48, 63])),
        3 => rng.edge(),
        _ => id,
    }
}

/// A length around `exact`.
fn room(rng: &mut Rng, exact: usize) -> usize {
    match rng.below(12) {
        0 => 0,
        1 => 1,
        2 => exact + 1,
        3 => exact.saturating_sub(1),
        4 => exact + rng.below(20),
        5 => rng.below(exact + 1),
        _ => exact,
    }
}

fn meta_question(rng: &mut Rng, known: &meta::Known, specimen: &Specimen) -> Question {
    let function = some_function(rng, Database::Meta);
    if function == HotPath {
        return hot_question(rng, known);
    }
    let mut at = |count| position(rng, count, specimen.focus);
    let numbers = match function {
        MetaWalkFrom => [asks(rng), 0, 0],
        MetaIdName => [at(known.kinds), 0, 0],
        MetaModule => [at(known.modules), 0, 0],
        MetaFile => [at(known.files), 0, 0],
        MetaFunction => [at(known.functions), 0, 0],
        MetaMetric | MetaScope | MetaSummary => {
            let i = at(known.metrics.len());
            let scopes = known.metrics.get(i as usize).map_or(&[][..], Vec::as_slice);
            let j = if function == MetaMetric { 0 } else { position(rng, scopes.len(), None) };
            let summaries = scopes.get(j as usize).copied().unwrap_or_default();
            let k = if function == MetaSummary { position(rng, summaries, None) } else { 0 };
            [i, j, k]
        }
        _ => [0; 3],
    };
    let mut question = Question::new(function, numbers);
    if matches!(function, MetaWalk | MetaRecords | MetaWalkFrom) {
        let listing = room(rng, known.contexts);
        let slots = known.greatest_id as usize + 1;
        let table = if rng.one_in(3) { room(rng, slots) } else { slots + rng.below(3) };
        let records = if function == MetaWalk { 0 } else { room_for_records(rng, known.contexts) };
        question.rooms = [listing, table, records];
    }
    if function == MetaWalkFrom {
        if rng.one_in(2) {
            question.rooms[0] = rng.below(4);
        }
        question.byte_room = rng.pick(&MARK_ROOMS);
        question.mark = lent_mark(marks::mark(rng, &specimen.bytes, known), rng);
    }
    question
}

/// Of a profile.db that is made for this question. There is mostly room for all contexts and for the path.
fn hot_question(rng: &mut Rng, known: &meta::Known) -> Question {
    let profiles = hot::profiles(rng, known);
    let Known::Blocks(of_profiles) = &profiles.known else {
        unreachable!("a profile.db has blocks");
    };
    let profile = position(rng, of_profiles.elements, profiles.focus);
    let metric = hot::some_metric(rng, of_profiles, profile);
    let mut question = Question::new(HotPath, [profile, near_id(rng, metric), 0]);
    let (contexts, slots) = (known.contexts, known.greatest_id as usize + 1);
    let listing = if rng.one_in(8) { room(rng, contexts) } else { contexts + rng.below(3) };
    let table = if rng.one_in(12) { room(rng, slots) } else { slots + rng.below(3) };
    let path = if rng.one_in(3) { rng.below(4) } else { contexts.min(DEEPEST) + rng.below(2) };
    question.rooms = [listing, table, path];
    question.profiles = LentFile::new(profiles.bytes, rng.below(8), rng.pick(&[0, b'b', 0xff]));
    question
}

/// Bytes lent for a new mark: mostly enough.
const MARK_ROOMS: [usize; 12] = [805, 805, 805, 805, 805, 805, 806, 1700, 804, 804, 13, 0];

/// Any number but 0 asks for a new mark.
fn asks(rng: &mut Rng) -> u64 {
    match rng.below(8) {
        0..2 => 0,
        2 => rng.edge(),
        _ => 1,
    }
}

fn lent_mark(mark: Vec<u8>, rng: &mut Rng) -> LentFile {
    LentFile::new(mark, rng.below(4), rng.pick(&[0, 1, 0xff]))
}

/// Room in two to four parts, some of them of none.
pub fn parts(rng: &mut Rng, room: usize) -> Vec<usize> {
    let count = rng.between(1, 3);
    let mut ends: Vec<usize> = (0..count).map(|_| if rng.one_in(4) { 0 } else { rng.below(room + 1) }).collect();
    ends.push(room);
    ends.sort_unstable();
    let starts = iter::once(0).chain(ends.iter().copied());
    starts.zip(&ends).map(|(start, end)| end - start).collect()
}

/// Also room for a part of a record.
fn room_for_records(rng: &mut Rng, contexts: usize) -> usize {
    if rng.one_in(4) {
        return rng.below(RECORD_WORDS * (contexts + 1));
    }
    room(rng, RECORD_WORDS * contexts)
}

/// A value that is there, in the damaged block if there is one.
fn some_value(rng: &mut Rng, known: &blocks::Known, focus: Option<usize>) -> [u64; 3] {
    if known.values.is_empty() {
        return [rng.below(4) as u64, rng.below(4) as u64, rng.below(4) as u64];
    }
    let any = rng.pick(&known.values);
    let Some(focus) = focus else {
        return any;
    };
    let of_focus: Vec<[u64; 3]> = known.values.iter().filter(|value| value[0] == focus as u64).copied().collect();
    if of_focus.is_empty() || rng.one_in(4) {
        any
    } else {
        rng.pick(&of_focus)
    }
}

fn blocks_question(rng: &mut Rng, database: Database, known: &blocks::Known, focus: Option<usize>) -> Question {
    let function = some_function(rng, database);
    let [element, index_id, value_id] = some_value(rng, known, focus);
    let element = position(rng, known.elements, Some(element as usize));
    let (index_id, value_id) = (near_id(rng, index_id), near_id(rng, value_id));
    let numbers = match function {
        ProfileLookup => [element, index_id, value_id],
        // profile, context, metric: the block is the context's, its indices are metrics
        CctLookup => [value_id, element, index_id],
        CctTotals => [element, index_id, 0],
        ProfileIdentifier => {
            [element, position(rng, known.tuples.get(element as usize).copied().unwrap_or_default(), None), 0]
        }
        ProfileOpen | ProfileSections | CctOpen | CctSections => [0; 3],
        _ => [element, 0, 0],
    };
    let mut question = Question::new(function, numbers);
    match function {
        ProfileLookup | CctLookup => question.byte_room = rng.pick(&[8, 8, 8, 8, 8, 8, 8, 8, 8, 9, 16, 16, 7, 0]),
        ProfileLookupMany | CctLookupMany => {
            question.pairs = pairs(rng, known, element);
            let exact = question.pairs.len() / 2 * 2;
            question.rooms[0] = if rng.one_in(2) { exact } else { room(rng, exact) };
        }
        _ => {}
    }
    question
}

/// Pairs about one block, at times with a word that belongs to none.
fn pairs(rng: &mut Rng, known: &blocks::Known, element: u64) -> Vec<u64> {
    let count = if rng.one_in(30) { 300 } else { rng.below(12) };
    let mut pair = || {
        let [_, index_id, value_id] = some_value(rng, known, Some(element as usize));
        [near_id(rng, index_id), near_id(rng, value_id)]
    };
    let mut pairs: Vec<[u64; 2]> = (0..count).map(|_| pair()).collect();
    if rng.one_in(2) {
        pairs.sort_unstable();
    }
    let mut words = pairs.concat();
    if rng.one_in(4) {
        words.push(rng.edge());
    }
    words
}

fn trace_question(rng: &mut Rng, known: &trace::Known, focus: Option<usize>) -> Question {
    let function = some_function(rng, Database::Trace);
    if matches!(function, TraceOpen | TraceSections) {
        return Question::new(function, [0; 3]);
    }
    let i = position(rng, known.lines.len(), focus);
    let line = known.lines.get(i as usize).map_or(&[][..], Vec::as_slice);
    let second = match (function, rng.pick_any(line)) {
        (TraceSample, _) => position(rng, line.len(), None),
        (TraceAt, Some(timestamp)) => near_id(rng, timestamp),
        (TraceAt, None) => rng.edge(),
        _ => 0,
    };
    Question::new(function, [i, second, 0])
}

fn write_question(rng: &mut Rng, known: &lists::Known) -> Question {
    let byte_room = room(rng, known.length);
    Question { byte_room, survey: known.survey.clone(), ..Question::new(ProfileWrite, [0; 3]) }
}

fn dcpi_question(rng: &mut Rng, known: &dcpi::Known, focus: Option<usize>) -> Question {
    let function = some_function(rng, Database::Dcpi);
    let mut question = Question::new(function, [0; 3]);
    match function {
        DcpiLookup => question.numbers[0] = offset(rng, known, focus),
        DcpiEntries => {
            // mostly one of the first profiles, so that a file of few has it
            let profile = if rng.one_in(3) { rng.edge() as u32 } else { rng.below(4) as u32 };
            question.numbers = [profile.into(), u64::from(rng.edge() as u16), 0];
            question.byte_room = room_for_entries(rng, known.not_zero);
        }
        _ => {}
    }
    question
}

/// Mostly in a chunk, the damaged one if there is one; else at its edges, just outside, or there only modulo 2^32.
fn offset(rng: &mut Rng, known: &dcpi::Known, focus: Option<usize>) -> u64 {
    let any = rng.below(known.chunks.len().max(1));
    let focus = focus.filter(|_| !rng.one_in(3)).unwrap_or(any);
    let Some(chunk) = known.chunks.get(focus) else {
        return rng.edge();
    };
    let inside = chunk.offset + rng.below(chunk.number) as u64;
    match rng.below(16) {
        0 => chunk.offset,
        1 => chunk.end() - 1,
        2 => chunk.offset.wrapping_sub(rng.between(1, 3) as u64),
        3 => chunk.end() + rng.below(3) as u64,
        4 => inside.wrapping_add(1 << rng.between(32, 63)),
        5 => rng.edge(),
        6 => rng.word() >> 32,
        _ => inside,
    }
}

/// Bytes for so many entries: just enough, with a piece behind them, one byte, one entry or a part of one too few.
fn room_for_entries(rng: &mut Rng, entries: usize) -> usize {
    let exact = ENTRY * entries;
    match rng.below(16) {
        0 => 0,
        1 => exact.saturating_sub(1),
        2 => exact.saturating_sub(ENTRY),
        3 => exact.saturating_sub(rng.between(1, ENTRY)),
        4..6 => exact + rng.between(1, ENTRY - 1),
        6..8 => exact + rng.below(4 * ENTRY),
        8 => rng.below(exact + ENTRY),
        _ => exact,
    }
}
