//! What a run met: how often each function gave each code, and some kinds of answers that codes do not tell apart. A
//! run that met too little of something fails, so that the generator cannot go stale unseen.

use std::collections::BTreeMap;
use std::fmt::Write as _;
use std::ops::RangeInclusive;

use crate::by_reader::{ABSENT, ANSWERED, CUT};
use crate::compare::Reply;
use crate::gen::{Known, Specimen};
use crate::joined::{new_mark, Outcome};
use crate::question::Function::*;
use crate::question::{Database, Question, Row, FUNCTIONS};
use crate::reader::walk::{walk, End, Path, DEEPEST, MARK_ROOM, RECORD_WORDS};
use crate::reader::{dcpi, hot, meta, profile, Refusal};
use crate::shape::Shape;
use crate::way::Way;
use crate::writer::{self, profile_of, Lists, ENTRY};

/// Codes of opening.
const OPENING: [u32; 7] = [1, 2, 3, 4, 5, 6, 7];
const FOOTER: u32 = 4;

/// Refusals of the writer, of a walk from a mark, of a hot path, and of samples.
const ARRAY: u32 = Refusal::Array as u32;
const ORDER: u32 = Refusal::Order as u32;
const INDEX: u32 = Refusal::Index as u32;
const NOT_FINITE: u32 = Refusal::NotFinite as u32;
const ROOM: u32 = Refusal::Room as u32;
const MARK: u32 = Refusal::Mark as u32;
const TOTAL: u32 = Refusal::Total as u32;

/// Each code that a function can give is to occur this often in a run of full length, each kind of answer too.
const LEAST: u64 = 50;

const CODES: usize = CUT as usize + 1;

#[derive(Default)]
pub struct Tally {
    pub cases: u64,
    codes: Vec<[u64; CODES]>,
    kinds: BTreeMap<&'static str, u64>,
}

/// Kinds of answers and files that a run has to meet.
const KINDS: [&str; 104] = [
    "sound file",
    "damaged file",
    "sound lists",
    "damaged lists",
    "name in the file",
    "placeholder for a name",
    "copied file",
    "file not copied",
    "string of no byte",
    "string with a character of two bytes",
    "string with a character of three bytes",
    "string with a character of four bytes",
    "scope of a metric refused 19",
    "summary of a scope refused 19",
    "refused 7 with contexts listed",
    "refused 9 with contexts listed",
    "refused 10 with contexts listed",
    "refused 12 with contexts listed",
    "refused 13 with contexts listed",
    "refused 14 with contexts listed",
    "cut with nothing listed",
    "whole tree of no context",
    "whole tree of more than 100 contexts",
    "room that ends inside a record",
    "record of a context at depth 3 or more",
    "record of a context behind another's children",
    "record of a context whose parent is not listed",
    "records of two depths whose parents are not listed",
    "malformed mark",
    "malformed mark of a file that does not open",
    "mark of no context",
    "refused 17 for one byte of a mark",
    "refused 17 of a file that does not open",
    "refused 7 without passing the mark",
    "refused 9 without passing the mark",
    "refused 10 without passing the mark",
    "refused 12 without passing the mark",
    "refused 13 without passing the mark",
    "refused 14 without passing the mark",
    "refused right after the mark",
    "cut right after the mark",
    "whole right after the mark",
    "contexts listed after the mark",
    "mark of depth 0 handed out",
    "mark of depth 200 handed out",
    "two joined parts",
    "three joined parts or more",
    "joined parts, one with room for none",
    "joined parts, the first without a new mark",
    "infinite sum of finite values",
    "lookup in a large block",
    "empty trace line",
    "last of several samples with one timestamp",
    "batch with an odd last word",
    "written file of no profile",
    "written file with a profile of no entry",
    "written file with a tuple of no profile",
    "written file with a tuple of several profiles",
    "written file with padding",
    "written file in just enough room",
    "refused 17 for one byte",
    "refused 15 with entries out of order",
    "refused 11 with a tuple too long",
    "sound samples",
    "damaged samples",
    "samples of no chunk",
    "samples with chunks that touch",
    "refused 7 of a chunk that is out of order too",
    "refused 7 with other totals",
    "refused 11 before a chunk that is refused 7",
    "refused 11 with other totals",
    "refused 20 with a sum that is the same modulo 2^32",
    "refused 20 with too few entries lent",
    "count of 0 found",
    "count at the last offset found",
    "offset that has a count modulo 2^32",
    "listed entries in just enough room",
    "listed entries with a piece of one behind them",
    "listed entries with room for more",
    "no entry listed of samples with counts",
    "refused 17 for one byte of an entry",
    "listed entries written and read back",
    "hot path of no context",
    "hot path of one context",
    "hot path of two contexts",
    "hot path of three contexts or more",
    "hot path in just enough room",
    "hot path with room for more",
    "hot path by the order of equal values",
    "hot path by the order of zeros of both signs",
    "hot path with a value below 0",
    "hot path beside a value that is not finite",
    "hot path that ends above values",
    "hot path past a context inside another's array",
    "hot path refused 1 to 6 by its walk",
    "hot path refused 1 to 6 for its profile.db",
    "hot path refused 7 by its walk",
    "hot path refused 7 for its profile.db",
    "hot path refused by its walk before its profile.db",
    "hot path refused 17 for a cut walk",
    "hot path refused 17 for a cut walk before its profile.db",
    "hot path refused 17 for its own words",
    "hot path refused 17 for one word",
    "hot path refused 16 without a word for it",
];

impl Tally {
    pub fn new() -> Tally {
        Tally { codes: vec![[0; CODES]; FUNCTIONS.len()], ..Tally::default() }
    }

    pub fn add_file(&mut self, specimen: &Specimen) {
        self.add_kind(match (&specimen.known, specimen.damage.is_empty()) {
            (Known::Lists(_), true) => "sound lists",
            (Known::Lists(_), false) => "damaged lists",
            (Known::Dcpi(_), true) => "sound samples",
            (Known::Dcpi(_), false) => "damaged samples",
            (_, true) => "sound file",
            (_, false) => "damaged file",
        });
    }

    fn add_kind(&mut self, kind: &'static str) {
        *self.kinds.entry(kind).or_default() += 1;
    }

    /// Those that were met.
    fn add_kinds(&mut self, kinds: &[(bool, &'static str)]) {
        kinds.iter().filter(|(met, _)| *met).for_each(|(_, kind)| self.add_kind(kind));
    }

    /// The file that was asked is the specimen's, or was written.
    pub fn add_case(&mut self, question: &Question, specimen: &Specimen, file: &[u8], reply: &Reply) {
        self.cases += 1;
        self.codes[question.function as usize][reply.code as usize] += 1;
        let out = reply.memory.out.body();
        match question.function {
            MetaWalk => self.add_walk(question, reply.code, out[0]),
            MetaRecords => {
                self.add_walk(question, reply.code, out[0]);
                self.add_records(reply);
            }
            MetaWalkFrom => {
                self.add_walk_from(question, file, reply);
                self.add_records(reply);
            }
            ProfileWrite => self.add_write(question, file, reply),
            HotPath => self.add_hot_path(question, file, reply),
            DcpiTotals | DcpiLookup | DcpiEntries => self.add_samples(question, file, reply),
            _ if reply.code != ANSWERED => {}
            MetaFunction => self.add_kind(if out[0] == 0 { "name in the file" } else { "placeholder for a name" }),
            MetaFile => self.add_kind(if out[2] == 1 { "copied file" } else { "file not copied" }),
            CctTotals if f64::from_bits(out[5]).is_infinite() => self.add_kind("infinite sum of finite values"),
            ProfileLookup | CctLookup if file.len() > 600_000 => self.add_kind("lookup in a large block"),
            TraceLine if out[1] == 0 => self.add_kind("empty trace line"),
            TraceAt if repeats_the_one_before(specimen, question.numbers[0], out[0]) => {
                self.add_kind("last of several samples with one timestamp")
            }
            ProfileLookupMany | CctLookupMany if question.pairs.len() % 2 == 1 => {
                self.add_kind("batch with an odd last word")
            }
            _ => {}
        }
        if let Some(string) = string(question, file, reply) {
            self.add_string(question, file, string);
        }
    }

    fn add_string(&mut self, question: &Question, file: &[u8], string: &[u8]) {
        let [i, j, _] = question.numbers;
        let of_refused_metric = || meta::metric(file, i).err() == Some(Refusal::Spelling);
        let of_refused_scope = || meta::scope(file, i, j).err() == Some(Refusal::Spelling);
        let has = |first_bytes: RangeInclusive<u8>| string.iter().any(|byte| first_bytes.contains(byte));
        self.add_kinds(&[
            (string.is_empty(), "string of no byte"),
            (has(0xc2..=0xdf), "string with a character of two bytes"),
            (has(0xe0..=0xef), "string with a character of three bytes"),
            (has(0xf0..=0xf4), "string with a character of four bytes"),
            (question.function == MetaScope && of_refused_metric(), "scope of a metric refused 19"),
            (question.function == MetaSummary && of_refused_scope(), "summary of a scope refused 19"),
        ]);
    }

    fn add_walk(&mut self, question: &Question, code: u32, listed: u64) {
        match (code, listed) {
            (CUT, 0) => self.add_kind("cut with nothing listed"),
            (ANSWERED, 0) => self.add_kind("whole tree of no context"),
            (ANSWERED, 101..) => self.add_kind("whole tree of more than 100 contexts"),
            (7, 1..) => self.add_kind("refused 7 with contexts listed"),
            (9, 1..) => self.add_kind("refused 9 with contexts listed"),
            (10, 1..) => self.add_kind("refused 10 with contexts listed"),
            (12, 1..) => self.add_kind("refused 12 with contexts listed"),
            (13, 1..) => self.add_kind("refused 13 with contexts listed"),
            (14, 1..) => self.add_kind("refused 14 with contexts listed"),
            _ => {}
        }
        let room = question.rooms[2];
        if !room.is_multiple_of(RECORD_WORDS) && room / RECORD_WORDS < listed as usize {
            self.add_kind("room that ends inside a record");
        }
    }

    /// A parent comes before its children: that of the first context is not listed, nor is that of the first one
    /// further up.
    fn add_records(&mut self, reply: &Reply) {
        let (rows, _) = reply.memory.slices[2].body().as_chunks::<RECORD_WORDS>();
        let rows: Vec<[u64; 2]> = rows
            .iter()
            .take(reply.memory.out.body()[0] as usize)
            .map(|&[_, depth, .., parent]| [depth, parent])
            .collect();
        let Some(&[first_depth, first_parent]) = rows.first() else {
            return;
        };
        let further_up = rows.iter().find(|[depth, _]| *depth < first_depth);
        let behind_children = rows.windows(2).any(|pair| pair[1][0] < pair[0][0] && pair[1][1] != 0);
        self.add_kinds(&[
            (rows.iter().any(|[depth, _]| *depth >= 3), "record of a context at depth 3 or more"),
            (behind_children, "record of a context behind another's children"),
            (first_parent != 0, "record of a context whose parent is not listed"),
            (further_up.is_some_and(|[_, parent]| *parent != 0), "records of two depths whose parents are not listed"),
        ]);
    }

    fn add_walk_from(&mut self, question: &Question, file: &[u8], reply: &Reply) {
        let given = Path::of_mark(question.mark.bytes());
        match (reply.code, meta::sections_of(file).is_ok(), &given) {
            (MARK, _, Ok(_)) => self.add_kind("mark of no context"),
            (MARK, _, Err(_)) => self.add_kind("malformed mark"),
            (ROOM, false, _) => self.add_kind("refused 17 of a file that does not open"),
            (ROOM, true, _) if question.byte_room + 1 == MARK_ROOM => {
                self.add_kind("refused 17 for one byte of a mark")
            }
            (_, false, Err(_)) => self.add_kind("malformed mark of a file that does not open"),
            (code, true, Ok(Path(given))) if question.numbers[0] != 0 => match new_mark(question, reply) {
                Some(new) => self.add_handed_out(given, &new, code, reply.memory.out.body()[0]),
                None => self.add_unpassed(code),
            },
            _ => {}
        }
    }

    fn add_unpassed(&mut self, code: u32) {
        match code {
            7 => self.add_kind("refused 7 without passing the mark"),
            9 => self.add_kind("refused 9 without passing the mark"),
            10 => self.add_kind("refused 10 without passing the mark"),
            12 => self.add_kind("refused 12 without passing the mark"),
            13 => self.add_kind("refused 13 without passing the mark"),
            14 => self.add_kind("refused 14 without passing the mark"),
            _ => {}
        }
    }

    /// A mark that has no number is before the first root, and says nothing of its own.
    fn add_handed_out(&mut self, given: &[u32], new: &[u8], code: u32, listed: u64) {
        match (code, listed) {
            _ if given.is_empty() => {}
            (CUT, 0) => self.add_kind("cut right after the mark"),
            (ANSWERED, 0) => self.add_kind("whole right after the mark"),
            (_, 0) => self.add_kind("refused right after the mark"),
            _ => self.add_kind("contexts listed after the mark"),
        }
        match new[4] {
            0 => self.add_kind("mark of depth 0 handed out"),
            200 => self.add_kind("mark of depth 200 handed out"),
            _ => {}
        }
    }

    pub fn add_joined(&mut self, parts: &[usize], outcome: &Outcome) {
        self.add_kind(if parts.len() == 2 { "two joined parts" } else { "three joined parts or more" });
        if parts.contains(&0) {
            self.add_kind("joined parts, one with room for none");
        }
        if outcome.new_mark.is_none() {
            self.add_kind("joined parts, the first without a new mark");
        }
    }

    fn add_write(&mut self, question: &Question, entries: &[u8], reply: &Reply) {
        let lists = question.survey.lists(entries);
        match reply.code {
            ANSWERED => {
                self.add_written(&lists);
                if question.byte_room as u64 == reply.memory.out.body()[0] {
                    self.add_kind("written file in just enough room");
                }
            }
            ROOM if writer::length(&lists) == Ok(question.byte_room + 1) => self.add_kind("refused 17 for one byte"),
            INDEX if !lists.are_sorted() => self.add_kind("refused 15 with entries out of order"),
            ORDER if !lists.fit_their_counts() => self.add_kind("refused 11 with a tuple too long"),
            _ => {}
        }
    }

    fn add_written(&mut self, lists: &Lists) {
        let mut entries_of = vec![0; lists.profiles.len()];
        lists.entries().iter().for_each(|entry| entries_of[profile_of(entry) as usize] += 1);
        let mut profiles_of = vec![0; lists.tuples.len()];
        lists.profiles.iter().for_each(|tuple| profiles_of[*tuple as usize] += 1);
        self.add_kinds(&[
            (lists.profiles.is_empty(), "written file of no profile"),
            (entries_of.contains(&0), "written file with a profile of no entry"),
            (entries_of.iter().any(|entries| entries % 2 == 1), "written file with padding"),
            (profiles_of.contains(&0), "written file with a tuple of no profile"),
            (profiles_of.iter().any(|profiles| *profiles > 1), "written file with a tuple of several profiles"),
        ]);
    }

    fn add_hot_path(&mut self, question: &Question, file: &[u8], reply: &Reply) {
        if reply.code == ANSWERED {
            return self.add_found_path(question, file, reply);
        }
        let [mut listing, mut table] = [question.rooms[0], question.rooms[1]].map(|room| vec![0; room]);
        let end = walk(file, &mut listing, &mut table).end;
        let walk_refuses = matches!(end, End::Refused(_));
        let closed = profile::count(question.profiles.bytes()).is_err();
        let of_opening = (1..ARRAY).contains(&reply.code);
        let too_short = reply.code == ROOM && end == End::Whole;
        let one_word = too_short && places(question, file) == Ok(question.rooms[2] as u64 + 1);
        let cut = reply.code == ROOM && end == End::Cut;
        self.add_kinds(&[
            (of_opening && walk_refuses, "hot path refused 1 to 6 by its walk"),
            (of_opening && !walk_refuses, "hot path refused 1 to 6 for its profile.db"),
            (reply.code == ARRAY && walk_refuses, "hot path refused 7 by its walk"),
            (reply.code == ARRAY && !walk_refuses, "hot path refused 7 for its profile.db"),
            (walk_refuses && closed, "hot path refused by its walk before its profile.db"),
            (cut, "hot path refused 17 for a cut walk"),
            (cut && closed, "hot path refused 17 for a cut walk before its profile.db"),
            (too_short, "hot path refused 17 for its own words"),
            (one_word, "hot path refused 17 for one word"),
            (reply.code == NOT_FINITE && question.rooms[2] == 0, "hot path refused 16 without a word for it"),
        ]);
    }

    fn add_found_path(&mut self, question: &Question, file: &[u8], reply: &Reply) {
        let (places, room) = (reply.memory.out.body()[0] as usize, question.rooms[2]);
        self.add_kinds(&[
            (places == 0, "hot path of no context"),
            (places == 1, "hot path of one context"),
            (places == 2, "hot path of two contexts"),
            (places >= 3, "hot path of three contexts or more"),
            (places > 0 && places == room, "hot path in just enough room"),
            (places < room, "hot path with room for more"),
        ]);
        if let Some(way) = Way::of(question, file, &reply.memory.slices[2].body()[..places]) {
            self.add_kinds(&[
                (way.order_decides(), "hot path by the order of equal values"),
                (way.order_of_zeros_decides(), "hot path by the order of zeros of both signs"),
                (way.has_a_value_below_0(), "hot path with a value below 0"),
                (way.passes_what_is_not_finite(), "hot path beside a value that is not finite"),
                (way.ends_above_values(), "hot path that ends above values"),
                (way.passes_a_context_inside(file), "hot path past a context inside another's array"),
            ]);
        }
    }

    fn add_samples(&mut self, question: &Question, samples: &[u8], reply: &Reply) {
        let shape = Shape::of(samples);
        let sound = [ANSWERED, ABSENT, ROOM].contains(&reply.code);
        let (beside, differs) = (shape.disorder == shape.misfit, shape.has_other_totals());
        self.add_kinds(&[
            (sound && shape.chunks == 0, "samples of no chunk"),
            (sound && shape.touching, "samples with chunks that touch"),
            (reply.code == ARRAY && beside, "refused 7 of a chunk that is out of order too"),
            (reply.code == ARRAY && differs, "refused 7 with other totals"),
            (reply.code == ORDER && shape.misfit.is_some(), "refused 11 before a chunk that is refused 7"),
            (reply.code == ORDER && differs, "refused 11 with other totals"),
            (reply.code == TOTAL && shape.sum_rolls_over(), "refused 20 with a sum that is the same modulo 2^32"),
        ]);
        match question.function {
            DcpiLookup => self.add_offset(question.numbers[0], samples, reply),
            DcpiEntries => self.add_entries(question.byte_room, &shape, reply),
            _ => {}
        }
    }

    fn add_offset(&mut self, offset: u64, samples: &[u8], reply: &Reply) {
        let (count, low) = (reply.memory.out.body()[0], offset % (1 << 32));
        let absent = reply.code == ABSENT && low != offset;
        self.add_kinds(&[
            (reply.code == ANSWERED && count == 0, "count of 0 found"),
            (reply.code == ANSWERED && offset == u32::MAX.into(), "count at the last offset found"),
            (absent && matches!(dcpi::lookup(samples, low), Ok(Some(_))), "offset that has a count modulo 2^32"),
        ]);
    }

    fn add_entries(&mut self, lent: usize, shape: &Shape, reply: &Reply) {
        let needed = ENTRY * shape.not_zero as usize;
        let listed = reply.code == ANSWERED;
        self.add_kinds(&[
            (listed && lent == needed && needed > 0, "listed entries in just enough room"),
            (listed && lent > needed && lent < needed + ENTRY, "listed entries with a piece of one behind them"),
            (listed && lent >= needed + ENTRY, "listed entries with room for more"),
            (listed && needed == 0 && shape.chunks > 0, "no entry listed of samples with counts"),
            (reply.code == ROOM && lent + 1 == needed, "refused 17 for one byte of an entry"),
            (reply.code == TOTAL && lent < needed, "refused 20 with too few entries lent"),
        ]);
    }

    pub fn add_read_back(&mut self, entries: u64) {
        self.add_kinds(&[(entries > 0, "listed entries written and read back")]);
    }

    fn of(&self, row: &Row, code: u32) -> u64 {
        self.codes[row.function as usize][code as usize]
    }

    /// What occurred too seldom, and codes that a function cannot give.
    pub fn shortfalls(&self) -> Vec<String> {
        let mut found = Vec::new();
        for row in &FUNCTIONS {
            for code in 0..CODES as u32 {
                let count = self.of(row, code);
                let possible = can_give(row, code);
                if possible && count < LEAST || !possible && count > 0 {
                    found.push(format!("{} gave {code} {count} times", row.name));
                }
            }
        }
        for kind in KINDS {
            let count = self.kinds.get(kind).copied().unwrap_or_default();
            if count < LEAST {
                found.push(format!("{kind}: {count} times"));
            }
        }
        found
    }

    /// Cases of each function, in one line.
    pub fn line(&self) -> String {
        let counts = FUNCTIONS
            .iter()
            .map(|row| format!("{} {}", row.name, self.codes[row.function as usize].iter().sum::<u64>()));
        format!("{} cases, no difference: {}", self.cases, counts.collect::<Vec<_>>().join(", "))
    }

    /// A row for each function with its codes, a row for each code, and the kinds.
    pub fn table(&self) -> String {
        let mut table = String::new();
        let met = |count: &dyn Fn(u32) -> u64| {
            let counted = (0..CODES as u32).filter(|code| count(*code) > 0);
            counted.map(|code| format!("{}: {}", code_name(code), count(code))).collect::<Vec<_>>().join(", ")
        };
        for row in &FUNCTIONS {
            let _ = writeln!(table, "{}  {}", row.name, met(&|code| self.of(row, code)));
        }
        let _ = writeln!(table, "all  {}", met(&|code| FUNCTIONS.iter().map(|row| self.of(row, code)).sum()));
        for (kind, count) in &self.kinds {
            let _ = writeln!(table, "{kind}: {count}");
        }
        table
    }
}

/// How many places the path has that a question asks for, with room for any.
fn places(question: &Question, file: &[u8]) -> Result<u64, Refusal> {
    let [mut listing, mut table] = [question.rooms[0], question.rooms[1]].map(|room| vec![0; room]);
    let [profile, metric, _] = question.numbers;
    hot::hot_path(file, question.profiles.bytes(), [profile, metric], &mut listing, &mut table, &mut [0; DEEPEST])
}

/// The string that was handed back.
fn string<'a>(question: &Question, file: &'a [u8], reply: &Reply) -> Option<&'a [u8]> {
    let (place, length) = match (question.function, reply.memory.out.body()) {
        _ if reply.code != ANSWERED => return None,
        (MetaFunction, [0, place, length, ..]) => (place, length),
        (
            MetaTitle | MetaDescription | MetaIdName | MetaMetric | MetaScope | MetaSummary | MetaModule | MetaFile,
            [place, length, ..],
        ) => (place, length),
        _ => return None,
    };
    Some(&file[*place as usize..][..*length as usize])
}

/// Whether a sample of a sound trace.db has the timestamp of the sample before it.
fn repeats_the_one_before(specimen: &Specimen, line: u64, position: u64) -> bool {
    match &specimen.known {
        Known::Trace(known) if specimen.damage.is_empty() && position > 0 => {
            let (line, k) = (&known.lines[line as usize], position as usize);
            line[k] == line[k - 1]
        }
        _ => false,
    }
}

fn code_name(code: u32) -> String {
    match code {
        ANSWERED => "answered".to_owned(),
        ABSENT => "absent".to_owned(),
        CUT => "cut".to_owned(),
        refusal => refusal.to_string(),
    }
}

fn can_give(row: &Row, code: u32) -> bool {
    // the writer and the readers of samples open no file, and a trace.db has no footer
    let never = row.function == ProfileWrite
        || row.database == Database::Dcpi
        || code == FOOTER && row.database == Database::Trace;
    OPENING.contains(&code) && !never || row.codes.contains(&code)
}
