//! The reader over the repository's stored cases: it is to print what stands in each `stdout`. So are the writer and
//! the library over the lists, and the library over the marks, the hot paths and DCPI samples.

use std::fmt::Write as _;
use std::fs;
use std::path::PathBuf;

use differential::reader::walk::{End, RECORD_WORDS};
use differential::reader::{cct, meta, profile, trace, walk, Refusal, Span, Text};
use differential::writer::Lists;
use differential::{by_reader, ffi};

fn directory(cases: &str) -> PathBuf {
    [env!("CARGO_MANIFEST_DIR"), "..", "..", "crates", cases].iter().collect()
}

fn data(cases: &str, name: &str) -> Vec<u8> {
    let path = directory(cases).join("data").join(name);
    fs::read(&path).unwrap_or_else(|error| panic!("{}: {error}", path.display()))
}

fn list(cases: &str) -> Vec<String> {
    let text = String::from_utf8(data(cases, "list")).expect("the list is text");
    text.lines().map(str::to_owned).collect()
}

/// Compares line by line, so that a difference is named.
fn assert_prints(cases: &str, printed: &[u8]) {
    let stored = fs::read(directory(cases).join("stdout")).expect("stdout is there");
    let lines = |bytes: &[u8]| {
        bytes.split(|b| *b == b'\n').map(|l| String::from_utf8_lossy(l).into_owned()).collect::<Vec<_>>()
    };
    let (stored, printed) = (lines(&stored), lines(printed));
    for (number, (stored, printed)) in stored.iter().zip(&printed).enumerate() {
        assert_eq!(stored, printed, "{cases}, line {}", number + 1);
    }
    assert_eq!(stored.len(), printed.len(), "{cases}: lines");
}

fn numbered<T>(answer: Result<T, Refusal>, refused: T) -> (u32, T) {
    match answer {
        Ok(value) => (0, value),
        Err(refusal) => (refusal.number(), refused),
    }
}

#[test]
fn opening() {
    let mut printed = String::new();
    for name in list("open_cases") {
        let file = data("open_cases", &name);
        let none = [Span::default(); 8];
        let of = |n: usize, answer: Result<Vec<Span>, Refusal>| numbered(answer, none[..n].to_vec());
        let (number, sections) = match name.split('-').next() {
            Some("meta") => of(8, meta::sections_of(&file).map(Into::into)),
            Some("profile") => of(2, profile::sections_of(&file).map(Into::into)),
            Some("cct") => of(1, cct::sections_of(&file).map(Into::into)),
            _ => of(1, trace::sections_of(&file).map(Into::into)),
        };
        write!(printed, "{name} {number}").expect("a String takes it");
        for section in sections {
            write!(printed, "  {} {}", section.start, section.size()).expect("a String takes it");
        }
        printed.push('\n');
    }
    assert_prints("open_cases", printed.as_bytes());
}

/// A line of words, a code and numbers, and the bytes of a string; of a refusal the numbers are 0 and there are no
/// bytes.
fn line(out: &mut Vec<u8>, words: &str, code: u32, numbers: &[u64], text: &[u8]) {
    let numbers: String = numbers.iter().map(|n| format!(" {n}")).collect();
    out.extend_from_slice(format!("{words} {code}{numbers} ").as_bytes());
    out.extend_from_slice(text);
    out.push(b'\n');
}

struct Show<'a> {
    file: &'a [u8],
    out: Vec<u8>,
}

impl Show<'_> {
    fn answer<const N: usize>(&mut self, words: &str, answer: Result<([u64; N], Text), Refusal>) {
        match answer {
            Ok((numbers, text)) => {
                line(&mut self.out, words, 0, &numbers, &self.file[text.place..text.place + text.length])
            }
            Err(refusal) => line(&mut self.out, words, refusal.number(), &[0; N], b""),
        }
    }

    fn function(&mut self, i: u64) {
        let words = format!("function {i}");
        match meta::function(self.file, i) {
            Ok(f) => {
                let (which, name) =
                    f.name.map_or((100, &b"\xff"[..]), |t| (0, &self.file[t.place..t.place + t.length]));
                line(&mut self.out, &words, 0, &[f.module, f.offset, f.file, f.line.into(), which], name);
            }
            Err(refusal) => line(&mut self.out, &words, refusal.number(), &[0, 0, 0, 0, refusal.number().into()], b""),
        }
    }

    fn metrics(&mut self, count: u64) {
        for i in 0..=count {
            let metric = meta::metric(self.file, i);
            let scopes = metric.as_ref().map_or(0, |m| m.scopes);
            self.answer(&format!("metric {i}"), metric.map(|m| ([m.scopes], m.name)));
            for j in 0..=scopes {
                let scope = meta::scope(self.file, i, j);
                let summaries = scope.as_ref().map_or(0, |s| s.summaries);
                self.answer(&format!("scope {i} {j}"), scope.map(|s| ([s.summaries, s.prop_metric_id.into()], s.name)));
                for k in 0..=summaries {
                    let summary = meta::summary(self.file, i, j, k);
                    let numbers = summary.map(|s| ([s.combine.into(), s.stat_metric_id.into()], s.formula));
                    self.answer(&format!("summary {i} {j} {k}"), numbers);
                }
            }
        }
    }

    fn all(&mut self) {
        self.answer("title", meta::title(self.file).map(|t| ([], t)));
        self.answer("description", meta::description(self.file).map(|t| ([], t)));
        let (code, [kinds, metrics, modules, files, functions]) = numbered(meta::counts(self.file), [0; 5]);
        let counts = format!("counts {code} {kinds} {metrics} {modules} {files} {functions}\n");
        self.out.extend_from_slice(counts.as_bytes());
        for i in 0..=kinds {
            self.answer(&format!("kind {i}"), meta::id_name(self.file, i).map(|t| ([], t)));
        }
        for i in 0..=modules {
            self.answer(&format!("module {i}"), meta::module(self.file, i).map(|t| ([], t)));
        }
        for i in 0..=files {
            self.answer(&format!("source {i}"), meta::source_file(self.file, i).map(|f| ([f.copied.into()], f.path)));
        }
        for i in 0..=functions {
            self.function(i);
        }
        self.metrics(metrics);
    }
}

#[test]
fn all_of_meta_but_contexts() {
    let mut printed = Vec::new();
    for name in list("meta_cases") {
        let file = data("meta_cases", &name);
        let mut show = Show { file: &file, out: format!("file {name}\n").into_bytes() };
        show.all();
        printed.extend(show.out);
    }
    assert_prints("meta_cases", &printed);
}

/// Longer files are not read by the program that printed the stored lines.
const LIMIT: usize = 32768;

/// No place in a file of the limit's length: a word that a walk left as it was.
const UNTOUCHED: u64 = u64::MAX;

fn shown_walk(file: &[u8], room: usize, slots: usize) -> String {
    if file.len() > LIMIT {
        return "too long\n".to_owned();
    }
    let (mut listing, mut table) = (vec![UNTOUCHED; room], vec![UNTOUCHED; slots]);
    let mut records = vec![UNTOUCHED; room * RECORD_WORDS];
    let walked = walk::records(file, &mut listing, &mut table, &mut records);
    let rows = &records.as_chunks::<RECORD_WORDS>().0[..walked.listed];
    let mut out = "place depth id type relation parent\n".to_owned();
    for (row, place) in rows.iter().zip(&listing) {
        let [own_place, depth, id, relation, lexical_type, .., parent] = row;
        assert_eq!(own_place, place);
        writeln!(out, "{place} {depth} {id} {lexical_type} {relation} {parent}").expect("a String takes it");
    }
    let end = match walked.end {
        End::Whole => "whole".to_owned(),
        End::Cut => "cut".to_owned(),
        End::Refused(refusal) => format!("refused {}", refusal.number()),
    };
    writeln!(out, "{end} {}", walked.listed).expect("a String takes it");
    for [place, _, _, _, _, flex @ .., _] in rows.iter().filter(|row| row[5] != 0) {
        let flex: String = flex.iter().map(|n| format!(" {n}")).collect();
        writeln!(out, "flex {place}{flex}").expect("a String takes it");
    }
    if meta::sections_of(file).is_err() {
        assert!(table.iter().all(|slot| *slot == UNTOUCHED));
        return out + "table untouched\n";
    }
    let taken = table.iter().enumerate().filter(|(_, place)| **place != 0);
    let taken: String = taken.map(|(id, place)| format!(" {id} {place}")).collect();
    out + &format!("table{taken}\n")
}

#[test]
fn walks() {
    let mut printed = String::new();
    for line in list("walk_cases") {
        let words: Vec<&str> = line.split(' ').collect();
        let number = |k: usize| words[k].parse().expect("the list has numbers");
        printed += &format!("== {line}\n{}", shown_walk(&data("walk_cases", words[0]), number(1), number(2)));
    }
    assert_prints("walk_cases", printed.as_bytes());
}

type WalkFrom = fn(&[u8], &[u8], u64, &mut [u64], &mut [u64], &mut [u64], &mut [u8], &mut [u64; 1]) -> u32;

/// What lent words and bytes hold before a walk from a mark.
const BEFORE: u64 = 7;
const BYTE_BEFORE: u8 = 255;

/// Every word, and the bytes for the new mark up to the last that is not as it was.
fn shown_walk_from(walk_from: WalkFrom, file: &[u8], mark: &[u8], asks: u64, rooms: [usize; 4]) -> String {
    let [mut listing, mut table, mut records] = [rooms[0], rooms[1], rooms[2]].map(|room| vec![BEFORE; room]);
    let (mut new_mark, mut out) = (vec![BYTE_BEFORE; rooms[3]], [0]);
    let code = walk_from(file, mark, asks, &mut listing, &mut table, &mut records, &mut new_mark, &mut out);
    let end = match code {
        by_reader::ANSWERED => "whole".to_owned(),
        by_reader::CUT => "cut".to_owned(),
        refusal => format!("refused {refusal}"),
    };
    let mut shown = format!("{end} {}\n", out[0]);
    for (name, words) in [("listing", listing), ("table", table), ("records", records)] {
        let words: String = words.iter().map(|word| format!(" {word}")).collect();
        writeln!(shown, "{name}{words}").expect("a String takes it");
    }
    let changed = new_mark.iter().rposition(|byte| *byte != BYTE_BEFORE).map_or(0, |last| last + 1);
    let changed: String = new_mark[..changed].iter().map(|byte| format!("{byte:02x}")).collect();
    shown + &format!("mark {changed}\n")
}

fn assert_goes_on(walk_from: WalkFrom) {
    let mut printed = String::new();
    for line in list("mark_cases") {
        let words: Vec<&str> = line.split(' ').collect();
        let number = |k: usize| words[k].parse().expect("the list has numbers");
        let [file, mark] = [words[0], words[1]].map(|name| data("mark_cases", name));
        let shown = shown_walk_from(walk_from, &file, &mark, number(2) as u64, [3, 4, 5, 6].map(number));
        printed += &format!("== {line}\n{shown}");
    }
    assert_prints("mark_cases", printed.as_bytes());
}

#[test]
fn marks_by_the_reader() {
    assert_goes_on(by_reader::hpcdb_meta_walk_from);
}

#[test]
fn marks_by_the_library() {
    assert_goes_on(ffi::hpcdb_meta_walk_from);
}

type HotPath = fn(&[u8], &[u8], u64, u64, &mut [u64], &mut [u64], &mut [u64], &mut [u64; 1]) -> u32;

/// Every word of the path, the listing and the table.
fn shown_hot_path(hot_path: HotPath, words: &[&str]) -> String {
    let [file, profiles] = [words[0], words[1]].map(|name| data("hot_cases", name));
    let [profile, metric] = [words[2], words[3]].map(|number| number.parse().expect("the list has numbers"));
    let [mut listing, mut table, mut hot] =
        [words[4], words[5], words[6]].map(|room| vec![BEFORE; room.parse().expect("the list has numbers")]);
    let mut out = [BEFORE];
    let code = hot_path(&file, &profiles, profile, metric, &mut listing, &mut table, &mut hot, &mut out);
    assert!(code == by_reader::ANSWERED || out == [BEFORE], "{words:?}: refused, and out is written");
    let mut shown = shown_answer(code, "path", &out) + "\n";
    for (name, words) in [("hot", hot), ("listing", listing), ("table", table)] {
        let words: String = words.iter().map(|word| format!(" {word}")).collect();
        writeln!(shown, "{name}{words}").expect("a String takes it");
    }
    shown
}

fn assert_finds(hot_path: HotPath) {
    let mut printed = String::new();
    for line in list("hot_cases") {
        let words: Vec<&str> = line.split(' ').collect();
        printed += &format!("== {line}\n{}", shown_hot_path(hot_path, &words));
    }
    assert_prints("hot_cases", printed.as_bytes());
}

#[test]
fn hot_paths_by_the_reader() {
    assert_finds(by_reader::hpcdb_hot_path);
}

#[test]
fn hot_paths_by_the_library() {
    assert_finds(ffi::hpcdb_hot_path);
}

fn shown_lookup(answer: Result<Option<u64>, Refusal>) -> String {
    match answer {
        Ok(Some(bits)) => format!("found {bits}"),
        Ok(None) => "absent".to_owned(),
        Err(refusal) => format!("refused {}", refusal.number()),
    }
}

fn shown_totals(file: &[u8], context: u64, metric: u64) -> String {
    match cct::totals(file, context, metric) {
        Ok(Some(t)) => {
            let extremes = [t.smallest, t.greatest].map(|e| format!("{} {}", e.profile, e.value.to_bits())).join(" ");
            format!("totals {} {extremes} {}", t.count, t.sum.to_bits())
        }
        Ok(None) => "absent".to_owned(),
        Err(refusal) => format!("refused {}", refusal.number()),
    }
}

#[test]
fn blocks() {
    let mut printed = String::new();
    for line in list("block_cases") {
        let words: Vec<&str> = line.split(' ').collect();
        let file = data("block_cases", words[1]);
        let number = |k: usize| words[k].parse().expect("the list has numbers");
        let (a, b, c) = (number(2), number(3), number(4));
        let answer = match words[0] {
            "profile" => shown_lookup(profile::lookup(&file, a, b, c)),
            "cct" => shown_lookup(cct::lookup(&file, a, b, c)),
            _ => shown_totals(&file, a, b),
        };
        printed += &format!("{line} {answer}\n");
    }
    assert_prints("block_cases", printed.as_bytes());
}

fn shown_sample(answer: Result<Option<(u64, trace::Sample)>, Refusal>) -> Result<String, Refusal> {
    let shown = |(k, s): (u64, trace::Sample)| format!("sample {k} {} {}", s.timestamp, s.ctx_id);
    Ok(answer?.map_or("absent".to_owned(), shown))
}

fn shown_identifier(file: &[u8], profile: u64, k: u64) -> Result<String, Refusal> {
    let id = profile::identifier(file, profile, k)?;
    Ok(format!("identifier {} {} {} {}", id.kind, id.flags, id.logical_id, id.physical_id))
}

#[test]
fn counts_tuples_and_trace_lines() {
    let mut printed = String::new();
    for line in list("record_cases") {
        let words: Vec<&str> = line.split(' ').collect();
        let file = data("record_cases", words[1]);
        let number = |k: usize| words[k].parse().expect("the list has numbers");
        let (a, b) = (number(2), number(3));
        let answer = match words[0] {
            "profiles" => profile::count(&file).map(|n| format!("count {n}")),
            "contexts" => cct::count(&file).map(|n| format!("count {n}")),
            "lines" => trace::count(&file).map(|n| format!("count {n}")),
            "tuple" => profile::tuple(&file, a).map(|n| format!("tuple {n}")),
            "identifier" => shown_identifier(&file, a, b),
            "header" => trace::line(&file, a).map(|line| format!("line {} {}", line.prof_idx, line.samples)),
            "sample" => shown_sample(trace::sample(&file, a, b).map(|sample| Some((b, sample)))),
            _ => shown_sample(trace::at(&file, a, b)),
        };
        let answer = answer.unwrap_or_else(|refusal| format!("refused {}", refusal.number()));
        printed += &format!("{line} {answer}\n");
    }
    assert_prints("record_cases", printed.as_bytes());
}

fn numbers(line: &str) -> Vec<u64> {
    line.split_terminator(' ').map(|word| word.parse().expect("the list has numbers")).collect()
}

type Write = fn(&Lists, &mut [u8], &mut [u64; 1]) -> u32;

/// What is written into so many bytes, which are 255 before, row by row but for rows of zeros.
fn shown_write(write: Write, lists: &Lists, room: usize) -> String {
    let (mut file, mut out) = (vec![255; room], [0]);
    let mut shown = match write(lists, &mut file, &mut out) {
        0 => format!("written {}\n", out[0]),
        refusal => format!("refused {refusal}\n"),
    };
    for (k, row) in file.chunks(32).enumerate().filter(|(_, row)| row.iter().any(|byte| *byte != 0)) {
        let row: String = row.iter().map(|byte| format!("{byte:02x}")).collect();
        writeln!(shown, "{} {row}", 32 * k).expect("a String takes it");
    }
    shown
}

fn assert_writes(write: Write) {
    let mut printed = String::new();
    for case in list("write_cases").chunks(3) {
        let words: Vec<&str> = case[0].split(' ').collect();
        let number = |k: usize| words[k].parse().expect("the list has numbers");
        let (lent, room) = (number(1), number(3));
        // behind the file's own bytes identifications are 0
        let mut identifiers = data("write_cases", words[0]);
        identifiers.resize(lent, 0);
        let (profiles, tuples, entries) = (numbers(&case[1]), numbers(&case[2]), data("write_cases", words[2]));
        let lists = Lists { profiles: &profiles, tuples: &tuples, identifiers: &identifiers, entries: &entries };
        printed += &format!("== {}\n{}", case.join("\n"), shown_write(write, &lists, room));
    }
    assert_prints("write_cases", printed.as_bytes());
}

#[test]
fn files_by_the_writer() {
    assert_writes(by_reader::hpcdb_profile_write);
}

#[test]
fn files_by_the_library() {
    assert_writes(ffi::hpcdb_profile_write);
}

type Entries = fn(&[u8], u32, u16, &mut [u8], &mut [u64; 1]) -> u32;

/// The functions of samples, of the reader or of the library.
struct Samples {
    totals: fn(&[u8], &mut [u64; 2]) -> u32,
    lookup: fn(&[u8], u64, &mut [u64; 1]) -> u32,
    entries: Entries,
}

/// A word for each code, and the numbers of an answer.
fn shown_answer(code: u32, answered: &str, numbers: &[u64]) -> String {
    match code {
        by_reader::ANSWERED => numbers.iter().fold(answered.to_owned(), |shown, number| format!("{shown} {number}")),
        by_reader::ABSENT => "absent".to_owned(),
        refusal => format!("refused {refusal}"),
    }
}

/// The answer, and all of the bytes lent for entries, which are 255 before, by rows of an entry each.
fn shown_entries(side: &Samples, samples: &[u8], profile: u32, metric: u16, lent: usize) -> String {
    let (mut entries, mut out) = (vec![BYTE_BEFORE; lent], [0]);
    let code = (side.entries)(samples, profile, metric, &mut entries, &mut out);
    let mut shown = shown_answer(code, "listed", &out);
    for (k, row) in entries.chunks(24).enumerate() {
        let row: String = row.iter().map(|byte| format!("{byte:02x}")).collect();
        write!(shown, "\n{} {row}", 24 * k).expect("a String takes it");
    }
    shown
}

fn shown_samples(side: &Samples, words: &[&str]) -> String {
    let samples = data("dcpi_cases", words[0]);
    let number = |k: usize| words[k].parse::<u64>().expect("the list has numbers");
    match words[1] {
        "totals" => {
            let mut out = [0; 2];
            shown_answer((side.totals)(&samples, &mut out), "totals", &out)
        }
        "lookup" => {
            let mut out = [0];
            shown_answer((side.lookup)(&samples, number(2), &mut out), "found", &out)
        }
        "entries" => {
            let profile = u32::try_from(number(2)).expect("a profile has 32 bits");
            let metric = u16::try_from(number(3)).expect("a metric has 16 bits");
            shown_entries(side, &samples, profile, metric, number(4) as usize)
        }
        other => panic!("dcpi_cases: {other} is no question"),
    }
}

fn assert_samples(side: &Samples) {
    let lines = list("dcpi_cases");
    assert!(!lines.is_empty(), "dcpi_cases: there are none");
    let shown = |line: &String| {
        let words: Vec<&str> = line.split(' ').collect();
        format!("== {line}\n{}\n", shown_samples(side, &words))
    };
    assert_prints("dcpi_cases", lines.iter().map(shown).collect::<String>().as_bytes());
}

#[test]
fn samples_by_the_reader() {
    assert_samples(&Samples {
        totals: by_reader::hpcdb_dcpi_totals,
        lookup: by_reader::hpcdb_dcpi_lookup,
        entries: by_reader::hpcdb_dcpi_entries,
    });
}

#[test]
fn samples_by_the_library() {
    assert_samples(&Samples {
        totals: ffi::hpcdb_dcpi_totals,
        lookup: ffi::hpcdb_dcpi_lookup,
        entries: ffi::hpcdb_dcpi_entries,
    });
}
