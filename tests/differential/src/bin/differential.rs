//! Compares libhpcdb.a with the reader over generated files and with the writer over generated lists. Ends with 1 at
//! the first difference, or if the run met too little.

use std::env;
use std::fs::{self, File};
use std::io;
use std::os::unix::fs::FileExt;
use std::path::{Path, PathBuf};
use std::process::ExitCode;

use differential::by_reader::ANSWERED;
use differential::compare::{compare, Reply};
use differential::gen::{follow_ups, parts, questions, specimen, Known, Rng, Specimen};
use differential::joined::{self, Outcome};
use differential::lent::LentFile;
use differential::question::{Function, Question, Survey};
use differential::read_back::{self, Expected};
use differential::reader::walk::MARK_ROOM;
use differential::tally::Tally;
use differential::writer::ENTRY;

const SEED: u64 = 20_260_401;
const CASES: u64 = 2_400_000;

/// Files are written from listed entries of the profiles below it.
const PROFILES: u64 = 8;

const USAGE: &str = "\
differential [--seed S] [--cases N] [--counts]   compare over generated files; --counts shows what the run met
differential [--seed S] --file F                 make file F of the run again and show each question before it is asked

A file with a difference, or the entries of lists, is kept as failing.db in the directory that cargo builds in, and the
profile.db of a hot path as failing-profile.db. If the library ends the process, current-file in that directory has the
number F.";

struct Options {
    seed: u64,
    cases: u64,
    counts: bool,
    only_file: Option<u64>,
}

fn options(mut arguments: impl Iterator<Item = String>) -> Option<Options> {
    let mut options = Options { seed: SEED, cases: CASES, counts: false, only_file: None };
    while let Some(argument) = arguments.next() {
        let mut number = || arguments.next().and_then(|text| text.parse().ok());
        match argument.as_str() {
            "--seed" => options.seed = number()?,
            "--cases" => options.cases = number()?,
            "--file" => options.only_file = Some(number()?),
            "--counts" => options.counts = true,
            _ => return None,
        }
    }
    Some(options)
}

fn main() -> ExitCode {
    let Some(options) = options(env::args().skip(1)) else {
        eprintln!("{USAGE}");
        return ExitCode::from(2);
    };
    let mut tally = Tally::new();
    let result = match options.only_file {
        Some(number) => run_file(options.seed, number, &mut tally, true),
        None => run(&options, &mut tally),
    };
    if let Err(failure) = result {
        println!("{failure}");
        return ExitCode::FAILURE;
    }
    if options.counts {
        print!("{}", tally.table());
    }
    println!("seed {}: {}", options.seed, tally.line());
    // a run that is shorter says nothing of the generator
    let full = options.only_file.is_none() && options.cases >= CASES;
    let shortfalls = if full { tally.shortfalls() } else { Vec::new() };
    for shortfall in &shortfalls {
        println!("not what a run has to meet: {shortfall}");
    }
    if shortfalls.is_empty() {
        ExitCode::SUCCESS
    } else {
        ExitCode::FAILURE
    }
}

fn run(options: &Options, tally: &mut Tally) -> Result<(), String> {
    // without it the run is the same; it only helps if the library ends the process
    let current = build_directory().and_then(|directory| File::create(directory.join("current-file"))).ok();
    let mut number = 0;
    while tally.cases < options.cases {
        if let Some(current) = &current {
            current.write_all_at(format!("{number:020}\n").as_bytes(), 0).map_err(|error| error.to_string())?;
        }
        run_file(options.seed, number, tally, false)?;
        number += 1;
    }
    Ok(())
}

/// Asks all questions of one file; `aloud` shows them.
fn run_file(seed: u64, number: u64, tally: &mut Tally, aloud: bool) -> Result<(), String> {
    let mut rng = Rng::of_file(seed, number);
    let specimen = specimen(&mut rng);
    if specimen.damage.is_empty() && !specimen.is_sound() {
        return Err(format!("file {number} of seed {seed} has no damage and is refused: the generator is at fault"));
    }
    tally.add_file(&specimen);
    let first = questions(&mut rng, &specimen);
    let file = LentFile::new(specimen.bytes.clone(), rng.below(8), rng.pick(&[0, b'b', 0xa5, 0xff]));
    if aloud {
        println!("file {number}: {}", described(&specimen));
    }
    let mut run = FileRun { seed, number, specimen: &specimen, file: &file, tally, aloud };
    first.iter().try_for_each(|question| run.ask_on(&mut rng, question))
}

/// The run of one file.
struct FileRun<'a> {
    seed: u64,
    number: u64,
    specimen: &'a Specimen,
    file: &'a LentFile,
    tally: &'a mut Tally,
    aloud: bool,
}

impl FileRun<'_> {
    /// Asks a question of the file, or of one that was written.
    fn ask(&mut self, question: &Question, file: &LentFile) -> Result<Reply, String> {
        if self.aloud {
            println!("{}", shown(question));
        }
        let reply = compare(question, file).map_err(|difference| {
            let (seed, number) = (self.seed, self.number);
            let what = format!("case {} of seed {seed}, file {number}: {}", self.tally.cases, described(self.specimen));
            format!(
                "difference in {what}\n{}\n{difference}again: differential --seed {seed} --file {number}",
                shown(question)
            )
        })?;
        self.tally.add_case(question, self.specimen, file.bytes(), &reply);
        Ok(reply)
    }

    /// Asks a question of the file, and what follows from the answer.
    fn ask_on(&mut self, rng: &mut Rng, question: &Question) -> Result<(), String> {
        let (file, number) = (self.file, self.number);
        let reply = self.ask(question, file)?;
        if rng.one_in(2) {
            let then = follow_ups(question, reply.code, reply.memory.out.body());
            then.iter().try_for_each(|question| self.ask(question, file).map(drop))?;
        }
        let failed = |what: &str, failure| format!("{failure}\nin {what} file {number}, {}", shown(question));
        match question.function {
            Function::ProfileWrite if reply.code == ANSWERED => {
                let expected = read_back::questions(&question.survey.lists(file.bytes()));
                let failed = |failure| failed("what was written by", failure);
                ask_written(&expected, &reply, |question, file| self.ask(question, file)).map_err(failed)?;
            }
            Function::DcpiEntries if reply.code == ANSWERED && question.numbers[0] < PROFILES && rng.one_in(2) => {
                let failed = |failure| failed("entries of", failure);
                ask_listed(question, file.bytes(), &reply, |question, file| self.ask(question, file))
                    .map_err(failed)?;
                self.tally.add_read_back(reply.memory.out.body()[0]);
            }
            Function::MetaWalkFrom if hands_out_a_mark(question) && rng.one_in(4) => {
                let parts = parts(rng, question.rooms[0]);
                let failed = |failure| failed(&format!("parts {parts:?} of"), failure);
                let outcome = ask_parts(question, &parts, |question| self.ask(question, file)).map_err(failed)?;
                self.tally.add_joined(&parts, &outcome);
            }
            _ => {}
        }
        Ok(())
    }
}

/// A walk from a mark, unless something else is refused.
fn hands_out_a_mark(question: &Question) -> bool {
    question.numbers[0] != 0 && question.byte_room >= MARK_ROOM
}

/// Asks for a walk in parts and in one: library and reader agree, and the parts joined are the one walk.
fn ask_parts(
    question: &Question,
    parts: &[usize],
    mut ask: impl FnMut(&Question) -> Result<Reply, String>,
) -> Result<Outcome, String> {
    let joined = joined::outcome(question, parts, &mut ask)?;
    let one = joined::outcome(question, &[parts.iter().sum()], &mut ask)?;
    if joined != one {
        return Err(format!("the parts give {joined:?}, one walk {one:?}"));
    }
    Ok(joined)
}

/// Reads a written file back: library and reader agree, and they say what they must.
fn ask_written(
    expected: &[Expected],
    reply: &Reply,
    mut ask: impl FnMut(&Question, &LentFile) -> Result<Reply, String>,
) -> Result<(), String> {
    let length = reply.memory.out.body()[0] as usize;
    let written = LentFile::new(reply.memory.bytes.body()[..length].to_vec(), 0, 0);
    for expected in expected {
        if !expected.is_given_by(&ask(&expected.question, &written)?) {
            return Err(format!("what it was written from has another answer to {}", shown(&expected.question)));
        }
    }
    Ok(())
}

/// Writes a file from entries that were listed, and reads it back.
fn ask_listed(
    question: &Question,
    samples: &[u8],
    reply: &Reply,
    mut ask: impl FnMut(&Question, &LentFile) -> Result<Reply, String>,
) -> Result<(), String> {
    let [profile, metric, _] = question.numbers;
    let number = reply.memory.out.body()[0] as usize;
    let entries = LentFile::new(reply.memory.bytes.body()[..ENTRY * number].to_vec(), 0, 0);
    let written = ask(&read_back::write_of_listed(profile, number), &entries)?;
    if written.code != ANSWERED {
        return Err(format!("the writer refuses them by {}", written.code));
    }
    ask_written(&read_back::questions_of_listed(samples, profile, metric), &written, ask)
}

/// Keeps the file for a closer look.
fn described(specimen: &Specimen) -> String {
    let kept = kept("failing.db", &specimen.bytes);
    let what = if let Known::Lists(_) = specimen.known { "entries for a " } else { "" };
    let (database, length) = (specimen.database, specimen.bytes.len());
    format!("{what}{database:?} of {length} bytes, damage {:?}, kept in {kept}", specimen.damage)
}

fn shown(question: &Question) -> String {
    let row = question.function.row();
    let lent = format!("words lent {:?}, bytes lent {}", question.rooms, question.byte_room);
    if question.function == Function::ProfileWrite {
        let Survey { profiles, tuples, identifiers } = &question.survey;
        return format!("{} {lent}, {profiles:?}, {tuples:?}, {} bytes of identifiers", row.name, identifiers.len());
    }
    let read = match question.function {
        Function::MetaWalkFrom => format!("mark {:?}", question.mark.bytes()),
        Function::HotPath => format!("profile.db kept in {}", kept("asked-profile.db", question.profiles.bytes())),
        _ => format!("pairs {:?}", question.pairs),
    };
    format!("{} {:?}, {lent}, {read}", row.name, &question.numbers[..row.numbers])
}

/// Where bytes were kept.
fn kept(name: &str, bytes: &[u8]) -> String {
    let keep = || -> io::Result<PathBuf> {
        let path = build_directory()?.join(name);
        fs::write(&path, bytes)?;
        Ok(path)
    };
    keep().map_or_else(|error| format!("nowhere ({error})"), |path| path.display().to_string())
}

/// The directory cargo builds in: this program lies in a directory of it that has the profile's name.
fn build_directory() -> io::Result<PathBuf> {
    let program = env::current_exe()?;
    program.ancestors().nth(2).map(Path::to_owned).ok_or_else(|| io::Error::from(io::ErrorKind::NotFound))
}
