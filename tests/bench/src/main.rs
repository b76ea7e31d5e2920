//! Times libhpcdb.a against a reader in plain C and one in Rust, which make the same checks. Before a row is timed, its
//! questions are asked of all three and their answers compared.

mod damaged;
mod paths;
mod plain;
mod questions;
mod rows;
mod run;

use std::env;
use std::process::ExitCode;

use run::Run;

const USAGE: &str = "\
bench [WORD]             the table, or its rows whose names contain WORD
bench --compare [WORD]   no times: only the comparisons, and the plain C reader over damaged files";

fn main() -> ExitCode {
    let mut arguments = env::args().skip(1).peekable();
    let timed = arguments.next_if_eq("--compare").is_none();
    let wanted = arguments.next().unwrap_or_default();
    if wanted.starts_with('-') || arguments.next().is_some() {
        eprintln!("{USAGE}");
        return ExitCode::from(2);
    }
    let mut run = Run::new(timed, wanted);
    for group in [
        rows::walks,
        rows::single_lookups,
        rows::batch_lookups,
        rows::hot_paths,
        rows::openings,
        rows::small_answers,
        rows::paths,
        rows::writes,
        rows::samples,
    ] {
        group(&mut run);
    }
    if run.rows == 0 {
        eprintln!("no row has such a name");
        return ExitCode::from(2);
    }
    if !timed {
        println!("{} rows, {} questions: library, plain C and Rust reader agree", run.rows, run.questions);
        println!("damaged files, {} questions: plain C and Rust reader agree", damaged::compare());
    }
    ExitCode::SUCCESS
}
