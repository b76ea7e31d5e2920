//! A run of the benchmark: row by row, the three sides are compared and then timed, by turns. The table is printed as
//! it grows.

use std::fmt::Debug;
use std::hint::black_box;
use std::slice;
use std::time::{Duration, Instant};

/// Timed turns of each side; one that is not timed comes before them.
const TURNS: usize = 31;

#[derive(Clone, Copy, Debug)]
pub enum Side {
    Library,
    PlainC,
    RustReader,
}

const SIDES: [Side; 3] = [Side::Library, Side::PlainC, Side::RustReader];

/// A row of the table: one function, asked of each side with each of the questions; it writes to what it is lent. The
/// compiler cannot carry anything over from one call to the next.
macro_rules! row {
    ($run:expr, $what:expr, $questions:expr, $lent:expr,
        |$question:pat_param, $memory:ident| $function:ident($($argument:expr),* $(,)?)) => {
        $run.row($what, $questions, $lent, |side, questions, $memory| match side {
            $crate::run::Side::Library => {
                row!(@asked questions, $memory, $question, differential::ffi::$function, $($argument),*)
            }
            $crate::run::Side::PlainC => {
                row!(@asked questions, $memory, $question, $crate::plain::$function, $($argument),*)
            }
            $crate::run::Side::RustReader => {
                row!(@asked questions, $memory, $question, differential::by_reader::$function, $($argument),*)
            }
        })
    };
    (@asked $questions:ident, $memory:ident, $question:pat_param, $function:path, $($argument:expr),*) => {
        $questions.iter().fold(0, |codes, $question| {
            let $memory = &mut *$memory;
            codes | $function($(std::hint::black_box($argument)),*)
        })
    };
}
pub(crate) use row;

pub struct Run {
    timed: bool,
    wanted: String,
    /// how many rows there were so far
    pub rows: usize,
    /// and how many questions they had
    pub questions: usize,
}

impl Run {
    /// Of the rows whose names contain `wanted`; they are only compared if the run is not `timed`.
    pub fn new(timed: bool, wanted: String) -> Run {
        if timed {
            println!(
                "Time of one call of the library, and its ratio to the time of the other readers: of each time the"
            );
            println!("median of {TURNS} turns, and the ratio of the medians.\n");
            println!("| what | library | / plain C | / Rust reader |");
            println!("|---|---:|---:|---:|");
        }
        Run { timed, wanted, rows: 0, questions: 0 }
    }

    /// `ask` asks the questions of a side, one after the other, and gives their codes, joined.
    pub fn row<Q: Debug, M: Clone + PartialEq>(
        &mut self,
        what: &str,
        questions: &[Q],
        mut lent: M,
        mut ask: impl FnMut(Side, &[Q], &mut M) -> u32,
    ) {
        if !what.contains(&self.wanted) {
            return;
        }
        for question in questions {
            compare(what, question, &lent, &mut ask);
        }
        self.rows += 1;
        self.questions += questions.len();
        if self.timed {
            let [library, plain_c, rust_reader] = times(|side| ask(side, questions, &mut lent));
            let [over_c, over_rust] = [plain_c, rust_reader].map(|time| library.as_secs_f64() / time.as_secs_f64());
            println!("| {what} | {} | {over_c:.2} | {over_rust:.2} |", shown(library, questions.len()));
        }
    }
}

/// Codes and all that was written must be the same.
fn compare<Q: Debug, M: Clone + PartialEq>(
    what: &str,
    question: &Q,
    lent: &M,
    mut ask: impl FnMut(Side, &[Q], &mut M) -> u32,
) {
    let mut answer = |side| {
        let mut memory = lent.clone();
        let code = ask(side, slice::from_ref(question), &mut memory);
        (code, memory)
    };
    let (expected, written) = answer(Side::Library);
    for side in [Side::PlainC, Side::RustReader] {
        let (code, memory) = answer(side);
        assert_eq!(code, expected, "{what}, question {question:?}: codes of {side:?} and library");
        assert!(memory == written, "{what}, question {question:?}: {side:?} answers otherwise than the library");
    }
}

/// The median time of a turn of each side. Who goes first changes from turn to turn.
fn times(mut turn: impl FnMut(Side) -> u32) -> [Duration; 3] {
    let mut times = [const { Vec::new() }; 3];
    for number in 0..=TURNS {
        for k in 0..SIDES.len() {
            let side = SIDES[(number + k) % SIDES.len()];
            let start = Instant::now();
            black_box(turn(side));
            let time = start.elapsed();
            if number > 0 {
                times[side as usize].push(time);
            }
        }
    }
    times.map(median)
}

fn median(mut times: Vec<Duration>) -> Duration {
    times.sort_unstable();
    times[times.len() / 2]
}

/// The time of one of so many calls.
fn shown(time: Duration, calls: usize) -> String {
    let nanoseconds = time.as_nanos() as f64 / calls as f64;
    match nanoseconds {
        ..1e3 => format!("{nanoseconds:.1} ns"),
        1e3..1e6 => format!("{:.2} µs", nanoseconds / 1e3),
        _ => format!("{:.2} ms", nanoseconds / 1e6),
    }
}
