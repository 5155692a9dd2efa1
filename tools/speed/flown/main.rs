//! Runs each case on the proved evaluator, through its C interface, and on the crate's, in one program.
//!
//!     flown answers CASES     every rule on both: the answers must be the same; then how many differ
//!     flown time CASES        `case | what | nanoseconds`, the best of many short rounds, taken in turn
//!     flown count CASES RUNS  RUNS runs of each, for a counter of instructions

mod cases;
mod given;
mod proved;
#[path = "../../../compare/driver/show.rs"]
mod show;
#[path = "../../../compare/driver/table.rs"]
#[allow(dead_code)]
mod table;

use cases::Case;
use std::hint::black_box;
use std::time::{Duration, Instant};

const ROUNDS: usize = 60;
const ROUND: Duration = Duration::from_micros(400);

/// What is measured, in the order of the report.
pub const WHAT: [&str; 4] = ["check", "room", "evaluate", "crate"];

struct Both {
    proved: proved::Proved,
    given: given::Given,
}

impl Both {
    fn of(case: &Case) -> Both {
        Both { proved: proved::Proved::of(case), given: given::Given::of(case) }
    }

    fn run(&mut self, what: usize) {
        match what {
            0 => drop(black_box(self.proved.check())),
            1 => drop(black_box(self.proved.check_room())),
            2 => drop(black_box(self.proved.evaluate())),
            _ => drop(black_box(self.given.evaluate())),
        }
    }

    /// Seconds for one run, of `turns` runs.
    fn round(&mut self, what: usize, turns: u32) -> f64 {
        let start = Instant::now();
        for _ in 0..turns {
            self.run(what);
        }
        start.elapsed().as_secs_f64() / f64::from(turns)
    }
}

fn answers(cases: &[Case]) -> usize {
    let mut differ = 0;
    for case in cases {
        let mut both = Both::of(case);
        let (ours, theirs) = (both.proved.answer(), both.given.answer());
        if ours != theirs {
            differ += 1;
            println!("{}: {ours}, the crate {theirs}", case.label);
        }
    }
    println!("{} rules, {differ} answers differ", cases.len());
    differ
}

fn time(case: &Case) {
    let mut both = Both::of(case);
    let turns: Vec<u32> = (0..WHAT.len()).map(|what| {
        let once = (0..3).map(|_| both.round(what, 1)).fold(f64::MAX, f64::min);
        (ROUND.as_secs_f64() / once).clamp(1.0, 20_000.0) as u32
    }).collect();
    let mut best = [f64::MAX; WHAT.len()];
    for _ in 0..ROUNDS {
        for (what, best) in best.iter_mut().enumerate() {
            *best = best.min(both.round(what, turns[what]));
        }
    }
    for (what, best) in WHAT.iter().zip(best) {
        println!("{} | {what} | {:.2}", case.label, best * 1e9);
    }
    println!("{} | steps | {}", case.label, both.proved.steps());
}

/// A counter of instructions is set to zero as this is entered ..
#[no_mangle]
#[inline(never)]
extern "C" fn counted_from_here(what: usize) {
    black_box(what);
}

/// .. and its count written down as this is. (Another body: equal ones are made one function.)
#[no_mangle]
#[inline(never)]
extern "C" fn counted_to_here(what: usize) {
    black_box(!what);
}

/// The first runs of each are not counted: they may load what later ones find loaded. A count has something of its own in it: the report
/// subtracts that of a few runs from that of more.
fn count(case: &Case, runs: u32) {
    let mut both = Both::of(case);
    for (what, name) in WHAT.iter().enumerate() {
        both.round(what, 3);
        counted_from_here(what);
        both.round(what, runs);
        counted_to_here(what);
        println!("{} | {name} | {runs}", case.label);
    }
}

fn main() {
    let words: Vec<String> = std::env::args().collect();
    let cases = cases::read(&words[2]);
    // deep rules need stack: the crate's as well as ours
    let work = move || match words[1].as_str() {
        "answers" => answers(&cases),
        "time" => {
            cases.iter().for_each(time);
            0
        }
        "count" => {
            let runs = words[3].parse().expect("a number");
            cases.iter().for_each(|case| count(case, runs));
            0
        }
        other => panic!("unknown: {other}"),
    };
    let thread = std::thread::Builder::new().stack_size(64 << 20).spawn(work).expect("a thread");
    std::process::exit(i32::from(thread.join().expect("the runs") > 0));
}
