//! Times `table_check::check` and the plain validator on the same tables, in one run. First both must agree on every case.
//!
//!     time TIMED CASES

mod plain;

use std::hint::black_box;
use std::time::{Duration, Instant};

extern "C" {
    fn timed_check(table: *const u8, table_length: usize, text: *const u8, text_length: usize, place: *mut usize) -> u8;
}

// Short and many: on a machine with other work a short round may run undisturbed, and the best one counts.
const ROUNDS: usize = 120;
const ROUND: Duration = Duration::from_micros(500);

struct Case {
    name: String,
    table: Vec<u8>,
    text: Vec<u8>,
}

/// A refusal as a number and a place, 0 and 0 where there is none.
fn proved(table: &[u8], text: &[u8]) -> (u8, usize) {
    let mut place = 0;
    let number = unsafe { timed_check(table.as_ptr(), table.len(), text.as_ptr(), text.len(), &mut place) };
    (number, place)
}

fn plain(table: &[u8], text: &[u8]) -> (u8, usize) {
    match plain::check(table, text) {
        Ok(()) => (0, 0),
        Err(refusal) => (refusal.number, refusal.place),
    }
}

fn read(path: &str) -> Vec<Case> {
    let data = std::fs::read(path).expect("the file");
    let mut rest = &data[..];
    let mut cases = Vec::new();
    while !rest.is_empty() {
        let lengths: Vec<usize> = (0..3).map(|n| u32::from_le_bytes(rest[4 * n..4 * n + 4].try_into().unwrap()) as usize).collect();
        rest = &rest[12..];
        let mut part = |length: usize| {
            let (first, other) = rest.split_at(length);
            rest = other;
            first.to_vec()
        };
        let name = String::from_utf8(part(lengths[0])).unwrap();
        cases.push(Case { name, table: part(lengths[1]), text: part(lengths[2]) });
    }
    cases
}

/// Seconds for one check, the mean over a round.
fn seconds(check: fn(&[u8], &[u8]) -> (u8, usize), case: &Case) -> f64 {
    let (mut turns, mut batch) = (0u32, 1u32);
    let start = Instant::now();
    loop {
        for _ in 0..batch {
            black_box(check(black_box(&case.table), black_box(&case.text)));
        }
        turns += batch;
        let taken = start.elapsed();
        if taken >= ROUND {
            return taken.as_secs_f64() / f64::from(turns);
        }
        batch = batch.saturating_mul(2).min(4096);
    }
}

fn main() {
    let words: Vec<String> = std::env::args().collect();
    let cases = read(&words[2]);
    let differ = cases.iter().filter(|case| proved(&case.table, &case.text) != plain(&case.table, &case.text)).count();
    println!("{} cases, {} differ", cases.len(), differ);
    println!("table | bytes | proved first: proved, plain | plain first: proved, plain | best: proved, plain | ratio");
    for case in read(&words[1]) {
        let mut best = [[f64::MAX; 2]; 2];
        for round in 0..2 * ROUNDS {
            let order = round % 2;
            let (one, two) = if order == 0 {
                let one = seconds(proved, &case);
                (one, seconds(plain, &case))
            } else {
                let two = seconds(plain, &case);
                (seconds(proved, &case), two)
            };
            best[order][0] = best[order][0].min(one);
            best[order][1] = best[order][1].min(two);
        }
        let bytes = (case.table.len() + if case.name.starts_with("much") { case.text.len() } else { 0 }) as f64;
        let rate = |seconds: f64| bytes / seconds / 1e6;
        let least = |which: usize| best[0][which].min(best[1][which]);
        println!(
            "{} | {} | {:.1} {:.1} | {:.1} {:.1} | {:.1} {:.1} | {:.2}",
            case.name, bytes, rate(best[0][0]), rate(best[0][1]), rate(best[1][0]), rate(best[1][1]),
            rate(least(0)), rate(least(1)), least(1) / least(0)
        );
    }
}
