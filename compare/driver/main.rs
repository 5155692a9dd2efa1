//! The crate's evaluation behind the lines of `replay` (lines.rs): the given files unchanged, with stand-ins.
//!
//! usage: oracle [-v] [-t MS]
//!   -v  add the crate's own words after an error
//!   -t  milliseconds allowed for a line (1000 if left out): more prints `Limit`
//!
//! An answer ends with ` ! flags` where its run left the compared domain (probes.rs).
mod lines;
mod probes;
mod show;
mod supervise;
mod table;

fn main() {
    let args: Vec<String> = std::env::args().skip(1).collect();
    let (mut words, mut is_worker, mut ms) = (false, false, 1000);
    let mut it = args.iter();
    while let Some(arg) = it.next() {
        match arg.as_str() {
            "-v" => words = true,
            "-w" => is_worker = true,
            "-t" => ms = it.next().and_then(|word| word.parse().ok()).expect("-t MS"),
            _ => {
                eprintln!("unknown option {arg}");
                std::process::exit(2);
            }
        }
    }
    if is_worker {
        supervise::worker(words, ms)
    } else {
        supervise::supervise(&args)
    }
}
