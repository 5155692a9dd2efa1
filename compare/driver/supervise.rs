//! A worker answers the lines, under limits of time and memory; the supervisor starts another where a line ends one,
//! tells it the bindings again, and prints `Limit` for that line.
use crate::lines::Lines;
use std::io::{BufRead, BufReader, Write};
use std::process::{Child, ChildStdin, ChildStdout, Command, Stdio};
use std::sync::atomic::{AtomicU64, Ordering};
use std::time::{Duration, Instant};

const MEMORY: u64 = 3 << 30;
const STACK: usize = 512 << 20;
static LINE: AtomicU64 = AtomicU64::new(0); // odd while a line is worked on

fn work(words: bool) {
    let (mut input, mut stdout) = (std::io::stdin().lock(), std::io::stdout().lock());
    let (mut lines, mut line, mut out) = (Lines::new(words), String::new(), String::new());
    loop {
        line.clear();
        if input.read_line(&mut line).unwrap_or(0) == 0 {
            return;
        }
        LINE.fetch_add(1, Ordering::SeqCst);
        out.clear();
        let said = lines.answer(&line, &mut out);
        LINE.fetch_add(1, Ordering::SeqCst);
        out.push('\n');
        if said && stdout.write_all(out.as_bytes()).and_then(|_| stdout.flush()).is_err() {
            return;
        }
    }
}

#[repr(C)]
struct RLimit {
    cur: u64,
    max: u64,
}
extern "C" {
    fn setrlimit(what: i32, limit: *const RLimit) -> i32;
}

fn limit(what: i32, most: u64) {
    // SAFETY: a plain libc call with a valid pointer.
    unsafe { setrlimit(what, &RLimit { cur: most, max: most }) };
}

/// Answers lines; a line that takes longer than `ms` ends the program.
pub fn worker(words: bool, ms: u64) {
    limit(9, MEMORY); // RLIMIT_AS on Linux
    limit(4, 0); // no core files
    std::thread::spawn(move || {
        let (mut seen, mut since) = (0, Instant::now());
        loop {
            std::thread::sleep(Duration::from_millis(50));
            let now = LINE.load(Ordering::SeqCst);
            if now != seen || now % 2 == 0 {
                (seen, since) = (now, Instant::now());
            } else if since.elapsed() > Duration::from_millis(ms) {
                std::process::exit(124);
            }
        }
    });
    let thread = std::thread::Builder::new().stack_size(STACK);
    let joined = thread.spawn(move || work(words)).unwrap().join();
    joined.unwrap_or_else(|_| std::process::exit(101));
}

struct Worker {
    child: Child,
    input: ChildStdin,
    output: BufReader<ChildStdout>,
}

fn start(args: &[String]) -> Worker {
    let mut child = Command::new(std::env::current_exe().unwrap())
        .args(args)
        .arg("-w")
        .stdin(Stdio::piped())
        .stdout(Stdio::piped())
        .stderr(Stdio::null())
        .spawn()
        .unwrap();
    let (input, output) = (child.stdin.take().unwrap(), BufReader::new(child.stdout.take().unwrap()));
    Worker { child, input, output }
}

fn is_answered(line: &str) -> bool {
    let command = line.split_ascii_whitespace().next();
    !matches!(command, Some("room" | "empty"))
}

/// What there is to read, a line at least.
fn chunk(input: &mut BufReader<std::io::Stdin>) -> Vec<String> {
    let mut lines = Vec::new();
    loop {
        let mut line = String::new();
        if input.read_line(&mut line).unwrap_or(0) == 0 {
            return lines;
        }
        if !line.ends_with('\n') {
            line.push('\n');
        }
        lines.push(line);
        if lines.len() >= 4096 || !input.buffer().contains(&b'\n') {
            return lines;
        }
    }
}

pub fn supervise(args: &[String]) {
    let mut input = BufReader::with_capacity(1 << 20, std::io::stdin());
    let mut stdout = std::io::stdout().lock();
    let mut worker = start(args);
    let mut bound: Vec<String> = Vec::new(); // the bindings that the room has, as lines
    loop {
        let lines = chunk(&mut input);
        if lines.is_empty() {
            break;
        }
        let (mut done, mut again) = (0, 0);
        while done < lines.len() {
            let rest = bound[bound.len() - again..].concat() + &lines[done..].concat();
            let Worker { mut child, input: mut pipe, mut output } = worker;
            let feeder = std::thread::spawn(move || {
                let _ = pipe.write_all(rest.as_bytes()).and_then(|_| pipe.flush());
                pipe
            });
            let mut alive = true;
            let mut answer = String::new();
            while done < lines.len() {
                if again == 0 && !is_answered(&lines[done]) {
                    bound.clear();
                    done += 1;
                    continue;
                }
                answer.clear();
                if output.read_line(&mut answer).unwrap_or(0) == 0 || !answer.ends_with('\n') {
                    alive = false;
                    break;
                }
                if again > 0 {
                    again -= 1;
                    continue;
                }
                if answer == "ok\n" {
                    bound.push(lines[done].clone());
                }
                done += 1;
                stdout.write_all(answer.as_bytes()).unwrap();
            }
            let pipe = feeder.join().unwrap();
            worker = if alive {
                Worker { child, input: pipe, output }
            } else {
                stdout.write_all(b"Limit\n").unwrap();
                done += 1;
                again = bound.len();
                drop(pipe);
                let _ = child.wait();
                start(args)
            };
        }
        if again > 0 {
            // the chunk ended with the line that ended the worker
            let Worker { child, input: mut pipe, mut output } = worker;
            pipe.write_all(bound.concat().as_bytes()).and_then(|_| pipe.flush()).unwrap();
            for _ in 0..again {
                output.read_line(&mut String::new()).unwrap();
            }
            worker = Worker { child, input: pipe, output };
        }
        stdout.flush().unwrap();
    }
    drop(worker.input);
    let _ = worker.child.wait();
}
