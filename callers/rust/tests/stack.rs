//! The stack that a call takes: the deepest rules answer on a thread that has what the crate says, and a thread that has less ends at its guard page.
mod common;
use common::*;
use ombravelik::{evaluate, Bindings, Room, STACK_BYTES};
use std::thread::Builder;

/// What the tests' own functions take, those of a build without optimisation.
const OWN: usize = 512 * 1_024;

fn nested(levels: usize, around: impl Fn(Node) -> Node) -> Table {
    table(&(1..levels).fold(null(), |inner, _| around(inner)))
}

fn deepest() -> Vec<Table> {
    let yes = || boolean(true);
    vec![
        nested(64, |inner| unary("not-strictly-false", inner)),
        nested(64, |inner| binary("==", int(1), inner)),
        nested(64, |inner| conditional(yes(), inner, null())),
        nested(32, |inner| list(&[inner])),
        nested(32, |inner| map(&[(int(1), inner)])),
        nested(64, |inner| comprehension(1, 2, [inner, yes(), yes(), yes(), name(1)])),
        nested(64, |inner| comprehension(1, 2, [list(&[]), yes(), yes(), yes(), inner])),
        nested(63, |inner| comprehension(1, 2, [list(&[yes()]), yes(), yes(), inner, name(1)])),
        nested(22, |inner| {
            let step = binary("+", name(1), list(&[inner]));
            comprehension(1, 2, [list(&[yes()]), list(&[]), yes(), step, name(1)])
        }),
    ]
}

fn on_a_thread_of(bytes: usize, work: impl FnOnce() + Send + 'static) {
    Builder::new().stack_size(bytes).spawn(work).unwrap().join().unwrap();
}

#[test]
fn the_deepest_rules_have_room() {
    for rule in deepest() {
        assert_eq!(rule.rule().check(), Ok(()));
        on_a_thread_of(STACK_BYTES + OWN, move || {
            let bindings = Bindings::<0, 0>::new();
            let mut room = Room::<256, 0>::new();
            let steps = evaluate(rule.rule(), &bindings, &mut room, 10_000).counts().steps;
            assert!(steps >= 22, "{steps}");
        });
    }
}

/// A thread that has too little for any call, and enough for a small one that does not see to its stack.
fn on_too_little(work: impl FnOnce() + Send + 'static) {
    on_a_thread_of(STACK_BYTES / 2, work);
    println!("it went on");
}

fn smallest() -> Table {
    table(&null())
}

// Not run by themselves: each ends the process. The tests below run them. On the small thread there is one call, the one that is tested; what else
// sees to its stack is made before, on a thread that has it.

#[test]
#[ignore = "ends the process"]
fn empty_on_too_little() {
    on_too_little(|| assert_eq!(Bindings::<0, 0>::new().used_cells(), 0));
}

#[test]
#[ignore = "ends the process"]
fn check_on_too_little() {
    on_too_little(|| assert_eq!(smallest().rule().check(), Ok(())));
}

#[test]
#[ignore = "ends the process"]
fn bring_in_on_too_little() {
    let mut bindings = Bindings::<0, 0>::new();
    on_too_little(move || assert_eq!(bindings.bring_in(0, smallest().rule()), Ok(())));
}

#[test]
#[ignore = "ends the process"]
fn evaluate_on_too_little() {
    let bindings = Bindings::<0, 0>::new();
    on_too_little(move || {
        let counts = evaluate(smallest().rule(), &bindings, &mut Room::<0, 0>::new(), 1).counts();
        assert_eq!(counts.steps, 1);
    });
}

/// Runs one of the tests above as a process of its own.
fn ends_at_its_guard_page(test: &str) {
    let program = std::env::current_exe().unwrap();
    let words = ["--ignored", "--exact", test, "--nocapture"];
    let output = std::process::Command::new(program).args(words).output().unwrap();
    let said = String::from_utf8_lossy(&output.stderr);
    assert!(!String::from_utf8_lossy(&output.stdout).contains("it went on"));
    assert!(said.contains("overflowed its stack"), "{said}");
    assert!(!output.status.success());
}

#[test]
fn without_its_stack_empty_ends_at_the_guard_page() {
    ends_at_its_guard_page("empty_on_too_little");
}

#[test]
fn without_its_stack_check_ends_at_the_guard_page() {
    ends_at_its_guard_page("check_on_too_little");
}

#[test]
fn without_its_stack_bring_in_ends_at_the_guard_page() {
    ends_at_its_guard_page("bring_in_on_too_little");
}

#[test]
fn without_its_stack_evaluate_ends_at_the_guard_page() {
    ends_at_its_guard_page("evaluate_on_too_little");
}
