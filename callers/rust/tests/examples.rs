//! The worked examples of the scope: P1 to P8, and the one of the program `ask`.
mod common;
use common::*;
use ombravelik::{evaluate, Bindings, Error, Limit, Owned, Room, Rule};

const X: u8 = 0;
const Y: u8 = 1;

#[test]
fn not_true() {
    let table = [0x08, 0x08, 0x00, 0x01, 0x01, 0x04, 0x00, 0x01];
    let said = said(evaluate(Rule::new(&table, &[]), &Bindings::<0, 0>::new(), &mut Room::<0, 0>::new(), 10));
    assert_eq!(said, Said::Value(Owned::Bool(false), counts(2, 0, 0)));
}

#[test]
fn p1_true_or_x() {
    let rule = binary("||", boolean(true), name(X));
    assert_eq!(answer(&rule), Said::Value(Owned::Bool(true), counts(2, 0, 0)));
}

#[test]
fn p2_x_or_true() {
    let rule = binary("||", name(X), boolean(true));
    assert_eq!(answer(&rule), Said::Value(Owned::Bool(true), counts(3, 0, 0)));
}

#[test]
fn p3_two_steps_lent() {
    let rule = binary("||", name(X), boolean(true));
    assert_eq!(answer_within(&rule, 2), Said::Exhausted(Limit::Steps, counts(2, 0, 0)));
}

#[test]
fn p4_x_or_y() {
    let rule = binary("||", name(X), name(Y));
    assert_eq!(answer(&rule), Said::Error(Error::UndeclaredReference, 8, counts(3, 0, 0)));
}

#[test]
fn p5_remainders_of_the_least_int() {
    let by = |right| answer(&binary("%", int(i64::MIN), int(right)));
    assert_eq!(by(-1), Said::Error(Error::Overflow, 0, counts(3, 0, 0)));
    assert_eq!(by(0), Said::Error(Error::RemainderByZero, 0, counts(3, 0, 0)));
}

/// `[0, 2].all(i, 4 / i == equal)`
fn all_quotients(equal: i64) -> Node {
    let test = binary("==", binary("/", int(4), name(X)), int(equal));
    let going = unary("not-strictly-false", name(Y));
    let parts = [list(&[int(0), int(2)]), boolean(true), going, binary("&&", name(Y), test), name(Y)];
    comprehension(Y, X, parts)
}

#[test]
fn p6_all() {
    assert_eq!(value(&all_quotients(3)), Owned::Bool(false));
    assert!(matches!(answer(&all_quotients(2)), Said::Error(Error::DivisionByZero, _, _)));
}

#[test]
fn p7_lists_compared() {
    let rule = binary("==", list(&[int(1), int(2)]), list(&[int(1), int(3)]));
    assert_eq!(answer(&rule), Said::Value(Owned::Bool(false), counts(10, 4, 0)));
}

#[test]
fn p8_the_append_path() {
    let rule = |init| {
        let step = binary("+", name(Y), list(&[name(Y)]));
        comprehension(Y, X, [list(&[int(7)]), init, boolean(true), step, name(Y)])
    };
    assert!(matches!(answer(&rule(list(&[]))), Said::Error(Error::UndeclaredReference, _, _)));
    let zero = Owned::List(vec![Owned::Int(0)]);
    assert_eq!(value(&rule(list(&[int(0)]))), Owned::List(vec![Owned::Int(0), zero]));
}
