//! Every error, with its place; and what an error leaves in the room.
mod common;
use common::*;
use ombravelik::constants::ERROR;
use ombravelik::Error;

/// A rule for each error, and the place that it is given.
fn rules() -> Vec<(Error, Node, usize)> {
    let none = || function("optional.none", &[]);
    let key = |first, second| map(&[(first, null()), (second, null())]);
    vec![
        (Error::UndeclaredReference, unary("!", name(9)), 4),
        (Error::BoolWanted, conditional(int(1), null(), null()), 0),
        (Error::NoOverload, unary("-", boolean(true)), 0),
        (Error::FunctionError, function("value", &[none()]), 0),
        (Error::NoSuchKey, select(map(&[]), "speed"), 0),
        (Error::Overflow, binary("+", int(i64::MAX), int(1)), 0),
        (Error::DivisionByZero, binary("/", uint(1), uint(0)), 0),
        (Error::RemainderByZero, binary("%", int(1), int(0)), 0),
        (Error::DuplicateKey, list(&[key(int(1), uint(1))]), 5),
        (Error::IndexOutOfBounds, binary("[]", list(&[null()]), int(1)), 0),
        (Error::UnsupportedKeyType, list(&[key(null(), int(1))]), 5),
        (Error::Unordered, binary("<", int(1), double(f64::NAN)), 0),
        (Error::IterableWanted, comprehension(0, 1, [int(1), null(), boolean(true), null(), null()]), 0),
    ]
}

#[test]
fn every_error_with_its_place() {
    let rules = rules();
    assert_eq!(rules.iter().map(|(error, ..)| *error).collect::<Vec<_>>(), Error::ALL);
    for (error, node, place) in rules {
        let Said::Error(got, at, _) = answer(&node) else { panic!("{error}") };
        assert_eq!((got, at), (error, place));
    }
}

#[test]
fn errors_have_numbers_and_words() {
    for (index, error) in Error::ALL.iter().enumerate() {
        assert_eq!(usize::from(error.number()), index + 1);
        assert_eq!(Error::of_number(index as u64 + 1), Some(*error));
        assert!(!error.to_string().is_empty());
    }
    assert_eq!(Error::of_number(0), None);
    assert_eq!(Error::of_number(14), None);
    assert_eq!(Error::of_number(257), None);
}

/// `("ab" + "c") in [[1, 2], x]`: three bytes and four cells are charged, then x is missing.
#[test]
fn an_error_clears_what_it_charged_and_nothing_else() {
    let rule = table(&binary("in", binary("+", string("ab"), string("c")), list(&[list(&[int(1), int(2)]), name(9)])));
    let mut slices = Slices::new(0, 0, 20, 10);
    assert_eq!(slices.evaluate(rule.rule(), 100), ERROR);
    assert_eq!(slices.answer[4..6], [4, 3]);
    assert_eq!((&slices.cells[..8], &slices.cells[8..]), (&[0; 8][..], &[BEFORE; 12][..]));
    assert_eq!((&slices.text[..3], &slices.text[3..]), (&[0; 3][..], &[0xA5; 7][..]));
}

#[test]
fn a_caught_error_leaves_its_cells() {
    let rule = table(&binary("||", list(&[boolean(true), name(9)]), boolean(true)));
    let mut slices = Slices::new(0, 0, 8, 0);
    assert_eq!(slices.evaluate(rule.rule(), 100), 1);
    assert_eq!(slices.cells, [1, 1, 0, 0, BEFORE, BEFORE, BEFORE, BEFORE]);
}
