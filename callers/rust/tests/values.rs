//! Values of all kinds, from each space that they can lie in.
mod common;
use common::*;
use ombravelik::{evaluate, Bindings, Owned, Room, Shape, Value};

fn text(word: &str) -> Owned {
    Owned::String(word.into())
}

fn text_in(value: Value<'_>) -> Option<&str> {
    match value.shape() {
        Shape::String(text) => Some(text),
        _ => None,
    }
}

fn bytes_in(value: Value<'_>) -> Option<&[u8]> {
    match value.shape() {
        Shape::Bytes(bytes) => Some(bytes),
        _ => None,
    }
}

#[test]
fn scalars() {
    assert_eq!(value(&null()), Owned::Null);
    assert_eq!(value(&boolean(true)), Owned::Bool(true));
    assert_eq!(value(&boolean(false)), Owned::Bool(false));
    for number in [0, 1, -1, i64::MIN, i64::MAX] {
        assert_eq!(value(&int(number)), Owned::Int(number));
    }
    for number in [0, 1, 1 << 63, u64::MAX] {
        assert_eq!(value(&uint(number)), Owned::Uint(number));
    }
}

#[test]
fn doubles_keep_their_bits() {
    let patterns =
        [0, 1 << 63, 1, 0x7FF0_0000_0000_0000, 0xFFF0_0000_0000_0000, 0x7FF8_0000_0000_0000, 0xFFFF_1234_5678_9ABC];
    for bits in patterns {
        let Owned::Double(number) = value(&double(f64::from_bits(bits))) else { panic!() };
        assert_eq!(number.to_bits(), bits);
    }
}

#[test]
fn texts_of_the_table_of_the_bindings_and_of_the_run() {
    let mut bindings = Bindings::<0, 64>::new();
    bindings.bring_in(5, table(&string("größe")).rule()).unwrap();
    bindings.bring_in(6, table(&bytes(&[0xFF, 0])).rule()).unwrap();
    let rule = table(&list(&[
        string("🛩"),
        name(5),
        binary("+", name(5), string("!")),
        bytes(&[0xC3]),
        name(6),
        binary("+", name(6), bytes(&[7])),
        string(""),
    ]));
    let mut room = Room::<16, 64>::new();
    let Shape::List(list) = evaluate(rule.rule(), &bindings, &mut room, 100).value().unwrap().shape() else { panic!() };
    let texts: Vec<_> = list.iter().filter_map(text_in).collect();
    assert_eq!(texts, ["🛩", "größe", "größe!", ""]);
    let bytes: Vec<_> = list.iter().filter_map(bytes_in).collect();
    assert_eq!(bytes, [&[0xC3][..], &[0xFF, 0], &[0xFF, 0, 7]]);
}

#[test]
fn containers() {
    assert_eq!(value(&list(&[])), Owned::List(vec![]));
    assert_eq!(value(&map(&[])), Owned::Map(vec![]));
    let entries =
        [(string("b"), int(1)), (int(-2), list(&[null()])), (uint(7), map(&[])), (boolean(true), bytes(b"x"))];
    let kept = vec![
        (text("b"), Owned::Int(1)),
        (Owned::Int(-2), Owned::List(vec![Owned::Null])),
        (Owned::Uint(7), Owned::Map(vec![])),
        (Owned::Bool(true), Owned::Bytes(b"x".into())),
    ];
    assert_eq!(value(&map(&entries)), Owned::Map(kept));
}

#[test]
fn optionals() {
    assert_eq!(value(&function("optional.none", &[])), Owned::Optional(None));
    let two = function("optional.of", &[function("optional.of", &[int(2)])]);
    let inner = Owned::Optional(Some(Box::new(Owned::Int(2))));
    assert_eq!(value(&two), Owned::Optional(Some(Box::new(inner))));
    let marked = list(&[mark(function("optional.none", &[])), mark(function("optional.of", &[int(1)])), mark(int(2))]);
    assert_eq!(value(&marked), Owned::List(vec![Owned::Int(1), Owned::Int(2)]));
}

/// A value of every kind but Optional, spelled, brought in, read back and answered by a rule that names it.
#[test]
fn what_is_brought_in_comes_back() {
    let deep = (0..31).fold(Owned::List(vec![]), |inner, _| Owned::List(vec![inner]));
    let whole = Owned::Map(vec![
        (text("null"), Owned::Null),
        (text("bool"), Owned::Bool(true)),
        (Owned::Int(-3), Owned::Int(i64::MIN)),
        (Owned::Uint(3), Owned::Uint(u64::MAX)),
        (Owned::Bool(false), Owned::Double(-0.5)),
        (text("text"), Owned::List(vec![text("é"), text(""), Owned::Bytes(vec![0, 255])])),
    ]);
    let mut bindings = Bindings::<128, 128>::new();
    for (name, value) in [(0, &whole), (127, &deep)] {
        bindings.bring_in(name, value.spelled().unwrap().rule()).unwrap();
        assert_eq!(bindings.get(name).unwrap().copied(1_000).as_ref(), Ok(value));
    }
    assert_eq!(bindings.get(0).unwrap().copied(1_000).as_ref(), Ok(&whole));
    let rule = table(&list(&[name(0), name(127)]));
    let mut room = Room::<2, 0>::new();
    // the deep one would nest 33 deep in a list
    assert!(matches!(said(evaluate(rule.rule(), &bindings, &mut room, 9)), Said::Exhausted(..)));
    let rule = table(&list(&[name(0), name(0)]));
    let twice = evaluate(rule.rule(), &bindings, &mut room, 9).value().unwrap().copied(1_000);
    assert_eq!(twice, Ok(Owned::List(vec![whole.clone(), whole])));
}

#[test]
fn what_is_spelled_is_a_rule_for_itself() {
    let optional = Owned::Optional(Some(Box::new(Owned::List(vec![Owned::Optional(None)]))));
    let spelled = optional.spelled().unwrap();
    let bindings = Bindings::<0, 0>::new();
    let mut room = Room::<4, 0>::new();
    let value: Value<'_> = evaluate(spelled.rule(), &bindings, &mut room, 9).value().unwrap();
    assert_eq!(value.copied(9), Ok(optional));
}

#[test]
fn what_no_table_can_hold_is_not_spelled() {
    let long = |bytes| Owned::String("a".repeat(bytes));
    assert!(long(65_535).spelled().is_ok());
    assert!(long(65_536).spelled().is_err());
    assert!(Owned::List(vec![long(65_535), long(1)]).spelled().unwrap().rule().check().is_ok());
    assert!(Owned::List(vec![long(65_535), long(1), Owned::Null, long(1)]).spelled().is_err());
    assert!(Owned::List(vec![Owned::Null; 5_459]).spelled().unwrap().rule().check().is_ok());
    assert!(Owned::List(vec![Owned::Null; 5_460]).spelled().is_err());
    let endless = (0..100_000).fold(Owned::Null, |inner, _| Owned::List(vec![inner]));
    assert!(endless.spelled().is_err());
    std::mem::forget(endless); // dropping it would overflow the stack
}
