//! Values of a few cells that spell more elements than can be counted: walked lazily, and read out under a limit.
mod common;
use common::*;
use ombravelik::{evaluate, Answer, Bindings, Owned, Room, Shape, TooLarge, Value};

/// A fold over `turns` items, from an Int on, whose step is a list of `many` accumulators. Each turn takes `many` cells and makes `many` times as
/// many parts.
fn repeated(many: usize, turns: usize) -> Node {
    let items: Vec<Node> = (0..turns).map(|_| null()).collect();
    let step = list(&vec![name(1); many]);
    comprehension(1, 0, [list(&items), int(7), boolean(true), step, name(1)])
}

fn doubled(turns: usize) -> Node {
    repeated(2, turns)
}

/// 4 to the power of 32 elements, 32 of them looked at: a walk over all of them, a thousand million a second, would end after 584 years.
#[test]
fn elements_beyond_counting_are_walked_lazily() {
    let rule = table(&repeated(4, 32));
    let bindings = Bindings::<0, 0>::new();
    let mut room = Room::<160, 0>::new();
    let answer = evaluate(rule.rule(), &bindings, &mut room, 10_000);
    let Answer::Value { mut value, counts } = answer else { panic!("{answer:?}") };
    assert_eq!(counts.cells, 160);
    for depth in 0..32 {
        let Shape::List(list) = value.shape() else { panic!("depth {depth}") };
        assert_eq!(list.iter().len(), 4);
        value = list.iter().nth(depth % 4).unwrap();
    }
    assert!(matches!(value.shape(), Shape::Int(7)));
}

#[test]
fn reading_out_stops_at_its_limit() {
    let rule = table(&doubled(32));
    let bindings = Bindings::<0, 0>::new();
    let mut room = Room::<96, 0>::new();
    let value = evaluate(rule.rule(), &bindings, &mut room, 10_000).value().unwrap();
    assert_eq!(value.copied(100_000), Err(TooLarge));
    assert_eq!(value.copied(0), Err(TooLarge));
    assert_eq!(format!("{value:?}"), "List(2 elements)");
}

/// The least limit under which a value is read out.
fn least(value: Value<'_>) -> usize {
    (0..1_000).find(|most| value.copied(*most).is_ok()).unwrap()
}

#[test]
fn a_limit_counts_values_and_bytes() {
    let cases = [
        (null(), 1),
        (string("größe"), 8),
        (bytes(b"ab"), 3),
        (list(&[]), 1),
        (list(&[null(), string("ab")]), 5),
        (map(&[(string("k"), int(1)), (int(2), list(&[null()]))]), 7),
        (function("optional.none", &[]), 1),
        (function("optional.of", &[string("a")]), 3),
        (doubled(4), 31),
    ];
    for (node, parts) in cases {
        let rule = table(&node);
        let bindings = Bindings::<0, 0>::new();
        let mut room = Room::<64, 64>::new();
        let value = evaluate(rule.rule(), &bindings, &mut room, 1_000).value().unwrap();
        assert_eq!(least(value), parts);
        assert_ne!(value.copied(parts), Ok(Owned::Bool(true)));
    }
}

#[test]
fn elements_and_entries_behind_the_last_are_none() {
    let rule = table(&list(&[list(&[int(1)]), map(&[(int(1), int(2))])]));
    let bindings = Bindings::<0, 0>::new();
    let mut room = Room::<16, 0>::new();
    let Shape::List(both) = evaluate(rule.rule(), &bindings, &mut room, 100).value().unwrap().shape() else { panic!() };
    let Shape::List(inner) = both.get(0).unwrap().shape() else { panic!() };
    let Shape::Map(map) = both.get(1).unwrap().shape() else { panic!() };
    for index in [1, 2, 65_536, usize::MAX / 2, usize::MAX] {
        assert!(inner.get(index).is_none());
        assert!(map.get(index).is_none());
    }
    assert_eq!((inner.len(), map.len(), inner.is_empty(), map.is_empty()), (1, 1, false, false));
    assert_eq!((inner.iter().count(), map.iter().count()), (1, 1));
}
