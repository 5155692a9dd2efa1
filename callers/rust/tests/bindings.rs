//! Bindings: brought in, read, emptied, stored and lent again.
mod common;
use common::*;
use ombravelik::constants::{NAMES, STATE_WORDS};
use ombravelik::{evaluate, Bindings, Error, Owned, Room};

#[test]
fn every_name_keeps_its_value() {
    let mut bindings = Bindings::<0, 0>::new();
    for name in 0..NAMES {
        assert!(bindings.get(name).is_none());
        bindings.bring_in(name, table(&int(name as i64)).rule()).unwrap();
    }
    for name in 0..NAMES {
        assert_eq!(bindings.get(name).unwrap().copied(1), Ok(Owned::Int(name as i64)));
    }
    assert!(bindings.get(NAMES).is_none());
    assert!(bindings.get(usize::MAX).is_none());
}

#[test]
fn emptied_all_of_the_room_serves_again() {
    let whole = table(&list(&[string("abcd"), null()]));
    let mut bindings = Bindings::<2, 4>::new();
    for _ in 0..3 {
        bindings.bring_in(1, whole.rule()).unwrap();
        assert!(bindings.bring_in(2, whole.rule()).is_err());
        bindings.clear();
        assert!((0..NAMES).all(|name| bindings.get(name).is_none()));
        assert_eq!((bindings.used_cells(), bindings.used_bytes()), (0, 0));
    }
}

#[test]
fn what_a_rule_does_not_name_changes_nothing() {
    let rule = table(&binary("+", name(1), list(&[name(1)])));
    let mut few = Bindings::<8, 8>::new();
    few.bring_in(1, table(&list(&[string("a")])).rule()).unwrap();
    let mut more = Bindings::<64, 64>::new();
    more.bring_in(0, table(&list(&[string("other"), null()])).rule()).unwrap();
    more.bring_in(1, table(&list(&[string("a")])).rule()).unwrap();
    more.bring_in(2, table(&map(&[(int(1), int(2))])).rule()).unwrap();
    let first = said(evaluate(rule.rule(), &few, &mut Room::<9, 9>::new(), 99));
    assert_eq!(first, said(evaluate(rule.rule(), &more, &mut Room::<9, 9>::new(), 99)));
    assert!(matches!(first, Said::Value(..)));
}

#[test]
fn an_unbound_name_is_an_error_until_it_is_bound() {
    let rule = table(&name(9));
    let mut bindings = Bindings::<0, 0>::new();
    let mut room = Room::<0, 0>::new();
    assert_eq!(
        said(evaluate(rule.rule(), &bindings, &mut room, 9)),
        Said::Error(Error::UndeclaredReference, 0, counts(1, 0, 0))
    );
    bindings.bring_in(9, table(&uint(5)).rule()).unwrap();
    assert_eq!(said(evaluate(rule.rule(), &bindings, &mut room, 9)), Said::Value(Owned::Uint(5), counts(1, 0, 0)));
    bindings.clear();
    assert!(matches!(said(evaluate(rule.rule(), &bindings, &mut room, 9)), Said::Error(..)));
}

#[test]
fn stored_and_lent_again() {
    let mut bindings = Bindings::<16, 16>::new();
    bindings.bring_in(0, table(&map(&[(string("k"), list(&[bytes(&[255])]))])).rule()).unwrap();
    bindings.bring_in(90, table(&double(1.5)).rule()).unwrap();
    let (state, cells, text) = bindings.parts();
    let mut again = Bindings::from_parts(*state, *cells, *text).unwrap();
    assert_eq!(again, bindings);
    again.bring_in(91, table(&list(&[null()])).rule()).unwrap();
    assert_eq!(again.get(0).unwrap().copied(9), bindings.get(0).unwrap().copied(9));
    assert_eq!(again.used_cells(), bindings.used_cells() + 1);
    // a smaller room than the one that they were brought into
    let mut first = [[0; 2]; 2];
    first.copy_from_slice(&cells[..2]);
    assert!(Bindings::from_parts(*state, first, *text).is_err());
}

/// Any number of threads may call, each in a room of its own.
#[test]
fn bindings_are_shared_among_threads() {
    let mut bindings = Bindings::<64, 0>::new();
    bindings.bring_in(1, table(&list(&vec![int(3); 64])).rule()).unwrap();
    let adding = comprehension(0, 2, [name(1), int(0), boolean(true), binary("+", name(0), name(2)), name(0)]);
    let rule = table(&adding);
    std::thread::scope(|scope| {
        for _ in 0..4 {
            scope.spawn(|| {
                for _ in 0..50 {
                    let said = said(evaluate(rule.rule(), &bindings, &mut Room::<0, 0>::new(), 1_000));
                    assert!(matches!(said, Said::Value(Owned::Int(192), _)));
                }
            });
        }
    });
}

#[test]
fn rooms_above_the_most() {
    let thousand = table(&list(&vec![null(); 1_024]));
    let mut bindings = Box::new(Bindings::<5_000, 20_000>::new());
    for name in 0..4 {
        bindings.bring_in(name, thousand.rule()).unwrap();
    }
    assert!(bindings.bring_in(4, table(&list(&[null()])).rule()).is_err());
    let text = table(&string(&"a".repeat(8_192)));
    bindings.bring_in(4, text.rule()).unwrap();
    bindings.bring_in(5, text.rule()).unwrap();
    assert!(bindings.bring_in(6, table(&string("a")).rule()).is_err());
    assert_eq!((bindings.used_cells(), bindings.used_bytes()), (4_096, 16_384));
    assert_eq!(bindings.parts().0.len(), STATE_WORDS);
}
