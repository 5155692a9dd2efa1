//! Every limit, at the last charge that fits and at the next.
mod common;
use common::*;
use ombravelik::constants::{EXHAUSTED, MOST_CELLS, MOST_STEPS, MOST_TEXT_BYTES, VALUE};
use ombravelik::{evaluate, Answer, Bindings, Limit, Owned, Room};

#[test]
fn steps() {
    let rule = binary("==", list(&[int(1), int(2)]), list(&[int(1), int(3)]));
    for steps in 0..10 {
        let Said::Exhausted(limit, counts) = answer_within(&rule, steps) else { panic!("{steps}") };
        assert_eq!((limit, counts.steps), (Limit::Steps, steps));
    }
    for steps in [10, 11, MOST_STEPS, MOST_STEPS + 1, usize::MAX] {
        assert_eq!(answer_within(&rule, steps), Said::Value(Owned::Bool(false), counts(10, 4, 0)));
    }
}

/// Three loops in one another over 128 items each want more than two million turns.
#[test]
fn a_step_limit_above_the_most_counts_as_the_most() {
    let items = list(&vec![null(); 128]);
    let counting = |inner| comprehension(1, 0, [items.clone(), int(0), boolean(true), inner, name(1)]);
    let rule = counting(counting(counting(int(0))));
    for steps in [MOST_STEPS, MOST_STEPS + 1, usize::MAX] {
        let said = answer_within(&rule, steps);
        assert!(matches!(said, Said::Exhausted(Limit::Cells | Limit::Steps, _)), "{said:?}");
    }
    // over a binding, so that no cell is taken
    let mut bindings = Bindings::<128, 0>::new();
    bindings.bring_in(5, table(&items).rule()).unwrap();
    let counting = |inner| comprehension(1, 0, [name(5), int(0), boolean(true), inner, name(1)]);
    let rule = table(&counting(counting(counting(int(0)))));
    for steps in [MOST_STEPS, MOST_STEPS + 1, usize::MAX] {
        let said = said(evaluate(rule.rule(), &bindings, &mut Room::<0, 0>::new(), steps));
        assert_eq!(said, Said::Exhausted(Limit::Steps, counts(MOST_STEPS, 0, 0)));
    }
}

#[test]
fn cells() {
    let rule = table(&binary("+", list(&[int(1)]), list(&[int(2), int(3)])));
    let bindings = Bindings::<0, 0>::new();
    let three = Owned::List(vec![Owned::Int(1), Owned::Int(2), Owned::Int(3)]);
    assert_eq!(
        said(evaluate(rule.rule(), &bindings, &mut Room::<6, 0>::new(), 99)),
        Said::Value(three, counts(6, 6, 0))
    );
    assert_eq!(
        said(evaluate(rule.rule(), &bindings, &mut Room::<5, 0>::new(), 99)),
        Said::Exhausted(Limit::Cells, counts(6, 3, 0))
    );
    assert_eq!(
        said(evaluate(rule.rule(), &bindings, &mut Room::<0, 0>::new(), 99)),
        Said::Exhausted(Limit::Cells, counts(2, 0, 0))
    );
}

#[test]
fn text() {
    let rule = table(&binary("+", string("ab"), string("c")));
    let bindings = Bindings::<0, 0>::new();
    assert_eq!(
        said(evaluate(rule.rule(), &bindings, &mut Room::<0, 3>::new(), 99)),
        Said::Value(Owned::String("abc".into()), counts(3, 0, 3))
    );
    assert_eq!(
        said(evaluate(rule.rule(), &bindings, &mut Room::<0, 2>::new(), 99)),
        Said::Exhausted(Limit::Text, counts(3, 0, 0))
    );
}

#[test]
fn nesting() {
    let nested = |levels| (1..levels).fold(list(&[]), |inner, _| list(&[inner]));
    assert!(matches!(answer(&nested(32)), Said::Value(..)));
    assert_eq!(answer(&nested(33)), Said::Exhausted(Limit::Nesting, counts(33, 32, 0)));
    let present = (0..33).fold(null(), |inner, _| function("optional.of", &[inner]));
    assert_eq!(answer(&present), Said::Exhausted(Limit::Nesting, counts(34, 33, 0)));
}

/// A room that is larger than the most counts as the most.
#[test]
fn rooms_above_the_most() {
    // a list of 256, then 15 and 16 times itself: 256 + 256 * 15 cells are 4,096
    let mut bindings = Bindings::<256, 1024>::new();
    bindings.bring_in(5, table(&list(&vec![null(); 256])).rule()).unwrap();
    bindings.bring_in(6, table(&string(&"a".repeat(1_024))).rule()).unwrap();
    let times = |bound: u8, many: usize| {
        let items = list(&vec![null(); many]);
        let both = binary("+", name(bound), if bound == 5 { list(&[]) } else { string("") });
        let one = function("size", &[both]);
        table(&comprehension(1, 0, [items, int(0), boolean(true), one, name(1)]))
    };
    let mut large = Box::new(Room::<{ MOST_CELLS + 100 }, { MOST_TEXT_BYTES + 100 }>::new());
    let counts = evaluate(times(5, 15).rule(), &bindings, &mut large, MOST_STEPS).counts();
    assert_eq!(counts.cells, 15 + 15 * 256);
    let more = times(5, 16);
    let Answer::Exhausted { limit: Limit::Cells, counts } = evaluate(more.rule(), &bindings, &mut large, MOST_STEPS)
    else {
        panic!()
    };
    assert_eq!(counts.cells, 16 + 15 * 256);
    let counts = evaluate(times(6, 16).rule(), &bindings, &mut large, MOST_STEPS).counts();
    assert_eq!(counts.bytes, MOST_TEXT_BYTES);
    let more = times(6, 17);
    let Answer::Exhausted { limit: Limit::Text, counts } = evaluate(more.rule(), &bindings, &mut large, MOST_STEPS)
    else {
        panic!()
    };
    assert_eq!(counts.bytes, MOST_TEXT_BYTES);
}

#[test]
fn exhaustion_clears_what_it_charged_and_nothing_else() {
    let rule = table(&list(&[binary("+", string("ab"), string("c")), list(&[int(1), int(2)]), list(&vec![null(); 9])]));
    let mut slices = Slices::new(0, 0, 24, 8);
    assert_eq!(slices.evaluate(rule.rule(), 100), EXHAUSTED);
    assert_eq!(slices.answer[1], Limit::Cells.number().into());
    assert_eq!(slices.answer[3..6], [8, 5, 3]);
    assert_eq!((&slices.cells[..10], &slices.cells[10..]), (&[0; 10][..], &[BEFORE; 14][..]));
    assert_eq!((&slices.text[..3], &slices.text[3..]), (&[0; 3][..], &[0xA5; 5][..]));
}

#[test]
fn a_last_odd_word_is_no_cell() {
    let two = table(&list(&[null(), null()]));
    for (words, which) in [(3, EXHAUSTED), (4, VALUE), (5, VALUE)] {
        let mut slices = Slices::new(0, 0, words, 0);
        assert_eq!(slices.evaluate(two.rule(), 100), which);
        assert!(slices.cells.iter().skip(4).all(|word| *word == BEFORE));
    }
}

#[test]
fn limits_have_numbers_and_words() {
    assert_eq!(Limit::ALL, [Limit::Steps, Limit::Cells, Limit::Text, Limit::Nesting]);
    assert_eq!(Limit::of_number(4), Some(Limit::Nesting));
    assert_eq!(Limit::of_number(5), None);
    assert_eq!(Limit::Text.to_string(), "text");
}
