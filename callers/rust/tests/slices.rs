//! The functions on slices: those that are too short or too long for what is written, and any words read as values.
mod common;
use common::damage::*;
use common::*;
use ombravelik::constants::*;
use ombravelik::raw;

#[test]
fn answers_shapes_and_parts_that_are_too_short() {
    let before = slices();
    let rule = table(&null());
    for length in 0..ANSWER_WORDS {
        let mut short = before.clone();
        short.answer.truncate(length);
        let kept = short.clone();
        assert_eq!(short.evaluate(rule.rule(), 9), NO_ROOM);
        assert_eq!(short.bring_in(5, rule.rule()), NO_ROOM);
        assert_eq!(raw::check(&rule.table, &rule.literal, &mut short.answer), NO_ROOM);
        assert_eq!(short, kept);
    }
    let mut words = [BEFORE; SHAPE_WORDS];
    for length in 0..SHAPE_WORDS {
        assert_eq!(raw::read(2, 7, &mut words[..length]), NO_ROOM);
    }
    for length in 0..PART_WORDS {
        let part = &mut words[..length];
        assert_eq!(raw::element(&[], &[], 12, 0, 0, part), NO_ROOM);
        assert_eq!(raw::key(&[], &[], 13, 0, 0, part), NO_ROOM);
        assert_eq!(raw::value(&[], &[], 13, 0, 0, part), NO_ROOM);
        assert_eq!(raw::present(&[], &[], 15, 0, part), NO_ROOM);
    }
    assert_eq!(words, [BEFORE; SHAPE_WORDS]);
}

#[test]
fn words_behind_what_is_written_are_left() {
    let rule = table(&null());
    let mut longer = slices();
    longer.answer = vec![BEFORE; 12];
    for call in 0..3 {
        match call {
            0 => longer.evaluate(rule.rule(), 9),
            1 => longer.bring_in(5, rule.rule()),
            _ => raw::check(&rule.table, &rule.literal, &mut longer.answer),
        };
        assert_eq!(longer.answer[8..], [BEFORE; 4]);
        assert_ne!(longer.answer[7], BEFORE);
    }
    let mut words = [BEFORE; 9];
    assert_eq!(raw::read(2, 7, &mut words), INT);
    assert_eq!(words, [2, 7, 0, 0, 0, 0, BEFORE, BEFORE, BEFORE]);
    let mut words = [BEFORE; 4];
    assert_eq!(raw::element(&[3, 5], &[], 12 + (1 << 16) + (1 << 24), 0, 0, &mut words), UINT);
    assert_eq!(words, [3, 5, BEFORE, BEFORE]);
}

/// Any two words are read as a value or as none, over any cells.
#[test]
fn any_words_can_be_read() {
    let cells: Vec<u64> = words();
    let (mut shape, mut part) = ([0; SHAPE_WORDS], [0; PART_WORDS]);
    let mut kinds = [0; 17];
    for head in words() {
        for payload in [0, 1, 2, 3, 50, 0xFFFF, 0x1_0000, u64::MAX] {
            let kind = raw::read(head, payload, &mut shape);
            assert_eq!(shape[SHAPE_KIND], kind.into());
            kinds[usize::from(kind)] += 1;
            for index in [0, 1, 7, 0xFFFF, usize::MAX] {
                for function in [raw::element, raw::key, raw::value] {
                    let part_kind = function(&cells, &cells[1..6], head, payload, index, &mut part);
                    assert_eq!(raw::read(part[0], part[1], &mut shape), part_kind);
                }
            }
            let held = raw::present(&cells, &[], head, payload, &mut part);
            assert!(held == NOTHING || kind == OPTIONAL_OF);
        }
    }
    assert!(kinds.iter().enumerate().all(|(kind, seen)| (*seen > 0) == matches!(kind, 0..=6 | 12..=16)), "{kinds:?}");
}
