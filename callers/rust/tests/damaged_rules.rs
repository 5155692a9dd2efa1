//! Damaged tables and literal text, limits and rooms of every size: there is an answer, a refusal changes nothing that is lent, and a value can be
//! walked to its end.
mod common;
use common::damage::*;
use common::*;
use ombravelik::constants::*;
use ombravelik::{evaluate, Bindings, Room, Rule};

#[test]
fn the_rule_that_is_damaged_has_a_value() {
    let mut tally = Tally::default();
    assert_eq!(tally.count(&slices(), rule_of_many_kinds().rule(), 1_000), VALUE);
}

#[test]
fn every_cut_of_a_table_is_refused() {
    let rule = rule_of_many_kinds();
    let before = slices();
    for length in 0..rule.table.len() {
        let cut = Rule::new(&rule.table[..length], &rule.literal);
        assert!(cut.check().is_err());
        assert_eq!(answered(&before, cut, 1_000).0, REFUSED);
    }
}

#[test]
fn every_byte_of_a_table_changed() {
    let rule = rule_of_many_kinds();
    let before = slices();
    let mut tally = Tally::default();
    for place in 0..rule.table.len() {
        for other in (0..=16).chain([31, 32, 63, 64, 127, 128, 200, 254, 255]) {
            let mut damaged = rule.clone();
            damaged.table[place] = other;
            let which = tally.count(&before, damaged.rule(), 1_000);
            assert_eq!(damaged.rule().check().is_err(), which == REFUSED);
        }
    }
    assert!(tally.0[1] > 100 && tally.0[2] > 100 && tally.0[4] > 1_000, "{tally:?}");
}

#[test]
fn every_step_limit() {
    let rule = rule_of_many_kinds();
    let before = slices();
    let mut tally = Tally::default();
    for steps in 0..100 {
        tally.count(&before, rule.rule(), steps);
    }
    assert!(tally.0[1] > 10 && tally.0[3] > 10, "{tally:?}");
}

#[test]
fn literal_text_that_is_cut_or_changed() {
    let rule = rule_of_many_kinds();
    let before = slices();
    for length in 0..rule.literal.len() {
        assert_eq!(answered(&before, Rule::new(&rule.table, &rule.literal[..length]), 1_000).0, REFUSED);
    }
    let mut tally = Tally::default();
    for place in 0..rule.literal.len() {
        for other in [0, 0x7F, 0x80, 0xC0, 0xC3, 0xED, 0xF5, 0xFF] {
            let mut damaged = rule.clone();
            damaged.literal[place] = other;
            tally.count(&before, damaged.rule(), 1_000);
        }
    }
    assert!(tally.0[1] + tally.0[2] > 10 && tally.0[4] > 10, "{tally:?}");
}

#[test]
fn evaluation_rooms_of_every_length() {
    let before = slices();
    let rule = rule_of_many_kinds();
    let mut tally = Tally::default();
    for words in 0..before.cells.len() {
        let mut damaged = before.clone();
        damaged.cells.truncate(words);
        tally.count(&damaged, rule.rule(), 1_000);
    }
    for bytes in 0..before.text.len() {
        let mut damaged = before.clone();
        damaged.text.truncate(bytes);
        tally.count(&damaged, rule.rule(), 1_000);
    }
    assert!(tally.0[1] > 10 && tally.0[3] > 10, "{tally:?}");
}

/// Bytes from a small generator, as tables: with kinds, extents and fields that are often right.
#[test]
fn made_up_tables() {
    let mut seed = 0x1234_5678_9ABC_DEF0u64;
    let mut draw = |below: u64| {
        seed = seed.wrapping_mul(6_364_136_223_846_793_005).wrapping_add(1_442_695_040_888_963_407);
        (seed >> 33) % below
    };
    let before = slices();
    let rule = rule_of_many_kinds();
    let mut tally = Tally::default();
    for _ in 0..20_000 {
        let mut damaged = rule.clone();
        for _ in 0..=draw(3) {
            let place = draw(rule.table.len() as u64) as usize;
            damaged.table[place] = if draw(2) == 0 { draw(18) as u8 } else { draw(256) as u8 };
        }
        tally.count(&before, damaged.rule(), draw(200) as usize);
        let length = draw(12) as usize;
        let small: Vec<u8> = (0..length).map(|_| draw(18) as u8).collect();
        tally.count(&before, Rule::new(&small, &rule.literal), 100);
    }
    assert!(tally.0[1] > 100 && tally.0[2] > 100 && tally.0[3] > 100 && tally.0[4] > 10_000, "{tally:?}");
}

#[test]
fn a_refused_rule_leaves_the_room() {
    let mut room = Room::<3, 3>::new();
    room.cells = [[BEFORE; 2]; 3];
    room.text = [0xA5; 3];
    let before = room.clone();
    evaluate(Rule::new(&[], &[]), &Bindings::<0, 0>::new(), &mut room, 9);
    assert_eq!(room, before);
}
