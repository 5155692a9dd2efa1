//! Damaged states, binding cells and binding text: what no bindings make is refused, and what is accepted can be walked to its end.
mod common;
use common::damage::*;
use common::*;
use ombravelik::constants::*;
use ombravelik::{raw, Bindings, Reason};

#[test]
fn every_word_of_a_state_changed() {
    let rule = rule_of_many_kinds();
    let before = slices();
    let mut tally = Tally::default();
    for place in 0..STATE_WORDS {
        // of the names that are not bound, fewer
        let each = if (12..STATE_CELLS).contains(&place) { 19 } else { 1 };
        for other in words().into_iter().step_by(each) {
            let mut damaged = before.clone();
            damaged.state[place] = other;
            over_damaged(&damaged, rule.rule(), &mut tally);
        }
    }
    assert!(tally.0[1] > 10 && tally.0[2] > 10 && tally.0[4] > 1_000, "{tally:?}");
}

#[test]
fn every_word_of_the_binding_cells_changed() {
    let rule = rule_of_many_kinds();
    let before = slices();
    let mut tally = Tally::default();
    for place in 0..before.binding_cells.len() {
        for other in words() {
            let mut damaged = before.clone();
            damaged.binding_cells[place] = other;
            over_damaged(&damaged, rule.rule(), &mut tally);
        }
    }
    assert!(tally.0[1] > 10 && tally.0[4] > 1_000, "{tally:?}");
}

#[test]
fn every_byte_of_the_binding_text_changed() {
    let rule = rule_of_many_kinds();
    let before = slices();
    let mut tally = Tally::default();
    for place in 0..before.binding_text.len() {
        for other in [0, b'a', 0x80, 0xC3, 0xFF] {
            let mut damaged = before.clone();
            damaged.binding_text[place] = other;
            over_damaged(&damaged, rule.rule(), &mut tally);
        }
    }
    assert!(tally.0[1] > 10 && tally.0[2] > 10 && tally.0[4] > 10, "{tally:?}");
}

#[test]
fn the_first_bad_cell_is_the_place() {
    let mut slices = Slices::new(16, 0, 0, 0);
    assert_eq!(slices.bring_in(0, table(&list(&vec![null(); 8])).rule()), DONE);
    for cell in (0..8).rev() {
        slices.binding_cells[2 * cell] = 99;
        assert_eq!(slices.evaluate(table(&null()).rule(), 9), REFUSED);
        assert_eq!(slices.answer[1..3], [8, cell as u64]);
    }
}

#[test]
fn binding_rooms_that_are_too_short() {
    let before = slices();
    let rule = rule_of_many_kinds();
    let mut tally = Tally::default();
    let used_words = 2 * before.state[STATE_CELLS] as usize;
    let used_bytes = before.state[STATE_BYTES] as usize;
    for words in 0..before.binding_cells.len() {
        let mut damaged = before.clone();
        damaged.binding_cells.truncate(words);
        assert_eq!(tally.count(&damaged, rule.rule(), 1_000) == REFUSED, words < used_words);
    }
    for bytes in 0..before.binding_text.len() {
        let mut damaged = before.clone();
        damaged.binding_text.truncate(bytes);
        assert_eq!(tally.count(&damaged, rule.rule(), 1_000) == REFUSED, bytes < used_bytes);
    }
}

#[test]
fn states_of_another_length() {
    let before = slices();
    for length in [0, 1, 2, 256, 258, 260, 518] {
        let mut damaged = before.clone();
        damaged.state.resize(length, 0);
        let kept = damaged.clone();
        assert_eq!(raw::empty(&mut damaged.state), NO_ROOM);
        assert_eq!(damaged, kept);
        assert_eq!(damaged.bring_in(5, table(&null()).rule()), REFUSED);
        assert_eq!(damaged.answer[1..3], [8, 0]);
        assert_eq!(damaged.evaluate(table(&null()).rule(), 9), REFUSED);
        assert_eq!(damaged.answer[1..3], [8, 0]);
        assert_eq!(Slices { answer: kept.answer.clone(), ..damaged }, kept);
    }
}

/// What the crate takes from outside is judged before it is bindings.
#[test]
fn stored_words_are_judged() {
    let mut bindings = Bindings::<8, 8>::new();
    bindings.bring_in(0, table(&list(&[string("ab"), list(&[])])).rule()).unwrap();
    let (state, cells, text) = bindings.parts();
    let reason =
        |state, cells, text| Bindings::<8, 8>::from_parts(state, cells, text).map_err(|refusal| refusal.reason);
    assert_eq!(reason(*state, *cells, *text), Ok(bindings.clone()));
    let mut loops = *cells;
    loops[1] = [12 + (1 << 16) + (1 << 24), 1]; // a List that holds itself
    assert_eq!(reason(*state, loops, *text), Err(Reason::UnsoundBinding));
    let mut no_text = *text;
    no_text[0] = 0xFF;
    assert_eq!(reason(*state, *cells, no_text), Err(Reason::UnsoundBinding));
    let mut optional = *state;
    (optional[0], optional[1]) = (14, 0);
    assert_eq!(reason(optional, *cells, *text), Err(Reason::UnsoundBinding));
    assert_eq!(reason([0; STATE_WORDS], *cells, *text), Err(Reason::UnsoundBinding));
}
