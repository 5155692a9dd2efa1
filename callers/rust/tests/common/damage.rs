//! Damage: a rule and bindings to be damaged, words to damage them with, and what must hold of every answer.
use super::*;
use ombravelik::constants::*;

/// A rule with records of many kinds, over names 0 and 1.
pub fn rule_of_many_kinds() -> Table {
    let test = binary(">", select(name(2), "speed"), double(1.5));
    let chosen = comprehension(
        3,
        2,
        [
            name(1),
            list(&[]),
            boolean(true),
            conditional(test, binary("+", name(3), list(&[name(2)])), name(3)),
            name(3),
        ],
    );
    let label = binary("+", string("né"), binary("[]", name(0), uint(1)));
    let optional = function("orValue", &[binary("[?]", name(0), int(9)), bytes(&[0xFF])]);
    table(&map(&[
        (string("chosen"), chosen),
        (int(-1), list(&[label, mark(optional), unary("-", int(4))])),
        (boolean(false), function("size", &[name(1)])),
    ]))
}

/// The bindings that it is evaluated over, and room for it.
pub fn slices() -> Slices {
    let mut slices = Slices::new(24, 40, 60, 60);
    let speeds =
        list(&[map(&[(string("speed"), double(1.0))]), map(&[(string("speed"), double(2.0)), (int(3), null())])]);
    assert_eq!(slices.bring_in(0, table(&map(&[(int(1), string("größe"))])).rule()), DONE);
    assert_eq!(slices.bring_in(1, table(&speeds).rule()), DONE);
    slices
}

/// Evaluates, and sees that the answer is one and the lent memory is as the header says.
pub fn answered(before: &Slices, rule: Rule<'_>, steps: usize) -> (u8, Slices) {
    let mut after = before.clone();
    let which = after.evaluate(rule, steps);
    assert_eq!(u64::from(which), after.answer[ANSWER_WHICH]);
    let cells = after.answer[ANSWER_CELLS] as usize;
    let bytes = after.answer[ANSWER_BYTES] as usize;
    assert_eq!((&after.cells[2 * cells..], &after.text[bytes..]), (&before.cells[2 * cells..], &before.text[bytes..]));
    assert!(after.answer[ANSWER_STEPS] as usize <= steps);
    match which {
        VALUE => assert!(walked(&after, after.answer[ANSWER_HEAD], after.answer[ANSWER_PAYLOAD], 32)),
        ERROR => assert!((1..=13).contains(&after.answer[ANSWER_NUMBER])),
        EXHAUSTED => assert!((1..=4).contains(&after.answer[ANSWER_NUMBER])),
        REFUSED => {
            assert!((1..=8).contains(&after.answer[ANSWER_NUMBER]));
            assert_eq!((cells, bytes), (0, 0));
        }
        _ => panic!("{which}"),
    }
    if which == ERROR || which == EXHAUSTED {
        assert!(after.cells[..2 * cells].iter().all(|word| *word == 0));
        assert!(after.text[..bytes].iter().all(|byte| *byte == 0));
    }
    after.answer.clone_from(&before.answer);
    (which, Slices { cells: vec![], text: vec![], ..after })
}

pub type Part = fn(&[u64], &[u64], u64, u64, usize, &mut [u64]) -> u8;

/// Whether a value and its parts are values that nest at most so deep.
pub fn walked(slices: &Slices, head: u64, payload: u64, levels: usize) -> bool {
    let (mut shape, mut part) = ([0; SHAPE_WORDS], [0; PART_WORDS]);
    let kind = raw::read(head, payload, &mut shape);
    let count = shape[SHAPE_COUNT] as usize;
    let (bound, cells) = (&slices.binding_cells, &slices.cells);
    let functions: &[Part] = match kind {
        NOTHING => return false,
        LIST => &[raw::element],
        MAP => &[raw::key, raw::value],
        OPTIONAL_OF => {
            raw::present(bound, cells, head, payload, &mut part);
            return levels > 0 && walked(slices, part[0], part[1], levels - 1);
        }
        _ => return true,
    };
    levels > 0
        && functions.iter().all(|function| {
            (0..count).all(|index| {
                function(bound, cells, head, payload, index, &mut part);
                walked(slices, part[0], part[1], levels - 1)
            }) && function(bound, cells, head, payload, count, &mut part) == NOTHING
        })
}

/// How often each answer came; every damage keeps what is only read.
#[derive(Default, Debug)]
pub struct Tally(pub [usize; 5]);

impl Tally {
    pub fn count(&mut self, before: &Slices, rule: Rule<'_>, steps: usize) -> u8 {
        let (which, after) = answered(before, rule, steps);
        assert_eq!(after, Slices { cells: vec![], text: vec![], ..before.clone() });
        self.0[usize::from(which)] += 1;
        which
    }
}

/// Words with which others are damaged: small numbers, heads of every kind in every space, large numbers.
pub fn words() -> Vec<u64> {
    let mut words: Vec<u64> = (0..20).collect();
    for kind in [5, 6, 12, 13, 14, 15, 16] {
        for space in 0..4 {
            for nesting in [0, 1, 2, 33, 255] {
                words.extend(
                    [0u64, 1, 2, 0xFFFF, 0x1_0000].map(|length| kind + (space << 8) + (nesting << 16) + (length << 24)),
                );
            }
        }
    }
    words.extend([127, 128, 255, 256, 4_096, 16_384, 0xFFFF, 1 << 16, 1 << 32, 1 << 63, u64::MAX - 1, u64::MAX]);
    words
}

/// Evaluates over damaged bindings; those that are not refused are sound, and are read as they are.
pub fn over_damaged(before: &Slices, rule: Rule<'_>, tally: &mut Tally) {
    if tally.count(before, rule, 1_000) == REFUSED {
        let mut after = before.clone();
        assert_eq!(after.bring_in(5, table(&null()).rule()), REFUSED);
        assert_eq!(after.answer[ANSWER_NUMBER], u64::from(REFUSAL_UNSOUND_BINDING));
        after.answer.clone_from(&before.answer);
        assert_eq!(&after, before);
    } else {
        for name in 0..NAMES {
            let (head, payload) = (before.state[2 * name], before.state[2 * name + 1]);
            assert!((head, payload) == (16, 0) || walked(before, head, payload, 32));
        }
    }
}
