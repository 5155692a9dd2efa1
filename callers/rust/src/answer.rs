//! Evaluation, and what it answers.
use crate::bindings::Bindings;
use crate::constants as c;
use crate::raw;
use crate::reasons::{not_the_header, refusal_in, Error, Limit, Refusal};
use crate::room::Room;
use crate::rule::Rule;
use crate::value::{Lent, Value};

/// What an evaluation was charged.
#[derive(Clone, Copy, Debug, PartialEq, Eq, Hash, Default)]
pub struct Counts {
    pub steps: usize,
    pub cells: usize,
    /// Bytes of text.
    pub bytes: usize,
}

/// What an evaluation answers.
#[derive(Clone, Copy, Debug)]
pub enum Answer<'a> {
    /// The rule's value, which lies in the lent memory.
    Value { value: Value<'a>, counts: Counts },
    /// An error, with the place in the table of the record whose rule gave it.
    Error { error: Error, place: usize, counts: Counts },
    /// The next charge would have passed a limit.
    Exhausted { limit: Limit, counts: Counts },
    /// Nothing was evaluated, and the room was not changed.
    Refused(Refusal),
}

impl<'a> Answer<'a> {
    /// The value, if it is one.
    pub fn value(self) -> Option<Value<'a>> {
        match self {
            Answer::Value { value, .. } => Some(value),
            _ => None,
        }
    }

    /// What was charged; nothing after a refusal.
    pub fn counts(self) -> Counts {
        match self {
            Answer::Value { counts, .. } | Answer::Error { counts, .. } | Answer::Exhausted { counts, .. } => counts,
            Answer::Refused(_) => Counts::default(),
        }
    }
}

/// Evaluates a rule over bindings, in a room, with at most `steps` steps; more than 1,000,000 count as 1,000,000.
///
/// ```
/// use ombravelik::{evaluate, Answer, Bindings, Error, Limit, Room, Rule, Shape};
///
/// let bindings = Bindings::<0, 0>::new();
/// let mut room = Room::<8, 8>::new();
///
/// // x || true, with name 0 for x, which has no value
/// let rule = Rule::new(&[9, 12, 0, 1, 7, 4, 0, 0, 1, 4, 0, 1], &[]);
/// let Answer::Value { value, counts } = evaluate(rule, &bindings, &mut room, 100) else { panic!() };
/// assert!(matches!(value.shape(), Shape::Bool(true)));
/// assert_eq!(counts.steps, 3);
///
/// // with two steps it cannot end
/// let short = evaluate(rule, &bindings, &mut room, 2);
/// assert!(matches!(short, Answer::Exhausted { limit: Limit::Steps, .. }));
///
/// // x alone
/// let unbound = evaluate(Rule::new(&[7, 4, 0, 0], &[]), &bindings, &mut room, 100);
/// assert!(matches!(unbound, Answer::Error { error: Error::UndeclaredReference, place: 0, .. }));
/// ```
///
/// As long as its value is in use, the room cannot serve another evaluation:
///
/// ```compile_fail,E0499
/// # use ombravelik::{evaluate, Bindings, Room, Rule};
/// # let (bindings, rule) = (Bindings::<0, 0>::new(), Rule::new(&[0, 3, 0], &[]));
/// let mut room = Room::<8, 8>::new();
/// let first = evaluate(rule, &bindings, &mut room, 10);
/// let second = evaluate(rule, &bindings, &mut room, 10);
/// first.value();
/// ```
pub fn evaluate<'a, const BC: usize, const BB: usize, const C: usize, const B: usize>(
    rule: Rule<'a>,
    bindings: &'a Bindings<BC, BB>,
    room: &'a mut Room<C, B>,
    steps: usize,
) -> Answer<'a> {
    evaluate_in(rule, bindings, &mut room.cells, &mut room.text, steps)
}

/// The same in slices of any lengths, which are the limits: a part of a [`Room`], or memory of the caller's own.
///
/// ```
/// use ombravelik::{evaluate_in, Answer, Bindings, Limit, Room, Rule};
///
/// // [null, null], with one cell of the room
/// let pair = Rule::new(&[12, 11, 0, 2, 0, 0, 3, 0, 0, 3, 0], &[]);
/// let bindings = Bindings::<0, 0>::new();
/// let mut room = Room::<8, 8>::new();
/// let answer = evaluate_in(pair, &bindings, &mut room.cells[..1], &mut room.text, 100);
/// assert!(matches!(answer, Answer::Exhausted { limit: Limit::Cells, .. }));
/// ```
pub fn evaluate_in<'a, const BC: usize, const BB: usize>(
    rule: Rule<'a>,
    bindings: &'a Bindings<BC, BB>,
    cells: &'a mut [[u64; 2]],
    text: &'a mut [u8],
    steps: usize,
) -> Answer<'a> {
    let mut answer = [0; c::ANSWER_WORDS];
    let bound = bindings.lent();
    let which = raw::evaluate(
        rule.table,
        rule.literal,
        bindings.state(),
        bound.binding_cells,
        bound.binding_text,
        cells.as_flattened_mut(),
        text,
        steps,
        &mut answer,
    );
    let lent = Lent { literal: rule.literal, cells: cells.as_flattened(), text, ..bound };
    said(which, &answer, lent)
}

/// The answer that the library returned and wrote.
fn said<'a>(which: u8, answer: &[u64; c::ANSWER_WORDS], lent: Lent<'a>) -> Answer<'a> {
    let counts = Counts {
        steps: answer[c::ANSWER_STEPS] as usize,
        cells: answer[c::ANSWER_CELLS] as usize,
        bytes: answer[c::ANSWER_BYTES] as usize,
    };
    let known = match which {
        c::VALUE => Value::of_words(answer[c::ANSWER_HEAD], answer[c::ANSWER_PAYLOAD], lent)
            .map(|value| Answer::Value { value, counts }),
        c::ERROR => Error::of_number(answer[c::ANSWER_NUMBER]).map(|error| Answer::Error {
            error,
            place: answer[c::ANSWER_PLACE] as usize,
            counts,
        }),
        c::EXHAUSTED => Limit::of_number(answer[c::ANSWER_NUMBER]).map(|limit| Answer::Exhausted { limit, counts }),
        c::REFUSED => Some(Answer::Refused(refusal_in(answer))),
        _ => None,
    };
    known.unwrap_or_else(|| not_the_header())
}
