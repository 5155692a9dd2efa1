//! Values under names: a binding room and its state.
use crate::constants::{
    ANSWER_WORDS, DONE, MOST_CELLS, MOST_TEXT_BYTES, NAMES, STATE_BYTES, STATE_CELLS, STATE_WORDS, VALUE,
};
use crate::raw;
use crate::reasons::{done_or_refused, not_the_header, refusal_in, Refusal};
use crate::rule::Rule;
use crate::value::{Lent, Value};

/// The rule `null`, which tells nothing but whether the bindings are sound.
const NULL_RULE: [u8; 3] = [0, 3, 0];

/// Names with their values, in a room of as many cells and bytes as the type says. What is beyond 4,096 cells and 16,384 bytes is not used.
/// It is sound at all times: it holds what was brought in, or was judged by [`Bindings::from_parts`]. Two are equal if all their words are.
///
/// ```
/// use ombravelik::{Bindings, Owned};
///
/// let mut bindings = Bindings::<16, 64>::new();
/// let record = Owned::Map(vec![(Owned::String("speed".into()), Owned::Double(88.5))]);
/// bindings.bring_in(0, record.spelled().unwrap().rule())?;
/// assert_eq!(bindings.get(0).unwrap().copied(100), Ok(record));
/// assert_eq!((bindings.used_cells(), bindings.used_bytes()), (2, 5));
/// bindings.clear();
/// assert!(bindings.get(0).is_none());
/// # Ok::<(), ombravelik::Refusal>(())
/// ```
#[derive(Clone, Debug, PartialEq, Eq)]
pub struct Bindings<const CELLS: usize = MOST_CELLS, const BYTES: usize = MOST_TEXT_BYTES> {
    state: [u64; STATE_WORDS],
    cells: [[u64; 2]; CELLS],
    text: [u8; BYTES],
}

impl<const CELLS: usize, const BYTES: usize> Bindings<CELLS, BYTES> {
    /// No name is bound.
    pub fn new() -> Self {
        let mut bindings = Bindings { state: [0; STATE_WORDS], cells: [[0; 2]; CELLS], text: [0; BYTES] };
        bindings.clear();
        bindings
    }

    /// Unbinds every name; then all of the room serves again.
    pub fn clear(&mut self) {
        if raw::empty(&mut self.state) != DONE {
            not_the_header()
        }
    }

    /// Brings in the value that a table of literals spells, under a name from 0 to 127 that has none. A refusal changes nothing.
    ///
    /// ```
    /// use ombravelik::{Bindings, Reason, Refusal, Rule};
    ///
    /// let mut bindings = Bindings::<16, 64>::new();
    /// let null = Rule::new(&[0, 3, 0], &[]);
    /// assert_eq!(bindings.bring_in(7, null), Ok(()));
    /// assert_eq!(bindings.bring_in(7, null), Err(Refusal { reason: Reason::NameBound, place: 0 }));
    /// assert_eq!(bindings.bring_in(128, null), Err(Refusal { reason: Reason::WrongField, place: 0 }));
    /// ```
    pub fn bring_in(&mut self, name: usize, value: Rule<'_>) -> Result<(), Refusal> {
        let mut answer = [0; ANSWER_WORDS];
        let which = raw::bring_in(
            &mut self.state,
            self.cells.as_flattened_mut(),
            &mut self.text,
            name,
            value.table,
            value.literal,
            &mut answer,
        );
        done_or_refused(which, &answer)
    }

    /// What a name has.
    pub fn get(&self, name: usize) -> Option<Value<'_>> {
        if name >= NAMES {
            return None;
        }
        Value::of_words(self.state[2 * name], self.state[2 * name + 1], self.lent())
    }

    /// How many cells the bindings take.
    pub fn used_cells(&self) -> usize {
        self.state[STATE_CELLS] as usize
    }

    /// How many bytes of text they take.
    pub fn used_bytes(&self) -> usize {
        self.state[STATE_BYTES] as usize
    }

    /// The words to store: the state, the cells and the text. They belong together.
    pub fn parts(&self) -> (&[u64; STATE_WORDS], &[[u64; 2]; CELLS], &[u8; BYTES]) {
        (&self.state, &self.cells, &self.text)
    }

    /// Bindings from stored words, which may be any: what is not sound (docs/FORMAT.md, "Binding rooms") is refused, with the first bad cell.
    ///
    /// For words that bindings made, judging takes time linear in the cells, and for each Map time in the pairs of its keys. For words that someone
    /// made up it can take hours (docs/FORMAT.md, "Binding rooms"): know where they come from.
    ///
    /// ```
    /// use ombravelik::{Bindings, Reason, Rule};
    ///
    /// let mut bindings = Bindings::<4, 8>::new();
    /// bindings.bring_in(3, Rule::new(&[1, 4, 0, 1], &[])).unwrap();
    /// let (state, cells, text) = bindings.parts();
    /// assert_eq!(Bindings::from_parts(*state, *cells, *text).as_ref(), Ok(&bindings));
    /// let nothing = Bindings::from_parts([0; 259], *cells, *text);
    /// assert_eq!(nothing.unwrap_err().reason, Reason::UnsoundBinding);
    /// ```
    pub fn from_parts(state: [u64; STATE_WORDS], cells: [[u64; 2]; CELLS], text: [u8; BYTES]) -> Result<Self, Refusal> {
        let mut answer = [0; ANSWER_WORDS];
        let which =
            raw::evaluate(&NULL_RULE, &[], &state, cells.as_flattened(), &text, &mut [], &mut [], 1, &mut answer);
        if which == VALUE {
            Ok(Bindings { state, cells, text })
        } else {
            Err(refusal_in(&answer))
        }
    }

    /// The words of the state, as the library takes them.
    pub(crate) fn state(&self) -> &[u64] {
        &self.state
    }

    /// What a value of these bindings lies in.
    pub(crate) fn lent(&self) -> Lent<'_> {
        Lent { literal: &[], binding_cells: self.cells.as_flattened(), binding_text: &self.text, cells: &[], text: &[] }
    }
}

impl<const CELLS: usize, const BYTES: usize> Default for Bindings<CELLS, BYTES> {
    fn default() -> Self {
        Self::new()
    }
}
