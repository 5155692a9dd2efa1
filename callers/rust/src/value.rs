//! Values where they lie, walked part by part.
use crate::constants as c;
use crate::raw;
use crate::reasons::not_the_header;
use std::fmt;

/// What values lie in: the literal text of a table, the bindings' cells and text, the evaluation's.
#[derive(Clone, Copy)]
pub(crate) struct Lent<'a> {
    pub literal: &'a [u8],
    pub binding_cells: &'a [u64],
    pub binding_text: &'a [u8],
    pub cells: &'a [u64],
    pub text: &'a [u8],
}

/// A value in the rooms that it was made in. Copying it copies two words and where they belong; nothing is read until it is asked for.
#[derive(Clone, Copy)]
pub struct Value<'a> {
    head: u64,
    payload: u64,
    lent: Lent<'a>,
}

/// What a value is: a scalar's value, a text where it lies, a container to be walked.
#[derive(Clone, Copy, Debug)]
pub enum Shape<'a> {
    Null,
    Bool(bool),
    Int(i64),
    Uint(u64),
    /// By its bits, those of a NaN too.
    Double(f64),
    String(&'a str),
    Bytes(&'a [u8]),
    List(List<'a>),
    Map(Map<'a>),
    Optional(Option<Value<'a>>),
}

/// The elements of a List.
#[derive(Clone, Copy)]
pub struct List<'a> {
    value: Value<'a>,
    count: usize,
}

/// The entries of a Map, in the order in which they were made.
#[derive(Clone, Copy)]
pub struct Map<'a> {
    value: Value<'a>,
    count: usize,
}

/// A function of the library that gives a part by its index.
type Part = fn(&[u64], &[u64], u64, u64, usize, &mut [u64]) -> u8;

impl<'a> Value<'a> {
    /// The value of two words; none where they are of no value.
    pub(crate) fn of_words(head: u64, payload: u64, lent: Lent<'a>) -> Option<Value<'a>> {
        let value = Value { head, payload, lent };
        (value.words()[c::SHAPE_KIND] != u64::from(c::NOTHING)).then_some(value)
    }

    fn words(self) -> [u64; c::SHAPE_WORDS] {
        let mut shape = [0; c::SHAPE_WORDS];
        raw::read(self.head, self.payload, &mut shape);
        shape
    }

    /// What the value is. No part of a container is read.
    ///
    /// ```
    /// use ombravelik::{evaluate, Bindings, Room, Rule, Shape};
    ///
    /// // ["a", true]
    /// let rule = Rule::new(&[12, 16, 0, 2, 0, 5, 7, 0, 0, 0, 1, 0, 1, 4, 0, 1], b"a");
    /// let (bindings, mut room) = (Bindings::<0, 0>::new(), Room::<2, 0>::new());
    /// let value = evaluate(rule, &bindings, &mut room, 10).value().unwrap();
    /// let Shape::List(list) = value.shape() else { panic!() };
    /// assert_eq!(list.len(), 2);
    /// assert!(matches!(list.get(0).unwrap().shape(), Shape::String("a")));
    /// assert!(matches!(list.get(1).unwrap().shape(), Shape::Bool(true)));
    /// assert!(list.get(2).is_none());
    /// ```
    pub fn shape(self) -> Shape<'a> {
        let words = self.words();
        let number = words[c::SHAPE_NUMBER];
        let count = words[c::SHAPE_COUNT] as usize;
        match words[c::SHAPE_KIND] as u8 {
            c::NULL => Shape::Null,
            c::BOOL => Shape::Bool(number == 1),
            c::INT => Shape::Int(number as i64),
            c::UINT => Shape::Uint(number),
            c::DOUBLE => Shape::Double(f64::from_bits(number)),
            c::STRING => match std::str::from_utf8(self.text(&words)) {
                Ok(text) => Shape::String(text),
                Err(_) => not_the_header(),
            },
            c::BYTES => Shape::Bytes(self.text(&words)),
            c::LIST => Shape::List(List { value: self, count }),
            c::MAP => Shape::Map(Map { value: self, count }),
            c::OPTIONAL_NONE => Shape::Optional(None),
            c::OPTIONAL_OF => Shape::Optional(Some(self.present())),
            _ => not_the_header(),
        }
    }

    fn text(self, words: &[u64; c::SHAPE_WORDS]) -> &'a [u8] {
        let space = match words[c::SHAPE_SPACE] {
            c::SPACE_LITERAL => self.lent.literal,
            c::SPACE_BINDING => self.lent.binding_text,
            c::SPACE_EVALUATION => self.lent.text,
            _ => not_the_header(),
        };
        let (first, length) = (words[c::SHAPE_FIRST] as usize, words[c::SHAPE_LENGTH] as usize);
        space.get(first..first.saturating_add(length)).unwrap_or_else(|| not_the_header())
    }

    fn part(self, function: Part, index: usize) -> Option<Value<'a>> {
        let mut part = [0; c::PART_WORDS];
        let kind = function(self.lent.binding_cells, self.lent.cells, self.head, self.payload, index, &mut part);
        let [head, payload] = part;
        (kind != c::NOTHING).then_some(Value { head, payload, lent: self.lent })
    }

    fn present(self) -> Value<'a> {
        let mut part = [0; c::PART_WORDS];
        let kind = raw::present(self.lent.binding_cells, self.lent.cells, self.head, self.payload, &mut part);
        if kind == c::NOTHING {
            not_the_header()
        }
        let [head, payload] = part;
        Value { head, payload, lent: self.lent }
    }
}

impl<'a> List<'a> {
    pub fn len(self) -> usize {
        self.count
    }

    pub fn is_empty(self) -> bool {
        self.count == 0
    }

    /// Element `index`, from 0.
    pub fn get(self, index: usize) -> Option<Value<'a>> {
        self.value.part(raw::element, index)
    }

    /// The elements in order.
    pub fn iter(self) -> impl ExactSizeIterator<Item = Value<'a>> {
        (0..self.count).map(move |index| self.get(index).unwrap_or_else(|| not_the_header()))
    }
}

impl<'a> Map<'a> {
    pub fn len(self) -> usize {
        self.count
    }

    pub fn is_empty(self) -> bool {
        self.count == 0
    }

    /// The key and the value of entry `index`, from 0.
    pub fn get(self, index: usize) -> Option<(Value<'a>, Value<'a>)> {
        Some((self.value.part(raw::key, index)?, self.value.part(raw::value, index)?))
    }

    /// The entries in order.
    pub fn iter(self) -> impl ExactSizeIterator<Item = (Value<'a>, Value<'a>)> {
        (0..self.count).map(move |index| self.get(index).unwrap_or_else(|| not_the_header()))
    }
}

/// What the value is, and for a container how many parts it has. Parts may be shared, so there can be too many to write.
impl fmt::Debug for Value<'_> {
    fn fmt(&self, f: &mut fmt::Formatter<'_>) -> fmt::Result {
        match self.shape() {
            Shape::Optional(Some(_)) => f.write_str("Optional(present)"),
            other => other.fmt(f),
        }
    }
}

impl fmt::Debug for List<'_> {
    fn fmt(&self, f: &mut fmt::Formatter<'_>) -> fmt::Result {
        write!(f, "{} elements", self.count)
    }
}

impl fmt::Debug for Map<'_> {
    fn fmt(&self, f: &mut fmt::Formatter<'_>) -> fmt::Result {
        write!(f, "{} entries", self.count)
    }
}
