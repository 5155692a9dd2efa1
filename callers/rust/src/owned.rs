//! Values read out as a whole, and spelled as tables.
use crate::constants::{MOST_RECORD_NESTING, MOST_TABLE_BYTES};
use crate::rule::Rule;
use crate::value::{Shape, Value};
use std::fmt;

/// A value with all its parts.
#[derive(Clone, Debug, PartialEq)]
pub enum Owned {
    Null,
    Bool(bool),
    Int(i64),
    Uint(u64),
    Double(f64),
    String(String),
    Bytes(Vec<u8>),
    List(Vec<Owned>),
    /// Keys and values, in the order of the entries.
    Map(Vec<(Owned, Owned)>),
    Optional(Option<Box<Owned>>),
}

/// The value has more parts and bytes than were allowed.
#[derive(Clone, Copy, Debug, PartialEq, Eq)]
pub struct TooLarge;

impl fmt::Display for TooLarge {
    fn fmt(&self, f: &mut fmt::Formatter<'_>) -> fmt::Result {
        f.write_str("the value is larger than the limit allows")
    }
}

impl std::error::Error for TooLarge {}

/// What is left of a limit.
struct Left(usize);

impl Left {
    fn take(&mut self, many: usize) -> Result<(), TooLarge> {
        self.0 = self.0.checked_sub(many).ok_or(TooLarge)?;
        Ok(())
    }

    fn copied(&mut self, value: Value<'_>) -> Result<Owned, TooLarge> {
        Ok(match value.shape() {
            Shape::Null => Owned::Null,
            Shape::Bool(truth) => Owned::Bool(truth),
            Shape::Int(number) => Owned::Int(number),
            Shape::Uint(number) => Owned::Uint(number),
            Shape::Double(number) => Owned::Double(number),
            Shape::String(text) => {
                self.take(text.len())?;
                Owned::String(text.into())
            }
            Shape::Bytes(bytes) => {
                self.take(bytes.len())?;
                Owned::Bytes(bytes.into())
            }
            Shape::List(list) => {
                self.take(list.len())?;
                Owned::List(list.iter().map(|element| self.copied(element)).collect::<Result<_, _>>()?)
            }
            Shape::Map(map) => {
                self.take(2 * map.len())?;
                let entry = |(key, value)| Ok((self.copied(key)?, self.copied(value)?));
                Owned::Map(map.iter().map(entry).collect::<Result<_, _>>()?)
            }
            Shape::Optional(None) => Owned::Optional(None),
            Shape::Optional(Some(part)) => {
                self.take(1)?;
                Owned::Optional(Some(Box::new(self.copied(part)?)))
            }
        })
    }
}

impl Value<'_> {
    /// The value with all its parts, if there are at most `most` of them: one for the value itself, one for each element, key, value and present
    /// part however deep, one for each byte of text. Parts can be shared, so that a value of a few cells has billions of them.
    ///
    /// ```
    /// use ombravelik::{evaluate, Bindings, Owned, Room, Rule, TooLarge};
    ///
    /// // ["a", true]: itself, two elements, a byte
    /// let rule = Rule::new(&[12, 16, 0, 2, 0, 5, 7, 0, 0, 0, 1, 0, 1, 4, 0, 1], b"a");
    /// let (bindings, mut room) = (Bindings::<0, 0>::new(), Room::<2, 0>::new());
    /// let value = evaluate(rule, &bindings, &mut room, 10).value().unwrap();
    /// assert_eq!(value.copied(4), Ok(Owned::List(vec![Owned::String("a".into()), Owned::Bool(true)])));
    /// assert_eq!(value.copied(3), Err(TooLarge));
    /// ```
    pub fn copied(self, most: usize) -> Result<Owned, TooLarge> {
        let mut left = Left(most);
        left.take(1)?;
        left.copied(self)
    }
}

/// A table and its literal text, as they are brought in.
#[derive(Clone, Debug, PartialEq, Eq, Default)]
pub struct Spelled {
    pub table: Vec<u8>,
    pub literal: Vec<u8>,
}

impl Spelled {
    pub fn rule(&self) -> Rule<'_> {
        Rule::new(&self.table, &self.literal)
    }
}

/// A table in the making, and how many records are open.
#[derive(Default)]
struct Spelling {
    table: Vec<u8>,
    literal: Vec<u8>,
    open: usize,
}

impl Spelling {
    /// A record: its kind, its extent when it is whole, the fields and parts that `inside` appends.
    fn record(&mut self, kind: u8, inside: impl FnOnce(&mut Spelling) -> Result<(), TooLarge>) -> Result<(), TooLarge> {
        let place = self.table.len();
        if place > MOST_TABLE_BYTES || self.open == MOST_RECORD_NESTING {
            return Err(TooLarge);
        }
        self.table.extend([kind, 0, 0]);
        self.open += 1;
        inside(self)?;
        self.open -= 1;
        if self.table.len() > MOST_TABLE_BYTES {
            return Err(TooLarge);
        }
        let extent = (self.table.len() - place) as u16;
        self.table[place + 1..place + 3].copy_from_slice(&extent.to_le_bytes());
        Ok(())
    }

    fn plain(&mut self, kind: u8, fields: &[u8]) -> Result<(), TooLarge> {
        self.record(kind, |spelled| {
            spelled.table.extend(fields);
            Ok(())
        })
    }

    fn count(&mut self, number: usize) -> Result<(), TooLarge> {
        let count = u16::try_from(number).map_err(|_| TooLarge)?;
        self.table.extend(count.to_le_bytes());
        Ok(())
    }

    fn text(&mut self, kind: u8, text: &[u8]) -> Result<(), TooLarge> {
        self.record(kind, |spelled| {
            let first = spelled.literal.len();
            spelled.literal.extend(text);
            spelled.count(first)?;
            spelled.count(text.len())
        })
    }

    fn value(&mut self, value: &Owned) -> Result<(), TooLarge> {
        match value {
            Owned::Null => self.plain(0, &[]),
            Owned::Bool(truth) => self.plain(1, &[u8::from(*truth)]),
            Owned::Int(number) => self.plain(2, &number.to_le_bytes()),
            Owned::Uint(number) => self.plain(3, &number.to_le_bytes()),
            Owned::Double(number) => self.plain(4, &number.to_bits().to_le_bytes()),
            Owned::String(text) => self.text(5, text.as_bytes()),
            Owned::Bytes(bytes) => self.text(6, bytes),
            Owned::List(elements) => self.record(12, |spelled| {
                spelled.count(elements.len())?;
                elements.iter().try_for_each(|element| spelled.value(element))
            }),
            Owned::Map(entries) => self.record(13, |spelled| {
                spelled.count(entries.len())?;
                entries.iter().try_for_each(|(key, part)| {
                    spelled.value(key)?;
                    spelled.value(part)
                })
            }),
            Owned::Optional(None) => self.plain(16, &[3]),
            Owned::Optional(Some(part)) => self.record(16, |spelled| {
                spelled.table.push(2);
                spelled.value(part)
            }),
        }
    }
}

impl Owned {
    /// The value as a table of records, to be brought in or to be evaluated to itself; not if it takes more bytes or nests deeper
    /// than a table can. An Optional is spelled too, and is refused as a binding.
    ///
    /// ```
    /// use ombravelik::Owned;
    ///
    /// let spelled = Owned::List(vec![Owned::Bool(true), Owned::String("a".into())]).spelled()?;
    /// assert_eq!(spelled.table, [12, 16, 0, 2, 0, 1, 4, 0, 1, 5, 7, 0, 0, 0, 1, 0]);
    /// assert_eq!(spelled.literal, b"a");
    /// # Ok::<(), ombravelik::TooLarge>(())
    /// ```
    pub fn spelled(&self) -> Result<Spelled, TooLarge> {
        let mut spelling = Spelling::default();
        spelling.value(self)?;
        Ok(Spelled { table: spelling.table, literal: spelling.literal })
    }
}
