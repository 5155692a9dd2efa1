//! Why there is no value: refusals, errors and limits, under their names.
use crate::constants as c;
use std::fmt;

/// An answer that the header rules out: another library is linked.
#[cold]
pub(crate) fn not_the_header() -> ! {
    panic!("the linked libboard.a is not the one that this crate's constants belong to")
}

/// An enum whose cases are known by numbers.
macro_rules! numbered {
    ($(#[$words:meta])* $name:ident { $($(#[$case_words:meta])* $case:ident = $number:path, $says:literal;)* }) => {
        $(#[$words])*
        #[derive(Clone, Copy, Debug, PartialEq, Eq, Hash)]
        #[repr(u8)]
        pub enum $name {
            $($(#[$case_words])* $case = $number,)*
        }

        impl $name {
            /// All cases, in the order of their numbers.
            pub const ALL: &'static [$name] = &[$($name::$case),*];

            /// The case's number.
            pub const fn number(self) -> u8 {
                self as u8
            }

            /// The case of a number.
            pub fn of_number(number: u64) -> Option<$name> {
                Self::ALL.iter().copied().find(|case| u64::from(case.number()) == number)
            }
        }

        impl fmt::Display for $name {
            fn fmt(&self, f: &mut fmt::Formatter<'_>) -> fmt::Result {
                f.write_str(match self {
                    $($name::$case => $says,)*
                })
            }
        }

        impl std::error::Error for $name {}
    };
}

numbered! {
    /// Why a table, a binding or a binding room is refused.
    Reason {
        /// The table has no byte, or more than 16,384.
        TableLength = c::REFUSAL_TABLE_LENGTH, "the table has no byte or too many";
        /// A kind byte above 16.
        UnknownKind = c::REFUSAL_UNKNOWN_KIND, "a record of an unknown kind";
        /// A record is cut, leaves its parent, or is not the sum of its parts.
        WrongExtent = c::REFUSAL_WRONG_EXTENT, "a record that does not fit";
        /// Records nest deeper than 64.
        RecordNesting = c::REFUSAL_RECORD_NESTING, "records nest too deep";
        /// A flag, an operator, a function, a name or a span of text is wrong, or a String or a field's name is not UTF-8.
        WrongField = c::REFUSAL_WRONG_FIELD, "a wrong number, name or text";
        /// An optional mark where none may stand.
        MisplacedMark = c::REFUSAL_MISPLACED_MARK, "a mark where none may stand";
        /// Bytes after the root record.
        BytesAfterRoot = c::REFUSAL_BYTES_AFTER_ROOT, "bytes after the root";
        /// The binding room is not sound; or a new binding's keys or nesting would make it unsound.
        UnsoundBinding = c::REFUSAL_UNSOUND_BINDING, "an unsound binding";
        /// A binding is not made of literals, Lists and Maps alone.
        NotALiteral = c::REFUSAL_NOT_A_LITERAL, "a binding that is no literal";
        /// There is no room for the binding.
        BindingRoomFull = c::REFUSAL_BINDING_ROOM_FULL, "the binding room is full";
        /// The name is bound already.
        NameBound = c::REFUSAL_NAME_BOUND, "the name is bound already";
    }
}

numbered! {
    /// The errors that a rule can end in.
    Error {
        /// The name is not bound.
        UndeclaredReference = c::ERROR_UNDECLARED_REFERENCE, "undeclared reference";
        /// UnexpectedType: a Bool is wanted.
        BoolWanted = c::ERROR_BOOL_WANTED, "a Bool is wanted";
        /// The operator or function does not take such values.
        NoOverload = c::ERROR_NO_OVERLOAD, "no overload";
        /// The value of none, or an optional select by something other than a String.
        FunctionError = c::ERROR_FUNCTION_ERROR, "function error";
        /// The Map has no such key.
        NoSuchKey = c::ERROR_NO_SUCH_KEY, "no such key";
        /// The exact result does not fit.
        Overflow = c::ERROR_OVERFLOW, "overflow";
        /// An integer divided by zero.
        DivisionByZero = c::ERROR_DIVISION_BY_ZERO, "division by zero";
        /// The remainder of an integer by zero.
        RemainderByZero = c::ERROR_REMAINDER_BY_ZERO, "remainder by zero";
        /// Two keys of a Map match.
        DuplicateKey = c::ERROR_DUPLICATE_KEY, "duplicate key";
        /// The List has no such index.
        IndexOutOfBounds = c::ERROR_INDEX_OUT_OF_BOUNDS, "index out of bounds";
        /// A key that is no Int, Uint, Bool or String.
        UnsupportedKeyType = c::ERROR_UNSUPPORTED_KEY_TYPE, "unsupported key type";
        /// Numbers ordered with a NaN among them.
        Unordered = c::ERROR_UNORDERED, "unordered";
        /// UnexpectedType: something to iterate over is wanted.
        IterableWanted = c::ERROR_ITERABLE_WANTED, "a List or a Map is wanted";
    }
}

numbered! {
    /// The limit that the next charge would have passed.
    Limit {
        /// The steps lent.
        Steps = c::LIMIT_STEPS, "steps";
        /// The cells of the evaluation room.
        Cells = c::LIMIT_CELLS, "cells";
        /// The text of the evaluation room.
        Text = c::LIMIT_TEXT, "text";
        /// A value would nest deeper than 32.
        Nesting = c::LIMIT_NESTING, "nesting";
    }
}

/// A refusal: nothing was done, and nothing lent was changed.
#[derive(Clone, Copy, Debug, PartialEq, Eq, Hash)]
pub struct Refusal {
    pub reason: Reason,
    /// The byte of the table where the record at fault starts; of an unsound binding room the first bad cell.
    pub place: usize,
}

impl fmt::Display for Refusal {
    fn fmt(&self, f: &mut fmt::Formatter<'_>) -> fmt::Result {
        write!(f, "refused: {} ({}) at {}", self.reason, self.reason.number(), self.place)
    }
}

impl std::error::Error for Refusal {}

/// The refusal that an answer's words say.
pub(crate) fn refusal_in(answer: &[u64; c::ANSWER_WORDS]) -> Refusal {
    match Reason::of_number(answer[c::ANSWER_NUMBER]) {
        Some(reason) => Refusal { reason, place: answer[c::ANSWER_PLACE] as usize },
        None => not_the_header(),
    }
}

/// What `check` and `bring_in` return, with their answer's words.
pub(crate) fn done_or_refused(which: u8, answer: &[u64; c::ANSWER_WORDS]) -> Result<(), Refusal> {
    match which {
        c::DONE => Ok(()),
        c::REFUSED => Err(refusal_in(answer)),
        _ => not_the_header(),
    }
}
