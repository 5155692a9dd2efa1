//! Every number of `include/ombravelik.h`, under the name that it has there behind `OMBRAVELIK_`.
//! `callers/constants.py` checks them against the header, and the header against the sources of the library.

/// What a call answers.
pub const DONE: u8 = 0;
pub const VALUE: u8 = 1;
pub const ERROR: u8 = 2;
pub const EXHAUSTED: u8 = 3;
pub const REFUSED: u8 = 4;
pub const NO_ROOM: u8 = 255;

/// The words of an answer.
pub const ANSWER_WORDS: usize = 8;
pub const ANSWER_WHICH: usize = 0;
pub const ANSWER_NUMBER: usize = 1;
pub const ANSWER_PLACE: usize = 2;
pub const ANSWER_STEPS: usize = 3;
pub const ANSWER_CELLS: usize = 4;
pub const ANSWER_BYTES: usize = 5;
pub const ANSWER_HEAD: usize = 6;
pub const ANSWER_PAYLOAD: usize = 7;

/// Refusals.
pub const REFUSAL_TABLE_LENGTH: u8 = 1;
pub const REFUSAL_UNKNOWN_KIND: u8 = 2;
pub const REFUSAL_WRONG_EXTENT: u8 = 3;
pub const REFUSAL_RECORD_NESTING: u8 = 4;
pub const REFUSAL_WRONG_FIELD: u8 = 5;
pub const REFUSAL_MISPLACED_MARK: u8 = 6;
pub const REFUSAL_BYTES_AFTER_ROOT: u8 = 7;
pub const REFUSAL_UNSOUND_BINDING: u8 = 8;
pub const REFUSAL_NOT_A_LITERAL: u8 = 9;
pub const REFUSAL_BINDING_ROOM_FULL: u8 = 10;
pub const REFUSAL_NAME_BOUND: u8 = 11;

/// Errors.
pub const ERROR_UNDECLARED_REFERENCE: u8 = 1;
pub const ERROR_BOOL_WANTED: u8 = 2;
pub const ERROR_NO_OVERLOAD: u8 = 3;
pub const ERROR_FUNCTION_ERROR: u8 = 4;
pub const ERROR_NO_SUCH_KEY: u8 = 5;
pub const ERROR_OVERFLOW: u8 = 6;
pub const ERROR_DIVISION_BY_ZERO: u8 = 7;
pub const ERROR_REMAINDER_BY_ZERO: u8 = 8;
pub const ERROR_DUPLICATE_KEY: u8 = 9;
pub const ERROR_INDEX_OUT_OF_BOUNDS: u8 = 10;
pub const ERROR_UNSUPPORTED_KEY_TYPE: u8 = 11;
pub const ERROR_UNORDERED: u8 = 12;
pub const ERROR_ITERABLE_WANTED: u8 = 13;

/// The limit that is exhausted.
pub const LIMIT_STEPS: u8 = 1;
pub const LIMIT_CELLS: u8 = 2;
pub const LIMIT_TEXT: u8 = 3;
pub const LIMIT_NESTING: u8 = 4;

/// Kinds of values.
pub const NULL: u8 = 0;
pub const BOOL: u8 = 1;
pub const INT: u8 = 2;
pub const UINT: u8 = 3;
pub const DOUBLE: u8 = 4;
pub const STRING: u8 = 5;
pub const BYTES: u8 = 6;
pub const LIST: u8 = 12;
pub const MAP: u8 = 13;
pub const OPTIONAL_NONE: u8 = 14;
pub const OPTIONAL_OF: u8 = 15;
pub const NOTHING: u8 = 16;

/// Where a text lies.
pub const SPACE_LITERAL: u64 = 0;
pub const SPACE_BINDING: u64 = 1;
pub const SPACE_EVALUATION: u64 = 2;

/// Limits.
pub const MOST_TABLE_BYTES: usize = 16384;
pub const MOST_STEPS: usize = 1000000;
pub const MOST_CELLS: usize = 4096;
pub const MOST_TEXT_BYTES: usize = 16384;
pub const NAMES: usize = 128;
pub const MOST_RECORD_NESTING: usize = 64;
pub const MOST_VALUE_NESTING: usize = 32;

/// The words of a state: two for each name, then these.
pub const STATE_WORDS: usize = 259;
pub const STATE_CELLS: usize = 256;
pub const STATE_BYTES: usize = 257;
pub const STATE_MARK: usize = 258;

/// The words of a shape.
pub const SHAPE_WORDS: usize = 6;
pub const SHAPE_KIND: usize = 0;
pub const SHAPE_NUMBER: usize = 1;
pub const SHAPE_SPACE: usize = 2;
pub const SHAPE_FIRST: usize = 3;
pub const SHAPE_LENGTH: usize = 4;
pub const SHAPE_COUNT: usize = 5;

/// The words of a part.
pub const PART_WORDS: usize = 2;
pub const PART_HEAD: usize = 0;
pub const PART_PAYLOAD: usize = 1;
