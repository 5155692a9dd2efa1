//! Rules in Common Expression Language (CEL), evaluated by Ombravelik's proved library: over values bound to names, in rooms of fixed size, with
//! an answer for every input. Nothing is allocated but what [`Value::copied`] and [`Owned::spelled`] build.
//!
//! A rule comes as a node table with a literal text beside it (docs/FORMAT.md; `tools/cel/celtable compile` makes them). This one is
//! `r.speed > 80.0 ? r.state : "slow"`:
//!
//! ```
//! use ombravelik::{evaluate, Answer, Bindings, Owned, Room, Rule, Shape};
//!
//! let rule = Rule::new(
//!     &[
//!         10, 49, 0, // conditional
//!         9, 27, 0, 15, // >
//!         11, 12, 0, 0, 0, 0, 5, 0, 7, 4, 0, 0, // name 0, select "speed"
//!         4, 11, 0, 0, 0, 0, 0, 0, 0, 0x54, 0x40, // 80.0
//!         11, 12, 0, 0, 5, 0, 5, 0, 7, 4, 0, 0, // name 0, select "state"
//!         5, 7, 0, 10, 0, 4, 0, // "slow"
//!     ],
//!     b"speedstateslow",
//! );
//!
//! // name 0 has the value {"speed": 88.5, "state": "climb"}
//! let text = |word: &str| Owned::String(word.into());
//! let record = Owned::Map(vec![(text("speed"), Owned::Double(88.5)), (text("state"), text("climb"))]);
//! let mut bindings = Bindings::<64, 256>::new();
//! bindings.bring_in(0, record.spelled()?.rule())?;
//!
//! let mut room = Room::<64, 256>::new();
//! match evaluate(rule, &bindings, &mut room, 1_000) {
//!     Answer::Value { value, counts } => {
//!         assert!(matches!(value.shape(), Shape::String("climb")));
//!         assert_eq!(counts.steps, 10);
//!     }
//!     Answer::Error { error, place, .. } => panic!("{error} at {place}"),
//!     Answer::Exhausted { limit, .. } => panic!("no more {limit}"),
//!     Answer::Refused(refusal) => panic!("{refusal}"),
//! }
//! # Ok::<(), Box<dyn std::error::Error>>(())
//! ```
//!
//! Values are walked where they lie ([`Value::shape`]) or read out as a whole ([`Value::copied`]). A call takes up to [`STACK_BYTES`] of its
//! thread's stack; a thread that has less ends as at any overflow of its stack.
#![deny(unsafe_code)]
pub mod constants;
#[allow(unsafe_code)] // the calls into the library stand there alone
pub mod raw;

mod answer;
mod bindings;
mod owned;
mod reasons;
mod room;
mod rule;
mod stack;
mod value;

pub use answer::{evaluate, evaluate_in, Answer, Counts};
pub use bindings::Bindings;
pub use owned::{Owned, Spelled, TooLarge};
pub use reasons::{Error, Limit, Reason, Refusal};
pub use room::Room;
pub use rule::Rule;
pub use stack::STACK_BYTES;
pub use value::{List, Map, Shape, Value};
