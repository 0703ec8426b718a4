//! Property descriptors, ordinary objects, functions and proxies of ECMA-262 (2024) over a fixed store.
//!
//! This crate is a safe interface to `libdemnyaluz.a`, whose functions are proved against definitions written from the standard; the crate itself,
//! which turns values into records and reports into values, is not proved but tested.
//!
//! A [`Store`] holds objects, properties and strings. A [`Step`] calls one of the essential internal methods of an object, makes an object, a
//! function or a proxy, releases one, seals or freezes an object, or tests whether it is so. A proxy's handler is a set of [`Traps`] and, for each step, a list of
//! [`Answer`]s: each call of a trap, a getter or a setter takes the next one. What comes back is a [`Report`]. [`Store::page`] lists an object's
//! properties as text. A [`TextReader`] takes steps as lines of text and gives a row for each.
//!
//! ```
//! use demnyaluz::{Answer, Failure, Message, PropertyDescriptor, Store, Traps};
//!
//! let mut store = Store::new();
//! let visits = store.enter_string("visits")?;
//! let counts = store.make_object(None)?;
//! assert!(store.define_own_property(counts, visits, PropertyDescriptor::fixed(70_000), &[])?);
//!
//! // A handler that counts in sixteen bits.
//! let behind = store.make_proxy(counts, Traps::GET)?;
//! let told = store.get(behind, visits, behind, &[Answer::Value(4_464.into())]);
//! assert_eq!(told, Err(Failure::TypeError(Message::GotUnexpectedData)));
//! # Ok::<(), Failure>(())
//! ```
#![deny(missing_docs)]
#![forbid(unsafe_op_in_unsafe_fn)]
// but in `lent`, which calls the library
#![deny(unsafe_code)]

mod descriptor;
pub mod lent;
pub mod notation;
pub mod raw;
pub mod readable;
mod report;
pub mod rows;
mod step;
mod store;
mod text;
mod transcript;
mod validation;
mod value;

pub use descriptor::{Property, PropertyDescriptor};
pub use report::{Completion, Failure, Message, Refusal, Report, REPORT_WORDS};
pub use step::{sheet_bytes, Answer, IntegrityLevel, Step, Traps};
pub use store::{
    Store, MAXIMUM_ANSWERS, MAXIMUM_CALLS, MAXIMUM_KEYS, MAXIMUM_OBJECTS, MAXIMUM_PROPERTIES, MAXIMUM_STRINGS, MAXIMUM_UNITS, OUTPUT_BYTES,
    PAGE_BYTES, PAGE_LINE_BYTES, STORE_WORDS, STRING_CELLS,
};
pub use text::{run_text, TextReader, TEXT_LINE_BYTES, TEXT_ROW_BYTES, TEXT_STATE_WORDS};
pub use validation::{Validation, ValidationTest};
pub use value::{FunctionId, ObjectId, PropertyKey, Prototype, StringId, SymbolId, TryFromValueError, Value, ValueWords};
