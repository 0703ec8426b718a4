//! The C interface over lent slices. Every function takes memory of any content and length, so none has a condition for its caller.
//!
//! [`Store`](crate::Store) and [`TextReader`](crate::TextReader) own such memory and are the simpler way.
#![allow(unsafe_code)]

use crate::raw;
use crate::report::{self, Refusal, REPORT_WORDS};

/// The words of a report; `include/demnyaluz.h` says what they are, and [`Report::from_words`](crate::Report::from_words) reads them.
#[derive(Clone, Copy, PartialEq, Eq, Hash, Debug)]
pub struct ReportWords([u64; REPORT_WORDS]);

impl ReportWords {
    const ZERO: ReportWords = ReportWords([0; REPORT_WORDS]);

    /// The words.
    #[must_use]
    pub fn as_slice(&self) -> &[u64] {
        &self.0
    }
}

impl AsRef<[u64]> for ReportWords {
    fn as_ref(&self) -> &[u64] {
        &self.0
    }
}

/// What [`validate`] answers.
#[derive(Clone, Copy, PartialEq, Eq, Hash, Debug)]
#[non_exhaustive]
pub struct Validated {
    /// Whether the descriptor is accepted.
    pub accepted: bool,
    /// The number of the first test that fails, of [`ValidationTest`](crate::ValidationTest); 0 where the descriptor is accepted or refused.
    pub test: u64,
    /// The property after it, or the refusal.
    pub report: ReportWords,
}

/// What [`text_feed`] took and wrote.
#[derive(Clone, Copy, PartialEq, Eq, Hash, Debug)]
#[non_exhaustive]
pub struct Fed {
    /// How many bytes of the piece were taken.
    pub taken: usize,
    /// How many bytes of rows were written.
    pub written: usize,
}

/// One step. Keys are written to the output, [`Value::SIZE`](crate::Value::SIZE) bytes each. Only a result changes the words, but for a step of
/// code 18, of which a TypeError or a throw leaves what was changed before it.
///
/// ```
/// use demnyaluz::{lent, sheet_bytes, Completion, ObjectId, Report, Step, OUTPUT_BYTES, STORE_WORDS, STRING_CELLS};
///
/// // memory that is all zeros is an empty store and an empty table
/// let (mut words, strings) = (vec![0; STORE_WORDS], vec![0; STRING_CELLS]);
/// let mut output = [0; OUTPUT_BYTES];
/// let step = Step::MakeObject { prototype: None }.to_bytes();
/// let words = lent::step(&mut words, &strings, &step, &sheet_bytes(&[]), &mut output);
/// let report = Report::from_words(words.as_slice(), &output).expect("a report of the library");
/// assert_eq!(report.outcome, Ok(Completion::Value(ObjectId(0).into())));
/// ```
#[must_use]
pub fn step(words: &mut [u64], strings: &[u16], step: &[u8], sheet: &[u8], output: &mut [u8]) -> ReportWords {
    let mut report = ReportWords::ZERO;
    // SAFETY: each pointer is a slice's, with its length, and the report has its words. What is written is borrowed mutably: it overlaps nothing.
    unsafe {
        raw::demnyaluz_step(
            words.as_mut_ptr(),
            words.len(),
            strings.as_ptr(),
            strings.len(),
            step.as_ptr(),
            step.len(),
            sheet.as_ptr(),
            sheet.len(),
            output.as_mut_ptr(),
            output.len(),
            report.0.as_mut_ptr(),
        );
    }
    report
}

/// A string's code units are entered.
///
/// ```
/// use demnyaluz::{lent, Completion, Report, StringId, STRING_CELLS};
///
/// let mut strings = vec![0; STRING_CELLS];
/// let words = lent::enter_string(&mut strings, &[0x76]);
/// let report = Report::from_words(words.as_slice(), &[]).expect("a report of the library");
/// assert_eq!(report.outcome, Ok(Completion::Value(StringId(0).into())));
/// ```
#[must_use]
pub fn enter_string(strings: &mut [u16], units: &[u16]) -> ReportWords {
    let mut report = ReportWords::ZERO;
    // SAFETY: each pointer is a slice's, with its length, and the report has its words. What is written is borrowed mutably: it overlaps nothing.
    unsafe { raw::demnyaluz_enter_string(strings.as_mut_ptr(), strings.len(), units.as_ptr(), units.len(), report.0.as_mut_ptr()) }
    report
}

/// The property page of an object, at the output's start: how many bytes it has. Those after it stay.
///
/// # Errors
/// The refusal, and the output is as it was: [`Refusal::MalformedRecord`] where the memory is no store or no table, [`Refusal::ObjectNeverMade`],
/// [`Refusal::UnusablePart`] for a proxy, and [`Refusal::OutputTooSmall`]; [`PAGE_BYTES`](crate::PAGE_BYTES) hold every page.
///
/// ```
/// use demnyaluz::{lent, sheet_bytes, Refusal, Step, PAGE_BYTES, STORE_WORDS, STRING_CELLS};
///
/// let (mut words, strings) = (vec![0; STORE_WORDS], vec![0; STRING_CELLS]);
/// let mut output = vec![0; PAGE_BYTES];
/// assert_eq!(lent::page(&words, &strings, 0, &mut output), Err(Refusal::ObjectNeverMade));
/// let step = Step::MakeObject { prototype: None }.to_bytes();
/// let _ = lent::step(&mut words, &strings, &step, &sheet_bytes(&[]), &mut []);
/// let length = lent::page(&words, &strings, 0, &mut output)?;
/// assert_eq!(&output[..length], b"key  ecw value or get       set               \n");
/// # Ok::<(), Refusal>(())
/// ```
pub fn page(words: &[u64], strings: &[u16], object: u64, output: &mut [u8]) -> Result<usize, Refusal> {
    let mut report = ReportWords::ZERO;
    // SAFETY: each pointer is a slice's, with its length, and the report has its words. What is written is borrowed mutably: it overlaps nothing.
    unsafe {
        raw::demnyaluz_page(
            words.as_ptr(),
            words.len(),
            strings.as_ptr(),
            strings.len(),
            object,
            output.as_mut_ptr(),
            output.len(),
            report.0.as_mut_ptr(),
        );
    }
    report::page_length(&report.0).expect("a report of the library")
}

/// A descriptor is completed by itself.
#[must_use]
pub fn complete(words: &[u64], strings: &[u16], descriptor: &[u8]) -> ReportWords {
    let mut report = ReportWords::ZERO;
    // SAFETY: each pointer is a slice's, with its length, and the report has its words. Only the report is written: it overlaps nothing.
    unsafe {
        raw::demnyaluz_complete(
            words.as_ptr(),
            words.len(),
            strings.as_ptr(),
            strings.len(),
            descriptor.as_ptr(),
            descriptor.len(),
            report.0.as_mut_ptr(),
        );
    }
    report
}

/// A descriptor is validated by itself over a current one, or, with none, over an absent property.
///
/// ```
/// use demnyaluz::{lent, PropertyDescriptor, ValidationTest, STORE_WORDS, STRING_CELLS};
///
/// let (words, strings) = (vec![0; STORE_WORDS], vec![0; STRING_CELLS]);
/// let [fixed, told] = [70_000, 4_464].map(|n| PropertyDescriptor::fixed(n).to_bytes());
/// assert!(lent::validate(&words, &strings, true, &told, &[]).accepted);
/// let rejected = lent::validate(&words, &strings, true, &told, &fixed);
/// assert!(!rejected.accepted);
/// assert_eq!(ValidationTest::from_number(rejected.test), Some(ValidationTest::Value));
/// ```
#[must_use]
pub fn validate(words: &[u64], strings: &[u16], extensible: bool, descriptor: &[u8], current: &[u8]) -> Validated {
    let (mut report, mut test) = (ReportWords::ZERO, 0);
    // SAFETY: each pointer is a slice's, with its length, the report has its words and the test is one. Only these two are written: they overlap
    // nothing.
    let accepted = unsafe {
        raw::demnyaluz_validate(
            words.as_ptr(),
            words.len(),
            strings.as_ptr(),
            strings.len(),
            extensible,
            descriptor.as_ptr(),
            descriptor.len(),
            current.as_ptr(),
            current.len(),
            report.0.as_mut_ptr(),
            &mut test,
        )
    };
    Validated { accepted, test, report }
}

/// A descriptor is merged into a current one by itself.
#[must_use]
pub fn merge(words: &[u64], strings: &[u16], current: &[u8], descriptor: &[u8]) -> ReportWords {
    let mut report = ReportWords::ZERO;
    // SAFETY: each pointer is a slice's, with its length, and the report has its words. Only the report is written: it overlaps nothing.
    unsafe {
        raw::demnyaluz_merge(
            words.as_ptr(),
            words.len(),
            strings.as_ptr(),
            strings.len(),
            current.as_ptr(),
            current.len(),
            descriptor.as_ptr(),
            descriptor.len(),
            report.0.as_mut_ptr(),
        );
    }
    report
}

/// The length of a message's text, 0 where there is no such message. The text is written where all of it fits.
///
/// ```
/// use demnyaluz::lent;
///
/// let mut text = vec![0; lent::message(1, &mut [])];
/// lent::message(1, &mut text);
/// assert_eq!(text, b"Proxy object has empty handler and target");
/// ```
pub fn message(number: u64, text: &mut [u8]) -> usize {
    // SAFETY: each pointer is a slice's, with its length. What is written is borrowed mutably: it overlaps nothing.
    let length = unsafe { raw::demnyaluz_message(number, text.as_mut_ptr(), text.len()) };
    length as usize
}

/// Words of the right length become an empty store; others are left: false.
#[must_use]
pub fn empty_store(words: &mut [u64]) -> bool {
    // SAFETY: each pointer is a slice's, with its length. What is written is borrowed mutably: it overlaps nothing.
    unsafe { raw::demnyaluz_empty_store(words.as_mut_ptr(), words.len()) }
}

/// Cells of the right length become an empty table of strings; others are left: false.
#[must_use]
pub fn empty_strings(strings: &mut [u16]) -> bool {
    // SAFETY: each pointer is a slice's, with its length. What is written is borrowed mutably: it overlaps nothing.
    unsafe { raw::demnyaluz_empty_strings(strings.as_mut_ptr(), strings.len()) }
}

/// Store, table and state of the right lengths become those of a text that is not read yet; where one has another length all are left: false.
#[must_use]
pub fn text_start(words: &mut [u64], strings: &mut [u16], state: &mut [u64]) -> bool {
    // SAFETY: each pointer is a slice's, with its length. What is written is borrowed mutably: it overlaps nothing.
    unsafe { raw::demnyaluz_text_start(words.as_mut_ptr(), words.len(), strings.as_mut_ptr(), strings.len(), state.as_mut_ptr(), state.len()) }
}

/// Bytes of the piece are taken up to and with its next line feed, or all of them, and at most one row is written; once reading has ended nothing
/// is taken and written.
///
/// None, with nothing touched, where a length is wrong or the memory is not what [`text_start`] and the calls after it left.
///
/// ```
/// use demnyaluz::{lent, STORE_WORDS, STRING_CELLS, TEXT_LINE_BYTES, TEXT_ROW_BYTES, TEXT_STATE_WORDS};
///
/// let (mut words, mut strings, mut state) = (vec![0; STORE_WORDS], vec![0; STRING_CELLS], vec![0; TEXT_STATE_WORDS]);
/// let (mut line, mut rows) = (vec![0; TEXT_LINE_BYTES], vec![0; TEXT_ROW_BYTES]);
/// assert!(lent::text_start(&mut words, &mut strings, &mut state));
/// let names = b"step object key value receiver descriptor sheet\n";
/// let fed = lent::text_feed(&mut words, &mut strings, &mut state, &mut line, names, &mut rows).expect("memory of a text");
/// assert_eq!(fed.taken, names.len());
/// assert_eq!(&rows[..fed.written], b"line outcome number answers calls value\n");
/// ```
#[must_use]
pub fn text_feed(words: &mut [u64], strings: &mut [u16], state: &mut [u64], line: &mut [u8], piece: &[u8], rows: &mut [u8]) -> Option<Fed> {
    let mut result = [0; 2];
    // SAFETY: each pointer is a slice's, with its length, and the result has two words. What is written is borrowed mutably: it overlaps nothing.
    let fed = unsafe {
        raw::demnyaluz_text_feed(
            words.as_mut_ptr(),
            words.len(),
            strings.as_mut_ptr(),
            strings.len(),
            state.as_mut_ptr(),
            state.len(),
            line.as_mut_ptr(),
            line.len(),
            piece.as_ptr(),
            piece.len(),
            rows.as_mut_ptr(),
            rows.len(),
            result.as_mut_ptr(),
        )
    };
    fed.then_some(Fed { taken: result[0] as usize, written: result[1] as usize })
}

/// The text ends: how many bytes were written, of the row of a last line without its line feed, or, where there was no first line, of the heading
/// and its refusal. None as by [`text_feed`].
#[must_use]
pub fn text_end(words: &mut [u64], strings: &mut [u16], state: &mut [u64], line: &mut [u8], rows: &mut [u8]) -> Option<usize> {
    let mut result = [0; 2];
    // SAFETY: each pointer is a slice's, with its length, and the result has two words. What is written is borrowed mutably: it overlaps nothing.
    let ended = unsafe {
        raw::demnyaluz_text_end(
            words.as_mut_ptr(),
            words.len(),
            strings.as_mut_ptr(),
            strings.len(),
            state.as_mut_ptr(),
            state.len(),
            line.as_mut_ptr(),
            line.len(),
            rows.as_mut_ptr(),
            rows.len(),
            result.as_mut_ptr(),
        )
    };
    ended.then_some(result[1] as usize)
}
