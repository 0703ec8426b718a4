//! The rows that [`TextReader`](crate::TextReader) writes, read back.
use crate::descriptor::{Property, PropertyDescriptor};
use crate::notation::{Call, Line};
use crate::readable;
use crate::report::{self, Completion, Failure, Message, Refusal, Report};
use crate::step::Step;
use crate::store::{MAXIMUM_ANSWERS, MAXIMUM_CALLS};
use crate::transcript::Transcript;
use crate::value::Value;
use std::fmt;
use std::io::{self, BufRead, Write};

/// The names of a row's parts, as the first line has them.
pub const HEADING: &str = "line outcome number answers calls value";

/// A row: the line that it belongs to, counted from the first after the names, and the report of its call.
#[derive(Clone, PartialEq, Eq, Hash, Debug)]
pub struct Row {
    /// The line.
    pub line: u64,
    /// What the call reported.
    pub report: Report,
}

impl Row {
    /// The row of a text, whose value is read as that of the call.
    ///
    /// # Errors
    /// The first part that cannot be read.
    ///
    /// ```
    /// use demnyaluz::notation::Call;
    /// use demnyaluz::rows::Row;
    /// use demnyaluz::Step;
    ///
    /// let call = Call::Step { step: Step::MakeObject { prototype: None }, answers: vec![] };
    /// let row = Row::parse("1 1 0 0 0 070000000000000000", &call)?;
    /// assert_eq!((row.line, row.report.to_string()), (1, "o0 (0 answers, 0 calls)".to_string()));
    ///
    /// let error = Row::parse("1 4 0 0 0 -", &call).unwrap_err();
    /// assert_eq!(error.to_string(), "expected outcome 0 to 3, found 4");
    /// # Ok::<(), demnyaluz::rows::ParseRowError>(())
    /// ```
    pub fn parse(text: &str, call: &Call) -> Result<Row, ParseRowError> {
        let parts: Vec<&str> = text.split(' ').collect();
        let [line, outcome, number, answers, calls, value] = parts[..] else {
            return unlike("six parts with one space between them", parts.len());
        };
        let line = decimal(line, "line")?;
        let outcome_number = decimal(outcome, "outcome")?;
        let number = decimal(number, "number")?;
        let (answers, calls) = (count(answers, "answers", MAXIMUM_ANSWERS)?, count(calls, "calls", MAXIMUM_CALLS)?);
        let outcome = match outcome_number {
            0 => match Refusal::from_number(number) {
                Some(refusal) => Err(Failure::Refused(refusal)),
                None => return unlike("the number of a refusal", number),
            },
            1 => Ok(completion(value, call)?),
            2 => match Message::from_number(number) {
                Some(message) => Err(Failure::TypeError(message)),
                None => return unlike("the number of a message", number),
            },
            3 => Err(Failure::Thrown(one_value(value)?)),
            _ => return unlike("outcome 0 to 3", outcome_number),
        };
        if matches!(outcome_number, 1 | 3) && number != 0 {
            return unlike("number 0 with a result or a thrown value", number);
        }
        if matches!(outcome_number, 0 | 2) && value != "-" {
            return unlike("value '-' with a refusal or a TypeError", format!("'{value}'"));
        }
        if outcome_number == 0 && (answers, calls) != (0, 0) {
            return unlike("no answers and no calls with a refusal", format!("{answers} and {calls}"));
        }
        Ok(Row { line, report: Report { outcome, answers, calls } })
    }
}

/// Why a text is no row of its call: what was expected, and what was found.
#[derive(Clone, PartialEq, Eq, Hash, Debug)]
pub struct ParseRowError {
    expected: String,
    found: String,
}

impl ParseRowError {
    /// What was expected.
    #[must_use]
    pub fn expected(&self) -> &str {
        &self.expected
    }

    /// What was found.
    #[must_use]
    pub fn found(&self) -> &str {
        &self.found
    }
}

impl fmt::Display for ParseRowError {
    fn fmt(&self, f: &mut fmt::Formatter<'_>) -> fmt::Result {
        write!(f, "expected {}, found {}", self.expected, self.found)
    }
}

impl std::error::Error for ParseRowError {}

fn unlike<T>(expected: impl Into<String>, found: impl fmt::Display) -> Result<T, ParseRowError> {
    Err(ParseRowError { expected: expected.into(), found: found.to_string() })
}

/// A decimal number without leading zeros.
fn decimal(text: &str, name: &str) -> Result<u64, ParseRowError> {
    let digits = text.bytes().all(|b| b.is_ascii_digit()) && (text == "0" || !text.starts_with('0'));
    match text.parse() {
        Ok(n) if digits => Ok(n),
        _ => unlike(format!("a decimal number as {name}"), format!("'{text}'")),
    }
}

/// A decimal number up to the most that there can be.
fn count(text: &str, name: &str, most: usize) -> Result<u32, ParseRowError> {
    match decimal(text, name)? {
        n if n <= most as u64 => Ok(n as u32),
        n => unlike(format!("at most {most} {name}"), n),
    }
}

/// Bytes of lowercase hexadecimal digits.
fn bytes(text: &str) -> Result<Vec<u8>, ParseRowError> {
    let digit = |b: u8| char::from(b).to_digit(16).filter(|_| !b.is_ascii_uppercase());
    let byte = |pair: &[u8]| match *pair {
        [high, low] => Some((digit(high)? * 16 + digit(low)?) as u8),
        _ => None,
    };
    let bytes: Option<Vec<u8>> = text.as_bytes().chunks(2).map(byte).collect();
    bytes.map_or_else(|| unlike("bytes in lowercase hexadecimal as value", format!("'{text}'")), Ok)
}

fn one_value(text: &str) -> Result<Value, ParseRowError> {
    let value = <[u8; Value::SIZE]>::try_from(bytes(text)?).ok().and_then(|b| Value::from_bytes(&b));
    value.map_or_else(|| unlike(format!("the {} bytes of a value", Value::SIZE), format!("'{text}'")), Ok)
}

/// What a result's value says: keys for \[\[OwnPropertyKeys]], a property or none for \[\[GetOwnProperty]], else a value.
fn completion(text: &str, call: &Call) -> Result<Completion, ParseRowError> {
    match call {
        Call::Step { step: Step::GetOwnProperty { .. }, .. } if text == "-" => Ok(Completion::Absent),
        Call::Step { step: Step::GetOwnProperty { .. }, .. } => {
            let property = <[u8; PropertyDescriptor::SIZE]>::try_from(bytes(text)?).ok().and_then(|b| Property::from_bytes(&b));
            let expected = || format!("the {} bytes of a complete descriptor", PropertyDescriptor::SIZE);
            property.map_or_else(|| unlike(expected(), format!("'{text}'")), |p| Ok(Completion::Property(p)))
        }
        Call::Step { step: Step::OwnPropertyKeys { .. }, .. } if text == "-" => Ok(Completion::Keys(Vec::new())),
        Call::Step { step: Step::OwnPropertyKeys { .. }, .. } => {
            let keys = report::keys(&bytes(text)?).filter(|k| !k.is_empty());
            keys.map_or_else(|| unlike(format!("{} bytes for each key", Value::SIZE), format!("'{text}'")), |k| Ok(Completion::Keys(k)))
        }
        _ => one_value(text).map(Completion::Value),
    }
}

/// Why rows cannot be shown beside their calls.
///
/// ```
/// use demnyaluz::{notation, rows};
/// use std::error::Error;
///
/// let calls = notation::parse("object")?;
/// let text = format!("{}\n1 4 0 0 0 -\n", rows::HEADING);
/// let error = rows::show(&calls, text.as_bytes(), &mut Vec::new()).unwrap_err();
/// assert_eq!(error.to_string(), "the row of line 1 (object) is malformed, '1 4 0 0 0 -'");
/// assert_eq!(error.source().unwrap().to_string(), "expected outcome 0 to 3, found 4");
/// # Ok::<(), notation::Error>(())
/// ```
#[derive(Debug)]
#[non_exhaustive]
pub enum Error {
    /// The heading is missing, or another line stands in its place.
    Heading {
        /// The line, if there is one.
        found: Option<String>,
    },
    /// The first line of the text was refused: it was not [the names of the cells](crate::notation::HEADING).
    Names,
    /// There are fewer rows than calls.
    Missing {
        /// The line whose row is missing.
        line: u64,
        /// Its call, readable.
        call: String,
        /// How many calls there are.
        calls: usize,
    },
    /// A row cannot be read.
    Malformed {
        /// The line whose row it should be.
        line: u64,
        /// Its call, readable.
        call: String,
        /// The row.
        row: String,
        /// What is wrong with it.
        source: ParseRowError,
    },
    /// A row belongs to another line.
    OtherLine {
        /// The line whose row should stand here.
        line: u64,
        /// Its call, readable.
        call: String,
        /// The row.
        row: String,
    },
    /// There are more rows than calls.
    LeftOver {
        /// How many calls there are.
        calls: usize,
        /// The first row that is left over.
        row: String,
    },
    /// The rows cannot be read.
    Read(io::Error),
    /// What is shown cannot be written.
    Write(io::Error),
}

impl fmt::Display for Error {
    /// Without its source.
    fn fmt(&self, f: &mut fmt::Formatter<'_>) -> fmt::Result {
        match self {
            Error::Heading { found: None } => write!(f, "expected the heading '{HEADING}', found no line"),
            Error::Heading { found: Some(line) } => write!(f, "expected the heading '{HEADING}', found '{line}'"),
            Error::Names => f.write_str("expected the row of line 1, found that of a first line that is refused: it is not the seven names"),
            Error::Missing { line, call, calls } => {
                write!(f, "expected the row of line {line} ({call}), found no more: there are rows for {} of {calls} calls", line - 1)
            }
            Error::Malformed { line, call, row, .. } => write!(f, "the row of line {line} ({call}) is malformed, '{row}'"),
            Error::OtherLine { line, call, row } => write!(f, "expected the row of line {line} ({call}), found that of another, '{row}'"),
            Error::LeftOver { calls, row } => write!(f, "expected rows for {calls} calls, found one more, '{row}'"),
            Error::Read(_) => f.write_str("the rows cannot be read"),
            Error::Write(_) => f.write_str("the calls and their rows cannot be written"),
        }
    }
}

impl std::error::Error for Error {
    fn source(&self) -> Option<&(dyn std::error::Error + 'static)> {
        match self {
            Error::Malformed { source, .. } => Some(source),
            Error::Read(e) | Error::Write(e) => Some(e),
            _ => None,
        }
    }
}

/// Reads the rows of the calls, under their heading, and writes each beside its call; lines alike are one line:
///
/// ```text
/// 18: defineProperty o0 "visits" {value: 4464}: false, failed test: value (0 answers, 3 calls)
/// 21: get o2 "visits", handler answers 4464: TypeError 17, Proxy trap returned unexpected data descriptor (1 answer, 2 calls)
/// 152 to 166: object: o17 to o31 (0 answers, 0 calls)
/// ```
///
/// Rows do not have the [test that failed](crate::Store::failed_test). The calls are performed on a new store to tell it, up to the first whose
/// report is not that of its row.
///
/// # Errors
/// The first row that is missing, malformed, of another line or left over, and those of the reader and of the writer. What was shown before it
/// is written.
///
/// ```
/// use demnyaluz::{notation, rows};
///
/// let calls = notation::parse("object")?;
/// let mut shown = Vec::new();
/// rows::show(&calls, format!("{}\n1 1 0 0 0 070000000000000000\n", rows::HEADING).as_bytes(), &mut shown)?;
/// assert_eq!(shown, b"1: object: o0 (0 answers, 0 calls)\n");
/// # Ok::<(), Box<dyn std::error::Error>>(())
/// ```
pub fn show(calls: &[Line], mut rows: impl BufRead, shown: &mut impl Write) -> Result<(), Error> {
    let mut transcript = Transcript::default();
    let done = show_on(&mut transcript, calls, &mut rows, shown);
    let flushed = transcript.flush(shown).map_err(Error::Write);
    done.and(flushed)
}

fn show_on(transcript: &mut Transcript, calls: &[Line], rows: &mut impl BufRead, shown: &mut impl Write) -> Result<(), Error> {
    match next(rows)? {
        Some(line) if line == HEADING => {}
        found => return Err(Error::Heading { found }),
    }
    for (line, Line { call, .. }) in (1..).zip(calls) {
        let told = || readable::call(call, transcript.strings());
        let Some(row) = next(rows)? else {
            return Err(Error::Missing { line, call: told(), calls: calls.len() });
        };
        if row == "0 0 12 0 0 -" {
            return Err(Error::Names);
        }
        let report = match Row::parse(&row, call) {
            Ok(read) if read.line == line => read.report,
            Ok(_) => return Err(Error::OtherLine { line, call: told(), row }),
            Err(source) => return Err(Error::Malformed { line, call: told(), row, source }),
        };
        transcript.write(line, call, &report, shown).map_err(Error::Write)?;
    }
    match next(rows)? {
        None => Ok(()),
        Some(row) => Err(Error::LeftOver { calls: calls.len(), row }),
    }
}

/// The next line, without its line feed.
fn next(rows: &mut impl BufRead) -> Result<Option<String>, Error> {
    let mut line = Vec::new();
    if rows.read_until(b'\n', &mut line).map_err(Error::Read)? == 0 {
        return Ok(None);
    }
    if line.last() == Some(&b'\n') {
        line.pop();
    }
    Ok(Some(String::from_utf8_lossy(&line).into_owned()))
}
