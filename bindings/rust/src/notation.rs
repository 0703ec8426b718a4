//! Steps as readable lines, and as hexadecimal cells.
//!
//! A line is one step or one string entry. `#` starts a comment. Lines that begin with a space or a tab belong to the step before them and
//! hold its answers; answers may also stand at the end of the step's own line, after `answers:`.
//!
//! ```text
//! line    = "string" TEXT
//!         | "object" [prototype]                              makes an ordinary object; without a prototype it is null
//!         | "function" [prototype]                            makes a function; likewise
//!         | "proxy" object ["traps" trap {"," trap}]          makes a proxy; traps by the names below, "all" or a mask
//!         | "revoke" object
//!         | "release" object
//!         | "getPrototypeOf" object
//!         | "setPrototypeOf" object prototype
//!         | "isExtensible" object
//!         | "preventExtensions" object
//!         | "getOwnPropertyDescriptor" object key
//!         | "defineProperty" object key descriptor
//!         | "has" object key
//!         | "get" object key ["receiver" value]               the receiver is the object where none is given
//!         | "set" object key value ["receiver" value]
//!         | "deleteProperty" object key
//!         | "ownKeys" object
//!         | "seal" object
//!         | "freeze" object
//!         | "isSealed" object
//!         | "isFrozen" object
//! each step may end in "answers:" answers; further lines of answers begin with a space and may begin with "answers:"
//! answers = answer {"," answer}
//! answer  = ["value"] value | ["descriptor"] descriptor | ["keys"] "[" [value {"," value}] "]" | "throw" value
//! descriptor = "{" [field {"," field}] "}"
//! field   = ("enumerable" | "configurable" | "writable") ":" ("true" | "false") | ("value" | "get" | "set") ":" value
//! prototype = "null" | object
//! object  = o0 to o255 | f0 to f255                           an object or a function, by its number
//! key     = TEXT | s0 to s255 | y0 to y255                    a string by its text or its number, a symbol
//! value   = "undefined" | "null" | "true" | "false" | NUMBER | key | object
//! NUMBER  = -2147483648 to 2147483647 is an Integer32; -0, NaN, Infinity, -Infinity and anything with "." or "e" is a Float64, which is an
//!           error where it is too large for one
//! TEXT    = '"' {character | \" | \\ | \n | \t | \uXXXX} '"'
//! ```
//!
//! A text that was not entered yet is entered before the line that has it. The object that a step is on is a number in its record, so `o1` and `f1`
//! are one there; as a prototype, a receiver or another value `o1` is no function and `f1` is one.
use crate::descriptor::PropertyDescriptor;
use crate::readable;
use crate::step::{sheet_bytes, Answer, IntegrityLevel, Step, Traps, TRAPS};
use crate::store::{MAXIMUM_STRINGS, MAXIMUM_UNITS};
use crate::value::{FunctionId, ObjectId, PropertyKey, Prototype, StringId, SymbolId, Value};
use std::fmt;

/// What is to be called.
///
/// ```
/// use demnyaluz::notation::Call;
///
/// assert_eq!(Call::Enter(vec![0x76]).to_string(), "string \"v\"");
/// ```
#[derive(Clone, PartialEq, Eq, Hash, Debug)]
#[non_exhaustive]
pub enum Call {
    /// A string is entered, as code units.
    Enter(Vec<u16>),
    /// A step is performed.
    Step {
        /// The step.
        step: Step,
        /// What its traps, getters and setters answer.
        answers: Vec<Answer>,
    },
}

impl fmt::Display for Call {
    /// As a line has it, but for strings, which are numbers here; [`readable::call`] has their texts.
    fn fmt(&self, f: &mut fmt::Formatter<'_>) -> fmt::Result {
        f.write_str(&readable::call(self, &Strings::new()))
    }
}

/// A call, and the line that it stands on.
#[derive(Clone, PartialEq, Eq, Hash, Debug)]
pub struct Line {
    /// Lines count from 1.
    pub number: usize,
    /// The call.
    pub call: Call,
}

/// Where a line cannot be read: what was expected there, and what was found.
///
/// ```
/// use demnyaluz::notation::parse;
///
/// let error = parse("object\nrevoke it").unwrap_err();
/// assert_eq!((error.line(), error.column()), (2, 8));
/// assert_eq!((error.expected(), error.found()), ("an object (o0 to o255) or a function (f0 to f255)", "'it'"));
/// assert_eq!(error.to_string(), "line 2, column 8: expected an object (o0 to o255) or a function (f0 to f255), found 'it'");
/// ```
#[derive(Clone, PartialEq, Eq, Hash, Debug)]
pub struct Error {
    line: usize,
    column: usize,
    expected: String,
    found: String,
}

impl Error {
    /// The line; lines count from 1.
    #[must_use]
    pub fn line(&self) -> usize {
        self.line
    }

    /// The column; columns count from 1, in characters.
    #[must_use]
    pub fn column(&self) -> usize {
        self.column
    }

    /// What was expected.
    #[must_use]
    pub fn expected(&self) -> &str {
        &self.expected
    }

    /// What was found.
    #[must_use]
    pub fn found(&self) -> &str {
        &self.found
    }
}

impl fmt::Display for Error {
    fn fmt(&self, f: &mut fmt::Formatter<'_>) -> fmt::Result {
        write!(f, "line {}, column {}: expected {}, found {}", self.line, self.column, self.expected, self.found)
    }
}

impl std::error::Error for Error {}

/// The strings that calls have entered, by their numbers.
///
/// ```
/// use demnyaluz::notation::Strings;
/// use demnyaluz::StringId;
///
/// let mut strings = Strings::new();
/// assert_eq!(strings.enter(&[0x76]), Some(StringId(0)));
/// assert_eq!(strings.enter(&[0x77]), Some(StringId(1)));
/// assert_eq!(strings.enter(&[0x76]), Some(StringId(0)));
/// assert_eq!(strings.units(StringId(1)), Some(&[0x77][..]));
/// ```
#[derive(Clone, PartialEq, Eq, Hash, Debug, Default)]
pub struct Strings(Vec<Vec<u16>>);

impl Strings {
    /// No string.
    #[must_use]
    pub fn new() -> Self {
        Strings::default()
    }

    /// A string is entered: its number, which an equal one has already, or none where entering it is refused.
    pub fn enter(&mut self, units: &[u16]) -> Option<StringId> {
        if let Some(n) = self.number(units) {
            return Some(n);
        }
        if units.len() > MAXIMUM_UNITS || self.0.len() == MAXIMUM_STRINGS {
            return None;
        }
        self.0.push(units.to_vec());
        self.number(units)
    }

    /// The number of a string that was entered.
    #[must_use]
    pub fn number(&self, units: &[u16]) -> Option<StringId> {
        self.0.iter().position(|s| s == units).map(|n| StringId(n as u8))
    }

    /// The code units of a string that was entered.
    #[must_use]
    pub fn units(&self, s: StringId) -> Option<&[u16]> {
        self.0.get(usize::from(s.0)).map(Vec::as_slice)
    }
}

/// The calls of a text, in their order.
///
/// # Errors
/// The first place that cannot be read.
///
/// ```
/// use demnyaluz::notation::{parse, Call};
///
/// let lines = parse("object   # o0\nhas o0 \"visits\"")?;
/// let calls: Vec<String> = lines.iter().map(|l| l.call.to_string()).collect();
/// assert_eq!(calls, ["object", "string \"visits\"", "has o0 s0"]);
/// # Ok::<(), demnyaluz::notation::Error>(())
/// ```
pub fn parse(text: &str) -> Result<Vec<Line>, Error> {
    let mut calls: Vec<Line> = Vec::new();
    let mut strings = Strings::new();
    for (i, line) in text.lines().enumerate() {
        let number = i + 1;
        let tokens = tokens(line, number)?;
        let Some((_, first)) = tokens.first() else {
            continue;
        };
        let mut parser = Parser {
            tokens: &tokens,
            at: 0,
            line: number,
            end: line.chars().count() + 1,
            strings: &mut strings,
            entered: Vec::new(),
            tried: Vec::new(),
        };
        if line.starts_with([' ', '\t']) {
            let more = parser.answers()?;
            let entered = parser.end()?;
            let expected =
                |found: &str| Error { line: number, column: *first, expected: "a step before answers".to_string(), found: found.to_string() };
            match calls.pop() {
                None => return Err(expected("no line")),
                Some(Line { call: Call::Enter(_), .. }) => return Err(expected("the entry of a string")),
                Some(Line { number, call: Call::Step { step, mut answers } }) => {
                    answers.extend(more);
                    // what the answers name is entered before their step
                    calls.extend(entered.into_iter().map(|units| Line { number, call: Call::Enter(units) }));
                    calls.push(Line { number, call: Call::Step { step, answers } });
                }
            }
        } else {
            let call = parser.call()?;
            let entered = parser.end()?;
            calls.extend(entered.into_iter().map(|units| Line { number, call: Call::Enter(units) }));
            calls.push(Line { number, call });
        }
    }
    Ok(calls)
}

/// The names of the cells of [`cells`], as the first line has them.
pub const HEADING: &str = "step object key value receiver descriptor sheet";

/// A call as cells of lowercase hexadecimal digits, a line that [`TextReader`](crate::TextReader) reads: a dash is all zeros, or an empty
/// sheet. Entering a string is step 0f, with its code units in the last cell, high byte first; a dash there is the empty string.
///
/// ```
/// use demnyaluz::notation::{cells, Call};
/// use demnyaluz::{ObjectId, Step};
///
/// let call = Call::Step { step: Step::OwnPropertyKeys { object: ObjectId(1) }, answers: vec![] };
/// assert_eq!(cells(&call), "0e 01 - - - - -");
/// assert_eq!(cells(&Call::Enter(vec![0x76])), "0f 00 - - - - 0076");
/// ```
#[must_use]
pub fn cells(call: &Call) -> String {
    match call {
        Call::Enter(units) => {
            let units: String = units.iter().map(|u| format!("{u:04x}")).collect();
            format!("0f 00 - - - - {}", if units.is_empty() { "-" } else { &units })
        }
        Call::Step { step, answers } => {
            let bytes = step.to_bytes();
            let mut cells = vec![hex(&bytes[..1]), hex(&bytes[1..2])];
            for part in [&bytes[2..11], &bytes[11..20], &bytes[20..29], &bytes[29..], &sheet_bytes(answers)] {
                cells.push(if part.iter().all(|b| *b == 0) { "-".to_string() } else { hex(part) });
            }
            cells.join(" ")
        }
    }
}

/// Bytes as lowercase hexadecimal digits.
///
/// ```
/// assert_eq!(demnyaluz::notation::hex(&[0x0f, 0xa0]), "0fa0");
/// ```
#[must_use]
pub fn hex(bytes: &[u8]) -> String {
    bytes.iter().map(|b| format!("{b:02x}")).collect()
}

#[derive(Clone, PartialEq, Eq, Debug)]
enum Token {
    Word(String),
    Text(Vec<u16>),
    Mark(char),
}

impl fmt::Display for Token {
    fn fmt(&self, f: &mut fmt::Formatter<'_>) -> fmt::Result {
        match self {
            Token::Word(w) => write!(f, "'{}'", shortened(w)),
            Token::Text(units) => f.write_str(&shortened(&readable::text(units))),
            Token::Mark(c) => write!(f, "'{c}'"),
        }
    }
}

/// The beginning of a long text.
fn shortened(text: &str) -> String {
    const LONGEST: usize = 60;
    match text.char_indices().nth(LONGEST) {
        Some((end, _)) => format!("{}...", &text[..end]),
        None => text.to_string(),
    }
}

/// Whether a word can have the character.
fn is_of_word(c: char) -> bool {
    c.is_ascii_alphanumeric() || "+-._".contains(c)
}

/// The tokens of a line, each with its column.
fn tokens(line: &str, number: usize) -> Result<Vec<(Token, usize)>, Error> {
    let characters: Vec<char> = line.chars().collect();
    let error = |at: usize, expected: &str, found: String| Error { line: number, column: at + 1, expected: expected.to_string(), found };
    let found = |characters: &[char]| match characters {
        [] => "the end of the line".to_string(),
        _ => format!("'{}'", characters.iter().collect::<String>()),
    };
    let mut tokens = Vec::new();
    let mut at = 0;
    while at < characters.len() {
        let start = at;
        match characters[at] {
            '#' => break,
            ' ' | '\t' => at += 1,
            c @ ('{' | '}' | '[' | ']' | ',' | ':') => {
                tokens.push((Token::Mark(c), start + 1));
                at += 1;
            }
            '"' => {
                let mut units = Vec::new();
                at += 1;
                loop {
                    match characters.get(at) {
                        None => return Err(error(start, "a text that ends in '\"'", found(&[]))),
                        Some('"') => break,
                        Some('\\') => {
                            at += 1;
                            match characters.get(at) {
                                Some(c @ ('"' | '\\')) => units.push(*c as u16),
                                Some('n') => units.push(10),
                                Some('t') => units.push(9),
                                Some('u') => {
                                    let digits = &characters[at + 1..characters.len().min(at + 5)];
                                    let unit = digits.iter().try_fold(0, |unit, d| Some(unit << 4 | d.to_digit(16)? as u16));
                                    match unit.filter(|_| digits.len() == 4) {
                                        Some(unit) => units.push(unit),
                                        None => return Err(error(at - 1, "four hexadecimal digits after '\\u'", found(digits))),
                                    }
                                    at += 4;
                                }
                                c => {
                                    let escape = c.map_or(found(&[]), |c| format!("'\\{c}'"));
                                    return Err(error(at - 1, "an escape (\\\" \\\\ \\n \\t or \\u and four digits)", escape));
                                }
                            }
                        }
                        Some(c) => units.extend_from_slice(c.encode_utf16(&mut [0; 2])),
                    }
                    at += 1;
                }
                at += 1;
                tokens.push((Token::Text(units), start + 1));
            }
            c if is_of_word(c) => {
                while characters.get(at).is_some_and(|c| is_of_word(*c)) {
                    at += 1;
                }
                tokens.push((Token::Word(characters[start..at].iter().collect()), start + 1));
            }
            c => return Err(error(at, "a word, a text in '\"', or one of { } [ ] , : #", format!("{c:?}"))),
        }
    }
    Ok(tokens)
}

/// The words that a line can begin with.
const NAMES: &[&str] = &[
    "string",
    "object",
    "function",
    "proxy",
    "revoke",
    "release",
    "getPrototypeOf",
    "setPrototypeOf",
    "isExtensible",
    "preventExtensions",
    "getOwnPropertyDescriptor",
    "defineProperty",
    "has",
    "get",
    "set",
    "deleteProperty",
    "ownKeys",
    "seal",
    "freeze",
    "isSealed",
    "isFrozen",
];

struct Parser<'a> {
    tokens: &'a [(Token, usize)],
    at: usize,
    line: usize,
    /// The column after the line's last character.
    end: usize,
    strings: &'a mut Strings,
    /// Texts of this line that were not entered before it.
    entered: Vec<Vec<u16>>,
    /// What could have stood here, but does not.
    tried: Vec<String>,
}

impl Parser<'_> {
    fn peek(&self) -> Option<&Token> {
        self.tokens.get(self.at).map(|(t, _)| t)
    }

    fn next(&mut self) {
        self.at += 1;
        self.tried.clear();
    }

    fn column(&self) -> usize {
        self.tokens.get(self.at).map_or(self.end, |(_, column)| *column)
    }

    /// The error of what should stand here.
    fn expected<T>(&self, what: impl Into<String>) -> Result<T, Error> {
        let found = self.peek().map_or("the end of the line".to_string(), Token::to_string);
        self.unlike(what, found)
    }

    fn unlike<T>(&self, expected: impl Into<String>, found: impl Into<String>) -> Result<T, Error> {
        Err(Error { line: self.line, column: self.column(), expected: expected.into(), found: found.into() })
    }

    /// Takes the mark, if it is the next.
    fn took_mark(&mut self, mark: char) -> bool {
        let next = self.peek() == Some(&Token::Mark(mark));
        if next {
            self.next();
        } else {
            self.tried.push(format!("'{mark}'"));
        }
        next
    }

    fn mark(&mut self, mark: char) -> Result<(), Error> {
        if self.took_mark(mark) {
            return Ok(());
        }
        self.expected(format!("'{mark}'"))
    }

    fn word(&self) -> Option<&str> {
        match self.peek() {
            Some(Token::Word(w)) => Some(w),
            _ => None,
        }
    }

    /// Takes the word, if it is the next.
    fn took(&mut self, word: &str) -> bool {
        let next = self.word() == Some(word);
        if next {
            self.next();
        } else {
            self.tried.push(format!("'{word}'"));
        }
        next
    }

    /// Nothing may be left of the line; gives the texts to enter before it.
    fn end(self) -> Result<Vec<Vec<u16>>, Error> {
        match (self.peek(), self.tried.is_empty()) {
            (None, _) => Ok(self.entered),
            (_, true) => self.expected("the end of the line"),
            (_, false) => self.expected(format!("{} or the end of the line", self.tried.join(", "))),
        }
    }

    fn call(&mut self) -> Result<Call, Error> {
        let Some(name) = self.word().filter(|w| NAMES.contains(w)).map(str::to_string) else {
            return self.expected(format!("a step ({})", NAMES.join(", ")));
        };
        self.next();
        let step = match name.as_str() {
            "string" => {
                let Some(Token::Text(units)) = self.peek().cloned() else {
                    return self.expected("a text");
                };
                self.next();
                self.strings.enter(&units);
                return Ok(Call::Enter(units));
            }
            "object" => Step::MakeObject { prototype: self.prototype_or_none()? },
            "function" => Step::MakeFunction { prototype: self.prototype_or_none()? },
            "proxy" => Step::MakeProxy { target: self.object()?, traps: if self.took("traps") { self.traps()? } else { Traps::NONE } },
            "revoke" => Step::Revoke { proxy: self.object()? },
            "release" => Step::Release { object: self.object()? },
            "getPrototypeOf" => Step::GetPrototypeOf { object: self.object()? },
            "setPrototypeOf" => Step::SetPrototypeOf { object: self.object()?, prototype: self.prototype()? },
            "isExtensible" => Step::IsExtensible { object: self.object()? },
            "preventExtensions" => Step::PreventExtensions { object: self.object()? },
            "getOwnPropertyDescriptor" => Step::GetOwnProperty { object: self.object()?, key: self.key()? },
            "defineProperty" => Step::DefineOwnProperty { object: self.object()?, key: self.key()?, descriptor: self.descriptor()? },
            "has" => Step::HasProperty { object: self.object()?, key: self.key()? },
            "get" => {
                let (named, key) = (self.named()?, self.key()?);
                Step::Get { object: named.into(), key, receiver: self.receiver(named)? }
            }
            "set" => {
                let (named, key, value) = (self.named()?, self.key()?, self.value()?);
                Step::Set { object: named.into(), key, value, receiver: self.receiver(named)? }
            }
            "deleteProperty" => Step::Delete { object: self.object()?, key: self.key()? },
            "ownKeys" => Step::OwnPropertyKeys { object: self.object()? },
            "seal" => Step::SetIntegrityLevel { object: self.object()?, level: IntegrityLevel::Sealed },
            "freeze" => Step::SetIntegrityLevel { object: self.object()?, level: IntegrityLevel::Frozen },
            "isSealed" => Step::TestIntegrityLevel { object: self.object()?, level: IntegrityLevel::Sealed },
            "isFrozen" => Step::TestIntegrityLevel { object: self.object()?, level: IntegrityLevel::Frozen },
            name => unreachable!("'{name}' is one of the names"),
        };
        let answers = if self.word() == Some("answers") { self.answers()? } else { Vec::new() };
        if answers.is_empty() {
            self.tried.push("'answers:'".to_string());
        }
        Ok(Call::Step { step, answers })
    }

    fn answers(&mut self) -> Result<Vec<Answer>, Error> {
        if self.took("answers") {
            self.mark(':')?;
        }
        let mut answers = vec![self.answer()?];
        while self.took_mark(',') {
            answers.push(self.answer()?);
        }
        Ok(answers)
    }

    fn answer(&mut self) -> Result<Answer, Error> {
        if self.peek().is_none() {
            return self.expected("an answer (a value, a descriptor {..}, keys [..] or throw and a value)");
        }
        if self.took("throw") {
            return Ok(Answer::Throw(self.value()?));
        }
        if self.took("value") {
            return Ok(Answer::Value(self.value()?));
        }
        if self.took("descriptor") || self.peek() == Some(&Token::Mark('{')) {
            return Ok(Answer::Descriptor(self.descriptor()?));
        }
        if self.took("keys") || self.peek() == Some(&Token::Mark('[')) {
            self.mark('[')?;
            let mut values = Vec::new();
            self.items(']', VALUE, |parser| {
                values.push(parser.value()?);
                Ok(())
            })?;
            return Ok(Answer::Keys(values));
        }
        Ok(Answer::Value(self.value()?))
    }

    /// Items with commas between them, up to the closing mark.
    fn items(&mut self, close: char, what: &str, mut item: impl FnMut(&mut Self) -> Result<(), Error>) -> Result<(), Error> {
        if self.took_mark(close) {
            return Ok(());
        }
        if self.peek().is_none() {
            return self.expected(format!("{what} or '{close}'"));
        }
        loop {
            item(self)?;
            if self.took_mark(close) {
                return Ok(());
            }
            if !self.took_mark(',') {
                return self.expected(format!("',' or '{close}'"));
            }
        }
    }

    /// The number of a word such as `o3`, if it is one of that letter.
    fn numbered(&self, letter: char) -> Option<Result<u8, Error>> {
        let digits = self.word()?.strip_prefix(letter)?;
        if digits.is_empty() || !digits.bytes().all(|b| b.is_ascii_digit()) {
            return None;
        }
        Some(digits.parse().or_else(|_| self.expected(format!("{letter}0 to {letter}255"))))
    }

    /// An object or a function, which is what a prototype can be; none where neither is the next.
    fn named_next(&mut self) -> Option<Result<Prototype, Error>> {
        let object = self.numbered('o').map(|n| n.map(|n| ObjectId(n).into()));
        let named = object.or_else(|| self.numbered('f').map(|n| n.map(|n| FunctionId(n).into())))?;
        if named.is_ok() {
            self.next();
        }
        Some(named)
    }

    fn named(&mut self) -> Result<Prototype, Error> {
        self.named_next().unwrap_or_else(|| self.expected(OBJECT))
    }

    /// The object that a step is on.
    fn object(&mut self) -> Result<ObjectId, Error> {
        self.named().map(ObjectId::from)
    }

    fn prototype(&mut self) -> Result<Option<Prototype>, Error> {
        if self.took("null") {
            return Ok(None);
        }
        self.named_next().unwrap_or_else(|| self.expected(format!("null, {OBJECT}"))).map(Some)
    }

    /// The prototype of what is made; null where none is given.
    fn prototype_or_none(&mut self) -> Result<Option<Prototype>, Error> {
        if self.peek().is_none() || self.word() == Some("answers") {
            return Ok(None);
        }
        self.prototype()
    }

    fn receiver(&mut self, named: Prototype) -> Result<Value, Error> {
        if self.took("receiver") {
            return self.value();
        }
        Ok(named.into())
    }

    fn traps(&mut self) -> Result<Traps, Error> {
        let mut traps = Traps::NONE;
        loop {
            let word = self.word().unwrap_or_default();
            let named = TRAPS.iter().find(|(name, _)| *name == word).map(|(_, trap)| *trap);
            let all = (word == "all").then_some(Traps::ALL);
            let Some(more) = named.or(all).or_else(|| Traps::from_mask(word.parse().ok()?)) else {
                let names: Vec<&str> = Traps::ALL.names().collect();
                return self.expected(format!("a trap ({}), 'all' or a mask of at most {}", names.join(", "), Traps::ALL.mask()));
            };
            traps |= more;
            self.next();
            if !self.took_mark(',') {
                return Ok(traps);
            }
        }
    }

    fn text(&mut self, units: &[u16]) -> Result<StringId, Error> {
        let known = self.strings.number(units).is_some();
        let Some(number) = self.strings.enter(units) else {
            return if units.len() > MAXIMUM_UNITS {
                self.unlike(format!("a text of at most {MAXIMUM_UNITS} code units"), format!("one of {}", units.len()))
            } else {
                self.unlike(format!("at most {MAXIMUM_STRINGS} different texts"), "one more")
            };
        };
        if !known {
            self.entered.push(units.to_vec());
        }
        self.next();
        Ok(number)
    }

    fn key(&mut self) -> Result<PropertyKey, Error> {
        if let Some(Token::Text(units)) = self.peek().cloned() {
            return Ok(PropertyKey::String(self.text(&units)?));
        }
        let key = if let Some(n) = self.numbered('s') {
            PropertyKey::String(StringId(n?))
        } else if let Some(n) = self.numbered('y') {
            PropertyKey::Symbol(SymbolId(n?))
        } else {
            return self.expected("a key (a text, s0 to s255 or y0 to y255)");
        };
        self.next();
        Ok(key)
    }

    fn value(&mut self) -> Result<Value, Error> {
        if matches!(self.peek(), Some(Token::Text(_))) || self.numbered('s').is_some() || self.numbered('y').is_some() {
            return self.key().map(Value::from);
        }
        if let Some(named) = self.named_next() {
            return named.map(Value::from);
        }
        let value = match self.word() {
            Some("undefined") => Value::Undefined,
            Some("null") => Value::Null,
            Some("true") => Value::Boolean(true),
            Some("false") => Value::Boolean(false),
            Some("NaN") => Value::Float64(f64::NAN),
            Some("Infinity") => Value::Float64(f64::INFINITY),
            Some("-Infinity") => Value::Float64(f64::NEG_INFINITY),
            Some(word) if word.starts_with(|c: char| c.is_ascii_digit() || "+-.".contains(c)) => self.number(word)?,
            _ => return self.expected(VALUE),
        };
        self.next();
        Ok(value)
    }

    fn number(&self, word: &str) -> Result<Value, Error> {
        if !word.contains(['.', 'e', 'E']) {
            return match word.parse() {
                Ok(0) if word.starts_with('-') => Ok(Value::Float64(-0.0)),
                Ok(i) => Ok(Value::Integer32(i)),
                Err(_) => self.expected("a whole number from -2147483648 to 2147483647, or one with a point or an exponent"),
            };
        }
        match word.parse::<f64>() {
            Ok(f) if f.is_finite() => Ok(Value::Float64(f)),
            Ok(_) => self.expected(format!("a number from {:e} to {:e}, Infinity or -Infinity", f64::MIN, f64::MAX)),
            Err(_) => self.expected("a number"),
        }
    }

    fn descriptor(&mut self) -> Result<PropertyDescriptor, Error> {
        const FIELD: &str = "a field (value, writable, get, set, enumerable or configurable)";
        let mut d = PropertyDescriptor::default();
        self.mark('{')?;
        self.items('}', FIELD, |parser| {
            let name = parser.word().unwrap_or_default().to_string();
            let taken = match name.as_str() {
                "enumerable" => d.enumerable.is_some(),
                "configurable" => d.configurable.is_some(),
                "writable" => d.writable.is_some(),
                "value" => d.value.is_some(),
                "get" => d.get.is_some(),
                "set" => d.set.is_some(),
                _ => return parser.expected(FIELD),
            };
            if taken {
                return parser.unlike("each field once", format!("'{name}' again"));
            }
            parser.next();
            parser.mark(':')?;
            match name.as_str() {
                "enumerable" => d.enumerable = Some(parser.boolean()?),
                "configurable" => d.configurable = Some(parser.boolean()?),
                "writable" => d.writable = Some(parser.boolean()?),
                "value" => d.value = Some(parser.value()?),
                "get" => d.get = Some(parser.value()?),
                _ => d.set = Some(parser.value()?),
            }
            Ok(())
        })?;
        Ok(d)
    }

    fn boolean(&mut self) -> Result<bool, Error> {
        if self.took("true") {
            return Ok(true);
        }
        if self.took("false") {
            return Ok(false);
        }
        self.expected("true or false")
    }
}

const OBJECT: &str = "an object (o0 to o255) or a function (f0 to f255)";
const VALUE: &str = "a value (as undefined, null, true, 70000, -0.5, \"text\", o0, s0, y0 or f0)";
