//! Values, calls and reports as [`notation`](crate::notation) writes them: strings by their texts, where they were entered.
//!
//! ```
//! use demnyaluz::notation::{Call, Strings};
//! use demnyaluz::{readable, Answer, ObjectId, Step, StringId};
//!
//! let mut strings = Strings::new();
//! let key = strings.enter(&"visits".encode_utf16().collect::<Vec<_>>()).expect("room");
//! let step = Step::Get { object: ObjectId(1), key: key.into(), receiver: ObjectId(1).into() };
//! let call = Call::Step { step, answers: vec![Answer::Value(4_464.into())] };
//! assert_eq!(readable::call(&call, &strings), "get o1 \"visits\" receiver o1 answers: 4464");
//! assert_eq!(readable::value(StringId(5).into(), &strings), "s5");
//! ```
use crate::descriptor::PropertyDescriptor;
use crate::notation::{Call, Strings};
use crate::report::{Completion, Failure, Report};
use crate::step::{Answer, IntegrityLevel, Step, Traps};
use crate::validation::ValidationTest;
use crate::value::Value;

/// A text in quotation marks; quotation marks, backslashes, control characters and lone surrogates are escaped.
///
/// ```
/// assert_eq!(demnyaluz::readable::text(&[0x61, 0x22, 0xd800]), r#""a\"\ud800""#);
/// ```
#[must_use]
pub fn text(units: &[u16]) -> String {
    let mut text = String::from("\"");
    for character in char::decode_utf16(units.iter().copied()) {
        match character {
            Ok(c @ ('"' | '\\')) => text.extend(['\\', c]),
            Ok('\n') => text.push_str("\\n"),
            Ok('\t') => text.push_str("\\t"),
            Ok(c) if c.is_control() => text.push_str(&format!("\\u{:04x}", u32::from(c))),
            Ok(c) => text.push(c),
            Err(lone) => text.push_str(&format!("\\u{:04x}", lone.unpaired_surrogate())),
        }
    }
    text + "\""
}

/// A value: `70000`, `o1`, `"visits"`, `y3`; a string that was not entered is `s5`.
///
/// ```
/// use demnyaluz::notation::Strings;
/// use demnyaluz::{readable, StringId};
///
/// let mut strings = Strings::new();
/// strings.enter(&[0x76]);
/// assert_eq!(readable::value(70_000.into(), &strings), "70000");
/// assert_eq!(readable::value(StringId(0).into(), &strings), "\"v\"");
/// assert_eq!(readable::value(StringId(5).into(), &strings), "s5");
/// ```
#[must_use]
pub fn value(v: Value, strings: &Strings) -> String {
    match v {
        Value::String(s) => strings.units(s).map_or_else(|| v.to_string(), text),
        _ => v.to_string(),
    }
}

/// A descriptor: `{value: 70000, writable: false, enumerable: true, configurable: false}`, the fields that it has.
#[must_use]
pub fn descriptor(d: &PropertyDescriptor, strings: &Strings) -> String {
    let of_value = |v: Option<Value>| v.map(|v| value(v, strings));
    let of_boolean = |b: Option<bool>| b.map(|b| b.to_string());
    let fields = [
        ("value", of_value(d.value)),
        ("writable", of_boolean(d.writable)),
        ("get", of_value(d.get)),
        ("set", of_value(d.set)),
        ("enumerable", of_boolean(d.enumerable)),
        ("configurable", of_boolean(d.configurable)),
    ];
    let fields: Vec<String> = fields.into_iter().filter_map(|(name, field)| Some(format!("{name}: {}", field?))).collect();
    format!("{{{}}}", fields.join(", "))
}

/// A list of values: `["visits", y3]`.
///
/// ```
/// use demnyaluz::notation::Strings;
/// use demnyaluz::{readable, SymbolId, Value};
///
/// assert_eq!(readable::list([Value::Null, SymbolId(3).into()], &Strings::new()), "[null, y3]");
/// ```
#[must_use]
pub fn list(values: impl IntoIterator<Item = Value>, strings: &Strings) -> String {
    let values: Vec<String> = values.into_iter().map(|v| value(v, strings)).collect();
    format!("[{}]", values.join(", "))
}

/// An answer: `4464`, `throw "lost"`, `{value: 1}`, `["visits", y3]`.
#[must_use]
pub fn answer(a: &Answer, strings: &Strings) -> String {
    match a {
        Answer::Value(v) => value(*v, strings),
        Answer::Descriptor(d) => descriptor(d, strings),
        Answer::Keys(values) => list(values.iter().copied(), strings),
        Answer::Throw(v) => format!("throw {}", value(*v, strings)),
    }
}

/// A step on one line, without answers: `get o1 "visits" receiver o1`. The object that it is on is a number, so a function too is `o1` there.
///
/// ```
/// use demnyaluz::notation::Strings;
/// use demnyaluz::{readable, ObjectId, Step, Traps};
///
/// let step = Step::MakeProxy { target: ObjectId(0), traps: Traps::GET | Traps::OWN_KEYS };
/// assert_eq!(readable::step(&step, &Strings::new()), "proxy o0 traps get, ownKeys");
/// ```
#[must_use]
pub fn step(step: &Step, strings: &Strings) -> String {
    step_on(step, &step.object().map_or_else(String::new, |o| o.to_string()), strings)
}

/// A step whose object is called so.
pub(crate) fn step_on(step: &Step, object: &str, strings: &Strings) -> String {
    let of = |v: Value| value(v, strings);
    match *step {
        Step::MakeObject { prototype: None } => "object".to_string(),
        Step::MakeObject { prototype: Some(p) } => format!("object {p}"),
        Step::MakeFunction { prototype: None } => "function".to_string(),
        Step::MakeFunction { prototype: Some(p) } => format!("function {p}"),
        Step::MakeProxy { traps: Traps::NONE, .. } => format!("proxy {object}"),
        Step::MakeProxy { traps, .. } => format!("proxy {object} traps {traps}"),
        Step::Revoke { .. } => format!("revoke {object}"),
        Step::Release { .. } => format!("release {object}"),
        Step::GetPrototypeOf { .. } => format!("getPrototypeOf {object}"),
        Step::SetPrototypeOf { prototype, .. } => format!("setPrototypeOf {object} {}", prototype.map_or(Value::Null, Value::from)),
        Step::IsExtensible { .. } => format!("isExtensible {object}"),
        Step::PreventExtensions { .. } => format!("preventExtensions {object}"),
        Step::GetOwnProperty { key, .. } => format!("getOwnPropertyDescriptor {object} {}", of(key.into())),
        Step::DefineOwnProperty { key, descriptor: d, .. } => format!("defineProperty {object} {} {}", of(key.into()), descriptor(&d, strings)),
        Step::HasProperty { key, .. } => format!("has {object} {}", of(key.into())),
        Step::Get { key, receiver, .. } => format!("get {object} {} receiver {}", of(key.into()), of(receiver)),
        Step::Set { key, value, receiver, .. } => format!("set {object} {} {} receiver {}", of(key.into()), of(value), of(receiver)),
        Step::Delete { key, .. } => format!("deleteProperty {object} {}", of(key.into())),
        Step::OwnPropertyKeys { .. } => format!("ownKeys {object}"),
        Step::SetIntegrityLevel { level: IntegrityLevel::Sealed, .. } => format!("seal {object}"),
        Step::SetIntegrityLevel { level: IntegrityLevel::Frozen, .. } => format!("freeze {object}"),
        Step::TestIntegrityLevel { level: IntegrityLevel::Sealed, .. } => format!("isSealed {object}"),
        Step::TestIntegrityLevel { level: IntegrityLevel::Frozen, .. } => format!("isFrozen {object}"),
    }
}

/// A call on one line: `string "visits"`, `get o1 "visits" receiver o1 answers: 4464`.
#[must_use]
pub fn call(c: &Call, strings: &Strings) -> String {
    match c {
        Call::Enter(units) => format!("string {}", text(units)),
        Call::Step { step: s, answers } if answers.is_empty() => step(s, strings),
        Call::Step { step: s, answers } => {
            let answers: Vec<String> = answers.iter().map(|a| answer(a, strings)).collect();
            format!("{} answers: {}", step(s, strings), answers.join(", "))
        }
    }
}

/// What a result holds: `70000`, `{value: 1}`, `absent`, `["visits", y3]`.
#[must_use]
pub fn completion(c: &Completion, strings: &Strings) -> String {
    match c {
        Completion::Value(v) => value(*v, strings),
        Completion::Property(p) => descriptor(&(*p).into(), strings),
        Completion::Absent => "absent".to_string(),
        Completion::Keys(keys) => list(keys.iter().map(|k| Value::from(*k)), strings),
    }
}

/// A report: `70000 (1 answer, 2 calls)`; a refusal has no answers and no calls.
///
/// ```
/// use demnyaluz::notation::Strings;
/// use demnyaluz::{readable, ObjectId, Step, Store};
///
/// let (mut store, strings) = (Store::new(), Strings::new());
/// let report = store.step(&Step::IsExtensible { object: ObjectId(0) }, &[]);
/// assert_eq!(readable::report(&report, &strings), "refused 2: an object was never made");
/// let report = store.step(&Step::MakeObject { prototype: None }, &[]);
/// assert_eq!(readable::report(&report, &strings), "o0 (0 answers, 0 calls)");
/// ```
#[must_use]
pub fn report(r: &Report, strings: &Strings) -> String {
    let outcome = match &r.outcome {
        Ok(c) => completion(c, strings),
        Err(Failure::Thrown(v)) => format!("thrown {}", value(*v, strings)),
        Err(failure @ Failure::Refused(_)) => return failure.to_string(),
        Err(failure) => failure.to_string(),
    };
    format!("{outcome} {}", spent(r))
}

/// Which test rejected a descriptor: `failed test: value`.
///
/// ```
/// use demnyaluz::{readable, ValidationTest};
///
/// assert_eq!(readable::failed_test(ValidationTest::Value), "failed test: value");
/// ```
#[must_use]
pub fn failed_test(t: ValidationTest) -> String {
    format!("failed test: {t}")
}

/// What a step used and made: `(1 answer, 2 calls)`.
pub(crate) fn spent(r: &Report) -> String {
    let plural = |n: u32, what: &str| format!("{n} {what}{}", if n == 1 { "" } else { "s" });
    format!("({}, {})", plural(r.answers, "answer"), plural(r.calls, "call"))
}
