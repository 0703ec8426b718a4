//! What a step reports: a result, or why there is none.
use crate::descriptor::Property;
use crate::lent;
use crate::notation::Strings;
use crate::readable;
use crate::value::{FunctionId, ObjectId, PropertyKey, Prototype, Value, ValueWords};
use std::error::Error;
use std::fmt;

/// How many words a report has.
pub const REPORT_WORDS: usize = 10;

/// Why a call was turned back. Store, strings and output are then as they were before it, and no answer and no call is reported.
///
/// ```
/// use demnyaluz::{Answer, Failure, Refusal, Store, Traps};
///
/// let mut store = Store::new();
/// let object = store.make_object(None)?;
/// let proxy = store.make_proxy(object, Traps::ALL)?;
/// // the trap has no answer
/// assert_eq!(store.is_extensible(proxy, &[]), Err(Failure::Refused(Refusal::SheetSpent)));
/// assert_eq!(Refusal::SheetSpent.number(), 8);
/// // nothing takes the answer
/// let unread = store.is_extensible(object, &[Answer::Value(true.into())]);
/// assert_eq!(unread, Err(Failure::Refused(Refusal::UnreadAnswers)));
/// # Ok::<(), Failure>(())
/// ```
#[derive(Clone, Copy, PartialEq, Eq, PartialOrd, Ord, Hash, Debug)]
#[non_exhaustive]
#[repr(u8)]
pub enum Refusal {
    /// 1: the bytes are no step, sheet or descriptor, or the memory is no store or table.
    MalformedRecord = 1,
    /// 2: the number of an object or of a function that is not there: it was never made, or it was released.
    ObjectNeverMade = 2,
    /// 3: a string was not entered or is too long, a function is named as another object or another object as a function, a part has a kind, or is
    /// an object, that its step cannot use, or a page is asked of a proxy.
    UnusablePart = 3,
    /// 4: a descriptor mixes data and accessor fields, or has a get or set that cannot be called and is not undefined.
    UnusableDescriptor = 4,
    /// 5: the current descriptor has not all fields of a data or of an accessor property.
    IncompleteCurrent = 5,
    /// 6: of the descriptors to be merged one is data and the other an accessor.
    DifferentKinds = 6,
    /// 7: there is no room for another object, function, property or string. Of objects and functions the live ones count.
    StoreFull = 7,
    /// 8: an answer is asked for, and none is left.
    SheetSpent = 8,
    /// 9: the answer has a form that who asks cannot read, an object or a function where a descriptor or keys are asked for too.
    UnreadableAnswer = 9,
    /// 10: the step would make more than 2,048 calls.
    TooManyCalls = 10,
    /// 11: the keys do not fit the output, at 9 bytes each, or a page does not.
    OutputTooSmall = 11,
    /// 12: a line of text breaks its form or has more than 16,384 characters.
    BrokenLine = 12,
    /// 13: the step ends, in a result, a TypeError or a throw, and an answer was not read. It comes after 7 to 10, and before 11.
    UnreadAnswers = 13,
    /// 14: the object to be released is still named by a live object, itself included: as its prototype, as the value, getter or setter of a property,
    /// or as the target of a proxy that is not revoked. It comes after 3, and before 4.
    StillNamed = 14,
}

impl Refusal {
    /// All refusals, in the order of their numbers.
    ///
    /// ```
    /// use demnyaluz::Refusal;
    ///
    /// assert_eq!(Refusal::ALL.first(), Some(&Refusal::MalformedRecord));
    /// ```
    pub const ALL: &'static [Refusal] = &[
        Refusal::MalformedRecord,
        Refusal::ObjectNeverMade,
        Refusal::UnusablePart,
        Refusal::UnusableDescriptor,
        Refusal::IncompleteCurrent,
        Refusal::DifferentKinds,
        Refusal::StoreFull,
        Refusal::SheetSpent,
        Refusal::UnreadableAnswer,
        Refusal::TooManyCalls,
        Refusal::OutputTooSmall,
        Refusal::BrokenLine,
        Refusal::UnreadAnswers,
        Refusal::StillNamed,
    ];

    /// The number: 1 for the first.
    #[must_use]
    pub fn number(self) -> u8 {
        self as u8
    }

    /// The refusal of a number, if there is one.
    ///
    /// ```
    /// use demnyaluz::Refusal;
    ///
    /// assert_eq!(Refusal::from_number(8), Some(Refusal::SheetSpent));
    /// assert_eq!(Refusal::from_number(0), None);
    /// ```
    #[must_use]
    pub fn from_number(number: u64) -> Option<Refusal> {
        Refusal::ALL.iter().copied().find(|r| u64::from(r.number()) == number)
    }
}

impl fmt::Display for Refusal {
    fn fmt(&self, f: &mut fmt::Formatter<'_>) -> fmt::Result {
        f.write_str(match self {
            Refusal::MalformedRecord => "a record is malformed",
            Refusal::ObjectNeverMade => "an object was never made",
            Refusal::UnusablePart => "a string was not entered or is too long, or a part has a kind that cannot be used",
            Refusal::UnusableDescriptor => "a descriptor is mixed, or its get or set cannot be called",
            Refusal::IncompleteCurrent => "the current descriptor is incomplete",
            Refusal::DifferentKinds => "one descriptor is data and the other an accessor",
            Refusal::StoreFull => "there is no room",
            Refusal::SheetSpent => "the sheet has no next answer",
            Refusal::UnreadableAnswer => "the next answer cannot be read",
            Refusal::TooManyCalls => "more than 2048 calls",
            Refusal::OutputTooSmall => "the output is too small",
            Refusal::BrokenLine => "the line breaks its form or is too long",
            Refusal::UnreadAnswers => "the sheet has unread answers",
            Refusal::StillNamed => "the object is still named",
        })
    }
}

impl Error for Refusal {}

macro_rules! messages {
    ($($number:literal $name:ident $doc:literal,)*) => {
        /// The TypeErrors. Their texts are the library's: [`Message::text`].
        ///
        /// ```
        /// use demnyaluz::Message;
        ///
        /// assert_eq!(Message::GotUnexpectedData.number(), 17);
        /// assert_eq!(Message::GotUnexpectedData.to_string(), "Proxy trap returned unexpected data descriptor");
        /// ```
        #[derive(Clone, Copy, PartialEq, Eq, PartialOrd, Ord, Hash, Debug)]
        #[non_exhaustive]
        #[repr(u8)]
        pub enum Message {
            $(#[doc = $doc] $name = $number,)*
        }

        impl Message {
            /// All messages, in the order of their numbers.
            pub const ALL: &'static [Message] = &[$(Message::$name,)*];
        }
    };
}

messages! {
    1 RevokedProxy "1: the proxy was revoked.",
    2 PrototypeNotObjectOrNull "2: the getPrototypeOf trap answered neither an object nor a function nor null.",
    3 UnexpectedPrototype "3: the getPrototypeOf trap answered another prototype than a non-extensible target's.",
    4 PrototypeNotSet "4: the setPrototypeOf trap answered true for another prototype than a non-extensible target's.",
    5 UnexpectedExtensible "5: the isExtensible trap answered otherwise than the target.",
    6 StillExtensible "6: the preventExtensions trap answered true over an extensible target.",
    7 DescriptorNotObjectOrUndefined "7: the getOwnPropertyDescriptor trap answered neither an object nor undefined.",
    8 HiddenNonConfigurable "8: the getOwnPropertyDescriptor trap hid a non-configurable property.",
    9 HiddenOfNonExtensible "9: the getOwnPropertyDescriptor trap hid a property of a non-extensible target.",
    10 UnexpectedProperty "10: a getOwnPropertyDescriptor answer does not fit the target, or the has trap hid a property that it may not hide.",
    11 ReportedNonWritable "11: a non-writable, non-configurable answer over a target property that is still writable.",
    12 ReportedNonConfigurable "12: a non-configurable answer over an absent or configurable target property.",
    13 PropertyNotDefined "13: the defineProperty trap answered true for a property that the target lacks and may not get so.",
    14 DefinedUnexpectedValue "14: the defineProperty trap answered true for a descriptor that does not fit the target's property.",
    15 DefinedUnexpectedConfigurable "15: the defineProperty trap answered true for non-configurable over a configurable target property.",
    16 DefinedUnexpectedWritable "16: the defineProperty trap answered true for non-writable over a target property that is still writable.",
    17 GotUnexpectedData "17: the get trap answered another value than a fixed one.",
    18 GotUnexpectedAccessor "18: the get trap answered a value where a fixed getter is undefined.",
    19 SetUnexpectedData "19: the set trap answered true for another value than a fixed one.",
    20 SetUnexpectedAccessor "20: the set trap answered true where a fixed setter is undefined.",
    21 NotDeleted "21: the deleteProperty trap answered true for a property that may not go.",
    22 DuplicateString "22: the ownKeys trap listed a string twice.",
    23 DuplicateSymbol "23: the ownKeys trap listed a symbol twice.",
    24 NonConfigurableKeyMissing "24: the ownKeys trap left out a non-configurable key.",
    25 ConfigurableKeyMissing "25: the ownKeys trap left out a key of a non-extensible target.",
    26 UnexpectedKey "26: the ownKeys trap listed a key that a non-extensible target lacks.",
    27 GetterNotCallable "27: the getter of an answered descriptor cannot be called.",
    28 SetterNotCallable "28: the setter of an answered descriptor cannot be called.",
    29 MixedDescriptor "29: an answered descriptor mixes data and accessor fields.",
    30 NotKey "30: a listed value is neither a string nor a symbol.",
    31 KeysNotObject "31: the ownKeys trap answered a primitive.",
    32 DefinitionRejected "32: a definition by which an object is sealed or frozen was answered with false.",
}

impl Message {
    /// The number: 1 for the first.
    #[must_use]
    pub fn number(self) -> u8 {
        self as u8
    }

    /// The message of a number, if there is one.
    ///
    /// ```
    /// use demnyaluz::Message;
    ///
    /// assert_eq!(Message::from_number(1), Some(Message::RevokedProxy));
    /// assert_eq!(Message::from_number(0), None);
    /// ```
    #[must_use]
    pub fn from_number(number: u64) -> Option<Message> {
        Message::ALL.iter().copied().find(|m| u64::from(m.number()) == number)
    }

    /// The text, as the library's table has it.
    ///
    /// ```
    /// assert_eq!(demnyaluz::Message::RevokedProxy.text(), "Proxy object has empty handler and target");
    /// ```
    #[must_use]
    pub fn text(self) -> String {
        let mut bytes = vec![0; lent::message(self.number().into(), &mut [])];
        lent::message(self.number().into(), &mut bytes);
        String::from_utf8_lossy(&bytes).into_owned()
    }
}

impl fmt::Display for Message {
    fn fmt(&self, f: &mut fmt::Formatter<'_>) -> fmt::Result {
        f.write_str(&self.text())
    }
}

/// What a result holds.
///
/// ```
/// use demnyaluz::{Completion, SymbolId};
///
/// assert_eq!(Completion::Value(70_000.into()).to_string(), "70000");
/// assert_eq!(Completion::Keys(vec![SymbolId(3).into()]).to_string(), "[y3]");
/// ```
#[derive(Clone, PartialEq, Eq, Hash, Debug)]
#[non_exhaustive]
pub enum Completion {
    /// A value.
    Value(Value),
    /// A property.
    Property(Property),
    /// No property.
    Absent,
    /// Keys, in their order.
    Keys(Vec<PropertyKey>),
}

impl fmt::Display for Completion {
    /// Strings are numbers here; [`readable::completion`] has their texts.
    fn fmt(&self, f: &mut fmt::Formatter<'_>) -> fmt::Result {
        f.write_str(&readable::completion(self, &Strings::new()))
    }
}

/// Why there is no result. The store is then as it was before, but for a TypeError or a throw of
/// [`Step::SetIntegrityLevel`](crate::Step::SetIntegrityLevel), which leaves what was changed before it.
///
/// Its text is the whole of what there is to say, the refusal's or the message's included, so it has no [`source`](Error::source).
///
/// ```
/// use demnyaluz::{Failure, Message, Refusal};
///
/// assert_eq!(Failure::from(Refusal::StoreFull).to_string(), "refused 7: there is no room");
/// let failure = Failure::TypeError(Message::RevokedProxy);
/// assert_eq!(failure.to_string(), "TypeError 1: Proxy object has empty handler and target");
/// assert_eq!(Failure::Thrown(4_464.into()).to_string(), "thrown 4464");
/// ```
#[derive(Clone, Copy, PartialEq, Eq, Hash, Debug)]
#[non_exhaustive]
pub enum Failure {
    /// The call was turned back.
    Refused(Refusal),
    /// A TypeError by one of the messages.
    TypeError(Message),
    /// A value that an answer threw.
    Thrown(Value),
}

impl fmt::Display for Failure {
    fn fmt(&self, f: &mut fmt::Formatter<'_>) -> fmt::Result {
        match self {
            Failure::Refused(r) => write!(f, "refused {}: {r}", r.number()),
            Failure::TypeError(m) => write!(f, "TypeError {}: {m}", m.number()),
            Failure::Thrown(v) => write!(f, "thrown {v}"),
        }
    }
}

impl Error for Failure {}

impl From<Refusal> for Failure {
    fn from(r: Refusal) -> Failure {
        Failure::Refused(r)
    }
}

/// What a step reports.
///
/// ```
/// use demnyaluz::{Completion, Step, Store};
///
/// let mut store = Store::new();
/// let report = store.step(&Step::MakeObject { prototype: None }, &[]);
/// assert_eq!((report.answers, report.calls), (0, 0));
/// assert_eq!(report.to_string(), "o0 (0 answers, 0 calls)");
/// assert!(matches!(report.outcome, Ok(Completion::Value(_))));
/// ```
#[derive(Clone, PartialEq, Eq, Hash, Debug)]
#[must_use = "a report may be of a failure"]
#[non_exhaustive]
pub struct Report {
    /// The result, or why there is none.
    pub outcome: Result<Completion, Failure>,
    /// How many answers were used.
    pub answers: u32,
    /// How many calls of internal methods were made, the first included.
    pub calls: u32,
}

impl Report {
    /// The report of its [`REPORT_WORDS`] words and, for keys, the output that they were written to; none where they are no report, and none for
    /// those of a page, which [`lent::page`] reads itself.
    ///
    /// ```
    /// use demnyaluz::{Report, REPORT_WORDS};
    ///
    /// let mut words = [0; REPORT_WORDS];
    /// words[1] = 7;
    /// assert_eq!(Report::from_words(&words, &[]).unwrap().to_string(), "refused 7: there is no room");
    /// words[1] = 0;
    /// assert_eq!(Report::from_words(&words, &[]), None);
    /// ```
    #[must_use]
    pub fn from_words(words: &[u64], output: &[u8]) -> Option<Report> {
        let [outcome, number, answers, calls, form, detail, kind, payload, second_kind, second_payload] = *words else {
            return None;
        };
        let value = || Value::from_words(ValueWords { kind, payload });
        let second = || Value::from_words(ValueWords { kind: second_kind, payload: second_payload });
        let flag = |bit: u64| detail & bit != 0;
        let (enumerable, configurable) = (flag(4), flag(8));
        let outcome = match (outcome, form) {
            (0, _) => Err(Failure::Refused(Refusal::from_number(number)?)),
            (2, _) => Err(Failure::TypeError(Message::from_number(number)?)),
            (3, _) => Err(Failure::Thrown(value()?)),
            (1, 1) => Ok(Completion::Value(value()?)),
            (1, 2) if flag(1) => Ok(Completion::Property(Property::Accessor { get: value()?, set: second()?, enumerable, configurable })),
            (1, 2) => Ok(Completion::Property(Property::Data { value: value()?, writable: flag(2), enumerable, configurable })),
            (1, 3) => Ok(Completion::Absent),
            (1, 4) => Ok(Completion::Keys(keys(output.get(..usize::try_from(detail).ok()?.checked_mul(Value::SIZE)?)?)?)),
            _ => return None,
        };
        Some(Report { outcome, answers: answers.try_into().ok()?, calls: calls.try_into().ok()? })
    }

    /// The report of a call of the library.
    pub(crate) fn of_library(words: lent::ReportWords, output: &[u8]) -> Report {
        Report::from_words(words.as_slice(), output).expect("a report of the library")
    }

    pub(crate) fn into_boolean(self) -> Result<bool, Failure> {
        match self.into_value()? {
            Value::Boolean(b) => Ok(b),
            v => panic!("no boolean: {v}"),
        }
    }

    pub(crate) fn into_value(self) -> Result<Value, Failure> {
        match self.outcome? {
            Completion::Value(v) => Ok(v),
            c => panic!("no value: {c}"),
        }
    }

    pub(crate) fn into_object(self) -> Result<ObjectId, Failure> {
        match self.into_value()? {
            Value::Object(o) => Ok(o),
            v => panic!("no object: {v}"),
        }
    }

    pub(crate) fn into_function(self) -> Result<FunctionId, Failure> {
        match self.into_value()? {
            Value::Function(f) => Ok(f),
            v => panic!("no function: {v}"),
        }
    }

    pub(crate) fn into_prototype(self) -> Result<Option<Prototype>, Failure> {
        match self.into_value()? {
            Value::Null => Ok(None),
            Value::Object(o) => Ok(Some(o.into())),
            Value::Function(f) => Ok(Some(f.into())),
            v => panic!("no prototype: {v}"),
        }
    }

    pub(crate) fn into_property(self) -> Result<Option<Property>, Failure> {
        match self.outcome? {
            Completion::Property(p) => Ok(Some(p)),
            Completion::Absent => Ok(None),
            c => panic!("no property: {c}"),
        }
    }

    pub(crate) fn into_keys(self) -> Result<Vec<PropertyKey>, Failure> {
        match self.outcome? {
            Completion::Keys(keys) => Ok(keys),
            c => panic!("no keys: {c}"),
        }
    }
}

impl fmt::Display for Report {
    /// Strings are numbers here; [`readable::report`] has their texts.
    fn fmt(&self, f: &mut fmt::Formatter<'_>) -> fmt::Result {
        f.write_str(&readable::report(self, &Strings::new()))
    }
}

/// What the words of a page report: how many bytes it has, or the refusal.
pub(crate) fn page_length(words: &[u64; REPORT_WORDS]) -> Option<Result<usize, Refusal>> {
    match *words {
        [0, number, 0, 0, 0, 0, 0, 0, 0, 0] => Refusal::from_number(number).map(Err),
        [1, 0, 0, 0, 5, length, 0, 0, 0, 0] => usize::try_from(length).ok().map(Ok),
        _ => None,
    }
}

/// Keys of their bytes, if each of them is one.
pub(crate) fn keys(bytes: &[u8]) -> Option<Vec<PropertyKey>> {
    let key = |bytes: &[u8]| PropertyKey::try_from(Value::from_bytes(bytes.try_into().ok()?)?).ok();
    bytes.chunks(Value::SIZE).map(key).collect()
}
