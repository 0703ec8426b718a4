//! Language values and property keys.
use std::error::Error;
use std::fmt;

macro_rules! numbers {
    ($($(#[$doc:meta])* $name:ident $letter:literal,)*) => {
        $(
            $(#[$doc])*
            #[derive(Clone, Copy, PartialEq, Eq, PartialOrd, Ord, Hash, Debug)]
            pub struct $name(pub u8);

            impl fmt::Display for $name {
                #[doc = concat!("As a line of steps has it: `", $letter, "0`.")]
                fn fmt(&self, f: &mut fmt::Formatter<'_>) -> fmt::Result {
                    write!(f, concat!($letter, "{}"), self.0)
                }
            }
        )*
    };
}

numbers! {
    /// An object of the store, by its number: an ordinary object, a function or a proxy. Numbers are those of the order made, until objects are
    /// released: what is made then takes the number that was released longest ago, so a number may name one object and later another.
    ///
    /// As a value it names an object that is no function; a value that names a function is a [`FunctionId`].
    ///
    /// ```
    /// assert_eq!(demnyaluz::ObjectId(3).to_string(), "o3");
    /// ```
    ObjectId "o",
    /// A string that was entered, by its number.
    StringId "s",
    /// A symbol, by its number. Symbols need no making.
    SymbolId "y",
    /// A function of the store, by the number that it has among the objects. It has no code: a call of it takes the next answer.
    ///
    /// ```
    /// use demnyaluz::{FunctionId, ObjectId};
    ///
    /// assert_eq!(FunctionId(3).to_string(), "f3");
    /// assert_eq!(ObjectId::from(FunctionId(3)), ObjectId(3));
    /// ```
    FunctionId "f",
}

impl From<FunctionId> for ObjectId {
    /// The function as one of the objects, by the same number.
    fn from(f: FunctionId) -> ObjectId {
        ObjectId(f.0)
    }
}

/// A language value.
///
/// `==` compares representations, NaNs of different bits included; [`Value::same_value`] compares as the language does.
///
/// ```
/// use demnyaluz::{FunctionId, Value};
///
/// assert_eq!(Value::from(70_000), Value::Integer32(70_000));
/// assert_eq!(Value::from(0.5), Value::Float64(0.5));
/// assert_eq!(Value::from(FunctionId(2)).to_string(), "f2");
/// assert_eq!(Value::default(), Value::Undefined);
/// ```
#[derive(Clone, Copy, Debug, Default)]
#[non_exhaustive]
pub enum Value {
    /// undefined
    #[default]
    Undefined,
    /// null
    Null,
    /// true or false
    Boolean(bool),
    /// A Number kept as a 32-bit integer.
    Integer32(i32),
    /// A Number kept as a 64-bit float.
    Float64(f64),
    /// A string that was entered.
    String(StringId),
    /// A symbol.
    Symbol(SymbolId),
    /// An object of the store that is no function: an ordinary object or a proxy.
    Object(ObjectId),
    /// A function of the store.
    Function(FunctionId),
}

/// A value as the two words that a report has of it; `include/demnyaluz.h` says what they are.
///
/// ```
/// use demnyaluz::{Value, ValueWords};
///
/// let words = Value::from(-1).to_words();
/// assert_eq!(words, ValueWords { kind: 3, payload: 0xffff_ffff });
/// assert_eq!(Value::from_words(words), Some(Value::Integer32(-1)));
/// assert_eq!(Value::from_words(ValueWords { kind: 2, payload: 2 }), None);
/// ```
#[derive(Clone, Copy, PartialEq, Eq, Hash, Debug, Default)]
pub struct ValueWords {
    /// Which kind of value it is.
    pub kind: u64,
    /// The value within its kind.
    pub payload: u64,
}

impl PartialEq for Value {
    fn eq(&self, other: &Value) -> bool {
        self.to_words() == other.to_words()
    }
}

impl Eq for Value {}

impl std::hash::Hash for Value {
    fn hash<H: std::hash::Hasher>(&self, state: &mut H) {
        self.to_words().hash(state);
    }
}

impl Value {
    /// How many bytes the record of a value has.
    pub const SIZE: usize = 9;

    /// The kind and the payload.
    #[must_use]
    pub fn to_words(self) -> ValueWords {
        let (kind, payload) = match self {
            Value::Undefined => (0, 0),
            Value::Null => (1, 0),
            Value::Boolean(b) => (2, b.into()),
            Value::Integer32(i) => (3, (i as u32).into()),
            Value::Float64(f) => (4, f.to_bits()),
            Value::String(n) => (5, n.0.into()),
            Value::Symbol(n) => (6, n.0.into()),
            Value::Object(n) => (7, n.0.into()),
            Value::Function(n) => (8, n.0.into()),
        };
        ValueWords { kind, payload }
    }

    /// The value of a kind and a payload, if there is one.
    #[must_use]
    pub fn from_words(words: ValueWords) -> Option<Value> {
        let ValueWords { kind, payload } = words;
        let number = || u8::try_from(payload).ok();
        Some(match kind {
            0 if payload == 0 => Value::Undefined,
            1 if payload == 0 => Value::Null,
            2 if payload <= 1 => Value::Boolean(payload == 1),
            3 => Value::Integer32(u32::try_from(payload).ok()? as i32),
            4 => Value::Float64(f64::from_bits(payload)),
            5 => Value::String(StringId(number()?)),
            6 => Value::Symbol(SymbolId(number()?)),
            7 => Value::Object(ObjectId(number()?)),
            8 => Value::Function(FunctionId(number()?)),
            _ => return None,
        })
    }

    /// The bytes of a value in a record: its kind, then its payload, low byte first.
    ///
    /// ```
    /// use demnyaluz::Value;
    ///
    /// let bytes = Value::from(70_000).to_bytes();
    /// assert_eq!(bytes, [3, 0x70, 0x11, 0x01, 0, 0, 0, 0, 0]);
    /// assert_eq!(Value::from_bytes(&bytes), Some(Value::Integer32(70_000)));
    /// ```
    #[must_use]
    pub fn to_bytes(self) -> [u8; Self::SIZE] {
        let ValueWords { kind, payload } = self.to_words();
        let mut bytes = [kind as u8; Self::SIZE];
        bytes[1..].copy_from_slice(&payload.to_le_bytes());
        bytes
    }

    /// The value of the bytes of a record, if there is one.
    #[must_use]
    pub fn from_bytes(bytes: &[u8; Self::SIZE]) -> Option<Value> {
        let [kind, payload @ ..] = *bytes;
        Value::from_words(ValueWords { kind: kind.into(), payload: u64::from_le_bytes(payload) })
    }

    /// SameValue: all NaNs are alike, +0 and -0 differ, Integer32 1 is Float64 1.0.
    ///
    /// ```
    /// use demnyaluz::Value;
    ///
    /// assert!(Value::from(1).same_value(Value::from(1.0)));
    /// assert!(!Value::from(0).same_value(Value::from(-0.0)));
    /// assert!(Value::from(f64::NAN).same_value(Value::from(-f64::NAN)));
    /// ```
    #[must_use]
    pub fn same_value(self, other: Value) -> bool {
        match (self.number(), other.number()) {
            (Some(a), Some(b)) => a.to_bits() == b.to_bits() || a.is_nan() && b.is_nan(),
            _ => self == other,
        }
    }

    fn number(self) -> Option<f64> {
        match self {
            Value::Integer32(i) => Some(i.into()),
            Value::Float64(f) => Some(f),
            _ => None,
        }
    }
}

macro_rules! from {
    ($($type:ty => $variant:ident,)*) => {
        $(
            impl From<$type> for Value {
                fn from(v: $type) -> Value {
                    Value::$variant(v.into())
                }
            }
        )*
    };
}

from! {
    bool => Boolean,
    i8 => Integer32,
    u8 => Integer32,
    i16 => Integer32,
    u16 => Integer32,
    i32 => Integer32,
    f32 => Float64,
    f64 => Float64,
    StringId => String,
    SymbolId => Symbol,
    ObjectId => Object,
    FunctionId => Function,
}

impl From<PropertyKey> for Value {
    fn from(k: PropertyKey) -> Value {
        match k {
            PropertyKey::String(s) => Value::String(s),
            PropertyKey::Symbol(s) => Value::Symbol(s),
        }
    }
}

impl fmt::Display for Value {
    /// `undefined`, `70000`, `-0.0`, `o3`, `s0`, `y7`, `f2`: as a line of steps has it, but for strings, which are numbers here.
    fn fmt(&self, f: &mut fmt::Formatter<'_>) -> fmt::Result {
        match self {
            Value::Undefined => f.write_str("undefined"),
            Value::Null => f.write_str("null"),
            Value::Boolean(b) => write!(f, "{b}"),
            Value::Integer32(i) => write!(f, "{i}"),
            Value::Float64(x) if x.is_infinite() => f.write_str(if *x > 0.0 { "Infinity" } else { "-Infinity" }),
            Value::Float64(x) => write!(f, "{x:?}"),
            Value::String(n) => write!(f, "{n}"),
            Value::Symbol(n) => write!(f, "{n}"),
            Value::Object(n) => write!(f, "{n}"),
            Value::Function(n) => write!(f, "{n}"),
        }
    }
}

/// What a prototype is where it is not null: an object or a function.
///
/// ```
/// use demnyaluz::{FunctionId, ObjectId, Prototype, Value};
///
/// let prototype = Prototype::from(FunctionId(2));
/// assert_eq!(prototype, Prototype::Function(FunctionId(2)));
/// assert_eq!(Value::from(prototype), Value::Function(FunctionId(2)));
/// assert_eq!(ObjectId::from(prototype), ObjectId(2));
/// assert_eq!(prototype.to_string(), "f2");
/// ```
// an object can be called or it cannot
#[allow(clippy::exhaustive_enums)]
#[derive(Clone, Copy, PartialEq, Eq, PartialOrd, Ord, Hash, Debug)]
pub enum Prototype {
    /// An ordinary object or a proxy.
    Object(ObjectId),
    /// A function.
    Function(FunctionId),
}

impl From<ObjectId> for Prototype {
    fn from(o: ObjectId) -> Prototype {
        Prototype::Object(o)
    }
}

impl From<FunctionId> for Prototype {
    fn from(f: FunctionId) -> Prototype {
        Prototype::Function(f)
    }
}

impl From<Prototype> for Value {
    fn from(p: Prototype) -> Value {
        match p {
            Prototype::Object(o) => Value::Object(o),
            Prototype::Function(f) => Value::Function(f),
        }
    }
}

impl From<Prototype> for ObjectId {
    /// The prototype as one of the objects, by its number.
    fn from(p: Prototype) -> ObjectId {
        match p {
            Prototype::Object(o) => o,
            Prototype::Function(f) => f.into(),
        }
    }
}

impl fmt::Display for Prototype {
    fn fmt(&self, f: &mut fmt::Formatter<'_>) -> fmt::Result {
        Value::from(*self).fmt(f)
    }
}

/// A property key: a string that was entered, or a symbol.
///
/// ```
/// use demnyaluz::{PropertyKey, SymbolId, Value};
///
/// let key = PropertyKey::from(SymbolId(3));
/// assert_eq!(Value::from(key), Value::Symbol(SymbolId(3)));
/// assert_eq!(PropertyKey::try_from(Value::Symbol(SymbolId(3))), Ok(key));
///
/// let error = PropertyKey::try_from(Value::Null).unwrap_err();
/// assert_eq!(error.to_string(), "expected a string or a symbol, found null");
/// ```
// the standard has these two kinds
#[allow(clippy::exhaustive_enums)]
#[derive(Clone, Copy, PartialEq, Eq, PartialOrd, Ord, Hash, Debug)]
pub enum PropertyKey {
    /// A string.
    String(StringId),
    /// A symbol.
    Symbol(SymbolId),
}

/// A value that is no property key.
#[derive(Clone, Copy, PartialEq, Eq, Hash, Debug)]
pub struct TryFromValueError {
    value: Value,
}

impl TryFromValueError {
    /// The value.
    #[must_use]
    pub fn value(&self) -> Value {
        self.value
    }
}

impl fmt::Display for TryFromValueError {
    fn fmt(&self, f: &mut fmt::Formatter<'_>) -> fmt::Result {
        write!(f, "expected a string or a symbol, found {}", self.value)
    }
}

impl Error for TryFromValueError {}

impl TryFrom<Value> for PropertyKey {
    type Error = TryFromValueError;

    fn try_from(value: Value) -> Result<PropertyKey, TryFromValueError> {
        match value {
            Value::String(s) => Ok(PropertyKey::String(s)),
            Value::Symbol(s) => Ok(PropertyKey::Symbol(s)),
            _ => Err(TryFromValueError { value }),
        }
    }
}

impl From<StringId> for PropertyKey {
    fn from(s: StringId) -> PropertyKey {
        PropertyKey::String(s)
    }
}

impl From<SymbolId> for PropertyKey {
    fn from(s: SymbolId) -> PropertyKey {
        PropertyKey::Symbol(s)
    }
}

impl fmt::Display for PropertyKey {
    fn fmt(&self, f: &mut fmt::Formatter<'_>) -> fmt::Result {
        Value::from(*self).fmt(f)
    }
}
