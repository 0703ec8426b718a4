//! Steps and answers, and the bytes that they are.
use crate::descriptor::PropertyDescriptor;
use crate::notation::Strings;
use crate::readable;
use crate::value::{ObjectId, PropertyKey, Prototype, Value};
use std::fmt;
use std::ops::{BitAnd, BitAndAssign, BitOr, BitOrAssign, Not, Sub, SubAssign};

/// Which traps a proxy's handler has: a set with one bit for each method.
///
/// ```
/// use demnyaluz::Traps;
///
/// let mut traps = Traps::GET | Traps::OWN_KEYS;
/// traps |= Traps::SET;
/// assert!(traps.contains(Traps::GET) && !traps.contains(Traps::HAS));
/// assert_eq!(traps.to_string(), "get, set, ownKeys");
/// assert_eq!([Traps::GET, Traps::SET].into_iter().collect::<Traps>(), traps - Traps::OWN_KEYS);
/// ```
#[derive(Clone, Copy, PartialEq, Eq, Hash, Debug, Default)]
pub struct Traps(u16);

macro_rules! traps {
    ($($constant:ident $mask:literal $name:literal $doc:literal,)*) => {
        impl Traps {
            $(#[doc = concat!("The trap of \\[\\[", $doc, "]].")]
            pub const $constant: Traps = Traps($mask);)*

            /// All traps.
            pub const ALL: Traps = Traps(0 $(| $mask)*);
        }

        /// Each trap by its name.
        pub(crate) const TRAPS: &[(&str, Traps)] = &[$(($name, Traps::$constant),)*];
    };
}

traps! {
    GET_PROTOTYPE_OF 1 "getPrototypeOf" "GetPrototypeOf",
    SET_PROTOTYPE_OF 2 "setPrototypeOf" "SetPrototypeOf",
    IS_EXTENSIBLE 4 "isExtensible" "IsExtensible",
    PREVENT_EXTENSIONS 8 "preventExtensions" "PreventExtensions",
    GET_OWN_PROPERTY_DESCRIPTOR 16 "getOwnPropertyDescriptor" "GetOwnProperty",
    DEFINE_PROPERTY 32 "defineProperty" "DefineOwnProperty",
    HAS 64 "has" "HasProperty",
    GET 128 "get" "Get",
    SET 256 "set" "Set",
    DELETE_PROPERTY 512 "deleteProperty" "Delete",
    OWN_KEYS 1024 "ownKeys" "OwnPropertyKeys",
}

impl Traps {
    /// No trap: every call goes to the target.
    pub const NONE: Traps = Traps(0);

    /// The traps of a mask, if each of its bits is a trap's.
    ///
    /// ```
    /// use demnyaluz::Traps;
    ///
    /// assert_eq!(Traps::from_mask(0x80), Some(Traps::GET));
    /// assert_eq!(Traps::from_mask(0x8000), None);
    /// ```
    #[must_use]
    pub const fn from_mask(mask: u16) -> Option<Traps> {
        if mask & !Traps::ALL.0 == 0 {
            Some(Traps(mask))
        } else {
            None
        }
    }

    /// The mask.
    #[must_use]
    pub const fn mask(self) -> u16 {
        self.0
    }

    /// Whether all of these traps are there.
    #[must_use]
    pub const fn contains(self, other: Traps) -> bool {
        self.0 & other.0 == other.0
    }

    /// Whether there is no trap.
    #[must_use]
    pub const fn is_empty(self) -> bool {
        self.0 == 0
    }

    /// The names of the traps, as a handler has them, in the order of their bits.
    ///
    /// ```
    /// use demnyaluz::Traps;
    ///
    /// assert_eq!((Traps::OWN_KEYS | Traps::GET).names().collect::<Vec<_>>(), ["get", "ownKeys"]);
    /// ```
    pub fn names(self) -> impl Iterator<Item = &'static str> {
        TRAPS.iter().filter(move |(_, trap)| self.contains(*trap)).map(|(name, _)| *name)
    }
}

impl BitOr for Traps {
    type Output = Traps;

    fn bitor(self, other: Traps) -> Traps {
        Traps(self.0 | other.0)
    }
}

impl BitOrAssign for Traps {
    fn bitor_assign(&mut self, other: Traps) {
        *self = *self | other;
    }
}

impl BitAnd for Traps {
    type Output = Traps;

    fn bitand(self, other: Traps) -> Traps {
        Traps(self.0 & other.0)
    }
}

impl BitAndAssign for Traps {
    fn bitand_assign(&mut self, other: Traps) {
        *self = *self & other;
    }
}

impl Sub for Traps {
    type Output = Traps;

    /// The traps that the other set lacks.
    fn sub(self, other: Traps) -> Traps {
        Traps(self.0 & !other.0)
    }
}

impl SubAssign for Traps {
    fn sub_assign(&mut self, other: Traps) {
        *self = *self - other;
    }
}

impl Not for Traps {
    type Output = Traps;

    fn not(self) -> Traps {
        Traps::ALL - self
    }
}

impl Extend<Traps> for Traps {
    fn extend<I: IntoIterator<Item = Traps>>(&mut self, traps: I) {
        traps.into_iter().for_each(|t| *self |= t);
    }
}

impl FromIterator<Traps> for Traps {
    fn from_iter<I: IntoIterator<Item = Traps>>(traps: I) -> Traps {
        traps.into_iter().fold(Traps::NONE, Traps::bitor)
    }
}

impl fmt::Display for Traps {
    /// As a line of steps has them: `get, ownKeys`, or `all`; `none` where there are none.
    fn fmt(&self, f: &mut fmt::Formatter<'_>) -> fmt::Result {
        match *self {
            Traps::NONE => f.write_str("none"),
            Traps::ALL => f.write_str("all"),
            _ => f.write_str(&self.names().collect::<Vec<_>>().join(", ")),
        }
    }
}

impl fmt::Binary for Traps {
    fn fmt(&self, f: &mut fmt::Formatter<'_>) -> fmt::Result {
        fmt::Binary::fmt(&self.0, f)
    }
}

impl fmt::Octal for Traps {
    fn fmt(&self, f: &mut fmt::Formatter<'_>) -> fmt::Result {
        fmt::Octal::fmt(&self.0, f)
    }
}

impl fmt::LowerHex for Traps {
    fn fmt(&self, f: &mut fmt::Formatter<'_>) -> fmt::Result {
        fmt::LowerHex::fmt(&self.0, f)
    }
}

impl fmt::UpperHex for Traps {
    fn fmt(&self, f: &mut fmt::Formatter<'_>) -> fmt::Result {
        fmt::UpperHex::fmt(&self.0, f)
    }
}

/// How far an object is closed by [`Step::SetIntegrityLevel`].
///
/// ```
/// use demnyaluz::IntegrityLevel;
///
/// assert_eq!(IntegrityLevel::Frozen.number(), 1);
/// assert_eq!(IntegrityLevel::Frozen.to_string(), "frozen");
/// ```
#[derive(Clone, Copy, PartialEq, Eq, PartialOrd, Ord, Hash, Debug)]
#[non_exhaustive]
#[repr(u8)]
pub enum IntegrityLevel {
    /// 0: it is not extensible, and none of its properties is configurable.
    Sealed = 0,
    /// 1: it is sealed, and none of its data properties is writable.
    Frozen = 1,
}

impl IntegrityLevel {
    /// All levels, in the order of their numbers.
    pub const ALL: &'static [IntegrityLevel] = &[IntegrityLevel::Sealed, IntegrityLevel::Frozen];

    /// The number: 0 for sealed, 1 for frozen.
    #[must_use]
    pub fn number(self) -> u8 {
        self as u8
    }

    /// The level of a number, if there is one.
    ///
    /// ```
    /// use demnyaluz::IntegrityLevel;
    ///
    /// assert_eq!(IntegrityLevel::from_number(0), Some(IntegrityLevel::Sealed));
    /// assert_eq!(IntegrityLevel::from_number(2), None);
    /// ```
    #[must_use]
    pub fn from_number(number: u64) -> Option<IntegrityLevel> {
        IntegrityLevel::ALL.iter().copied().find(|l| u64::from(l.number()) == number)
    }
}

impl fmt::Display for IntegrityLevel {
    fn fmt(&self, f: &mut fmt::Formatter<'_>) -> fmt::Result {
        f.write_str(match self {
            IntegrityLevel::Sealed => "sealed",
            IntegrityLevel::Frozen => "frozen",
        })
    }
}

/// One step over a store.
///
/// ```
/// use demnyaluz::{Step, Store, SymbolId};
///
/// let mut store = Store::new();
/// let object = store.make_object(None)?;
/// let step = Step::HasProperty { object, key: SymbolId(3).into() };
/// assert_eq!(step.to_string(), "has o0 y3");
/// assert_eq!(store.step(&step, &[]).to_string(), "false (0 answers, 3 calls)");
/// # Ok::<(), demnyaluz::Failure>(())
/// ```
#[derive(Clone, Copy, PartialEq, Eq, Hash, Debug)]
#[non_exhaustive]
pub enum Step {
    /// Makes an ordinary object.
    MakeObject {
        /// Its prototype; none is null.
        prototype: Option<Prototype>,
    },
    /// Makes a function: an ordinary object that can be called.
    MakeFunction {
        /// Its prototype; none is null.
        prototype: Option<Prototype>,
    },
    /// Makes a proxy.
    MakeProxy {
        /// The object that it stands before: no function.
        target: ObjectId,
        /// The traps that its handler has.
        traps: Traps,
    },
    /// Revokes a proxy; again is harmless.
    Revoke {
        /// The proxy.
        proxy: ObjectId,
    },
    /// \[\[GetPrototypeOf]]
    GetPrototypeOf {
        /// The object.
        object: ObjectId,
    },
    /// \[\[SetPrototypeOf]]
    SetPrototypeOf {
        /// The object.
        object: ObjectId,
        /// The prototype to set; none is null.
        prototype: Option<Prototype>,
    },
    /// \[\[IsExtensible]]
    IsExtensible {
        /// The object.
        object: ObjectId,
    },
    /// \[\[PreventExtensions]]
    PreventExtensions {
        /// The object.
        object: ObjectId,
    },
    /// \[\[GetOwnProperty]]
    GetOwnProperty {
        /// The object.
        object: ObjectId,
        /// The key.
        key: PropertyKey,
    },
    /// \[\[DefineOwnProperty]]
    DefineOwnProperty {
        /// The object.
        object: ObjectId,
        /// The key.
        key: PropertyKey,
        /// What is to be defined.
        descriptor: PropertyDescriptor,
    },
    /// \[\[HasProperty]]
    HasProperty {
        /// The object.
        object: ObjectId,
        /// The key.
        key: PropertyKey,
    },
    /// \[\[Get]]
    Get {
        /// The object.
        object: ObjectId,
        /// The key.
        key: PropertyKey,
        /// What a getter is called on: any value.
        receiver: Value,
    },
    /// \[\[Set]]
    Set {
        /// The object.
        object: ObjectId,
        /// The key.
        key: PropertyKey,
        /// The value to set.
        value: Value,
        /// What is written to, or a setter called on: any value.
        receiver: Value,
    },
    /// \[\[Delete]]
    Delete {
        /// The object.
        object: ObjectId,
        /// The key.
        key: PropertyKey,
    },
    /// \[\[OwnPropertyKeys]]
    OwnPropertyKeys {
        /// The object.
        object: ObjectId,
    },
    /// Releases an object, a function or a proxy that no object names, with its properties: its number counts as never made, until a new object takes
    /// it.
    Release {
        /// The object.
        object: ObjectId,
    },
    /// SetIntegrityLevel: seals or freezes an object.
    ///
    /// Unlike any other step it can change the store without a result: what was changed before a TypeError or a throw stays changed.
    SetIntegrityLevel {
        /// The object.
        object: ObjectId,
        /// The level that it is to have.
        level: IntegrityLevel,
    },
    /// TestIntegrityLevel: whether an object is sealed or frozen.
    TestIntegrityLevel {
        /// The object.
        object: ObjectId,
        /// The level that is asked for.
        level: IntegrityLevel,
    },
}

impl Step {
    /// How many bytes the record of a step has.
    pub const SIZE: usize = 58;

    /// The object that the step is on, a function too; the target where it makes a proxy; none where it makes an object or a function.
    ///
    /// ```
    /// use demnyaluz::{ObjectId, Step};
    ///
    /// assert_eq!(Step::IsExtensible { object: ObjectId(1) }.object(), Some(ObjectId(1)));
    /// assert_eq!(Step::MakeObject { prototype: None }.object(), None);
    /// ```
    #[must_use]
    pub fn object(&self) -> Option<ObjectId> {
        match *self {
            Step::MakeObject { .. } | Step::MakeFunction { .. } => None,
            Step::MakeProxy { target: object, .. }
            | Step::Revoke { proxy: object }
            | Step::GetPrototypeOf { object }
            | Step::SetPrototypeOf { object, .. }
            | Step::IsExtensible { object }
            | Step::PreventExtensions { object }
            | Step::GetOwnProperty { object, .. }
            | Step::DefineOwnProperty { object, .. }
            | Step::HasProperty { object, .. }
            | Step::Get { object, .. }
            | Step::Set { object, .. }
            | Step::Delete { object, .. }
            | Step::OwnPropertyKeys { object }
            | Step::Release { object }
            | Step::SetIntegrityLevel { object, .. }
            | Step::TestIntegrityLevel { object, .. } => Some(object),
        }
    }

    /// The code: the first byte of its record.
    #[must_use]
    pub fn code(&self) -> u8 {
        match self {
            Step::MakeObject { .. } => 1,
            Step::MakeProxy { .. } => 2,
            Step::Revoke { .. } => 3,
            Step::GetPrototypeOf { .. } => 4,
            Step::SetPrototypeOf { .. } => 5,
            Step::IsExtensible { .. } => 6,
            Step::PreventExtensions { .. } => 7,
            Step::GetOwnProperty { .. } => 8,
            Step::DefineOwnProperty { .. } => 9,
            Step::HasProperty { .. } => 10,
            Step::Get { .. } => 11,
            Step::Set { .. } => 12,
            Step::Delete { .. } => 13,
            Step::OwnPropertyKeys { .. } => 14,
            Step::MakeFunction { .. } => 16,
            Step::Release { .. } => 17,
            Step::SetIntegrityLevel { .. } => 18,
            Step::TestIntegrityLevel { .. } => 19,
        }
    }

    /// The bytes of the step: code, object, key, value, receiver, descriptor.
    ///
    /// ```
    /// use demnyaluz::{ObjectId, Step};
    ///
    /// let bytes = Step::OwnPropertyKeys { object: ObjectId(1) }.to_bytes();
    /// assert_eq!(bytes[..2], [14, 1]);
    /// assert!(bytes[2..].iter().all(|b| *b == 0));
    /// ```
    #[must_use]
    pub fn to_bytes(&self) -> [u8; Self::SIZE] {
        let mut bytes = [0; Self::SIZE];
        bytes[0] = self.code();
        let (key, value, receiver, descriptor) = match *self {
            Step::MakeObject { prototype } | Step::MakeFunction { prototype } | Step::SetPrototypeOf { prototype, .. } => {
                (None, Some(prototype.map_or(Value::Null, Value::from)), None, None)
            }
            Step::MakeProxy { traps, .. } => (None, Some(Value::Integer32(traps.mask().into())), None, None),
            Step::SetIntegrityLevel { level, .. } | Step::TestIntegrityLevel { level, .. } => {
                (None, Some(Value::Integer32(level.number().into())), None, None)
            }
            Step::Revoke { .. }
            | Step::GetPrototypeOf { .. }
            | Step::IsExtensible { .. }
            | Step::PreventExtensions { .. }
            | Step::OwnPropertyKeys { .. }
            | Step::Release { .. } => (None, None, None, None),
            Step::GetOwnProperty { key, .. } | Step::HasProperty { key, .. } | Step::Delete { key, .. } => (Some(key), None, None, None),
            Step::DefineOwnProperty { key, descriptor, .. } => (Some(key), None, None, Some(descriptor)),
            Step::Get { key, receiver, .. } => (Some(key), None, Some(receiver), None),
            Step::Set { key, value, receiver, .. } => (Some(key), Some(value), Some(receiver), None),
        };
        bytes[1] = self.object().map_or(0, |o| o.0);
        let parts = [(2, key.map(Value::from)), (11, value), (20, receiver)];
        for (start, part) in parts {
            bytes[start..start + 9].copy_from_slice(&part.unwrap_or(Value::Undefined).to_bytes());
        }
        bytes[29..].copy_from_slice(&descriptor.unwrap_or_default().to_bytes());
        bytes
    }
}

impl fmt::Display for Step {
    /// As a line of steps has it, but for strings, which are numbers here; [`readable::step`] has their texts.
    fn fmt(&self, f: &mut fmt::Formatter<'_>) -> fmt::Result {
        f.write_str(&readable::step(self, &Strings::new()))
    }
}

/// What a handler, a getter or a setter answers to one call.
///
/// ```
/// use demnyaluz::{Answer, PropertyDescriptor, SymbolId, Value};
///
/// assert_eq!(Answer::from(Value::from(4_464)), Answer::Value(Value::Integer32(4_464)));
/// assert_eq!(Answer::from(PropertyDescriptor::default()).to_string(), "{}");
/// assert_eq!(Answer::keys([SymbolId(3).into()]).to_string(), "[y3]");
/// assert_eq!(Answer::Throw(Value::Null).to_string(), "throw null");
/// ```
#[derive(Clone, PartialEq, Eq, Hash, Debug)]
#[non_exhaustive]
pub enum Answer {
    /// A value.
    Value(Value),
    /// An object with these fields of a descriptor.
    Descriptor(PropertyDescriptor),
    /// A list, for the trap of \[\[OwnPropertyKeys]]: at most [`MAXIMUM_KEYS`](crate::MAXIMUM_KEYS) values.
    Keys(Vec<Value>),
    /// A thrown value.
    Throw(Value),
}

impl Answer {
    /// A list of keys.
    #[must_use]
    pub fn keys(keys: impl IntoIterator<Item = PropertyKey>) -> Answer {
        Answer::Keys(keys.into_iter().map(Value::from).collect())
    }
}

impl From<Value> for Answer {
    fn from(v: Value) -> Answer {
        Answer::Value(v)
    }
}

impl From<PropertyDescriptor> for Answer {
    fn from(d: PropertyDescriptor) -> Answer {
        Answer::Descriptor(d)
    }
}

impl fmt::Display for Answer {
    /// As a line of steps has it, but for strings, which are numbers here; [`readable::answer`] has their texts.
    fn fmt(&self, f: &mut fmt::Formatter<'_>) -> fmt::Result {
        f.write_str(&readable::answer(self, &Strings::new()))
    }
}

/// The bytes of an answer sheet. One with more than [`MAXIMUM_ANSWERS`](crate::MAXIMUM_ANSWERS) answers, or a list of more than
/// [`MAXIMUM_KEYS`](crate::MAXIMUM_KEYS) values, is refused as malformed.
///
/// ```
/// use demnyaluz::{sheet_bytes, Answer};
///
/// assert_eq!(sheet_bytes(&[]), [0]);
/// assert_eq!(sheet_bytes(&[Answer::Value(true.into())]), [1, 1, 2, 1, 0, 0, 0, 0, 0, 0, 0]);
/// ```
#[must_use]
pub fn sheet_bytes(answers: &[Answer]) -> Vec<u8> {
    let mut bytes = vec![u8::try_from(answers.len()).unwrap_or(u8::MAX)];
    for answer in answers {
        match answer {
            Answer::Value(v) => {
                bytes.push(1);
                bytes.extend(v.to_bytes());
            }
            Answer::Descriptor(d) => {
                bytes.push(2);
                bytes.extend(d.to_bytes());
            }
            Answer::Keys(values) => {
                bytes.push(3);
                bytes.extend(u16::try_from(values.len()).unwrap_or(u16::MAX).to_le_bytes());
                bytes.extend(values.iter().flat_map(|v| v.to_bytes()));
            }
            Answer::Throw(v) => {
                bytes.push(4);
                bytes.extend(v.to_bytes());
            }
        }
    }
    bytes
}
