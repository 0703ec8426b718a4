//! Property descriptors, and the properties that they describe.
use crate::notation::Strings;
use crate::readable;
use crate::value::Value;

/// A property descriptor: any of the six fields.
///
/// ```
/// use demnyaluz::PropertyDescriptor;
///
/// let writable = PropertyDescriptor { writable: Some(true), ..PropertyDescriptor::default() };
/// assert_eq!(writable.to_string(), "{writable: true}");
/// ```
#[derive(Clone, Copy, PartialEq, Eq, Hash, Debug, Default)]
pub struct PropertyDescriptor {
    /// Whether the property is enumerable.
    pub enumerable: Option<bool>,
    /// Whether the property is configurable.
    pub configurable: Option<bool>,
    /// Whether the value may be changed.
    pub writable: Option<bool>,
    /// The value.
    pub value: Option<Value>,
    /// The getter: undefined or a function.
    pub get: Option<Value>,
    /// The setter: undefined or a function.
    pub set: Option<Value>,
}

/// A property: a descriptor of its kind with no field missing.
///
/// ```
/// use demnyaluz::{Property, PropertyDescriptor};
///
/// let count = Property::Data { value: 70_000.into(), writable: false, enumerable: true, configurable: false };
/// assert_eq!(PropertyDescriptor::from(count), PropertyDescriptor::fixed(70_000));
/// assert_eq!(count.to_string(), "{value: 70000, writable: false, enumerable: true, configurable: false}");
/// ```
// the standard has these two kinds
#[allow(clippy::exhaustive_enums)]
#[derive(Clone, Copy, PartialEq, Eq, Hash, Debug)]
pub enum Property {
    /// A data property.
    Data {
        /// The value.
        value: Value,
        /// Whether the value may be changed.
        writable: bool,
        /// Whether the property is enumerable.
        enumerable: bool,
        /// Whether the property is configurable.
        configurable: bool,
    },
    /// An accessor property.
    Accessor {
        /// The getter: undefined or a function.
        get: Value,
        /// The setter: undefined or a function.
        set: Value,
        /// Whether the property is enumerable.
        enumerable: bool,
        /// Whether the property is configurable.
        configurable: bool,
    },
}

impl PropertyDescriptor {
    /// How many bytes the record of a descriptor has.
    pub const SIZE: usize = 29;

    /// The bytes of a descriptor in a record: mask, booleans, value, get, set.
    ///
    /// ```
    /// use demnyaluz::{Property, PropertyDescriptor};
    ///
    /// let bytes = PropertyDescriptor::fixed(70_000).to_bytes();
    /// assert_eq!(bytes[..6], [0x0f, 0x01, 3, 0x70, 0x11, 0x01]);
    /// assert_eq!(Property::from_bytes(&bytes).map(PropertyDescriptor::from), Some(PropertyDescriptor::fixed(70_000)));
    /// ```
    #[must_use]
    pub fn to_bytes(&self) -> [u8; Self::SIZE] {
        let mut bytes = [0; Self::SIZE];
        for (bit, field) in [(1, self.enumerable), (2, self.configurable), (4, self.writable)] {
            if let Some(b) = field {
                bytes[0] |= bit;
                bytes[1] |= if b { bit } else { 0 };
            }
        }
        for (i, field) in [self.value, self.get, self.set].into_iter().enumerate() {
            if let Some(v) = field {
                bytes[0] |= 8 << i;
                bytes[2 + 9 * i..11 + 9 * i].copy_from_slice(&v.to_bytes());
            }
        }
        bytes
    }

    /// A data descriptor with every field.
    ///
    /// ```
    /// use demnyaluz::PropertyDescriptor;
    ///
    /// let plain = PropertyDescriptor::data(1, true, true, true);
    /// assert_eq!(plain.to_string(), "{value: 1, writable: true, enumerable: true, configurable: true}");
    /// ```
    #[must_use]
    pub fn data(value: impl Into<Value>, writable: bool, enumerable: bool, configurable: bool) -> Self {
        Property::Data { value: value.into(), writable, enumerable, configurable }.into()
    }

    /// A data descriptor that fixes its value: not writable, not configurable, enumerable.
    ///
    /// ```
    /// use demnyaluz::PropertyDescriptor;
    ///
    /// assert_eq!(PropertyDescriptor::fixed(70_000), PropertyDescriptor::data(70_000, false, true, false));
    /// ```
    #[must_use]
    pub fn fixed(value: impl Into<Value>) -> Self {
        PropertyDescriptor::data(value, false, true, false)
    }
}

impl Property {
    /// The property of a descriptor's bytes, if they are complete and nothing is mixed.
    #[must_use]
    pub fn from_bytes(bytes: &[u8; PropertyDescriptor::SIZE]) -> Option<Property> {
        let flag = |bit: u8| bytes[1] & bit != 0;
        let value = |at: usize| Value::from_bytes(bytes[at..at + 9].try_into().ok()?);
        let (enumerable, configurable) = (flag(1), flag(2));
        let property = match bytes[0] {
            0x0f => Property::Data { value: value(2)?, writable: flag(4), enumerable, configurable },
            0x33 => Property::Accessor { get: value(11)?, set: value(20)?, enumerable, configurable },
            _ => return None,
        };
        // absent parts and unused booleans are zero
        (PropertyDescriptor::from(property).to_bytes() == *bytes).then_some(property)
    }
}

impl From<Property> for PropertyDescriptor {
    fn from(p: Property) -> Self {
        match p {
            Property::Data { value, writable, enumerable, configurable } => PropertyDescriptor {
                enumerable: Some(enumerable),
                configurable: Some(configurable),
                writable: Some(writable),
                value: Some(value),
                get: None,
                set: None,
            },
            Property::Accessor { get, set, enumerable, configurable } => PropertyDescriptor {
                enumerable: Some(enumerable),
                configurable: Some(configurable),
                writable: None,
                value: None,
                get: Some(get),
                set: Some(set),
            },
        }
    }
}

impl std::fmt::Display for PropertyDescriptor {
    /// The fields that it has: `{value: 70000, writable: false}`. Strings are numbers here; [`readable::descriptor`] has their texts.
    fn fmt(&self, f: &mut std::fmt::Formatter<'_>) -> std::fmt::Result {
        f.write_str(&readable::descriptor(self, &Strings::new()))
    }
}

impl std::fmt::Display for Property {
    fn fmt(&self, f: &mut std::fmt::Formatter<'_>) -> std::fmt::Result {
        PropertyDescriptor::from(*self).fmt(f)
    }
}
