//! Property descriptors: 6.2.6, and validation by 10.1.6.3.
use super::value::{same_value, Value};

#[derive(Clone, Copy, Debug, Default)]
pub struct Descriptor {
    pub enumerable: Option<bool>,
    pub configurable: Option<bool>,
    pub writable: Option<bool>,
    pub value: Option<Value>,
    pub get: Option<Value>,
    pub set: Option<Value>,
}

impl Descriptor {
    pub fn data(value: Value, writable: bool, enumerable: bool, configurable: bool) -> Self {
        Descriptor { value: Some(value), writable: Some(writable), enumerable: Some(enumerable), configurable: Some(configurable), ..Self::default() }
    }

    pub fn is_accessor(&self) -> bool {
        self.get.is_some() || self.set.is_some()
    }

    pub fn is_data(&self) -> bool {
        self.value.is_some() || self.writable.is_some()
    }

    pub fn is_generic(&self) -> bool {
        !self.is_accessor() && !self.is_data()
    }

    pub fn is_empty(&self) -> bool {
        self.is_generic() && self.enumerable.is_none() && self.configurable.is_none()
    }

    /// Every field that its kind needs is there, and it has a kind.
    pub fn is_full(&self) -> bool {
        let kind = if self.is_accessor() { self.get.is_some() && self.set.is_some() } else { self.value.is_some() && self.writable.is_some() };
        kind && self.enumerable.is_some() && self.configurable.is_some()
    }

    /// 6.2.6.6 CompletePropertyDescriptor.
    pub fn completed(&self) -> Self {
        let mut d = *self;
        if d.is_accessor() {
            d.get.get_or_insert(Value::Undefined);
            d.set.get_or_insert(Value::Undefined);
        } else {
            d.value.get_or_insert(Value::Undefined);
            d.writable.get_or_insert(false);
        }
        d.enumerable.get_or_insert(false);
        d.configurable.get_or_insert(false);
        d
    }

    /// Each field of `other` that is there in place of this one's.
    pub fn filled(&self, other: &Descriptor) -> Self {
        Descriptor {
            enumerable: other.enumerable.or(self.enumerable),
            configurable: other.configurable.or(self.configurable),
            writable: other.writable.or(self.writable),
            value: other.value.or(self.value),
            get: other.get.or(self.get),
            set: other.set.or(self.set),
        }
    }

    /// Usable as a handed-in descriptor: not mixed, and what it gets and sets by can be called or is undefined.
    pub fn is_usable(&self) -> bool {
        let callable = |v: Option<Value>| v.into_iter().all(|v| v.is_undefined() || v.is_function());
        !(self.is_accessor() && self.is_data()) && callable(self.get) && callable(self.set)
    }

    pub fn values(&self) -> impl Iterator<Item = Value> {
        [self.value, self.get, self.set].into_iter().flatten()
    }
}

/// 10.1.6.3 ValidateAndApplyPropertyDescriptor: the property afterwards, or, where it answers false, the number of the test by which it does.
pub fn validate(extensible: bool, d: &Descriptor, current: Option<&Descriptor>) -> Result<Descriptor, u64> {
    let Some(current) = current else {
        return if extensible { Ok(d.completed()) } else { Err(1) }; // 2
    };
    if d.is_empty() {
        return Ok(*current); // 4
    }
    if current.configurable == Some(false) {
        if let Some(number) = first_failed(d, current) {
            return Err(number); // 5
        }
        if current.writable == Some(false) {
            return Ok(*current); // 5.e
        }
    }
    let kept = Descriptor { enumerable: current.enumerable, configurable: current.configurable, ..Descriptor::default() };
    if current.is_data() && d.is_accessor() || current.is_accessor() && d.is_data() {
        return Ok(kept.filled(d).completed()); // 6.a, 6.b
    }
    Ok(current.filled(d)) // 6.c
}

/// Step 5: of its tests of a property that is not configurable, by their numbers, the first that fails.
fn first_failed(d: &Descriptor, current: &Descriptor) -> Option<u64> {
    let differs = |given: Option<Value>, held: Option<Value>| given.is_some_and(|g| !same_value(g, held.unwrap()));
    let fixed = current.is_data() && current.writable == Some(false);
    let fails = [
        (2, d.configurable == Some(true)),                                 // 5.a
        (3, d.enumerable.is_some() && d.enumerable != current.enumerable), // 5.b
        (4, !d.is_generic() && d.is_accessor() != current.is_accessor()),  // 5.c
        (5, current.is_accessor() && differs(d.get, current.get)),         // 5.d.i
        (6, current.is_accessor() && differs(d.set, current.set)),         // 5.d.ii
        (7, fixed && d.writable == Some(true)),                            // 5.e.i
        (8, fixed && differs(d.value, current.value)),                     // 5.e.iii
    ];
    fails.into_iter().find(|(_, fails)| *fails).map(|(number, _)| number)
}
