//! Language values, by the numbers that the store gives them.

#[derive(Clone, Copy, Debug)]
pub enum Value {
    Undefined,
    Null,
    Boolean(bool),
    Integer32(i32),
    Float64(f64),
    String(u64),
    Symbol(u64),
    Object(u64),
    Function(u64),
}

#[derive(Clone, Copy, PartialEq, Eq, Debug, Hash)]
pub enum Key {
    String(u64),
    Symbol(u64),
}

impl Key {
    pub fn value(self) -> Value {
        match self {
            Key::String(n) => Value::String(n),
            Key::Symbol(n) => Value::Symbol(n),
        }
    }

    pub fn of(v: Value) -> Option<Key> {
        match v {
            Value::String(n) => Some(Key::String(n)),
            Value::Symbol(n) => Some(Key::Symbol(n)),
            _ => None,
        }
    }
}

impl Value {
    fn number(self) -> Option<f64> {
        match self {
            Value::Integer32(i) => Some(f64::from(i)),
            Value::Float64(f) => Some(f),
            _ => None,
        }
    }

    /// The number of the object or function that it names.
    pub fn object(self) -> Option<usize> {
        match self {
            Value::Object(n) | Value::Function(n) => Some(n as usize),
            _ => None,
        }
    }

    pub fn is_undefined(self) -> bool {
        matches!(self, Value::Undefined)
    }

    pub fn is_function(self) -> bool {
        matches!(self, Value::Function(_))
    }

    /// Kind and payload. All NaNs are one value.
    pub fn parts(self) -> (u8, u64) {
        match self {
            Value::Undefined => (0, 0),
            Value::Null => (1, 0),
            Value::Boolean(b) => (2, u64::from(b)),
            Value::Integer32(i) => (3, u64::from(i as u32)),
            Value::Float64(f) if f.is_nan() => (4, 0x7ff8_0000_0000_0000),
            Value::Float64(f) => (4, f.to_bits()),
            Value::String(n) => (5, n),
            Value::Symbol(n) => (6, n),
            Value::Object(n) => (7, n),
            Value::Function(n) => (8, n),
        }
    }

    pub fn bytes(self) -> [u8; 9] {
        let (kind, payload) = self.parts();
        let mut bytes = [kind; 9];
        bytes[1..].copy_from_slice(&payload.to_le_bytes());
        bytes
    }
}

/// SameValue.
pub fn same_value(a: Value, b: Value) -> bool {
    if let (Some(x), Some(y)) = (a.number(), b.number()) {
        return x.is_nan() && y.is_nan() || x == y && x.is_sign_negative() == y.is_sign_negative();
    }
    match (a, b) {
        (Value::Undefined, Value::Undefined) | (Value::Null, Value::Null) => true,
        (Value::Boolean(x), Value::Boolean(y)) => x == y,
        (Value::String(x), Value::String(y)) => x == y,
        (Value::Symbol(x), Value::Symbol(y)) => x == y,
        (Value::Object(x), Value::Object(y)) => x == y,
        (Value::Function(x), Value::Function(y)) => x == y,
        _ => false,
    }
}
