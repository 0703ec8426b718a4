//! Values, descriptors, steps and answer sheets as bytes; refusals 1 to 4 and 14.
use super::descriptor::Descriptor;
use super::value::{Key, Value};
use super::world::{Object, World};

pub const STEP: usize = 58;
pub const DESCRIPTOR: usize = 29;

#[derive(Clone, Debug)]
pub struct Step {
    pub code: u8,
    pub object: usize,
    pub key: Value,
    pub value: Value,
    pub receiver: Value,
    pub descriptor: Descriptor,
}

#[derive(Clone, Debug)]
pub enum Answer {
    Value(Value),
    Descriptor(Descriptor),
    Keys(Vec<Value>),
    Throw(Value),
}

/// Bytes that are taken from the front.
struct Input<'a>(&'a [u8]);

impl<'a> Input<'a> {
    fn take(&mut self, n: usize) -> Option<&'a [u8]> {
        if self.0.len() < n {
            return None;
        }
        let (head, tail) = self.0.split_at(n);
        self.0 = tail;
        Some(head)
    }

    fn byte(&mut self) -> Option<u8> {
        Some(self.take(1)?[0])
    }

    fn value(&mut self) -> Option<Value> {
        let bytes = self.take(9)?;
        let payload = u64::from_le_bytes(bytes[1..].try_into().unwrap());
        Some(match (bytes[0], payload) {
            (0, 0) => Value::Undefined,
            (1, 0) => Value::Null,
            (2, 0) => Value::Boolean(false),
            (2, 1) => Value::Boolean(true),
            (3, n) if n <= u64::from(u32::MAX) => Value::Integer32(n as u32 as i32),
            (4, bits) => Value::Float64(f64::from_bits(bits)),
            (5, n) => Value::String(n),
            (6, n) => Value::Symbol(n),
            (7, n) => Value::Object(n),
            (8, n) => Value::Function(n),
            _ => return None,
        })
    }

    fn descriptor(&mut self) -> Option<Descriptor> {
        let (mask, booleans) = (self.byte()?, self.byte()?);
        if mask > 63 || booleans > 7 || booleans & !mask != 0 {
            return None;
        }
        let boolean = |bit: u8| (mask & bit != 0).then_some(booleans & bit != 0);
        let mut d = Descriptor { enumerable: boolean(1), configurable: boolean(2), writable: boolean(4), ..Descriptor::default() };
        for (bit, part) in [(8, &mut d.value), (16, &mut d.get), (32, &mut d.set)] {
            if mask & bit != 0 {
                *part = Some(self.value()?);
            } else if self.take(9)?.iter().any(|b| *b != 0) {
                return None;
            }
        }
        Some(d)
    }

    fn answer(&mut self) -> Option<Answer> {
        Some(match self.byte()? {
            1 => Answer::Value(self.value()?),
            2 => Answer::Descriptor(self.descriptor()?),
            3 => {
                let count = u16::from_le_bytes(self.take(2)?.try_into().unwrap());
                if count > 256 {
                    return None;
                }
                Answer::Keys((0..count).map(|_| self.value()).collect::<Option<_>>()?)
            }
            4 => Answer::Throw(self.value()?),
            _ => return None,
        })
    }
}

/// One descriptor record, and nothing after it.
pub fn descriptor(bytes: &[u8]) -> Option<Descriptor> {
    let mut input = Input(bytes);
    let d = input.descriptor()?;
    input.0.is_empty().then_some(d)
}

/// An answer sheet, and nothing after it.
pub fn sheet(bytes: &[u8]) -> Option<Vec<Answer>> {
    let mut input = Input(bytes);
    let count = input.byte()?;
    if count > 64 {
        return None;
    }
    let answers = (0..count).map(|_| input.answer()).collect::<Option<_>>()?;
    input.0.is_empty().then_some(answers)
}

/// The parts that a code uses: object, key, value, receiver, descriptor.
fn uses(code: u8) -> Option<[bool; 5]> {
    const Y: bool = true;
    const N: bool = false;
    Some(match code {
        1 | 16 => [N, N, Y, N, N],
        2 => [Y, N, Y, N, N],
        3 | 4 | 6 | 7 | 14 | 17 => [Y, N, N, N, N],
        5 | 18 | 19 => [Y, N, Y, N, N],
        8 | 10 | 13 => [Y, Y, N, N, N],
        9 => [Y, Y, N, N, Y],
        11 => [Y, Y, N, Y, N],
        12 => [Y, Y, Y, Y, N],
        _ => return None,
    })
}

/// Refusal 1 over a step, else what it says.
pub fn step(bytes: &[u8]) -> Option<Step> {
    if bytes.len() != STEP {
        return None;
    }
    let used = uses(bytes[0])?;
    for (used, part) in used.into_iter().zip([1..2, 2..11, 11..20, 20..29, 29..58]) {
        if !used && bytes[part].iter().any(|b| *b != 0) {
            return None;
        }
    }
    let mut input = Input(&bytes[2..]);
    let step = Step {
        code: bytes[0],
        object: usize::from(bytes[1]),
        key: input.value()?,
        value: input.value()?,
        receiver: input.value()?,
        descriptor: input.descriptor()?,
    };
    match (step.code, step.value) {
        (2, Value::Integer32(mask)) if !(0..=2047).contains(&mask) => None,
        (18 | 19, Value::Integer32(level)) if !(0..=1).contains(&level) => None,
        _ => Some(step),
    }
}

/// Refusal 2: every object that is named was made, and not released.
pub fn all_made(world: &World, mut values: impl Iterator<Item = Value>) -> bool {
    values.all(|v| match v {
        Value::Object(n) | Value::Function(n) => world.is_live(n),
        _ => true,
    })
}

/// Refusal 3 as far as numbers go, where every object is live: functions are named as functions, and nothing else is.
pub fn all_known(world: &World, mut values: impl Iterator<Item = Value>) -> bool {
    values.all(|v| match v {
        Value::String(n) => n < world.strings.len() as u64,
        Value::Symbol(n) => n <= 255,
        Value::Object(n) => !world.is_callable(n as usize),
        Value::Function(n) => world.is_callable(n as usize),
        _ => true,
    })
}

impl Step {
    pub fn values(&self) -> impl Iterator<Item = Value> {
        [self.key, self.value, self.receiver].into_iter().chain(self.descriptor.values())
    }

    fn kinds_fit(&self, world: &World) -> bool {
        let key = !(8..=13).contains(&self.code) || Key::of(self.key).is_some();
        let value = match self.code {
            1 | 5 | 16 => matches!(self.value, Value::Null | Value::Object(_) | Value::Function(_)),
            2 | 18 | 19 => matches!(self.value, Value::Integer32(_)),
            _ => true,
        };
        let object = match self.code {
            2 => !world.is_callable(self.object),
            3 => matches!(world.object(self.object), Object::Proxy { .. }),
            _ => true,
        };
        key && value && object
    }
}

impl Answer {
    pub fn values(&self) -> Vec<Value> {
        match self {
            Answer::Value(v) | Answer::Throw(v) => vec![*v],
            Answer::Descriptor(d) => d.values().collect(),
            Answer::Keys(vs) => vs.clone(),
        }
    }
}

/// Refusals 1 to 3, 14 and 4 over the step, then 1 to 3 over the sheet, else both.
pub fn read(world: &World, step_bytes: &[u8], sheet_bytes: &[u8]) -> Result<(Step, Vec<Answer>), u64> {
    let step = step(step_bytes).ok_or(1u64)?;
    let makes = matches!(step.code, 1 | 16);
    if !makes && !world.is_live(step.object as u64) || !all_made(world, step.values()) {
        return Err(2);
    }
    if !all_known(world, step.values()) || !step.kinds_fit(world) {
        return Err(3);
    }
    if step.code == 17 && world.is_named(step.object) {
        return Err(14);
    }
    if !step.descriptor.is_usable() {
        return Err(4);
    }
    let answers = sheet(sheet_bytes).ok_or(1u64)?;
    if !all_made(world, answers.iter().flat_map(Answer::values)) {
        return Err(2);
    }
    if !all_known(world, answers.iter().flat_map(Answer::values)) {
        return Err(3);
    }
    Ok((step, answers))
}

// The other way, for what generates records.

pub fn descriptor_bytes(d: &Descriptor) -> Vec<u8> {
    let mut mask = 0;
    let mut booleans = 0;
    for (bit, field) in [(1, d.enumerable), (2, d.configurable), (4, d.writable)] {
        if let Some(b) = field {
            mask |= bit;
            booleans |= if b { bit } else { 0 };
        }
    }
    let mut parts = Vec::new();
    for (bit, field) in [(8, d.value), (16, d.get), (32, d.set)] {
        if let Some(v) = field {
            mask |= bit;
            parts.extend(v.bytes());
        } else {
            parts.extend([0; 9]);
        }
    }
    let mut bytes = vec![mask, booleans];
    bytes.extend(parts);
    bytes
}

pub fn step_bytes(s: &Step) -> Vec<u8> {
    let mut bytes = vec![s.code, s.object as u8];
    for v in [s.key, s.value, s.receiver] {
        bytes.extend(v.bytes());
    }
    bytes.extend(descriptor_bytes(&s.descriptor));
    bytes
}

pub fn sheet_bytes(answers: &[Answer]) -> Vec<u8> {
    let mut bytes = vec![answers.len() as u8];
    for a in answers {
        match a {
            Answer::Value(v) => {
                bytes.push(1);
                bytes.extend(v.bytes());
            }
            Answer::Descriptor(d) => {
                bytes.push(2);
                bytes.extend(descriptor_bytes(d));
            }
            Answer::Keys(vs) => {
                bytes.push(3);
                bytes.extend((vs.len() as u16).to_le_bytes());
                bytes.extend(vs.iter().flat_map(|v| v.bytes()));
            }
            Answer::Throw(v) => {
                bytes.push(4);
                bytes.extend(v.bytes());
            }
        }
    }
    bytes
}
