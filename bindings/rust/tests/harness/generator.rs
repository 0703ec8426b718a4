//! Steps, sheets, strings and descriptors: mostly valid, often nearly so.
//!
//! Answers are made one at a time: the plain implementation says what the sheet lacked, and an answer near the truth is added.
use super::pair::Pair;
use super::random::Random;
use crate::plain::descriptor::Descriptor;
use crate::plain::methods::Asked;
use crate::plain::record::{descriptor_bytes, sheet_bytes, step_bytes, Answer, Step};
use crate::plain::step;
use crate::plain::value::{Key, Value};
use crate::plain::world::{Object, World};

pub const TEXTS: [&str; 20] = [
    "",
    "a",
    "b",
    "visits",
    "0",
    "1",
    "01",
    "7",
    "10",
    "4294967294",
    "4294967295",
    "99999999999",
    "length",
    "-0",
    "+1",
    "9",
    "é",
    "2147483648",
    "00",
    "length of thirty-two code units..",
];

/// How a list of calls is made.
#[derive(Clone, Copy)]
pub struct Habits {
    /// One step in so many has a byte changed.
    pub damage: usize,
    /// One answer in so many is not near the truth.
    pub wild: usize,
    /// Keys are taken from this many strings and symbols.
    pub keys: usize,
    /// One object in so many is a function.
    pub functions: usize,
    /// Of the others one in so many is a proxy (1: all that can be).
    pub proxies: usize,
    /// Of so many flags of a descriptor one is left out, one is true and the others are false.
    pub flags: usize,
    /// One step in so many makes an object; where there is no room, one in eight times as many.
    pub making: usize,
    /// From so many live objects on, one step in so many releases one.
    pub crowd: usize,
    pub releasing: usize,
}

pub struct Generator {
    pub random: Random,
    pub habits: Habits,
}

impl Generator {
    pub fn new(seed: u64) -> Self {
        let mut random = Random::new(seed);
        let habits = Habits {
            damage: random.pick(&[3, 8, 30, 1000]),
            wild: random.pick(&[3, 6, 12]),
            keys: random.pick(&[2, 4, 12, 200]),
            functions: random.pick(&[3, 4, 8]),
            proxies: random.pick(&[1, 2, 3]),
            flags: random.pick(&[3, 4, 6]),
            making: random.pick(&[12, 12, 3, 2]),
            crowd: random.pick(&[4, 8, 16, 31]),
            releasing: random.pick(&[4, 6, 12]),
        };
        Generator { random, habits }
    }

    fn number(&mut self) -> Value {
        let r = &mut self.random;
        match r.below(4) {
            0 => Value::Integer32(r.pick(&[0, 0, 1, -1, 70000, 4464, i32::MAX, i32::MIN])),
            1 => Value::Integer32(r.next() as i32),
            2 => Value::Float64(r.pick(&[
                0.0,
                -0.0,
                0.0,
                -0.0,
                1.0,
                -1.0,
                70000.0,
                4464.0,
                0.5,
                f64::NAN,
                -f64::NAN,
                f64::INFINITY,
                f64::MIN_POSITIVE,
                5e-324,
            ])),
            _ => {
                Value::Float64(f64::from_bits(r.pick(&[0x7ff8_0000_0000_0001, 0xfff0_0000_0000_0001, 0x7ff0_0000_0000_0000, 0x40f1_1700_0000_0000])))
            }
        }
    }

    /// The same number in the other representation, the other zero, another NaN, or the value itself.
    fn near_value(&mut self, v: Value) -> Value {
        match v {
            Value::Integer32(0) => self.random.pick(&[Value::Integer32(0), Value::Float64(0.0), Value::Float64(-0.0)]),
            Value::Integer32(i) => self.random.pick(&[v, Value::Float64(f64::from(i)), Value::Float64(-f64::from(i))]),
            Value::Float64(f) if f.is_nan() => Value::Float64(f64::from_bits(self.random.pick(&[0x7ff8_0000_0000_0001, 0xfff8_0000_0000_0000]))),
            Value::Float64(0.0) => self.random.pick(&[Value::Integer32(0), Value::Float64(0.0), Value::Float64(-0.0)]),
            Value::Float64(f) if f64::from(f as i32) == f => self.random.pick(&[v, Value::Integer32(f as i32)]),
            _ => v,
        }
    }

    /// A live object, if there are any.
    fn object(&mut self, world: &World) -> u64 {
        self.one_of(world, |_, _| true).unwrap_or(0)
    }

    /// One of the live objects that are so.
    fn one_of(&mut self, world: &World, is: impl Fn(usize, &Object) -> bool) -> Option<u64> {
        let among: Vec<usize> = world.live().filter(|(o, object)| is(*o, object)).map(|(o, _)| o).collect();
        (!among.is_empty()).then(|| self.random.pick(&among) as u64)
    }

    /// A number that was released and not taken again, if there are any.
    fn released(&mut self, world: &World) -> Option<u64> {
        (!world.released.is_empty()).then(|| world.released[self.random.below(world.released.len())] as u64)
    }

    /// The value that names an object; seldom one of the other kind, or a number that was not made or was released.
    fn name_of(&mut self, world: &World, o: u64) -> Value {
        let made = world.objects.len() as u64;
        match (world.is_live(o), self.random.below(80)) {
            (true, 0 | 1) if world.is_callable(o as usize) => Value::Object(o),
            (true, 0 | 1) => Value::Function(o),
            (_, 2..=5) if !world.released.is_empty() => {
                let number = self.released(world).unwrap();
                self.random.pick(&[Value::Object(number), Value::Function(number)])
            }
            (false, _) | (_, 6) => {
                let number = self.random.pick(&[made, made + 1, 31, 32, 255, 256, u64::MAX]).max(made);
                self.random.pick(&[Value::Object(number), Value::Function(number)])
            }
            _ => world.value(o as usize),
        }
    }

    /// An object or a function.
    fn named(&mut self, world: &World) -> Value {
        let o = self.object(world);
        self.name_of(world, o)
    }

    /// One of the functions, if there are any, or one of the others.
    fn among(&mut self, world: &World, callable: bool) -> Option<u64> {
        self.one_of(world, |o, _| world.is_callable(o) == callable)
    }

    /// An object to release: mostly one that nothing names, or what was released already.
    fn leaving(&mut self, world: &World) -> u64 {
        let any = self.object(world);
        match self.random.below(12) {
            0 | 1 => any,
            2 => self.released(world).unwrap_or(any),
            // of those there are few
            3 => self.one_of(world, |o, object| matches!(object, Object::Proxy { revoked: true, .. }) && !world.is_named(o)).unwrap_or(any),
            _ => self.one_of(world, |o, _| !world.is_named(o)).unwrap_or(any),
        }
    }

    /// An object that a proxy can stand before; seldom a function.
    fn target(&mut self, world: &World) -> u64 {
        match self.among(world, false) {
            Some(o) if !self.random.once_in(12) => o,
            _ => self.object(world),
        }
    }

    /// An object to seal or freeze: often a proxy over one that has properties.
    fn closing(&mut self, world: &World) -> usize {
        let properties = |o: usize| world.base(o).map_or(0, |base| world.ordinary(base).properties.len());
        let likely = |o: &usize| matches!(world.object(*o), Object::Proxy { .. }) && properties(*o) > 1;
        let tried: Vec<usize> = (0..1 + self.random.below(8)).map(|_| self.object(world) as usize).collect();
        tried.iter().copied().find(likely).unwrap_or(tried[0])
    }

    fn key(&mut self, world: &World) -> Key {
        let n = self.habits.keys;
        if world.strings.is_empty() || self.random.once_in(3) {
            Key::Symbol(self.random.below(n.min(256)) as u64)
        } else {
            Key::String(self.random.below(n.min(world.strings.len())) as u64)
        }
    }

    /// A key for a step on an object: often one that it has.
    fn key_at(&mut self, world: &World, o: usize) -> Key {
        match world.base(o).map(|base| &world.ordinary(base).properties) {
            Some(properties) if !properties.is_empty() && !self.random.once_in(3) => properties[self.random.below(properties.len())].0,
            _ => self.key(world),
        }
    }

    fn value(&mut self, world: &World) -> Value {
        match self.random.below(12) {
            0 => Value::Undefined,
            1 => Value::Null,
            2 | 3 => Value::Boolean(self.random.once_in(2)),
            4 if world.live().next().is_some() => match self.among(world, true) {
                Some(f) => self.name_of(world, f),
                None => self.named(world),
            },
            5 if world.live().next().is_some() => self.named(world),
            6 => self.key(world).value(),
            _ => self.number(),
        }
    }

    fn callable(&mut self, world: &World) -> Value {
        match self.among(world, true) {
            Some(f) if !self.random.once_in(3) => self.name_of(world, f),
            None if self.random.once_in(20) => Value::Function(self.object(world)),
            _ => Value::Undefined,
        }
    }

    fn flag(&mut self) -> Option<bool> {
        match self.random.below(self.habits.flags) {
            0 => None,
            n => Some(n == 1),
        }
    }

    /// A descriptor of any kind; seldom one that cannot be used.
    pub fn descriptor(&mut self, world: &World) -> Descriptor {
        let mut d = Descriptor { enumerable: self.flag(), configurable: self.flag(), ..Descriptor::default() };
        let kind = self.random.below(8);
        if kind < 4 || kind == 7 && self.random.once_in(6) {
            d.writable = self.flag();
            d.value = (!self.random.once_in(4)).then(|| self.value(world));
        }
        if (4..6).contains(&kind) || kind == 7 && self.random.once_in(6) {
            d.get = (!self.random.once_in(4)).then(|| self.callable(world));
            d.set = (!self.random.once_in(4)).then(|| self.callable(world));
            if self.random.once_in(30) {
                d.get = Some(self.value(world));
            }
            if self.random.once_in(30) {
                d.set = Some(self.value(world));
            }
        }
        d
    }

    /// A full descriptor with one field left out, or another, or more fields than it may have.
    pub fn near_descriptor(&mut self, world: &World, held: &Descriptor) -> Descriptor {
        let mut d = *held;
        for _ in 0..self.random.below(3) {
            match self.random.below(10) {
                0 => d.enumerable = self.flag(),
                1 => d.configurable = self.flag(),
                2 if !d.is_accessor() => d.writable = self.flag(),
                3 => d.enumerable = Some(true),
                4 => d.configurable = Some(false),
                5 if d.is_accessor() => d.get = Some(self.callable(world)),
                6 if d.is_accessor() => d.set = Some(self.callable(world)),
                5 | 6 => d.writable = Some(false),
                7 if d.is_data() && self.random.once_in(2) => d.value = Some(self.value(world)),
                7 => d.value = d.value.map(|v| self.near_value(v)),
                8 if self.random.once_in(2) => d.get = Some(self.value(world)),
                9 if self.random.once_in(2) => d.set = Some(self.value(world)),
                _ => {}
            }
        }
        d
    }

    fn held(&self, world: &World, o: usize, key: Key) -> Option<Descriptor> {
        world.ordinary(world.base(o)?).own(key)
    }

    /// An answer to what was asked.
    fn answer(&mut self, world: &World, asked: Asked) -> Answer {
        if self.random.once_in(7 * self.habits.wild) {
            return Answer::Throw(self.value(world));
        }
        if self.random.once_in(self.habits.wild) {
            return match self.random.below(8) {
                0 => Answer::Descriptor(self.descriptor(world)),
                1 => Answer::Keys((0..self.random.below(3)).map(|_| self.key(world).value()).collect()),
                2 => Answer::Throw(self.value(world)),
                _ => Answer::Value(self.value(world)),
            };
        }
        match asked {
            Asked::Yes => Answer::Value(if self.random.once_in(5) { self.value(world) } else { Value::Boolean(!self.random.once_in(4)) }),
            Asked::Extensible(o) => Answer::Value(Value::Boolean(world.base(o).map_or(true, |base| world.ordinary(base).extensible))),
            Asked::Prototype(_) if self.random.once_in(4) => Answer::Value(self.named(world)),
            Asked::Prototype(o) => Answer::Value(world.prototype_value(world.base(o).and_then(|base| world.ordinary(base).prototype))),
            Asked::Accessor => Answer::Value(self.value(world)),
            Asked::Value(o, key) => Answer::Value(match self.held(world, o, key) {
                Some(Descriptor { value: Some(v), .. }) => self.near_value(v),
                _ => Value::Undefined,
            }),
            Asked::Descriptor(o, key) => match self.held(world, o, key) {
                Some(held) if self.random.once_in(5) => Answer::Descriptor(self.over(world, &held)),
                Some(held) if !self.random.once_in(6) => Answer::Descriptor(self.near_descriptor(world, &held)),
                None if self.random.once_in(3) => Answer::Descriptor(self.descriptor(world)),
                _ => Answer::Value(Value::Undefined),
            },
            Asked::Keys(o) => {
                let mut keys: Vec<Value> = world.base(o).into_iter().flat_map(|base| world.own_keys(base)).map(Key::value).collect();
                match self.random.below(9) {
                    0 if !keys.is_empty() => drop(keys.remove(self.random.below(keys.len()))),
                    1 => keys.push(self.key(world).value()),
                    2 if !keys.is_empty() => keys.push(keys[self.random.below(keys.len())]),
                    3 => keys.reverse(),
                    4 => keys.insert(self.random.below(keys.len() + 1), self.value(world)),
                    _ => {}
                }
                if self.random.once_in(40) {
                    let size = 255 + self.random.below(3);
                    let missing = size.saturating_sub(keys.len());
                    keys.extend((0..=255).map(Value::Symbol).take(missing));
                }
                keys.truncate(258);
                Answer::Keys(keys)
            }
        }
    }

    fn code(&mut self, world: &World) -> u8 {
        let live = world.live().count();
        if live >= self.habits.crowd && self.random.once_in(self.habits.releasing) || live > 0 && self.random.once_in(60) {
            return 17;
        }
        if live < 2 || self.random.once_in(if live < 32 { self.habits.making } else { 8 * self.habits.making }) {
            if self.random.once_in(self.habits.functions) {
                return 16;
            }
            let targets = world.live().any(|(o, _)| !world.is_callable(o)) || self.random.once_in(12) && live > 0;
            return if targets && self.random.once_in(self.habits.proxies) { 2 } else { 1 };
        }
        if self.random.once_in(150) {
            return 3;
        }
        self.random.pick(&[4, 5, 6, 7, 8, 8, 9, 9, 9, 9, 9, 10, 10, 11, 11, 12, 12, 12, 13, 14, 14, 18, 19])
    }

    /// A step that the world can take, but for seldom an object to revoke that is no proxy, and the like.
    pub fn step(&mut self, world: &World) -> Step {
        let code = self.code(world);
        let object = match code {
            1 | 16 => 0,
            2 => self.target(world) as usize,
            17 => self.leaving(world) as usize,
            18 | 19 => self.closing(world),
            _ => self.object(world) as usize,
        };
        let mut step =
            Step { code, object, key: Value::Undefined, value: Value::Undefined, receiver: Value::Undefined, descriptor: Descriptor::default() };
        if (8..=13).contains(&code) {
            step.key = self.key_at(world, object).value();
        }
        match code {
            1 | 5 | 16 => {
                step.value = if world.live().next().is_none() || self.random.once_in(3) { Value::Null } else { self.named(world) };
                if code == 5 && self.random.once_in(3) {
                    step.value = world.prototype_value(world.base(object).and_then(|base| world.ordinary(base).prototype));
                }
            }
            2 => {
                let traps = match self.random.below(5) {
                    0 => 0,
                    1 => 1 << self.random.below(11),
                    2 => 2047,
                    // neither preventExtensions nor defineProperty: it can be frozen key by key
                    3 => self.random.below(2048) as i32 & !(8 + 32),
                    _ => self.random.below(2048) as i32,
                };
                step.value = Value::Integer32(traps);
            }
            9 => {
                let key = Key::of(step.key).unwrap();
                step.descriptor = match self.held(world, object, key) {
                    Some(held) if self.random.once_in(3) => self.over(world, &held),
                    Some(held) if self.random.once_in(2) => self.near_descriptor(world, &held),
                    _ => self.descriptor(world),
                };
                // an object that names itself
                if step.descriptor.value.is_some() && self.random.once_in(20) {
                    step.descriptor.value = Some(world.value(object));
                }
            }
            11 | 12 => {
                step.receiver = match self.random.below(6) {
                    0 | 1 => self.named(world),
                    2 => self.value(world),
                    _ => self.name_of(world, object as u64),
                };
                if code == 12 {
                    step.value = match self.held(world, object, Key::of(step.key).unwrap()) {
                        Some(Descriptor { value: Some(v), .. }) if self.random.once_in(2) => self.near_value(v),
                        _ => self.value(world),
                    };
                }
            }
            18 | 19 => {
                step.value = match self.random.below(30) {
                    0 => Value::Integer32(self.random.pick(&[2, -1, 3, 256, i32::MIN])),
                    1 => self.value(world),
                    n => Value::Integer32((n % 2) as i32),
                };
            }
            _ => {}
        }
        if !matches!(code, 1 | 16) && self.random.once_in(60) {
            step.object = self.released(world).unwrap_or(object as u64) as usize;
        }
        step
    }

    /// A sheet on which the step does not run out of answers, or seldom does.
    fn sheet(&mut self, world: &World, bytes: &[u8]) -> Vec<Answer> {
        let habits = self.habits;
        // many answers, each of which can end it
        if matches!(bytes[0], 18 | 19) && !self.random.once_in(3) {
            self.habits.wild *= 20;
        }
        let answers = self.answers(world, bytes);
        self.habits = habits;
        answers
    }

    fn answers(&mut self, world: &World, bytes: &[u8]) -> Vec<Answer> {
        let mut answers = Vec::new();
        let mut output = vec![0; 9 * 256];
        while answers.len() < 64 && !self.random.once_in(60) {
            let stepped = step::step(&mut world.clone(), bytes, &sheet_bytes(&answers), &mut output);
            let Some(wanted) = stepped.wanted else { break };
            answers.push(self.answer(&wanted.world, wanted.asked));
        }
        if self.random.once_in(20) && answers.len() < 64 {
            answers.push(Answer::Value(self.value(world)));
        }
        if self.random.once_in(100) {
            let size = 63 + self.random.below(3);
            answers.truncate(size);
            while answers.len() < size {
                answers.push(Answer::Value(Value::Null));
            }
        }
        answers
    }

    /// A few bytes changed, left out or added.
    pub fn damage(&mut self, bytes: &mut Vec<u8>) {
        for _ in 0..1 + self.random.below(2) {
            let at = self.random.below(bytes.len() + 1);
            match self.random.below(12) {
                0 => bytes.truncate(at),
                1 => bytes.insert(at, self.random.next() as u8),
                _ if at == bytes.len() => {}
                2 | 3 => bytes[at] ^= 1 << self.random.below(8),
                4 | 5 => bytes[at] = bytes[at].wrapping_add(1),
                6 => bytes[at] = bytes[at].wrapping_sub(1),
                7 => bytes[at] = self.random.pick(&[0, 1, 2, 5, 6, 7, 8, 9, 14, 15, 16, 17, 17, 18, 19, 20, 32, 64, 65, 255]),
                8 => drop(bytes.remove(at)),
                _ => bytes[at] = self.random.next() as u8,
            }
        }
    }

    /// The kind of one value in a record becomes another, with a small number: near enough to pass refusal 1.
    fn change_kind(&mut self, bytes: &mut [u8], world: &World) {
        let starts: &[usize] = if bytes.len() == 58 { &[2, 11, 20, 31, 40, 49] } else { &[2, 11] };
        let at = self.random.pick(starts);
        if bytes.len() < at + 9 {
            return;
        }
        let kind = self.random.pick(&[0, 1, 3, 5, 6, 7, 8]);
        let limit = match kind {
            5 => world.strings.len(),
            7 | 8 => world.objects.len(),
            6 => 256,
            _ => 0,
        };
        let number = match self.random.below(3) {
            0 => limit as u64,
            1 => limit.saturating_sub(1) as u64,
            _ => self.random.below(limit) as u64,
        };
        bytes[at] = kind;
        bytes[at + 1..at + 9].copy_from_slice(&if kind < 5 { 0 } else { number }.to_le_bytes());
    }

    fn room(&mut self) -> usize {
        match self.random.below(5) {
            0 => self.random.below(30),
            1 => 9 * self.random.below(12),
            _ => 9 * 256,
        }
    }

    /// A step and its sheet, damaged or not.
    pub fn step_and_sheet(&mut self, world: &World) -> (Vec<u8>, Vec<u8>) {
        let mut step = step_bytes(&self.step(world));
        if self.random.once_in(2 * self.habits.damage) {
            self.change_kind(&mut step, world);
        }
        let mut sheet = sheet_bytes(&self.sheet(world, &step));
        if self.random.once_in(self.habits.damage) {
            self.damage(&mut step);
        }
        if self.random.once_in(self.habits.damage) {
            self.damage(&mut sheet);
        }
        (step, sheet)
    }

    /// One step on both.
    pub fn run_step(&mut self, pair: &mut Pair) {
        let (step, sheet) = self.step_and_sheet(&pair.world);
        let room = self.room();
        pair.step(&step, &sheet, room);
    }

    /// The code units of a string, seldom too many.
    pub fn units(&mut self) -> Vec<u16> {
        match self.random.below(4) {
            0 => {
                let size = self.random.below(35);
                (0..size).map(|_| self.random.next() as u16).collect()
            }
            1 => self.random.below(300).to_string().encode_utf16().collect(),
            _ => self.random.pick(&TEXTS).encode_utf16().collect(),
        }
    }

    pub fn run_string(&mut self, pair: &mut Pair) {
        let units = self.units();
        pair.enter_string(&units);
    }

    /// A complete descriptor, mostly not configurable; seldom a field is missing or wrong.
    fn current(&mut self, world: &World) -> Descriptor {
        let mut d = self.descriptor(world).completed();
        if self.random.once_in(4) {
            d = Descriptor { value: None, writable: None, get: Some(self.callable(world)), set: Some(self.callable(world)), ..d };
        }
        if !self.random.once_in(3) {
            d.configurable = Some(false);
        }
        if self.random.once_in(6) {
            self.near_descriptor(world, &d)
        } else {
            d
        }
    }

    /// Some fields of a current descriptor, of which one may be what a test of validation rejects.
    fn over(&mut self, world: &World, current: &Descriptor) -> Descriptor {
        let mut d = *current;
        match self.random.below(8) {
            0 => d.configurable = Some(true),
            1 => d.enumerable = d.enumerable.map(|e| !e),
            2 if d.is_accessor() => d = Descriptor { get: None, set: None, writable: Some(false), ..d },
            2 => d = Descriptor { value: None, writable: None, get: Some(self.callable(world)), ..d },
            3 | 4 if d.is_accessor() => d.get = Some(self.callable(world)),
            5 | 6 if d.is_accessor() => d.set = Some(self.callable(world)),
            3 | 4 => d.writable = Some(true),
            5 | 6 => d.value = Some(self.value(world)),
            _ => d = self.near_descriptor(world, current),
        }
        let mut keeps = || !self.random.once_in(4);
        d.enumerable = d.enumerable.filter(|_| keeps());
        d.configurable = d.configurable.filter(|_| keeps());
        d.writable = d.writable.filter(|_| keeps());
        d.value = d.value.filter(|_| keeps());
        d.get = d.get.filter(|_| keeps());
        d.set = d.set.filter(|_| keeps());
        d
    }

    /// The bytes of a descriptor, damaged or not.
    fn record(&mut self, world: &World, d: &Descriptor) -> Vec<u8> {
        let mut bytes = descriptor_bytes(d);
        if self.random.once_in(3 * self.habits.damage) {
            self.change_kind(&mut bytes, world);
        }
        if self.random.once_in(2 * self.habits.damage) {
            self.damage(&mut bytes);
        }
        bytes
    }

    /// Completing, validating and merging by themselves.
    pub fn run_descriptor(&mut self, pair: &mut Pair) {
        let held = self.current(&pair.world);
        let d = if self.random.once_in(3) { self.descriptor(&pair.world) } else { self.over(&pair.world, &held) };
        let current = if self.random.once_in(5) { Vec::new() } else { self.record(&pair.world, &held) };
        let bytes = self.record(&pair.world, &d);
        match self.random.below(4) {
            0 => drop(pair.complete(&bytes)),
            1 => drop(pair.merge(&current, &bytes)),
            _ => drop(pair.validate(self.random.once_in(2), &bytes, &current)),
        }
    }

    /// An output for the page of an object: often as long as the page or a byte shorter, and of any content.
    fn output_for_page(&mut self, world: &World, object: u64) -> Vec<u8> {
        let properties = match usize::try_from(object).ok().and_then(|o| world.objects.get(o)?.as_ref()) {
            Some(Object::Ordinary(o)) => o.properties.len(),
            _ => self.random.below(4),
        };
        let page = 47 * (1 + properties);
        let length = match self.random.below(10) {
            0..=2 => page,
            3 | 4 => page - 1,
            5 => self.random.below(page),
            6 => 0,
            7 => page + 1,
            8 => page + self.random.below(200),
            _ => 47 * 257,
        };
        (0..length).map(|_| self.random.next() as u8).collect()
    }

    /// Another length of store or table, or a count or a mark that they cannot hold.
    fn damage_memory(&mut self, pair: &mut Pair) {
        match self.random.below(7) {
            0 => {
                let mut words = pair.words.to_vec();
                words.resize(self.random.pick(&[0, 1, 2, 3, 38, 134, 1635, 1669, 1671, 2000]), 0);
                pair.words = words.into();
            }
            1 => pair.words[0] = self.random.pick(&[33, 34, 64, 256, 1 << 32, u64::MAX]),
            2 => pair.words[1] = self.random.pick(&[257, 258, 512, 1 << 16, 1 << 32, u64::MAX]),
            3 => pair.words[3] |= 1 << (32 + self.random.below(32)),
            4 => pair.words[4] = self.random.pick(&[33, 34, 64, 256, 1 << 32, u64::MAX]),
            5 => {
                let mut strings = pair.strings.to_vec();
                strings.resize(self.random.pick(&[0, 1, 33, 34, 8448, 8450, 9000]), 0);
                pair.strings = strings.into();
            }
            _ => pair.strings[0] = self.random.pick(&[257, 258, 512, 1 << 15, u16::MAX]),
        }
    }

    /// The page of an object or a function; seldom of a proxy, of a number that was not made or was released, or over memory that is no store or no
    /// table.
    pub fn run_page(&mut self, pair: &mut Pair) {
        let made = pair.world.objects.len() as u64;
        let any = self.object(&pair.world);
        let object = match self.random.below(12) {
            0 => self.random.pick(&[made, made + 1, 31, 32, 33, 255, 256, u64::MAX]),
            1 => any | 1 << (5 + self.random.below(59)),
            2 | 3 => any,
            4 => self.released(&pair.world).unwrap_or(any),
            _ if pair.world.live().next().is_none() => any,
            _ => pair.world.base(any as usize).map_or(any, |base| base as u64),
        };
        let output = self.output_for_page(&pair.world, object);
        let kept = (pair.words.clone(), pair.strings.clone());
        if self.random.once_in(8) {
            self.damage_memory(pair);
        }
        let _ = pair.page(object, &output);
        (pair.words, pair.strings) = kept;
    }

    /// Any of the calls.
    pub fn run_call(&mut self, pair: &mut Pair) {
        match self.random.below(20) {
            0 => self.run_string(pair),
            1 | 2 => self.run_descriptor(pair),
            3 => self.run_page(pair),
            _ => self.run_step(pair),
        }
    }

    /// Random bytes in place of everything.
    pub fn run_noise(&mut self, pair: &mut Pair) {
        let size = self.random.pick(&[0, 1, 57, 58, 58, 58, 59, 200]);
        let step: Vec<u8> = (0..size).map(|_| self.random.next() as u8).collect();
        let size = self.random.below(40);
        let sheet: Vec<u8> = (0..size).map(|_| self.random.next() as u8).collect();
        let room = self.room();
        pair.step(&step, &sheet, room);
    }

    /// The first strings, so that keys are there.
    pub fn begin(&mut self, pair: &mut Pair) {
        for text in &TEXTS[..4 + self.random.below(TEXTS.len() - 4)] {
            pair.enter_string(&text.encode_utf16().collect::<Vec<u16>>());
        }
    }

    /// Properties on one object until the store is nearly full, and strings likewise.
    pub fn fill(&mut self, pair: &mut Pair) {
        for i in 0..260 {
            pair.enter_string(&format!("{i}").encode_utf16().collect::<Vec<u16>>());
        }
        let object = |code: u8, value: Value| Step {
            code,
            object: 0,
            key: Value::Undefined,
            value,
            receiver: Value::Undefined,
            descriptor: Descriptor::default(),
        };
        pair.step(&step_bytes(&object(1, Value::Null)), &[0], 0);
        let Some((o, _)) = pair.world.live().find(|(_, object)| matches!(object, Object::Ordinary(o) if o.extensible)) else { return };
        for i in 0..250 + self.random.below(8) as u64 {
            let key = if i < 200 { Value::String(i) } else { Value::Symbol(i) };
            let step =
                Step { object: o, key, descriptor: Descriptor::data(Value::Integer32(i as i32), true, true, true), ..object(9, Value::Undefined) };
            pair.step(&step_bytes(&step), &[0], 0);
        }
    }
}
