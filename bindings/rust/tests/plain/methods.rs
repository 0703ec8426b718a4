//! The eleven internal methods: 10.1 of ordinary objects and 10.5 of proxies.
use super::descriptor::{validate, Descriptor};
use super::record::Answer;
use super::value::{same_value, Key, Value};
use super::world::{Object, World};

pub const MAXIMUM_CALLS: u64 = 2048;
pub const MAXIMUM_PROPERTIES: usize = 256;

/// How a step ends without a result.
#[derive(Clone, Copy, Debug)]
pub enum Stop {
    Refused(u64),
    TypeError(u64),
    Thrown(Value),
}

pub type Ends<T> = Result<T, Stop>;

/// What the next answer is wanted for; of no concern to the methods.
#[derive(Clone, Copy, Debug)]
pub enum Asked {
    Prototype(usize),
    Extensible(usize),
    Yes,
    Descriptor(usize, Key),
    Value(usize, Key),
    Keys(usize),
    Accessor,
}

pub struct Run {
    pub world: World,
    pub answers: Vec<Answer>,
    pub used: usize,
    pub calls: u64,
    /// Set where the sheet had no next answer.
    pub wanted: Option<Asked>,
    /// Set where 10.1.6.3 answered false: the number of its test.
    pub failed: Option<u64>,
}

enum Kind {
    Ordinary,
    Forwarding(usize),
    Trapping(usize),
}

fn type_error<T>(message: u64) -> Ends<T> {
    Err(Stop::TypeError(message))
}

impl Run {
    /// A call begins: it is counted, and a revoked proxy throws (10.5.14). Bit `code - 4` of the traps decides between trap and target.
    fn call(&mut self, o: usize, code: u32) -> Ends<Kind> {
        if self.calls == MAXIMUM_CALLS {
            return Err(Stop::Refused(10));
        }
        self.calls += 1;
        match *self.world.object(o) {
            Object::Ordinary(_) => Ok(Kind::Ordinary),
            Object::Proxy { revoked: true, .. } => type_error(1),
            Object::Proxy { target, traps, .. } if traps >> (code - 4) & 1 == 1 => Ok(Kind::Trapping(target)),
            Object::Proxy { target, .. } => Ok(Kind::Forwarding(target)),
        }
    }

    fn next(&mut self, asked: Asked) -> Ends<Answer> {
        let Some(answer) = self.answers.get(self.used) else {
            self.wanted = Some(asked);
            return Err(Stop::Refused(8));
        };
        self.used += 1;
        match answer {
            Answer::Throw(v) => Err(Stop::Thrown(*v)),
            other => Ok(other.clone()),
        }
    }

    /// An answer that must be a value: a trap's, a getter's or a setter's.
    fn next_value(&mut self, asked: Asked) -> Ends<Value> {
        match self.next(asked)? {
            Answer::Value(v) => Ok(v),
            _ => Err(Stop::Refused(9)),
        }
    }

    fn next_boolean(&mut self, asked: Asked) -> Ends<bool> {
        Ok(match self.next_value(asked)? {
            Value::Undefined | Value::Null => false,
            Value::Boolean(b) => b,
            Value::Integer32(i) => i != 0,
            Value::Float64(f) => f != 0.0 && !f.is_nan(),
            Value::String(n) => !self.world.strings[n as usize].is_empty(),
            Value::Symbol(_) | Value::Object(_) | Value::Function(_) => true,
        })
    }

    fn validate(&mut self, extensible: bool, d: &Descriptor, current: Option<&Descriptor>) -> Option<Descriptor> {
        validate(extensible, d, current).map_err(|test| self.failed = Some(test)).ok()
    }

    /// 10.1.1, 10.5.1
    pub fn get_prototype_of(&mut self, o: usize) -> Ends<Option<usize>> {
        let target = match self.call(o, 4)? {
            Kind::Ordinary => return Ok(self.world.ordinary(o).prototype),
            Kind::Forwarding(target) => return self.get_prototype_of(target),
            Kind::Trapping(target) => target,
        };
        let told = match self.next_value(Asked::Prototype(target))? {
            Value::Null => None,
            Value::Object(n) | Value::Function(n) => Some(n as usize),
            _ => return type_error(2),
        };
        if !self.is_extensible(target)? && told != self.get_prototype_of(target)? {
            return type_error(3);
        }
        Ok(told)
    }

    /// 10.1.2, 10.5.2
    pub fn set_prototype_of(&mut self, o: usize, v: Option<usize>) -> Ends<bool> {
        let target = match self.call(o, 5)? {
            Kind::Ordinary => return Ok(self.ordinary_set_prototype_of(o, v)),
            Kind::Forwarding(target) => return self.set_prototype_of(target, v),
            Kind::Trapping(target) => target,
        };
        if !self.next_boolean(Asked::Yes)? {
            return Ok(false);
        }
        if !self.is_extensible(target)? && v != self.get_prototype_of(target)? {
            return type_error(4);
        }
        Ok(true)
    }

    fn ordinary_set_prototype_of(&mut self, o: usize, v: Option<usize>) -> bool {
        let object = self.world.ordinary(o);
        if same_value(self.world.prototype_value(v), self.world.prototype_value(object.prototype)) {
            return true;
        }
        if !object.extensible {
            return false;
        }
        let mut p = v;
        while let Some(above) = p {
            if above == o {
                return false;
            }
            p = match self.world.object(above) {
                Object::Ordinary(a) => a.prototype,
                Object::Proxy { .. } => None,
            };
        }
        self.world.ordinary_mut(o).prototype = v;
        true
    }

    /// 10.1.3, 10.5.3
    pub fn is_extensible(&mut self, o: usize) -> Ends<bool> {
        let target = match self.call(o, 6)? {
            Kind::Ordinary => return Ok(self.world.ordinary(o).extensible),
            Kind::Forwarding(target) => return self.is_extensible(target),
            Kind::Trapping(target) => target,
        };
        let told = self.next_boolean(Asked::Extensible(target))?;
        if told != self.is_extensible(target)? {
            return type_error(5);
        }
        Ok(told)
    }

    /// 10.1.4, 10.5.4
    pub fn prevent_extensions(&mut self, o: usize) -> Ends<bool> {
        let target = match self.call(o, 7)? {
            Kind::Ordinary => {
                self.world.ordinary_mut(o).extensible = false;
                return Ok(true);
            }
            Kind::Forwarding(target) => return self.prevent_extensions(target),
            Kind::Trapping(target) => target,
        };
        let told = self.next_boolean(Asked::Yes)?;
        if told && self.is_extensible(target)? {
            return type_error(6);
        }
        Ok(told)
    }

    /// 10.1.5, 10.5.5
    pub fn get_own_property(&mut self, o: usize, key: Key) -> Ends<Option<Descriptor>> {
        let target = match self.call(o, 8)? {
            Kind::Ordinary => return Ok(self.world.ordinary(o).own(key)),
            Kind::Forwarding(target) => return self.get_own_property(target, key),
            Kind::Trapping(target) => target,
        };
        let told = match self.next(Asked::Descriptor(target, key))? {
            Answer::Value(Value::Undefined) => None,
            Answer::Value(Value::Object(_) | Value::Function(_)) | Answer::Keys(_) => return Err(Stop::Refused(9)),
            Answer::Value(_) => return type_error(7),
            Answer::Descriptor(d) => Some(d),
            Answer::Throw(_) => unreachable!(),
        };
        let held = self.get_own_property(target, key)?;
        let Some(told) = told else {
            if let Some(held) = held {
                if held.configurable == Some(false) {
                    return type_error(8);
                }
                if !self.is_extensible(target)? {
                    return type_error(9);
                }
            }
            return Ok(None);
        };
        let extensible = self.is_extensible(target)?;
        // 6.2.6.5 ToPropertyDescriptor
        for (field, message) in [(told.get, 27), (told.set, 28)] {
            if field.is_some_and(|f| !f.is_undefined() && !f.is_function()) {
                return type_error(message);
            }
        }
        if told.is_accessor() && told.is_data() {
            return type_error(29);
        }
        let told = told.completed();
        if self.validate(extensible, &told, held.as_ref()).is_none() {
            return type_error(10);
        }
        if told.configurable == Some(false) {
            match held {
                Some(held) if held.configurable == Some(false) => {
                    if told.writable == Some(false) && held.writable == Some(true) {
                        return type_error(11);
                    }
                }
                _ => return type_error(12),
            }
        }
        Ok(Some(told))
    }

    /// 10.1.6, 10.5.6
    pub fn define_own_property(&mut self, o: usize, key: Key, d: &Descriptor) -> Ends<bool> {
        let target = match self.call(o, 9)? {
            Kind::Ordinary => return self.ordinary_define_own_property(o, key, d),
            Kind::Forwarding(target) => return self.define_own_property(target, key, d),
            Kind::Trapping(target) => target,
        };
        if !self.next_boolean(Asked::Yes)? {
            return Ok(false);
        }
        let held = self.get_own_property(target, key)?;
        let extensible = self.is_extensible(target)?;
        let fixes = d.configurable == Some(false);
        match held {
            None => {
                if !extensible || fixes {
                    return type_error(13);
                }
            }
            Some(held) => {
                if self.validate(extensible, d, Some(&held)).is_none() {
                    return type_error(14);
                }
                if fixes && held.configurable == Some(true) {
                    return type_error(15);
                }
                if held.is_data() && held.configurable == Some(false) && held.writable == Some(true) && d.writable == Some(false) {
                    return type_error(16);
                }
            }
        }
        Ok(true)
    }

    fn ordinary_define_own_property(&mut self, o: usize, key: Key, d: &Descriptor) -> Ends<bool> {
        let current = self.get_own_property(o, key)?;
        let extensible = self.is_extensible(o)?;
        let Some(after) = self.validate(extensible, d, current.as_ref()) else {
            return Ok(false);
        };
        if current.is_none() && self.world.live_properties() == MAXIMUM_PROPERTIES {
            return Err(Stop::Refused(7));
        }
        let properties = &mut self.world.ordinary_mut(o).properties;
        match properties.iter_mut().find(|(k, _)| *k == key) {
            Some((_, held)) => *held = after,
            None => properties.push((key, after)),
        }
        Ok(true)
    }

    /// 10.1.7, 10.5.7
    pub fn has_property(&mut self, o: usize, key: Key) -> Ends<bool> {
        let target = match self.call(o, 10)? {
            Kind::Ordinary => {
                if self.get_own_property(o, key)?.is_some() {
                    return Ok(true);
                }
                return match self.get_prototype_of(o)? {
                    Some(parent) => self.has_property(parent, key),
                    None => Ok(false),
                };
            }
            Kind::Forwarding(target) => return self.has_property(target, key),
            Kind::Trapping(target) => target,
        };
        let told = self.next_boolean(Asked::Yes)?;
        if !told {
            if let Some(held) = self.get_own_property(target, key)? {
                if held.configurable == Some(false) || !self.is_extensible(target)? {
                    return type_error(10);
                }
            }
        }
        Ok(told)
    }

    /// 10.1.8, 10.5.8. A getter is called on the receiver, which its answer does not show.
    #[allow(clippy::only_used_in_recursion)]
    pub fn get(&mut self, o: usize, key: Key, receiver: Value) -> Ends<Value> {
        let target = match self.call(o, 11)? {
            Kind::Ordinary => {
                let Some(held) = self.get_own_property(o, key)? else {
                    return match self.get_prototype_of(o)? {
                        Some(parent) => self.get(parent, key, receiver),
                        None => Ok(Value::Undefined),
                    };
                };
                return match held.get {
                    None => Ok(held.value.unwrap()),
                    Some(Value::Undefined) => Ok(Value::Undefined),
                    Some(_) => self.next_value(Asked::Accessor),
                };
            }
            Kind::Forwarding(target) => return self.get(target, key, receiver),
            Kind::Trapping(target) => target,
        };
        let told = self.next_value(Asked::Value(target, key))?;
        if let Some(held) = self.get_own_property(target, key)? {
            if held.configurable == Some(false) {
                if held.is_data() && held.writable == Some(false) && !same_value(told, held.value.unwrap()) {
                    return type_error(17);
                }
                if held.is_accessor() && held.get.unwrap().is_undefined() && !told.is_undefined() {
                    return type_error(18);
                }
            }
        }
        Ok(told)
    }

    /// 10.1.9, 10.5.9
    pub fn set(&mut self, o: usize, key: Key, v: Value, receiver: Value) -> Ends<bool> {
        let target = match self.call(o, 12)? {
            Kind::Ordinary => return self.ordinary_set(o, key, v, receiver),
            Kind::Forwarding(target) => return self.set(target, key, v, receiver),
            Kind::Trapping(target) => target,
        };
        if !self.next_boolean(Asked::Yes)? {
            return Ok(false);
        }
        if let Some(held) = self.get_own_property(target, key)? {
            if held.configurable == Some(false) {
                if held.is_data() && held.writable == Some(false) && !same_value(v, held.value.unwrap()) {
                    return type_error(19);
                }
                if held.is_accessor() && held.set.unwrap().is_undefined() {
                    return type_error(20);
                }
            }
        }
        Ok(true)
    }

    fn ordinary_set(&mut self, o: usize, key: Key, v: Value, receiver: Value) -> Ends<bool> {
        let own = match self.get_own_property(o, key)? {
            Some(own) => own,
            None => match self.get_prototype_of(o)? {
                Some(parent) => return self.set(parent, key, v, receiver),
                None => Descriptor::data(Value::Undefined, true, true, true),
            },
        };
        if own.is_accessor() {
            if own.set.unwrap().is_undefined() {
                return Ok(false);
            }
            self.next_value(Asked::Accessor)?;
            return Ok(true);
        }
        if own.writable == Some(false) {
            return Ok(false);
        }
        let Some(receiver) = receiver.object() else {
            return Ok(false);
        };
        match self.get_own_property(receiver, key)? {
            Some(existing) => {
                if existing.is_accessor() || existing.writable == Some(false) {
                    return Ok(false);
                }
                self.define_own_property(receiver, key, &Descriptor { value: Some(v), ..Descriptor::default() })
            }
            None => self.define_own_property(receiver, key, &Descriptor::data(v, true, true, true)),
        }
    }

    /// 10.1.10, 10.5.10
    pub fn delete(&mut self, o: usize, key: Key) -> Ends<bool> {
        let target = match self.call(o, 13)? {
            Kind::Ordinary => {
                return match self.get_own_property(o, key)? {
                    None => Ok(true),
                    Some(held) if held.configurable == Some(true) => {
                        self.world.ordinary_mut(o).properties.retain(|(k, _)| *k != key);
                        Ok(true)
                    }
                    Some(_) => Ok(false),
                }
            }
            Kind::Forwarding(target) => return self.delete(target, key),
            Kind::Trapping(target) => target,
        };
        if !self.next_boolean(Asked::Yes)? {
            return Ok(false);
        }
        if let Some(held) = self.get_own_property(target, key)? {
            if held.configurable == Some(false) || !self.is_extensible(target)? {
                return type_error(21);
            }
        }
        Ok(true)
    }

    /// 10.1.11, 10.5.11
    pub fn own_property_keys(&mut self, o: usize) -> Ends<Vec<Key>> {
        let target = match self.call(o, 14)? {
            Kind::Ordinary => return Ok(self.world.own_keys(o)),
            Kind::Forwarding(target) => return self.own_property_keys(target),
            Kind::Trapping(target) => target,
        };
        let listed = match self.next(Asked::Keys(target))? {
            Answer::Keys(values) => values,
            Answer::Value(Value::Object(_) | Value::Function(_)) | Answer::Descriptor(_) => return Err(Stop::Refused(9)),
            Answer::Value(_) => return type_error(31),
            Answer::Throw(_) => unreachable!(),
        };
        let Some(listed) = listed.into_iter().map(Key::of).collect::<Option<Vec<Key>>>() else {
            return type_error(30);
        };
        for (i, key) in listed.iter().enumerate() {
            if listed[..i].contains(key) {
                return type_error(if matches!(key, Key::String(_)) { 22 } else { 23 });
            }
        }
        let extensible = self.is_extensible(target)?;
        let (mut fixed, mut free) = (Vec::new(), Vec::new());
        for key in self.own_property_keys(target)? {
            match self.get_own_property(target, key)? {
                Some(held) if held.configurable == Some(false) => fixed.push(key),
                _ => free.push(key),
            }
        }
        if fixed.iter().any(|k| !listed.contains(k)) {
            return type_error(24);
        }
        if !extensible {
            if free.iter().any(|k| !listed.contains(k)) {
                return type_error(25);
            }
            if listed.len() > fixed.len() + free.len() {
                return type_error(26);
            }
        }
        Ok(listed)
    }
}
