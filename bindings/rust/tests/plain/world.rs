//! All that steps change: objects with their properties, and the strings.
use super::descriptor::Descriptor;
use super::value::{Key, Value};
use std::collections::VecDeque;

#[derive(Clone, Debug)]
pub enum Object {
    Ordinary(Ordinary),
    /// The target of a revoked one may have been released.
    Proxy {
        target: usize,
        traps: u32,
        revoked: bool,
    },
}

#[derive(Clone, Debug)]
pub struct Ordinary {
    pub prototype: Option<usize>,
    /// A function. The number of its object is that of the value which names it.
    pub callable: bool,
    pub extensible: bool,
    /// By creation.
    pub properties: Vec<(Key, Descriptor)>,
}

#[derive(Clone, Debug, Default)]
pub struct World {
    /// Every number that was ever given out, with nothing where its object was released.
    pub objects: Vec<Option<Object>>,
    /// The numbers of released objects, the one released longest ago first.
    pub released: VecDeque<usize>,
    pub strings: Vec<Vec<u16>>,
}

impl Object {
    /// Whether it names the object o: by its prototype, by a property, or as a proxy that is not revoked by its target.
    fn names(&self, o: usize) -> bool {
        match self {
            Object::Proxy { target, revoked, .. } => !revoked && *target == o,
            Object::Ordinary(it) => it.prototype == Some(o) || it.properties.iter().flat_map(|(_, d)| d.values()).any(|v| v.object() == Some(o)),
        }
    }
}

impl Ordinary {
    pub fn own(&self, key: Key) -> Option<Descriptor> {
        self.properties.iter().find(|(k, _)| *k == key).map(|(_, d)| *d)
    }
}

impl World {
    /// The live objects with their numbers.
    pub fn live(&self) -> impl Iterator<Item = (usize, &Object)> {
        self.objects.iter().enumerate().filter_map(|(o, object)| Some((o, object.as_ref()?)))
    }

    /// Whether a live object has the number.
    pub fn is_live(&self, number: u64) -> bool {
        self.live().any(|(o, _)| o as u64 == number)
    }

    /// The live object of a number.
    pub fn object(&self, o: usize) -> &Object {
        self.objects[o].as_ref().expect("a live object")
    }

    /// A new object: it has the number that was released longest ago or, with none released, the next one that was never given out.
    pub fn add(&mut self, object: Object) -> usize {
        match self.released.pop_front() {
            Some(o) => {
                self.objects[o] = Some(object);
                o
            }
            None => {
                self.objects.push(Some(object));
                self.objects.len() - 1
            }
        }
    }

    /// Whether a live object names the object o; it may name itself.
    pub fn is_named(&self, o: usize) -> bool {
        self.live().any(|(_, object)| object.names(o))
    }

    /// The object goes with its properties.
    pub fn release(&mut self, o: usize) {
        self.objects[o] = None;
        self.released.push_back(o);
    }

    pub fn live_properties(&self) -> usize {
        self.live().map(|(_, object)| if let Object::Ordinary(it) = object { it.properties.len() } else { 0 }).sum()
    }

    pub fn is_callable(&self, o: usize) -> bool {
        matches!(self.object(o), Object::Ordinary(Ordinary { callable: true, .. }))
    }

    /// The value that names an object.
    pub fn value(&self, o: usize) -> Value {
        if self.is_callable(o) {
            Value::Function(o as u64)
        } else {
            Value::Object(o as u64)
        }
    }

    /// The value of a prototype: none is null.
    pub fn prototype_value(&self, prototype: Option<usize>) -> Value {
        prototype.map_or(Value::Null, |o| self.value(o))
    }

    pub fn ordinary(&self, o: usize) -> &Ordinary {
        match self.object(o) {
            Object::Ordinary(o) => o,
            Object::Proxy { .. } => panic!("an ordinary object"),
        }
    }

    pub fn ordinary_mut(&mut self, o: usize) -> &mut Ordinary {
        match self.objects[o].as_mut() {
            Some(Object::Ordinary(o)) => o,
            _ => panic!("an ordinary object"),
        }
    }

    /// The ordinary object at the end of the targets, if no proxy on the way is revoked.
    pub fn base(&self, mut o: usize) -> Option<usize> {
        loop {
            match *self.object(o) {
                Object::Ordinary(_) => return Some(o),
                Object::Proxy { revoked: true, .. } => return None,
                Object::Proxy { target, .. } => o = target,
            }
        }
    }

    /// The array index that a key is.
    pub fn array_index(&self, key: Key) -> Option<u32> {
        let Key::String(n) = key else { return None };
        let text = String::from_utf16(&self.strings[n as usize]).ok()?;
        if !text.bytes().all(|b| b.is_ascii_digit()) || text.len() > 1 && text.starts_with('0') {
            return None;
        }
        text.parse().ok().filter(|n| *n < u32::MAX)
    }

    /// 10.1.11.1 OrdinaryOwnPropertyKeys.
    pub fn own_keys(&self, o: usize) -> Vec<Key> {
        let keys = || self.ordinary(o).properties.iter().map(|(k, _)| *k);
        let mut indices: Vec<(u32, Key)> = keys().filter_map(|k| Some((self.array_index(k)?, k))).collect();
        indices.sort_by_key(|(i, _)| *i);
        let mut listed: Vec<Key> = indices.into_iter().map(|(_, k)| k).collect();
        listed.extend(keys().filter(|k| matches!(k, Key::String(_)) && self.array_index(*k).is_none()));
        listed.extend(keys().filter(|k| matches!(k, Key::Symbol(_))));
        listed
    }
}
