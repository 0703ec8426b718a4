//! The ten words of a report, and a world read from lent memory, by the layouts that include/demnyaluz.h states.
use crate::plain::descriptor::Descriptor;
use crate::plain::step::{Completion, Outcome, Report};
use crate::plain::value::{Key, Value};
use crate::plain::world::{Object, Ordinary, World};

fn first_and_second(d: &Descriptor) -> (Value, Value) {
    if d.is_accessor() {
        (d.get.unwrap(), d.set.unwrap())
    } else {
        (d.value.unwrap(), Value::Undefined)
    }
}

/// accessor 1, writable 2, enumerable 4, configurable 8
fn flags(d: &Descriptor) -> u64 {
    let bit = |b: Option<bool>, weight: u64| if b == Some(true) { weight } else { 0 };
    u64::from(d.is_accessor()) + bit(d.writable, 2) + bit(d.enumerable, 4) + bit(d.configurable, 8)
}

pub fn report_words(report: &Report) -> [u64; 10] {
    let nothing = (0, 0, Value::Undefined, Value::Undefined);
    let (outcome, number, (form, detail, first, second)) = match &report.outcome {
        Outcome::Refused(n) => (0, *n, nothing),
        Outcome::TypeError(n) => (2, *n, nothing),
        Outcome::Thrown(v) => (3, 0, (1, 0, *v, Value::Undefined)),
        Outcome::Result(Completion::Value(v)) => (1, 0, (1, 0, *v, Value::Undefined)),
        Outcome::Result(Completion::Descriptor(d)) => {
            let (first, second) = first_and_second(d);
            (1, 0, (2, flags(d), first, second))
        }
        Outcome::Result(Completion::Absent) => (1, 0, (3, 0, Value::Undefined, Value::Undefined)),
        Outcome::Result(Completion::Keys(keys)) => (1, 0, (4, keys.len() as u64, Value::Undefined, Value::Undefined)),
    };
    let ((kind, payload), (second_kind, second_payload)) = (first.parts(), second.parts());
    [outcome, number, report.answers, report.calls, form, detail, kind.into(), payload, second_kind.into(), second_payload]
}

/// The words of a page's report: how many bytes it has, or the number of the refusal.
pub fn page_words(told: Result<u64, u64>) -> [u64; 10] {
    match told {
        Ok(length) => [1, 0, 0, 0, 5, length, 0, 0, 0, 0],
        Err(number) => [0, number, 0, 0, 0, 0, 0, 0, 0, 0],
    }
}

/// Whether memory is a store and a table: their lengths, counts that they can hold, and no live object above the last.
pub fn is_memory(words: &[u64], strings: &[u16]) -> bool {
    let is_store = words.len() == 1670 && words[0] <= 32 && words[1] <= 256 && words[3] < 1 << 32 && words[4] <= 32;
    is_store && strings.len() == 8449 && strings[0] <= 256
}

fn value(kind: u64, payload: u64) -> Value {
    match kind {
        0 => Value::Undefined,
        1 => Value::Null,
        2 => Value::Boolean(payload != 0),
        3 => Value::Integer32(payload as u32 as i32),
        4 => Value::Float64(f64::from_bits(payload)),
        5 => Value::String(payload),
        6 => Value::Symbol(payload),
        7 => Value::Object(payload),
        8 => Value::Function(payload),
        _ => panic!("kind {kind}"),
    }
}

/// Two counts, the marks of functions, the marks of live objects; how many numbers are released, where the first of them stands, and 32 places for
/// them, as a ring; 32 objects of 3 words, 256 key words, 256 properties of 5 words. A count, 256 rows of a length and 32 code units.
pub fn world(words: &[u64], strings: &[u16]) -> World {
    let mut world = World::default();
    let is_marked = |o: u64| words[2] >> o & 1 == 1;
    let is_live = |o: u64| words[3] >> o & 1 == 1;
    assert_eq!(words[3] >> words[0], 0, "live, and never made");
    world.released = (0..words[4]).map(|i| words[6 + ((words[5] + i) % 32) as usize] as usize).collect();
    let mut free = world.released.iter().copied().collect::<Vec<_>>();
    free.sort_unstable();
    assert!(free.iter().copied().eq((0..words[0] as usize).filter(|o| !is_live(*o as u64))), "released {free:?}, live {:b}", words[3]);
    for (o, object) in (0..words[0]).zip(words[38..134].chunks_exact(3)) {
        if !is_live(o) {
            world.objects.push(None);
            continue;
        }
        world.objects.push(Some(match object[0] {
            head @ (0 | 1) => {
                let prototype = match value(object[1], object[2]) {
                    Value::Null => None,
                    Value::Object(o) if is_live(o) && !is_marked(o) => Some(o as usize),
                    Value::Function(o) if is_live(o) && is_marked(o) => Some(o as usize),
                    other => panic!("prototype {other:?}"),
                };
                Object::Ordinary(Ordinary { prototype, callable: is_marked(o), extensible: head == 1, properties: Vec::new() })
            }
            head @ (2 | 3) => {
                // the number of a revoked one's target may be that of another object
                assert!(!is_marked(o) && (head == 3 || is_live(object[1]) && !is_marked(object[1])), "a mark of a proxy, or its target");
                Object::Proxy { target: object[1] as usize, traps: object[2] as u32, revoked: head == 3 }
            }
            head => panic!("head {head}"),
        }));
    }
    for (key, property) in words[134..390].iter().zip(words[390..].chunks_exact(5)).take(words[1] as usize) {
        let owner = (key % 32) as usize;
        let number = key / 64;
        let key = if key / 32 % 2 == 0 { Key::String(number) } else { Key::Symbol(number) };
        let flag = |bit: u64| Some(property[0] & bit != 0);
        let mut d = Descriptor { enumerable: flag(4), configurable: flag(8), ..Descriptor::default() };
        let first = Some(value(property[1], property[2]));
        let second = value(property[3], property[4]);
        if property[0] & 1 != 0 {
            d.get = first;
            d.set = Some(second);
        } else {
            d.value = first;
            d.writable = flag(2);
            assert!(second.is_undefined());
        }
        world.ordinary_mut(owner).properties.push((key, d));
    }
    for row in strings[1..].chunks_exact(33).take(strings[0].into()) {
        world.strings.push(row[1..=usize::from(row[0])].to_vec());
    }
    world
}

/// All of a world as bytes, representations of numbers included.
pub fn image(world: &World) -> Vec<u8> {
    let mut bytes = format!("released {:?};", world.released).into_bytes();
    for object in &world.objects {
        match object {
            None => bytes.extend(b"none;"),
            Some(Object::Proxy { target, traps, revoked }) => bytes.extend(format!("proxy {target} {traps} {revoked};").bytes()),
            Some(Object::Ordinary(o)) => {
                bytes.extend(format!("ordinary {} {:?} {} {};", o.callable, o.prototype, o.extensible, o.properties.len()).bytes());
                for (key, d) in &o.properties {
                    bytes.extend(key.value().bytes());
                    bytes.extend(crate::plain::record::descriptor_bytes(d));
                }
            }
        }
    }
    for s in &world.strings {
        bytes.extend((s.len() as u16).to_le_bytes());
        bytes.extend(s.iter().flat_map(|u| u.to_le_bytes()));
    }
    bytes
}
