//! The entries: a step, entering a string, and descriptors by themselves.
use super::descriptor::{validate, Descriptor};
use super::integrity::Level;
use super::methods::{Asked, Run, Stop};
use super::record::{self, Step};
use super::value::{Key, Value};
use super::world::{Object, Ordinary, World};

const MAXIMUM_OBJECTS: usize = 32;
const MAXIMUM_STRINGS: usize = 256;
const MAXIMUM_UNITS: usize = 32;

#[derive(Clone, Debug)]
pub enum Completion {
    Value(Value),
    Descriptor(Descriptor),
    Absent,
    Keys(Vec<Key>),
}

#[derive(Clone, Debug)]
pub enum Outcome {
    Refused(u64),
    Result(Completion),
    TypeError(u64),
    Thrown(Value),
}

#[derive(Clone, Debug)]
pub struct Report {
    pub outcome: Outcome,
    pub answers: u64,
    pub calls: u64,
}

impl Report {
    fn without_calls(outcome: Outcome) -> Self {
        Report { outcome, answers: 0, calls: 0 }
    }

    fn refused(n: u64) -> Self {
        Report::without_calls(Outcome::Refused(n))
    }
}

/// What a step leaves: its report, what the sheet lacked where it was refused as 8, and the last test of validation that failed in its course, where it
/// was not refused.
pub struct Stepped {
    pub report: Report,
    pub wanted: Option<Wanted>,
    pub failed: Option<u64>,
}

/// What the next answer is wanted for, and the world of that moment.
pub struct Wanted {
    pub asked: Asked,
    pub world: World,
}

/// One step. The output changes only with a result, and so does the world, but for code 18: what was changed before a TypeError or a throw stays.
pub fn step(world: &mut World, bytes: &[u8], sheet: &[u8], output: &mut [u8]) -> Stepped {
    let (step, answers) = match record::read(world, bytes, sheet) {
        Ok(read) => read,
        Err(n) => return Stepped { report: Report::refused(n), wanted: None, failed: None },
    };
    let mut run = Run { world: world.clone(), answers, used: 0, calls: 0, wanted: None, failed: None };
    let ended = perform(&mut run, &step);
    let ended = match ended {
        Err(Stop::Refused(n)) => Err(Stop::Refused(n)),
        _ if run.used < run.answers.len() => Err(Stop::Refused(13)),
        Ok(Completion::Keys(keys)) if output.len() < 9 * keys.len() => Err(Stop::Refused(11)),
        ended => ended,
    };
    let outcome = match ended {
        Err(Stop::Refused(n)) => {
            let wanted = run.wanted.map(|asked| Wanted { asked, world: run.world });
            return Stepped { report: Report::refused(n), wanted, failed: None };
        }
        Err(Stop::TypeError(n)) => Outcome::TypeError(n),
        Err(Stop::Thrown(v)) => Outcome::Thrown(v),
        Ok(completion) => {
            if let Completion::Keys(keys) = &completion {
                for (place, key) in output.chunks_exact_mut(9).zip(keys) {
                    place.copy_from_slice(&key.value().bytes());
                }
            }
            Outcome::Result(completion)
        }
    };
    if matches!(outcome, Outcome::Result(_)) || step.code == 18 {
        *world = run.world;
    }
    Stepped { report: Report { outcome, answers: run.used as u64, calls: run.calls }, wanted: None, failed: run.failed }
}

fn make(run: &mut Run, object: Object) -> Result<Completion, Stop> {
    if run.world.live().count() == MAXIMUM_OBJECTS {
        return Err(Stop::Refused(7));
    }
    let o = run.world.add(object);
    Ok(Completion::Value(run.world.value(o)))
}

fn perform(run: &mut Run, step: &Step) -> Result<Completion, Stop> {
    let o = step.object;
    let key = Key::of(step.key).unwrap_or(Key::Symbol(0));
    let boolean = |b: bool| Completion::Value(Value::Boolean(b));
    match step.code {
        1 | 16 => {
            let callable = step.code == 16;
            make(run, Object::Ordinary(Ordinary { prototype: step.value.object(), callable, extensible: true, properties: Vec::new() }))
        }
        2 => {
            let Value::Integer32(mask) = step.value else { unreachable!() };
            make(run, Object::Proxy { target: o, traps: mask as u32, revoked: false })
        }
        3 => {
            if let Some(Object::Proxy { revoked, .. }) = &mut run.world.objects[o] {
                *revoked = true;
            }
            Ok(boolean(true))
        }
        4 => {
            let prototype = run.get_prototype_of(o)?;
            Ok(Completion::Value(run.world.prototype_value(prototype)))
        }
        5 => run.set_prototype_of(o, step.value.object()).map(boolean),
        6 => run.is_extensible(o).map(boolean),
        7 => run.prevent_extensions(o).map(boolean),
        8 => Ok(run.get_own_property(o, key)?.map_or(Completion::Absent, Completion::Descriptor)),
        9 => run.define_own_property(o, key, &step.descriptor).map(boolean),
        10 => run.has_property(o, key).map(boolean),
        11 => run.get(o, key, step.receiver).map(Completion::Value),
        12 => run.set(o, key, step.value, step.receiver).map(boolean),
        13 => run.delete(o, key).map(boolean),
        14 => run.own_property_keys(o).map(Completion::Keys),
        17 => {
            run.world.release(o);
            Ok(boolean(true))
        }
        18 => run.set_integrity_level(o, Level::of(step.value).unwrap()).map(boolean),
        19 => run.test_integrity_level(o, Level::of(step.value).unwrap()).map(boolean),
        _ => unreachable!(),
    }
}

/// Entering a string; an equal one keeps its number.
pub fn enter_string(world: &mut World, units: &[u16]) -> Report {
    if units.len() > MAXIMUM_UNITS {
        return Report::refused(3);
    }
    let number = match world.strings.iter().position(|s| s == units) {
        Some(n) => n,
        None if world.strings.len() == MAXIMUM_STRINGS => return Report::refused(7),
        None => {
            world.strings.push(units.to_vec());
            world.strings.len() - 1
        }
    };
    Report::without_calls(Outcome::Result(Completion::Value(Value::String(number as u64))))
}

/// Refusals 1 to 4 over descriptor records, each over all of them before the next.
fn read_all(world: &World, records: &[&[u8]]) -> Result<Vec<Descriptor>, u64> {
    let all: Vec<Descriptor> = records.iter().map(|r| record::descriptor(r)).collect::<Option<_>>().ok_or(1u64)?;
    let values = || all.iter().flat_map(Descriptor::values);
    if !record::all_made(world, values()) {
        return Err(2);
    }
    if !record::all_known(world, values()) {
        return Err(3);
    }
    if !all.iter().all(Descriptor::is_usable) {
        return Err(4);
    }
    Ok(all)
}

fn descriptor_report(read: Result<Descriptor, u64>) -> Report {
    Report::without_calls(match read {
        Ok(d) => Outcome::Result(Completion::Descriptor(d)),
        Err(n) => Outcome::Refused(n),
    })
}

/// Completing a descriptor by itself.
pub fn complete(world: &World, bytes: &[u8]) -> Report {
    descriptor_report(read_all(world, &[bytes]).map(|all| all[0].completed()))
}

/// Validating a descriptor by itself, over a current one or, without a record, an absent property: yes or no, the number of the first test that fails
/// or 0, and the property after it.
pub fn validate_alone(world: &World, extensible: bool, bytes: &[u8], current: &[u8]) -> (bool, u64, Report) {
    let records = if current.is_empty() { vec![bytes] } else { vec![bytes, current] };
    let all = match read_all(world, &records) {
        Ok(all) => all,
        Err(n) => return (false, 0, Report::refused(n)),
    };
    let current = all.get(1);
    if current.is_some_and(|c| !c.is_full()) {
        return (false, 0, Report::refused(5));
    }
    let (test, after) = match validate(extensible, &all[0], current) {
        Ok(after) => (0, Some(after)),
        Err(test) => (test, current.copied()),
    };
    (test == 0, test, Report::without_calls(Outcome::Result(after.map_or(Completion::Absent, Completion::Descriptor))))
}

/// Merging a descriptor into a current one by itself.
pub fn merge(world: &World, current: &[u8], bytes: &[u8]) -> Report {
    descriptor_report(read_all(world, &[current, bytes]).and_then(|all| {
        let (current, d) = (&all[0], &all[1]);
        if !current.is_full() {
            return Err(5);
        }
        if current.is_data() && d.is_accessor() || current.is_accessor() && d.is_data() {
            return Err(6);
        }
        Ok(current.filled(d))
    }))
}
