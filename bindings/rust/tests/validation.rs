//! The tests of validation: every descriptor of a few values over every property of them, on the library and on the plain implementation; and which test
//! rejects the descriptor of a step, by the crate and by the plain implementation.
mod harness;
mod plain;

use demnyaluz::{Answer, ObjectId, PropertyDescriptor, PropertyKey, Step, Store, Value};
use harness::generator::{Generator, Habits};
use harness::pair::Pair;
use plain::descriptor::Descriptor;
use plain::record::{self, descriptor_bytes, step_bytes};
use plain::step::{Completion, Outcome};
use plain::value::Value as PlainValue;

const BOOLEANS: [Option<bool>; 3] = [None, Some(false), Some(true)];

/// Each of these descriptors with each of the fields' values.
fn each<T: Copy>(descriptors: Vec<Descriptor>, values: &[T], set: fn(&mut Descriptor, T)) -> Vec<Descriptor> {
    let with = |d: &Descriptor, v: &T| {
        let mut d = *d;
        set(&mut d, *v);
        d
    };
    descriptors.iter().flat_map(|d| values.iter().map(move |v| with(d, v))).collect()
}

/// Every descriptor of two numbers and of undefined and two functions as getter and setter, mixed ones left out.
fn descriptors() -> Vec<Descriptor> {
    let numbers = [None, Some(PlainValue::Integer32(70_000)), Some(PlainValue::Integer32(4_464))];
    let functions = [None, Some(PlainValue::Undefined), Some(PlainValue::Function(0)), Some(PlainValue::Function(1))];
    let generic = each(vec![Descriptor::default()], &BOOLEANS, |d, b| d.enumerable = b);
    let generic = each(generic, &BOOLEANS, |d, b| d.configurable = b);
    let data = each(each(generic.clone(), &BOOLEANS, |d, b| d.writable = b), &numbers, |d, v| d.value = v);
    let accessors = each(each(generic, &functions, |d, f| d.get = f), &functions, |d, f| d.set = f);
    data.into_iter().chain(accessors.into_iter().filter(Descriptor::is_accessor)).collect()
}

#[test]
fn every_descriptor_over_every_property() {
    let mut pair = Pair::new();
    let none = PlainValue::Undefined;
    for _ in 0..2 {
        let function = record::Step { code: 16, object: 0, key: none, value: PlainValue::Null, receiver: none, descriptor: Descriptor::default() };
        pair.step(&step_bytes(&function), &[0], 0);
    }
    let all = descriptors();
    let bytes: Vec<Vec<u8>> = all.iter().map(descriptor_bytes).collect();
    let properties = all.iter().zip(&bytes).filter(|(d, _)| d.is_full()).map(|(_, b)| &b[..]);
    for current in properties.chain([&[][..]]) {
        for d in &bytes {
            for extensible in [false, true] {
                let (yes, test, _) = pair.validate(extensible, d, current);
                assert_eq!(yes, test == 0);
            }
        }
    }
    println!("{:?}", pair.tally.tests);
    // 81 data and generic ones and 135 accessors; 16 data properties, 36 accessors and absence
    assert_eq!(pair.tally.tests.iter().sum::<u64>(), 2 * 216 * 53);
    assert!(pair.tally.tests.iter().all(|n| *n > 0));
}

fn value(v: PlainValue) -> Value {
    Value::from_bytes(&v.bytes()).expect("a value that can be named")
}

fn descriptor(d: &Descriptor) -> PropertyDescriptor {
    PropertyDescriptor {
        enumerable: d.enumerable,
        configurable: d.configurable,
        writable: d.writable,
        value: d.value.map(value),
        get: d.get.map(value),
        set: d.set.map(value),
    }
}

fn answer(a: &record::Answer) -> Answer {
    match a {
        record::Answer::Value(v) => Answer::Value(value(*v)),
        record::Answer::Descriptor(d) => Answer::Descriptor(descriptor(d)),
        record::Answer::Keys(values) => Answer::Keys(values.iter().map(|v| value(*v)).collect()),
        record::Answer::Throw(v) => Answer::Throw(value(*v)),
    }
}

/// A step of code 8 or 9 as the crate has it.
fn own_property_step(s: &record::Step) -> Step {
    let object = ObjectId(s.object as u8);
    let key = PropertyKey::try_from(value(s.key)).expect("a key");
    match s.code {
        8 => Step::GetOwnProperty { object, key },
        _ => Step::DefineOwnProperty { object, key, descriptor: descriptor(&s.descriptor) },
    }
}

/// How often each test rejected a descriptor: in a result false, by message 14, by message 10 of code 8 and by message 10 of code 9.
type Rejections = [[u64; 9]; 4];

/// Steps on one store, mostly those of codes 8 and 9; numbers of objects are used again.
fn rejections(seed: u64, size: usize) -> Rejections {
    let mut generator = Generator::new(seed);
    generator.habits = Habits { damage: 1000, keys: 4, flags: 6, ..generator.habits };
    let mut counts = Rejections::default();
    let (mut pair, mut store) = (Pair::new(), Store::new());
    for _ in 0..size {
        let (bytes, sheet) = generator.step_and_sheet(&pair.world);
        if !matches!(bytes[0], 1 | 2 | 8 | 9 | 16 | 17) && !generator.random.once_in(8) {
            continue;
        }
        let read = record::read(&pair.world, &bytes, &sheet).ok().filter(|(s, _)| matches!(s.code, 8 | 9));
        let asked = read.map(|(s, answers)| (own_property_step(&s), answers.iter().map(answer).collect::<Vec<_>>()));
        let ask = |store: &Store| asked.as_ref().and_then(|(s, answers)| store.failed_test(s, answers)).map(|t| u64::from(t.number()));
        let (world, before) = (pair.world.clone(), ask(&store));
        let stepped = pair.step(&bytes, &sheet, demnyaluz::OUTPUT_BYTES);
        let _ = store.step_bytes(&bytes, &sheet, &mut [0; demnyaluz::OUTPUT_BYTES]);
        let expected = asked.as_ref().and(stepped.failed);
        // a step that rejects changes nothing
        assert_eq!((before, ask(&store)), (expected, expected), "{asked:?} over {world:?}");
        let Some(test) = expected else { continue };
        let place = match stepped.report.outcome {
            Outcome::Result(Completion::Value(PlainValue::Boolean(false))) => 0,
            Outcome::TypeError(14) => 1,
            Outcome::TypeError(10) if bytes[0] == 8 => 2,
            Outcome::TypeError(10) => 3,
            other => panic!("a test failed, and the outcome is {other:?}"),
        };
        counts[place][test as usize] += 1;
    }
    counts
}

#[test]
fn failed_tests_are_as_the_plain_implementation_says() {
    // the plain implementation nests its calls
    let thread = std::thread::Builder::new().stack_size(64 << 20).spawn(|| {
        let mut counts = Rejections::default();
        for seed in 1..=400 {
            let more = rejections(seed, 400);
            counts.iter_mut().flatten().zip(more.iter().flatten()).for_each(|(a, b)| *a += b);
        }
        counts
    });
    let counts = thread.unwrap().join().unwrap();
    println!("{counts:?}");
    // message 14 is of a property that is there
    for (place, first) in [(0, 1), (1, 2), (2, 1), (3, 1)] {
        assert!(counts[place][first..].iter().all(|n| *n > 0), "{place}: {:?}", counts[place]);
    }
}
