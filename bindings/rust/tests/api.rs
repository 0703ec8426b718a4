//! The crate's own types: what they encode to, what reports they give, and how the store looks from outside.
use demnyaluz::notation::Call;
use demnyaluz::{
    lent, notation, rows, sheet_bytes, Answer, Completion, Failure, FunctionId, IntegrityLevel, Message, ObjectId, Property, PropertyDescriptor,
    PropertyKey, Prototype, Refusal, Report, Step, Store, StringId, SymbolId, TextReader, Traps, TryFromValueError, Validation, ValidationTest,
    Value, ValueWords,
};
use std::collections::HashSet;
use std::error::Error;

fn hex(bytes: &[u8]) -> String {
    demnyaluz::notation::hex(bytes)
}

/// The bytes of docs/REFERENCE.md, written out by hand.
#[test]
fn values_are_nine_bytes() {
    for (value, bytes) in [
        (Value::Undefined, "000000000000000000"),
        (Value::Null, "010000000000000000"),
        (true.into(), "020100000000000000"),
        (70_000.into(), "037011010000000000"),
        ((-1).into(), "03ffffffff00000000"),
        ((-0.0).into(), "040000000000000080"),
        (StringId(5).into(), "050500000000000000"),
        (SymbolId(255).into(), "06ff00000000000000"),
        (ObjectId(31).into(), "071f00000000000000"),
        (FunctionId(0).into(), "080000000000000000"),
    ] {
        assert_eq!(hex(&value.to_bytes()), bytes);
        assert_eq!(Value::from_bytes(&value.to_bytes()), Some(value));
    }
    for (kind, payload) in [(0, 1), (1, 1), (2, 2), (3, 1 << 32), (5, 256), (7, 256), (8, 256), (9, 0), (256, 0), (u64::MAX, 0)] {
        assert_eq!(Value::from_words(ValueWords { kind, payload }), None);
    }
}

#[test]
fn same_value_is_the_languages() {
    assert!(!Value::from(0).same_value((-0.0).into()));
    assert!(Value::from(1).same_value(1.0.into()));
    assert!(Value::from(f64::NAN).same_value(f64::from_bits(0xfff0_0000_0000_0001).into()));
    assert!(!Value::Null.same_value(Value::Undefined));
    // an object and a function of one number are two values
    assert!(!Value::from(ObjectId(1)).same_value(FunctionId(1).into()));
    assert!(Value::from(FunctionId(1)).same_value(FunctionId(1).into()));
    assert!(!Value::from(FunctionId(1)).same_value(FunctionId(2).into()));
    assert_ne!(Value::from(1), Value::from(1.0));
}

#[test]
fn descriptors_are_twenty_nine_bytes() {
    let nine = "00".repeat(9);
    assert_eq!(hex(&PropertyDescriptor::default().to_bytes()), "00".repeat(29));
    assert_eq!(hex(&PropertyDescriptor::fixed(70_000).to_bytes()), format!("0f01037011010000000000{nine}{nine}"));
    let accessor = PropertyDescriptor { get: Some(FunctionId(1).into()), configurable: Some(true), ..Default::default() };
    assert_eq!(hex(&accessor.to_bytes()), format!("1202{nine}080100000000000000{nine}"));
}

#[test]
fn properties_are_complete_descriptors() {
    let nine = "00".repeat(9);
    for (property, bytes) in [
        (Property::Data { value: 1.into(), writable: true, enumerable: false, configurable: true }, format!("0f06030100000000000000{nine}{nine}")),
        (
            Property::Accessor { get: FunctionId(1).into(), set: Value::Undefined, enumerable: true, configurable: false },
            format!("3301{nine}080100000000000000{nine}"),
        ),
    ] {
        let written = PropertyDescriptor::from(property).to_bytes();
        assert_eq!(hex(&written), bytes);
        assert_eq!(Property::from_bytes(&written), Some(property));
        // every other mask, and whatever else differs in a byte, is no property or another one
        for at in 0..29 {
            for byte in 0..=255 {
                let mut changed = written;
                changed[at] = byte;
                let told = Property::from_bytes(&changed);
                assert!(told.is_none() || PropertyDescriptor::from(told.unwrap()).to_bytes() == changed);
                assert!(at != 0 || byte == written[0] || told.is_none());
            }
        }
    }
}

#[test]
fn steps_are_fifty_eight_bytes() {
    let key = PropertyKey::Symbol(SymbolId(3));
    let (zero, none) = ("00".repeat(9), "00".repeat(29));
    let symbol = "060300000000000000";
    let object = |n: u8| format!("07{n:02x}00000000000000");
    let function = |n: u8| format!("08{n:02x}00000000000000");
    let o = ObjectId(9);
    for (step, bytes) in [
        (Step::MakeObject { prototype: None }, format!("0100{zero}01{}{zero}{none}", "00".repeat(8))),
        (Step::MakeObject { prototype: Some(FunctionId(2).into()) }, format!("0100{zero}{}{zero}{none}", function(2))),
        (Step::MakeFunction { prototype: None }, format!("1000{zero}01{}{zero}{none}", "00".repeat(8))),
        (Step::MakeFunction { prototype: Some(ObjectId(2).into()) }, format!("1000{zero}{}{zero}{none}", object(2))),
        (Step::MakeFunction { prototype: Some(FunctionId(2).into()) }, format!("1000{zero}{}{zero}{none}", function(2))),
        (Step::MakeProxy { target: o, traps: Traps::ALL }, format!("0209{zero}03ff07000000000000{zero}{none}")),
        (Step::Revoke { proxy: o }, format!("0309{zero}{zero}{zero}{none}")),
        (Step::GetPrototypeOf { object: o }, format!("0409{zero}{zero}{zero}{none}")),
        (Step::SetPrototypeOf { object: o, prototype: Some(ObjectId(2).into()) }, format!("0509{zero}{}{zero}{none}", object(2))),
        (
            Step::SetPrototypeOf { object: FunctionId(9).into(), prototype: Some(FunctionId(2).into()) },
            format!("0509{zero}{}{zero}{none}", function(2)),
        ),
        (Step::IsExtensible { object: o }, format!("0609{zero}{zero}{zero}{none}")),
        (Step::PreventExtensions { object: o }, format!("0709{zero}{zero}{zero}{none}")),
        (Step::GetOwnProperty { object: o, key }, format!("0809{symbol}{zero}{zero}{none}")),
        (
            Step::DefineOwnProperty { object: o, key, descriptor: PropertyDescriptor::fixed(1) },
            format!("0909{symbol}{zero}{zero}0f01030100000000000000{zero}{zero}"),
        ),
        (Step::HasProperty { object: o, key }, format!("0a09{symbol}{zero}{zero}{none}")),
        (Step::Get { object: o, key, receiver: o.into() }, format!("0b09{symbol}{zero}{}{none}", object(9))),
        (Step::Set { object: o, key, value: true.into(), receiver: Value::Null }, format!("0c09{symbol}020100000000000000010000000000000000{none}")),
        (Step::Delete { object: o, key }, format!("0d09{symbol}{zero}{zero}{none}")),
        (Step::OwnPropertyKeys { object: o }, format!("0e09{zero}{zero}{zero}{none}")),
        (Step::SetIntegrityLevel { object: o, level: IntegrityLevel::Sealed }, format!("1209{zero}030000000000000000{zero}{none}")),
        (Step::SetIntegrityLevel { object: o, level: IntegrityLevel::Frozen }, format!("1209{zero}030100000000000000{zero}{none}")),
        (Step::TestIntegrityLevel { object: o, level: IntegrityLevel::Sealed }, format!("1309{zero}030000000000000000{zero}{none}")),
        (Step::TestIntegrityLevel { object: o, level: IntegrityLevel::Frozen }, format!("1309{zero}030100000000000000{zero}{none}")),
    ] {
        assert_eq!(hex(&step.to_bytes()), bytes, "{step:?}");
        assert_eq!((step.code(), step.object()), (step.to_bytes()[0], Some(o).filter(|_| ![1, 16].contains(&step.code()))), "{step:?}");
    }
}

#[test]
fn sheets_are_a_count_and_answers() {
    let nine = "00".repeat(9);
    assert_eq!(hex(&sheet_bytes(&[])), "00");
    let all = [Answer::Value(true.into()), Answer::Descriptor(Default::default()), Answer::keys([SymbolId(1).into()]), Answer::Throw(Value::Null)];
    assert_eq!(hex(&sheet_bytes(&all)), format!("0401020100000000000000020000{nine}{nine}{nine}0301000601000000000000000401{}", "00".repeat(8)));
}

#[test]
fn too_many_answers_or_keys_are_refused() {
    let mut store = Store::new();
    let o = store.make_object(None).unwrap();
    let p = store.make_proxy(o, Traps::OWN_KEYS).unwrap();
    let answers = vec![Answer::keys([]); 65];
    assert_eq!(store.own_property_keys(p, &answers), Err(Refusal::MalformedRecord.into()));
    assert_eq!(store.own_property_keys(p, &answers[..64]), Err(Refusal::UnreadAnswers.into()));
    assert_eq!(store.own_property_keys(p, &answers[..1]), Ok(vec![]));
    assert_eq!(store.own_property_keys(p, &vec![Answer::keys([]); 1000]), Err(Refusal::MalformedRecord.into()));
    let long = Answer::Keys(vec![Value::Null; 257]);
    assert_eq!(store.own_property_keys(p, &[long]), Err(Refusal::MalformedRecord.into()));
    assert_eq!(store.own_property_keys(p, &[Answer::Keys(vec![Value::Null; 70_000])]), Err(Refusal::MalformedRecord.into()));
    let all: Vec<PropertyKey> = (0..=255).map(|n| SymbolId(n).into()).collect();
    assert_eq!(store.own_property_keys(p, &[Answer::keys(all.clone())]), Ok(all));
}

#[test]
fn every_message_has_a_text_of_its_own() {
    let texts: Vec<String> = Message::ALL.iter().map(|m| m.text()).collect();
    for (i, text) in texts.iter().enumerate() {
        assert!(!text.is_empty() && text.is_ascii() && text.len() <= 90);
        assert!(!texts[..i].contains(text));
        assert_eq!(Message::from_number(i as u64 + 1), Some(Message::ALL[i]));
        assert_eq!(Message::ALL[i].to_string(), *text);
    }
    assert_eq!(texts[0], "Proxy object has empty handler and target");
    assert_eq!(texts[10], "Proxy trap result is writable and not configurable while target result is not configurable");
    assert_eq!(texts[16], "Proxy trap returned unexpected data descriptor");
    assert_eq!(texts[31], "Property definition was rejected");
    assert_eq!((Message::from_number(0), Message::from_number(33)), (None, None));
}

/// A text is written whole or not at all, whatever the number.
#[test]
fn message_texts_fit_or_stay_out() {
    for number in [0, 1, 11, 31, 32, 33, u64::MAX] {
        let expected = Message::from_number(number).map_or(String::new(), |m| m.text());
        for room in 0..=100 {
            let mut text = vec![b'?'; room].into_boxed_slice();
            let size = lent::message(number, &mut text);
            assert_eq!(size, expected.len());
            let written = if expected.len() <= room { expected.as_str() } else { "" };
            assert_eq!(*text, [written.as_bytes(), &vec![b'?'; room - written.len()]].concat());
        }
    }
}

#[test]
fn refusals_have_numbers_and_texts() {
    for (i, r) in Refusal::ALL.iter().copied().enumerate() {
        assert_eq!(usize::from(r.number()), i + 1);
        assert_eq!(Refusal::from_number(i as u64 + 1), Some(r));
        assert!(!r.to_string().is_empty());
    }
    assert_eq!((Refusal::from_number(0), Refusal::from_number(15)), (None, None));
    assert_eq!(Failure::Refused(Refusal::SheetSpent).to_string(), "refused 8: the sheet has no next answer");
    assert_eq!(Failure::Refused(Refusal::UnreadAnswers).to_string(), "refused 13: the sheet has unread answers");
    assert_eq!(Failure::Refused(Refusal::StillNamed).to_string(), "refused 14: the object is still named");
}

#[test]
fn strings_are_entered_once() {
    let mut store = Store::new();
    let a = store.enter_string("visits").unwrap();
    let b = store.enter_string("é😀").unwrap();
    assert_eq!((a, b), (StringId(0), StringId(1)));
    assert_eq!(store.enter_string("visits"), Ok(a));
    assert_eq!(store.string(b).as_deref(), Some("é😀"));
    assert_eq!(store.string_units(b).unwrap().len(), 3);
    assert_eq!(store.string(StringId(2)), None);
    assert_eq!(store.enter_units(&[0xd800; 33]), Err(Refusal::UnusablePart));
    assert!(store.enter_units(&[0xd800; 32]).is_ok());
    for i in 3..256 {
        store.enter_string(&i.to_string()).unwrap();
    }
    assert_eq!(store.enter_string("one more"), Err(Refusal::StoreFull));
    assert_eq!(store.enter_string("255"), Ok(StringId(255)));
    assert_eq!(store.string_count(), 256);
}

#[test]
fn each_method_answers_in_its_own_type() {
    let mut store = Store::new();
    let key = store.enter_string("a").unwrap();
    let parent = store.make_object(None).unwrap();
    let o = store.make_object(Some(parent.into())).unwrap();
    let f = store.make_function(Some(o.into())).unwrap();
    assert_eq!((parent, o, f), (ObjectId(0), ObjectId(1), FunctionId(2)));
    assert_eq!(store.get_prototype_of(o, &[]), Ok(Some(parent.into())));
    assert_eq!(store.get_prototype_of(f, &[]), Ok(Some(Prototype::Object(o))));
    assert_eq!(store.set_prototype_of(o, None, &[]), Ok(true));
    assert_eq!(store.get_prototype_of(o, &[]), Ok(None));
    assert_eq!(store.is_extensible(o, &[]), Ok(true));
    assert_eq!(store.get_own_property(o, key, &[]), Ok(None));
    assert_eq!(store.has_property(o, key, &[]), Ok(false));
    assert_eq!(store.set(o, key, 5, o, &[]), Ok(true));
    let data = Property::Data { value: 5.into(), writable: true, enumerable: true, configurable: true };
    assert_eq!(store.get_own_property(o, key, &[]), Ok(Some(data)));
    assert_eq!(store.get(o, key, o, &[]), Ok(5.into()));
    let accessor = PropertyDescriptor { get: Some(f.into()), ..Default::default() };
    assert_eq!(store.define_own_property(o, SymbolId(1), accessor, &[]), Ok(true));
    assert_eq!(
        store.get_own_property(o, SymbolId(1), &[]),
        Ok(Some(Property::Accessor { get: f.into(), set: Value::Undefined, enumerable: false, configurable: false }))
    );
    assert_eq!(store.get(o, SymbolId(1), o, &[Answer::Value(0.5.into())]), Ok(0.5.into()));
    assert_eq!(store.get(o, SymbolId(1), o, &[Answer::Throw(key.into())]), Err(Failure::Thrown(key.into())));
    assert_eq!(store.own_property_keys(o, &[]), Ok(vec![key.into(), SymbolId(1).into()]));
    assert_eq!(store.delete(o, key, &[]), Ok(true));
    assert_eq!(store.delete(o, SymbolId(1), &[]), Ok(false));
    assert_eq!(store.prevent_extensions(o, &[]), Ok(true));
    assert_eq!(store.is_extensible(o, &[]), Ok(false));
    let p = store.make_proxy(o, Traps::NONE).unwrap();
    assert_eq!(store.is_extensible(p, &[]), Ok(false));
    store.revoke(p).unwrap();
    store.revoke(p).unwrap();
    assert_eq!(store.is_extensible(p, &[]), Err(Failure::TypeError(Message::RevokedProxy)));
    assert_eq!(store.revoke(o), Err(Refusal::UnusablePart.into()));
    assert_eq!(store.is_extensible(ObjectId(4), &[]), Err(Refusal::ObjectNeverMade.into()));
    assert_eq!((store.object_count(), store.property_count(), store.string_count()), (4, 1, 1));
}

#[test]
fn answers_and_calls_are_reported() {
    let mut store = Store::new();
    let o = store.make_object(None).unwrap();
    let mut p = o;
    for _ in 0..3 {
        p = store.make_proxy(p, Traps::IS_EXTENSIBLE).unwrap();
    }
    let yes = vec![Answer::Value(true.into()); 3];
    let report = store.step(&Step::IsExtensible { object: p }, &yes);
    assert_eq!((report.outcome, report.answers, report.calls), (Ok(Completion::Value(true.into())), 3, 4));
}

#[test]
fn the_store_is_full_at_32_objects_and_256_properties() {
    let mut store = Store::new();
    for _ in 0..32 {
        store.make_object(None).unwrap();
    }
    assert_eq!(store.make_object(None), Err(Refusal::StoreFull.into()));
    for n in 0..=255 {
        assert_eq!(store.set(ObjectId(n % 32), SymbolId(n), 1, ObjectId(n % 32), &[]), Ok(true));
    }
    let before = store.clone();
    assert_eq!(store.set(ObjectId(0), SymbolId(1), 1, ObjectId(0), &[]), Err(Refusal::StoreFull.into()));
    assert_eq!(store, before);
    assert_eq!(store.delete(ObjectId(0), SymbolId(0), &[]), Ok(true));
    assert_eq!(store.set(ObjectId(0), SymbolId(1), 1, ObjectId(0), &[]), Ok(true));
}

/// Fields of a descriptor by their names.
macro_rules! fields {
    ($($name:ident: $value:expr),*) => {
        PropertyDescriptor { $($name: Some($value.into()),)* ..Default::default() }
    };
}

/// A store with functions 0 and 1, and complete descriptors that are not configurable and enumerable: 70,000, the same but writable, and an accessor of
/// the functions.
fn functions_and_descriptors() -> (Store, [PropertyDescriptor; 3]) {
    let mut store = Store::new();
    let (get, set) = (store.make_function(None).unwrap().into(), store.make_function(None).unwrap().into());
    let accessor = Property::Accessor { get, set, enumerable: true, configurable: false };
    (store, [PropertyDescriptor::fixed(70_000), PropertyDescriptor::data(70_000, true, true, false), accessor.into()])
}

#[test]
fn each_test_of_validation_fails_first() {
    let (store, [fixed, writable, accessor]) = functions_and_descriptors();
    let open = PropertyDescriptor::data(70_000, false, true, true);
    let (f0, f1, undefined) = (FunctionId(0), FunctionId(1), Value::Undefined);
    use ValidationTest as T;
    let cases = [
        (T::Extensible, fields! {}, None),
        (T::Extensible, fields! { configurable: true, get: f0 }, None),
        (T::Configurable, fields! { configurable: true }, Some(fixed)),
        (T::Configurable, fields! { configurable: true, enumerable: false, get: undefined }, Some(writable)),
        (T::Enumerable, fields! { enumerable: false }, Some(fixed)),
        (T::Enumerable, fields! { enumerable: false, configurable: false, value: 70_000 }, Some(accessor)),
        (T::Kind, fields! { set: undefined }, Some(fixed)),
        (T::Kind, fields! { get: f0, enumerable: true }, Some(writable)),
        (T::Kind, fields! { writable: true, value: 4_464 }, Some(accessor)),
        (T::Get, fields! { get: f1, set: f1 }, Some(accessor)),
        (T::Get, fields! { get: undefined, set: undefined }, Some(accessor)),
        (T::Set, fields! { set: f0 }, Some(accessor)),
        (T::Set, fields! { get: f0, set: undefined, enumerable: true, configurable: false }, Some(accessor)),
        (T::Writable, fields! { writable: true }, Some(fixed)),
        (T::Writable, fields! { writable: true, value: 4_464 }, Some(fixed)),
        (T::Value, fields! { value: 4_464 }, Some(fixed)),
        (T::Value, fields! { value: 70_000.5, writable: false, enumerable: true, configurable: false }, Some(fixed)),
    ];
    for (test, descriptor, current) in cases {
        let told = store.validate(false, &descriptor, current.as_ref()).unwrap();
        assert_eq!((told.accepted, told.failed), (false, Some(test)), "{descriptor} over {current:?}");
        assert_eq!(told.property.map(PropertyDescriptor::from), current);
        // being extensible is asked of absent properties alone
        let told = store.validate(true, &descriptor, current.as_ref()).unwrap();
        assert_eq!((told.accepted, told.failed), current.map_or((true, None), |_| (false, Some(test))), "{descriptor} over {current:?}");
    }
    assert!(ValidationTest::ALL.iter().all(|t| cases.iter().any(|(test, ..)| test == t)));
    for (descriptor, current) in [
        (fields! {}, fixed),
        (fields! {}, accessor),
        (fixed, fixed),
        (fields! { value: 70_000.0, writable: false }, fixed),
        (fields! { value: 4_464, writable: false }, writable),
        (accessor, accessor),
        (fields! { enumerable: true, configurable: false }, accessor),
        (fields! { get: f0, enumerable: false, configurable: true }, open),
        (fields! { writable: true, value: 4_464 }, open),
    ] {
        let told = store.validate(false, &descriptor, Some(&current)).unwrap();
        assert_eq!((told.accepted, told.failed), (true, None), "{descriptor} over {current}");
    }
}

/// A refusal says nothing of the tests.
#[test]
fn a_refused_validation_has_no_test() {
    let (store, [fixed, ..]) = functions_and_descriptors();
    let strings = vec![0; demnyaluz::STRING_CELLS];
    let mixed = fields! { configurable: true, value: 1, get: Value::Undefined };
    let [fixed_bytes, mixed_bytes, some] = [fixed, mixed, fields! { value: 1 }].map(|d| d.to_bytes());
    for (descriptor, current, refusal) in [
        (&mixed_bytes[..], &fixed_bytes[..], Refusal::UnusableDescriptor),
        (&mixed_bytes, &[], Refusal::UnusableDescriptor),
        (&fixed_bytes, &mixed_bytes, Refusal::UnusableDescriptor),
        (&fixed_bytes, &some, Refusal::IncompleteCurrent),
        (&fixed_bytes[1..], &[], Refusal::MalformedRecord),
        (&fields! { value: ObjectId(2) }.to_bytes(), &fixed_bytes, Refusal::ObjectNeverMade),
        (&fields! { value: StringId(0) }.to_bytes(), &fixed_bytes, Refusal::UnusablePart),
    ] {
        for extensible in [false, true] {
            let told = lent::validate(store.words(), &strings, extensible, descriptor, current);
            assert_eq!((told.accepted, told.test), (false, 0));
            let report = Report::from_words(told.report.as_slice(), &[]).unwrap();
            assert_eq!(report.outcome, Err(refusal.into()));
        }
    }
}

/// What a step reports and the test that failed in it, which is the same after it.
#[track_caller]
fn step_and_failed_test(store: &mut Store, step: &Step, answers: &[Answer]) -> (String, Option<ValidationTest>) {
    let failed = store.failed_test(step, answers);
    let report = store.step(step, answers);
    assert_eq!(store.failed_test(step, answers), failed, "{step}");
    let told = match report.outcome {
        Err(Failure::TypeError(m)) => format!("TypeError {}", m.number()),
        Err(Failure::Refused(r)) => format!("refused {}", r.number()),
        _ => report.to_string().split(" (").next().unwrap().to_string(),
    };
    (told, failed)
}

#[test]
fn a_rejected_step_has_the_test_that_failed() {
    let (mut store, [fixed, _, accessor]) = functions_and_descriptors();
    let (data, functions, absent) = (PropertyKey::from(SymbolId(0)), PropertyKey::from(SymbolId(1)), PropertyKey::from(SymbolId(2)));
    let ordinary = store.make_object(None).unwrap();
    assert!(store.define_own_property(ordinary, data, fixed, &[]).unwrap());
    assert!(store.define_own_property(ordinary, functions, accessor, &[]).unwrap());
    assert!(store.prevent_extensions(ordinary, &[]).unwrap());
    let own = Traps::GET_OWN_PROPERTY_DESCRIPTOR;
    let forwarding = store.make_proxy(ordinary, Traps::ALL - Traps::DEFINE_PROPERTY - own - Traps::IS_EXTENSIBLE).unwrap();
    let trapping = store.make_proxy(forwarding, Traps::ALL).unwrap();
    let before_trapping = store.make_proxy(trapping, Traps::NONE).unwrap();
    let outermost = store.make_proxy(before_trapping, Traps::ALL).unwrap();

    use ValidationTest as T;
    let (no, yes) = (|| Answer::Value(false.into()), || Answer::Value(true.into()));
    let define = |object, key, descriptor| Step::DefineOwnProperty { object, key, descriptor };
    let get = |object, key| Step::GetOwnProperty { object, key };
    let told_other = Answer::from(PropertyDescriptor::fixed(4_464));
    let told = Answer::from(fixed);
    for (test, key, descriptor) in [
        (T::Extensible, absent, fields! {}),
        (T::Configurable, data, fields! { configurable: true }),
        (T::Enumerable, data, fields! { enumerable: false }),
        (T::Kind, functions, fields! { value: 4_464 }),
        (T::Get, functions, fields! { get: FunctionId(1) }),
        (T::Set, functions, fields! { set: Value::Undefined }),
        (T::Writable, data, fields! { writable: true }),
        (T::Value, data, fields! { value: 4_464 }),
    ] {
        // an ordinary object, and a proxy without the traps, which uses no answer
        for object in [ordinary, forwarding] {
            assert_eq!(step_and_failed_test(&mut store, &define(object, key, descriptor), &[]), ("false".into(), Some(test)));
            assert_eq!(step_and_failed_test(&mut store, &define(object, key, descriptor), &[no()]), ("refused 13".into(), None));
        }
        for object in [trapping, before_trapping] {
            // a trap that accepts it: an absent property has a message of its own
            let (message, failed) = if key == absent { ("TypeError 13", None) } else { ("TypeError 14", Some(test)) };
            assert_eq!(step_and_failed_test(&mut store, &define(object, key, descriptor), &[yes()]), (message.into(), failed));
            // and one that does not
            assert_eq!(step_and_failed_test(&mut store, &define(object, key, descriptor), &[no()]), ("false".into(), None));
        }
        // the same descriptor as an answer, with what it lacks: it is enumerable, so that the tests after that one are come to
        let enumerable = Some(descriptor.enumerable.unwrap_or(key != absent));
        let mut answered = PropertyDescriptor { enumerable, ..descriptor };
        if test == T::Set {
            answered.get = accessor.get;
        }
        for object in [trapping, before_trapping] {
            assert_eq!(step_and_failed_test(&mut store, &get(object, key), &[answered.into()]), ("TypeError 10".into(), Some(test)));
        }
        // in a proxy over a proxy the inner trap is asked after the outer one's answer
        let answers = [told.clone(), answered.into()];
        assert_eq!(step_and_failed_test(&mut store, &get(outermost, key), &answers), ("TypeError 10".into(), Some(test)));
        let answers = [yes(), answered.into()];
        assert_eq!(step_and_failed_test(&mut store, &define(outermost, key, fields! {}), &answers), ("TypeError 10".into(), Some(test)));
    }

    // the outer trap's answer over what the inner traps answered, of the property and of being extensible
    let answers = [yes(), told.clone(), no()];
    let step = define(outermost, data, PropertyDescriptor::fixed(4_464));
    assert_eq!(step_and_failed_test(&mut store, &step, &answers), ("TypeError 14".into(), Some(T::Value)));
    let answers = [told_other.clone(), told.clone(), no()];
    assert_eq!(step_and_failed_test(&mut store, &get(outermost, data), &answers), ("TypeError 10".into(), Some(T::Value)));
    let answers = [told_other.clone(), Answer::Value(Value::Undefined), no()];
    assert_eq!(step_and_failed_test(&mut store, &get(outermost, absent), &answers), ("TypeError 10".into(), Some(T::Extensible)));

    // no descriptor was rejected
    let key = data;
    for (step, answers, told) in [
        (define(ordinary, data, fixed), vec![], "true"),
        (define(ordinary, data, fields! {}), vec![], "true"),
        (define(trapping, data, fixed), vec![yes()], "true"),
        (define(outermost, data, fixed), vec![yes(), told.clone(), no()], "true"),
        (define(outermost, data, PropertyDescriptor::fixed(4_464)), vec![no()], "false"),
        (define(outermost, data, PropertyDescriptor::fixed(4_464)), vec![no(), told_other.clone()], "refused 13"),
        (define(outermost, data, fixed), vec![yes(), Answer::Throw(4_464.into())], "thrown 4464"),
        (define(outermost, data, fixed), vec![yes(), told.clone(), yes()], "TypeError 5"),
        (define(outermost, data, fixed), vec![yes()], "refused 8"),
        (define(trapping, data, PropertyDescriptor::fixed(4_464)), vec![], "refused 8"),
        (define(ObjectId(9), data, fixed), vec![], "refused 2"),
        (define(ordinary, data, fields! { value: 1, get: Value::Undefined }), vec![], "refused 4"),
        (get(ordinary, absent), vec![], "absent"),
        (get(trapping, data), vec![Answer::Value(Value::Undefined)], "TypeError 8"),
        (get(trapping, data), vec![fields! { get: 1 }.into()], "TypeError 27"),
        (get(trapping, data), vec![fields! { value: 1, get: Value::Undefined }.into()], "TypeError 29"),
        (get(trapping, data), vec![told.clone()], &fixed.to_string()),
        // the other messages 10 and other steps
        (Step::HasProperty { object: trapping, key }, vec![no()], "TypeError 10"),
        (Step::HasProperty { object: outermost, key }, vec![no(), told_other.clone()], "TypeError 10"),
        (get(outermost, data), vec![told_other.clone(), told.clone(), no(), no()], "refused 13"),
        (get(trapping, data), vec![told_other, told.clone()], "refused 13"),
        (Step::Set { object: ordinary, key, value: 4_464.into(), receiver: ordinary.into() }, vec![], "false"),
        (Step::Delete { object: ordinary, key }, vec![], "false"),
        (Step::MakeObject { prototype: None }, vec![], "o7"),
    ] {
        assert_eq!(step_and_failed_test(&mut store, &step, &answers), (told.to_string(), None), "{step}");
    }
}

/// A call can pass through every object of a full store: the innermost answer is rejected, then the outermost one.
#[test]
fn the_test_that_failed_is_found_behind_31_proxies() {
    let mut store = Store::new();
    let key = PropertyKey::from(SymbolId(0));
    let mut object = store.make_object(None).unwrap();
    assert!(store.define_own_property(object, key, PropertyDescriptor::fixed(70_000), &[]).unwrap());
    for _ in 0..31 {
        object = store.make_proxy(object, Traps::GET_OWN_PROPERTY_DESCRIPTOR).unwrap();
    }
    let define = Step::DefineOwnProperty { object, key, descriptor: fields! { writable: true } };
    assert_eq!(step_and_failed_test(&mut store, &define, &[]), ("false".into(), Some(ValidationTest::Writable)));
    let get = Step::GetOwnProperty { object, key };
    for wrong in [30, 0, 15] {
        let mut answers = vec![Answer::from(PropertyDescriptor::fixed(70_000)); 31];
        answers[wrong] = PropertyDescriptor::fixed(4_464).into();
        assert_eq!(step_and_failed_test(&mut store, &get, &answers), ("TypeError 10".into(), Some(ValidationTest::Value)));
    }
}

#[test]
fn tests_of_validation_have_numbers_and_names() {
    for (number, test) in (1..).zip(ValidationTest::ALL) {
        assert_eq!((test.number(), ValidationTest::from_number(number.into())), (number, Some(*test)));
        assert_eq!(test.to_string(), format!("{test:?}").to_lowercase());
    }
    assert_eq!(ValidationTest::ALL.len(), 8);
    assert_eq!([0, 9, 256, u64::MAX].map(ValidationTest::from_number), [None; 4]);
}

#[test]
fn descriptors_by_themselves() {
    let store = Store::new();
    let data = |value: Value, writable| Property::Data { value, writable, enumerable: false, configurable: false };
    assert_eq!(store.complete(&PropertyDescriptor::default()), Ok(data(Value::Undefined, false)));
    let sealed: PropertyDescriptor = data(70_000.into(), false).into();
    let value = |n: i32| PropertyDescriptor { value: Some(n.into()), ..Default::default() };
    for (extensible, told, current, accepted, property) in [
        (true, 4_464, Some(&sealed), false, Some(data(70_000.into(), false))),
        (true, 70_000, Some(&sealed), true, Some(data(70_000.into(), false))),
        (false, 1, None, false, None),
        (true, 1, None, true, Some(data(1.into(), false))),
    ] {
        let validation = store.validate(extensible, &value(told), current).unwrap();
        assert_eq!((validation.accepted, validation.property), (accepted, property));
    }
    assert_eq!(store.validate(true, &value(1), Some(&value(1))), Err(Refusal::IncompleteCurrent));
    assert_eq!(store.merge(&sealed, &value(4_464)), Ok(data(4_464.into(), false)));
    let accessor = PropertyDescriptor { get: Some(Value::Undefined), ..Default::default() };
    assert_eq!(store.merge(&sealed, &accessor), Err(Refusal::DifferentKinds));
    let mixed = PropertyDescriptor { get: Some(Value::Undefined), ..sealed };
    assert_eq!(store.complete(&mixed), Err(Refusal::UnusableDescriptor));
    let unmade = PropertyDescriptor { value: Some(ObjectId(0).into()), ..Default::default() };
    assert_eq!(store.complete(&unmade), Err(Refusal::ObjectNeverMade));
    let unknown = PropertyDescriptor { value: Some(StringId(0).into()), ..Default::default() };
    assert_eq!(store.complete(&unknown), Err(Refusal::UnusablePart));
}

fn data(value: i32, writable: bool, enumerable: bool, configurable: bool) -> Property {
    Property::Data { value: value.into(), writable, enumerable, configurable }
}

/// Answers, each from a value or a descriptor.
macro_rules! answers {
    ($($answer:expr),* $(,)?) => { [$(Answer::from($answer)),*] };
}

fn yes() -> Value {
    true.into()
}

fn no() -> Value {
    false.into()
}

/// A store, o0 with data and accessors, of f1 and f2, under indices, strings and symbols, and its keys in their order.
fn exhibit() -> (Store, ObjectId, Vec<PropertyKey>) {
    let mut store = Store::new();
    let o = store.make_object(None).unwrap();
    let (getter, setter) = (store.make_function(None).unwrap(), store.make_function(None).unwrap());
    assert_eq!((getter, setter), (FunctionId(1), FunctionId(2)));
    let [name, visits, ten, seven] = ["name", "visits", "10", "7"].map(|text| PropertyKey::from(store.enter_string(text).unwrap()));
    let symbol = |n| PropertyKey::from(SymbolId(n));
    let accessor = PropertyDescriptor {
        get: Some(getter.into()),
        set: Some(setter.into()),
        enumerable: Some(false),
        configurable: Some(true),
        ..Default::default()
    };
    for (key, descriptor) in [
        (symbol(9), PropertyDescriptor::data(1, true, false, true)),
        (name, PropertyDescriptor::data(2, false, true, true)),
        (visits, PropertyDescriptor::fixed(70_000)),
        (ten, PropertyDescriptor::data(4, true, true, false)),
        (symbol(3), accessor),
        (seven, accessor),
    ] {
        assert_eq!(store.define_own_property(o, key, descriptor, &[]), Ok(true));
    }
    (store, o, vec![seven, ten, name, visits, symbol(9), symbol(3)])
}

fn properties(store: &mut Store, o: ObjectId, keys: &[PropertyKey]) -> Vec<Property> {
    keys.iter().map(|k| store.get_own_property(o, *k, &[]).unwrap().unwrap()).collect()
}

/// Sealing and freezing, with all calls that they make: two, and three and four for each key.
#[test]
fn ordinary_objects_are_sealed_and_frozen() {
    let (mut store, o, keys) = exhibit();
    let accessor = |configurable| Property::Accessor { get: FunctionId(1).into(), set: FunctionId(2).into(), enumerable: false, configurable };
    assert_eq!(
        properties(&mut store, o, &keys),
        [
            accessor(true),
            data(4, true, true, false),
            data(2, false, true, true),
            data(70_000, false, true, false),
            data(1, true, false, true),
            accessor(true)
        ]
    );
    let level = |told: &Report| (told.outcome.clone(), told.answers, told.calls);
    let boolean = |b: bool| Ok(Completion::Value(b.into()));
    let step = |store: &mut Store, text: &str| match notation::parse(text).unwrap().pop().unwrap().call {
        Call::Step { step, answers } => level(&store.step(&step, &answers)),
        call => panic!("{call}"),
    };
    assert_eq!(step(&mut store, "isSealed o0"), (boolean(false), 0, 1));
    assert_eq!(step(&mut store, "isFrozen o0"), (boolean(false), 0, 1));
    assert_eq!(store.prevent_extensions(o, &[]), Ok(true));
    // the first key, an accessor, is configurable
    assert_eq!(step(&mut store, "isSealed o0"), (boolean(false), 0, 3));
    assert_eq!(step(&mut store, "seal o0"), (boolean(true), 0, 2 + 3 * 6));
    let sealed = [
        accessor(false),
        data(4, true, true, false),
        data(2, false, true, false),
        data(70_000, false, true, false),
        data(1, true, false, false),
        accessor(false),
    ];
    assert_eq!(properties(&mut store, o, &keys), sealed);
    assert_eq!(step(&mut store, "isSealed o0"), (boolean(true), 0, 2 + 6));
    // the second key, data, is writable
    assert_eq!(step(&mut store, "isFrozen o0"), (boolean(false), 0, 2 + 2));
    assert_eq!(step(&mut store, "freeze o0"), (boolean(true), 0, 2 + 4 * 6));
    let frozen = [
        accessor(false),
        data(4, false, true, false),
        data(2, false, true, false),
        data(70_000, false, true, false),
        data(1, false, false, false),
        accessor(false),
    ];
    assert_eq!(properties(&mut store, o, &keys), frozen);
    assert_eq!(step(&mut store, "isSealed o0"), (boolean(true), 0, 2 + 6));
    assert_eq!(step(&mut store, "isFrozen o0"), (boolean(true), 0, 2 + 6));
    let before = store.clone();
    assert_eq!((store.freeze(o, &[]), store.seal(o, &[])), (Ok(true), Ok(true)));
    assert_eq!(store, before);
    assert_eq!(store.own_property_keys(o, &[]), Ok(keys.clone()));
    // what is frozen at once is what is sealed and then frozen
    let (mut at_once, ..) = exhibit();
    assert_eq!(at_once.freeze(o, &[]), Ok(true));
    assert_eq!(at_once, before);
}

#[test]
fn empty_objects_are_sealed_and_frozen_when_they_are_not_extensible() {
    let mut store = Store::new();
    let [a, b, c] = [(); 3].map(|()| store.make_object(None).unwrap());
    for o in [a, b, c] {
        assert_eq!((store.is_sealed(o, &[]), store.is_frozen(o, &[])), (Ok(false), Ok(false)));
    }
    assert_eq!((store.prevent_extensions(a, &[]), store.seal(b, &[]), store.freeze(c, &[])), (Ok(true), Ok(true), Ok(true)));
    for o in [a, b, c] {
        assert_eq!((store.is_sealed(o, &[]), store.is_frozen(o, &[]), store.is_extensible(o, &[])), (Ok(true), Ok(true), Ok(false)));
    }
}

/// Proxies before proxies: what forwards, and a handler whose answers are all true.
#[test]
fn proxies_are_sealed_and_frozen() {
    let (mut store, o, keys) = exhibit();
    let mut p = o;
    for _ in 0..3 {
        p = store.make_proxy(p, Traps::NONE).unwrap();
    }
    let report = store.step(&Step::SetIntegrityLevel { object: p, level: IntegrityLevel::Frozen }, &[]);
    assert_eq!((report.outcome, report.answers, report.calls), (Ok(Completion::Value(yes())), 0, 4 + 4 + 6 * (4 + 6)));
    assert_eq!((store.is_frozen(o, &[]), store.is_frozen(p, &[]), store.is_sealed(p, &[])), (Ok(true), Ok(true), Ok(true)));

    // a handler with every trap, over what is frozen: it may only say so
    let handled = store.make_proxy(o, Traps::ALL).unwrap();
    let frozen = properties(&mut store, o, &keys);
    let listed = || Answer::keys(keys.iter().copied());
    let told = || frozen.iter().map(|p| Answer::Descriptor((*p).into()));
    let mut sheet = vec![Answer::from(yes()), listed()];
    sheet.extend(told().flat_map(|d| [d, yes().into()]));
    let report = store.step(&Step::SetIntegrityLevel { object: handled, level: IntegrityLevel::Frozen }, &sheet);
    assert_eq!((report.outcome, report.answers, report.calls), (Ok(Completion::Value(yes())), 14, 2 + (3 + 6) + 6 * (3 + 3)));
    let mut sheet = vec![Answer::from(no()), listed()];
    sheet.extend(told());
    let report = store.step(&Step::TestIntegrityLevel { object: handled, level: IntegrityLevel::Frozen }, &sheet);
    assert_eq!((report.outcome, report.answers, report.calls), (Ok(Completion::Value(yes())), 8, 2 + (3 + 6) + 6 * 3));
    // one that says otherwise of a property
    sheet[3] = Answer::Descriptor(PropertyDescriptor { configurable: Some(true), ..frozen[1].into() });
    assert_eq!(store.is_frozen(handled, &sheet), Err(Refusal::UnreadAnswers.into()));
    assert_eq!(store.is_frozen(handled, &sheet[..4]), Err(Failure::TypeError(Message::UnexpectedProperty)));
    // the order of the keys is the handler's
    let mut reversed = vec![Answer::from(no()), Answer::keys(keys.iter().rev().copied())];
    reversed.extend(told().rev());
    assert_eq!(store.is_sealed(handled, &reversed), Ok(true));
    assert_eq!(store.is_sealed(handled, &[Answer::from(yes())]), Err(Failure::TypeError(Message::UnexpectedExtensible)));
    assert_eq!(store.is_sealed(handled, &answers![no(), Value::Null]), Err(Failure::TypeError(Message::KeysNotObject)));
}

/// How a property is frozen is decided by what its handler tells of it, which may be otherwise while it is configurable.
#[test]
fn a_handler_may_tell_a_configurable_property_otherwise() {
    let mut store = Store::new();
    let (o, f) = (store.make_object(None).unwrap(), store.make_function(None).unwrap());
    let (a, b) = (SymbolId(0), SymbolId(1));
    let getter = PropertyDescriptor { get: Some(f.into()), configurable: Some(true), ..Default::default() };
    assert_eq!(store.define_own_property(o, a, getter, &[]), Ok(true));
    assert_eq!(store.set(o, b, 5, o, &[]), Ok(true));
    let p = store.make_proxy(o, Traps::GET_OWN_PROPERTY_DESCRIPTOR).unwrap();
    // the accessor is told as data, and so becomes undefined; the data is told as an accessor, and so stays writable
    let told = answers![PropertyDescriptor::data(1, true, false, true), PropertyDescriptor { enumerable: Some(true), ..getter }];
    assert_eq!(store.freeze(p, &told), Ok(true));
    let undefined = Property::Data { value: Value::Undefined, writable: false, enumerable: false, configurable: false };
    assert_eq!(properties(&mut store, o, &[a.into(), b.into()]), [undefined, data(5, true, true, false)]);
    assert_eq!((store.is_sealed(o, &[]), store.is_frozen(o, &[])), (Ok(true), Ok(false)));
}

#[test]
fn what_cannot_be_made_non_extensible_is_not_sealed() {
    let (mut store, o, _) = exhibit();
    let p = store.make_proxy(o, Traps::PREVENT_EXTENSIONS | Traps::OWN_KEYS | Traps::DEFINE_PROPERTY).unwrap();
    let before = store.clone();
    for level in [IntegrityLevel::Sealed, IntegrityLevel::Frozen] {
        let step = Step::SetIntegrityLevel { object: p, level };
        let report = store.step(&step, &answers![no(), yes()]);
        assert_eq!((report.outcome, report.answers, report.calls), (Err(Refusal::UnreadAnswers.into()), 0, 0));
        let report = store.step(&step, &answers![no()]);
        assert_eq!((report.outcome, report.answers, report.calls), (Ok(Completion::Value(no())), 1, 1));
        let report = store.step(&step, &answers![yes()]);
        assert_eq!((report.outcome, report.answers, report.calls), (Err(Failure::TypeError(Message::StillExtensible)), 1, 2));
        let report = store.step(&step, &[Answer::Throw(5.into())]);
        assert_eq!((report.outcome, report.answers, report.calls), (Err(Failure::Thrown(5.into())), 1, 1));
    }
    store.revoke(p).unwrap();
    let revoked = store.clone();
    for told in [store.freeze(p, &[]), store.seal(p, &[]), store.is_frozen(p, &[]), store.is_sealed(p, &[])] {
        assert_eq!(told, Err(Failure::TypeError(Message::RevokedProxy)));
    }
    assert_eq!(store, revoked);
    assert_ne!(store, before);
}

/// The defineProperty trap answers true for the first keys, of which nothing is left to seal, and false for the next: no later key is tried, and
/// the object stays non-extensible.
#[test]
fn a_definition_that_is_rejected_is_message_32() {
    for level in [IntegrityLevel::Sealed, IntegrityLevel::Frozen] {
        let mut store = Store::new();
        let o = store.make_object(None).unwrap();
        let keys = [0, 1, 2].map(SymbolId);
        for (key, descriptor) in keys.into_iter().zip([
            PropertyDescriptor::fixed(70_000),
            PropertyDescriptor::data(1, true, true, true),
            PropertyDescriptor::data(2, true, true, true),
        ]) {
            assert_eq!(store.define_own_property(o, key, descriptor, &[]), Ok(true));
        }
        let inner = store.make_proxy(o, Traps::DEFINE_PROPERTY).unwrap();
        let p = store.make_proxy(inner, Traps::NONE).unwrap();
        let before = store.clone();
        let step = Step::SetIntegrityLevel { object: p, level };
        // an answer more, and all is as it was
        assert_eq!(store.step(&step, &answers![yes(), no(), yes()]).outcome, Err(Refusal::UnreadAnswers.into()));
        assert_eq!(store, before);
        let report = store.step(&step, &answers![yes(), no()]);
        let reads = if level == IntegrityLevel::Frozen { 2 * 3 } else { 0 };
        assert_eq!((report.outcome, report.answers), (Err(Failure::TypeError(Message::DefinitionRejected)), 2));
        assert_eq!(report.calls, 3 + 3 + reads + (2 + 2) + 2);
        let mut expected = before.clone();
        assert_eq!(expected.prevent_extensions(o, &[]), Ok(true));
        assert_ne!(store, before);
        assert_eq!(store, expected);
        // the same with true over a property that is configurable
        let report = store.step(&step, &answers![yes(), yes()]);
        assert_eq!((report.outcome, report.answers), (Err(Failure::TypeError(Message::DefinedUnexpectedConfigurable)), 2));
        assert_eq!(store, expected);
    }
}

/// The first key is frozen before its handler throws at the second, or answers what it may not: that stays, and the rest is as it was.
#[test]
fn what_was_frozen_before_a_throw_or_a_type_error_stays() {
    let whole = |n| PropertyDescriptor::data(n, true, true, true);
    for (second, failure) in [
        (Answer::Throw(4_464.into()), Failure::Thrown(4_464.into())),
        (Value::Undefined.into(), Failure::TypeError(Message::HiddenOfNonExtensible)),
        (Value::Null.into(), Failure::TypeError(Message::DescriptorNotObjectOrUndefined)),
        (PropertyDescriptor { configurable: Some(false), ..whole(2) }.into(), Failure::TypeError(Message::ReportedNonConfigurable)),
    ] {
        let mut store = Store::new();
        let o = store.make_object(None).unwrap();
        let keys = [0, 1, 2].map(|n| PropertyKey::from(SymbolId(n)));
        for (key, n) in keys.into_iter().zip(1..) {
            assert_eq!(store.define_own_property(o, key, whole(n), &[]), Ok(true));
        }
        let inner = store.make_proxy(o, Traps::GET_OWN_PROPERTY_DESCRIPTOR).unwrap();
        let p = store.make_proxy(inner, Traps::NONE).unwrap();
        let mut expected = store.clone();
        let step = Step::SetIntegrityLevel { object: p, level: IntegrityLevel::Frozen };
        // an answer more, and nothing stays
        let report = store.step(&step, &[whole(1).into(), second.clone(), whole(3).into()]);
        assert_eq!(report.outcome, Err(Refusal::UnreadAnswers.into()));
        assert_eq!(store, expected);
        let report = store.step(&step, &[whole(1).into(), second]);
        assert_eq!((report.outcome, report.answers), (Err(failure), 2));
        assert_eq!(properties(&mut store, o, &keys), [data(1, false, true, false), data(2, true, true, true), data(3, true, true, true)]);
        assert_eq!(store.is_extensible(o, &[]), Ok(false));
        assert_eq!(expected.prevent_extensions(o, &[]), Ok(true));
        assert_eq!(expected.define_own_property(o, keys[0], PropertyDescriptor::data(1, false, true, false), &[]), Ok(true));
        assert_eq!(store, expected);
        // what is tested changes nothing, however it ends
        let told = store.is_frozen(p, &answers![PropertyDescriptor::data(1, false, true, false), Value::Null]);
        assert_eq!(told, Err(Failure::TypeError(Message::DescriptorNotObjectOrUndefined)));
        assert_eq!(store, expected);
    }
}

/// The keys are listed after extensions are prevented: what an extensible object could have beside its own is then one too many.
#[test]
fn each_method_runs_over_the_store_that_the_one_before_left() {
    let mut store = Store::new();
    let o = store.make_object(None).unwrap();
    let p = store.make_proxy(o, Traps::OWN_KEYS).unwrap();
    let listed = [Answer::keys([SymbolId(0).into()])];
    assert_eq!(store.own_property_keys(p, &listed), Ok(vec![SymbolId(0).into()]));
    assert_eq!(store.seal(p, &listed), Err(Failure::TypeError(Message::UnexpectedKey)));
    assert_eq!(store.is_extensible(o, &[]), Ok(false));
}

/// Refusals 8 and 9 in the midst bring back the store from before, word for word.
#[test]
fn a_refusal_brings_back_the_store() {
    let (mut store, o, keys) = exhibit();
    let first = PropertyDescriptor::from(properties(&mut store, o, &keys[..1])[0]);
    let p = store.make_proxy(o, Traps::GET_OWN_PROPERTY_DESCRIPTOR).unwrap();
    let before = store.clone();
    for (answers, refusal) in [
        (vec![], Refusal::SheetSpent),
        (vec![Answer::from(first)], Refusal::SheetSpent),
        (vec![Answer::from(first), Answer::keys([])], Refusal::UnreadableAnswer),
        (vec![Answer::from(first), Value::from(o).into()], Refusal::UnreadableAnswer),
        (vec![Answer::from(first), Value::from(ObjectId(9)).into()], Refusal::ObjectNeverMade),
    ] {
        let report = store.step(&Step::SetIntegrityLevel { object: p, level: IntegrityLevel::Frozen }, &answers);
        assert_eq!((report.outcome, report.answers, report.calls), (Err(refusal.into()), 0, 0));
        assert_eq!(store.words(), before.words());
        assert_eq!(store, before);
    }
    // the first turn does change it, where the second does not refuse
    assert_eq!(store.freeze(p, &[first.into(), Answer::Throw(Value::Null)]), Err(Failure::Thrown(Value::Null)));
    assert_ne!(store, before);
}

/// Levels are 0 and 1 as Integer32, and 15 and what is above 19 are no codes; code 17 has no level.
#[test]
fn steps_of_another_level_or_code_are_refused() {
    let (mut store, o, _) = exhibit();
    let before = store.clone();
    for code in [18, 19] {
        for (value, number) in [
            (Value::from(2), 1),
            ((-1).into(), 1),
            (i32::MIN.into(), 1),
            (256.into(), 1),
            (Value::Undefined, 3),
            (Value::Null, 3),
            (no(), 3),
            (1.0.into(), 3),
            (StringId(0).into(), 3),
            (o.into(), 3),
            (ObjectId(7).into(), 2),
            (FunctionId(1).into(), 3),
            (FunctionId(7).into(), 2),
            (ObjectId(1).into(), 3),
        ] {
            let mut bytes = Step::TestIntegrityLevel { object: o, level: IntegrityLevel::Frozen }.to_bytes();
            bytes[0] = code;
            bytes[11..20].copy_from_slice(&value.to_bytes());
            let report = store.step_bytes(&bytes, &[0], &mut []);
            assert_eq!(report.outcome, Err(Refusal::from_number(number).unwrap().into()), "{code} {value}");
        }
        for at in [2, 20, 29, 57] {
            let mut bytes = Step::TestIntegrityLevel { object: o, level: IntegrityLevel::Frozen }.to_bytes();
            (bytes[0], bytes[at]) = (code, 1);
            assert_eq!(store.step_bytes(&bytes, &[0], &mut []).outcome, Err(Refusal::MalformedRecord.into()), "{code} {at}");
        }
    }
    for code in [0, 15, 17, 20, 32, 255] {
        let mut bytes = Step::TestIntegrityLevel { object: o, level: IntegrityLevel::Frozen }.to_bytes();
        bytes[0] = code;
        assert_eq!(store.step_bytes(&bytes, &[0], &mut []).outcome, Err(Refusal::MalformedRecord.into()), "{code}");
    }
    let unmade = Step::SetIntegrityLevel { object: ObjectId(9), level: IntegrityLevel::Frozen };
    assert_eq!(store.step(&unmade, &[]).outcome, Err(Refusal::ObjectNeverMade.into()));
    assert_eq!(store, before);
    for level in IntegrityLevel::ALL {
        assert_eq!(IntegrityLevel::from_number(level.number().into()), Some(*level));
    }
    assert_eq!((IntegrityLevel::from_number(2), IntegrityLevel::from_number(u64::MAX)), (None, None));
    // no output is used
    let freeze = Step::SetIntegrityLevel { object: o, level: IntegrityLevel::Frozen }.to_bytes();
    assert_eq!(store.step_bytes(&freeze, &[0], &mut []).outcome, Ok(Completion::Value(yes())));
}

fn told(report: &Report) -> (Result<Completion, Failure>, u32, u32) {
    (report.outcome.clone(), report.answers, report.calls)
}

/// A refusal, which changes nothing.
#[track_caller]
fn is_refused(store: &mut Store, step: &Step, answers: &[Answer], refusal: Refusal) {
    let before = store.clone();
    let report = store.step(step, answers);
    assert_eq!(told(&report), (Err(refusal.into()), 0, 0), "{step}");
    assert_eq!(*store, before, "{step}");
}

/// Objects and functions have one row of numbers, and a function is made without calls.
#[test]
fn functions_are_numbered_among_the_objects() {
    let mut store = Store::new();
    let made = |n: u8| (Ok(Completion::Value(FunctionId(n).into())), 0, 0);
    assert_eq!(told(&store.step(&Step::MakeFunction { prototype: None }, &[])), made(0));
    assert_eq!(store.make_object(Some(FunctionId(0).into())), Ok(ObjectId(1)));
    assert_eq!(store.make_proxy(ObjectId(1), Traps::ALL), Ok(ObjectId(2)));
    for (n, prototype) in [(3, ObjectId(1).into()), (4, ObjectId(2).into()), (5, FunctionId(0).into()), (6, FunctionId(5).into())] {
        // nothing reads answers
        let step = Step::MakeFunction { prototype: Some(prototype) };
        let report = store.step(&step, &answers![yes(), Value::from(FunctionId(0))]);
        assert_eq!(told(&report), (Err(Refusal::UnreadAnswers.into()), 0, 0));
        assert_eq!(told(&store.step(&step, &[])), made(n));
        assert_eq!(store.get_prototype_of(FunctionId(n), &[]), Ok(Some(prototype)));
    }
    for n in [0, 3, 4, 5, 6] {
        assert_eq!((store.is_extensible(FunctionId(n), &[]), store.own_property_keys(FunctionId(n), &[])), (Ok(true), Ok(vec![])));
    }
    assert_eq!((store.object_count(), store.property_count()), (7, 0));
    // the marks of the functions, after the two counts
    assert_eq!(store.words()[..4], [7, 0, 0b111_1001, 0b111_1111]);
}

/// What is released is as if it had never been made, in every place, until its number is taken again; by what, nothing of the old one says.
#[test]
fn objects_are_released() {
    let mut store = Store::new();
    let (key, fixed) = (SymbolId(0), PropertyDescriptor::fixed(70_000));
    let getter = |f: FunctionId| PropertyDescriptor { get: Some(f.into()), ..PropertyDescriptor::default() };
    let data = |v: Value| PropertyDescriptor { value: Some(v), ..PropertyDescriptor::default() };
    let other = store.make_object(None).unwrap();
    let left = store.make_object(None).unwrap();
    assert_eq!(store.define_own_property(left, key, fixed, &[]), Ok(true));
    assert_eq!(store.freeze(left, &[]), Ok(true));
    let handled = store.make_proxy(other, Traps::ALL).unwrap();
    assert_eq!((store.object_count(), store.property_count()), (3, 1));
    assert_eq!(told(&store.step(&Step::Release { object: left }, &[])), (Ok(Completion::Value(yes())), 0, 0));
    assert_eq!((store.object_count(), store.property_count()), (2, 0));
    assert_eq!(format!("{store:?}"), "Store { objects: 2, properties: 0, strings: 0 }");

    // refusal 2 in every place
    let receiver = Value::Null;
    for step in [
        Step::MakeProxy { target: left, traps: Traps::NONE },
        Step::Revoke { proxy: left },
        Step::GetPrototypeOf { object: left },
        Step::SetPrototypeOf { object: left, prototype: None },
        Step::IsExtensible { object: left },
        Step::PreventExtensions { object: left },
        Step::GetOwnProperty { object: left, key: key.into() },
        Step::DefineOwnProperty { object: left, key: key.into(), descriptor: fixed },
        Step::HasProperty { object: left, key: key.into() },
        Step::Get { object: left, key: key.into(), receiver },
        Step::Set { object: left, key: key.into(), value: 1.into(), receiver },
        Step::Delete { object: left, key: key.into() },
        Step::OwnPropertyKeys { object: left },
        Step::Release { object: left },
        Step::SetIntegrityLevel { object: left, level: IntegrityLevel::Frozen },
        Step::TestIntegrityLevel { object: left, level: IntegrityLevel::Sealed },
    ] {
        is_refused(&mut store, &step, &[], Refusal::ObjectNeverMade);
    }
    let as_function = FunctionId(left.0);
    for (prototype, value) in [(Prototype::from(left), Value::from(left)), (as_function.into(), as_function.into())] {
        let object = other;
        for step in [
            Step::MakeObject { prototype: Some(prototype) },
            Step::MakeFunction { prototype: Some(prototype) },
            Step::SetPrototypeOf { object, prototype: Some(prototype) },
            Step::Get { object, key: key.into(), receiver: value },
            Step::Set { object, key: key.into(), value, receiver },
            Step::Set { object, key: key.into(), value: receiver, receiver: value },
            Step::DefineOwnProperty { object, key: key.into(), descriptor: data(value) },
            Step::DefineOwnProperty { object, key: key.into(), descriptor: getter(as_function) },
        ] {
            is_refused(&mut store, &step, &[], Refusal::ObjectNeverMade);
        }
        for answer in [Answer::Value(value), Answer::Throw(value), Answer::Keys(vec![Value::from(key), value]), Answer::Descriptor(data(value))] {
            is_refused(&mut store, &Step::IsExtensible { object: handled }, &[answer], Refusal::ObjectNeverMade);
        }
        assert_eq!(store.complete(&data(value)), Err(Refusal::ObjectNeverMade));
        assert_eq!(store.validate(true, &data(value), None), Err(Refusal::ObjectNeverMade));
        assert_eq!(store.merge(&fixed, &data(value)), Err(Refusal::ObjectNeverMade));
    }
    assert_eq!((store.page(left), store.page(as_function)), (Err(Refusal::ObjectNeverMade), Err(Refusal::ObjectNeverMade)));
    assert_eq!(store.failed_test(&Step::GetOwnProperty { object: left, key: key.into() }, &[]), None);

    // a function has the number now, extensible and without properties; then a proxy
    let function = store.make_function(Some(handled.into())).unwrap();
    assert_eq!(function.0, left.0);
    assert_eq!((store.is_extensible(function, &[]), store.own_property_keys(function, &[])), (Ok(true), Ok(vec![])));
    assert_eq!(store.define_own_property(function, key, getter(function), &[]), Ok(true));
    is_refused(&mut store, &Step::Release { object: function.into() }, &[], Refusal::StillNamed);
    is_refused(&mut store, &Step::Release { object: handled }, &[], Refusal::StillNamed);
    is_refused(&mut store, &Step::Release { object: other }, &[], Refusal::StillNamed);
    let stuck = store.make_object(None).unwrap();
    assert_eq!(stuck, ObjectId(3));
    store.release(stuck).unwrap();
    assert_eq!(store.make_proxy(other, Traps::NONE), Ok(stuck));
    assert_eq!(store.revoke(stuck), Ok(()));
    assert_eq!(store.release(stuck), Ok(()));
    // unread answers, which are tested before that
    is_refused(&mut store, &Step::Release { object: function.into() }, &answers![yes()], Refusal::StillNamed);
    let free = store.make_object(None).unwrap();
    is_refused(&mut store, &Step::Release { object: free }, &answers![yes()], Refusal::UnreadAnswers);
    is_refused(&mut store, &Step::Release { object: free }, &answers![Value::from(ObjectId(9))], Refusal::ObjectNeverMade);
}

/// A revoked proxy's target may be gone, and another object have its number, a proxy over the revoked one too: no call goes on behind it.
#[test]
fn tests_that_fail_are_told_beside_revoked_proxies() {
    let mut store = Store::new();
    let key = PropertyKey::from(SymbolId(0));
    let target = store.make_object(None).unwrap();
    let revoked = store.make_proxy(target, Traps::NONE).unwrap();
    store.revoke(revoked).unwrap();
    store.release(target).unwrap();
    let over = store.make_proxy(revoked, Traps::NONE).unwrap();
    assert_eq!(over, target);
    for object in [over, revoked] {
        let step = Step::DefineOwnProperty { object, key, descriptor: PropertyDescriptor::fixed(70_000) };
        assert_eq!(store.failed_test(&step, &[]), None);
        assert_eq!(store.step(&step, &[]).outcome, Err(Failure::TypeError(Message::RevokedProxy)));
    }
    // a number that was a proxy's, and is an ordinary object's
    store.release(over).unwrap();
    store.release(revoked).unwrap();
    let (plain, counts) = (store.make_object(None).unwrap(), store.make_object(None).unwrap());
    assert_eq!((plain, counts), (over, revoked));
    assert_eq!(store.define_own_property(counts, key, PropertyDescriptor::fixed(70_000), &[]), Ok(true));
    let step = Step::DefineOwnProperty { object: counts, key, descriptor: PropertyDescriptor::fixed(4_464) };
    assert_eq!(store.failed_test(&step, &[]), Some(ValidationTest::Value));
}

/// Codes 4 to 14, 18 and 19 on a function and on an object, one after the other: the same reports, and functions stay what they are.
#[test]
fn functions_are_operands_as_objects_are() {
    let key = PropertyKey::from(SymbolId(3));
    let steps = |object: ObjectId, receiver: Value, parent: Option<Prototype>| {
        let (value, level) = (70_000.into(), IntegrityLevel::Frozen);
        let getter = PropertyDescriptor { get: Some(FunctionId(0).into()), configurable: Some(true), ..Default::default() };
        vec![
            Step::GetPrototypeOf { object },
            Step::SetPrototypeOf { object, prototype: parent },
            Step::GetPrototypeOf { object },
            Step::IsExtensible { object },
            Step::HasProperty { object, key },
            Step::Get { object, key, receiver },
            Step::Set { object, key, value, receiver },
            Step::GetOwnProperty { object, key },
            Step::Get { object, key, receiver },
            Step::HasProperty { object, key },
            Step::DefineOwnProperty { object, key, descriptor: PropertyDescriptor::data(4_464, true, true, true) },
            Step::Set { object, key, value: 1.into(), receiver },
            Step::DefineOwnProperty { object, key: SymbolId(4).into(), descriptor: getter },
            Step::Get { object, key: SymbolId(4).into(), receiver },
            Step::Set { object, key: SymbolId(4).into(), value, receiver },
            Step::OwnPropertyKeys { object },
            Step::Delete { object, key: SymbolId(4).into() },
            Step::OwnPropertyKeys { object },
            Step::SetIntegrityLevel { object, level: IntegrityLevel::Sealed },
            Step::TestIntegrityLevel { object, level: IntegrityLevel::Sealed },
            Step::TestIntegrityLevel { object, level },
            Step::SetIntegrityLevel { object, level },
            Step::TestIntegrityLevel { object, level },
            Step::GetOwnProperty { object, key },
            Step::Delete { object, key },
            Step::Set { object, key, value, receiver },
            Step::PreventExtensions { object },
            Step::IsExtensible { object },
            Step::SetPrototypeOf { object, prototype: None },
        ]
    };
    for parent in [None, Some(Prototype::Object(ObjectId(1))), Some(Prototype::Function(FunctionId(0)))] {
        let mut store = Store::new();
        let getter = store.make_function(None).unwrap();
        store.make_object(None).unwrap();
        let (o, f) = (store.make_object(None).unwrap(), store.make_function(None).unwrap());
        assert_eq!((getter, o, f), (FunctionId(0), ObjectId(2), FunctionId(3)));
        let codes: HashSet<u8> = steps(o, o.into(), parent).iter().map(Step::code).collect();
        assert_eq!(codes, (4..=14).chain([18, 19]).collect());
        for (on_object, on_function) in steps(o, o.into(), parent).into_iter().zip(steps(f.into(), f.into(), parent)) {
            // the getter alone asks for an answer
            let asks = matches!(on_object, Step::Get { key, .. } if key == SymbolId(4).into());
            let one = answers![Value::from(0.5)].to_vec();
            let (answers, other) = if asks { (one, vec![]) } else { (vec![], one) };
            let refused = Err(if asks { Refusal::SheetSpent } else { Refusal::UnreadAnswers }.into());
            assert_eq!((store.step(&on_object, &other).outcome, store.step(&on_function, &other).outcome), (refused.clone(), refused));
            let expected = store.step(&on_object, &answers);
            assert!(expected.outcome.is_ok(), "{on_object}: {expected}");
            assert_eq!(store.step(&on_function, &answers), expected, "{on_function}");
        }
    }
}

/// What is read through a prototype that is a function, and written with a function as receiver.
#[test]
fn functions_are_prototypes_and_receivers() {
    let mut store = Store::new();
    let key = SymbolId(0);
    let f = store.make_function(None).unwrap();
    let o = store.make_object(Some(f.into())).unwrap();
    let g = store.make_function(Some(o.into())).unwrap();
    assert_eq!(store.define_own_property(f, key, PropertyDescriptor::fixed(70_000), &[]), Ok(true));
    let data = Ok(Completion::Value(70_000.into()));
    let get = |object: ObjectId, receiver: Value| Step::Get { object, key: key.into(), receiver };
    // itself and its own property, and for each object further up three calls more
    assert_eq!(told(&store.step(&get(f.into(), f.into()), &[])), (data.clone(), 0, 2));
    assert_eq!(told(&store.step(&get(o, o.into()), &[])), (data.clone(), 0, 5));
    assert_eq!(told(&store.step(&get(g.into(), o.into()), &[])), (data.clone(), 0, 8));
    assert_eq!(store.has_property(g, key, &[]), Ok(true));
    // what f has fixed cannot be set on what inherits from it
    assert_eq!(store.set(g, key, 1, g, &[]), Ok(false));
    // the receiver, a function, gets the property
    let set = Step::Set { object: o, key: SymbolId(1).into(), value: 1.into(), receiver: g.into() };
    assert_eq!(told(&store.step(&set, &[])), (Ok(Completion::Value(yes())), 0, 10));
    assert_eq!(store.own_property_keys(g, &[]), Ok(vec![SymbolId(1).into()]));
    assert_eq!(store.own_property_keys(o, &[]), Ok(vec![]));
    assert_eq!(store.get_own_property(g, SymbolId(1), &[]), Ok(Some(self::data(1, true, true, true))));
    // one that is not extensible does not
    assert_eq!(store.prevent_extensions(g, &[]), Ok(true));
    assert_eq!(store.set(o, SymbolId(2), 1, g, &[]), Ok(false));
    assert_eq!(store.set(o, SymbolId(1), 2, g, &[]), Ok(true));
    assert_eq!(store.get(g, SymbolId(1), Value::Null, &[]), Ok(2.into()));
    // no cycle through a function either
    assert_eq!(store.set_prototype_of(f, Some(g.into()), &[]), Ok(false));
    assert_eq!(store.set_prototype_of(f, Some(f.into()), &[]), Ok(false));
    assert_eq!(store.set_prototype_of(f, None, &[]), Ok(true));
    assert_eq!(store.set_prototype_of(o, Some(f.into()), &[]), Ok(true));
    assert_eq!(store.set_prototype_of(g, Some(f.into()), &[]), Ok(false));
    assert_eq!(store.get_prototype_of(g, &[]), Ok(Some(o.into())));
}

/// A getter and a setter are called: each takes an answer and changes nothing, whatever properties it has.
#[test]
fn functions_are_called() {
    let mut store = Store::new();
    let (o, f) = (store.make_object(None).unwrap(), store.make_function(None).unwrap());
    let (a, b) = (SymbolId(0), SymbolId(1));
    let accessor = PropertyDescriptor { get: Some(f.into()), set: Some(f.into()), ..Default::default() };
    assert_eq!(store.define_own_property(o, a, accessor, &[]), Ok(true));
    assert_eq!(store.define_own_property(f, b, PropertyDescriptor { configurable: Some(true), ..accessor }, &[]), Ok(true));
    let before = store.clone();
    for (object, key) in [(o, a), (ObjectId::from(f), b)] {
        let get = Step::Get { object, key: key.into(), receiver: f.into() };
        let set = Step::Set { object, key: key.into(), value: 5.into(), receiver: f.into() };
        assert_eq!(told(&store.step(&get, &answers![Value::from(f)])), (Ok(Completion::Value(f.into())), 1, 2));
        assert_eq!(told(&store.step(&set, &answers![Value::from(f)])), (Ok(Completion::Value(yes())), 1, 2));
        for step in [get, set] {
            assert_eq!(told(&store.step(&step, &[Answer::Throw(f.into())])), (Err(Failure::Thrown(f.into())), 1, 2));
            is_refused(&mut store, &step, &[], Refusal::SheetSpent);
        }
    }
    assert_eq!(store, before);
}

/// What a handler answers: a function is a prototype, is true, and is neither a descriptor nor a list of keys.
#[test]
fn handlers_answer_functions() {
    let mut store = Store::new();
    let (o, f, g) = (store.make_object(None).unwrap(), store.make_function(None).unwrap(), store.make_function(None).unwrap());
    let p = store.make_proxy(o, Traps::ALL).unwrap();
    let answer = |f: FunctionId| answers![Value::from(f)];
    let get = Step::GetPrototypeOf { object: p };
    // over an extensible target any prototype will do; over another one the target's alone
    assert_eq!(told(&store.step(&get, &answer(f))), (Ok(Completion::Value(f.into())), 1, 2));
    assert_eq!(store.set_prototype_of(o, Some(f.into()), &[]), Ok(true));
    assert_eq!(store.prevent_extensions(o, &[]), Ok(true));
    assert_eq!(told(&store.step(&get, &answer(f))), (Ok(Completion::Value(f.into())), 1, 3));
    for (told, message) in [
        (Value::from(g), Message::UnexpectedPrototype),
        (Value::from(o), Message::UnexpectedPrototype),
        (Value::Null, Message::UnexpectedPrototype),
        (Value::Undefined, Message::PrototypeNotObjectOrNull),
        (Value::from(1), Message::PrototypeNotObjectOrNull),
    ] {
        assert_eq!(store.get_prototype_of(p, &answers![told]), Err(Failure::TypeError(message)), "{told}");
    }
    // the setPrototypeOf trap answers true, by a function
    assert_eq!(store.set_prototype_of(p, Some(f.into()), &answer(g)), Ok(true));
    assert_eq!(store.set_prototype_of(p, Some(g.into()), &answer(g)), Err(Failure::TypeError(Message::PrototypeNotSet)));
    // the other traps: a function is true
    assert_eq!(store.is_extensible(p, &answer(f)), Err(Failure::TypeError(Message::UnexpectedExtensible)));
    assert_eq!(store.prevent_extensions(p, &answer(f)), Ok(true));
    let (key, object) = (PropertyKey::from(SymbolId(0)), p);
    assert_eq!(store.has_property(p, key, &answer(f)), Ok(true));
    assert_eq!(store.delete(p, key, &answer(f)), Ok(true));
    assert_eq!(store.set(p, key, 1, f, &answer(f)), Ok(true));
    assert_eq!(store.get(p, key, f, &answer(f)), Ok(f.into()));
    // a descriptor and keys are asked for
    for value in [Value::from(o), f.into()] {
        is_refused(&mut store, &Step::GetOwnProperty { object, key }, &answers![value], Refusal::UnreadableAnswer);
        is_refused(&mut store, &Step::OwnPropertyKeys { object }, &answers![value], Refusal::UnreadableAnswer);
    }
    let listed = [Answer::Keys(vec![f.into()])];
    assert_eq!(store.own_property_keys(p, &listed), Err(Failure::TypeError(Message::NotKey)));
    // get and set of an answered descriptor: what is no function cannot be called
    let accessor = |get: Value, set: Value| Answer::from(PropertyDescriptor { get: Some(get), set: Some(set), ..Default::default() });
    for (get, set, message) in [
        (Value::from(o), f.into(), Message::GetterNotCallable),
        (f.into(), o.into(), Message::SetterNotCallable),
        (f.into(), f.into(), Message::UnexpectedProperty),
    ] {
        assert_eq!(store.get_own_property(p, key, &[accessor(get, set)]), Err(Failure::TypeError(message)));
    }
}

/// Kinds 7 and 8 in each part of a step and of a sheet: a number that was never made is refusal 2, one of the other kind refusal 3.
#[test]
fn a_function_by_the_wrong_name_is_refused() {
    let mut store = Store::new();
    let (o, f) = (store.make_object(None).unwrap(), store.make_function(None).unwrap());
    let p = store.make_proxy(o, Traps::ALL).unwrap();
    let key = PropertyKey::from(SymbolId(0));
    let wrong: Vec<(Value, Refusal)> = vec![
        (ObjectId(3).into(), Refusal::ObjectNeverMade),
        (FunctionId(3).into(), Refusal::ObjectNeverMade),
        (FunctionId(255).into(), Refusal::ObjectNeverMade),
        (FunctionId(o.0).into(), Refusal::UnusablePart),
        (FunctionId(p.0).into(), Refusal::UnusablePart),
        (ObjectId(f.0).into(), Refusal::UnusablePart),
    ];
    for (value, refusal) in wrong {
        let prototype = Some(match value {
            Value::Object(o) => o.into(),
            Value::Function(f) => f.into(),
            _ => unreachable!(),
        });
        for step in [
            Step::MakeObject { prototype },
            Step::MakeFunction { prototype },
            Step::SetPrototypeOf { object: o, prototype },
            Step::SetPrototypeOf { object: f.into(), prototype },
            Step::Get { object: o, key, receiver: value },
            Step::Set { object: o, key, value: 1.into(), receiver: value },
            Step::Set { object: o, key, value, receiver: o.into() },
        ] {
            is_refused(&mut store, &step, &[], refusal);
        }
        let fields = [
            PropertyDescriptor { value: Some(value), ..Default::default() },
            PropertyDescriptor { get: Some(value), ..Default::default() },
            PropertyDescriptor { set: Some(value), ..Default::default() },
        ];
        for descriptor in fields {
            is_refused(&mut store, &Step::DefineOwnProperty { object: o, key, descriptor }, &[], refusal);
            assert_eq!(store.complete(&descriptor), Err(refusal));
            assert_eq!(store.validate(true, &descriptor, None), Err(refusal));
            assert_eq!(store.validate(true, &PropertyDescriptor::default(), Some(&descriptor)), Err(refusal));
            assert_eq!(store.merge(&descriptor, &PropertyDescriptor::default()), Err(refusal));
            assert_eq!(store.merge(&PropertyDescriptor::fixed(1), &descriptor), Err(refusal));
        }
        for answer in fields.map(Answer::from).into_iter().chain([Answer::Value(value), Answer::Throw(value), Answer::Keys(vec![key.into(), value])])
        {
            // also of those that are left over, and of a step that takes none
            is_refused(&mut store, &Step::IsExtensible { object: p }, &[Answer::from(yes()), answer.clone()], refusal);
            is_refused(&mut store, &Step::MakeFunction { prototype: None }, &[answer], refusal);
        }
    }
}

/// The order of the tests: each number over the whole step before the next, and then over the sheet.
#[test]
fn refusals_of_functions_come_in_their_places() {
    let mut store = Store::new();
    let (o, f) = (store.make_object(None).unwrap(), store.make_function(None).unwrap());
    let key = PropertyKey::from(SymbolId(0));
    let get = |v: Value| PropertyDescriptor { get: Some(v), ..Default::default() };
    let define = |descriptor| Step::DefineOwnProperty { object: o, key, descriptor };
    let unmade = Value::from(FunctionId(9));
    // 2 before 3, of two values of one step
    let both = Step::Set { object: o, key, value: FunctionId(o.0).into(), receiver: unmade };
    is_refused(&mut store, &both, &[], Refusal::ObjectNeverMade);
    let both = Step::Set { object: o, key, value: unmade, receiver: ObjectId(f.0).into() };
    is_refused(&mut store, &both, &[], Refusal::ObjectNeverMade);
    // 3 before 4: kind 8 for what is no function, where kind 7 for it is refusal 4
    is_refused(&mut store, &define(get(FunctionId(o.0).into())), &[], Refusal::UnusablePart);
    is_refused(&mut store, &define(get(ObjectId(f.0).into())), &[], Refusal::UnusablePart);
    is_refused(&mut store, &define(get(o.into())), &[], Refusal::UnusableDescriptor);
    let mixed = PropertyDescriptor { value: Some(FunctionId(o.0).into()), ..get(f.into()) };
    is_refused(&mut store, &define(mixed), &[], Refusal::UnusablePart);
    // the step before the sheet
    is_refused(&mut store, &define(get(FunctionId(o.0).into())), &answers![unmade], Refusal::UnusablePart);
    is_refused(&mut store, &Step::IsExtensible { object: o }, &answers![Value::from(ObjectId(f.0)), unmade], Refusal::ObjectNeverMade);
    is_refused(&mut store, &Step::IsExtensible { object: o }, &answers![Value::from(ObjectId(f.0))], Refusal::UnusablePart);
    // numbers of more than one byte, and the object of code 16, by their bytes
    let bytes = Step::MakeFunction { prototype: Some(f.into()) }.to_bytes();
    for (at, byte, refusal) in
        [(1, 1, 1), (2, 1, 1), (20, 1, 1), (29, 1, 1), (57, 1, 1), (13, 1, 2), (19, 128, 2), (11, 7, 3), (11, 9, 1), (11, 5, 3), (11, 6, 3)]
    {
        let mut changed = bytes;
        changed[at] = byte;
        let before = store.clone();
        let report = store.step_bytes(&changed, &[0], &mut []);
        assert_eq!(told(&report), (Err(Refusal::from_number(refusal).unwrap().into()), 0, 0), "{at} {byte}");
        assert_eq!(store, before);
    }
    for value in [Value::Undefined, true.into(), 1.into(), 1.0.into(), SymbolId(0).into()] {
        let mut changed = bytes;
        changed[11..20].copy_from_slice(&value.to_bytes());
        assert_eq!(store.step_bytes(&changed, &[0], &mut []).outcome, Err(Refusal::UnusablePart.into()), "{value}");
    }
    assert_eq!(store.step_bytes(&bytes, &[0], &mut []).outcome, Ok(Completion::Value(FunctionId(2).into())));
}

/// A function has no handler: no proxy stands before one, and it is not revoked.
#[test]
fn no_proxy_stands_before_a_function() {
    let mut store = Store::new();
    let (f, o) = (store.make_function(None).unwrap(), store.make_object(None).unwrap());
    for traps in [Traps::NONE, Traps::GET, Traps::ALL] {
        is_refused(&mut store, &Step::MakeProxy { target: f.into(), traps }, &[], Refusal::UnusablePart);
        assert_eq!(store.make_proxy(f, traps), Err(Refusal::UnusablePart.into()));
    }
    is_refused(&mut store, &Step::Revoke { proxy: f.into() }, &[], Refusal::UnusablePart);
    assert_eq!(store.revoke(f), Err(Refusal::UnusablePart.into()));
    // a number that was never made, and a mask that is none, come before
    is_refused(&mut store, &Step::MakeProxy { target: ObjectId(2), traps: Traps::NONE }, &[], Refusal::ObjectNeverMade);
    let mut bytes = Step::MakeProxy { target: f.into(), traps: Traps::ALL }.to_bytes();
    bytes[13] = 8;
    assert_eq!(store.step_bytes(&bytes, &[0], &mut []).outcome, Err(Refusal::MalformedRecord.into()));
    // what is no function can have a function as its prototype
    let p = store.make_proxy(o, Traps::NONE).unwrap();
    assert_eq!(store.set_prototype_of(p, Some(f.into()), &[]), Ok(true));
    assert_eq!(store.get_prototype_of(p, &[]), Ok(Some(f.into())));
}

#[test]
fn the_store_is_full_at_32_functions_and_objects() {
    let mut store = Store::new();
    for n in 0..32 {
        let made: Prototype = if n % 3 == 0 { store.make_object(None).unwrap().into() } else { store.make_function(None).unwrap().into() };
        assert_eq!(ObjectId::from(made), ObjectId(n));
    }
    let before = store.clone();
    assert_eq!(store.make_function(None), Err(Refusal::StoreFull.into()));
    assert_eq!(store.make_function(Some(FunctionId(31).into())), Err(Refusal::StoreFull.into()));
    assert_eq!(store.make_object(Some(FunctionId(31).into())), Err(Refusal::StoreFull.into()));
    assert_eq!(store.make_proxy(ObjectId(30), Traps::NONE), Err(Refusal::StoreFull.into()));
    // 2 and 3 come before
    assert_eq!(store.make_function(Some(FunctionId(32).into())), Err(Refusal::ObjectNeverMade.into()));
    assert_eq!(store.make_function(Some(FunctionId(30).into())), Err(Refusal::UnusablePart.into()));
    assert_eq!(store.make_proxy(FunctionId(31), Traps::NONE), Err(Refusal::UnusablePart.into()));
    assert_eq!(store, before);
    for n in 0..=255 {
        assert_eq!(store.set(FunctionId(31), SymbolId(n), 1, FunctionId(31), &[]), Ok(true));
    }
    assert_eq!(store.set(ObjectId(0), SymbolId(0), 1, FunctionId(1), &[]), Err(Refusal::StoreFull.into()));
}

/// 2,048 nested calls in a thread with a stack of 1 MB, then one more.
#[test]
fn the_2049th_call_is_refused_within_a_stack_of_1_mb() {
    let work = std::thread::Builder::new().stack_size(1 << 20).spawn(|| {
        let mut store = Store::new();
        let o = store.make_object(None).unwrap();
        let p = store.make_proxy(o, Traps::NONE).unwrap();
        // the prototype chain leads back through the proxy
        assert_eq!(store.set_prototype_of(o, Some(p.into()), &[]), Ok(true));
        let before = store.clone();
        for object in [o, p] {
            assert_eq!(store.get(object, SymbolId(0), object, &[]), Err(Refusal::TooManyCalls.into()));
            assert_eq!(store.has_property(object, SymbolId(0), &[]), Err(Refusal::TooManyCalls.into()));
            assert_eq!(store.set(object, SymbolId(0), 1, object, &[]), Err(Refusal::TooManyCalls.into()));
        }
        assert_eq!(store, before);
    });
    work.unwrap().join().unwrap();
}

const NAMES: &str = "key  ecw value or get       set               \n";

/// Whole pages, written out by hand.
#[test]
fn pages_list_the_own_properties() {
    let mut store = Store::new();
    for (number, text) in (0..).zip(["visits", "10", "name", "2", "4294967295", "01", "4294967294", "last"]) {
        assert_eq!(store.enter_string(text), Ok(StringId(number)));
    }
    let object = store.make_object(None).unwrap();
    let (reader, writer) = (store.make_function(Some(object.into())).unwrap(), store.make_function(None).unwrap());
    let child = store.make_object(Some(object.into())).unwrap();
    for empty in [object, reader.into(), writer.into(), child] {
        assert_eq!(store.page(empty).as_deref(), Ok(NAMES));
    }
    let data = |value: Value, enumerable, configurable, writable| PropertyDescriptor::data(value, writable, enumerable, configurable);
    let accessor = |get: Option<FunctionId>, set: Option<FunctionId>, enumerable: bool, configurable: bool| PropertyDescriptor {
        get: get.map(Value::from),
        set: set.map(Value::from),
        enumerable: Some(enumerable),
        configurable: Some(configurable),
        ..Default::default()
    };
    let properties: [(PropertyKey, PropertyDescriptor); 11] = [
        (SymbolId(12).into(), PropertyDescriptor::default()),
        (StringId(0).into(), PropertyDescriptor::fixed(70_000)),
        (StringId(1).into(), data(true.into(), true, true, true)),
        (StringId(2).into(), accessor(Some(reader), None, false, true)),
        (SymbolId(3).into(), accessor(None, Some(writer), true, false)),
        (StringId(3).into(), data((-0.0).into(), false, false, true)),
        (StringId(7).into(), data(StringId(2).into(), true, false, true)),
        (StringId(4).into(), data(child.into(), true, true, false)),
        (StringId(5).into(), accessor(Some(writer), Some(reader), true, true)),
        (StringId(6).into(), data(Value::Null, false, true, false)),
        (SymbolId(255).into(), data((-2).into(), false, true, true)),
    ];
    for (key, descriptor) in properties {
        assert_eq!(store.define_own_property(object, key, descriptor, &[]), Ok(true));
    }
    let page = [
        NAMES,
        // 2, 10 and 4294967294 are array indices
        "s003 ..w 040000000000000080                   \n",
        "s001 ecw 020100000000000000                   \n",
        "s006 .c. 010000000000000000                   \n",
        // the other strings by creation
        "s000 e.. 037011010000000000                   \n",
        "s002 .c- 080100000000000000 000000000000000000\n",
        "s007 e.w 050200000000000000                   \n",
        "s004 ec. 070300000000000000                   \n",
        "s005 ec- 080200000000000000 080100000000000000\n",
        // symbols by creation
        "y012 ... 000000000000000000                   \n",
        "y003 e.- 000000000000000000 080200000000000000\n",
        "y255 .cw 03feffffff00000000                   \n",
    ];
    let before = store.clone();
    assert_eq!(store.page(object), Ok(page.concat()));
    assert_eq!(store.page(object), Ok(page.concat()));
    assert_eq!(store, before);
    // what is inherited is on no page
    for empty in [ObjectId::from(reader), writer.into(), child] {
        assert_eq!(store.page(empty).as_deref(), Ok(NAMES));
    }

    // what is deleted and comes back is the last of its kind
    assert_eq!(store.delete(object, StringId(2), &[]), Ok(true));
    assert_eq!(store.set(object, StringId(2), SymbolId(0), object, &[]), Ok(true));
    let lines = [&page[..5], &page[6..9], &["s002 ecw 060000000000000000                   \n"], &page[9..]].concat();
    assert_eq!(store.page(object), Ok(lines.concat()));

    // a function's page, by either name
    assert_eq!(store.set(reader, StringId(7), reader, reader, &[]), Ok(true));
    let page = format!("{NAMES}s007 ecw 080100000000000000                   \n");
    assert_eq!((store.page(reader), store.page(ObjectId(1))), (Ok(page.clone()), Ok(page)));
}

/// Each NaN is one, in a page as in a report.
#[test]
fn a_page_has_the_bytes_of_every_value() {
    let mut store = Store::new();
    let object = store.make_object(None).unwrap();
    let function = store.make_function(None).unwrap();
    let string = store.enter_string("").unwrap();
    for (value, digits) in [
        (Value::Undefined, "000000000000000000"),
        (Value::Null, "010000000000000000"),
        (false.into(), "020000000000000000"),
        (4_464.into(), "037011000000000000"),
        (i32::MIN.into(), "030000008000000000"),
        (0.5.into(), "04000000000000e03f"),
        (f64::NAN.into(), "04000000000000f87f"),
        (f64::from_bits(0xfff0_1234_5678_9abc).into(), "04000000000000f87f"),
        (f64::from_bits(0x0123_4567_89ab_cdef).into(), "04efcdab8967452301"),
        (string.into(), "050000000000000000"),
        (SymbolId(171).into(), "06ab00000000000000"),
        (object.into(), "070000000000000000"),
        (function.into(), "080100000000000000"),
    ] {
        assert_eq!(store.set(object, string, value, object, &[]), Ok(true));
        assert_eq!(store.page(object), Ok(format!("{NAMES}s000 ecw {digits}                   \n")));
    }
}

#[test]
fn the_longest_page_has_257_lines() {
    let mut store = Store::new();
    let function = store.make_function(None).unwrap();
    let mut expected = NAMES.to_string();
    for n in 0..=255 {
        assert_eq!(store.define_own_property(function, SymbolId(n), PropertyDescriptor::fixed(n), &[]), Ok(true));
        expected += &format!("y{n:03} e.. 03{n:02x}00000000000000                   \n");
    }
    assert_eq!(expected.len(), demnyaluz::PAGE_BYTES);
    assert_eq!(store.page(function), Ok(expected));
    // as strings, whose creation is not the order of their indices
    let mut store = Store::new();
    let object = store.make_object(None).unwrap();
    for n in (0..=255).rev() {
        let key = store.enter_string(&n.to_string()).unwrap();
        assert_eq!(store.set(object, key, n, object, &[]), Ok(true));
    }
    let line = |n: u8| format!("s{:03} ecw 03{n:02x}00000000000000                   \n", 255 - n);
    assert_eq!(store.page(object), Ok(NAMES.to_string() + &(0..=255).map(line).collect::<String>()));
}

#[test]
fn pages_are_refused() {
    let mut store = Store::new();
    assert_eq!(store.page(ObjectId(0)), Err(Refusal::ObjectNeverMade));
    let object = store.make_object(None).unwrap();
    assert_eq!(store.set(object, SymbolId(0), 1, object, &[]), Ok(true));
    let forwarding = store.make_proxy(object, Traps::NONE).unwrap();
    let handled = store.make_proxy(forwarding, Traps::ALL).unwrap();
    let revoked = store.make_proxy(object, Traps::NONE).unwrap();
    store.revoke(revoked).unwrap();
    let before = store.clone();
    for proxy in [forwarding, handled, revoked] {
        assert_eq!(store.page(proxy), Err(Refusal::UnusablePart));
    }
    for number in [4, 31, 32, 255] {
        assert_eq!(store.page(ObjectId(number)), Err(Refusal::ObjectNeverMade));
        assert_eq!(store.page(FunctionId(number)), Err(Refusal::ObjectNeverMade));
    }
    assert_eq!(store, before);

    // by lent slices any number can be asked for, in any output
    let (words, strings) = (store.words(), vec![0; demnyaluz::STRING_CELLS]);
    let mut output = [b'?'; 95];
    for (number, length, refusal) in [
        (0, 93, Refusal::OutputTooSmall),
        (0, 47, Refusal::OutputTooSmall),
        (0, 0, Refusal::OutputTooSmall),
        (1, 0, Refusal::UnusablePart),
        (3, 95, Refusal::UnusablePart),
        (4, 0, Refusal::ObjectNeverMade),
        (256, 95, Refusal::ObjectNeverMade),
        (1 << 32, 95, Refusal::ObjectNeverMade),
        (u64::MAX, 95, Refusal::ObjectNeverMade),
    ] {
        assert_eq!(lent::page(words, &strings, number, &mut output[..length]), Err(refusal), "{number} {length}");
        assert_eq!(output, [b'?'; 95]);
    }
    assert_eq!(lent::page(words, &strings, 0, &mut output), Ok(94));
    assert_eq!(output.escape_ascii().to_string(), format!("{NAMES}y000 ecw 030100000000000000                   \n?").escape_default().to_string());
}

/// What may not change has the same line on every later page.
#[test]
fn a_frozen_property_has_the_same_line_on_a_later_page() {
    let (mut store, object, keys) = exhibit();
    let proxy = store.make_proxy(object, Traps::ALL).unwrap();
    let page = [
        NAMES,
        "s003 .c- 080100000000000000 080200000000000000\n",
        "s002 e.w 030400000000000000                   \n",
        "s000 ec. 030200000000000000                   \n",
        "s001 e.. 037011010000000000                   \n",
        "y009 .cw 030100000000000000                   \n",
        "y003 .c- 080100000000000000 080200000000000000\n",
    ];
    assert_eq!(store.page(object), Ok(page.concat()));
    assert_eq!(store.freeze(object, &[]), Ok(true));
    let page = page.concat().replace(".c-", "..-").replace("e.w", "e..").replace("ec.", "e..").replace(".cw", "...");
    assert_eq!(store.page(object).as_ref(), Ok(&page));
    for &key in &keys {
        for descriptor in [PropertyDescriptor::data(4_464, true, false, true), PropertyDescriptor::fixed(4_464), fields!(get: Value::Undefined)] {
            assert_eq!(store.define_own_property(object, key, descriptor, &[]), Ok(false));
            let claimed = store.define_own_property(proxy, key, descriptor, &[Answer::Value(true.into())]);
            assert!(matches!(claimed, Err(Failure::TypeError(_))), "{claimed:?}");
            assert_eq!(store.page(object).as_ref(), Ok(&page));
        }
        assert_eq!(store.delete(object, key, &[]), Ok(false));
        let _ = store.set(object, key, 4_464, object, &[]);
        assert_eq!(store.page(object).as_ref(), Ok(&page));
    }
    assert_eq!(store.set(object, SymbolId(200), 4_464, object, &[]), Ok(false));
    assert_eq!(store.page(object), Ok(page));

    // one fixed property of an object that otherwise changes
    let object = store.make_object(None).unwrap();
    let visits = store.enter_string("visits of all days").unwrap();
    let line = format!("s{:03} e.. 037011010000000000                   \n", visits.0);
    assert_eq!(store.define_own_property(object, visits, PropertyDescriptor::fixed(70_000), &[]), Ok(true));
    for n in 0..10 {
        assert_eq!(store.set(object, SymbolId(n), n, object, &[]), Ok(true));
        assert_eq!(store.set(object, visits, 4_464, object, &[]), Ok(false));
        assert_eq!(store.delete(object, visits, &[]), Ok(false));
        assert_eq!(store.page(object).unwrap().get(47..94), Some(&*line));
    }
}

#[test]
fn bytes_of_any_length_are_taken() {
    let mut store = Store::new();
    let refused = Err(Failure::Refused(Refusal::MalformedRecord));
    for size in [0, 1, 57, 59, 1000] {
        let report = store.step_bytes(&vec![1; size], &[0], &mut []);
        assert_eq!((report.outcome, report.answers, report.calls), (refused.clone(), 0, 0));
    }
    let make = Step::MakeObject { prototype: None }.to_bytes();
    assert_eq!(store.step_bytes(&make, &[], &mut []).outcome, refused);
    assert_eq!(store.step_bytes(&make, &[0, 0], &mut []).outcome, refused);
    assert_eq!(store.step_bytes(&make, &[0], &mut []).outcome, Ok(Completion::Value(ObjectId(0).into())));
    store.set(ObjectId(0), SymbolId(0), 1, ObjectId(0), &[]).unwrap();
    let keys = Step::OwnPropertyKeys { object: ObjectId(0) }.to_bytes();
    assert_eq!(store.step_bytes(&keys, &[0], &mut [0; 8]).outcome, Err(Failure::Refused(Refusal::OutputTooSmall)));
    let mut output = [7; 10];
    assert_eq!(store.step_bytes(&keys, &[0], &mut output).outcome, Ok(Completion::Keys(vec![SymbolId(0).into()])));
    assert_eq!(output, [6, 0, 0, 0, 0, 0, 0, 0, 0, 7]);
}

#[test]
fn values_come_from_rusts_own() {
    assert_eq!(Value::from(true), Value::Boolean(true));
    assert_eq!([Value::from(i8::MIN), Value::from(i16::MIN), Value::from(i32::MIN)], [-128, -32_768, i32::MIN].map(Value::Integer32));
    assert_eq!([Value::from(u8::MAX), Value::from(u16::MAX)], [255, 65_535].map(Value::Integer32));
    assert_eq!([Value::from(0.5_f32), Value::from(f64::MAX)], [0.5, f64::MAX].map(Value::Float64));
    assert_eq!(Value::from(StringId(1)), Value::String(StringId(1)));
    assert_eq!(Value::from(SymbolId(2)), Value::Symbol(SymbolId(2)));
    assert_eq!(Value::from(ObjectId(3)), Value::Object(ObjectId(3)));
    assert_eq!(Value::from(FunctionId(4)), Value::Function(FunctionId(4)));
    for (prototype, value) in
        [(Prototype::from(ObjectId(3)), Value::Object(ObjectId(3))), (Prototype::from(FunctionId(3)), Value::Function(FunctionId(3)))]
    {
        assert_eq!((Value::from(prototype), ObjectId::from(prototype), prototype.to_string()), (value, ObjectId(3), value.to_string()));
    }
    assert_eq!(Value::from(PropertyKey::from(StringId(5))), Value::String(StringId(5)));
    assert_eq!(Value::from(PropertyKey::from(SymbolId(6))), Value::Symbol(SymbolId(6)));
    assert_eq!((Value::default(), Traps::default()), (Value::Undefined, Traps::NONE));
    assert_eq!(Answer::from(Value::Null), Answer::Value(Value::Null));
    assert_eq!(Answer::from(PropertyDescriptor::fixed(1)), Answer::Descriptor(PropertyDescriptor::fixed(1)));
}

#[test]
fn a_key_comes_from_a_value_that_is_one() {
    for key in [PropertyKey::from(StringId(0)), SymbolId(255).into()] {
        assert_eq!(PropertyKey::try_from(Value::from(key)), Ok(key));
    }
    for value in [Value::Undefined, Value::Null, false.into(), 7.into(), 0.5.into(), ObjectId(1).into(), FunctionId(2).into()] {
        let error: TryFromValueError = PropertyKey::try_from(value).unwrap_err();
        assert_eq!(error.value(), value);
        assert_eq!(error.to_string(), format!("expected a string or a symbol, found {value}"));
    }
}

/// What is equal is found again in a set, and NaNs of different bits are two.
#[test]
fn values_can_be_hashed() {
    let nans = [f64::NAN.into(), f64::from_bits(0xfff0_0000_0000_0001).into()];
    let values: HashSet<Value> = [0.into(), (-0.0).into(), 0.0.into(), 0.into(), Value::Null, Value::Undefined].into_iter().chain(nans).collect();
    assert_eq!(values.len(), 7);
    assert!(nans.iter().all(|n| values.contains(n)));
    let reports: HashSet<String> = [Store::new(), Store::default()].into_iter().collect::<HashSet<_>>().iter().map(|s| format!("{s:?}")).collect();
    assert_eq!(reports, HashSet::from(["Store { objects: 0, properties: 0, strings: 0 }".to_string()]));
}

#[test]
fn traps_are_a_set() {
    let two = Traps::GET | Traps::OWN_KEYS;
    let mut traps = Traps::NONE;
    traps |= Traps::GET;
    assert_eq!(traps, Traps::GET);
    traps |= two;
    assert_eq!((traps, traps.mask(), traps.is_empty()), (two, 128 + 1024, false));
    assert_eq!((two & Traps::GET, two & Traps::SET, two - Traps::GET), (Traps::GET, Traps::NONE, Traps::OWN_KEYS));
    traps &= Traps::GET | Traps::SET;
    assert_eq!(traps, Traps::GET);
    traps -= Traps::ALL;
    assert_eq!((traps, traps.is_empty()), (Traps::NONE, true));
    assert_eq!((!Traps::NONE, !Traps::ALL, !two | two, !two & two), (Traps::ALL, Traps::NONE, Traps::ALL, Traps::NONE));
    assert!(two.contains(Traps::GET) && two.contains(Traps::NONE) && !two.contains(Traps::GET | Traps::SET));
    let each: Vec<Traps> = (0..16).filter_map(|bit| Traps::from_mask(1 << bit)).collect();
    assert_eq!((each.iter().copied().collect::<Traps>(), each.len()), (Traps::ALL, 11));
    traps.extend(each);
    assert_eq!(traps, Traps::ALL);
    for mask in 0..=u16::MAX {
        assert_eq!(Traps::from_mask(mask).map(Traps::mask), (mask <= 2047).then_some(mask));
    }
    assert_eq!((two.to_string(), Traps::ALL.to_string(), Traps::NONE.to_string()), ("get, ownKeys".into(), "all".into(), "none".into()));
    assert_eq!(two.names().collect::<Vec<_>>(), ["get", "ownKeys"]);
    assert_eq!(Traps::ALL.names().count(), 11);
    assert_eq!(
        (format!("{two:#x}"), format!("{two:X}"), format!("{two:o}"), format!("{two:b}")),
        ("0x480".into(), "480".into(), "2200".into(), "10010000000".into())
    );
}

#[test]
fn what_is_read_can_be_printed() {
    let key = PropertyKey::from(SymbolId(7));
    let text = |v: &dyn std::fmt::Display| v.to_string();
    let fixed = "{value: 70000, writable: false, enumerable: true, configurable: false}";
    let accessor = Property::Accessor { get: FunctionId(1).into(), set: Value::Undefined, enumerable: true, configurable: false };
    let step = Step::Get { object: ObjectId(1), key: StringId(0).into(), receiver: 5.into() };
    for (told, expected) in [
        (text(&ObjectId(31)), "o31"),
        (text(&StringId(0)), "s0"),
        (text(&SymbolId(255)), "y255"),
        (text(&FunctionId(9)), "f9"),
        (text(&key), "y7"),
        (text(&Value::Float64(f64::NEG_INFINITY)), "-Infinity"),
        (text(&PropertyDescriptor::default()), "{}"),
        (text(&PropertyDescriptor::fixed(70_000)), fixed),
        (text(&accessor), "{get: f1, set: undefined, enumerable: true, configurable: false}"),
        (text(&Answer::Descriptor(PropertyDescriptor::fixed(70_000))), fixed),
        (text(&Answer::keys([key, StringId(4).into()])), "[y7, s4]"),
        (text(&Answer::Throw(Value::Null)), "throw null"),
        (text(&step), "get o1 s0 receiver 5"),
        (text(&Call::Step { step, answers: vec![Answer::Value(true.into())] }), "get o1 s0 receiver 5 answers: true"),
        (text(&Step::SetIntegrityLevel { object: ObjectId(1), level: IntegrityLevel::Sealed }), "seal o1"),
        (text(&Step::TestIntegrityLevel { object: ObjectId(1), level: IntegrityLevel::Frozen }), "isFrozen o1"),
        (text(&IntegrityLevel::Sealed), "sealed"),
        (text(&Step::MakeFunction { prototype: None }), "function"),
        (text(&Step::MakeFunction { prototype: Some(FunctionId(1).into()) }), "function f1"),
        (text(&Step::MakeObject { prototype: Some(FunctionId(1).into()) }), "object f1"),
        (text(&Step::Get { object: FunctionId(1).into(), key, receiver: FunctionId(1).into() }), "get o1 y7 receiver f1"),
        (text(&Call::Enter(vec![97])), "string \"a\""),
        (text(&Completion::Absent), "absent"),
        (text(&Completion::Keys(vec![key])), "[y7]"),
        (text(&Failure::Thrown(4_464.into())), "thrown 4464"),
    ] {
        assert_eq!(told, expected);
    }
}

/// Words that no call leaves are no report, and neither are keys that the output does not hold.
#[test]
fn reports_are_read_from_their_words() {
    let told = |words: [u64; 10], output: &[u8]| Report::from_words(&words, output).map(|r| r.to_string());
    let key = Value::from(SymbolId(3)).to_bytes();
    for (words, output, expected) in [
        ([0, 8, 0, 0, 0, 0, 0, 0, 0, 0], &[][..], Some("refused 8: the sheet has no next answer")),
        ([2, 1, 3, 4, 0, 0, 0, 0, 0, 0], &[], Some("TypeError 1: Proxy object has empty handler and target (3 answers, 4 calls)")),
        ([3, 0, 1, 1, 1, 0, 3, 5, 0, 0], &[], Some("thrown 5 (1 answer, 1 call)")),
        ([1, 0, 0, 1, 1, 0, 7, 2, 0, 0], &[], Some("o2 (0 answers, 1 call)")),
        ([1, 0, 0, 0, 1, 0, 8, 2, 0, 0], &[], Some("f2 (0 answers, 0 calls)")),
        ([1, 0, 0, 0, 1, 0, 8, 256, 0, 0], &[], None),
        ([1, 0, 0, 1, 3, 0, 0, 0, 0, 0], &[], Some("absent (0 answers, 1 call)")),
        ([1, 0, 0, 1, 4, 1, 0, 0, 0, 0], &key, Some("[y3] (0 answers, 1 call)")),
        ([1, 0, 0, 1, 4, 0, 0, 0, 0, 0], &key, Some("[] (0 answers, 1 call)")),
        ([1, 0, 0, 1, 4, 1, 0, 0, 0, 0], &key[1..], None),
        ([1, 0, 0, 1, 4, 1, 0, 0, 0, 0], &[3; 9], None),
        ([1, 0, 0, 1, 4, u64::MAX, 0, 0, 0, 0], &key, None),
        // a page is no step's
        ([1, 0, 0, 0, 5, 47, 0, 0, 0, 0], NAMES.as_bytes(), None),
        ([0, 0, 0, 0, 0, 0, 0, 0, 0, 0], &[], None),
        ([2, 255, 0, 0, 0, 0, 0, 0, 0, 0], &[], None),
        ([3, 0, 1, 1, 1, 0, 9, 0, 0, 0], &[], None),
        ([1, 0, 0, 1, 1, 0, 2, 2, 0, 0], &[], None),
        ([1, 0, 0, 1, 2, 1, 8, 0, 9, 0], &[], None),
        ([1, 0, 0, 1, 0, 0, 0, 0, 0, 0], &[], None),
        ([4, 0, 0, 1, 1, 0, 0, 0, 0, 0], &[], None),
        ([1, 0, u64::MAX, 1, 1, 0, 0, 0, 0, 0], &[], None),
    ] {
        assert_eq!(told(words, output).as_deref(), expected, "{words:?}");
    }
    assert_eq!(Report::from_words(&[0, 8, 0, 0, 0, 0, 0, 0, 0], &[]), None);
    assert_eq!(Report::from_words(&[0, 8, 0, 0, 0, 0, 0, 0, 0, 0, 0], &[]), None);
}

/// `enum demnyaluz_*` of the header, and its constants.
fn header() -> Vec<(String, usize)> {
    let path = std::path::Path::new(env!("CARGO_MANIFEST_DIR")).join("../../include/demnyaluz.h");
    let text = std::fs::read_to_string(path).unwrap();
    let named = |line: &str| {
        let (name, value) = line.trim().strip_prefix("DEMNYALUZ_")?.split_once(" = ")?;
        let digits: String = value.chars().take_while(char::is_ascii_digit).collect();
        Some((name.to_string(), digits.parse().ok()?))
    };
    text.lines().filter_map(named).collect()
}

/// `SheetSpent` as `SHEET_SPENT`.
fn in_capitals(name: &str) -> String {
    let mut capitals = String::new();
    for c in name.chars() {
        if c.is_uppercase() && !capitals.is_empty() {
            capitals.push('_');
        }
        capitals.extend(c.to_uppercase());
    }
    capitals
}

#[test]
fn names_and_numbers_are_the_headers() {
    let header = header();
    let of = |prefix: &str| -> Vec<(String, usize)> {
        header.iter().filter_map(|(name, value)| Some((name.strip_prefix(prefix)?.to_string(), *value))).collect()
    };
    let refusals: Vec<_> = Refusal::ALL.iter().map(|r| (in_capitals(&format!("{r:?}")), r.number().into())).collect();
    assert_eq!(refusals, of("REFUSAL_"));
    let messages: Vec<_> = Message::ALL.iter().map(|m| (in_capitals(&format!("{m:?}")), m.number().into())).collect();
    assert_eq!(messages, of("MESSAGE_"));
    let levels: Vec<_> = IntegrityLevel::ALL.iter().map(|l| (in_capitals(&format!("{l:?}")), l.number().into())).collect();
    assert_eq!(levels, of("LEVEL_"));
    let tests = ValidationTest::ALL.iter().map(|t| (in_capitals(&format!("{t:?}")), t.number().into()));
    assert_eq!([("NONE".to_string(), 0)].into_iter().chain(tests).collect::<Vec<_>>(), of("TEST_"));
    for (name, value) in [
        ("STORE_WORDS", demnyaluz::STORE_WORDS),
        ("STRING_CELLS", demnyaluz::STRING_CELLS),
        ("REPORT_WORDS", demnyaluz::REPORT_WORDS),
        ("VALUE_BYTES", Value::SIZE),
        ("DESCRIPTOR_BYTES", PropertyDescriptor::SIZE),
        ("STEP_BYTES", Step::SIZE),
        ("OUTPUT_BYTES", demnyaluz::OUTPUT_BYTES),
        ("PAGE_LINE", demnyaluz::PAGE_LINE_BYTES),
        ("PAGE_BYTES", demnyaluz::PAGE_BYTES),
        ("TEXT_STATE", demnyaluz::TEXT_STATE_WORDS),
        ("TEXT_LINE", demnyaluz::TEXT_LINE_BYTES),
        ("TEXT_ROW", demnyaluz::TEXT_ROW_BYTES),
        ("MAXIMUM_OBJECTS", demnyaluz::MAXIMUM_OBJECTS),
        ("MAXIMUM_PROPERTIES", demnyaluz::MAXIMUM_PROPERTIES),
        ("MAXIMUM_STRINGS", demnyaluz::MAXIMUM_STRINGS),
        ("MAXIMUM_UNITS", demnyaluz::MAXIMUM_UNITS),
        ("MAXIMUM_ANSWERS", demnyaluz::MAXIMUM_ANSWERS),
        ("MAXIMUM_KEYS", demnyaluz::MAXIMUM_KEYS),
        ("MAXIMUM_CALLS", demnyaluz::MAXIMUM_CALLS),
    ] {
        assert!(header.contains(&(name.to_string(), value)), "{name}");
    }
    let (object, key, value) = (ObjectId(0), PropertyKey::from(SymbolId(0)), Value::Null);
    let steps = [
        Step::MakeObject { prototype: None },
        Step::MakeProxy { target: object, traps: Traps::NONE },
        Step::Revoke { proxy: object },
        Step::GetPrototypeOf { object },
        Step::SetPrototypeOf { object, prototype: None },
        Step::IsExtensible { object },
        Step::PreventExtensions { object },
        Step::GetOwnProperty { object, key },
        Step::DefineOwnProperty { object, key, descriptor: PropertyDescriptor::default() },
        Step::HasProperty { object, key },
        Step::Get { object, key, receiver: value },
        Step::Set { object, key, value, receiver: value },
        Step::Delete { object, key },
        Step::OwnPropertyKeys { object },
        Step::MakeFunction { prototype: None },
        Step::Release { object },
        Step::SetIntegrityLevel { object, level: IntegrityLevel::Sealed },
        Step::TestIntegrityLevel { object, level: IntegrityLevel::Frozen },
    ];
    let codes = steps.map(|step| (in_capitals(format!("{step:?}").split(' ').next().unwrap()), step.code().into()));
    assert_eq!(codes.to_vec(), of("CODE_"));
}

/// The entries over slices, where they say more than a store shows.
#[test]
fn lent_memory_of_another_length_is_left() {
    let (mut words, mut strings, mut state) = (vec![7; 1669], vec![7; 8448], vec![7; 9]);
    assert!(!lent::empty_store(&mut words) && !lent::empty_strings(&mut strings) && !lent::text_start(&mut words, &mut strings, &mut state));
    let refused = [0, 1, 0, 0, 0, 0, 0, 0, 0, 0];
    assert_eq!(lent::step(&mut words, &strings, &[1; 58], &[0], &mut []).as_slice(), refused);
    assert_eq!(lent::enter_string(&mut strings, &[65]).as_ref(), refused);
    let mut output = [7; 100];
    assert_eq!(lent::page(&words, &[0; 8449], 0, &mut output), Err(Refusal::MalformedRecord));
    assert_eq!(lent::page(&[0; 1670], &strings, 0, &mut output), Err(Refusal::MalformedRecord));
    assert_eq!(output, [7; 100]);
    assert_eq!(lent::complete(&words, &strings, &[0; 29]).as_slice(), refused);
    assert_eq!(lent::merge(&words, &strings, &[0; 29], &[0; 29]).as_slice(), refused);
    let validated = lent::validate(&words, &strings, true, &[0; 29], &[]);
    assert_eq!((validated.accepted, validated.test, validated.report.as_slice()), (false, 0, &refused[..]));
    assert_eq!(lent::text_feed(&mut words, &mut strings, &mut state, &mut [], b"step", &mut []), None);
    assert_eq!(lent::text_end(&mut words, &mut strings, &mut state, &mut [], &mut []), None);
    assert!(words.iter().all(|w| *w == 7) && strings.iter().all(|c| *c == 7) && state.iter().all(|w| *w == 7));
}

/// An error says what is wrong in one line, as others quote it: it begins in lower case and has no full stop.
#[test]
fn errors_are_errors() {
    fn is_error<E: Error + Send + Sync + 'static>() {}
    is_error::<Failure>();
    is_error::<Refusal>();
    is_error::<TryFromValueError>();
    is_error::<notation::Error>();
    is_error::<rows::ParseRowError>();
    is_error::<rows::Error>();
    let call = Call::Step { step: Step::MakeObject { prototype: None }, answers: vec![] };
    let mut errors: Vec<Box<dyn Error>> = vec![
        Box::new(PropertyKey::try_from(Value::Null).unwrap_err()),
        Box::new(notation::parse("fetch").unwrap_err()),
        Box::new(rows::Row::parse("", &call).unwrap_err()),
        Box::new(Failure::Thrown(Value::Null)),
    ];
    errors.extend(Refusal::ALL.iter().flat_map(|r| [Box::new(*r) as Box<dyn Error>, Box::new(Failure::from(*r))]));
    for error in errors {
        let text = error.to_string();
        assert!(text.starts_with(|c: char| c.is_lowercase()) && !text.ends_with('.') && !text.contains('\n'), "{text}");
        assert!(error.source().is_none(), "{text}");
    }
}

/// An error that comes from another says so, and leaves the other's text to it.
#[test]
fn errors_have_their_sources() {
    struct Broken;
    impl std::io::Read for Broken {
        fn read(&mut self, _: &mut [u8]) -> std::io::Result<usize> {
            Err(std::io::Error::other("broken"))
        }
    }
    impl std::io::Write for Broken {
        fn write(&mut self, _: &[u8]) -> std::io::Result<usize> {
            Err(std::io::Error::other("broken"))
        }

        fn flush(&mut self) -> std::io::Result<()> {
            Ok(())
        }
    }
    let calls = notation::parse("object").unwrap();
    let row = |text: &str| format!("{}\n{text}\n", rows::HEADING).into_bytes();
    let made = row("1 1 0 0 0 070000000000000000");
    let read = rows::show(&calls, std::io::BufReader::new(Broken), &mut Vec::new()).unwrap_err();
    let write = rows::show(&calls, &*made, &mut Broken).unwrap_err();
    let malformed = rows::show(&calls, &*row("1 4 0 0 0 -"), &mut Vec::new()).unwrap_err();
    assert!(matches!((&read, &write, &malformed), (rows::Error::Read(_), rows::Error::Write(_), rows::Error::Malformed { line: 1, .. })));
    for (error, text, source) in [
        (&read, "the rows cannot be read", "broken"),
        (&write, "the calls and their rows cannot be written", "broken"),
        (&malformed, "the row of line 1 (object) is malformed, '1 4 0 0 0 -'", "expected outcome 0 to 3, found 4"),
    ] {
        assert_eq!((error.to_string(), error.source().unwrap().to_string()), (text.to_string(), source.to_string()));
    }
    assert!(malformed.source().unwrap().is::<rows::ParseRowError>());
    let heading = format!("{}\n", rows::HEADING).into_bytes();
    for rows in [vec![], heading, row("2 1 0 0 0 070000000000000000"), row("0 0 12 0 0 -"), [&*made, b"2 0 1 0 0 -"].concat()] {
        assert!(rows::show(&calls, &*rows, &mut Vec::new()).unwrap_err().source().is_none());
    }
}

#[test]
fn everything_can_move_between_threads() {
    fn sendable<T: Send + Sync + Unpin + 'static>() {}
    sendable::<Store>();
    sendable::<TextReader>();
    sendable::<Report>();
    sendable::<(Validation, ValidationTest)>();
    sendable::<(Step, Answer, Traps, IntegrityLevel, Message)>();
    sendable::<(Value, ValueWords, PropertyKey, Prototype, Property, PropertyDescriptor)>();
    sendable::<(notation::Line, notation::Strings, rows::Row)>();
    sendable::<(lent::ReportWords, lent::Validated, lent::Fed)>();
}

/// Later versions may add to these: a match from outside needs a last arm, which would be unreachable if all of them could be named.
#[test]
#[deny(unreachable_patterns)]
fn enums_that_grow_are_not_exhaustive() {
    macro_rules! named {
        ($value:expr, $pattern:pat) => {
            match $value {
                $pattern => true,
                _ => false,
            }
        };
    }
    use Value::{Boolean, Float64, Function, Integer32, Null, Object, String, Symbol, Undefined};
    assert!(named!(Value::Null, Undefined | Null | Boolean(_) | Integer32(_) | Float64(_) | String(_) | Symbol(_) | Object(_) | Function(_)));
    let step = Step::MakeObject { prototype: None };
    assert!(named!(
        step,
        Step::MakeObject { .. }
            | Step::MakeFunction { .. }
            | Step::MakeProxy { .. }
            | Step::Revoke { .. }
            | Step::GetPrototypeOf { .. }
            | Step::SetPrototypeOf { .. }
            | Step::IsExtensible { .. }
            | Step::PreventExtensions { .. }
            | Step::GetOwnProperty { .. }
            | Step::DefineOwnProperty { .. }
            | Step::HasProperty { .. }
            | Step::Get { .. }
            | Step::Set { .. }
            | Step::Delete { .. }
            | Step::OwnPropertyKeys { .. }
            | Step::Release { .. }
            | Step::SetIntegrityLevel { .. }
            | Step::TestIntegrityLevel { .. }
    ));
    assert!(IntegrityLevel::ALL.iter().all(|l| named!(l, IntegrityLevel::Sealed | IntegrityLevel::Frozen)));
    use ValidationTest as T;
    assert!(T::ALL.iter().all(|t| named!(t, T::Extensible | T::Configurable | T::Enumerable | T::Kind | T::Get | T::Set | T::Writable | T::Value)));
    assert!(named!(Answer::keys([]), Answer::Value(_) | Answer::Descriptor(_) | Answer::Keys(_) | Answer::Throw(_)));
    assert!(named!(Call::Enter(vec![]), Call::Enter(_) | Call::Step { .. }));
    let made = Store::new().step(&step, &[]).outcome.unwrap();
    assert!(named!(made, Completion::Value(_) | Completion::Property(_) | Completion::Absent | Completion::Keys(_)));
    let refused = Failure::from(Refusal::StoreFull);
    assert!(named!(refused, Failure::Refused(_) | Failure::TypeError(_) | Failure::Thrown(_)));
    use rows::Error::{Heading, LeftOver, Malformed, Missing, Names, OtherLine, Read, Write};
    assert!(named!(
        rows::show(&[], &b""[..], &mut Vec::new()).unwrap_err(),
        Heading { .. } | Names | Missing { .. } | Malformed { .. } | OtherLine { .. } | LeftOver { .. } | Read(_) | Write(_)
    ));
    use Refusal as R;
    assert!(R::ALL.iter().all(|r| named!(
        r,
        R::MalformedRecord
            | R::ObjectNeverMade
            | R::UnusablePart
            | R::UnusableDescriptor
            | R::IncompleteCurrent
            | R::DifferentKinds
            | R::StoreFull
            | R::SheetSpent
            | R::UnreadableAnswer
            | R::TooManyCalls
            | R::OutputTooSmall
            | R::BrokenLine
            | R::UnreadAnswers
            | R::StillNamed
    )));
    use Message as M;
    assert!(M::ALL.iter().all(|m| named!(
        m,
        M::RevokedProxy
            | M::PrototypeNotObjectOrNull
            | M::UnexpectedPrototype
            | M::PrototypeNotSet
            | M::UnexpectedExtensible
            | M::StillExtensible
            | M::DescriptorNotObjectOrUndefined
            | M::HiddenNonConfigurable
            | M::HiddenOfNonExtensible
            | M::UnexpectedProperty
            | M::ReportedNonWritable
            | M::ReportedNonConfigurable
            | M::PropertyNotDefined
            | M::DefinedUnexpectedValue
            | M::DefinedUnexpectedConfigurable
            | M::DefinedUnexpectedWritable
            | M::GotUnexpectedData
            | M::GotUnexpectedAccessor
            | M::SetUnexpectedData
            | M::SetUnexpectedAccessor
            | M::NotDeleted
            | M::DuplicateString
            | M::DuplicateSymbol
            | M::NonConfigurableKeyMissing
            | M::ConfigurableKeyMissing
            | M::UnexpectedKey
            | M::GetterNotCallable
            | M::SetterNotCallable
            | M::MixedDescriptor
            | M::NotKey
            | M::KeysNotObject
            | M::DefinitionRejected
    )));
}
