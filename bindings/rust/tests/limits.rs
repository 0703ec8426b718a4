//! Each limit of docs/REFERENCE.md just met and just passed, on the library and on the plain implementation.
mod harness;
mod plain;

use harness::pair::Pair;
use plain::descriptor::Descriptor;
use plain::record::{descriptor_bytes, sheet_bytes, step_bytes, Answer, Step};
use plain::step::{Completion, Outcome, Report};
use plain::value::Value;

const NONE: Value = Value::Undefined;

fn parts(code: u8, object: usize, key: Value, value: Value) -> Step {
    Step { code, object, key, value, receiver: NONE, descriptor: Descriptor::default() }
}

fn step(code: u8, object: usize, key: Value, value: Value) -> Vec<u8> {
    step_bytes(&parts(code, object, key, value))
}

fn define(object: usize, key: Value, descriptor: Descriptor) -> Vec<u8> {
    step_bytes(&Step { code: 9, object, key, value: NONE, receiver: NONE, descriptor })
}

fn plain_data(n: i32) -> Descriptor {
    Descriptor::data(Value::Integer32(n), true, true, true)
}

fn run(pair: &mut Pair, bytes: &[u8], answers: &[Answer]) -> Report {
    pair.step(bytes, &sheet_bytes(answers), 9 * 256).report
}

#[track_caller]
fn refused(report: Report, number: u64) {
    assert!(matches!(report.outcome, Outcome::Refused(n) if n == number), "{report:?}");
}

#[track_caller]
fn result(report: Report) -> Report {
    assert!(matches!(report.outcome, Outcome::Result(_)), "{report:?}");
    report
}

fn make(pair: &mut Pair) {
    result(run(pair, &step(1, 0, NONE, Value::Null), &[]));
}

fn proxy(pair: &mut Pair, target: usize, traps: i32) {
    result(run(pair, &step(2, target, NONE, Value::Integer32(traps)), &[]));
}

/// A listing through an ownKeys trap, over m forwarding proxies and an object with n keys: 1 + (n + 2)(m + 1) calls.
fn listing(keys: i32, forwarding: usize) -> Report {
    let mut pair = Pair::new();
    make(&mut pair);
    for n in 0..keys {
        result(run(&mut pair, &define(0, Value::Symbol(n as u64), plain_data(n)), &[]));
    }
    for target in 0..forwarding {
        proxy(&mut pair, target, 0);
    }
    proxy(&mut pair, forwarding, 1024);
    run(&mut pair, &step(14, forwarding + 1, NONE, NONE), &[Answer::Keys(vec![])])
}

#[test]
fn calls() {
    assert_eq!(result(listing(87, 22)).calls, 2048);
    refused(listing(126, 15), 10);
    assert_eq!(result(listing(3, 2)).calls, 1 + 5 * 3);
}

const SEALED: i32 = 0;
const FROZEN: i32 = 1;

/// An object with n keys behind m forwarding proxies, and the last of them.
fn behind(keys: usize, forwarding: usize) -> (Pair, usize) {
    let mut pair = Pair::new();
    make(&mut pair);
    for n in 0..keys {
        result(run(&mut pair, &define(0, Value::Symbol(n as u64), plain_data(n as i32)), &[]));
    }
    for target in 0..forwarding {
        proxy(&mut pair, target, 0);
    }
    (pair, forwarding)
}

fn set_level(pair: &mut Pair, o: usize, level: i32) -> Report {
    run(pair, &step(18, o, NONE, Value::Integer32(level)), &[])
}

fn test_level(pair: &mut Pair, o: usize, level: i32) -> Report {
    run(pair, &step(19, o, NONE, Value::Integer32(level)), &[])
}

#[track_caller]
fn answered(report: Report, expected: bool) -> Report {
    assert!(matches!(report.outcome, Outcome::Result(Completion::Value(Value::Boolean(b))) if b == expected), "{report:?}");
    report
}

/// Freezing n keys through m proxies makes 2(m + 1) + n(2m + 4) calls, sealing them 2(m + 1) + n(m + 3), and testing them (n + 2)(m + 1). With one
/// key more the last of them has no call left: what was frozen before it is as it was.
#[test]
fn calls_of_integrity_levels() {
    for (level, keys, forwarding) in [(FROZEN, 40, 23), (FROZEN, 204, 3), (SEALED, 74, 24), (SEALED, 226, 6)] {
        let (mut pair, o) = behind(keys, forwarding);
        answered(test_level(&mut pair, o, level), false);
        assert_eq!(answered(set_level(&mut pair, o, level), true).calls, 2048);
        assert_eq!(answered(test_level(&mut pair, 0, level), true).calls, 2 + keys as u64);
        let (mut pair, o) = behind(keys + 1, forwarding);
        let before = pair.words.clone();
        refused(set_level(&mut pair, o, level), 10);
        assert_eq!(pair.words, before);
        // the first key is as it was, and the object extensible
        result(run(&mut pair, &step(13, 0, Value::Symbol(0), NONE), &[]));
        result(run(&mut pair, &define(0, Value::Symbol(0), plain_data(1)), &[]));
        let set = step_bytes(&Step { receiver: Value::Object(0), ..parts(12, 0, Value::Symbol(0), Value::Integer32(7)) });
        answered(run(&mut pair, &set, &[]), true);
        answered(set_level(&mut pair, 0, level), true);
    }
    for (keys, forwarding) in [(126, 15), (254, 7)] {
        let (mut pair, o) = behind(keys, forwarding);
        answered(set_level(&mut pair, 0, FROZEN), true);
        assert_eq!(answered(test_level(&mut pair, o, FROZEN), true).calls, 2048);
        assert_eq!(answered(test_level(&mut pair, o, SEALED), true).calls, 2048);
        let (mut pair, o) = behind(keys + 1, forwarding);
        answered(set_level(&mut pair, 0, FROZEN), true);
        refused(test_level(&mut pair, o, FROZEN), 10);
        refused(test_level(&mut pair, o, SEALED), 10);
    }
    // 256 keys, and no proxy
    let (mut pair, o) = behind(256, 0);
    assert_eq!(answered(set_level(&mut pair, o, SEALED), true).calls, 2 + 3 * 256);
    assert_eq!(answered(set_level(&mut pair, o, FROZEN), true).calls, 2 + 4 * 256);
}

/// A handler is asked for each key: the 65th has no answer, and what was frozen before it is as it was.
#[test]
fn answers_of_integrity_levels() {
    let (mut pair, o) = behind(65, 0);
    proxy(&mut pair, o, 16);
    let told = |n: i32| Answer::Descriptor(plain_data(n));
    let freeze = step(18, 1, NONE, Value::Integer32(FROZEN));
    let before = pair.words.clone();
    refused(run(&mut pair, &freeze, &(0..64).map(told).collect::<Vec<_>>()), 8);
    assert_eq!(pair.words, before);
    result(run(&mut pair, &step(13, 0, Value::Symbol(64), NONE), &[]));
    let report = answered(run(&mut pair, &freeze, &(0..64).map(told).collect::<Vec<_>>()), true);
    assert_eq!((report.answers, report.calls), (64, 2 + 2 + 64 * (3 + 4)));
    answered(test_level(&mut pair, 0, FROZEN), true);
}

#[test]
fn objects() {
    let mut pair = Pair::new();
    for _ in 0..32 {
        make(&mut pair);
    }
    refused(run(&mut pair, &step(1, 0, NONE, Value::Null), &[]), 7);
    refused(run(&mut pair, &step(2, 31, NONE, Value::Integer32(0)), &[]), 7);
    refused(run(&mut pair, &step(16, 0, NONE, Value::Null), &[]), 7);
    refused(run(&mut pair, &step(6, 32, NONE, NONE), &[]), 2);
    result(run(&mut pair, &step(6, 31, NONE, NONE), &[]));
}

fn make_function(pair: &mut Pair, prototype: Value) -> Report {
    result(run(pair, &step(16, 0, NONE, prototype), &[]))
}

/// 32 functions, each the prototype of the next: the chain is walked to its end, and there is no 33rd.
#[test]
fn functions() {
    let mut pair = Pair::new();
    make_function(&mut pair, Value::Null);
    for n in 0..31 {
        let report = make_function(&mut pair, Value::Function(n));
        assert!(matches!(report.outcome, Outcome::Result(Completion::Value(Value::Function(m))) if m == n + 1), "{report:?}");
        assert_eq!((report.answers, report.calls), (0, 0));
    }
    assert_eq!(pair.words[..5], [32, 0, 0xffff_ffff, 0xffff_ffff, 0]);
    refused(run(&mut pair, &step(16, 0, NONE, Value::Null), &[]), 7);
    refused(run(&mut pair, &step(1, 0, NONE, Value::Function(31)), &[]), 7);
    refused(run(&mut pair, &step(2, 31, NONE, Value::Integer32(0)), &[]), 3);
    refused(run(&mut pair, &step(16, 0, NONE, Value::Function(32)), &[]), 2);
    refused(run(&mut pair, &step(6, 32, NONE, NONE), &[]), 2);
    assert_eq!(result(run(&mut pair, &step(10, 31, Value::Symbol(0), NONE), &[])).calls, 3 * 32);
    answered(run(&mut pair, &step(5, 0, NONE, Value::Function(31)), &[]), false);
    answered(run(&mut pair, &step(5, 31, NONE, Value::Function(0)), &[]), true);
}

/// A mark of what is not live, in memory that no calls left, does not make it a function.
#[test]
fn marks() {
    let mut pair = Pair::new();
    pair.words[2] = u64::MAX;
    for n in 0..32 {
        // the mark of the new one is set or cleared, and the others stay
        let code = if n % 3 == 1 { 16 } else { 1 };
        result(run(&mut pair, &step(code, 0, NONE, Value::Null), &[]));
        assert_eq!((pair.words[2] >> n & 1 == 1, pair.words[2] >> (n + 1)), (code == 16, u64::MAX >> (n + 1)));
    }
    let functions: u64 = (0..32).filter(|n| n % 3 == 1).map(|n| 1 << n).sum();
    assert_eq!(pair.words[..4], [32, 0, functions | 0xffff_ffff << 32, 0xffff_ffff]);
    // what was there before is no mark either, once the store is emptied
    assert!(demnyaluz::lent::empty_store(&mut pair.words));
    assert_eq!(pair.words[..5], [0; 5]);
}

fn release(pair: &mut Pair, o: usize) -> Report {
    run(pair, &step(17, o, NONE, NONE), &[])
}

#[track_caller]
fn made(report: Report, number: u64) {
    assert!(matches!(report.outcome, Outcome::Result(Completion::Value(Value::Object(n) | Value::Function(n))) if n == number), "{report:?}");
}

/// 32 live objects, whatever their numbers: what was released longest ago is taken first, over all 32 numbers and more than once around the ring.
#[test]
fn released_numbers() {
    let mut pair = Pair::new();
    for _ in 0..32 {
        make(&mut pair);
    }
    for turn in 0..5 {
        // 7 has no factor in common with 32: every number once, in another order than that of the numbers
        let order: Vec<usize> = (0..32).map(|i| (7 * i + turn) % 32).collect();
        for (released, o) in order.iter().enumerate() {
            assert_eq!(pair.words[4], released as u64);
            let report = answered(release(&mut pair, *o), true);
            assert_eq!((report.answers, report.calls), (0, 0));
            refused(release(&mut pair, *o), 2);
        }
        assert_eq!(pair.words[..5], [32, 0, pair.words[2], 0, 32]);
        for o in &order[..20] {
            let code = if o % 2 == 0 { 1 } else { 16 };
            made(run(&mut pair, &step(code, 0, NONE, Value::Null), &[]), *o as u64);
        }
        // what goes again stands behind those that went before
        answered(release(&mut pair, order[3]), true);
        for o in order[20..].iter().chain([&order[3]]) {
            made(run(&mut pair, &step(1, 0, NONE, Value::Null), &[]), *o as u64);
        }
        for (code, o, value) in [(1, 0, Value::Null), (16, 0, Value::Null), (2, order[20], Value::Integer32(0))] {
            refused(run(&mut pair, &step(code, o, NONE, value), &[]), 7);
        }
        for o in 32..34 {
            refused(release(&mut pair, o), 2);
        }
    }
    // with none released the next unused number is taken
    let mut pair = Pair::new();
    refused(release(&mut pair, 0), 2);
    for _ in 0..3 {
        make(&mut pair);
    }
    answered(release(&mut pair, 1), true);
    answered(release(&mut pair, 0), true);
    for number in [1, 0, 3, 4] {
        made(run(&mut pair, &step(1, 0, NONE, Value::Null), &[]), number);
    }
}

/// The properties of all objects together are 256, and those of a released one make room; those of the others stay, in their order.
#[test]
fn released_properties() {
    let mut pair = Pair::new();
    for _ in 0..3 {
        make(&mut pair);
    }
    for n in 0..256 {
        result(run(&mut pair, &define([0, 1, 1, 2][n % 4], Value::Symbol(n as u64), plain_data(n as i32)), &[]));
    }
    refused(run(&mut pair, &define(0, Value::Symbol(1), plain_data(1)), &[]), 7);
    answered(release(&mut pair, 1), true);
    assert_eq!(pair.words[1], 128);
    make(&mut pair);
    for n in 0..128 {
        result(run(&mut pair, &define(1, Value::Symbol(n), plain_data(1)), &[]));
    }
    refused(run(&mut pair, &define(1, Value::Symbol(128), plain_data(1)), &[]), 7);
    answered(release(&mut pair, 0), true);
    answered(release(&mut pair, 2), true);
    assert_eq!(pair.words[1], 128);
    answered(release(&mut pair, 1), true);
    assert_eq!(pair.words[..5], [3, 0, 0, 0, 3]);
}

/// Every way to be named, and by which step it ends.
#[test]
fn named_objects() {
    let with = |v: Value| Descriptor { value: Some(v), configurable: Some(true), ..Descriptor::default() };
    let of = |get: Value, set: Value| Descriptor { get: Some(get), set: Some(set), configurable: Some(true), ..Descriptor::default() };
    let key = Value::Symbol(0);
    let delete = |o: usize| step(13, o, key, NONE);
    // object 0 and function 1 are named by object 2, or by themselves
    for (o, naming, ending) in [
        (0, step(5, 2, NONE, Value::Object(0)), step(5, 2, NONE, Value::Null)),
        (1, step(5, 2, NONE, Value::Function(1)), step(5, 2, NONE, Value::Null)),
        (0, define(2, key, with(Value::Object(0))), delete(2)),
        (1, define(2, key, with(Value::Function(1))), define(2, key, with(Value::Null))),
        (1, define(2, key, of(Value::Function(1), NONE)), delete(2)),
        (1, define(2, key, of(NONE, Value::Function(1))), define(2, key, of(NONE, NONE))),
        (0, define(0, key, with(Value::Object(0))), delete(0)),
        (1, define(1, key, with(Value::Function(1))), delete(1)),
        (1, define(1, key, of(Value::Function(1), NONE)), delete(1)),
        (1, define(1, key, of(NONE, Value::Function(1))), delete(1)),
        (0, step(2, 0, NONE, Value::Integer32(0)), step(3, 3, NONE, NONE)),
        (0, step(2, 0, NONE, Value::Integer32(2047)), step(17, 3, NONE, NONE)),
        (0, define(2, key, with(Value::Object(0))), step(17, 2, NONE, NONE)),
        (1, step(5, 2, NONE, Value::Function(1)), step(17, 2, NONE, NONE)),
    ] {
        let mut pair = Pair::new();
        make(&mut pair);
        make_function(&mut pair, Value::Null);
        make(&mut pair);
        result(run(&mut pair, &naming, &[]));
        refused(release(&mut pair, o), 14);
        // 2 and 3 come before 14, and 1 of the sheet after it
        refused(run(&mut pair, &step(17, 9, NONE, NONE), &[Answer::Value(Value::Object(77))]), 2);
        refused(pair.step(&step(17, o, NONE, NONE), &[], 0).report, 14);
        refused(run(&mut pair, &step(17, o, NONE, NONE), &[Answer::Value(Value::Object(77))]), 14);
        refused(run(&mut pair, &step(17, o, key, NONE), &[]), 1);
        refused(run(&mut pair, &step(17, o, NONE, Value::Object(0)), &[]), 1);
        result(run(&mut pair, &ending, &[]));
        refused(run(&mut pair, &step(17, o, NONE, NONE), &[Answer::Value(Value::Null)]), 13);
        refused(run(&mut pair, &step(17, o, NONE, NONE), &[Answer::Value(Value::Object(77))]), 2);
        refused(pair.step(&step(17, o, NONE, NONE), &[], 0).report, 1);
        answered(release(&mut pair, o), true);
        refused(release(&mut pair, o), 2);
    }
}

/// Proxies over proxies, each the target of the next: they go from the last to the first. A revoked one may stand before what takes its target's
/// number, itself too.
#[test]
fn released_proxies() {
    let mut pair = Pair::new();
    make(&mut pair);
    for target in 0..31 {
        proxy(&mut pair, target, 0);
    }
    for o in 0..31 {
        refused(release(&mut pair, o), 14);
    }
    for o in (0..32).rev() {
        answered(release(&mut pair, o), true);
    }
    assert_eq!(pair.words[..5], [32, 0, 0, 0, 32]);
    let mut pair = Pair::new();
    make(&mut pair);
    proxy(&mut pair, 0, 0);
    result(run(&mut pair, &step(3, 1, NONE, NONE), &[]));
    answered(release(&mut pair, 0), true);
    // 0 is now a proxy over 1, which was one over 0
    made(run(&mut pair, &step(2, 1, NONE, Value::Integer32(0)), &[]), 0);
    for o in [0, 1] {
        let told = run(&mut pair, &step(6, o, NONE, NONE), &[]);
        assert!(matches!(told.outcome, Outcome::TypeError(1)), "{told:?}");
    }
    refused(release(&mut pair, 1), 14);
    answered(release(&mut pair, 0), true);
    answered(release(&mut pair, 1), true);
    // a function under the number of a revoked proxy's target
    make(&mut pair);
    proxy(&mut pair, 0, 0);
    result(run(&mut pair, &step(3, 1, NONE, NONE), &[]));
    answered(release(&mut pair, 0), true);
    made(make_function(&mut pair, Value::Null), 0);
    answered(release(&mut pair, 0), true);
    assert_eq!((pair.page(0, &[]), pair.page(1, &[])), (Err(2), Err(3)));
}

#[test]
fn properties() {
    let mut pair = Pair::new();
    make(&mut pair);
    make(&mut pair);
    for n in 0..256 {
        result(run(&mut pair, &define(n % 2, Value::Symbol(n as u64), plain_data(1)), &[]));
    }
    refused(run(&mut pair, &define(0, Value::Symbol(1), plain_data(1)), &[]), 7);
    // what is there may still be redefined, and a place that is freed taken again
    result(run(&mut pair, &define(0, Value::Symbol(0), plain_data(2)), &[]));
    result(run(&mut pair, &step(13, 0, Value::Symbol(0), NONE), &[]));
    result(run(&mut pair, &define(0, Value::Symbol(1), plain_data(1)), &[]));
    refused(run(&mut pair, &define(0, Value::Symbol(0), plain_data(1)), &[]), 7);
    // not extensible comes before no room
    result(run(&mut pair, &step(7, 0, NONE, NONE), &[]));
    let told = run(&mut pair, &define(0, Value::Symbol(0), plain_data(1)), &[]);
    assert!(matches!(told.outcome, Outcome::Result(Completion::Value(Value::Boolean(false)))));
}

#[test]
fn strings() {
    let mut pair = Pair::new();
    refused(pair.enter_string(&[65; 33]), 3);
    result(pair.enter_string(&[65; 32]));
    result(pair.enter_string(&[]));
    for n in 2..256 {
        result(pair.enter_string(&[n]));
    }
    refused(pair.enter_string(&[256]), 7);
    result(pair.enter_string(&[255]));
    refused(pair.enter_string(&[65; 33]), 3);
    make(&mut pair);
    result(run(&mut pair, &step(10, 0, Value::String(255), NONE), &[]));
    refused(run(&mut pair, &step(10, 0, Value::String(256), NONE), &[]), 3);
    refused(run(&mut pair, &step(10, 0, Value::String(1 << 40), NONE), &[]), 3);
}

#[test]
fn numbers() {
    let mut pair = Pair::new();
    make(&mut pair);
    let with = |v: Value| Descriptor { value: Some(v), ..Descriptor::default() };
    result(run(&mut pair, &step(10, 0, Value::Symbol(255), NONE), &[]));
    refused(run(&mut pair, &step(10, 0, Value::Symbol(256), NONE), &[]), 3);
    for n in [1, 31, 32, 255, 256, 1 << 32, u64::MAX] {
        refused(run(&mut pair, &define(0, Value::Symbol(1), with(Value::Object(n))), &[]), 2);
        refused(run(&mut pair, &define(0, Value::Symbol(1), with(Value::Function(n))), &[]), 2);
        refused(pair.complete(&descriptor_bytes(&with(Value::Function(n)))), 2);
    }
    refused(run(&mut pair, &define(0, Value::Symbol(1), with(Value::Function(0))), &[]), 3);
    refused(pair.complete(&descriptor_bytes(&with(Value::Function(0)))), 3);
    result(run(&mut pair, &define(0, Value::Symbol(1), with(Value::Object(0))), &[]));
    make_function(&mut pair, Value::Null);
    result(run(&mut pair, &define(0, Value::Symbol(0), with(Value::Function(1))), &[]));
    refused(run(&mut pair, &define(0, Value::Symbol(0), with(Value::Object(1))), &[]), 3);
    refused(run(&mut pair, &define(0, Value::Symbol(0), with(Value::Function(2))), &[]), 2);
    result(run(&mut pair, &step(2, 0, NONE, Value::Integer32(2047)), &[]));
    refused(run(&mut pair, &step(2, 0, NONE, Value::Integer32(2048)), &[]), 1);
    refused(run(&mut pair, &step(2, 0, NONE, Value::Integer32(-1)), &[]), 1);
    for code in [18, 19] {
        for (level, refusal) in [
            (Value::Integer32(2), 1),
            (Value::Integer32(-1), 1),
            (Value::Integer32(i32::MAX), 1),
            (NONE, 3),
            (Value::Boolean(true), 3),
            (Value::Float64(1.0), 3),
            (Value::Symbol(0), 3),
            (Value::Object(3), 2),
            (Value::Function(3), 2),
            (Value::Function(1), 3),
            (Value::Object(1), 3),
        ] {
            refused(run(&mut pair, &step(code, 0, NONE, level), &[]), refusal);
        }
    }
    for code in [0, 15, 20] {
        refused(run(&mut pair, &step(code, 0, NONE, Value::Integer32(0)), &[]), 1);
    }
}

#[test]
fn answers_and_keys() {
    let mut pair = Pair::new();
    make(&mut pair);
    proxy(&mut pair, 0, 1024);
    let empty = || Answer::Keys(vec![]);
    refused(run(&mut pair, &step(14, 1, NONE, NONE), &vec![empty(); 64]), 13);
    refused(run(&mut pair, &step(14, 1, NONE, NONE), &vec![empty(); 65]), 1);
    let keys = |n: u64| Answer::Keys((0..n).map(Value::Symbol).collect());
    let Outcome::Result(Completion::Keys(listed)) = run(&mut pair, &step(14, 1, NONE, NONE), &[keys(256)]).outcome else { panic!() };
    assert_eq!(listed.len(), 256);
    refused(run(&mut pair, &step(14, 1, NONE, NONE), &[keys(257)]), 1);
    // the longest sheet
    refused(run(&mut pair, &step(14, 1, NONE, NONE), &vec![keys(256); 64]), 13);
    let sheet = sheet_bytes(&[keys(256)]);
    result(pair.step(&step(14, 1, NONE, NONE), &sheet, 9 * 256).report);
    refused(pair.step(&step(14, 1, NONE, NONE), &sheet, 9 * 256 - 1).report, 11);
    result(pair.step(&step(14, 0, NONE, NONE), &[0], 0).report);
    // an unread answer comes before too small an output
    let sheet = sheet_bytes(&[keys(256), empty()]);
    refused(pair.step(&step(14, 1, NONE, NONE), &sheet, 9 * 256 - 1).report, 13);
    refused(pair.step(&step(14, 1, NONE, NONE), &sheet, 9 * 256).report, 13);
}

const FILL: u8 = 0xa5;

/// A line for the names and one for each property, 47 bytes each: an output of just so many, of one more and of one less.
#[test]
fn pages() {
    for properties in [0, 1, 2, 255, 256] {
        let (mut pair, o) = behind(properties, 0);
        let length = 47 * (1 + properties);
        assert_eq!(pair.page(o as u64, &vec![FILL; length]), Ok(length as u64));
        assert_eq!(pair.page(o as u64, &vec![FILL; length + 1]), Ok(length as u64));
        assert_eq!(pair.page(o as u64, &vec![FILL; 2 * length]), Ok(length as u64));
        assert_eq!(pair.page(o as u64, &vec![FILL; length - 1]), Err(11));
        assert_eq!(pair.page(o as u64, &[]), Err(11));
    }
    // 32 objects, and 256 strings and properties: the counts just met, then passed
    let mut pair = Pair::new();
    for n in 0..256 {
        result(pair.enter_string(&[n]));
    }
    for _ in 0..30 {
        make(&mut pair);
    }
    make_function(&mut pair, Value::Null);
    for n in 0..256 {
        result(run(&mut pair, &define(30, Value::String(n), plain_data(n as i32)), &[]));
    }
    proxy(&mut pair, 0, 2047);
    let output = [FILL; 12_079];
    for o in 0..30 {
        assert_eq!(pair.page(o, &output), Ok(47));
    }
    assert_eq!(pair.page(30, &output), Ok(12_079));
    assert_eq!(pair.page(31, &output), Err(3));
    for o in [32, 33, 63, 64, 255, 256, 1 << 32, 1 << 63, u64::MAX] {
        assert_eq!(pair.page(o, &output), Err(2));
        assert_eq!(pair.page(o, &[]), Err(2));
    }
    assert_eq!(pair.page(31, &[]), Err(3));
    let kept = (pair.words.clone(), pair.strings.clone());
    for (at, count) in [(0, 33), (1, 257), (3, 1 << 32), (4, 33), (0, u64::MAX), (1, u64::MAX), (3, u64::MAX), (4, u64::MAX)] {
        pair.words[at] = count;
        for o in [0, 30, 31, 32, u64::MAX] {
            assert_eq!((pair.page(o, &output), pair.page(o, &[])), (Err(1), Err(1)));
        }
        pair.words = kept.0.clone();
    }
    for count in [257, u16::MAX] {
        pair.strings[0] = count;
        assert_eq!(pair.page(30, &output), Err(1));
    }
    pair.strings = kept.1;
    for length in [0, 1, 1635, 1669, 1671] {
        pair.words = kept.0.iter().copied().chain([0]).take(length).collect();
        assert_eq!(pair.page(30, &output), Err(1));
    }
    pair.words = kept.0;
    for length in [0, 1, 8448, 8450] {
        let strings = pair.strings.clone();
        pair.strings = strings.iter().copied().chain([0]).take(length).collect();
        assert_eq!(pair.page(30, &output), Err(1));
        pair.strings = strings;
    }
    assert_eq!(pair.page(30, &output), Ok(12_079));
}

#[test]
fn as_many_answers_as_a_sheet_holds() {
    let fixed = Descriptor::data(Value::Integer32(70_000), false, true, false);
    let mut pair = Pair::new();
    make(&mut pair);
    for n in 0..62 {
        result(run(&mut pair, &define(0, Value::Symbol(n), fixed), &[]));
    }
    result(run(&mut pair, &step(7, 0, NONE, NONE), &[]));
    proxy(&mut pair, 0, 2047);
    let is_frozen = step(19, 1, NONE, Value::Integer32(1));
    let mut answers = vec![Answer::Value(Value::Boolean(false)), Answer::Keys((0..62).map(Value::Symbol).collect())];
    answers.resize(64, Answer::Descriptor(fixed));
    assert_eq!(result(run(&mut pair, &is_frozen, &answers)).answers, 64);
    refused(run(&mut pair, &is_frozen, &answers[..63]), 8);
    // a first answer that is not so ends the step in TypeError 5, and all the others are unread
    answers[0] = Answer::Value(Value::Boolean(true));
    assert!(matches!(run(&mut pair, &is_frozen, &answers).outcome, Outcome::Refused(13)));
    assert!(matches!(run(&mut pair, &is_frozen, &answers[..1]).outcome, Outcome::TypeError(5)));
}

/// Whatever a step would end in, an unread answer refuses it; what is refused before keeps its number.
#[test]
fn unread_answers() {
    let spare = [Answer::Value(Value::Null), Answer::Throw(Value::Undefined), Answer::Keys(vec![]), Answer::Descriptor(Descriptor::default())];
    for spare in &spare {
        let mut pair = Pair::new();
        make(&mut pair);
        proxy(&mut pair, 0, 2047);
        result(run(&mut pair, &define(0, Value::Symbol(0), Descriptor::data(Value::Integer32(70_000), false, true, false)), &[]));
        let level = Value::Integer32(1);
        // steps that ask for nothing
        for (code, key, value) in [
            (1, NONE, Value::Null),
            (16, NONE, Value::Null),
            (2, NONE, Value::Integer32(0)),
            (5, NONE, Value::Null),
            (18, NONE, level),
            (19, NONE, level),
        ]
        .into_iter()
        .chain([4, 6, 7, 14].map(|code| (code, NONE, NONE)))
        .chain([8, 9, 10, 11, 12, 13].map(|code| (code, Value::Symbol(0), NONE)))
        {
            let before = pair.words.clone();
            refused(run(&mut pair, &step(code, 0, key, value), std::slice::from_ref(spare)), 13);
            assert_eq!(pair.words, before, "code {code}");
        }
        refused(run(&mut pair, &step(3, 1, NONE, NONE), std::slice::from_ref(spare)), 13);
        // a result, a TypeError and a throw, with the answer that each reads
        let get = step(11, 1, Value::Symbol(0), NONE);
        for (first, refusal) in [
            (Answer::Value(Value::Integer32(70_000)), 13),
            (Answer::Value(Value::Integer32(4_464)), 13),
            (Answer::Throw(Value::Null), 13),
            (Answer::Keys(vec![]), 9),
        ] {
            refused(run(&mut pair, &get, &[first.clone(), spare.clone()]), refusal);
            refused(run(&mut pair, &get, &[first, spare.clone(), spare.clone()]), refusal);
        }
        refused(run(&mut pair, &get, &[]), 8);
        // 2 and 3 come before, and so does 7
        refused(run(&mut pair, &step(6, 9, NONE, NONE), std::slice::from_ref(spare)), 2);
        refused(run(&mut pair, &step(3, 0, NONE, NONE), std::slice::from_ref(spare)), 3);
        while pair.world.live().count() < 32 {
            make(&mut pair);
        }
        for code in [1, 16] {
            refused(run(&mut pair, &step(code, 0, NONE, Value::Null), std::slice::from_ref(spare)), 7);
        }
        // what step 18 wrote comes back
        let before = pair.words.clone();
        refused(run(&mut pair, &step(18, 0, NONE, level), std::slice::from_ref(spare)), 13);
        assert_eq!(pair.words, before);
        result(run(&mut pair, &step(18, 0, NONE, level), &[]));
        assert_ne!(pair.words, before);
    }
}

/// -0 is not +0, 1 is 1.0, and all NaNs are alike: over a fixed value, and through a get trap.
#[test]
fn same_value() {
    let float = |bits: u64| Value::Float64(f64::from_bits(bits));
    for (fixed, told, same) in [
        (Value::Integer32(0), Value::Float64(-0.0), false),
        (Value::Integer32(0), Value::Float64(0.0), true),
        (Value::Float64(-0.0), Value::Float64(0.0), false),
        (Value::Integer32(1), Value::Float64(1.0), true),
        (Value::Integer32(70000), Value::Integer32(4464), false),
        (float(0x7ff8_0000_0000_0000), float(0xfff0_0000_0000_0001), true),
        (Value::Float64(1.0), Value::Boolean(true), false),
    ] {
        let mut pair = Pair::new();
        make(&mut pair);
        proxy(&mut pair, 0, 128);
        result(run(&mut pair, &define(0, Value::Symbol(0), Descriptor::data(fixed, false, false, false)), &[]));
        let again = run(&mut pair, &define(0, Value::Symbol(0), Descriptor { value: Some(told), ..Descriptor::default() }), &[]);
        assert!(matches!(again.outcome, Outcome::Result(Completion::Value(Value::Boolean(b))) if b == same), "{fixed:?} {told:?}");
        let get = step(11, 1, Value::Symbol(0), NONE);
        let got = run(&mut pair, &get, &[Answer::Value(told)]);
        assert_eq!(matches!(got.outcome, Outcome::TypeError(17)), !same, "{fixed:?} {told:?}");
        assert_eq!((got.answers, got.calls), (1, 2));
    }
}
