//! Readable lines: what they mean, where they are wrong, and their cells.
use demnyaluz::notation::{cells, parse, Call, Strings, HEADING};
use demnyaluz::readable;
use demnyaluz::{Answer, FunctionId, IntegrityLevel, ObjectId, PropertyDescriptor, PropertyKey, Step, StringId, SymbolId, Traps, Value};

fn calls(text: &str) -> Vec<Call> {
    parse(text).unwrap().into_iter().map(|l| l.call).collect()
}

fn one(text: &str) -> (Step, Vec<Answer>) {
    match calls(text).pop() {
        Some(Call::Step { step, answers }) => (step, answers),
        other => panic!("{other:?}"),
    }
}

fn units(text: &str) -> Vec<u16> {
    text.encode_utf16().collect()
}

const O: ObjectId = ObjectId(3);
const F: FunctionId = FunctionId(3);
const Y: PropertyKey = PropertyKey::Symbol(SymbolId(7));

#[test]
fn every_step_has_a_line() {
    for (text, step) in [
        ("object", Step::MakeObject { prototype: None }),
        ("object null", Step::MakeObject { prototype: None }),
        ("object o3", Step::MakeObject { prototype: Some(O.into()) }),
        ("object f3", Step::MakeObject { prototype: Some(F.into()) }),
        ("function", Step::MakeFunction { prototype: None }),
        ("function null", Step::MakeFunction { prototype: None }),
        ("function o3", Step::MakeFunction { prototype: Some(O.into()) }),
        ("function f3 # a comment", Step::MakeFunction { prototype: Some(F.into()) }),
        ("proxy o3", Step::MakeProxy { target: O, traps: Traps::NONE }),
        ("proxy o3 traps get, ownKeys", Step::MakeProxy { target: O, traps: Traps::GET | Traps::OWN_KEYS }),
        ("proxy o3 traps all", Step::MakeProxy { target: O, traps: Traps::ALL }),
        ("proxy o3 traps 2047", Step::MakeProxy { target: O, traps: Traps::ALL }),
        ("revoke o3", Step::Revoke { proxy: O }),
        ("release o3", Step::Release { object: O }),
        ("getPrototypeOf o3", Step::GetPrototypeOf { object: O }),
        ("setPrototypeOf o3 null", Step::SetPrototypeOf { object: O, prototype: None }),
        ("setPrototypeOf o3 o3", Step::SetPrototypeOf { object: O, prototype: Some(O.into()) }),
        ("setPrototypeOf o3 f3", Step::SetPrototypeOf { object: O, prototype: Some(F.into()) }),
        ("isExtensible o3", Step::IsExtensible { object: O }),
        ("preventExtensions o3", Step::PreventExtensions { object: O }),
        ("getOwnPropertyDescriptor o3 y7", Step::GetOwnProperty { object: O, key: Y }),
        ("defineProperty o3 y7 {}", Step::DefineOwnProperty { object: O, key: Y, descriptor: PropertyDescriptor::default() }),
        ("has o3 y7 # a comment", Step::HasProperty { object: O, key: Y }),
        ("get o3 y7", Step::Get { object: O, key: Y, receiver: O.into() }),
        ("get o3 s9 receiver 5", Step::Get { object: O, key: StringId(9).into(), receiver: 5.into() }),
        ("set o3 y7 -0", Step::Set { object: O, key: Y, value: (-0.0).into(), receiver: O.into() }),
        ("set o3 y7 null receiver null", Step::Set { object: O, key: Y, value: Value::Null, receiver: Value::Null }),
        ("deleteProperty o3 y7", Step::Delete { object: O, key: Y }),
        ("ownKeys o3", Step::OwnPropertyKeys { object: O }),
        ("seal o3", Step::SetIntegrityLevel { object: O, level: IntegrityLevel::Sealed }),
        ("freeze o3", Step::SetIntegrityLevel { object: O, level: IntegrityLevel::Frozen }),
        ("isSealed o3", Step::TestIntegrityLevel { object: O, level: IntegrityLevel::Sealed }),
        ("isFrozen o3", Step::TestIntegrityLevel { object: O, level: IntegrityLevel::Frozen }),
    ] {
        assert_eq!(one(text), (step, vec![]), "{text}");
    }
}

/// The object that a step is on is a number in its record, of a function too; the receiver that is not given is what it is called.
#[test]
fn a_step_may_be_on_a_function() {
    for line in [
        "proxy o3 traps get",
        "revoke o3",
        "release o3",
        "getPrototypeOf o3",
        "setPrototypeOf o3 null",
        "isExtensible o3",
        "preventExtensions o3",
        "getOwnPropertyDescriptor o3 y7",
        "defineProperty o3 y7 {}",
        "has o3 y7",
        "deleteProperty o3 y7",
        "ownKeys o3",
        "seal o3",
        "isFrozen o3",
        "get o3 y7 receiver null",
        "set o3 y7 1 receiver null",
    ] {
        assert_eq!(one(&line.replacen("o3", "f3", 1)), one(line), "{line}");
    }
    for (text, step) in [
        ("get f3 y7", Step::Get { object: O, key: Y, receiver: F.into() }),
        ("get f3 y7 receiver o3", Step::Get { object: O, key: Y, receiver: O.into() }),
        ("get o3 y7 receiver f3", Step::Get { object: O, key: Y, receiver: F.into() }),
        ("set f3 y7 f3", Step::Set { object: O, key: Y, value: F.into(), receiver: F.into() }),
        ("set o3 y7 f3", Step::Set { object: O, key: Y, value: F.into(), receiver: O.into() }),
    ] {
        assert_eq!(one(text), (step, vec![]), "{text}");
    }
}

#[test]
fn every_trap_has_a_name() {
    for (i, name) in [
        "getPrototypeOf",
        "setPrototypeOf",
        "isExtensible",
        "preventExtensions",
        "getOwnPropertyDescriptor",
        "defineProperty",
        "has",
        "get",
        "set",
        "deleteProperty",
        "ownKeys",
    ]
    .iter()
    .enumerate()
    {
        assert_eq!(one(&format!("proxy o3 traps {name}")).0, Step::MakeProxy { target: O, traps: Traps::from_mask(1 << i).unwrap() });
    }
}

#[test]
fn values() {
    for (text, value) in [
        ("undefined", Value::Undefined),
        ("null", Value::Null),
        ("true", true.into()),
        ("false", false.into()),
        ("0", 0.into()),
        ("-2147483648", i32::MIN.into()),
        ("2147483647", i32::MAX.into()),
        ("1.0", 1.0.into()),
        ("1e3", 1000.0.into()),
        ("-0", (-0.0).into()),
        ("-0.0", (-0.0).into()),
        ("Infinity", f64::INFINITY.into()),
        ("-Infinity", f64::NEG_INFINITY.into()),
        ("NaN", f64::NAN.into()),
        ("o31", ObjectId(31).into()),
        ("f2", FunctionId(2).into()),
        ("y255", SymbolId(255).into()),
        ("s4", StringId(4).into()),
    ] {
        assert_eq!(one(&format!("get o3 y7 receiver {text}")).0, Step::Get { object: O, key: Y, receiver: value }, "{text}");
    }
}

#[test]
fn answers_stand_behind_or_below() {
    let expected = vec![
        Answer::Value(4_464.into()),
        Answer::Throw(Value::Null),
        Answer::Descriptor(PropertyDescriptor {
            value: Some(1.into()),
            writable: Some(false),
            enumerable: Some(true),
            configurable: Some(false),
            get: None,
            set: None,
        }),
        Answer::Keys(vec![SymbolId(3).into(), Value::Null]),
        Answer::Keys(vec![]),
        Answer::Descriptor(PropertyDescriptor { get: Some(FunctionId(1).into()), set: Some(Value::Undefined), ..Default::default() }),
    ];
    let first = "value 4464, throw null, descriptor {value: 1, writable: false, enumerable: true, configurable: false}";
    let second = "keys [y3, null], [], {get: f1, set: undefined}";
    for text in [
        format!("ownKeys o3 answers: {first}, {second}"),
        format!("ownKeys o3 answers: {first}\n   {second}"),
        format!("ownKeys o3\n  answers: {first}\n\n# between\n\t{second}"),
    ] {
        assert_eq!(one(&text).1, expected, "{text}");
    }
}

#[test]
fn texts_are_entered_before_their_line() {
    let text = "has o0 \"b\"\nstring \"a\"\nget o0 \"a\" answers: \"b\"\n  throw \"new\\u0041\\n\\\"\\\\\\t\"\nstring \"a\"";
    assert_eq!(
        calls(text),
        vec![
            Call::Enter(units("b")),
            Call::Step { step: Step::HasProperty { object: ObjectId(0), key: StringId(0).into() }, answers: vec![] },
            Call::Enter(units("a")),
            Call::Enter(units("newA\n\"\\\t")),
            Call::Step {
                step: Step::Get { object: ObjectId(0), key: StringId(1).into(), receiver: ObjectId(0).into() },
                answers: vec![Answer::Value(StringId(0).into()), Answer::Throw(StringId(2).into())],
            },
            Call::Enter(units("a")),
        ]
    );
    // too long to have a number: entering it is refused when it runs
    assert_eq!(calls(&format!("string \"{}\"\nhas o0 \"b\"", "x".repeat(33)))[1], Call::Enter(units("b")));
}

/// The place of an error, what was expected there, and what was found.
#[track_caller]
fn error(text: &str, line: usize, column: usize, expected: &str, found: &str) {
    let error = parse(text).unwrap_err();
    assert_eq!((error.line(), error.column(), error.expected(), error.found()), (line, column, expected, found), "{text}");
    assert_eq!(error.to_string(), format!("line {line}, column {column}: expected {expected}, found {found}"));
}

const END: &str = "the end of the line";
const VALUE: &str = "a value (as undefined, null, true, 70000, -0.5, \"text\", o0, s0, y0 or f0)";
const OBJECT: &str = "an object (o0 to o255) or a function (f0 to f255)";
const PROTOTYPE: &str = "null, an object (o0 to o255) or a function (f0 to f255)";
const FIELD: &str = "a field (value, writable, get, set, enumerable or configurable)";
const STEP: &str = "a step (string, object, function, proxy, revoke, release, getPrototypeOf, setPrototypeOf, isExtensible, preventExtensions, \
                    getOwnPropertyDescriptor, defineProperty, has, get, set, deleteProperty, ownKeys, seal, freeze, isSealed, isFrozen)";
const TRAP: &str = "a trap (getPrototypeOf, setPrototypeOf, isExtensible, preventExtensions, getOwnPropertyDescriptor, defineProperty, has, \
                    get, set, deleteProperty, ownKeys), 'all' or a mask of at most 2047";

#[test]
fn errors_say_what_was_expected_and_what_was_found() {
    for (text, line, column, expected, found) in [
        ("object\n\nfetch o0", 3, 1, STEP, "'fetch'"),
        ("\"get\" o0", 1, 1, STEP, "\"get\""),
        ("{", 1, 1, STEP, "'{'"),
        ("string visits", 1, 8, "a text", "'visits'"),
        ("string \"a\" \"b\"", 1, 12, END, "\"b\""),
        ("get", 1, 4, OBJECT, END),
        ("get visits", 1, 5, OBJECT, "'visits'"),
        ("get o256 y0", 1, 5, "o0 to o255", "'o256'"),
        ("get f256 y0", 1, 5, "f0 to f255", "'f256'"),
        ("get s0 y0", 1, 5, OBJECT, "'s0'"),
        ("get o0", 1, 7, "a key (a text, s0 to s255 or y0 to y255)", END),
        ("get o0 f0", 1, 8, "a key (a text, s0 to s255 or y0 to y255)", "'f0'"),
        ("get o0 s256", 1, 8, "s0 to s255", "'s256'"),
        ("get o0 y999999999999", 1, 8, "y0 to y255", "'y999999999999'"),
        ("get o0 y0 y1", 1, 11, "'receiver', 'answers:' or the end of the line", "'y1'"),
        ("has o0 y0 receiver o0", 1, 11, "'answers:' or the end of the line", "'receiver'"),
        ("getOwnPropertyDescriptor o0 \"é\" x", 1, 33, "'answers:' or the end of the line", "'x'"),
        ("get o0 y0 receiver", 1, 19, VALUE, END),
        ("get o0 y0 receiver it", 1, 20, VALUE, "'it'"),
        ("get o0 y0 receiver f256", 1, 20, "f0 to f255", "'f256'"),
        ("object it", 1, 8, PROTOTYPE, "'it'"),
        ("object f256", 1, 8, "f0 to f255", "'f256'"),
        ("function it", 1, 10, PROTOTYPE, "'it'"),
        ("function \"f0\"", 1, 10, PROTOTYPE, "\"f0\""),
        ("function o256", 1, 10, "o0 to o255", "'o256'"),
        ("function null null", 1, 15, "'answers:' or the end of the line", "'null'"),
        ("setPrototypeOf o0", 1, 18, PROTOTYPE, END),
        ("setPrototypeOf o0 undefined", 1, 19, PROTOTYPE, "'undefined'"),
        ("proxy o0 get", 1, 10, "'traps', 'answers:' or the end of the line", "'get'"),
        ("proxy o0 traps", 1, 15, TRAP, END),
        ("proxy o0 traps read", 1, 16, TRAP, "'read'"),
        ("proxy o0 traps 2048", 1, 16, TRAP, "'2048'"),
        ("proxy o0 traps freeze", 1, 16, TRAP, "'freeze'"),
        ("freeze", 1, 7, OBJECT, END),
        ("isSealed \"o0\"", 1, 10, OBJECT, "\"o0\""),
        ("seal o0 frozen", 1, 9, "'answers:' or the end of the line", "'frozen'"),
        ("proxy o0 traps get set", 1, 20, "',', 'answers:' or the end of the line", "'set'"),
        ("defineProperty o0 y0", 1, 21, "'{'", END),
        ("defineProperty o0 y0 {value 1}", 1, 29, "':'", "'1'"),
        ("defineProperty o0 y0 {writable: 1}", 1, 33, "true or false", "'1'"),
        ("defineProperty o0 y0 {colour: 1}", 1, 23, FIELD, "'colour'"),
        ("defineProperty o0 y0 {value: 1,}", 1, 32, FIELD, "'}'"),
        ("defineProperty o0 y0 {value: 1, value: 2}", 1, 33, "each field once", "'value' again"),
        ("defineProperty o0 y0 {value: 1", 1, 31, "',' or '}'", END),
        ("defineProperty o0 y0 {value: 1]", 1, 31, "',' or '}'", "']'"),
        ("ownKeys o0 answers: [y0 y1]", 1, 25, "',' or ']'", "'y1'"),
        ("  value 5", 1, 3, "a step before answers", "no line"),
        ("string \"a\"\n  value 5", 2, 3, "a step before answers", "the entry of a string"),
        ("get o0 y0 answers 5", 1, 19, "':'", "'5'"),
        ("get o0 y0 answers:", 1, 19, "an answer (a value, a descriptor {..}, keys [..] or throw and a value)", END),
        ("get o0 y0 answers: throw", 1, 25, VALUE, END),
        ("get o0 y0 answers: 1 2", 1, 22, "',' or the end of the line", "'2'"),
        ("get o0 y0\n  1 2", 2, 5, "',' or the end of the line", "'2'"),
        ("get o0 (y0)", 1, 8, "a word, a text in '\"', or one of { } [ ] , : #", "'('"),
        ("get o0 \"a", 1, 8, "a text that ends in '\"'", END),
        ("get o0 \"\\x\"", 1, 9, "an escape (\\\" \\\\ \\n \\t or \\u and four digits)", "'\\x'"),
        ("get o0 \"\\", 1, 9, "an escape (\\\" \\\\ \\n \\t or \\u and four digits)", END),
        ("get o0 \"\\u12g4\"", 1, 9, "four hexadecimal digits after '\\u'", "'12g4'"),
        ("get o0 \"\\u12", 1, 9, "four hexadecimal digits after '\\u'", "'12'"),
        ("get o0 \"\\u", 1, 9, "four hexadecimal digits after '\\u'", END),
    ] {
        error(text, line, column, expected, found);
    }
    error("defineProperty o0 y0 {", 1, 23, &format!("{FIELD} or '}}'"), END);
    error("ownKeys o0 answers: [", 1, 22, &format!("{VALUE} or ']'"), END);
    error(&format!("get o0 \"{}\"", "x".repeat(33)), 1, 8, "a text of at most 32 code units", "one of 33");
    let many: String = (0..257).map(|i| format!("has o0 \"{i}\"\n")).collect();
    error(&many, 257, 8, "at most 256 different texts", "one more");
    // what is found is not told at length
    error(&format!("get {}", "x".repeat(61)), 1, 5, OBJECT, &format!("'{}...'", "x".repeat(60)));
    error(&format!("get \"{}\"", "é".repeat(100)), 1, 5, OBJECT, &format!("\"{}...", "é".repeat(59)));
}

/// Each step and each trap that an error names is one.
#[test]
fn errors_name_what_there_is() {
    let inside = |text: &str| text[text.find('(').unwrap() + 1..text.find(')').unwrap()].to_string();
    for name in inside(STEP).split(", ") {
        assert_ne!(parse(name).map_err(|e| e.expected().to_string()), Err(STEP.to_string()), "{name}");
    }
    for name in inside(TRAP).split(", ") {
        assert!(parse(&format!("proxy o0 traps {name}")).is_ok(), "{name}");
    }
}

/// A number is an Integer32 or a Float64 that holds it, and never becomes an infinity.
#[test]
fn numbers_that_do_not_fit_are_errors() {
    const WHOLE: &str = "a whole number from -2147483648 to 2147483647, or one with a point or an exponent";
    const FLOAT: &str = "a number from -1.7976931348623157e308 to 1.7976931348623157e308, Infinity or -Infinity";
    for (word, expected) in [
        ("2147483648", WHOLE),
        ("-2147483649", WHOLE),
        ("12abc", WHOLE),
        ("-", WHOLE),
        ("-NaN", WHOLE),
        ("+Infinity", WHOLE),
        ("-inf", WHOLE),
        ("1e999", FLOAT),
        ("-1e999", FLOAT),
        ("1.8e308", FLOAT),
        ("-1.8E308", FLOAT),
        ("1e309", FLOAT),
        ("1.0e99999999999999999999", FLOAT),
        (".", "a number"),
        ("1.2.3", "a number"),
        ("1e", "a number"),
        ("1e5e5", "a number"),
        ("1_000.0", "a number"),
    ] {
        error(&format!("set o0 y0 {word}"), 1, 11, expected, &format!("'{word}'"));
        error(&format!("get o0 y0 answers: {word}"), 1, 20, expected, &format!("'{word}'"));
    }
    let digits = "9".repeat(400);
    error(&format!("set o0 y0 {digits}"), 1, 11, WHOLE, &format!("'{}...'", "9".repeat(60)));
    error(&format!("set o0 y0 -{digits}.0"), 1, 11, FLOAT, &format!("'-{}...'", "9".repeat(59)));
    for (word, value) in [
        ("1.7976931348623157e308", f64::MAX),
        ("-1.7976931348623157e308", f64::MIN),
        // rounds to the largest
        ("1.7976931348623158e308", f64::MAX),
        ("5e-324", 5e-324),
        ("1e-999", 0.0),
        ("Infinity", f64::INFINITY),
        ("-Infinity", f64::NEG_INFINITY),
        ("-00", -0.0),
    ] {
        assert_eq!(one(&format!("set o3 y7 {word}")).0, Step::Set { object: O, key: Y, value: value.into(), receiver: O.into() }, "{word}");
    }
}

/// The first line is the example of request 01.
#[test]
fn cells_are_hexadecimal() {
    assert_eq!(HEADING, "step object key value receiver descriptor sheet");
    let text =
        "object\nstring \"\"\nstring \"aé\"\nget o0 \"aé\" answers: 4464\nownKeys o0\nseal o0\nfreeze o1 answers: false\nisSealed o0\nisFrozen o0\n\
         function\nfunction f2 answers: f31\nget f2 y0";
    let lines: Vec<String> = calls(text).iter().map(cells).collect();
    assert_eq!(
        lines,
        [
            "01 00 - 010000000000000000 - - -",
            "0f 00 - - - - -",
            "0f 00 - - - - 006100e9",
            "0b 00 050100000000000000 - 070000000000000000 - 0101037011000000000000",
            "0e 00 - - - - -",
            "12 00 - 030000000000000000 - - -",
            "12 01 - 030100000000000000 - - 0101020000000000000000",
            "13 00 - 030000000000000000 - - -",
            "13 00 - 030100000000000000 - - -",
            "10 00 - 010000000000000000 - - -",
            "10 00 - 080200000000000000 - - 0101081f00000000000000",
            "0b 02 060000000000000000 - 080200000000000000 - -",
        ]
    );
}

/// Calls that are written as readable lines are the same calls when they are read again.
#[test]
fn readable_calls_are_read_again() {
    let mut texts = vec![
        "string \"\\ud800\\udc00 \\udc00\\ud800 \\u0000\\u007f\\u0085 \\\\ \\\" \\n\\t é ☃ 😀\"".to_string(),
        "string \"a\"\nhas o0 s0\nhas o0 s1\nstring \"late\"\nhas o0 s1".to_string(),
        format!("string \"{}\"\nhas o0 s0", "x".repeat(33)),
    ];
    for name in ["sealed.steps", "day.steps"] {
        texts.push(std::fs::read_to_string(format!("{}/examples/{name}", env!("CARGO_MANIFEST_DIR"))).unwrap());
    }
    let values =
        "[undefined, null, true, false, 0, -1, 2147483647, -2147483648, 0.5, -0, 1e300, -5e-324, Infinity, -Infinity, NaN, y255, o255, f255]";
    for step in [
        "object",
        "object o1",
        "object f1",
        "function",
        "function o1",
        "function f1",
        "proxy o0",
        "proxy o0 traps all",
        "proxy o0 traps 1365",
        "proxy o0 traps 682",
        "revoke o1",
        "release o1",
        "getPrototypeOf o1",
        "setPrototypeOf o1 null",
        "setPrototypeOf o1 o2",
        "setPrototypeOf f1 f2",
        "isExtensible o1",
        "preventExtensions o1",
        "getOwnPropertyDescriptor o1 \"a\"",
        "defineProperty o1 y7 {value: 1, writable: true, get: undefined, set: f1, enumerable: false, configurable: true}",
        "has o1 \"a\"",
        "get o1 \"a\" receiver null",
        "get f1 \"a\"",
        "set f1 \"a\" f2",
        "set o1 \"a\" -0 receiver \"b\"",
        "deleteProperty o1 s200",
        "ownKeys o1",
        "seal o1",
        "freeze o1",
        "isSealed o1",
        "isFrozen o1",
    ] {
        texts.push(format!("{step} answers: {values}, throw 1, {{}}, {{get: \"c\"}}, [], \"a\""));
    }
    for text in texts {
        let calls = calls(&text);
        let mut strings = Strings::new();
        let mut again = String::new();
        for call in &calls {
            if let Call::Enter(units) = call {
                strings.enter(units);
            }
            again += &format!("{}\n", readable::call(call, &strings));
        }
        assert_eq!(parse(&again).unwrap().into_iter().map(|l| l.call).collect::<Vec<_>>(), calls, "{again}");
    }
}

#[test]
fn strings_have_their_numbers() {
    let mut strings = Strings::new();
    assert_eq!(strings.enter(&units("visits")), Some(StringId(0)));
    assert_eq!(strings.enter(&[65; 33]), None);
    assert_eq!(strings.enter(&[65; 32]), Some(StringId(1)));
    assert_eq!(strings.enter(&units("visits")), Some(StringId(0)));
    for n in 2..256 {
        assert_eq!(strings.enter(&[n]), Some(StringId(n as u8)));
    }
    assert_eq!((strings.enter(&[1]), strings.enter(&[2])), (None, Some(StringId(2))));
    assert_eq!((strings.number(&[1]), strings.number(&[255])), (None, Some(StringId(255))));
    assert_eq!(strings.units(StringId(0)), Some(&units("visits")[..]));
    assert_eq!(Strings::new().units(StringId(0)), None);
}
