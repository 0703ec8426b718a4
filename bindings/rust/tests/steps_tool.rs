//! The program `steps`, run as it is.
use std::io::Write;
use std::process::{Command, Output, Stdio};

fn steps(arguments: &[&str], input: &str) -> Output {
    let mut child = Command::new(env!("CARGO_BIN_EXE_steps"))
        .args(arguments)
        .stdin(Stdio::piped())
        .stdout(Stdio::piped())
        .stderr(Stdio::piped())
        .spawn()
        .unwrap();
    // a program that refuses its arguments may end before it reads
    let _ = child.stdin.take().unwrap().write_all(input.as_bytes());
    child.wait_with_output().unwrap()
}

fn text_of(bytes: Vec<u8>) -> String {
    String::from_utf8(bytes).unwrap()
}

#[test]
fn lines_bytes_and_reports_are_printed() {
    let input = "object\ndefineProperty o0 \"visits\" {value: 70000, writable: false, enumerable: true, configurable: false}\nproxy o0 traps get\nget o1 \"visits\" receiver o1 # sixteen bits\n    answers: 4464\nget o1 \"visits\"\nget o1 \"visits\" answers: throw \"visits\"\n";
    let ran = steps(&["-"], input);
    assert!(ran.status.success());
    let zeros = |n: usize| "00".repeat(n);
    let expected = [
        "1: object".to_string(),
        format!("   step  0100{}01{}", zeros(9), zeros(46)),
        "   sheet 00".to_string(),
        "   o0 (0 answers, 0 calls)".to_string(),
        "2: string \"visits\"".to_string(),
        "   s0".to_string(),
        "2: defineProperty o0 \"visits\" {value: 70000, writable: false, enumerable: true, configurable: false}".to_string(),
        format!("   step  090005{}0f01037011010000000000{}", zeros(26), zeros(18)),
        "   sheet 00".to_string(),
        "   true (0 answers, 3 calls)".to_string(),
        "3: proxy o0 traps get".to_string(),
        format!("   step  0200{}0380{}", zeros(9), zeros(45)),
        "   sheet 00".to_string(),
        "   o1 (0 answers, 0 calls)".to_string(),
        "4: get o1 \"visits\" receiver o1 # sixteen bits".to_string(),
        "    answers: 4464".to_string(),
        format!("   step  0b0105{}0701{}", zeros(17), zeros(36)),
        "   sheet 0101037011000000000000".to_string(),
        "   TypeError 17: Proxy trap returned unexpected data descriptor (1 answer, 2 calls)".to_string(),
        "6: get o1 \"visits\"".to_string(),
        format!("   step  0b0105{}0701{}", zeros(17), zeros(36)),
        "   sheet 00".to_string(),
        "   refused 8: the sheet has no next answer".to_string(),
        "7: get o1 \"visits\" answers: throw \"visits\"".to_string(),
        format!("   step  0b0105{}0701{}", zeros(17), zeros(36)),
        format!("   sheet 010405{}", zeros(8)),
        "   thrown \"visits\" (1 answer, 1 call)".to_string(),
    ];
    assert_eq!(text_of(ran.stdout).lines().collect::<Vec<_>>(), expected);
}

#[test]
fn cells_are_printed_and_nothing_runs() {
    let ran = steps(&["--cells", "-"], "object\nhas o0 \"a\"\nfunction o0");
    assert!(ran.status.success());
    let expected = "step object key value receiver descriptor sheet\n01 00 - 010000000000000000 - - -\n0f 00 - - - - 0061\n\
                    0a 00 050000000000000000 - - - -\n10 00 - 070000000000000000 - - -\n";
    assert_eq!(text_of(ran.stdout), expected);
}

/// Each page stands under its object's name, and an empty line between two; a proxy has none, and what is refused leaves no trace.
#[test]
fn pages_are_printed_after_the_steps() {
    let input = [
        "object",
        "set o0 \"visits\" 1",
        "proxy o0 traps get",
        "function o0",
        "defineProperty o0 \"visits\" {value: 70000, writable: false, configurable: false}",
        "defineProperty o0 y12 {get: f2, configurable: true}",
        "set o0 \"visits\" 4464",
        "set o0 \"10\" \"visits\"",
        "get o1 \"visits\"       # refused: no answer",
        "set f2 \"2\" f2",
        "object o9             # refused: never made",
        "object f2",
        "set o3 y0 o0 answers: 1   # refused: unread",
        "function",
        "proxy o3",
        "seal f4",
    ]
    .join("\n");
    let names = "key  ecw value or get       set               ";
    let expected = [
        "o0:",
        names,
        "s001 ecw 050000000000000000                   ",
        "s000 e.. 037011010000000000                   ",
        "y012 .c- 080200000000000000 000000000000000000",
        "",
        "f2:",
        names,
        "s002 ecw 080200000000000000                   ",
        "",
        "o3:",
        names,
        "",
        "f4:",
        names,
        "",
    ];
    let ran = steps(&["--pages", "-"], &input);
    assert_eq!((ran.status.code(), text_of(ran.stderr)), (Some(0), String::new()));
    assert_eq!(text_of(ran.stdout), expected.join("\n"));
    // those that are left, in the order of their numbers, each by the name that it has now
    let input = [
        "object",
        "function",
        "object",
        "set o2 y0 1",
        "set o0 y1 f1",
        "release f1            # refused: o0 names it",
        "deleteProperty o0 y1",
        "release o2",
        "release f1",
        "release o0",
        "release o0            # refused: released",
        "function              # f2",
        "proxy f2              # refused: a function",
        "object                # o1",
        "set f2 y2 o1",
        "object o1             # o0",
        "proxy o0              # o3",
        "object                # o4",
        "release o3",
        "function              # f3",
        "release o4",
        "proxy o0              # o4",
    ]
    .join("\n");
    let expected = ["o0:", names, "", "o1:", names, "", "f2:", names, "y002 ecw 070100000000000000                   ", "", "f3:", names, ""];
    let ran = steps(&["--pages", "-"], &input);
    assert_eq!((ran.status.code(), text_of(ran.stderr)), (Some(0), String::new()));
    assert_eq!(text_of(ran.stdout), expected.join("\n"));
    // from a file too, and without an object there is no page
    let file = Steps::new("pages", "object\n");
    let ran = steps(&["--pages", file.0.to_str().unwrap()], "");
    assert_eq!((ran.status.code(), text_of(ran.stdout)), (Some(0), format!("o0:\n{names}\n")));
    for input in ["", "string \"a\"\n", "has o0 y0\nobject o0\n", "object\nrelease o0\n"] {
        let ran = steps(&["--pages", "-"], input);
        assert_eq!((ran.status.code(), ran.stdout, ran.stderr), (Some(0), vec![], vec![]), "{input}");
    }
}

/// As many objects, properties and strings as a store holds; what is too many is refused.
#[test]
fn pages_of_a_full_store_are_printed() {
    let mut input = "object\nfunction\n".repeat(20);
    for n in 0..256 {
        input += &format!("set f31 \"{n}\" {n}\n");
    }
    input += "set f31 y0 0\n";
    let ran = steps(&["--pages", "-"], &input);
    assert_eq!((ran.status.code(), text_of(ran.stderr)), (Some(0), String::new()));
    let told = text_of(ran.stdout);
    let pages: Vec<&str> = told.split("\n\n").collect();
    assert_eq!(pages.len(), 32);
    for (n, page) in pages.iter().enumerate() {
        let title = format!("{}{n}:\nkey  ecw ", if n % 2 == 0 { 'o' } else { 'f' });
        assert!(page.starts_with(&title), "{page}");
        assert_eq!(page.lines().count(), if n == 31 { 258 } else { 2 });
    }
    assert!(told.ends_with("\ns255 ecw 03ff00000000000000                   \n"));
}

/// A file of steps that is removed when the test ends.
struct Steps(std::path::PathBuf);

impl Steps {
    fn new(name: &str, text: &str) -> Steps {
        let path = std::env::temp_dir().join(format!("demnyaluz-{}-{name}.steps", std::process::id()));
        std::fs::write(&path, text).unwrap();
        Steps(path)
    }

    fn rows(&self, rows: &str) -> Output {
        steps(&["--rows", self.0.to_str().unwrap()], rows)
    }
}

impl Drop for Steps {
    fn drop(&mut self) {
        let _ = std::fs::remove_file(&self.0);
    }
}

const ROWS: &str = "line outcome number answers calls value\n";

#[test]
fn rows_are_shown_beside_their_calls() {
    let text = [
        "object   # o0",
        "has o0 \"a\"",
        "string \"\\u0007\\\"\"",
        "string \"a\"",
        "get o0 s7",
        "proxy o0 traps has, get",
        "get o1 \"a\"",
        "   1, throw y3",
        "   [\"a\", -0]",
        "getOwnPropertyDescriptor o0 \"a\"",
        "getOwnPropertyDescriptor o0 \"b\"",
        "ownKeys o0",
        "ownKeys o1",
        "set o0 y1 Infinity",
    ]
    .join("\n");
    let zero = "00".repeat(9);
    let rows = [
        "1 1 0 0 0 070000000000000000".to_string(),
        "2 1 0 0 0 050000000000000000".to_string(),
        "3 1 0 0 2 020000000000000000".to_string(),
        "4 1 0 0 0 050100000000000000".to_string(),
        "5 1 0 0 0 050000000000000000".to_string(),
        "6 0 3 0 0 -".to_string(),
        "7 1 0 0 0 070100000000000000".to_string(),
        "8 3 0 2 3 050000000000000000".to_string(),
        format!("9 1 0 0 1 0f05050100000000000000{zero}{zero}"),
        "10 1 0 0 0 050200000000000000".to_string(),
        "11 1 0 0 1 -".to_string(),
        "12 1 0 0 1 050000000000000000060300000000000000".to_string(),
        "13 1 0 64 2048 -".to_string(),
        "14 0 12 0 0 -".to_string(),
    ];
    let shown = [
        "1: object: o0 (0 answers, 0 calls)",
        "2: string \"a\": s0",
        "3: has o0 \"a\": false (0 answers, 2 calls)",
        "4: string \"\\u0007\\\"\": s1",
        "5: string \"a\": s0",
        "6: get o0 s7: refused 3, a string was not entered or is too long, or a part has a kind that cannot be used",
        "7: proxy o0 traps has, get: o1 (0 answers, 0 calls)",
        "8: get o1 \"a\", handler answers 1, then throw y3, then [\"a\", -0.0]: thrown \"a\" (2 answers, 3 calls)",
        "9: getOwnPropertyDescriptor o0 \"a\": {value: \"\\u0007\\\"\", writable: true, enumerable: true, configurable: false} (0 answers, 1 call)",
        "10: string \"b\": s2",
        "11: getOwnPropertyDescriptor o0 \"b\": absent (0 answers, 1 call)",
        "12: ownKeys o0: [\"a\", y3] (0 answers, 1 call)",
        "13: ownKeys o1: [] (64 answers, 2048 calls)",
        "14: set o0 y1 Infinity: refused 12, the line breaks its form or is too long",
    ];
    let file = Steps::new("shown", &text);
    let ran = file.rows(&format!("{ROWS}{}\n", rows.join("\n")));
    assert_eq!(text_of(ran.stderr), "");
    assert!(ran.status.success());
    assert_eq!(text_of(ran.stdout).lines().collect::<Vec<_>>(), shown);
    // the last line feed may be missing
    assert!(file.rows(&format!("{ROWS}{}", rows.join("\n"))).status.success());
}

/// Steps that reject descriptors, and some that do not.
const REJECTIONS: &str = "object
defineProperty o0 \"visits\" {value: 70000, writable: false, enumerable: true, configurable: false}
defineProperty o0 \"visits\" {value: 4464}
defineProperty o0 \"visits\" {value: 4464}
defineProperty o0 \"visits\" {writable: true}
proxy o0 traps defineProperty, getOwnPropertyDescriptor
defineProperty o1 \"visits\" {value: 4464} answers: true
defineProperty o1 \"visits\" {value: 4464} answers: false
getOwnPropertyDescriptor o1 \"visits\" answers: {value: 70000}
proxy o1
getOwnPropertyDescriptor o2 \"visits\" answers: {value: 4464, enumerable: true}
preventExtensions o2
defineProperty o0 y3 {}
set o0 \"visits\" 4464
";

/// The first test that failed stands with the outcome, and lines alike have the same.
#[test]
fn failed_tests_are_shown() {
    let cells = steps(&["--cells", "-"], REJECTIONS).stdout;
    let rows = text_of(demnyaluz::run_text(&cells));
    let define = "defineProperty o0 \"visits\" {value: 70000, writable: false, enumerable: true, configurable: false}";
    let shown = [
        "1: object: o0 (0 answers, 0 calls)",
        "2: string \"visits\": s0",
        &format!("3: {define}: true (0 answers, 3 calls)"),
        "4 to 5: defineProperty o0 \"visits\" {value: 4464}: false, failed test: value (0 answers, 3 calls)",
        "6: defineProperty o0 \"visits\" {writable: true}: false, failed test: writable (0 answers, 3 calls)",
        "7: proxy o0 traps getOwnPropertyDescriptor, defineProperty: o1 (0 answers, 0 calls)",
        "8: defineProperty o1 \"visits\" {value: 4464}, handler answers true: \
         TypeError 14, Proxy trap set property to unexpected value, failed test: value (1 answer, 3 calls)",
        "9: defineProperty o1 \"visits\" {value: 4464}, handler answers false: false (1 answer, 1 call)",
        "10: getOwnPropertyDescriptor o1 \"visits\", handler answers {value: 70000}: \
         TypeError 10, Proxy trap returned unexpected property, failed test: enumerable (1 answer, 3 calls)",
        "11: proxy o1: o2 (0 answers, 0 calls)",
        "12: getOwnPropertyDescriptor o2 \"visits\", handler answers {value: 4464, enumerable: true}: \
         TypeError 10, Proxy trap returned unexpected property, failed test: value (1 answer, 4 calls)",
        "13: preventExtensions o2: true (0 answers, 3 calls)",
        "14: defineProperty o0 y3 {}: false, failed test: extensible (0 answers, 3 calls)",
        "15: set o0 \"visits\" 4464: false (0 answers, 2 calls)",
    ];
    let file = Steps::new("failed", REJECTIONS);
    let ran = file.rows(&rows);
    assert_eq!(text_of(ran.stderr), "");
    assert_eq!(text_of(ran.stdout).lines().collect::<Vec<_>>(), shown);

    // from a row on that is not what the step reports here no test is told
    let (row, other) = ("6 1 0 0 3 020000000000000000", "6 1 0 0 4 020000000000000000");
    assert!(rows.contains(row));
    let ran = file.rows(&rows.replace(row, other));
    let told = text_of(ran.stdout);
    assert_eq!(told.lines().filter(|l| l.contains("failed test")).collect::<Vec<_>>(), [shown[3]]);
    assert!(told.contains("6: defineProperty o0 \"visits\" {writable: true}: false (0 answers, 4 calls)\n"));
    // an entry's too
    let ran = file.rows(&rows.replace("2 1 0 0 0 050000000000000000", "2 1 0 0 0 050100000000000000"));
    assert!(ran.status.success() && !text_of(ran.stdout).contains("failed test"));
}

/// A line of its own after the report.
#[test]
fn failed_tests_are_printed() {
    let ran = steps(&["-"], REJECTIONS);
    assert!(ran.status.success());
    let told = text_of(ran.stdout);
    let lines: Vec<&str> = told.lines().collect();
    let failed = |i: &usize| lines[*i].starts_with("   failed test: ");
    let found: Vec<_> = (0..lines.len()).filter(failed).map(|i| (lines[i - 1].split([':', '(']).next().unwrap().trim(), lines[i].trim())).collect();
    let expected = [
        ("false", "failed test: value"),
        ("false", "failed test: value"),
        ("false", "failed test: writable"),
        ("TypeError 14", "failed test: value"),
        ("TypeError 10", "failed test: enumerable"),
        ("TypeError 10", "failed test: value"),
        ("false", "failed test: extensible"),
    ];
    assert_eq!(found, expected);
}

#[test]
fn rows_that_do_not_belong_to_the_calls_are_errors() {
    let file = Steps::new("errors", "object\nownKeys o0\ngetOwnPropertyDescriptor o0 y1\n");
    let made = "1 1 0 0 0 070000000000000000\n";
    let malformed = |line: u64, call: &str, row: &str, why: &str| format!("the row of line {line} ({call}) is malformed, '{row}': {why}");
    for (rows, shown, message) in [
        (String::new(), 0, "expected the heading 'line outcome number answers calls value', found no line".to_string()),
        (made.to_string(), 0, "expected the heading 'line outcome number answers calls value', found '1 1 0 0 0 070000000000000000'".to_string()),
        (
            format!("{ROWS}0 0 12 0 0 -\n"),
            0,
            "expected the row of line 1, found that of a first line that is refused: it is not the seven names".to_string(),
        ),
        (ROWS.to_string(), 0, "expected the row of line 1 (object), found no more: there are rows for 0 of 3 calls".to_string()),
        (format!("{ROWS}{made}"), 1, "expected the row of line 2 (ownKeys o0), found no more: there are rows for 1 of 3 calls".to_string()),
        (format!("{ROWS}{made}2 1 0 0 1 -\n3 1 0 0 1 -\n4 1 0 0 1 -\n"), 3, "expected rows for 3 calls, found one more, '4 1 0 0 1 -'".to_string()),
        (format!("{ROWS}{made}3 1 0 0 1 -\n"), 1, "expected the row of line 2 (ownKeys o0), found that of another, '3 1 0 0 1 -'".to_string()),
        (format!("{ROWS}\n"), 0, malformed(1, "object", "", "expected six parts with one space between them, found 1")),
        (
            format!("{ROWS}1 1 0 0 0 070000000000000000 -\n"),
            0,
            malformed(1, "object", "1 1 0 0 0 070000000000000000 -", "expected six parts with one space between them, found 7"),
        ),
        (format!("{ROWS}01 0 1 0 0 -\n"), 0, malformed(1, "object", "01 0 1 0 0 -", "expected a decimal number as line, found '01'")),
        (format!("{ROWS}1 +1 0 0 0 -\n"), 0, malformed(1, "object", "1 +1 0 0 0 -", "expected a decimal number as outcome, found '+1'")),
        (format!("{ROWS}1 4 0 0 0 -\n"), 0, malformed(1, "object", "1 4 0 0 0 -", "expected outcome 0 to 3, found 4")),
        (format!("{ROWS}1 0 15 0 0 -\n"), 0, malformed(1, "object", "1 0 15 0 0 -", "expected the number of a refusal, found 15")),
        (format!("{ROWS}1 2 33 0 0 -\n"), 0, malformed(1, "object", "1 2 33 0 0 -", "expected the number of a message, found 33")),
        (format!("{ROWS}1 0 7 0 1 -\n"), 0, malformed(1, "object", "1 0 7 0 1 -", "expected no answers and no calls with a refusal, found 0 and 1")),
        (format!("{ROWS}1 0 7 65 1 -\n"), 0, malformed(1, "object", "1 0 7 65 1 -", "expected at most 64 answers, found 65")),
        (format!("{ROWS}1 2 1 0 2049 -\n"), 0, malformed(1, "object", "1 2 1 0 2049 -", "expected at most 2048 calls, found 2049")),
        (format!("{ROWS}1 2 1 0 1 00\n"), 0, malformed(1, "object", "1 2 1 0 1 00", "expected value '-' with a refusal or a TypeError, found '00'")),
        (format!("{ROWS}1 1 0 0 1 -\n"), 0, malformed(1, "object", "1 1 0 0 1 -", "expected bytes in lowercase hexadecimal as value, found '-'")),
        (format!("{ROWS}1 1 0 0 1 0A\n"), 0, malformed(1, "object", "1 1 0 0 1 0A", "expected bytes in lowercase hexadecimal as value, found '0A'")),
        (format!("{ROWS}1 1 0 0 1 00\n"), 0, malformed(1, "object", "1 1 0 0 1 00", "expected the 9 bytes of a value, found '00'")),
        (
            format!("{ROWS}1 1 5 0 0 070000000000000000\n"),
            0,
            malformed(1, "object", "1 1 5 0 0 070000000000000000", "expected number 0 with a result or a thrown value, found 5"),
        ),
        (
            format!("{ROWS}{made}2 1 0 0 1 070000000000000000\n"),
            1,
            malformed(2, "ownKeys o0", "2 1 0 0 1 070000000000000000", "expected 9 bytes for each key, found '070000000000000000'"),
        ),
        (
            format!("{ROWS}{made}2 1 0 0 1 -\n3 1 0 0 1 0f\n"),
            2,
            malformed(3, "getOwnPropertyDescriptor o0 y1", "3 1 0 0 1 0f", "expected the 29 bytes of a complete descriptor, found '0f'"),
        ),
    ] {
        let ran = file.rows(&rows);
        assert_eq!(text_of(ran.stderr), format!("{}: {message}\n", file.0.display()), "{rows}");
        assert_eq!(ran.status.code(), Some(1), "{rows}");
        assert_eq!(text_of(ran.stdout).lines().count(), shown, "{rows}");
    }
}

#[test]
fn help_has_each_option_and_an_example_that_runs() {
    let ran = steps(&["--help"], "");
    assert!(ran.status.success() && ran.stderr.is_empty());
    let help = text_of(ran.stdout);
    assert!(help.starts_with("usage: steps [--cells | --rows | --pages] [--] FILE\n"));
    for option in ["--cells", "--rows", "--pages", "--help, -h", "--"] {
        assert!(help.lines().any(|l| l.starts_with(&format!("  {option} "))), "{option}");
    }
    assert!(help.lines().all(|l| l.chars().count() <= 110), "{help}");
    for more in [&["-h"][..], &["--cells", "--help"], &["--help", "--read"]] {
        let ran = steps(more, "");
        assert_eq!((ran.status.code(), text_of(ran.stdout)), (Some(0), help.clone()), "{more:?}");
    }
    // the indented lines after 'Example' are the file, then its last report
    let (_, example) = help.split_once("\nExample: ").unwrap();
    let mut indented: Vec<&str> = example.lines().filter_map(|l| l.strip_prefix("  ")).collect();
    let report = indented.pop().unwrap();
    let ran = steps(&["-"], &indented.join("\n"));
    assert!(ran.status.success());
    assert_eq!(text_of(ran.stdout).lines().last().unwrap().trim_start(), report);
    assert!(report.starts_with("TypeError 17: "));
}

#[test]
fn wrong_arguments_are_named() {
    for (arguments, message) in [
        (&[][..], "expected a FILE, found none"),
        (&["--cells"], "expected a FILE, found none"),
        (&["--rows"], "expected a FILE, found none"),
        (&["--pages"], "expected a FILE, found none"),
        (&["--"], "expected a FILE, found none"),
        (&["--read", "x"], "unknown option '--read'"),
        (&["x", "--read"], "unknown option '--read'"),
        (&["-x"], "unknown option '-x'"),
        (&["--cells=x"], "unknown option '--cells=x'"),
        (&["--Help"], "unknown option '--Help'"),
        (&["--cells", "--rows", "x"], "expected one of --cells, --rows and --pages, found '--rows' as a second"),
        (&["--rows", "--rows", "x"], "expected one of --cells, --rows and --pages, found '--rows' as a second"),
        (&["--pages", "x", "--cells"], "expected one of --cells, --rows and --pages, found '--cells' as a second"),
        (&["--rows", "--pages", "x"], "expected one of --cells, --rows and --pages, found '--pages' as a second"),
        (&["--page", "x"], "unknown option '--page'"),
        (&["--pages", "x", "y"], "expected one FILE, found 'y' as a second"),
        (&["--rows", "-"], "expected a FILE with --rows, which reads the rows from the standard input, found '-'"),
        (&["--rows", "x", "y"], "expected one FILE, found 'y' as a second"),
        (&["x", "--", "--cells"], "expected one FILE, found '--cells' as a second"),
    ] {
        let ran = steps(arguments, "");
        let told = (ran.status.code(), text_of(ran.stderr), text_of(ran.stdout));
        assert_eq!(told, (Some(2), format!("steps: {message}; see 'steps --help'\n"), String::new()), "{arguments:?}");
    }
}

#[test]
fn options_may_follow_the_file() {
    let cells = steps(&["--cells", "-"], "object");
    for arguments in [["-", "--cells"].as_slice(), &["--cells", "--", "-"]] {
        assert_eq!(steps(arguments, "object").stdout, cells.stdout, "{arguments:?}");
    }
    // a file whose name begins with a dash
    let ran = steps(&["--", "--cells"], "");
    assert_eq!(ran.status.code(), Some(1));
    assert!(text_of(ran.stderr).starts_with("--cells: No such file"));
}

#[cfg(unix)]
#[test]
fn arguments_need_not_be_unicode() {
    use std::os::unix::ffi::OsStrExt;
    for (argument, code, message) in [(&b"\xff"[..], 1, "\u{fffd}: No such file"), (b"--\xff", 2, "steps: unknown option '--\u{fffd}'")] {
        let ran = Command::new(env!("CARGO_BIN_EXE_steps")).arg(std::ffi::OsStr::from_bytes(argument)).output().unwrap();
        assert_eq!(ran.status.code(), Some(code));
        assert!(text_of(ran.stderr).starts_with(message));
    }
}

#[test]
fn an_error_names_line_and_column() {
    for (input, message) in [
        ("object\nget o0 visits\n", "line 2, column 8: expected a key (a text, s0 to s255 or y0 to y255), found 'visits'"),
        (
            "object\nset o0 y0 1e999",
            "line 2, column 11: expected a number from -1.7976931348623157e308 to 1.7976931348623157e308, Infinity or -Infinity, found '1e999'",
        ),
    ] {
        for mode in [&["-"][..], &["--cells", "-"], &["--pages", "-"]] {
            let ran = steps(mode, input);
            assert_eq!(ran.status.code(), Some(1));
            assert_eq!(text_of(ran.stderr), format!("-: {message}\n"));
            assert!(ran.stdout.is_empty());
        }
    }
    for mode in [&["no such file"][..], &["--pages", "no such file"]] {
        let ran = steps(mode, "");
        assert_eq!(ran.status.code(), Some(1));
        assert!(text_of(ran.stderr).starts_with("no such file: No such file"));
    }
}

#[test]
fn a_file_that_is_no_text_is_an_error() {
    let path = std::env::temp_dir().join(format!("demnyaluz-{}-bytes.steps", std::process::id()));
    std::fs::write(&path, b"object\nhas o0 \"\xc3\xa9\xff\"\n").unwrap();
    let ran = steps(&[path.to_str().unwrap()], "");
    std::fs::remove_file(&path).unwrap();
    assert_eq!(ran.status.code(), Some(1));
    assert_eq!(text_of(ran.stderr), format!("{}: line 2, column 10: expected UTF-8, found the byte ff\n", path.display()));
}

/// A reader that has seen enough is no error.
#[test]
fn the_output_may_be_closed() {
    for mode in [&["--help"][..], &["-"], &["--cells", "-"], &["--pages", "-"]] {
        let mut child =
            Command::new(env!("CARGO_BIN_EXE_steps")).args(mode).stdin(Stdio::piped()).stdout(Stdio::piped()).stderr(Stdio::piped()).spawn().unwrap();
        drop(child.stdout.take());
        let _ = child.stdin.take().unwrap().write_all("object\nisExtensible o0\n".repeat(1000).as_bytes());
        let ran = child.wait_with_output().unwrap();
        assert_eq!((ran.status.code(), text_of(ran.stderr)), (Some(0), String::new()), "{mode:?}");
    }
}

#[test]
fn the_example_runs() {
    let ran = steps(&[concat!(env!("CARGO_MANIFEST_DIR"), "/examples/sealed.steps")], "");
    assert!(ran.status.success());
    let told = text_of(ran.stdout);
    for line in [
        "   TypeError 17: Proxy trap returned unexpected data descriptor (1 answer, 2 calls)",
        "   TypeError 24: Proxy trap failed to return all non-configurable property keys (1 answer, 5 calls)",
        "   [\"visits\", y3] (1 answer, 5 calls)",
        "   TypeError 1: Proxy object has empty handler and target (0 answers, 2 calls)",
    ] {
        assert!(told.lines().any(|l| l == line), "{line}");
    }
    assert!(told.ends_with("   70000 (0 answers, 2 calls)\n"));
}

/// A number is called by what has it: a function, a proxy or another object, each until it is released.
#[test]
fn released_numbers_have_other_names() {
    let text = [
        "function",
        "release o0",
        "object",
        "get f0 y0",
        "proxy o0 traps get",
        "release o0",
        "get o1 y0 answers: 1",
        "revoke o1",
        "release o0",
        "release o1",
        "release o1",
        "release o1",
        "function",
        "function",
        "get o1 y0",
        "release f1",
        "release f0",
        "proxy o5",
        "object",
        "object",
        "has f0 y0",
    ]
    .join("\n");
    let rows = [
        "1 1 0 0 0 080000000000000000",
        "2 1 0 0 0 020100000000000000",
        "3 1 0 0 0 070000000000000000",
        "4 0 3 0 0 -",
        "5 1 0 0 0 070100000000000000",
        "6 0 14 0 0 -",
        "7 1 0 1 2 030100000000000000",
        "8 1 0 0 0 020100000000000000",
        "9 1 0 0 0 020100000000000000",
        "10 1 0 0 0 020100000000000000",
        "11 0 2 0 0 -",
        "12 0 2 0 0 -",
        "13 1 0 0 0 080000000000000000",
        "14 1 0 0 0 080100000000000000",
        "15 0 3 0 0 -",
        "16 1 0 0 0 020100000000000000",
        "17 1 0 0 0 020100000000000000",
        "18 0 2 0 0 -",
        "19 1 0 0 0 070100000000000000",
        "20 1 0 0 0 070000000000000000",
        "21 1 0 0 3 020000000000000000",
    ];
    let unusable = "refused 3, a string was not entered or is too long, or a part has a kind that cannot be used";
    let shown = [
        "1: function: f0 (0 answers, 0 calls)".to_string(),
        "2: release f0: true (0 answers, 0 calls)".to_string(),
        "3: object: o0 (0 answers, 0 calls)".to_string(),
        format!("4: get o0 y0 receiver f0: {unusable}"),
        "5: proxy o0 traps get: o1 (0 answers, 0 calls)".to_string(),
        "6: release o0: refused 14, the object is still named".to_string(),
        "7: get o1 y0, handler answers 1: 1 (1 answer, 2 calls)".to_string(),
        "8: revoke o1: true (0 answers, 0 calls)".to_string(),
        "9: release o0: true (0 answers, 0 calls)".to_string(),
        "10: release o1: true (0 answers, 0 calls)".to_string(),
        "11 to 12: release o1: refused 2, an object was never made".to_string(),
        "13 to 14: function: f0 to f1 (0 answers, 0 calls)".to_string(),
        format!("15: get f1 y0 receiver o1: {unusable}"),
        "16: release f1: true (0 answers, 0 calls)".to_string(),
        "17: release f0: true (0 answers, 0 calls)".to_string(),
        "18: proxy o5: refused 2, an object was never made".to_string(),
        "19: object: o1 (0 answers, 0 calls)".to_string(),
        "20: object: o0 (0 answers, 0 calls)".to_string(),
        "21: has o0 y0: false (0 answers, 3 calls)".to_string(),
    ];
    let file = Steps::new("released", &text);
    let ran = file.rows(&format!("{ROWS}{}\n", rows.join("\n")));
    assert_eq!(text_of(ran.stderr), "");
    assert_eq!(text_of(ran.stdout).lines().collect::<Vec<_>>(), shown);
    // and the reports are these
    let ran = steps(&["--cells", "-"], &text);
    assert_eq!(String::from_utf8(demnyaluz::run_text(&ran.stdout)).unwrap(), format!("{ROWS}{}\n", rows.join("\n")));
}

/// Lines alike are one line: the same call with the same outcome, or with the next object each time. Answers alike are told together.
#[test]
fn lines_alike_are_shown_as_one() {
    let answers = vec!["1"; 65].join(", ");
    let text = [
        "object",
        "object",
        "object",
        "object o0",
        "object o0",
        "proxy o0 traps isExtensible",
        "revoke o5",
        "revoke o5",
        "revoke o5",
        "get o0 y0 answers: 1, 1, 1",
        "get o0 y0 answers: 1, 1, 1",
        "get o0 y0 answers: 1, 1, 2",
        &format!("isExtensible o5 answers: {answers}"),
        "set o0 y0 1 receiver o1",
        "seal o5 answers: true, true, true, true, true",
        "isSealed o0",
        "isSealed o0",
        "isFrozen o0",
        "freeze o0",
        "function",
        "function",
        "function f6",
        "get f6 y0",
        "get f6 y0 receiver o6",
        "freeze o6",
        "has f8 y0",
        "function",
    ]
    .join("\n");
    let rows = [
        "1 1 0 0 0 070000000000000000",
        "2 1 0 0 0 070100000000000000",
        "3 1 0 0 0 070200000000000000",
        "4 1 0 0 0 070300000000000000",
        "5 1 0 0 0 070300000000000000", // the same object
        "6 1 0 0 0 070500000000000000",
        "7 1 0 0 0 020100000000000000",
        "8 1 0 0 0 020100000000000000",
        "9 1 0 0 0 020000000000000000", // another outcome
        "10 1 0 3 2 030100000000000000",
        "11 1 0 3 3 030100000000000000", // another count of calls
        "12 1 0 3 3 030100000000000000", // another call
        "13 0 1 0 0 -",
        "14 0 7 0 0 -",
        "15 2 32 4 20 -",
        "16 1 0 0 2 020100000000000000",
        "17 1 0 0 2 020100000000000000",
        "18 1 0 0 2 020000000000000000",
        "19 3 0 0 2 030500000000000000",
        "20 1 0 0 0 080600000000000000",
        "21 1 0 0 0 080700000000000000",
        "22 0 7 0 0 -",
        "23 1 0 0 3 080700000000000000",
        "24 0 3 0 0 -",
        "25 1 0 0 2 020100000000000000",
        "26 0 2 0 0 -",
        "27 1 0 0 0 080800000000000000",
    ];
    let shown = [
        "1 to 3: object: o0 to o2 (0 answers, 0 calls)",
        "4 to 5: object o0: o3 (0 answers, 0 calls)",
        "6: proxy o0 traps isExtensible: o5 (0 answers, 0 calls)",
        "7 to 8: revoke o5: true (0 answers, 0 calls)",
        "9: revoke o5: false (0 answers, 0 calls)",
        "10: get o0 y0, answers 1, then 1, then 1: 1 (3 answers, 2 calls)",
        "11: get o0 y0, answers 1, then 1, then 1: 1 (3 answers, 3 calls)",
        "12: get o0 y0, answers 1, then 1, then 2: 1 (3 answers, 3 calls)",
        "13: isExtensible o5, handler answers 65 times 1: refused 1, a record is malformed",
        "14: set o0 y0 1 receiver o1: refused 7, there is no room",
        "15: seal o5, handler answers 5 times true: TypeError 32, Property definition was rejected (4 answers, 20 calls)",
        "16 to 17: isSealed o0: true (0 answers, 2 calls)",
        "18: isFrozen o0: false (0 answers, 2 calls)",
        "19: freeze o0: thrown 5 (0 answers, 2 calls)",
        "20 to 21: function: f6 to f7 (0 answers, 0 calls)",
        "22: function f6: refused 7, there is no room",
        // what was made as a function is called so
        "23: get f6 y0: f7 (0 answers, 3 calls)",
        "24: get f6 y0 receiver o6: refused 3, a string was not entered or is too long, or a part has a kind that cannot be used",
        "25: freeze f6: true (0 answers, 2 calls)",
        "26: has o8 y0: refused 2, an object was never made",
        "27: function: f8 (0 answers, 0 calls)",
    ];
    let ran = Steps::new("alike", &text).rows(&format!("{ROWS}{}\n", rows.join("\n")));
    assert_eq!(text_of(ran.stderr), "");
    assert_eq!(text_of(ran.stdout).lines().collect::<Vec<_>>(), shown);
}
