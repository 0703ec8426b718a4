//! Steps as lines of text: rows by hand, and on random texts against the plain implementation, whatever the pieces are.
mod harness;
mod plain;

use demnyaluz::notation::{cells, parse, Call, HEADING as NAMES};
use demnyaluz::rows::{self, Row};
use demnyaluz::{lent, run_text, Completion, Failure, Store, TextReader, TEXT_LINE_BYTES, TEXT_ROW_BYTES, TEXT_STATE_WORDS};
use harness::generator::Generator;
use harness::random::Random;
use harness::text::{in_pieces, Damage, Reader};
use std::process::{Command, Stdio};

const HEADING: &str = "line outcome number answers calls value";
const MAKE: &str = "01 00 - 010000000000000000 - - -";
const BROKEN: &str = "0 12 0 0 -";
const UNREAD: &str = "0 13 0 0 -";

/// Plain calls may nest 2,048 deep.
fn with_stack<T: Send + 'static>(work: impl FnOnce() -> T + Send + 'static) -> T {
    let thread = std::thread::Builder::new().stack_size(64 << 20).spawn(work).unwrap();
    thread.join().unwrap_or_else(|e| std::panic::resume_unwind(e))
}

/// The whole output, by the library, in pieces of one byte too, and by the plain implementation.
#[track_caller]
fn output(input: &[u8]) -> String {
    let whole = run_text(input);
    let mut reader = TextReader::new();
    let mut rows = Vec::new();
    for byte in input {
        reader.feed(&[*byte], &mut rows).unwrap();
    }
    reader.end(&mut rows).unwrap();
    assert_eq!(String::from_utf8_lossy(&rows), String::from_utf8_lossy(&whole), "in pieces of one byte");
    assert_eq!(String::from_utf8_lossy(&plain::text::run_text(input)), String::from_utf8_lossy(&whole), "the plain implementation");
    String::from_utf8(whole).unwrap()
}

/// The rows of lines under the names, each without its number.
#[track_caller]
fn rows_of(lines: &[&str]) -> Vec<String> {
    let told = output(format!("{NAMES}\n{}\n", lines.join("\n")).as_bytes());
    let mut rows = told.strip_suffix('\n').unwrap().split('\n');
    assert_eq!(rows.next(), Some(HEADING));
    let rows: Vec<String> =
        rows.enumerate().map(|(i, row)| row.strip_prefix(&format!("{} ", i + 1)).expect("lines are numbered from 1").to_string()).collect();
    assert_eq!(rows.len(), lines.len());
    rows
}

/// Each line has the row that stands beside it.
#[track_caller]
fn assert_rows(cases: &[(String, String)]) {
    let rows = rows_of(&cases.iter().map(|(line, _)| line.as_str()).collect::<Vec<_>>());
    for ((line, expected), row) in cases.iter().zip(rows) {
        assert_eq!(row, *expected, "{line}");
    }
}

/// The row of one line; an object is made before it and one after it, so that reading goes on.
#[track_caller]
fn row_of(line: &str) -> String {
    let rows = rows_of(&[MAKE, line, MAKE]);
    assert_eq!(rows[0], "1 0 0 0 070000000000000000");
    assert!(rows[2].starts_with("1 0 0 0 0701") || rows[2].starts_with("1 0 0 0 0702"), "{}", rows[2]);
    rows[1].clone()
}

#[test]
fn the_example_of_request_01() {
    let input = b"step object key value receiver descriptor sheet\n01 00 - 010000000000000000 - - -";
    let expected = "line outcome number answers calls value\n1 1 0 0 0 070000000000000000\n";
    assert_eq!(output(input), expected);
    assert_eq!(output(&[&input[..], b"\n"].concat()), expected);
}

#[test]
fn the_first_line_has_the_seven_names_in_any_order() {
    for (names, line) in [
        ("sheet descriptor receiver value key object step", "- - - 010000000000000000 - 00 01"),
        ("value step sheet object descriptor key receiver", "010000000000000000 01 00 - - - -"),
        ("object step key value receiver descriptor sheet", "00 01 - 010000000000000000 - - -"),
    ] {
        assert_eq!(output(format!("{names}\n{line}").as_bytes()), format!("{HEADING}\n1 1 0 0 0 070000000000000000\n"));
        // in the usual order the same line is another step, or none
        assert!(!output(format!("{NAMES}\n{line}").as_bytes()).ends_with("1 1 0 0 0 070000000000000000\n"));
    }
    for names in [NAMES.to_string(), format!("{NAMES}\n")] {
        assert_eq!(output(names.as_bytes()), format!("{HEADING}\n"), "no line after the names");
    }
}

#[test]
fn a_broken_first_line_ends_the_reading() {
    let refused = format!("{HEADING}\n0 {BROKEN}\n");
    let long = format!("{NAMES}{}", " ".repeat(TEXT_LINE_BYTES));
    let mut broken = vec![
        String::new(),
        " ".to_string(),
        "step".to_string(),
        MAKE.to_string(),
        HEADING.to_string(),
        long,
        "x".repeat(100_000),
        NAMES.replace(" sheet", ""),
        NAMES.replace("sheet", "step"),
        NAMES.replace("sheet", "sheets"),
        NAMES.replace("sheet", "shee"),
        NAMES.replace("sheet", "-"),
        NAMES.replace("sheet", "gallery"),
        format!("{NAMES} gallery"),
        format!("{NAMES} sheet"),
        format!("{NAMES} "),
        format!(" {NAMES}"),
        format!("{NAMES}\r"),
        format!("\u{feff}{NAMES}"),
        format!("{NAMES}\0"),
        NAMES.replace("key ", "key  "),
        NAMES.replace("key ", "key\t"),
        NAMES.replace("key ", "key"),
        NAMES.replace("key", "Key"),
        NAMES.replace("key", "k\u{e9}y"),
        NAMES.to_uppercase(),
    ];
    for names in broken.drain(..) {
        assert_eq!(output(format!("{names}\n{MAKE}\n{NAMES}\n{MAKE}\n").as_bytes()), refused, "{names:?}");
        if !names.is_empty() {
            assert_eq!(output(names.as_bytes()), refused, "{names:?} without its line feed");
        }
    }
    assert_eq!(output(b""), refused, "no input");
    assert_eq!(output(b"\n"), refused, "an empty first line");
    assert_eq!(output(&[&[0xff, 0xfe], NAMES.as_bytes()].concat()), refused);
}

#[test]
fn lines_that_break_the_form_are_refused_as_12() {
    let value = "010000000000000000";
    let descriptor = "00".repeat(29);
    let mut broken = vec![
        String::new(),
        " ".to_string(),
        "-".to_string(),
        "      ".to_string(),
        NAMES.to_string(),
        HEADING.to_string(),
        // spaces, and how many cells there are
        format!("{MAKE} "),
        format!(" {MAKE}"),
        format!("{MAKE} -"),
        "01 00 - 010000000000000000 - -".to_string(),
        MAKE.replace("01 00", "01  00"),
        MAKE.replace("01 00", "01\t00"),
        MAKE.replace("00 - 01", "00  01"),
        format!("01 00 - {value} - - "),
        // characters that are no digit
        format!("{MAKE}\r"),
        format!("{MAKE}\0"),
        format!("{MAKE}\u{e9}"),
        format!("{MAKE}\u{7f}"),
        MAKE.replace("- - -", "- - 0A"),
        MAKE.replace("01 00", "0A 00"),
        MAKE.replace("01 00", "0g 00"),
        MAKE.replace("01 00", "0` 00"),
        MAKE.replace("01 00", "0: 00"),
        MAKE.replace("01 00", "0/ 00"),
        MAKE.replace("01 00", "0@ 00"),
        MAKE.replace("01 00", "+1 00"),
        MAKE.replace("01 00", "-1 00"),
        MAKE.replace("01 00", "0x 00"),
        MAKE.replace("01 00", "\u{ff10}\u{ff11} 00"),
        MAKE.replace("- - -", "- - --"),
        MAKE.replace("- - -", "- - -0"),
        MAKE.replace("- - -", "- - 0-"),
        MAKE.replace("- - -", "- -- -"),
        MAKE.replace("- - -", "-- - -"),
        // lengths
        MAKE.replace("01 00", "1 00"),
        MAKE.replace("01 00", "001 00"),
        MAKE.replace("01 00", "0001 00"),
        MAKE.replace("01 00", "01 0"),
        MAKE.replace("01 00", "01 000"),
        MAKE.replace("- - -", "- - 0"),
        MAKE.replace("- - -", "- - 000"),
        format!("0b 00 {} - {value} - -", &value[2..]),
        format!("0b 00 {value}00 - {value} - -"),
        format!("0b 00 {value}0 - {value} - -"),
        format!("0b 00 {value} - {} - -", &value[1..]),
        format!("0c 00 {value} {value}00 - - -"),
        format!("09 00 {value} - - {} -", &descriptor[2..]),
        format!("09 00 {value} - - {descriptor}00 -"),
        format!("09 00 {value} - - {} -", &descriptor[1..]),
        // code units that are not whole
        "0f - - - - - 0".to_string(),
        "0f - - - - - 00".to_string(),
        "0f - - - - - 007".to_string(),
        "0f - - - - - 007600".to_string(),
        "0f - - - - - 00760".to_string(),
        "0f - - - - - 00G6".to_string(),
        "0f - - - - - 00E9".to_string(),
        "0f - - - - - ".to_string(),
        "0f - - - - -".to_string(),
        // before 1
        "ff 00 - - - - 0".to_string(),
        "0f ff - - - - 00".to_string(),
        "0f 0 - - - - 0076".to_string(),
    ];
    for line in broken.drain(..) {
        assert_eq!(row_of(&line), BROKEN, "{line:?}");
    }
    for byte in (0..=255u8).filter(|b| !b"0123456789abcdef \n".contains(b)) {
        let input = [NAMES.as_bytes(), b"\n0", &[byte], b" 00 - 010000000000000000 - - -\n"].concat();
        assert_eq!(output(&input), format!("{HEADING}\n1 {BROKEN}\n"), "{byte}");
    }
}

#[test]
fn bytes_that_are_no_record_are_refused_as_1_and_not_as_12() {
    let refused = "0 1 0 0 -";
    for line in [
        "- - - - - - -",
        "00 00 - 010000000000000000 - - -",
        "14 00 - - - - -",
        "11 00 - 010000000000000000 - - -",
        "11 00 050000000000000000 - - - -",
        "10 01 - 010000000000000000 - - -",
        "10 00 - 010000000000000000 010000000000000000 - -",
        "ff 00 - - - - -",
        "01 01 - 010000000000000000 - - -",
        "01 00 - 090000000000000000 - - -",
        "01 00 010000000000000000 010000000000000000 - - -",
        "06 00 - - - - 01",
        "06 00 - - - - 0000",
        "06 00 - - - - ff",
        "06 00 - - - - 0105",
    ] {
        assert_eq!(row_of(line), refused, "{line}");
    }
}

#[test]
fn a_dash_is_zeros_or_the_sheet_of_no_answers() {
    let zero = "00".repeat(9);
    let none = "00".repeat(29);
    for line in [
        "06 00 - - - - -",
        "06 - - - - - -",
        "06 00 - - - - 00",
        &format!("06 - {zero} - {zero} - -"),
        &format!("06 00 {zero} {zero} {zero} {none} 00"),
    ] {
        assert_eq!(row_of(line), "1 0 0 1 020100000000000000", "{line}");
    }
}

#[test]
fn lines_end_in_a_line_feed_that_the_last_may_lack() {
    let made = "1 0 0 0 070000000000000000";
    for (input, expected) in [
        (format!("{NAMES}\n{MAKE}"), format!("1 {made}\n")),
        (format!("{NAMES}\n{MAKE}\n"), format!("1 {made}\n")),
        (format!("{NAMES}\n{MAKE}\n\n"), format!("1 {made}\n2 {BROKEN}\n")),
        (format!("{NAMES}\n\n\n{MAKE}\n "), format!("1 {BROKEN}\n2 {BROKEN}\n3 {made}\n4 {BROKEN}\n")),
        (format!("{NAMES}\n{MAKE}\r\n"), format!("1 {BROKEN}\n")),
        (format!("{NAMES}\n\n"), format!("1 {BROKEN}\n")),
    ] {
        assert_eq!(output(input.as_bytes()), format!("{HEADING}\n{expected}"), "{input:?}");
    }
}

/// A line of so many characters that is well formed, if it is not too long: its sheet is one byte 00 and more bytes.
fn line_of(characters: usize) -> String {
    let short = "01 00 - 010000000000000000 - - ".to_string();
    let long = format!("01 00 {} 010000000000000000 - - ", "00".repeat(9));
    let start = if (characters - short.len()) & 1 == 0 { short } else { long };
    format!("{start}{}", "0".repeat(characters - start.len()))
}

#[test]
fn a_line_has_at_most_16384_characters() {
    for characters in [16_380, 16_381, 16_382, 16_383, 16_384] {
        let line = line_of(characters);
        assert_eq!(line.len(), characters);
        assert_eq!(row_of(&line), "0 1 0 0 -", "{characters}: the sheet goes on after no answers");
    }
    for characters in [16_385, 16_386, 16_387, 20_000, 32_768, 32_769, 65_536, 65_537, 1_000_000] {
        assert_eq!(row_of(&line_of(characters)), BROKEN, "{characters}");
    }
    // as the last line, without a line feed
    for (characters, row) in [(16_384, "0 1 0 0 -"), (16_385, BROKEN)] {
        assert_eq!(output(format!("{NAMES}\n{}", line_of(characters)).as_bytes()), format!("{HEADING}\n1 {row}\n"));
    }
    // what follows the 16,384th character is no line of its own
    for characters in [16_384, 16_385, 16_386, 2 * 16_384, 2 * 16_384 + 1] {
        assert_eq!(row_of(&format!("{}{MAKE}", "0".repeat(characters))), BROKEN);
    }
    // code units
    for (start, characters, row) in [
        ("0f - - - - - ", 16_381, "0 3 0 0 -"),
        ("0f - - - - - ", 16_385, BROKEN),
        ("0f 00 - - - - ", 16_382, "0 3 0 0 -"),
        ("0f 00 - - - - ", 16_386, BROKEN),
    ] {
        assert_eq!((characters - start.len()) % 4, 0);
        assert_eq!(row_of(&format!("{start}{}", "0".repeat(characters - start.len()))), row);
    }
}

/// A sheet of values and lists, the first an empty one, that holds exactly as many bytes as the line has room for: the step is performed, and reads
/// the first alone.
#[test]
fn a_step_may_fill_its_line() {
    let sheet = |values: usize, lists: usize, keys: usize| {
        let key = "060000000000000000";
        let list = |n: usize| format!("03{:02x}{:02x}{}", n & 255, n >> 8, key.repeat(n));
        let more: String = (1..lists).map(|i| list(keys * i / (lists - 1) - keys * (i - 1) / (lists - 1))).collect();
        format!("{:02x}{}{more}{}", values + lists, list(0), format!("01{key}").repeat(values))
    };
    let zero = "00".repeat(9);
    let proxy = "02 00 - 030004000000000000 - - -";
    for (line, characters, row) in [
        (format!("0e 01 - - - - {}", sheet(0, 28, 900)), 16_384, UNREAD),
        (format!("0e 01 {zero} - - - {}", sheet(1, 22, 900)), 16_385, BROKEN),
        (format!("0e 01 - - - - {}", sheet(0, 31, 899)), 16_384, UNREAD),
        (format!("0e 01 - - - - {}", sheet(0, 34, 898)), 16_384, UNREAD),
        (format!("0e 01 - - - - {}", sheet(0, 29, 900)), 16_390, BROKEN),
    ] {
        assert_eq!(line.len(), characters);
        assert_eq!(rows_of(&[MAKE, proxy, &line, MAKE])[2..], [row, "1 0 0 0 070200000000000000"]);
    }
}

#[test]
fn strings_are_entered_by_step_0f() {
    let string = |n: u8| format!("1 0 0 0 05{n:02x}00000000000000");
    let enter = |units: &str| format!("0f 00 - - - - {units}");
    let zero = "00".repeat(9);
    let lines = [
        enter("0076"),
        enter("-"),
        enter("0076"),
        "0f - - - - - -".to_string(),
        format!("0f 00 {zero} {zero} {zero} {} 0077", "00".repeat(29)),
        enter(&"ffff".repeat(32)),
        enter(&"ffff".repeat(33)),
        enter(&"ffff".repeat(32)),
        enter(&"0000".repeat(4_000)),
        enter("0000"),
    ];
    let expected = [string(0), string(1), string(0), string(1), string(2), string(3), "0 3 0 0 -".into(), string(3), "0 3 0 0 -".into(), string(4)];
    assert_eq!(rows_of(&lines.each_ref().map(String::as_str)), expected);
    // else the other cells are not zero
    let nonzero = "010000000000000000";
    for line in [
        "0f 01 - - - - 0076".to_string(),
        "0f ff - - - - 0076".to_string(),
        format!("0f 00 {nonzero} - - - 0076"),
        format!("0f 00 - {nonzero} - - 0076"),
        format!("0f 00 - - {nonzero} - 0076"),
        "0f 00 - - 07ff00000000000000 - 0076".to_string(),
        format!("0f 00 - - - 01{} 0076", "00".repeat(28)),
        format!("0f 00 - - - {}01 -", "00".repeat(28)),
        format!("0f 01 - - - - {}", "0076".repeat(33)),
    ] {
        assert_eq!(row_of(&line), "0 1 0 0 -", "{line}");
    }
    // a 257th
    let many: Vec<String> = (0..258).map(|n| enter(&format!("{n:04x}"))).collect();
    let rows = rows_of(&many.iter().map(String::as_str).collect::<Vec<_>>());
    assert_eq!((rows[255].as_str(), rows[256].as_str(), rows[257].as_str()), (string(255).as_str(), "0 7 0 0 -", "0 7 0 0 -"));
}

/// U+3100 is no digit, and U+0031 is the index 1, which is listed first.
#[test]
fn code_units_stand_high_byte_first() {
    let define = |n: u8| format!("09 00 05{n:02x}00000000000000 - - {} -", "00".repeat(29));
    let rows = rows_of(&["0f - - - - - 3100", "0f - - - - - 0031", MAKE, &define(0), &define(1), "0e - - - - - -"]);
    assert_eq!(rows[5], "1 0 0 1 050100000000000000050000000000000000");
}

/// A release in each line of step 11 that is not refused, and the numbers that are taken again.
#[test]
fn objects_are_released_in_lines() {
    let (nil, o0, o1, f1) = ("010000000000000000", "070000000000000000", "070100000000000000", "080100000000000000");
    let release = |o: u8| format!("11 {o:02x} - - - - -");
    let with = |value: &str| format!("09 00 060000000000000000 - - 0800{value}{} -", "00".repeat(18));
    let (yes, refused) = ("1 0 0 0 020100000000000000".to_string(), |number: u8| format!("0 {number} 0 0 -"));
    let lines: Vec<(String, String)> = vec![
        (release(0), refused(2)),
        (MAKE.to_string(), format!("1 0 0 0 {o0}")),
        (format!("10 00 - {o0} - - -"), format!("1 0 0 0 {f1}")),
        (release(0), refused(14)),
        (format!("11 00 - - - - 0101{nil}"), refused(14)),
        ("11 00 - - - - 41".to_string(), refused(14)),
        (format!("11 01 - - - - 0101{nil}"), refused(13)),
        ("11 01 - - - - 41".to_string(), refused(1)),
        (format!("11 01 - - - - 0101{}", "07".to_string() + &"ff".repeat(8)), refused(2)),
        (with(f1), "1 0 0 3 020100000000000000".to_string()),
        (release(1), refused(14)),
        (with(o0), "1 0 0 3 020000000000000000".to_string()),
        (format!("05 01 - {nil} - - -"), "1 0 0 1 020100000000000000".to_string()),
        (release(1), refused(14)),
        (release(0), yes.clone()),
        (release(0), refused(2)),
        (format!("0b 01 060000000000000000 - {o0} - -"), refused(2)),
        (format!("06 01 - - - - 0104{o0}"), refused(2)),
        (release(1), yes),
        (format!("10 00 - {nil} - - -"), "1 0 0 0 080000000000000000".to_string()),
        (MAKE.to_string(), format!("1 0 0 0 {o1}")),
        ("0e 00 - - - - -".to_string(), "1 0 0 1 -".to_string()),
        (format!("01 00 - {f1} - - -"), refused(3)),
        (MAKE.to_string(), "1 0 0 0 070200000000000000".to_string()),
    ];
    let rows = rows_of(&lines.iter().map(|(line, _)| line.as_str()).collect::<Vec<_>>());
    assert_eq!(rows, lines.into_iter().map(|(_, row)| row).collect::<Vec<_>>());
}

/// In a record of 58 bytes 15 and 20 are no codes, whatever else it holds.
#[test]
fn records_of_codes_that_are_none_are_refused_as_1() {
    let (mut words, mut strings) = (vec![0; 1670], vec![0; 8449]);
    assert!(lent::empty_store(&mut words) && lent::empty_strings(&mut strings));
    let mut random = Random::new(15);
    for i in 0..200 {
        let mut step: Vec<u8> = (0..58).map(|_| if i % 2 == 0 { 0 } else { random.next() as u8 }).collect();
        step[0] = random.pick(&[15, 20]);
        let report = lent::step(&mut words, &strings, &step, &[0], &mut [0; 2304]);
        assert_eq!(report.as_slice(), [0, 1, 0, 0, 0, 0, 0, 0, 0, 0]);
    }
}

/// Every form that a row's value has, by hand.
#[test]
fn values_of_rows() {
    let (visits, symbol, data) = ("050000000000000000", "060300000000000000", "037011010000000000");
    let (zero, o2, f1) = ("000000000000000000", "070200000000000000", "080100000000000000");
    let fixed = format!("0f01{data}{zero}{zero}");
    let accessor = format!("3202{zero}{f1}{zero}");
    let proxy = "02 00 - 03ff07000000000000 - - -";
    for (line, row) in rows_of(&[
        "0f - - - - - 007600690073006900740073",
        MAKE,
        "10 00 - 070000000000000000 - - -",
        &format!("09 00 {visits} - - {fixed} -"),
        &format!("09 00 {symbol} - - {accessor} -"),
        &format!("08 00 {visits} - - - -"),
        &format!("08 00 {symbol} - - - -"),
        "08 00 060400000000000000 - - - -",
        "0e 00 - - - - -",
        &format!("0b 00 {visits} - 070000000000000000 - -"),
        MAKE,
        "0e 02 - - - - -",
        proxy,
        &format!("0b 03 {visits} - 070300000000000000 - 0101037011000000000000"),
        &format!("0b 03 {visits} - {o2} - 0104{data}"),
        &format!("0b 03 {visits} - {o2} - 010404000000000000f0ff"),
        &format!("0b 03 {visits} - {o2} - 010404010000000000f8ff"),
        &format!("0b 03 {visits} - {o2} - -"),
        &format!("0e 03 - - - - 01030200{visits}{symbol}"),
        "04 00 - - - - -",
        "04 01 - - - - -",
        &format!("04 03 - - - - 0101{f1}"),
    ])
    .into_iter()
    .zip([
        "1 0 0 0 050000000000000000",
        "1 0 0 0 070000000000000000",
        "1 0 0 0 080100000000000000",
        "1 0 0 3 020100000000000000",
        "1 0 0 3 020100000000000000",
        &format!("1 0 0 1 {fixed}"),
        &format!("1 0 0 1 3302{zero}{f1}{zero}"),
        "1 0 0 1 -",
        &format!("1 0 0 1 {visits}{symbol}"),
        &format!("1 0 0 2 {data}"),
        "1 0 0 0 070200000000000000",
        "1 0 0 1 -",
        "1 0 0 0 070300000000000000",
        "2 17 1 2 -",
        &format!("3 0 1 1 {data}"),
        "3 0 1 1 04000000000000f0ff",
        "3 0 1 1 04000000000000f87f",
        "0 8 0 0 -",
        &format!("1 0 1 5 {visits}{symbol}"),
        "1 0 0 1 010000000000000000",
        "1 0 0 1 070000000000000000",
        &format!("1 0 1 2 {f1}"),
    ]) {
        assert_eq!(line, row);
    }
}

/// Steps 12 and 13 by hand: an object with a name and a symbol, a handler that throws when it is asked for the symbol, and what stayed.
#[test]
fn lines_seal_and_freeze() {
    let (name, symbol, data) = ("050000000000000000", "060300000000000000", "037011010000000000");
    let (zero, sealed, frozen) = ("000000000000000000", "030000000000000000", "030100000000000000");
    let whole = format!("0f07{data}{zero}{zero}");
    let (yes, no) = ("020100000000000000", "020000000000000000");
    assert_rows(&[
        ("0f - - - - - 006e".to_string(), "1 0 0 0 050000000000000000".to_string()),
        (MAKE.to_string(), "1 0 0 0 070000000000000000".to_string()),
        (format!("09 00 {name} - - {whole} -"), format!("1 0 0 3 {yes}")),
        (format!("09 00 {symbol} - - {whole} -"), format!("1 0 0 3 {yes}")),
        (format!("13 00 - {sealed} - - -"), format!("1 0 0 1 {no}")),
        ("02 00 - 031000000000000000 - - -".to_string(), "1 0 0 0 070100000000000000".to_string()),
        // refused in the midst: nothing changes
        (format!("12 01 - {frozen} - - 0102{whole}"), "0 8 0 0 -".to_string()),
        (format!("12 01 - {frozen} - - 0202{whole}030000"), "0 9 0 0 -".to_string()),
        ("06 00 - - - - -".to_string(), format!("1 0 0 1 {yes}")),
        // thrown in the midst: the name is frozen
        (format!("12 01 - {frozen} - - 0202{whole}04{data}"), format!("3 0 2 12 {data}")),
        ("06 00 - - - - -".to_string(), format!("1 0 0 1 {no}")),
        (format!("08 00 {name} - - - -"), format!("1 0 0 1 0f01{data}{zero}{zero}")),
        (format!("08 00 {symbol} - - - -"), format!("1 0 0 1 {whole}")),
        (format!("13 00 - {sealed} - - -"), format!("1 0 0 4 {no}")),
        (format!("12 00 - {sealed} - - -"), format!("1 0 0 8 {yes}")),
        (format!("13 00 - {sealed} - - -"), format!("1 0 0 4 {yes}")),
        (format!("13 00 - {frozen} - - -"), format!("1 0 0 4 {no}")),
        // a defineProperty trap that answers false
        ("02 00 - 032000000000000000 - - -".to_string(), "1 0 0 0 070200000000000000".to_string()),
        (format!("12 02 - {frozen} - - 0201{yes}01{no}"), "2 32 2 12 -".to_string()),
        (format!("12 00 - {frozen} - - -"), format!("1 0 0 10 {yes}")),
        (format!("13 02 - {frozen} - - -"), format!("1 0 0 8 {yes}")),
        // levels and codes that are none
        ("12 00 - 030200000000000000 - - -".to_string(), "0 1 0 0 -".to_string()),
        ("13 00 - 03ffffffff00000000 - - -".to_string(), "0 1 0 0 -".to_string()),
        ("12 00 - - - - -".to_string(), "0 3 0 0 -".to_string()),
        (format!("12 09 - {sealed} - - -"), "0 2 0 0 -".to_string()),
        (format!("12 00 {name} {sealed} - - -"), "0 1 0 0 -".to_string()),
        (format!("10 00 - {sealed} - - -"), "0 3 0 0 -".to_string()),
        (format!("11 00 - {sealed} - - -"), "0 1 0 0 -".to_string()),
        (format!("14 00 - {sealed} - - -"), "0 1 0 0 -".to_string()),
    ]);
}

/// Step 10 by hand: functions as prototype, receiver, operand, getter and answer, and by a wrong kind or number.
#[test]
fn lines_make_functions() {
    let (symbol, data, null, zero) = ("060300000000000000", "037011010000000000", "010000000000000000", "000000000000000000");
    let (yes, no) = ("020100000000000000", "020000000000000000");
    let object = |n: u8| format!("07{n:02x}00000000000000");
    let function = |n: u8| format!("08{n:02x}00000000000000");
    let whole = format!("0f07{data}{zero}{zero}");
    let (f0, o1, f2) = (function(0), object(1), function(2));
    assert_rows(&[
        (format!("10 00 - {null} - - -"), format!("1 0 0 0 {f0}")),
        (format!("01 00 - {f0} - - -"), format!("1 0 0 0 {o1}")),
        (format!("10 - - {o1} - - 00"), format!("1 0 0 0 {f2}")),
        // as operand, prototype and receiver
        (format!("09 00 {symbol} - - {whole} -"), format!("1 0 0 3 {yes}")),
        (format!("0b 02 {symbol} - {f2} - -"), format!("1 0 0 8 {data}")),
        (format!("0c 01 {symbol} {f0} {f2} - -"), format!("1 0 0 9 {yes}")),
        (format!("08 02 {symbol} - - - -"), format!("1 0 0 1 0f07{f0}{zero}{zero}")),
        ("04 02 - - - - -".to_string(), format!("1 0 0 1 {o1}")),
        ("04 01 - - - - -".to_string(), format!("1 0 0 1 {f0}")),
        (format!("05 00 - {f2} - - -"), format!("1 0 0 1 {no}")),
        ("12 02 - 030100000000000000 - - -".to_string(), format!("1 0 0 6 {yes}")),
        ("0e 02 - - - - -".to_string(), format!("1 0 0 1 {symbol}")),
        // as getter and setter
        (format!("09 00 060400000000000000 - - 3000{zero}{f2}{f0} -"), format!("1 0 0 3 {yes}")),
        (format!("0b 00 060400000000000000 - {f2} - 0101{f2}"), format!("1 0 1 2 {f2}")),
        (format!("0c 00 060400000000000000 {f2} {f2} - 0104{f2}"), format!("3 0 1 2 {f2}")),
        // as answer
        ("02 01 - 03ff07000000000000 - - -".to_string(), format!("1 0 0 0 {}", object(3))),
        (format!("04 03 - - - - 0101{f2}"), format!("1 0 1 2 {f2}")),
        (format!("06 03 - - - - 0101{f2}"), format!("1 0 1 2 {yes}")),
        (format!("08 03 {symbol} - - - 0101{f2}"), "0 9 0 0 -".to_string()),
        (format!("0e 03 - - - - 0101{f2}"), "0 9 0 0 -".to_string()),
        // no proxy over one, and none of it is revoked
        ("02 00 - 030000000000000000 - - -".to_string(), "0 3 0 0 -".to_string()),
        ("03 00 - - - - -".to_string(), "0 3 0 0 -".to_string()),
        // a number that was never made, and a made one of the other kind
        (format!("10 00 - {} - - -", function(4)), "0 2 0 0 -".to_string()),
        (format!("10 00 - {} - - -", function(255)), "0 2 0 0 -".to_string()),
        ("10 00 - 080001000000000000 - - -".to_string(), "0 2 0 0 -".to_string()),
        (format!("10 00 - {} - - -", function(1)), "0 3 0 0 -".to_string()),
        (format!("10 00 - {} - - -", object(2)), "0 3 0 0 -".to_string()),
        (format!("0b 01 {symbol} - {} - -", object(0)), "0 3 0 0 -".to_string()),
        (format!("06 01 - - - - 0101{}", function(4)), "0 2 0 0 -".to_string()),
        (format!("06 01 - - - - 0101{}", function(3)), "0 3 0 0 -".to_string()),
        (format!("10 00 - {null} - - 0104{}", object(0)), "0 3 0 0 -".to_string()),
        (format!("10 00 - {data} - - -"), "0 3 0 0 -".to_string()),
        ("10 00 - - - - -".to_string(), "0 3 0 0 -".to_string()),
        (format!("10 01 - {null} - - -"), "0 1 0 0 -".to_string()),
        (format!("10 00 {symbol} {null} - - -"), "0 1 0 0 -".to_string()),
        (format!("10 00 - {null} - - -"), format!("1 0 0 0 {}", function(4))),
    ]);
}

/// 256 keys are the longest row, and one more is no sheet.
#[test]
fn there_is_room_for_256_keys() {
    let list = |n: u16| {
        let keys: String = (0..n).map(|k| format!("06{:02x}{:02x}000000000000", k & 255, k >> 8)).collect();
        format!("0103{:02x}{:02x}{keys}", n & 255, n >> 8)
    };
    let keys: String = (0..256).map(|k| format!("06{k:02x}00000000000000")).collect();
    let lines = [MAKE, "02 00 - 030004000000000000 - - -", &format!("0e 01 - - - - {}", list(256)), &format!("0e 01 - - - - {}", list(257))];
    assert_eq!(rows_of(&lines)[2..], [format!("1 0 1 3 {keys}"), "0 1 0 0 -".to_string()]);
}

/// How often each outcome came.
#[derive(Default, Debug)]
struct Outcomes {
    bytes: usize,
    refusals: [usize; 15],
    results: usize,
    errors: usize,
    thrown: usize,
}

impl Outcomes {
    fn count(&mut self, input: &[u8], rows: &[u8]) {
        self.bytes += input.len();
        for row in String::from_utf8(rows.to_vec()).unwrap().lines().skip(1) {
            let parts: Vec<&str> = row.split(' ').collect();
            match parts[1] {
                "0" => self.refusals[parts[2].parse::<usize>().unwrap()] += 1,
                "1" => self.results += 1,
                "2" => self.errors += 1,
                _ => self.thrown += 1,
            }
        }
    }
}

#[track_caller]
fn same_in_pieces(input: &[u8], random: &mut Random, seed: u64) -> Vec<u8> {
    let expected = plain::text::run_text(input);
    for rows in [run_text(input), in_pieces(input, random), in_pieces(input, random)] {
        if rows != expected {
            let (a, b) = (String::from_utf8_lossy(&rows).into_owned(), String::from_utf8_lossy(&expected).into_owned());
            let at = a.lines().zip(b.lines()).position(|(x, y)| x != y).unwrap_or(a.lines().count().min(b.lines().count()));
            let line = plain::text::lines(input).get(at).map(|l| String::from_utf8_lossy(&l[..l.len().min(400)]).into_owned());
            panic!("seed {seed}, row {at}: {:?} and, plainly, {:?}, of {line:?}", a.lines().nth(at), b.lines().nth(at));
        }
    }
    expected
}

/// TEXTS in the environment makes fewer texts, for a run under a memory checker.
const TEXTS: u64 = 200;

fn texts() -> u64 {
    std::env::var("TEXTS").map_or(TEXTS, |n| n.parse().expect("a number"))
}

#[test]
fn damaged_lines_are_as_the_plain_implementation_says() {
    let outcomes = with_stack(|| {
        let mut outcomes = Outcomes::default();
        for seed in 1..=texts() {
            let mut generator = Generator::new(seed);
            let damage = Damage { lines: generator.random.pick(&[2, 4, 20]), long: generator.random.pick(&[10, 40, 100]) };
            generator.habits.damage = generator.random.pick(&[8, 30, 1000]);
            let input = generator.text(200, damage);
            let rows = same_in_pieces(&input, &mut generator.random, seed);
            outcomes.count(&input, &rows);
        }
        outcomes
    });
    println!("{outcomes:?}");
    if texts() < TEXTS {
        return;
    }
    assert!(outcomes.bytes > 1_000_000 && outcomes.results > 0 && outcomes.errors > 0 && outcomes.thrown > 0);
    for (number, count) in outcomes.refusals.into_iter().enumerate() {
        // completing and merging by themselves are no lines, and the output is never too small
        let never = matches!(number, 0 | 5 | 6 | 11);
        assert_eq!(count == 0, never, "refusal {number}");
    }
}

#[test]
fn random_bytes_are_as_the_plain_implementation_says() {
    let outcomes = with_stack(|| {
        let mut outcomes = Outcomes::default();
        for seed in 1..=texts() / 2 {
            let mut generator = Generator::new(seed);
            let size = generator.random.pick(&[0, 1, 50, 2_000, 20_000, 60_000]);
            let input = generator.noise(size);
            let rows = same_in_pieces(&input, &mut generator.random, seed);
            outcomes.count(&input, &rows);
        }
        outcomes
    });
    println!("{outcomes:?}");
    assert!(texts() < TEXTS || outcomes.bytes > 1_000_000 && outcomes.refusals[12] > 0);
}

#[test]
fn reading_starts_only_in_memory_of_the_right_lengths() {
    assert_eq!((TEXT_STATE_WORDS, TEXT_LINE_BYTES, TEXT_ROW_BYTES), (10, 16_384, 4_800));
    for (words, strings, state) in
        [(1669, 8449, 10), (1671, 8449, 10), (0, 8449, 10), (1670, 8448, 10), (1670, 8450, 10), (1670, 8449, 9), (1670, 8449, 11), (1670, 0, 0)]
    {
        let (mut a, mut b, mut c) = (vec![7; words], vec![7; strings], vec![7; state]);
        assert!(!lent::text_start(&mut a, &mut b, &mut c));
        assert!(a.iter().all(|w| *w == 7) && b.iter().all(|w| *w == 7) && c.iter().all(|w| *w == 7), "nothing is touched");
    }
    // again, over what a text left
    let mut reader = Reader::new();
    let text = format!("{NAMES}\n{MAKE}\n{MAKE}");
    for _ in 0..2 {
        assert!(reader.start());
        let mut rows = Vec::new();
        let mut rest = text.as_bytes();
        while !rest.is_empty() {
            let (fed, [taken, written]) = reader.feed_once(rest);
            assert!(fed);
            rows.extend_from_slice(&reader.rows[..written as usize]);
            rest = &rest[taken as usize..];
        }
        let (ended, [_, written]) = reader.end_once();
        assert!(ended);
        rows.extend_from_slice(&reader.rows[..written as usize]);
        assert_eq!(rows, run_text(text.as_bytes()));
    }
}

/// A reader in the middle of a line, after some others.
fn reading() -> Reader {
    let mut reader = Reader::new();
    reader.feed(format!("{NAMES}\n0f - - - - - 0076\n{MAKE}\n09 00 050000000000000000 - - 0f01037011").as_bytes());
    reader
}

/// False, and nothing is touched; the reader then reads on with its own memory.
#[track_caller]
fn refuses(damaged: &Reader, why: &str) {
    for piece in [&b""[..], b"00", b"00\n", MAKE.as_bytes()] {
        let mut after = damaged.clone();
        assert_eq!(after.feed_once(piece), (false, [0, 0]), "{why}");
        assert_eq!(&after, damaged, "{why}: something was touched");
    }
    let mut after = damaged.clone();
    assert_eq!(after.end_once(), (false, [0, 0]), "{why}, at the end");
    assert_eq!(&after, damaged, "{why}: something was touched at the end");
}

#[test]
fn memory_that_is_no_readers_is_refused() {
    let change = |edit: &dyn Fn(&mut Reader)| {
        let mut reader = reading();
        edit(&mut reader);
        reader
    };
    for size in [0, 1, 1635, 1669, 1671] {
        refuses(&change(&|r| r.words = vec![0; size].into()), "the words' length");
    }
    for size in [0, 1, 8448, 8450] {
        refuses(&change(&|r| r.strings = vec![0; size].into()), "the strings' length");
    }
    for size in [0, 1, 9, 11] {
        refuses(&change(&|r| r.state = vec![0; size].into()), "the state's length");
    }
    for size in [0, 1, 16_383, 16_385] {
        refuses(&change(&|r| r.line = vec![0; size].into()), "the line's length");
    }
    for size in [0, 1, 100, 4_799] {
        refuses(&change(&|r| r.rows = vec![0; size].into()), "room for a row");
    }
    for (at, count) in [(0, 33), (0, u64::MAX), (1, 257), (1, u64::MAX), (4, 33), (4, u64::MAX)] {
        refuses(&change(&|r| r.words[at] = count), "the store's counts");
    }
    for above in [32, 33, 63] {
        refuses(&change(&|r| r.words[3] |= 1 << above), "the store's marks");
    }
    refuses(&change(&|r| r.strings[0] = 257), "the table's count");
    refuses(&change(&|r| r.state.fill(u64::MAX)), "the state");
    // more room for rows than is needed
    let mut reader = reading();
    reader.rows = vec![0; 5_000].into();
    assert!(reader.feed_once(b"\n").0);
}

/// Whatever the words of the state are, the answer is false and nothing is touched, or no more is taken and written than there is.
#[test]
fn a_damaged_state_is_read_within_its_memory() {
    let mut random = Random::new(3);
    let mut refused = 0;
    for i in 0..4_000 {
        let mut reader = reading();
        for _ in 0..1 + random.below(3) {
            let at = if i < 400 { i % 10 } else { random.below(10) };
            reader.state[at] = match random.below(4) {
                0 => random.next() >> random.below(64),
                1 => random.pick(&[0, 1, 2, 6, 7, 8, 9, 10, 16_383, 16_384, 16_385, u64::MAX]),
                _ => random.below(20) as u64,
            };
        }
        let before = reader.clone();
        let piece = random.pick(&[&b"00\n"[..], b"\n", b"", b"0", MAKE.as_bytes()]);
        let ending = random.once_in(4);
        let (fed, [taken, written]) = if ending { reader.end_once() } else { reader.feed_once(piece) };
        if fed {
            assert!(taken as usize <= piece.len() && written <= 4_800);
        } else {
            refused += 1;
            assert_eq!((taken, written), (0, 0));
            assert_eq!(reader, before, "something was touched");
        }
    }
    assert!(refused > 0);
}

#[test]
fn nothing_is_taken_after_the_end() {
    for (text, rest) in [(format!("{NAMES}\n{MAKE}"), ""), (String::new(), ""), (format!("no names\n{MAKE}"), MAKE)] {
        let mut reader = TextReader::new();
        let mut rows = Vec::new();
        assert_eq!(reader.feed(text.as_bytes(), &mut rows).unwrap(), text.len() - rest.len());
        reader.end(&mut rows).unwrap();
        let before = rows.clone();
        assert_eq!(reader.feed(format!("{MAKE}\n{NAMES}\n{MAKE}\n").as_bytes(), &mut rows).unwrap(), 0);
        reader.end(&mut rows).unwrap();
        assert_eq!(rows, before);
        assert_eq!(rows, run_text(text.as_bytes()));
    }
    let mut reader = reading();
    assert!(reader.end_once().0);
    let ended = reader.clone();
    for piece in [&b""[..], b"\n", MAKE.as_bytes()] {
        assert_eq!(reader.feed_once(piece), (true, [0, 0]));
    }
    assert_eq!(reader.end_once(), (true, [0, 0]));
    assert_eq!((reader.words, reader.strings, reader.output), (ended.words, ended.strings, ended.output));
}

/// A writer that fails stops the reading, and its error comes back.
#[test]
fn a_writers_error_comes_back() {
    struct Full;
    impl std::io::Write for Full {
        fn write(&mut self, _: &[u8]) -> std::io::Result<usize> {
            Err(std::io::Error::other("full"))
        }

        fn flush(&mut self) -> std::io::Result<()> {
            Ok(())
        }
    }
    let mut reader = TextReader::new();
    assert_eq!(reader.feed(b"st", &mut Full).unwrap(), 2);
    assert_eq!(reader.end(&mut Full).unwrap_err().to_string(), "full");
    assert_eq!(TextReader::new().feed(b"\n", &mut Full).unwrap_err().to_string(), "full");
}

const DAY: &str = concat!(env!("CARGO_MANIFEST_DIR"), "/examples/day.steps");

fn root(path: &str) -> std::path::PathBuf {
    std::path::Path::new(env!("CARGO_MANIFEST_DIR")).join("../..").join(path)
}

fn cells_of_the_day() -> Vec<u8> {
    let text = std::fs::read_to_string(DAY).unwrap();
    let lines: Vec<String> = parse(&text).unwrap().iter().map(|l| cells(&l.call)).collect();
    format!("{NAMES}\n{}\n", lines.join("\n")).into_bytes()
}

#[test]
fn the_days_rows_are_as_the_plain_implementation_says() {
    let input = cells_of_the_day();
    let rows = with_stack(move || same_in_pieces(&input, &mut Random::new(1), 0));
    let rows = String::from_utf8(rows).unwrap();
    let has = |outcome: &str| rows.lines().any(|r| r.split(' ').nth(1).is_some() && r.split_once(' ').unwrap().1.starts_with(outcome));
    for refusal in [1, 2, 3, 4, 7, 8, 9, 10] {
        assert!(has(&format!("0 {refusal} ")), "refusal {refusal}");
    }
    for message in 1..=32 {
        assert!(has(&format!("2 {message} ")), "message {message}");
    }
    assert!(has("3 0 "));
}

/// Each row of the day, read back, is the report of the same call on a store.
#[test]
fn rows_say_what_a_store_reports() {
    let calls = parse(&std::fs::read_to_string(DAY).unwrap()).unwrap();
    let told = String::from_utf8(run_text(&cells_of_the_day())).unwrap();
    let mut store = Store::new();
    assert_eq!(told.lines().count(), calls.len() + 1);
    for (i, (line, text)) in calls.iter().zip(told.lines().skip(1)).enumerate() {
        let row = Row::parse(text, &line.call).unwrap();
        assert_eq!(row.line, i as u64 + 1, "{text}");
        match &line.call {
            Call::Step { step, answers } => assert_eq!(row.report, store.step(step, answers), "{text}"),
            Call::Enter(units) => {
                let outcome = store.enter_units(units).map(|s| Completion::Value(s.into())).map_err(Failure::from);
                assert_eq!((row.report.outcome, row.report.answers, row.report.calls), (outcome, 0, 0), "{text}");
            }
            call => panic!("{call}"),
        }
    }
}

/// The cells and rows that are stored for the program are those of the day, and what the plain implementation makes of it.
#[test]
fn the_stored_day_is_the_days() {
    let read = |name: &str| std::fs::read(root("crates/text_steps").join(name)).unwrap_or_else(|e| panic!("crates/text_steps/{name}: {e}"));
    assert!(read("stdin") == cells_of_the_day(), "crates/text_steps/stdin is not `steps --cells examples/day.steps`");
    let rows = with_stack(|| plain::text::run_text(&cells_of_the_day()));
    assert_eq!(String::from_utf8_lossy(&read("stdout")), String::from_utf8_lossy(&rows));
}

/// What a program prints for an input.
fn piped(command: &mut Command, input: &[u8]) -> Vec<u8> {
    let mut child = command.stdin(Stdio::piped()).stdout(Stdio::piped()).spawn().unwrap();
    let (mut stdin, input) = (child.stdin.take().unwrap(), input.to_vec());
    // a program may write while it reads
    let writing = std::thread::spawn(move || std::io::Write::write_all(&mut stdin, &input));
    let told = child.wait_with_output().unwrap();
    writing.join().unwrap().unwrap();
    assert!(told.status.success());
    told.stdout
}

/// `steps --cells FILE | PROGRAM | steps --rows FILE`, with the program where it is built, else with the library's rows.
#[test]
fn the_day_is_a_page_that_can_be_read() {
    let steps = env!("CARGO_BIN_EXE_steps");
    let cells = piped(Command::new(steps).args(["--cells", DAY]), &[]);
    let program = root("target/bin/text_steps");
    let rows = if program.is_file() { piped(&mut Command::new(program), &cells) } else { run_text(&cells) };
    let page = String::from_utf8(piped(Command::new(steps).args(["--rows", DAY]), &rows)).unwrap();
    let fixed = "{value: 70000, writable: false, enumerable: true, configurable: false}";
    let (told, open) = ("{value: 70000, enumerable: true}", "{value: 5, writable: true, enumerable: true, configurable: true}");
    let unusable = "a string was not entered or is too long, or a part has a kind that cannot be used";
    for line in [
        "1: string \"visits\": s0".to_string(),
        "9: function: f1 (0 answers, 0 calls)".to_string(),
        format!("10: defineProperty o0 \"visits\" {fixed}: true (0 answers, 3 calls)"),
        "14: ownKeys o0: [\"7\", \"10\", \"visits\", y3] (0 answers, 1 call)".to_string(),
        format!("15: getOwnPropertyDescriptor o0 \"visits\": {fixed} (0 answers, 1 call)"),
        "21: get o2 \"visits\", handler answers 4464: TypeError 17, Proxy trap returned unexpected data descriptor (1 answer, 2 calls)".to_string(),
        "29: setPrototypeOf o2 o0, handler answers throw \"name\": thrown \"name\" (1 answer, 1 call)".to_string(),
        "55: getOwnPropertyDescriptor o2 \"name\", handler answers undefined: absent (1 answer, 2 calls)".to_string(),
        "91: get o2 \"visits\": refused 8, the sheet has no next answer".to_string(),
        "93: getOwnPropertyDescriptor o2 \"visits\", handler answers f1: refused 9, the next answer cannot be read".to_string(),
        "102: isFrozen o9: false (0 answers, 3 calls)".to_string(),
        "104: freeze o9: true (0 answers, 6 calls)".to_string(),
        "107: freeze o6, handler answers false: false (1 answer, 1 call)".to_string(),
        "114: freeze o11, handler answers {value: 70000, enumerable: true}: refused 8, the sheet has no next answer".to_string(),
        "115: isExtensible o10: true (0 answers, 1 call)".to_string(),
        format!(
            "116: freeze o12, handler answers {told}, then true, then {told}, then {open}, then false: \
             TypeError 32, Property definition was rejected (5 answers, 21 calls)"
        ),
        "117: isExtensible o10: false (0 answers, 1 call)".to_string(),
        format!("118: getOwnPropertyDescriptor o10 \"name\": {open} (0 answers, 1 call)"),
        format!("119: freeze o11, handler answers {told}, then {open}, then throw \"name\": thrown \"name\" (3 answers, 19 calls)"),
        format!("120: getOwnPropertyDescriptor o10 \"name\": {} (0 answers, 1 call)", fixed.replace("70000", "5")),
        format!("121: getOwnPropertyDescriptor o10 y3: {open} (0 answers, 1 call)"),
        "122: isSealed o10: false (0 answers, 5 calls)".to_string(),
        // functions by their own name, as operands too
        format!("126: defineProperty f13 \"visits\" {fixed}: true (0 answers, 3 calls)"),
        "127: object f13: o14 (0 answers, 0 calls)".to_string(),
        "128: get o14 \"visits\": 70000 (0 answers, 5 calls)".to_string(),
        "130: function o14: f15 (0 answers, 0 calls)".to_string(),
        "131: set o14 \"name\" 5 receiver f15: true (0 answers, 10 calls)".to_string(),
        "133: getPrototypeOf o14: f13 (0 answers, 1 call)".to_string(),
        "134: setPrototypeOf f13 f15: false (0 answers, 1 call)".to_string(),
        "136: get o14 y3 receiver f13, answers f1: f1 (1 answer, 2 calls)".to_string(),
        "137: freeze f15: true (0 answers, 6 calls)".to_string(),
        "139: set f15 \"name\" 6: false (0 answers, 2 calls)".to_string(),
        "141: getPrototypeOf o16, handler answers f15: f15 (1 answer, 2 calls)".to_string(),
        "142: has o16 \"name\", handler answers f1: true (1 answer, 1 call)".to_string(),
        "145: getPrototypeOf o16, handler answers f15: TypeError 3, Proxy trap returned unexpected prototype (1 answer, 3 calls)".to_string(),
        format!("146: proxy f13 traps get: refused 3, {unusable}"),
        format!("148: setPrototypeOf o0 o13: refused 3, {unusable}"),
        "150: function f17: refused 2, an object was never made".to_string(),
        "152 to 166: object: o17 to o31 (0 answers, 0 calls)".to_string(),
        "167: object: refused 7, there is no room".to_string(),
        "168: function: refused 7, there is no room".to_string(),
        "169: get o0 \"visits\", answers 4464: refused 13, the sheet has unread answers".to_string(),
        "170: has o16 \"name\", handler answers f1, then true: refused 13, the sheet has unread answers".to_string(),
        "171: has o16 \"name\", handler answers f1: true (1 answer, 1 call)".to_string(),
        "174: object, answers true: refused 7, there is no room".to_string(),
        "176: isExtensible o17: true (0 answers, 1 call)".to_string(),
        // what is released, and what takes its number, by its own name
        "177: release f13: refused 14, the object is still named".to_string(),
        "178: release f1: refused 14, the object is still named".to_string(),
        "181: release o20: refused 14, the object is still named".to_string(),
        "182: release o9: true (0 answers, 0 calls)".to_string(),
        "184: release o20: true (0 answers, 0 calls)".to_string(),
        "185: release o20: refused 2, an object was never made".to_string(),
        "187: has o16 \"name\", handler answers o9: refused 2, an object was never made".to_string(),
        "188: object: o9 (0 answers, 0 calls)".to_string(),
        "189: isFrozen o9: false (0 answers, 1 call)".to_string(),
        "190: ownKeys o9: [] (0 answers, 1 call)".to_string(),
        "191: function o9: f20 (0 answers, 0 calls)".to_string(),
        "192: function: refused 7, there is no room".to_string(),
        "194: proxy o17, answers true: refused 7, there is no room".to_string(),
        "196: release o16: true (0 answers, 0 calls)".to_string(),
        format!("197: proxy f20: refused 3, {unusable}"),
        "199: get o16 \"visits\", handler answers 4464: 4464 (1 answer, 2 calls)".to_string(),
        "202: release o17: true (0 answers, 0 calls)".to_string(),
    ] {
        assert!(page.lines().any(|l| l == line), "{line}");
    }
    assert!(page.ends_with(&format!("203: getOwnPropertyDescriptor o0 \"visits\": {fixed} (0 answers, 1 call)\n")));
    // every line of the day is shown, those alike together
    let shown: Vec<(usize, usize)> = page.lines().map(|l| l.split_once(':').unwrap().0).map(numbers).collect();
    assert!(shown.windows(2).all(|w| w[0].1 + 1 == w[1].0));
    let calls = parse(&std::fs::read_to_string(DAY).unwrap()).unwrap();
    assert_eq!((shown[0].0, shown[shown.len() - 1].1), (1, calls.len()));
    assert_eq!(rows::HEADING, HEADING);
}

/// `8`, or `152 to 166`.
fn numbers(text: &str) -> (usize, usize) {
    let (from, to) = text.split_once(" to ").unwrap_or((text, text));
    (from.parse().unwrap(), to.parse().unwrap())
}
