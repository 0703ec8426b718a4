//! Steps as lines of text, and a row for each.
use super::record::{self, DESCRIPTOR, STEP};
use super::step::{self, Completion, Outcome, Report};
use super::world::World;

pub const HEADING: &str = "line outcome number answers calls value";
pub const NAMES: [&str; 7] = ["step", "object", "key", "value", "receiver", "descriptor", "sheet"];
pub const MAXIMUM_CHARACTERS: usize = 16_384;

/// The bytes of each cell but the sheet's, in the order of a step's record.
const SIZES: [usize; 6] = [1, 1, 9, 9, 9, DESCRIPTOR];
const ENTERING: u8 = 15;
const BROKEN: u64 = 12;
const OUTPUT: usize = 9 * 256;

/// The whole output of a whole input, over nothing made or entered.
pub fn run_text(input: &[u8]) -> Vec<u8> {
    let mut output = format!("{HEADING}\n").into_bytes();
    let mut lines = lines(input).into_iter();
    let Some(order) = lines.next().and_then(order) else {
        output.extend(row(0, &refused(BROKEN)).bytes());
        return output;
    };
    let mut world = World::default();
    for (i, line) in lines.enumerate() {
        output.extend(row(i as u64 + 1, &run_line(&mut world, &order, line)).bytes());
    }
    output
}

/// One line after the first.
pub fn run_line(world: &mut World, order: &[usize; 7], line: &[u8]) -> Report {
    match call(order, line) {
        None => refused(BROKEN),
        Some(Call::Malformed) => refused(1),
        Some(Call::Enter(units)) => step::enter_string(world, &units),
        Some(Call::Step(bytes, sheet)) => step::step(world, &bytes, &sheet, &mut [0; OUTPUT]).report,
    }
}

/// Lines end in a line feed; what follows the last one is a line unless it is empty.
pub fn lines(input: &[u8]) -> Vec<&[u8]> {
    let mut lines: Vec<&[u8]> = input.split(|b| *b == b'\n').collect();
    if lines.last().is_some_and(|l| l.is_empty()) {
        lines.pop();
    }
    lines
}

fn split(line: &[u8]) -> Vec<&[u8]> {
    line.split(|b| *b == b' ').collect()
}

/// The place of each name in the first line, if it has the seven, each once.
pub fn order(line: &[u8]) -> Option<[usize; 7]> {
    let cells = split(line);
    let mut order = [0; 7];
    for (place, name) in order.iter_mut().zip(NAMES) {
        *place = cells.iter().position(|c| *c == name.as_bytes())?;
    }
    (cells.len() == 7).then_some(order)
}

enum Call {
    Step(Vec<u8>, Vec<u8>),
    Enter(Vec<u16>),
    /// A string's line whose other cells are not all zero.
    Malformed,
}

/// The call of a line, or nothing where the line breaks the form.
fn call(order: &[usize; 7], line: &[u8]) -> Option<Call> {
    if line.len() > MAXIMUM_CHARACTERS {
        return None;
    }
    let given = split(line);
    if given.len() != 7 {
        return None;
    }
    let cells = order.map(|place| given[place]);
    let mut bytes = Vec::new();
    for (cell, size) in cells.into_iter().zip(SIZES) {
        let part = if cell == b"-" { vec![0; size] } else { hexadecimal(cell, 2)?.into_iter().map(|n| n as u8).collect() };
        if part.len() != size {
            return None;
        }
        bytes.extend(part);
    }
    assert_eq!(bytes.len(), STEP);
    let sheet = cells[6];
    if bytes[0] == ENTERING {
        let units = if sheet == b"-" { Vec::new() } else { hexadecimal(sheet, 4)? };
        return Some(if bytes[1..].iter().any(|b| *b != 0) { Call::Malformed } else { Call::Enter(units) });
    }
    let sheet = if sheet == b"-" { vec![0] } else { hexadecimal(sheet, 2)?.into_iter().map(|n| n as u8).collect() };
    Some(Call::Step(bytes, sheet))
}

/// Numbers of so many lowercase digits each: at least one, and no digit left over.
fn hexadecimal(cell: &[u8], digits: usize) -> Option<Vec<u16>> {
    let digit = |c: u8| match c {
        b'0'..=b'9' => Some(u16::from(c - b'0')),
        b'a'..=b'f' => Some(u16::from(c - b'a' + 10)),
        _ => None,
    };
    let number = |group: &[u8]| {
        let n = group.iter().try_fold(0, |n, c| Some(16 * n + digit(*c)?))?;
        (group.len() == digits).then_some(n)
    };
    let numbers: Vec<u16> = cell.chunks(digits).map(number).collect::<Option<_>>()?;
    (!numbers.is_empty()).then_some(numbers)
}

fn refused(number: u64) -> Report {
    Report { outcome: Outcome::Refused(number), answers: 0, calls: 0 }
}

fn row(line: u64, report: &Report) -> String {
    let (outcome, number, bytes) = match &report.outcome {
        Outcome::Refused(n) => (0, *n, Vec::new()),
        Outcome::Result(Completion::Value(v)) => (1, 0, v.bytes().to_vec()),
        Outcome::Result(Completion::Descriptor(d)) => (1, 0, record::descriptor_bytes(d)),
        Outcome::Result(Completion::Absent) => (1, 0, Vec::new()),
        Outcome::Result(Completion::Keys(keys)) => (1, 0, keys.iter().flat_map(|k| k.value().bytes()).collect()),
        Outcome::TypeError(n) => (2, *n, Vec::new()),
        Outcome::Thrown(v) => (3, 0, v.bytes().to_vec()),
    };
    let value = match bytes.as_slice() {
        [] => "-".to_string(),
        bytes => bytes.iter().map(|b| format!("{b:02x}")).collect(),
    };
    format!("{line} {outcome} {number} {} {} {value}\n", report.answers, report.calls)
}
