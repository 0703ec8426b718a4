//! Runs a file of readable steps over one store, prints them as lines of text, shows the rows of those lines beside them, or lists the properties of
//! the objects that they leave. `steps --help` says how; the lines are described in `demnyaluz::notation`.
#![forbid(unsafe_code)]

use demnyaluz::notation::{cells, hex, parse, Call, Line, Strings, HEADING};
use demnyaluz::{readable, rows, sheet_bytes, Completion, Failure, ObjectId, Step, Store, Value};
use std::collections::BTreeMap;
use std::error::Error;
use std::ffi::OsString;
use std::io::{self, BufWriter, Read, Write};
use std::path::Path;
use std::process::ExitCode;

const USAGE: &str = "\
usage: steps [--cells | --rows | --pages] [--] FILE

Runs the readable steps of FILE over one store and prints, for each, its line, its bytes and its report. Where
ValidateAndApplyPropertyDescriptor (ECMA-262 10.1.6.3) rejects a descriptor, the first test that failed is
named: extensible, configurable, enumerable, kind, get, set, writable or value.
FILE may be -, the standard input, but not with --rows.

  --cells      prints each step as a line of hexadecimal cells, under their names, and runs nothing
  --rows       reads the rows of such lines from the standard input and prints each beside its step; failed
               tests are named up to the first row that is not what its step reports here
  --pages      runs the steps and prints, in place of their reports, the property page of each object and
               function that they leave, in the order of their numbers; a proxy has none. A line with the
               object's name stands before its page, as 'o0:' or, for a function, 'f0:', and an empty line
               between two pages
  --help, -h   prints this
  --           ends the options, for a FILE whose name begins with a dash

The exit status is 1 where FILE or the rows cannot be read, and 2 where the arguments are wrong.

Example: a count that is fixed at 70,000, and a handler that counts in sixteen bits. With the lines

  object
  defineProperty o0 \"visits\" {value: 70000, writable: false, enumerable: true, configurable: false}
  proxy o0 traps get
  get o1 \"visits\" answers: 4464

as FILE, the last report is

  TypeError 17: Proxy trap returned unexpected data descriptor (1 answer, 2 calls)
";

#[derive(Clone, Copy, PartialEq, Eq)]
enum Mode {
    Run,
    Cells,
    Rows,
    Pages,
}

/// What the arguments ask for.
enum Request {
    Help,
    Work { mode: Mode, file: OsString },
}

/// The request, or what is wrong with the arguments.
fn request(arguments: impl Iterator<Item = OsString>) -> Result<Request, String> {
    let (mut mode, mut file) = (Mode::Run, None);
    let mut options = true;
    for argument in arguments {
        let option = argument.to_string_lossy();
        if options && option.starts_with('-') && option != "-" {
            match &*option {
                "--help" | "-h" => return Ok(Request::Help),
                "--cells" | "--rows" | "--pages" if mode != Mode::Run => {
                    return Err(format!("expected one of --cells, --rows and --pages, found '{option}' as a second"));
                }
                "--cells" => mode = Mode::Cells,
                "--rows" => mode = Mode::Rows,
                "--pages" => mode = Mode::Pages,
                "--" => options = false,
                _ => return Err(format!("unknown option '{option}'")),
            }
        } else if file.is_some() {
            return Err(format!("expected one FILE, found '{option}' as a second"));
        } else {
            file = Some(argument);
        }
    }
    match file {
        None => Err("expected a FILE, found none".to_string()),
        Some(file) if mode == Mode::Rows && file == "-" => {
            Err("expected a FILE with --rows, which reads the rows from the standard input, found '-'".to_string())
        }
        Some(file) => Ok(Request::Work { mode, file }),
    }
}

fn main() -> ExitCode {
    let (mode, file) = match request(std::env::args_os().skip(1)) {
        Ok(Request::Help) => {
            // nobody may read it all
            let _ = io::stdout().write_all(USAGE.as_bytes());
            return ExitCode::SUCCESS;
        }
        Ok(Request::Work { mode, file }) => (mode, file),
        Err(message) => {
            eprintln!("steps: {message}; see 'steps --help'");
            return ExitCode::from(2);
        }
    };
    match work(mode, Path::new(&file)) {
        Ok(()) => ExitCode::SUCCESS,
        Err(e) => {
            eprintln!("{}: {}", file.to_string_lossy(), with_sources(&*e));
            ExitCode::FAILURE
        }
    }
}

/// An error and those that it comes from.
fn with_sources(error: &dyn Error) -> String {
    let mut told = error.to_string();
    let mut source = error.source();
    while let Some(e) = source {
        told += &format!(": {e}");
        source = e.source();
    }
    told
}

fn work(mode: Mode, file: &Path) -> Result<(), Box<dyn Error>> {
    let text = read(file)?;
    let calls = parse(&text)?;
    let mut output = BufWriter::new(io::stdout().lock());
    let done = match mode {
        Mode::Run => run(&calls, &text, &mut output).map_err(rows::Error::Write),
        Mode::Cells => print_cells(&calls, &mut output).map_err(rows::Error::Write),
        Mode::Rows => rows::show(&calls, io::stdin().lock(), &mut output),
        Mode::Pages => print_pages(&calls, &mut output).map_err(rows::Error::Write),
    };
    // what was shown before an error is printed before it
    let flushed = output.flush().map_err(rows::Error::Write);
    match done.and(flushed) {
        // nobody reads on
        Err(rows::Error::Write(e)) if e.kind() == io::ErrorKind::BrokenPipe => Ok(()),
        done => Ok(done?),
    }
}

/// The text of a file.
fn read(file: &Path) -> Result<String, Box<dyn Error>> {
    let mut bytes = Vec::new();
    if file == Path::new("-") {
        io::stdin().read_to_end(&mut bytes)?;
    } else {
        std::fs::File::open(file)?.read_to_end(&mut bytes)?;
    }
    String::from_utf8(bytes).map_err(|e| {
        let (before, after) = e.as_bytes().split_at(e.utf8_error().valid_up_to());
        let before = String::from_utf8_lossy(before);
        let line = 1 + before.matches('\n').count();
        let column = 1 + before.rsplit('\n').next().unwrap_or_default().chars().count();
        format!("line {line}, column {column}: expected UTF-8, found the byte {}", hex(&after[..1])).into()
    })
}

fn print_cells(calls: &[Line], output: &mut impl Write) -> io::Result<()> {
    writeln!(output, "{HEADING}")?;
    for line in calls {
        writeln!(output, "{}", cells(&line.call))?;
    }
    Ok(())
}

fn run(calls: &[Line], text: &str, output: &mut impl Write) -> io::Result<()> {
    let lines: Vec<&str> = text.lines().collect();
    let mut store = Store::new();
    let mut strings = Strings::new();
    for Line { number, call } in calls {
        match call {
            Call::Enter(units) => {
                strings.enter(units);
                let told = store.enter_units(units).map_or_else(|r| Failure::Refused(r).to_string(), |s| s.to_string());
                writeln!(output, "{number}: {}\n   {told}", readable::call(call, &strings))?;
            }
            Call::Step { step, answers } => {
                writeln!(output, "{number}: {}", lines[number - 1].trim_end())?;
                for answers in lines[*number..].iter().take_while(|l| l.starts_with([' ', '\t'])) {
                    writeln!(output, "{}", answers.trim_end())?;
                }
                writeln!(output, "   step  {}", hex(&step.to_bytes()))?;
                writeln!(output, "   sheet {}", hex(&sheet_bytes(answers)))?;
                let failed = store.failed_test(step, answers);
                writeln!(output, "   {}", readable::report(&store.step(step, answers), &strings))?;
                if let Some(test) = failed {
                    writeln!(output, "   {}", readable::failed_test(test))?;
                }
            }
            call => unreachable!("a line is an entry or a step: {call}"),
        }
    }
    Ok(())
}

/// Runs the calls, and prints the page of each object and function that they leave.
fn print_pages(calls: &[Line], output: &mut impl Write) -> io::Result<()> {
    let mut store = Store::new();
    let mut names: BTreeMap<ObjectId, String> = BTreeMap::new();
    for Line { call, .. } in calls {
        match call {
            Call::Enter(units) => drop(store.enter_units(units)),
            Call::Step { step, answers } => match (step, store.step(step, answers).outcome) {
                (Step::MakeObject { .. }, Ok(Completion::Value(Value::Object(o)))) => drop(names.insert(o, o.to_string())),
                (Step::MakeFunction { .. }, Ok(Completion::Value(Value::Function(f)))) => drop(names.insert(f.into(), f.to_string())),
                // its number may be that of another object, or of a proxy, next
                (Step::Release { object }, Ok(_)) => drop(names.remove(object)),
                _ => {}
            },
            call => unreachable!("a line is an entry or a step: {call}"),
        }
    }
    for (i, (object, name)) in names.into_iter().enumerate() {
        let page = store.page(object).expect("the page of what is no proxy");
        let between = if i == 0 { "" } else { "\n" };
        write!(output, "{between}{name}:\n{page}")?;
    }
    Ok(())
}
