//! Calls and what came of them, as lines that a person reads: `21: get o2 "visits", handler answers 4464: TypeError 17, ...`. Lines alike are one.
//!
//! The transcript performs the calls on a store of its own, to tell which test rejected a descriptor.
use crate::notation::{Call, Strings};
use crate::readable;
use crate::report::{Completion, Failure, Report};
use crate::step::{Answer, Step};
use crate::store::Store;
use crate::validation::ValidationTest;
use crate::value::{FunctionId, ObjectId, Value};
use std::io::{self, Write};

/// What is known of the calls so far, and the last lines, which are written once another kind of line comes.
#[derive(Default)]
pub(crate) struct Transcript {
    strings: Strings,
    proxies: Vec<ObjectId>,
    functions: Vec<ObjectId>,
    store: Store,
    /// Set once a report was not the store's: what rejects from there on is not known.
    differs: bool,
    last: Option<Lines>,
}

/// Lines alike, from one number to another: the same call, and each time the same outcome or the next object.
struct Lines {
    from: u64,
    to: u64,
    call: String,
    first: Outcome,
    last: Outcome,
}

#[derive(Clone, PartialEq)]
struct Outcome {
    told: String,
    /// The object or function that was made.
    object: Option<ObjectId>,
    /// Answers and calls, where they are told.
    spent: String,
}

impl Transcript {
    /// The strings that were entered so far.
    pub(crate) fn strings(&self) -> &Strings {
        &self.strings
    }

    /// The next line.
    pub(crate) fn write(&mut self, line: u64, call: &Call, report: &Report, output: &mut impl Write) -> io::Result<()> {
        let failed = self.perform(call, report);
        let (told, outcome) = (self.call(call), self.outcome(call, report, failed));
        match call {
            Call::Enter(units) => {
                self.strings.enter(units);
            }
            Call::Step { step: Step::MakeProxy { .. }, .. } => self.proxies.extend(outcome.object),
            Call::Step { step: Step::MakeFunction { .. }, .. } => self.functions.extend(outcome.object),
            Call::Step { step: Step::Release { object }, .. } if report.outcome.is_ok() => {
                // the number may be that of another object next
                self.proxies.retain(|o| o != object);
                self.functions.retain(|o| o != object);
            }
            Call::Step { .. } => {}
        }
        if let Some(lines) = &mut self.last {
            if lines.call == told && lines.goes_on_with(&outcome) {
                (lines.to, lines.last) = (line, outcome);
                return Ok(());
            }
        }
        self.flush(output)?;
        self.last = Some(Lines { from: line, to: line, call: told, first: outcome.clone(), last: outcome });
        Ok(())
    }

    /// Writes the last lines.
    pub(crate) fn flush(&mut self, output: &mut impl Write) -> io::Result<()> {
        self.last.take().map_or(Ok(()), |lines| lines.write(output))
    }

    /// Performs the call, and says which test rejected its descriptor if this is the report.
    fn perform(&mut self, call: &Call, report: &Report) -> Option<ValidationTest> {
        if self.differs {
            return None;
        }
        let (told, failed) = match call {
            Call::Enter(units) => {
                let entered = self.store.enter_units(units);
                let outcome = entered.map(|s| Completion::Value(s.into())).map_err(Failure::Refused);
                (Report { outcome, answers: 0, calls: 0 }, None)
            }
            Call::Step { step, answers } => {
                let failed = self.store.failed_test(step, answers);
                (self.store.step(step, answers), failed)
            }
        };
        self.differs = told != *report;
        failed.filter(|_| !self.differs)
    }

    /// What an object is called: `f1` where the number is that of a function.
    fn name(&self, o: ObjectId) -> String {
        if self.functions.contains(&o) {
            FunctionId(o.0).to_string()
        } else {
            o.to_string()
        }
    }

    /// A call; a receiver that is the object itself is left out.
    fn call(&self, call: &Call) -> String {
        let Call::Step { step, answers } = call else {
            return readable::call(call, &self.strings);
        };
        let object = step.object();
        let name = object.map(|o| self.name(o)).unwrap_or_default();
        let told = readable::step_on(step, &name, &self.strings);
        let own = told.strip_suffix(&format!(" receiver {name}"));
        let who = if object.is_some_and(|o| self.proxies.contains(&o)) { "handler answers" } else { "answers" };
        let answers = answers.chunk_by(|a, b| a == b).flat_map(|alike| self.answers(alike)).collect::<Vec<_>>();
        let told = own.unwrap_or(&told);
        if answers.is_empty() {
            told.to_string()
        } else {
            format!("{told}, {who} {}", answers.join(", then "))
        }
    }

    /// Answers alike, one by one or, where they are many, together.
    fn answers(&self, alike: &[Answer]) -> Vec<String> {
        let told = readable::answer(&alike[0], &self.strings);
        match alike.len() {
            n @ 0..=3 => vec![told; n],
            n => vec![format!("{n} times {told}")],
        }
    }

    fn outcome(&self, call: &Call, report: &Report, failed: Option<ValidationTest>) -> Outcome {
        let mut told = match &report.outcome {
            // a string by its number, which is what it is called from now on
            Ok(Completion::Value(v @ Value::String(_))) if matches!(call, Call::Enter(_)) => v.to_string(),
            Ok(c) => readable::completion(c, &self.strings),
            Err(Failure::Refused(r)) => format!("refused {}, {r}", r.number()),
            Err(Failure::TypeError(m)) => format!("TypeError {}, {m}", m.number()),
            Err(Failure::Thrown(v)) => format!("thrown {}", readable::value(*v, &self.strings)),
        };
        if let Some(test) = failed {
            told += &format!(", {}", readable::failed_test(test));
        }
        let object = match (call, &report.outcome) {
            (Call::Step { step: Step::MakeObject { .. } | Step::MakeProxy { .. }, .. }, Ok(Completion::Value(Value::Object(o)))) => Some(*o),
            (Call::Step { step: Step::MakeFunction { .. }, .. }, Ok(Completion::Value(Value::Function(f)))) => Some((*f).into()),
            _ => None,
        };
        let spent = match (call, &report.outcome) {
            (Call::Enter(_), _) | (_, Err(Failure::Refused(_))) => String::new(),
            _ => format!(" {}", readable::spent(report)),
        };
        Outcome { told, object, spent }
    }
}

impl Lines {
    /// Whether another outcome of the same call is one more of these.
    fn goes_on_with(&self, outcome: &Outcome) -> bool {
        let next = |o: ObjectId| ObjectId(o.0.wrapping_add(1));
        let counts = self.last.object.is_some() && self.last.object.map(next) == outcome.object && self.last.spent == outcome.spent;
        counts || self.first == *outcome && self.last == *outcome
    }

    fn write(&self, output: &mut impl Write) -> io::Result<()> {
        let Lines { from, to, call, first, last } = self;
        let lines = if from == to { from.to_string() } else { format!("{from} to {to}") };
        let told = if first == last { first.told.clone() } else { format!("{} to {}", first.told, last.told) };
        writeln!(output, "{lines}: {call}: {told}{}", first.spent)
    }
}
