//! One store in the library's memory and one plain world, that must agree after every call.
use super::{entries, layout};
use crate::plain::descriptor::Descriptor;
use crate::plain::property_page;
use crate::plain::record;
use crate::plain::step::{self, Completion, Outcome, Report, Stepped};
use crate::plain::value::Value;
use crate::plain::world::{Object, World};
use demnyaluz::lent;

/// How often functions came in each place, and how often they were refused.
#[derive(Clone, Copy, Debug, Default, PartialEq, Eq)]
pub struct Functions {
    /// Results on a function.
    pub objects: u64,
    /// Results of codes 1, 5 and 16 with a function as prototype.
    pub prototypes: u64,
    /// Results of codes 11 and 12 with a function as receiver.
    pub receivers: u64,
    /// Properties defined with a function as getter or setter.
    pub accessors: u64,
    /// Results of code 4 that are a function.
    pub answered: u64,
    /// Refused as 2: a value of kind 8 whose number was never made.
    pub never_made: u64,
    /// Refused as 3: kind 8 for what is no function.
    pub no_functions: u64,
    /// Refused as 3: kind 7 for a function.
    pub as_objects: u64,
    /// Refused as 3: a proxy over a function.
    pub targets: u64,
    /// Refused as 3: a function revoked.
    pub revoked: u64,
}

impl Functions {
    fn counts(&mut self) -> [&mut u64; 10] {
        let Functions { objects, prototypes, receivers, accessors, answered, never_made, no_functions, as_objects, targets, revoked } = self;
        [objects, prototypes, receivers, accessors, answered, never_made, no_functions, as_objects, targets, revoked]
    }

    /// Whether each came.
    pub fn all(mut self) -> bool {
        self.counts().iter().all(|n| **n > 0)
    }

    fn add(&mut self, mut other: Functions) {
        self.counts().into_iter().zip(other.counts()).for_each(|(a, b)| *a += *b);
    }

    /// One step over the world from before it.
    fn count(&mut self, world: &World, bytes: &[u8], sheet: &[u8], outcome: &Outcome) {
        let Some(step) = record::step(bytes) else { return };
        let is_function = |n: u64| world.is_live(n) && world.is_callable(n as usize);
        let is_other = |n: u64| world.is_live(n) && !world.is_callable(n as usize);
        let on_function = !matches!(step.code, 1 | 16) && is_function(step.object as u64);
        let answers = record::sheet(sheet).unwrap_or_default();
        let some = |is: &dyn Fn(Value) -> bool| step.values().any(is) || answers.iter().flat_map(|a| a.values()).any(is);
        match outcome {
            Outcome::Result(completion) => {
                self.objects += u64::from(on_function);
                self.prototypes += u64::from(matches!(step.code, 1 | 5 | 16) && step.value.is_function());
                self.receivers += u64::from(step.receiver.is_function());
                self.accessors += u64::from([step.descriptor.get, step.descriptor.set].into_iter().flatten().any(Value::is_function));
                self.answered += u64::from(step.code == 4 && matches!(completion, Completion::Value(Value::Function(_))));
            }
            Outcome::Refused(2) => self.never_made += u64::from(some(&|v| matches!(v, Value::Function(n) if n >= world.objects.len() as u64))),
            Outcome::Refused(3) => {
                self.no_functions += u64::from(some(&|v| matches!(v, Value::Function(n) if is_other(n))));
                self.as_objects += u64::from(some(&|v| matches!(v, Value::Object(n) if is_function(n))));
                self.targets += u64::from(step.code == 2 && on_function);
                self.revoked += u64::from(step.code == 3 && on_function);
            }
            _ => {}
        }
    }
}

/// How often pages were written, and how often they were refused.
#[derive(Clone, Copy, Debug, Default, PartialEq, Eq)]
pub struct Pages {
    pub objects: u64,
    pub functions: u64,
    /// Lines of properties.
    pub properties: u64,
    /// Pages that left no byte of the output.
    pub exact: u64,
    /// Refused as 1: memory that is no store or no table.
    pub no_memory: u64,
    /// Refused as 2.
    pub never_made: u64,
    /// Refused as 3.
    pub proxies: u64,
    /// Refused as 11.
    pub too_long: u64,
}

impl Pages {
    fn counts(&mut self) -> [&mut u64; 8] {
        let Pages { objects, functions, properties, exact, no_memory, never_made, proxies, too_long } = self;
        [objects, functions, properties, exact, no_memory, never_made, proxies, too_long]
    }

    /// Whether each came.
    pub fn all(mut self) -> bool {
        self.counts().iter().all(|n| **n > 0)
    }

    fn add(&mut self, mut other: Pages) {
        self.counts().into_iter().zip(other.counts()).for_each(|(a, b)| *a += *b);
    }

    /// One page, in an output of so many bytes.
    fn count(&mut self, world: &World, object: u64, told: Result<u64, u64>, room: usize) {
        match told {
            Ok(length) => {
                let is_function = world.is_callable(object as usize);
                self.functions += u64::from(is_function);
                self.objects += u64::from(!is_function);
                self.properties += length / 47 - 1;
                self.exact += u64::from(length == room as u64);
            }
            Err(1) => self.no_memory += 1,
            Err(2) => self.never_made += 1,
            Err(3) => self.proxies += 1,
            Err(11) => self.too_long += 1,
            Err(number) => panic!("a page is never refused as {number}"),
        }
    }
}

/// How often objects were released, their numbers taken again, and refused.
#[derive(Clone, Copy, Debug, Default, PartialEq, Eq)]
pub struct Releases {
    pub objects: u64,
    pub functions: u64,
    pub proxies: u64,
    pub revoked: u64,
    /// Properties that went with their objects.
    pub properties: u64,
    /// Objects made under a released number.
    pub reused: u64,
    /// Of these, those made where all 32 numbers had been given out.
    pub reused_of_all: u64,
    /// Refused as 7: objects too many, after some had been released.
    pub full: u64,
    /// Refused as 14: by a prototype, a value, a getter, a setter and a target; by its own property.
    pub prototypes: u64,
    pub values: u64,
    pub getters: u64,
    pub setters: u64,
    pub targets: u64,
    pub own: u64,
    /// Refused as 2, with a released number as the step's object, to be released again, as value, as receiver, in a descriptor, in a sheet, of a page.
    pub as_object: u64,
    pub again: u64,
    pub as_value: u64,
    pub as_receiver: u64,
    pub in_descriptor: u64,
    pub in_sheet: u64,
    pub of_page: u64,
}

impl Releases {
    fn counts(&mut self) -> [&mut u64; 21] {
        let Releases { objects, functions, proxies, revoked, properties, reused, reused_of_all, full, .. } = self;
        let Releases { prototypes, values, getters, setters, targets, own, .. } = self;
        let Releases { as_object, again, as_value, as_receiver, in_descriptor, in_sheet, of_page, .. } = self;
        [
            objects,
            functions,
            proxies,
            revoked,
            properties,
            reused,
            reused_of_all,
            full,
            prototypes,
            values,
            getters,
            setters,
            targets,
            own,
            as_object,
            again,
            as_value,
            as_receiver,
            in_descriptor,
            in_sheet,
            of_page,
        ]
    }

    /// Whether each came.
    pub fn all(mut self) -> bool {
        self.counts().iter().all(|n| **n > 0)
    }

    fn add(&mut self, mut other: Releases) {
        self.counts().into_iter().zip(other.counts()).for_each(|(a, b)| *a += *b);
    }

    /// One step over the world from before it; `once` says whether anything was released before.
    fn count(&mut self, world: &World, once: bool, bytes: &[u8], sheet: &[u8], outcome: &Outcome) {
        let Some(step) = record::step(bytes) else { return };
        let makes = matches!(step.code, 1 | 2 | 16);
        let is_released = |v: Value| v.object().is_some_and(|o| world.released.contains(&o));
        match outcome {
            Outcome::Result(_) if makes && !world.released.is_empty() => {
                self.reused += 1;
                self.reused_of_all += u64::from(world.objects.len() == 32);
            }
            Outcome::Result(_) if step.code == 17 => match world.object(step.object) {
                Object::Ordinary(it) => {
                    self.functions += u64::from(it.callable);
                    self.objects += u64::from(!it.callable);
                    self.properties += it.properties.len() as u64;
                }
                Object::Proxy { revoked, .. } => {
                    self.revoked += u64::from(*revoked);
                    self.proxies += u64::from(!revoked);
                }
            },
            Outcome::Refused(7) if makes => self.full += u64::from(once),
            Outcome::Refused(14) => self.count_names(world, step.object),
            Outcome::Refused(2) => {
                let on_released = !matches!(step.code, 1 | 16) && world.released.contains(&step.object);
                self.as_object += u64::from(on_released);
                self.again += u64::from(on_released && step.code == 17);
                self.as_value += u64::from(is_released(step.value));
                self.as_receiver += u64::from(is_released(step.receiver));
                self.in_descriptor += u64::from(step.descriptor.values().any(is_released));
                self.in_sheet += u64::from(record::sheet(sheet).unwrap_or_default().iter().flat_map(|a| a.values()).any(is_released));
            }
            _ => {}
        }
    }

    fn count_names(&mut self, world: &World, o: usize) {
        let is = |v: Option<Value>| v.is_some_and(|v| v.object() == Some(o));
        for (owner, object) in world.live() {
            match object {
                Object::Proxy { target, revoked, .. } => self.targets += u64::from(!revoked && *target == o),
                Object::Ordinary(it) => {
                    let some = |of: &dyn Fn(&Descriptor) -> bool| u64::from(it.properties.iter().any(|(_, d)| of(d)));
                    self.prototypes += u64::from(it.prototype == Some(o));
                    self.values += some(&|d| is(d.value));
                    self.getters += some(&|d| is(d.get));
                    self.setters += some(&|d| is(d.set));
                    self.own += some(&|d| owner == o && (is(d.value) || is(d.get) || is(d.set)));
                }
            }
        }
    }
}

/// How often each outcome came, over all entries but the pages, which have counts of their own.
#[derive(Clone, Debug)]
pub struct Tally {
    /// Pages too.
    pub calls: u64,
    pub results: u64,
    pub thrown: u64,
    /// 12 is of a line of text, and never comes here.
    pub refusals: [u64; 15],
    pub messages: [u64; 33],
    pub codes: [u64; 20],
    /// Validations that were not refused, by the first test that failed; 0 is none.
    pub tests: [u64; 9],
    /// Steps of code 18 without a result that changed the store.
    pub midway: u64,
    pub functions: Functions,
    pub pages: Pages,
    pub releases: Releases,
}

impl Default for Tally {
    fn default() -> Self {
        Tally {
            calls: 0,
            results: 0,
            thrown: 0,
            refusals: [0; 15],
            messages: [0; 33],
            codes: [0; 20],
            tests: [0; 9],
            midway: 0,
            functions: Functions::default(),
            pages: Pages::default(),
            releases: Releases::default(),
        }
    }
}

impl Tally {
    fn count(&mut self, report: &Report) {
        self.calls += 1;
        match report.outcome {
            Outcome::Result(_) => self.results += 1,
            Outcome::Thrown(_) => self.thrown += 1,
            Outcome::Refused(n) => self.refusals[n as usize] += 1,
            Outcome::TypeError(n) => self.messages[n as usize] += 1,
        }
    }

    pub fn add(&mut self, other: &Tally) {
        self.calls += other.calls;
        self.results += other.results;
        self.thrown += other.thrown;
        self.midway += other.midway;
        self.functions.add(other.functions);
        self.pages.add(other.pages);
        self.releases.add(other.releases);
        let all = |mine: &mut [u64], theirs: &[u64]| mine.iter_mut().zip(theirs).for_each(|(a, b)| *a += b);
        all(&mut self.refusals, &other.refusals);
        all(&mut self.messages, &other.messages);
        all(&mut self.codes, &other.codes);
        all(&mut self.tests, &other.tests);
    }

    /// How many steps there were of each code.
    pub fn steps(&self) -> impl Iterator<Item = (usize, u64)> + '_ {
        (1..=14).chain([16, 17, 18, 19]).map(|code| (code, self.codes[code]))
    }

    /// The refusals and messages that never came.
    pub fn missing(&self) -> (Vec<usize>, Vec<usize>) {
        let zero = |counts: &[u64]| (1..counts.len()).filter(|i| counts[*i] == 0).collect::<Vec<usize>>();
        (zero(&self.refusals).into_iter().filter(|n| *n != 12).collect(), zero(&self.messages))
    }
}

/// Exactly as much memory as is lent, each part an allocation of its own, so that a memory checker sees an access past its end.
fn exact<T: Copy>(from: &[T]) -> Box<[T]> {
    from.to_vec().into_boxed_slice()
}

const FILL: u8 = 0xa5;

pub struct Pair {
    pub world: World,
    pub words: Box<[u64]>,
    pub strings: Box<[u16]>,
    pub tally: Tally,
    /// Whether anything was released.
    once: bool,
}

impl Pair {
    pub fn new() -> Self {
        let mut pair =
            Pair { world: World::default(), words: vec![0; 1670].into(), strings: vec![0; 8449].into(), tally: Tally::default(), once: false };
        // the memory need not be zero before it is emptied
        pair.words.fill(0xdead_beef_dead_beef);
        pair.strings.fill(0xbeef);
        assert!(lent::empty_store(&mut pair.words));
        assert!(lent::empty_strings(&mut pair.strings));
        pair
    }

    /// One step through the C interface alone.
    pub fn step_library(&mut self, bytes: &[u8], sheet: &[u8], output: &mut [u8]) -> [u64; 10] {
        entries::step(&mut self.words, &self.strings, &exact(bytes), &exact(sheet), output)
    }

    /// One step on both, with room bytes of output.
    pub fn step(&mut self, bytes: &[u8], sheet: &[u8], room: usize) -> Stepped {
        let before = (self.words.clone(), self.strings.clone());
        let world_before = self.world.clone();
        let mut output: Box<[u8]> = vec![FILL; room].into();
        let mut expected_output = output.clone();
        let stepped = step::step(&mut self.world, bytes, sheet, &mut expected_output);
        let report = self.step_library(bytes, sheet, &mut output);
        let expected = layout::report_words(&stepped.report);
        let input = || format!("step {}\nsheet {}\nroom {room}\nworld before {:?}", hex(bytes), hex(sheet), layout::world(&before.0, &before.1));
        assert_eq!(report, expected, "report\n{}", input());
        assert_eq!(output, expected_output, "output\n{}", input());
        assert_eq!(self.strings, before.1, "strings\n{}", input());
        let changes = match stepped.report.outcome {
            Outcome::Result(_) => true,
            Outcome::TypeError(_) | Outcome::Thrown(_) => bytes[0] == 18,
            Outcome::Refused(_) => false,
        };
        if changes {
            let (ours, theirs) = (layout::image(&layout::world(&self.words, &self.strings)), layout::image(&self.world));
            assert_eq!(ours, theirs, "store\n{}\nlibrary {:?}\nplain {:?}", input(), layout::world(&self.words, &self.strings), self.world);
        } else {
            assert_eq!(self.words, before.0, "words of a step that changes nothing\n{}", input());
        }
        self.tally.count(&stepped.report);
        self.tally.functions.count(&world_before, bytes, sheet, &stepped.report.outcome);
        self.tally.releases.count(&world_before, self.once, bytes, sheet, &stepped.report.outcome);
        self.once |= !self.world.released.is_empty();
        if changes && !matches!(stepped.report.outcome, Outcome::Result(_)) && self.words != before.0 {
            self.tally.midway += 1;
        }
        if let Some(count) = bytes.first().and_then(|code| self.tally.codes.get_mut(usize::from(*code))) {
            *count += 1;
        }
        stepped
    }

    pub fn enter_string(&mut self, units: &[u16]) -> Report {
        let expected = step::enter_string(&mut self.world, units);
        let report = entries::enter_string(&mut self.strings, &exact(units));
        assert_eq!(report, layout::report_words(&expected), "entering {units:?}");
        assert_eq!(layout::world(&self.words, &self.strings).strings, self.world.strings, "strings after {units:?}");
        self.tally.count(&expected);
        expected
    }

    /// A page through the C interface alone.
    pub fn page_library(&mut self, object: u64, output: &mut [u8]) -> [u64; 10] {
        entries::page(&mut self.words, &mut self.strings, object, output)
    }

    /// A page on both, in an output of this content. Memory that is no store or no table has none.
    pub fn page(&mut self, object: u64, content: &[u8]) -> Result<u64, u64> {
        let before = (self.words.clone(), self.strings.clone());
        let (mut output, mut expected_output) = (exact(content), exact(content));
        let expected = if layout::is_memory(&before.0, &before.1) { property_page::page(&self.world, object, &mut expected_output) } else { Err(1) };
        let report = self.page_library(object, &mut output);
        let input = || format!("page of {object}\noutput {}\nworld {:?}", hex(content), self.world);
        assert_eq!(report, layout::page_words(expected), "report\n{}", input());
        assert!(output == expected_output, "{}\nis not\n{}\n{}", output.escape_ascii(), expected_output.escape_ascii(), input());
        assert!(self.words == before.0 && self.strings == before.1, "store or strings changed\n{}", input());
        self.tally.calls += 1;
        self.tally.pages.count(&self.world, object, expected, content.len());
        self.tally.releases.of_page += u64::from(expected == Err(2) && self.world.released.iter().any(|o| *o as u64 == object));
        expected
    }

    pub fn complete(&mut self, bytes: &[u8]) -> Report {
        let expected = step::complete(&self.world, bytes);
        let report = entries::complete(&self.words, &self.strings, &exact(bytes));
        assert_eq!(report, layout::report_words(&expected), "completing {}", hex(bytes));
        self.tally.count(&expected);
        expected
    }

    pub fn validate(&mut self, extensible: bool, bytes: &[u8], current: &[u8]) -> (bool, u64, Report) {
        let (yes, test, expected) = step::validate_alone(&self.world, extensible, bytes, current);
        let told = entries::validate(&self.words, &self.strings, extensible, &exact(bytes), &exact(current));
        assert_eq!(told, (yes, test, layout::report_words(&expected)), "validating {extensible} {} over {}", hex(bytes), hex(current));
        self.tally.count(&expected);
        if matches!(expected.outcome, Outcome::Result(_)) {
            self.tally.tests[test as usize] += 1;
        }
        (yes, test, expected)
    }

    pub fn merge(&mut self, current: &[u8], bytes: &[u8]) -> Report {
        let expected = step::merge(&self.world, current, bytes);
        let report = entries::merge(&self.words, &self.strings, &exact(current), &exact(bytes));
        assert_eq!(report, layout::report_words(&expected), "merging {} into {}", hex(bytes), hex(current));
        self.tally.count(&expected);
        expected
    }
}

pub fn hex(bytes: &[u8]) -> String {
    bytes.iter().map(|b| format!("{b:02x}")).collect()
}
