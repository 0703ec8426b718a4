//! The tests of ValidateAndApplyPropertyDescriptor, and which of them a step fails.
use crate::descriptor::{Property, PropertyDescriptor};
use crate::report::{Completion, Failure, Message, Refusal, Report};
use crate::step::{Answer, Step, Traps};
use crate::store::{Store, MAXIMUM_OBJECTS};
use crate::value::{ObjectId, PropertyKey, Value};
use std::fmt;

/// The tests of ValidateAndApplyPropertyDescriptor, ECMA-262 10.1.6.3, in the order of its steps: the first that fails rejects the descriptor. Those
/// after the first are of a property that is there and not configurable.
///
/// ```
/// use demnyaluz::{PropertyDescriptor, Store, ValidationTest};
///
/// let current = PropertyDescriptor::fixed(70_000);
/// let told = Store::new().validate(true, &PropertyDescriptor::fixed(4_464), Some(&current))?;
/// assert_eq!(told.failed, Some(ValidationTest::Value));
/// assert_eq!(ValidationTest::Value.number(), 8);
/// assert_eq!(ValidationTest::Value.to_string(), "value");
/// # Ok::<(), demnyaluz::Refusal>(())
/// ```
#[derive(Clone, Copy, PartialEq, Eq, PartialOrd, Ord, Hash, Debug)]
#[non_exhaustive]
#[repr(u8)]
pub enum ValidationTest {
    /// 1, step 2.a: the property is absent, and its object is not extensible.
    Extensible = 1,
    /// 2, step 5.a: configurable is to become true.
    Configurable = 2,
    /// 3, step 5.b: enumerable is to change.
    Enumerable = 3,
    /// 4, step 5.c: data is to become an accessor, or an accessor data.
    Kind = 4,
    /// 5, step 5.d.i: the getter is to change.
    Get = 5,
    /// 6, step 5.d.ii: the setter is to change.
    Set = 6,
    /// 7, step 5.e.i: data that is not writable is to become writable.
    Writable = 7,
    /// 8, step 5.e.iii: the value of data that is not writable is to change.
    Value = 8,
}

impl ValidationTest {
    /// All tests, in the order of their numbers.
    ///
    /// ```
    /// use demnyaluz::ValidationTest;
    ///
    /// assert_eq!(ValidationTest::ALL.first(), Some(&ValidationTest::Extensible));
    /// ```
    pub const ALL: &'static [ValidationTest] = &[
        ValidationTest::Extensible,
        ValidationTest::Configurable,
        ValidationTest::Enumerable,
        ValidationTest::Kind,
        ValidationTest::Get,
        ValidationTest::Set,
        ValidationTest::Writable,
        ValidationTest::Value,
    ];

    /// The number: 1 for the first.
    #[must_use]
    pub fn number(self) -> u8 {
        self as u8
    }

    /// The test of a number, if there is one: 0 is none.
    ///
    /// ```
    /// use demnyaluz::ValidationTest;
    ///
    /// assert_eq!(ValidationTest::from_number(1), Some(ValidationTest::Extensible));
    /// assert_eq!(ValidationTest::from_number(0), None);
    /// ```
    #[must_use]
    pub fn from_number(number: u64) -> Option<ValidationTest> {
        ValidationTest::ALL.iter().copied().find(|t| u64::from(t.number()) == number)
    }
}

impl fmt::Display for ValidationTest {
    /// The name: `value`.
    fn fmt(&self, f: &mut fmt::Formatter<'_>) -> fmt::Result {
        f.write_str(match self {
            ValidationTest::Extensible => "extensible",
            ValidationTest::Configurable => "configurable",
            ValidationTest::Enumerable => "enumerable",
            ValidationTest::Kind => "kind",
            ValidationTest::Get => "get",
            ValidationTest::Set => "set",
            ValidationTest::Writable => "writable",
            ValidationTest::Value => "value",
        })
    }
}

/// What [`Store::validate`] says.
#[derive(Clone, Copy, PartialEq, Eq, Hash, Debug)]
#[must_use = "a descriptor may not be accepted"]
#[non_exhaustive]
pub struct Validation {
    /// Whether the descriptor is accepted.
    pub accepted: bool,
    /// The first test that fails; none where the descriptor is accepted.
    pub failed: Option<ValidationTest>,
    /// The property after it; none is absent.
    pub property: Option<Property>,
}

impl Store {
    /// Which test of ValidateAndApplyPropertyDescriptor fails first in a step that rejects a descriptor by it. Such a step changes nothing, so it
    /// may be asked for before the step or after it, with the same answers.
    ///
    /// A descriptor is rejected where
    /// - \[\[DefineOwnProperty]] answers false, unless a trap answered so;
    /// - it ends in [`Message::DefinedUnexpectedValue`]: the defineProperty trap accepted what does not fit the target's property;
    /// - it or \[\[GetOwnProperty]] ends in [`Message::UnexpectedProperty`]: the getOwnPropertyDescriptor trap answered what does not fit the target.
    ///
    /// None for everything else.
    ///
    /// ```
    /// use demnyaluz::{Answer, PropertyDescriptor, Step, Store, SymbolId, Traps, ValidationTest};
    ///
    /// let mut store = Store::new();
    /// let counts = store.make_object(None)?;
    /// let key = SymbolId(0).into();
    /// assert!(store.define_own_property(counts, key, PropertyDescriptor::fixed(70_000), &[])?);
    ///
    /// let define = |object| Step::DefineOwnProperty { object, key, descriptor: PropertyDescriptor::fixed(4_464) };
    /// assert_eq!(store.step(&define(counts), &[]).to_string(), "false (0 answers, 3 calls)");
    /// assert_eq!(store.failed_test(&define(counts), &[]), Some(ValidationTest::Value));
    ///
    /// // a handler that claims to have defined it
    /// let behind = store.make_proxy(counts, Traps::DEFINE_PROPERTY)?;
    /// let claimed = [Answer::Value(true.into())];
    /// assert!(store.step(&define(behind), &claimed).to_string().starts_with("TypeError 14: "));
    /// assert_eq!(store.failed_test(&define(behind), &claimed), Some(ValidationTest::Value));
    /// # Ok::<(), demnyaluz::Failure>(())
    /// ```
    #[must_use]
    pub fn failed_test(&self, step: &Step, answers: &[Answer]) -> Option<ValidationTest> {
        match step {
            Step::DefineOwnProperty { .. } | Step::GetOwnProperty { .. } => {
                let mut store = self.clone();
                let report = store.step(step, answers);
                store.rejection(step, report, answers)
            }
            _ => None,
        }
    }

    /// A step with as many of the answers as it reads.
    fn step_on(&mut self, step: &Step, answers: &[Answer]) -> Report {
        let spent = Err(Failure::Refused(Refusal::SheetSpent));
        let ended = (0..answers.len()).map(|n| self.step(step, &answers[..n])).find(|r| r.outcome != spent);
        ended.unwrap_or_else(|| self.step(step, answers))
    }

    /// The test that failed in a step, by its report; the answers are its own, and those after them.
    fn rejection(&mut self, step: &Step, report: Report, answers: &[Answer]) -> Option<ValidationTest> {
        match (*step, report.outcome) {
            (Step::DefineOwnProperty { object, key, descriptor }, Ok(Completion::Value(Value::Boolean(false)))) => {
                match self.reached(object, Traps::DEFINE_PROPERTY)? {
                    Reached::Ordinary(object) => self.first_failed(object, key, &descriptor, &[]),
                    Reached::Trap(_) => None,
                }
            }
            (Step::DefineOwnProperty { object, key, descriptor }, Err(Failure::TypeError(Message::DefinedUnexpectedValue))) => {
                let target = self.reached(object, Traps::DEFINE_PROPERTY)?.target()?;
                self.first_failed(target, key, &descriptor, answers.get(1..)?)
            }
            // after its own trap's answer, a trap of the target's property
            (Step::DefineOwnProperty { object, key, .. }, Err(Failure::TypeError(Message::UnexpectedProperty))) => {
                let target = self.reached(object, Traps::DEFINE_PROPERTY)?.target()?;
                self.rejection_of_property(target, key, answers.get(1..)?)
            }
            (Step::GetOwnProperty { object, key }, Err(Failure::TypeError(Message::UnexpectedProperty))) => {
                let (answer, rest) = answers.split_first()?;
                let target = self.reached(object, Traps::GET_OWN_PROPERTY_DESCRIPTOR)?.target()?;
                // the target is asked first, and may have a trap too
                self.rejection_of_property(target, key, rest).or_else(|| {
                    let Answer::Descriptor(answered) = answer else { return None };
                    let answered = self.complete(answered).ok()?.into();
                    self.first_failed(target, key, &answered, rest)
                })
            }
            _ => None,
        }
    }

    /// The test that failed in a \[\[GetOwnProperty]] that a step makes.
    fn rejection_of_property(&mut self, object: ObjectId, key: PropertyKey, answers: &[Answer]) -> Option<ValidationTest> {
        let step = Step::GetOwnProperty { object, key };
        let report = self.step_on(&step, answers);
        self.rejection(&step, report, answers)
    }

    /// The first test that fails for a descriptor over a property of the object, which is asked for the property and then for its extensibility.
    fn first_failed(&mut self, object: ObjectId, key: PropertyKey, descriptor: &PropertyDescriptor, answers: &[Answer]) -> Option<ValidationTest> {
        let report = self.step_on(&Step::GetOwnProperty { object, key }, answers);
        let rest = answers.get(report.answers as usize..)?;
        let current = report.into_property().ok()?.map(PropertyDescriptor::from);
        let extensible = self.step_on(&Step::IsExtensible { object }, rest).into_boolean().ok()?;
        self.validate(extensible, descriptor, current.as_ref()).ok()?.failed
    }

    /// Where a call ends that proxies without its trap hand on: at a live object, none where it comes to a revoked proxy.
    fn reached(&self, mut object: ObjectId, trap: Traps) -> Option<Reached> {
        loop {
            let number = usize::from(object.0);
            // a bit for each live object
            if number >= MAXIMUM_OBJECTS || self.words()[3] >> number & 1 == 0 {
                return None;
            }
            // three words for each object: 2 and 3 are a proxy and a revoked one, then target and traps
            let [kind, target, traps] = [0, 1, 2].map(|i| self.words()[38 + 3 * number + i]);
            let target = ObjectId(target as u8);
            match kind {
                0 | 1 => return Some(Reached::Ordinary(object)),
                2 if traps & u64::from(trap.mask()) != 0 => return Some(Reached::Trap(target)),
                2 => object = target,
                // its target may have been released, and the number may be that of another object
                _ => return None,
            }
        }
    }
}

/// What a call comes to.
enum Reached {
    Ordinary(ObjectId),
    /// The trap of a proxy that has this target.
    Trap(ObjectId),
}

impl Reached {
    fn target(self) -> Option<ObjectId> {
        match self {
            Reached::Ordinary(_) => None,
            Reached::Trap(target) => Some(target),
        }
    }
}
