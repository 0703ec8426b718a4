//! The sealed 70,000, and a handler that answers 4,464: proxies over proxies, and what each step reports.
use demnyaluz::{Answer, Completion, Failure, ObjectId, PropertyDescriptor, PropertyKey, Step, Store, Traps, Value};

struct Day {
    store: Store,
}

impl Day {
    /// Runs a step and prints what it reports.
    fn run(&mut self, what: &str, step: Step, answers: &[Answer]) {
        let report = self.store.step(&step, answers);
        let told = match &report.outcome {
            Ok(Completion::Value(v)) => self.value(*v),
            Ok(Completion::Keys(keys)) => format!("{:?}", keys.iter().map(|k| self.value((*k).into())).collect::<Vec<_>>()),
            Ok(other) => other.to_string(),
            Err(failure) => failure.to_string(),
        };
        println!("{what:<52} {told}  ({} answers, {} calls)", report.answers, report.calls);
    }

    fn value(&self, v: Value) -> String {
        match v {
            Value::String(s) => self.store.string(s).unwrap_or_default(),
            other => other.to_string(),
        }
    }

    fn get(&mut self, what: &str, object: ObjectId, key: PropertyKey, answers: &[Answer]) {
        self.run(what, Step::Get { object, key, receiver: object.into() }, answers);
    }
}

fn main() -> Result<(), Failure> {
    let mut day = Day { store: Store::new() };
    let visits: PropertyKey = day.store.enter_string("visits")?.into();
    let counts = day.store.make_object(None)?;

    let descriptor = PropertyDescriptor::fixed(70_000);
    day.run("define visits: 70000, fixed", Step::DefineOwnProperty { object: counts, key: visits, descriptor }, &[]);
    day.run("prevent extensions", Step::PreventExtensions { object: counts }, &[]);
    day.get("get visits", counts, visits, &[]);

    let handler = day.store.make_proxy(counts, Traps::GET | Traps::GET_OWN_PROPERTY_DESCRIPTOR | Traps::OWN_KEYS)?;
    let told = |n: i32| vec![Answer::Value(n.into())];
    day.get("get visits, the handler answers 70000", handler, visits, &told(70_000));
    day.get("get visits, the handler answers 4464", handler, visits, &told(4_464));
    day.get("get visits, the handler answers nothing", handler, visits, &[]);
    day.get("get visits, the handler throws 4464", handler, visits, &[Answer::Throw(4_464.into())]);

    let writable = PropertyDescriptor::data(70_000, true, true, false);
    let own = Step::GetOwnProperty { object: handler, key: visits };
    day.run("own visits, answered as it is", own, &[Answer::Descriptor(descriptor)]);
    day.run("own visits, answered as writable", own, &[Answer::Descriptor(writable)]);
    day.run("own visits, answered as absent", own, &[Answer::Value(Value::Undefined)]);
    day.run("own keys, answered without visits", Step::OwnPropertyKeys { object: handler }, &[Answer::keys([])]);
    day.run("own keys, answered with visits", Step::OwnPropertyKeys { object: handler }, &[Answer::keys([visits])]);

    // Eight forwarding proxies before the handler's, and a second handler before them all.
    let mut outer = handler;
    for _ in 0..8 {
        outer = day.store.make_proxy(outer, Traps::NONE)?;
    }
    let second = day.store.make_proxy(outer, Traps::GET)?;
    day.get("through nine proxies, 4464 from the first handler", outer, visits, &told(4_464));
    day.get("a second handler answers 4464 before the first", second, visits, &[told(4_464), vec![Answer::Descriptor(descriptor)]].concat());
    day.store.revoke(handler)?;
    day.get("the first handler is revoked", second, visits, &told(70_000));
    day.get("the count itself", counts, visits, &[]);
    Ok(())
}
