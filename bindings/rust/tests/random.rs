//! Random calls, valid and damaged, on the library and on the plain implementation: after each, everything that it leaves is the same.
mod harness;
mod plain;

use harness::generator::{Generator, Habits};
use harness::pair::{Pair, Tally};

/// One list of calls from an empty store.
fn list_of_calls(seed: u64, size: usize) -> Tally {
    let mut generator = Generator::new(seed);
    let mut pair = Pair::new();
    generator.begin(&mut pair);
    if seed % 40 == 1 {
        generator.fill(&mut pair);
    }
    for _ in 0..size {
        generator.run_call(&mut pair);
    }
    pair.tally
}

/// LISTS in the environment makes fewer lists of calls, for a run under a memory checker.
const LISTS: u64 = 1500;

#[test]
fn every_call_is_as_the_plain_implementation_says() {
    let lists = std::env::var("LISTS").map_or(LISTS, |n| n.parse().expect("a number"));
    let thread = std::thread::Builder::new().stack_size(64 << 20).spawn(move || {
        let mut tally = Tally::default();
        for seed in 1..=lists {
            tally.add(&list_of_calls(seed, 120));
        }
        tally
    });
    let tally = thread.unwrap().join().unwrap();
    println!("{tally:?}");
    if lists < LISTS {
        return;
    }
    assert_eq!(tally.missing(), (vec![], vec![]), "refusals and messages that never came");
    assert!(tally.steps().all(|(_, n)| n > 0));
    assert!(tally.tests.iter().all(|n| *n > 100), "each test of validation, and none, by more than a hundred calls");
    assert!(tally.midway > 0);
    assert!(tally.functions.all());
    assert!(tally.pages.all());
    assert!(tally.releases.all(), "{:?}", tally.releases);
}

/// Long lists over which objects come and go: each number is taken again many times, and the store is full again and again.
#[test]
fn objects_come_and_go() {
    if std::env::var_os("LISTS").is_some() {
        return;
    }
    let thread = std::thread::Builder::new().stack_size(64 << 20).spawn(move || {
        let mut tally = Tally::default();
        for seed in 1..=50 {
            let mut generator = Generator::new(seed);
            generator.habits = Habits { damage: 100, making: 3, crowd: [20, 31][seed as usize % 2], releasing: 4, ..generator.habits };
            let mut pair = Pair::new();
            generator.begin(&mut pair);
            for _ in 0..2_000 {
                generator.run_call(&mut pair);
            }
            let told = pair.tally.releases;
            assert!(told.reused > 32, "seed {seed}: {told:?}");
            tally.add(&pair.tally);
        }
        tally
    });
    let tally = thread.unwrap().join().unwrap();
    println!("{tally:?}");
    assert!(tally.calls >= 100_000);
    assert!(tally.releases.all(), "{:?}", tally.releases);
    assert!(tally.releases.full > 100);
}
