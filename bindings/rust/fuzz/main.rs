//! Random and mutated records, sheets, pages and lines of text through the C interface, each held against the plain implementation.
//!
//! `fuzz COUNT SEED`: at least COUNT calls in lists of 200 from an empty store, and a text of 40 lines or random bytes after each. Every list is made
//! from the seed and its own number, so a difference can be shown again by itself: `fuzz 1 SEED` with the seed that it names.
#[path = "../tests/harness/mod.rs"]
mod harness;
#[path = "../tests/plain/mod.rs"]
mod plain;

use harness::generator::Generator;
use harness::pair::{Pair, Tally};
use harness::text::{in_pieces, Damage, Reader};
use std::time::Instant;

const LIST: u64 = 200;
const LINES: usize = 40;

fn list_of_calls(seed: u64) -> Tally {
    let mut generator = Generator::new(seed);
    // about three steps in four have a damaged record or sheet
    generator.habits.damage = generator.random.pick(&[1, 2, 2, 3]);
    let mut pair = Pair::new();
    generator.begin(&mut pair);
    if seed % 50 == 1 {
        generator.fill(&mut pair);
    }
    for i in 0..LIST {
        // a list first grows what it then works on
        let damage = generator.habits.damage;
        if i < 40 {
            generator.habits.damage = 100;
        }
        if i % 20 == 19 {
            generator.run_noise(&mut pair);
        } else {
            generator.run_call(&mut pair);
        }
        generator.habits.damage = damage;
    }
    damaged_memory(&mut generator, &mut pair);
    pair.tally
}

/// Memory that is no store or no table, or whose content no calls left: nothing may be written but by a result, or a TypeError or throw of code 18.
fn damaged_memory(generator: &mut Generator, pair: &mut Pair) {
    use plain::record::step_bytes;
    let step = step_bytes(&generator.step(&pair.world));
    let (words, strings) = (pair.words.clone(), pair.strings.clone());
    let mut output = vec![0; 9 * 256];
    let refused_as_1 = [0, 1, 0, 0, 0, 0, 0, 0, 0, 0];
    for size in [0, 1, 2, 1635, 1669, 1671] {
        pair.words = vec![0; size].into();
        assert_eq!(pair.step_library(&step, &[0], &mut output), refused_as_1);
        assert!(pair.words.iter().all(|w| *w == 0));
    }
    for count in [(0, 33), (1, 257), (3, 1 << 32), (4, 33), (0, u64::MAX), (1, u64::MAX), (3, u64::MAX), (4, u64::MAX)] {
        pair.words = words.clone();
        pair.words[count.0] = count.1;
        assert_eq!(pair.step_library(&step, &[0], &mut output), refused_as_1);
    }
    pair.words = words.clone();
    for size in [0, 1, 8448, 8450] {
        pair.strings = vec![0; size].into();
        assert_eq!(pair.step_library(&step, &[0], &mut output), refused_as_1);
    }
    pair.strings = strings.clone();
    pair.strings[0] = 257;
    assert_eq!(pair.step_library(&step, &[0], &mut output), refused_as_1);
    for _ in 0..4 {
        pair.words = words.clone();
        pair.strings = strings.clone();
        for _ in 0..1 + generator.random.below(20) {
            let at = generator.random.below(1670);
            pair.words[at] = generator.random.next() >> generator.random.below(64);
            let at = generator.random.below(8449);
            pair.strings[at] = generator.random.next() as u16;
        }
        let before = (pair.words.clone(), pair.strings.clone());
        let step = step_bytes(&generator.step(&pair.world));
        let report = pair.step_library(&step, &[2, 1, 0, 0, 0, 0, 0, 0, 0, 0, 0, 1, 2, 1, 0, 0, 0, 0, 0, 0, 0], &mut output);
        assert!(report[0] <= 3, "{report:?}");
        assert!(report[0] == 1 || step[0] == 18 && report[0] != 0 || pair.words == before.0);
        assert_eq!(pair.strings, before.1);
        damaged_page(generator, pair);
    }
}

/// A page over whatever the memory holds: whole lines at the output's start, and nothing else changes.
fn damaged_page(generator: &mut Generator, pair: &mut Pair) {
    const FILL: u8 = 0xa5;
    let before = (pair.words.clone(), pair.strings.clone());
    let object = generator.random.below(34) as u64;
    let mut output: Box<[u8]> = vec![FILL; generator.random.pick(&[46, 47, 500, 12_079])].into();
    let report = pair.page_library(object, &mut output);
    let written = match report {
        [0, 1 | 2 | 3 | 11, 0, 0, 0, 0, 0, 0, 0, 0] => 0,
        [1, 0, 0, 0, 5, written, 0, 0, 0, 0] => written as usize,
        _ => panic!("{report:?}"),
    };
    let (page, rest) = output.split_at(written);
    assert!(page.chunks(47).all(|line| line.len() == 47 && line[46] == b'\n' && line[..46].iter().all(|c| c.is_ascii_graphic() || *c == b' ')));
    assert!(rest.iter().all(|c| *c == FILL));
    assert!(pair.words == before.0 && pair.strings == before.1);
}

/// A text with damaged lines, or of random bytes, in pieces, and once more with a damaged state: how many bytes it had.
fn text(seed: u64) -> u64 {
    let mut generator = Generator::new(seed);
    let damage = Damage { lines: generator.random.pick(&[1, 2, 8]), long: 20 };
    let size = generator.random.below(5_000);
    let input = if generator.random.once_in(4) { generator.noise(size) } else { generator.text(LINES, damage) };
    let expected = plain::text::run_text(&input);
    let rows = in_pieces(&input, &mut generator.random);
    assert!(rows == expected, "rows of {:?}", String::from_utf8_lossy(&input));
    let mut reader = Reader::new();
    for piece in input.chunks(1 + generator.random.below(3_000)) {
        if generator.random.once_in(10) {
            let at = generator.random.below(10);
            reader.state[at] = generator.random.next() >> generator.random.below(64);
        }
        let (fed, [taken, written]) = reader.feed_once(piece);
        assert!(taken as usize <= piece.len() && written <= 4_800 && (fed || taken + written == 0));
    }
    let (_, [taken, written]) = reader.end_once();
    assert!(taken == 0 && written <= 4_800);
    input.len() as u64
}

fn main() {
    let mut arguments = std::env::args().skip(1).map(|a| a.parse::<u64>().expect("a number"));
    let count = arguments.next().unwrap_or(1_000_000);
    let seed = arguments.next().unwrap_or(1);
    println!("at least {count} calls, seed {seed}");
    let start = Instant::now();
    let work = std::thread::Builder::new().stack_size(64 << 20).spawn(move || {
        let mut tally = Tally::default();
        let mut bytes = 0;
        for list in seed.. {
            if tally.calls >= count {
                break;
            }
            let told = std::panic::catch_unwind(|| (list_of_calls(list), text(list)));
            match told {
                Ok((t, size)) => {
                    tally.add(&t);
                    bytes += size;
                }
                Err(_) => {
                    println!("a difference in the list of seed {list}");
                    std::process::exit(1);
                }
            }
        }
        (tally, bytes)
    });
    let (tally, bytes) = work.unwrap().join().unwrap();
    println!("{} calls and {bytes} bytes of text in {:.1} s, no difference", tally.calls, start.elapsed().as_secs_f64());
    println!("results {}, thrown {}", tally.results, tally.thrown);
    println!("refusals 1 to 14, of which 12 is of texts: {:?}", &tally.refusals[1..]);
    println!("messages 1 to 32: {:?}", &tally.messages[1..]);
    println!("validations by the first test that failed, 0 (none) to 8: {:?}", tally.tests);
    println!("steps of each code: {:?}", tally.steps().collect::<Vec<_>>());
    println!("pages, and how often they were refused: {:?}", tally.pages);
    println!("functions, where they came and where they were refused: {:?}", tally.functions);
    println!("releases, numbers that were taken again, and what was refused: {:?}", tally.releases);
    println!("steps of code 18 that changed the store and ended in a TypeError or a throw: {}", tally.midway);
    if count >= 100_000 {
        assert_eq!(tally.missing(), (vec![], vec![]), "refusals and messages that never came");
        assert!(tally.tests.iter().all(|n| *n > 0), "tests of validation that never failed");
        assert!(tally.functions.all(), "places of functions that never came");
        assert!(tally.pages.all(), "pages or refusals of them that never came");
        assert!(tally.releases.all(), "releases or refusals of them that never came");
    }
}
