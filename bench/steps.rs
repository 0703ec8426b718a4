// Steps through the C interface, in ns for one turn: a name, a tab and a number for each line. bench/compare.mjs runs it beside the engines.
use std::hint::black_box;
use std::time::Instant;

#[link(name = "demnyaluz", kind = "static")]
extern "C" {
    fn demnyaluz_step(words: *mut u64, words_size: usize, strings: *const u16, strings_size: usize, bytes: *const u8, size: usize, sheet: *const u8, sheet_size: usize, output: *mut u8, room: usize, report: *mut u64);
    fn demnyaluz_enter_string(strings: *mut u16, strings_size: usize, units: *const u16, size: usize, report: *mut u64);
}

struct Memory {
    words: Vec<u64>,
    strings: Vec<u16>,
    output: Vec<u8>,
    report: [u64; 10],
}

type Bytes = Vec<u8>;

fn value(kind: u8, payload: u64) -> Bytes {
    let mut b = vec![kind];
    b.extend(payload.to_le_bytes());
    b
}

const NONE: [u8; 9] = [0; 9];

// enumerable 1, configurable 2, writable 4, value 8
fn descriptor(mask: u8, flags: u8, v: &[u8]) -> Bytes {
    let mut b = vec![mask, flags];
    b.extend(v);
    b.extend([0; 18]);
    b
}

fn step(code: u8, o: u8, key: &[u8], v: &[u8], receiver: &[u8], d: &[u8]) -> Bytes {
    let mut b = vec![code, o];
    for part in [key, v, receiver, d] {
        b.extend(part);
    }
    b
}

fn sheet(answers: &[Bytes]) -> Bytes {
    let mut b = vec![answers.len() as u8];
    for a in answers {
        b.extend(a);
    }
    b
}

fn answer(v: &[u8]) -> Bytes {
    let mut b = vec![1];
    b.extend(v);
    b
}

impl Memory {
    fn new() -> Self {
        Memory { words: vec![0; 1670], strings: vec![0; 8449], output: vec![0; 4096], report: [0; 10] }
    }

    fn run(&mut self, bytes: &[u8], sheet: &[u8]) -> u64 {
        unsafe {
            demnyaluz_step(self.words.as_mut_ptr(), self.words.len(), self.strings.as_ptr(), self.strings.len(), bytes.as_ptr(), bytes.len(), sheet.as_ptr(), sheet.len(), self.output.as_mut_ptr(), self.output.len(), self.report.as_mut_ptr());
        }
        self.report[0]
    }

    // Over other words than its own.
    fn run_over(&mut self, words: &mut Vec<u64>, bytes: &[u8], sheet: &[u8]) -> u64 {
        std::mem::swap(&mut self.words, words);
        let outcome = self.run(bytes, sheet);
        std::mem::swap(&mut self.words, words);
        outcome
    }

    // A step that must end in a result.
    fn must(&mut self, bytes: &[u8], sheet: &[u8]) {
        assert_eq!(self.run(bytes, sheet), 1, "report {:?}", self.report);
    }

    fn enter(&mut self, text: &str) {
        let units: Vec<u16> = text.encode_utf16().collect();
        unsafe { demnyaluz_enter_string(self.strings.as_mut_ptr(), self.strings.len(), units.as_ptr(), units.len(), self.report.as_mut_ptr()) }
        assert_eq!(self.report[0], 1);
    }
}

// The least ns of 40 rounds for one turn.
fn best(turns: u32, mut work: impl FnMut()) -> f64 {
    for _ in 0..turns {
        work();
    }
    let mut least = f64::INFINITY;
    for _ in 0..40 {
        let start = Instant::now();
        for _ in 0..turns {
            work();
        }
        least = least.min(start.elapsed().as_nanos() as f64 / turns as f64);
    }
    least
}

// The least ns of 200 rounds for one turn of a work that can be done but once: 50 stores are made anew before each round's clock starts.
fn best_anew(memory: &mut Memory, bytes: &[u8], sheet: &[u8]) -> f64 {
    let open = memory.words.clone();
    let mut stores = vec![open.clone(); 50];
    let mut least = f64::INFINITY;
    for _ in 0..200 {
        for words in &mut stores {
            words.copy_from_slice(&open);
        }
        let start = Instant::now();
        for words in &mut stores {
            black_box(memory.run_over(words, black_box(bytes), sheet));
        }
        least = least.min(start.elapsed().as_nanos() as f64 / stores.len() as f64);
    }
    memory.words = stores.pop().unwrap();
    least
}

fn main() {
    let none = descriptor(0, 0, &NONE);
    let visits = value(5, 0);
    let count = value(3, 70000);
    let empty = sheet(&[]);
    let get = |o: u8, key: &[u8]| step(11, o, key, &NONE, &value(7, o as u64), &none);
    let proxy = |target: u8, mask: u64| step(2, target, &NONE, &value(3, mask), &NONE, &none);
    let make = step(1, 0, &NONE, &value(1, 0), &NONE, &none);

    let mut m = Memory::new();
    m.enter("visits");
    m.enter("name");
    m.must(&make, &empty); // 0: the sealed count
    m.must(&step(9, 0, &visits, &NONE, &NONE, &descriptor(15, 1, &count)), &empty);
    m.must(&proxy(0, 128), &empty); // 1: a get trap
    for i in 0..8 {
        m.must(&proxy(1 + i, 0), &empty); // 2 to 9: forwarding
    }
    m.must(&proxy(0, 16), &empty); // 10: a getOwnPropertyDescriptor trap
    m.must(&make, &empty); // 11
    m.must(&proxy(11, 4), &empty); // 12: an isExtensible trap

    // An object of which so many of the strings are keys.
    let holding = |strings: u64, keys: u64| {
        let mut memory = Memory::new();
        for i in 0..strings {
            memory.enter(&format!("key{i}"));
        }
        memory.must(&make, &empty);
        for i in 0..keys {
            memory.must(&step(9, 0, &value(5, i), &NONE, &NONE, &descriptor(15, 7, &value(3, i))), &empty);
        }
        memory
    };
    let mut plain = holding(17, 17);
    let mut listing = holding(256, 144);
    listing.must(&proxy(0, 1024), &empty);
    let mut keys = vec![3, 0, 1];
    for i in 0..256 {
        keys.extend(value(5, i));
    }

    let told = sheet(&[answer(&count)]);
    let described = sheet(&[{ let mut b = vec![2]; b.extend(descriptor(15, 1, &count)); b }]);
    let yes = sheet(&[answer(&value(2, 1))]);
    let name = value(5, 1);
    let define = step(9, 11, &name, &NONE, &NONE, &descriptor(15, 7, &value(3, 1)));
    let delete = step(13, 11, &name, &NONE, &NONE, &none);
    let own_keys = step(14, 1, &NONE, &NONE, &NONE, &none);
    let all = sheet(&[keys]);
    let freeze = step(18, 0, &NONE, &value(3, 1), &NONE, &none);
    let is_frozen = step(19, 0, &NONE, &value(3, 1), &NONE, &none);
    let (mut few, mut many) = (holding(16, 16), holding(256, 144));
    let (get0, get1, get9, own10, ext12) = (get(0, &value(5, 16)), get(1, &visits), get(9, &visits), step(8, 10, &visits, &NONE, &NONE, &none), step(6, 12, &NONE, &NONE, &NONE, &none));

    let lines = [
        ("get, own property, the last of 17", best(20000, || { black_box(plain.run(black_box(&get0), &empty)); })),
        ("get, frozen, trap", best(20000, || { black_box(m.run(black_box(&get1), &told)); })),
        ("get, eight forwarding proxies, then the trap", best(20000, || { black_box(m.run(black_box(&get9), &told)); })),
        ("getOwnPropertyDescriptor trap", best(20000, || { black_box(m.run(black_box(&own10), &described)); })),
        ("isExtensible trap", best(20000, || { black_box(m.run(black_box(&ext12), &yes)); })),
        ("define, then delete", best(20000, || { m.run(black_box(&define), &empty); black_box(m.run(black_box(&delete), &empty)); })),
        ("ownKeys trap, 256 keys over 144", best(300, || { black_box(listing.run(black_box(&own_keys), &all)); })),
        ("freeze, 16 properties", best_anew(&mut few, &freeze, &empty)),
        ("freeze, 144 properties", best_anew(&mut many, &freeze, &empty)),
        ("isFrozen, 16 properties", best(5000, || { black_box(few.run(black_box(&is_frozen), &empty)); })),
        ("isFrozen, 144 properties", best(300, || { black_box(many.run(black_box(&is_frozen), &empty)); })),
    ];
    for memory in [&mut few, &mut many] {
        memory.must(&is_frozen, &empty);
        assert_eq!(memory.report[7], 1, "not frozen");
    }
    plain.must(&get0, &empty);
    for (bytes, answers) in [(&get1, &told), (&get9, &told), (&own10, &described), (&ext12, &yes), (&define, &empty), (&delete, &empty)] {
        m.must(bytes, answers);
    }
    listing.must(&own_keys, &all);
    for (name, ns) in lines {
        println!("{name}\t{ns:.1}");
    }
}
