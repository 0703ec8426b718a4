// The store's operations beside the same ones over a Vec of structs: first that both answer alike, then what each takes.
mod store;
mod vec;

use std::hint::black_box;
use std::time::Instant;
use store::Store;
use vec::{Key, Kind, Listing, Property, Value};

const OWNER: u64 = 1;
const ROUNDS: usize = 2000;
const ABSENT: Key = Key::String(1000);

#[derive(Clone, Copy)]
enum Class {
    Name,
    Index,
    Symbol,
}

const CLASSES: [Class; 3] = [Class::Name, Class::Index, Class::Symbol];

// Keys, and the texts of those that are strings.
struct Keys {
    keys: Vec<Key>,
    strings: Vec<Vec<u16>>,
}

impl Keys {
    fn new(count: usize, class: impl Fn(usize) -> Class) -> Keys {
        let (mut keys, mut strings) = (Vec::new(), Vec::new());
        for i in 0..count {
            let text = match class(i) {
                Class::Name => format!("name{i}"),
                Class::Index => format!("{}", i * 7919 % 10007), // in no order
                Class::Symbol => {
                    keys.push(Key::Symbol(i as u64));
                    continue;
                }
            };
            keys.push(Key::String(strings.len() as u64));
            strings.push(text.encode_utf16().collect());
        }
        Keys { keys, strings }
    }

    // The classes by turns, so that the last key is of the class CLASSES[last].
    fn mixed(count: usize, last: usize) -> Keys {
        Keys::new(count, |i| CLASSES[(count - 1 - i + last) % 3])
    }
}

// Data and accessors by turns.
fn property(owner: u64, key: Key, i: usize) -> Property {
    let kind = if i % 4 == 3 {
        Kind::Accessor { get: Value::Function(i as u64), set: Value::Undefined }
    } else {
        Kind::Data { value: Value::Integer32(i as i32 - 100), writable: i % 2 == 0 }
    };
    Property { owner, key, kind, enumerable: i % 5 != 0, configurable: true }
}

fn filled(keys: &[Key]) -> (Store, Vec<Property>) {
    let (mut ours, mut theirs) = (Store::new(), Vec::with_capacity(vec::MAXIMUM));
    for (i, key) in keys.iter().enumerate() {
        let p = property(OWNER, *key, i);
        assert_eq!(ours.append(p.owner, p.key, &p.row()), i as u64 + 1);
        assert!(vec::append(&mut theirs, p));
    }
    (ours, theirs)
}

// That both answer alike ------------------------------------------------------------------

fn agree(ours: &Store, theirs: &[Property]) {
    assert_eq!(ours.count(), theirs.len());
    for (i, p) in theirs.iter().enumerate() {
        assert_eq!(ours.property(i), (store::key_word(p.owner, p.key), p.row()));
    }
}

// 20,000 operations in no order over four objects, then what is refused.
fn check() {
    let Keys { keys, strings } = Keys::mixed(300, 0);
    let cells = store::cells_of(&strings);
    let (mut ours, mut theirs) = (Store::new(), Vec::new());
    let (mut out, mut listing) = ([0; 256], Listing::default());
    let mut random = 1u64;
    for step in 0..20_000 {
        random = random.wrapping_mul(6364136223846793005).wrapping_add(1442695040888963407);
        let (owner, key) = ((random >> 33) % 4, keys[(random >> 40) as usize % 300]);
        let place = vec::find(&theirs, owner, key);
        assert_eq!(ours.find(owner, key), place.map_or(store::NOWHERE, |i| i as u64));
        // more are added than removed, so that the store fills
        if random >> 60 < 11 {
            let p = property(owner, key, step);
            let added = vec::append(&mut theirs, p);
            let answer = ours.append(owner, key, &p.row());
            assert_eq!(answer, if added { theirs.len() as u64 } else { store::REFUSED });
        } else {
            vec::remove(&mut theirs, owner, key);
            assert_eq!(ours.remove(owner, key), theirs.len() as u64);
        }
        if step % 16 == 0 {
            agree(&ours, &theirs);
            vec::own_keys(&theirs, &strings, owner, &mut listing);
            let n = ours.own_keys(&cells, owner, &mut out) as usize;
            assert!(out[..n].iter().copied().eq(listing.keys.iter().map(|k| k.word())));
        }
    }
    agree(&ours, &theirs);
    assert_eq!(ours.own_keys(&cells[1..], OWNER, &mut out), store::REFUSED);
    assert_eq!(ours.own_keys(&cells, OWNER, &mut out[1..]), store::REFUSED);
    assert_eq!(ours.append(32, ABSENT, &[0; 5]), store::REFUSED);
    agree(&ours, &theirs);
    ours.words[1] = 257;
    assert_eq!(ours.find(OWNER, keys[0]), store::REFUSED);
    assert_eq!(ours.remove(OWNER, keys[0]), store::REFUSED);
}

// What each takes ---------------------------------------------------------------------------

struct Case {
    name: &'static str,
    size: usize,
    ours: Box<dyn FnMut() -> f64>,
    theirs: Box<dyn FnMut() -> f64>,
    best: [f64; 2],
}

// A round: some calls to warm up, then the time of one call in ns.
fn round(calls: usize, mut call: impl FnMut() + 'static) -> Box<dyn FnMut() -> f64> {
    Box::new(move || {
        (0..calls / 8 + 1).for_each(|_| call());
        let start = Instant::now();
        (0..calls).for_each(|_| call());
        start.elapsed().as_nanos() as f64 / calls as f64
    })
}

fn case(name: &'static str, size: usize, calls: usize, ours: impl FnMut() + 'static, theirs: impl FnMut() + 'static) -> Case {
    Case { name, size, ours: round(calls, ours), theirs: round(calls, theirs), best: [f64::MAX; 2] }
}

fn find(name: &'static str, keys: Keys, key: Key) -> Case {
    let (ours, theirs) = filled(&keys.keys);
    case(
        name,
        theirs.len(),
        2000,
        move || {
            black_box(ours.find(black_box(OWNER), black_box(key)));
        },
        move || {
            black_box(vec::find(black_box(&theirs), black_box(OWNER), black_box(key)));
        },
    )
}

fn own_keys(name: &'static str, keys: Keys) -> Case {
    let (ours, theirs) = filled(&keys.keys);
    let cells = store::cells_of(&keys.strings);
    let (mut out, mut listing) = ([0; 256], Listing::default());
    case(
        name,
        theirs.len(),
        20,
        move || {
            black_box(ours.own_keys(&cells, black_box(OWNER), &mut out));
            black_box(&mut out);
        },
        move || {
            vec::own_keys(black_box(&theirs), &keys.strings, black_box(OWNER), &mut listing);
            black_box(&mut listing);
        },
    )
}

// What was appended is taken off again by setting the count.
fn append(keys: Keys) -> Case {
    let (mut ours, mut theirs) = filled(&keys.keys);
    let size = theirs.len();
    let p = property(OWNER, ABSENT, size);
    let row = p.row();
    case(
        "append",
        size,
        500,
        move || {
            black_box(ours.append(black_box(OWNER), black_box(ABSENT), black_box(&row)));
            ours.words[1] = size as u64;
        },
        move || {
            black_box(vec::append(black_box(&mut theirs), black_box(p)));
            theirs.truncate(size);
        },
    )
}

// What was removed from the front is put behind the last, without a search.
fn remove(keys: Keys) -> Case {
    let (mut ours, mut theirs) = filled(&keys.keys);
    let (properties, again, size) = (theirs.clone(), theirs.clone(), theirs.len());
    let (mut i, mut j) = (0, 0);
    case(
        "remove from the front",
        size,
        100,
        move || {
            black_box(ours.remove(black_box(OWNER), black_box(properties[i].key)));
            ours.put_last(&properties[i]);
            i = (i + 1) % size;
        },
        move || {
            vec::remove(black_box(&mut theirs), black_box(OWNER), black_box(again[j].key));
            theirs.push(again[j]);
            j = (j + 1) % size;
        },
    )
}

fn main() {
    check();
    let mut cases = Vec::new();
    for size in [1, 16, 144, 256] {
        let keys = Keys::mixed(size, 0);
        let last = keys.keys[size - 1];
        cases.push(find("find, the last key", keys, last));
    }
    let keys = Keys::mixed(256, 2);
    let last = keys.keys[255];
    cases.push(find("find, the last key, a symbol", keys, last));
    for size in [1, 16, 144, 256] {
        cases.push(find("find, an absent key", Keys::mixed(size, 0), ABSENT));
    }
    cases.push(own_keys("own keys", Keys::mixed(16, 0)));
    cases.push(own_keys("own keys", Keys::mixed(256, 0)));
    cases.push(own_keys("own keys, all of them indices", Keys::new(256, |_| Class::Index)));
    cases.push(append(Keys::mixed(0, 0)));
    cases.push(append(Keys::mixed(255, 0)));
    cases.push(remove(Keys::mixed(256, 0)));
    for _ in 0..ROUNDS {
        for case in &mut cases {
            case.best[0] = case.best[0].min((case.ours)());
            case.best[1] = case.best[1].min((case.theirs)());
        }
    }
    println!("{:<32}{:>5}{:>10}{:>10}{:>8}", "operation", "size", "here ns", "Vec ns", "ratio");
    for Case { name, size, best: [ours, theirs], .. } in cases {
        println!("{name:<32}{size:>5}{ours:>10.1}{theirs:>10.1}{:>8.2}", ours / theirs);
    }
}
