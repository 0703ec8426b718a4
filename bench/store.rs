// The library libbenchmark_store.a, which the benchmark alone links: what crates/benchmark_store/src/lib.rt exports, and the
// words that it is lent.
use crate::vec::{Key, Kind, Property, Value};

#[link(name = "benchmark_store", kind = "static")]
extern "C" {
    fn benchmark_store_find(words: *const u64, size: usize, o: u64, key: u64) -> u64;
    fn benchmark_store_own_keys(words: *const u64, size: usize, strings: *const u16, cells: usize, o: u64, out: *mut u64, room: usize) -> u64;
    fn benchmark_store_append(words: *mut u64, size: usize, o: u64, key: u64, row: *const [u64; 5]) -> u64;
    fn benchmark_store_remove(words: *mut u64, size: usize, o: u64, key: u64) -> u64;
}

pub const NOWHERE: u64 = 256;
pub const REFUSED: u64 = 257;
const SIZE: usize = 1670;
const KEYS: usize = 134;
const ROWS: usize = 390;

pub struct Store {
    pub words: Vec<u64>,
}

// Each function tests what it is lent; all that it asks is that pointer and length are a slice's.
impl Store {
    pub fn new() -> Store {
        Store { words: vec![0; SIZE] }
    }

    pub fn find(&self, o: u64, key: Key) -> u64 {
        unsafe { benchmark_store_find(self.words.as_ptr(), self.words.len(), o, key.word()) }
    }

    pub fn own_keys(&self, cells: &[u16], o: u64, out: &mut [u64]) -> u64 {
        let (words, size) = (self.words.as_ptr(), self.words.len());
        unsafe { benchmark_store_own_keys(words, size, cells.as_ptr(), cells.len(), o, out.as_mut_ptr(), out.len()) }
    }

    pub fn append(&mut self, o: u64, key: Key, row: &[u64; 5]) -> u64 {
        unsafe { benchmark_store_append(self.words.as_mut_ptr(), self.words.len(), o, key.word(), row) }
    }

    pub fn remove(&mut self, o: u64, key: Key) -> u64 {
        unsafe { benchmark_store_remove(self.words.as_mut_ptr(), self.words.len(), o, key.word()) }
    }

    pub fn count(&self) -> usize {
        self.words[1] as usize
    }

    // Key word and row of property i.
    pub fn property(&self, i: usize) -> (u64, [u64; 5]) {
        let at = ROWS + 5 * i;
        (self.words[KEYS + i], self.words[at..at + 5].try_into().unwrap())
    }

    // Writes a property behind the last, as `Vec::push` does.
    pub fn put_last(&mut self, p: &Property) {
        let i = self.count();
        let at = ROWS + 5 * i;
        self.words[KEYS + i] = key_word(p.owner, p.key);
        self.words[at..at + 5].copy_from_slice(&p.row());
        self.words[1] += 1;
    }
}

pub fn key_word(owner: u64, key: Key) -> u64 {
    owner + 32 * key.word()
}

// The string table: a count, then for each string its length and 32 code units.
pub fn cells_of(strings: &[Vec<u16>]) -> Vec<u16> {
    let mut cells = vec![0; 8449];
    cells[0] = strings.len() as u16;
    for (row, text) in cells[1..].chunks_exact_mut(33).zip(strings) {
        row[0] = text.len() as u16;
        row[1..1 + text.len()].copy_from_slice(text);
    }
    cells
}

impl Key {
    pub fn word(self) -> u64 {
        match self {
            Key::String(s) => 2 * s,
            Key::Symbol(s) => 2 * s + 1,
        }
    }
}

fn value_words(value: Value) -> [u64; 2] {
    match value {
        Value::Undefined => [0, 0],
        Value::Integer32(n) => [3, n as u32 as u64],
        Value::Function(f) => [8, f],
    }
}

impl Property {
    // Flags (accessor 1, writable 2, enumerable 4, configurable 8), value or getter, setter.
    pub fn row(&self) -> [u64; 5] {
        let shared = 4 * self.enumerable as u64 + 8 * self.configurable as u64;
        let (flags, [a, b], [c, d]) = match self.kind {
            Kind::Data { value, writable } => (2 * writable as u64, value_words(value), [0, 0]),
            Kind::Accessor { get, set } => (1, value_words(get), value_words(set)),
        };
        [flags + shared, a, b, c, d]
    }
}
