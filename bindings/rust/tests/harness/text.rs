//! Texts of steps, mostly well formed, and a reader that is lent exactly what it asks for.
use super::entries;
use super::generator::Generator;
use super::random::Random;
use crate::plain::text::{order, run_line, MAXIMUM_CHARACTERS, NAMES};
use crate::plain::world::World;
use demnyaluz::lent;

/// The reader's memory, each part an allocation of its own.
#[derive(Clone, PartialEq, Debug)]
pub struct Reader {
    pub words: Box<[u64]>,
    pub strings: Box<[u16]>,
    pub state: Box<[u64]>,
    pub line: Box<[u8]>,
    pub rows: Box<[u8]>,
    /// All rows so far.
    pub output: Vec<u8>,
    first: bool,
    ended: bool,
}

impl Reader {
    pub fn new() -> Self {
        // the memory need not be zero before it starts
        let mut reader = Reader {
            words: vec![0xdead_beef_dead_beef; 1670].into(),
            strings: vec![0xbeef; 8449].into(),
            state: vec![u64::MAX; 10].into(),
            line: vec![0xa5; MAXIMUM_CHARACTERS].into(),
            rows: vec![0xa5; 4800].into(),
            output: Vec::new(),
            first: true,
            ended: false,
        };
        assert!(reader.start());
        reader
    }

    pub fn start(&mut self) -> bool {
        lent::text_start(&mut self.words, &mut self.strings, &mut self.state)
    }

    /// One call of the feeding function: what it answers, and the bytes taken and written.
    pub fn feed_once(&mut self, piece: &[u8]) -> (bool, [u64; 2]) {
        let piece: Box<[u8]> = piece.into();
        let Reader { words, strings, state, line, rows, .. } = self;
        entries::text_feed(words, strings, state, line, &piece, rows)
    }

    /// One call of the ending function, likewise.
    pub fn end_once(&mut self) -> (bool, [u64; 2]) {
        let Reader { words, strings, state, line, rows, .. } = self;
        entries::text_end(words, strings, state, line, rows)
    }

    fn wrote(&mut self, size: u64) {
        self.output.extend_from_slice(&self.rows[..size as usize]);
    }

    /// A piece, until all of it is taken or reading has ended. Each call takes a piece up to and with its line feed, and writes only there.
    pub fn feed(&mut self, piece: &[u8]) {
        let mut rest = piece;
        loop {
            let (fed, [taken, written]) = self.feed_once(rest);
            assert!(fed);
            if self.ended {
                assert_eq!((taken, written), (0, 0), "taken after the end");
                return;
            }
            let feed = rest.iter().position(|b| *b == b'\n');
            assert_eq!(taken as usize, feed.map_or(rest.len(), |at| at + 1), "taken");
            assert_eq!(written > 0, feed.is_some(), "a row without a line feed, or none with it");
            self.wrote(written);
            if feed.is_some() && self.first {
                self.first = false;
                self.ended = self.output.ends_with(b"\n0 0 12 0 0 -\n");
            }
            rest = &rest[taken as usize..];
            if rest.is_empty() && !self.ended {
                return;
            }
        }
    }

    pub fn end(&mut self) {
        let (ended, [taken, written]) = self.end_once();
        assert!(ended);
        assert_eq!(taken, 0);
        self.wrote(written);
        self.ended = true;
    }
}

/// The output of an input that comes in pieces.
pub fn in_pieces(input: &[u8], random: &mut Random) -> Vec<u8> {
    let mut reader = Reader::new();
    let largest = random.pick(&[1, 3, 40, 700, 5_000, 40_000]);
    let mut rest = input;
    while !rest.is_empty() {
        let (piece, after) = rest.split_at(random.below(largest + 1).min(rest.len()));
        reader.feed(piece);
        rest = after;
    }
    reader.end();
    reader.output
}

/// How a text is made.
#[derive(Clone, Copy)]
pub struct Damage {
    /// One line in so many is damaged.
    pub lines: usize,
    /// One damaged line in so many has about as many characters as a line may have, or more.
    pub long: usize,
}

fn hex(bytes: &[u8]) -> String {
    bytes.iter().map(|b| format!("{b:02x}")).collect()
}

impl Generator {
    fn cell(&mut self, bytes: &[u8]) -> String {
        if bytes.iter().all(|b| *b == 0) && !self.random.once_in(4) {
            return "-".to_string();
        }
        hex(bytes)
    }

    /// The seven cells of a step or of a string, in the order of a record.
    fn cells(&mut self, world: &World) -> [String; 7] {
        if world.strings.len() < 4 || self.random.once_in(20) {
            let units: String = self.units().iter().map(|u| format!("{u:04x}")).collect();
            let units = if units.is_empty() { "-".to_string() } else { units };
            let mut cells = [1, 1, 9, 9, 9, 29, 0].map(|size| self.cell(&vec![0; size]));
            cells[0] = "0f".to_string();
            cells[6] = units;
            if self.random.once_in(15) {
                let at = 1 + self.random.below(5);
                cells[at] = [2, 18, 18, 18, 58].map(|digits| format!("{:0digits$x}", 1))[at - 1].clone();
            }
            return cells;
        }
        let (step, sheet) = self.step_and_sheet(world);
        let part = |from: usize, to: usize| step.get(from..to.min(step.len())).unwrap_or(&[]);
        let parts = [part(0, 1), part(1, 2), part(2, 11), part(11, 20), part(20, 29), part(29, step.len())];
        let [a, b, c, d, e, f] = parts.map(|p| p.to_vec());
        let sheet = if sheet == [0] { self.cell(&sheet) } else { hex(&sheet) };
        [self.cell(&a), self.cell(&b), self.cell(&c), self.cell(&d), self.cell(&e), self.cell(&f), sheet]
    }

    /// A line that breaks the form, or seldom does not.
    fn damage_line(&mut self, line: &mut Vec<u8>, damage: Damage) {
        const BYTES: &[u8] = b"  --0019afFAgG\r\t\0.x:\x7f\x80\xc3\xff\n";
        let at = self.random.below(line.len() + 1);
        if self.random.once_in(damage.long) {
            let size = self.random.pick(&[16_382, 16_383, 16_384, 16_385, 16_386, 16_388, 20_000, 50_000]);
            let fill = self.random.pick(b"00 -f");
            let at = if self.random.once_in(3) { at } else { line.len() };
            let missing = size - line.len().min(size);
            line.splice(at..at, vec![fill; missing]);
            return;
        }
        match self.random.below(16) {
            0 => line.clear(),
            1 => line.truncate(at),
            2 => line.insert(at, b' '),
            3 => line.push(self.random.pick(b" \r\t")),
            4 => line.insert(0, b' '),
            5 => line.make_ascii_uppercase(),
            6 | 7 => line.insert(at, self.random.pick(BYTES)),
            8 => {
                let mut cells: Vec<&[u8]> = line.split(|b| *b == b' ').collect();
                let (i, j) = (self.random.below(cells.len()), self.random.below(cells.len()));
                match self.random.below(4) {
                    0 => drop(cells.remove(i)),
                    1 => cells.insert(i, cells[j]),
                    2 => cells[i] = b"",
                    _ => cells.swap(i, j),
                }
                *line = cells.join(&b' ');
            }
            9 => line.extend_from_within(..at),
            _ if at == line.len() => line.push(b'-'),
            10 | 11 => drop(line.remove(at)),
            12 => line[at] = self.random.next() as u8,
            _ => line[at] = self.random.pick(BYTES),
        }
    }

    /// A first line: the seven names in any order, seldom broken.
    fn names(&mut self) -> Vec<u8> {
        let mut names = NAMES;
        for i in (1..7).rev() {
            names.swap(i, self.random.below(i + 1));
        }
        let mut line = if self.random.once_in(2) { NAMES.join(" ") } else { names.join(" ") }.into_bytes();
        if self.random.once_in(20) {
            self.damage_line(&mut line, Damage { lines: 1, long: 20 });
        }
        line
    }

    /// A text of so many lines after the first; the last may lack its line feed.
    pub fn text(&mut self, lines: usize, damage: Damage) -> Vec<u8> {
        let first = self.names();
        let places = order(&first).unwrap_or([0, 1, 2, 3, 4, 5, 6]);
        let mut text = first;
        let mut world = World::default();
        for _ in 0..lines {
            text.push(b'\n');
            let cells = self.cells(&world);
            let mut placed = [""; 7];
            for (cell, place) in cells.iter().zip(places) {
                placed[place] = cell;
            }
            let mut line = placed.join(" ").into_bytes();
            if self.random.once_in(damage.lines) {
                self.damage_line(&mut line, damage);
            }
            run_line(&mut world, &places, &line);
            if self.random.once_in(4 * damage.lines) {
                // two lines joined, or one twice
                if self.random.once_in(2) {
                    text.pop();
                } else {
                    text.extend_from_slice(&line);
                    text.push(b'\n');
                }
            }
            text.extend_from_slice(&line);
        }
        if !self.random.once_in(4) {
            text.push(b'\n');
        }
        text
    }

    /// Random bytes, after a first line that is seldom missing.
    pub fn noise(&mut self, size: usize) -> Vec<u8> {
        let mut text = Vec::new();
        if !self.random.once_in(6) {
            text.extend(self.names());
            text.push(b'\n');
        }
        let all: Vec<u8> = (0..=255).collect();
        let from: &[u8] = match self.random.below(5) {
            0 => &all,
            1 => b" -0123456789abcdef\n",
            2 => b"--------      000001f\n\n",
            3 => b"0123456789abcdef",
            _ => b"step object key value receiver descriptor sheet\n",
        };
        text.extend((0..size).map(|_| self.random.pick(from)));
        text
    }
}
