//! Steps as lines of text, and a row for each.
use crate::lent;
use crate::store::{STORE_WORDS, STRING_CELLS};
use std::io::{self, Write};

/// How many words the state of a reader has.
pub const TEXT_STATE_WORDS: usize = 10;

/// How many characters a line may have, its line feed not counted.
pub const TEXT_LINE_BYTES: usize = 16_384;

/// How many bytes hold the longest row, and the heading before it.
pub const TEXT_ROW_BYTES: usize = 4_800;

/// Reads a text of steps in pieces of any size, over one store that is empty at its start, and writes a row for each line.
///
/// The first line has the names of the cells, `step object key value receiver descriptor sheet`, in any order. Each line after it is a step or, with
/// step `0f`, a string to enter: seven cells of lowercase hexadecimal digits in the order of the names, one space between them. A dash is all
/// zeros, or an empty sheet or string. [`notation::cells`](crate::notation::cells) makes such lines.
///
/// The rows stand under a heading, `line outcome number answers calls value`. Outcomes are 0 refused, 1 a result, 2 a TypeError and 3 a thrown value.
/// A line that breaks the form is refused as 12. Where the first one does, its row, of line 0, is the only one, and nothing more is read.
///
/// A long text needs no more memory than a short one.
///
/// ```
/// use demnyaluz::TextReader;
///
/// let mut rows = Vec::new();
/// let mut reader = TextReader::new();
/// reader.feed(b"step object key value receiver descriptor sheet\n01 00 - 0100000000", &mut rows)?;
/// reader.feed(b"00000000 - - -", &mut rows)?;
/// reader.end(&mut rows)?;
/// assert_eq!(rows, b"line outcome number answers calls value\n1 1 0 0 0 070000000000000000\n");
/// # Ok::<(), std::io::Error>(())
/// ```
#[derive(Clone)]
pub struct TextReader {
    words: Box<[u64]>,
    strings: Box<[u16]>,
    state: Box<[u64]>,
    line: Box<[u8]>,
    rows: Box<[u8]>,
}

impl Default for TextReader {
    fn default() -> Self {
        TextReader::new()
    }
}

impl std::fmt::Debug for TextReader {
    fn fmt(&self, f: &mut std::fmt::Formatter<'_>) -> std::fmt::Result {
        f.debug_struct("TextReader").field("objects", &self.words[0]).field("properties", &self.words[1]).field("strings", &self.strings[0]).finish()
    }
}

impl TextReader {
    /// A reader at the start of a text.
    ///
    /// # Panics
    /// Where the archive that is linked has another length of a store, a table or a state.
    #[must_use]
    pub fn new() -> Self {
        let mut reader = TextReader {
            words: vec![0; STORE_WORDS].into(),
            strings: vec![0; STRING_CELLS].into(),
            state: vec![0; TEXT_STATE_WORDS].into(),
            line: vec![0; TEXT_LINE_BYTES].into(),
            rows: vec![0; TEXT_ROW_BYTES].into(),
        };
        let started = lent::text_start(&mut reader.words, &mut reader.strings, &mut reader.state);
        assert!(started, "the library's lengths");
        reader
    }

    /// Takes the next bytes of the text and writes the rows of the lines that end in them. Answers how many bytes were taken: all of them, but where
    /// reading has ended.
    ///
    /// # Errors
    /// Those of the writer; the row that it did not take is lost.
    pub fn feed<W: Write + ?Sized>(&mut self, bytes: &[u8], rows: &mut W) -> io::Result<usize> {
        let mut taken = 0;
        while taken < bytes.len() {
            let TextReader { words, strings, state, line, rows: row } = self;
            let fed = lent::text_feed(words, strings, state, line, &bytes[taken..], row).expect("the reader's own memory");
            rows.write_all(&row[..fed.written])?;
            if fed.taken == 0 {
                break;
            }
            taken += fed.taken;
        }
        Ok(taken)
    }

    /// The text ends: writes the row of a last line without its line feed, or, where there was no first line, the heading and its refusal.
    /// Reading has then ended.
    ///
    /// # Errors
    /// Those of the writer.
    pub fn end<W: Write + ?Sized>(&mut self, rows: &mut W) -> io::Result<()> {
        let TextReader { words, strings, state, line, rows: row } = self;
        let written = lent::text_end(words, strings, state, line, row).expect("the reader's own memory");
        rows.write_all(&row[..written])
    }
}

/// The rows of a whole text.
///
/// ```
/// let text = "step object key value receiver descriptor sheet\n0f - - - - - 0076\nObject\n";
/// let rows = "line outcome number answers calls value\n1 1 0 0 0 050000000000000000\n2 0 12 0 0 -\n";
/// assert_eq!(demnyaluz::run_text(text.as_bytes()), rows.as_bytes());
/// ```
#[must_use]
pub fn run_text(input: &[u8]) -> Vec<u8> {
    let mut rows = Vec::new();
    let mut reader = TextReader::new();
    let ran = reader.feed(input, &mut rows).and_then(|_| reader.end(&mut rows));
    ran.expect("a Vec takes every row");
    rows
}
