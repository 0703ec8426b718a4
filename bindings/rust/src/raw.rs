//! The C interface as it is: `include/demnyaluz.h` in the repository says what each function does. [`lent`](crate::lent) has the same over slices.
//!
//! # Safety
//! Every function takes memory of any content and length. Each pointer must be good for its length, and may be null where that is 0; a
//! report must be good for [`REPORT_WORDS`](crate::REPORT_WORDS) words, a test for one and a result for two. Nothing that is written may overlap
//! anything else that is lent.
//!
//! ```
//! use demnyaluz::raw;
//!
//! let mut text = [0; 90];
//! // SAFETY: the pointer is the array's, with its length.
//! let length = unsafe { raw::demnyaluz_message(17, text.as_mut_ptr(), text.len()) };
//! assert_eq!(&text[..length as usize], b"Proxy trap returned unexpected data descriptor");
//! ```

extern "C" {
    /// One step.
    pub fn demnyaluz_step(
        words: *mut u64,
        words_length: usize,
        strings: *const u16,
        strings_length: usize,
        step: *const u8,
        step_length: usize,
        sheet: *const u8,
        sheet_length: usize,
        output: *mut u8,
        output_length: usize,
        report: *mut u64,
    );

    /// A string's code units are entered.
    pub fn demnyaluz_enter_string(strings: *mut u16, strings_length: usize, units: *const u16, units_length: usize, report: *mut u64);

    /// The property page of an object.
    pub fn demnyaluz_page(
        words: *const u64,
        words_length: usize,
        strings: *const u16,
        strings_length: usize,
        object: u64,
        output: *mut u8,
        output_length: usize,
        report: *mut u64,
    );

    /// A descriptor is completed by itself.
    pub fn demnyaluz_complete(
        words: *const u64,
        words_length: usize,
        strings: *const u16,
        strings_length: usize,
        descriptor: *const u8,
        descriptor_length: usize,
        report: *mut u64,
    );

    /// A descriptor is validated by itself over a current one, or, with length 0, over an absent property; the test is the first that fails.
    pub fn demnyaluz_validate(
        words: *const u64,
        words_length: usize,
        strings: *const u16,
        strings_length: usize,
        extensible: bool,
        descriptor: *const u8,
        descriptor_length: usize,
        current: *const u8,
        current_length: usize,
        report: *mut u64,
        test: *mut u64,
    ) -> bool;

    /// A descriptor is merged into a current one by itself.
    pub fn demnyaluz_merge(
        words: *const u64,
        words_length: usize,
        strings: *const u16,
        strings_length: usize,
        current: *const u8,
        current_length: usize,
        descriptor: *const u8,
        descriptor_length: usize,
        report: *mut u64,
    );

    /// The text of a message, where it fits, and its length.
    pub fn demnyaluz_message(number: u64, text: *mut u8, text_length: usize) -> u64;

    /// Words of the right length become an empty store.
    pub fn demnyaluz_empty_store(words: *mut u64, words_length: usize) -> bool;

    /// Cells of the right length become an empty table of strings.
    pub fn demnyaluz_empty_strings(strings: *mut u16, strings_length: usize) -> bool;

    /// Store, table and state of the right lengths become those of a text that is not read yet.
    pub fn demnyaluz_text_start(
        words: *mut u64,
        words_length: usize,
        strings: *mut u16,
        strings_length: usize,
        state: *mut u64,
        state_length: usize,
    ) -> bool;

    /// Bytes of a text are taken up to the next line feed, and a line's row is written.
    pub fn demnyaluz_text_feed(
        words: *mut u64,
        words_length: usize,
        strings: *mut u16,
        strings_length: usize,
        state: *mut u64,
        state_length: usize,
        line: *mut u8,
        line_length: usize,
        piece: *const u8,
        piece_length: usize,
        rows: *mut u8,
        rows_length: usize,
        result: *mut u64,
    ) -> bool;

    /// A text ends, and the row of a last line without its line feed is written.
    pub fn demnyaluz_text_end(
        words: *mut u64,
        words_length: usize,
        strings: *mut u16,
        strings_length: usize,
        state: *mut u64,
        state_length: usize,
        line: *mut u8,
        line_length: usize,
        rows: *mut u8,
        rows_length: usize,
        result: *mut u64,
    ) -> bool;
}
