//! The C functions, with report and test allocations of their own too, so that a memory checker sees an access past its end; and the same call through
//! `lent`, on copies, which must leave the same.
use super::layout;
use demnyaluz::{lent, raw, REPORT_WORDS};

pub type Words = [u64; REPORT_WORDS];

/// A report that is no report before it is written.
fn unwritten() -> Box<Words> {
    Box::new([u64::MAX; REPORT_WORDS])
}

pub fn step(words: &mut [u64], strings: &[u16], step: &[u8], sheet: &[u8], output: &mut [u8]) -> Words {
    let (mut lent_words, mut lent_output) = (words.to_vec(), output.to_vec());
    let mut report = unwritten();
    // SAFETY: each pointer is a slice's, with its length, and the report has its words; what is written is borrowed mutably.
    unsafe {
        raw::demnyaluz_step(
            words.as_mut_ptr(),
            words.len(),
            strings.as_ptr(),
            strings.len(),
            step.as_ptr(),
            step.len(),
            sheet.as_ptr(),
            sheet.len(),
            output.as_mut_ptr(),
            output.len(),
            report.as_mut_ptr(),
        );
    }
    let lent = lent::step(&mut lent_words, strings, step, sheet, &mut lent_output);
    assert_eq!((lent.as_slice(), &*lent_words, &*lent_output), (&report[..], &*words, &*output), "by lent slices");
    *report
}

pub fn enter_string(strings: &mut [u16], units: &[u16]) -> Words {
    let mut lent_strings = strings.to_vec();
    let mut report = unwritten();
    // SAFETY: as above.
    unsafe { raw::demnyaluz_enter_string(strings.as_mut_ptr(), strings.len(), units.as_ptr(), units.len(), report.as_mut_ptr()) }
    let lent = lent::enter_string(&mut lent_strings, units);
    assert_eq!((lent.as_slice(), &*lent_strings), (&report[..], &*strings), "by lent slices");
    *report
}

/// Store and table are borrowed mutably for the caller, who looks whether they changed.
pub fn page(words: &mut [u64], strings: &mut [u16], object: u64, output: &mut [u8]) -> Words {
    let (lent_words, lent_strings, mut lent_output) = (words.to_vec(), strings.to_vec(), output.to_vec());
    let mut report = unwritten();
    // SAFETY: as above.
    unsafe {
        raw::demnyaluz_page(
            words.as_mut_ptr(),
            words.len(),
            strings.as_mut_ptr(),
            strings.len(),
            object,
            output.as_mut_ptr(),
            output.len(),
            report.as_mut_ptr(),
        );
    }
    let lent = lent::page(&lent_words, &lent_strings, object, &mut lent_output).map(|n| n as u64).map_err(|r| r.number().into());
    assert_eq!((layout::page_words(lent), &*lent_output), (*report, &*output), "by lent slices");
    *report
}

pub fn complete(words: &[u64], strings: &[u16], descriptor: &[u8]) -> Words {
    let mut report = unwritten();
    // SAFETY: as above.
    unsafe {
        raw::demnyaluz_complete(
            words.as_ptr(),
            words.len(),
            strings.as_ptr(),
            strings.len(),
            descriptor.as_ptr(),
            descriptor.len(),
            report.as_mut_ptr(),
        );
    }
    assert_eq!(lent::complete(words, strings, descriptor).as_slice(), &report[..], "by lent slices");
    *report
}

/// What it answers, the test and the report.
pub fn validate(words: &[u64], strings: &[u16], extensible: bool, descriptor: &[u8], current: &[u8]) -> (bool, u64, Words) {
    let mut report = unwritten();
    let mut test = Box::new(u64::MAX);
    // SAFETY: as above; the test is one word.
    let accepted = unsafe {
        raw::demnyaluz_validate(
            words.as_ptr(),
            words.len(),
            strings.as_ptr(),
            strings.len(),
            extensible,
            descriptor.as_ptr(),
            descriptor.len(),
            current.as_ptr(),
            current.len(),
            report.as_mut_ptr(),
            &mut *test,
        )
    };
    let lent = lent::validate(words, strings, extensible, descriptor, current);
    assert_eq!((lent.accepted, lent.test, lent.report.as_slice()), (accepted, *test, &report[..]), "by lent slices");
    (accepted, *test, *report)
}

pub fn merge(words: &[u64], strings: &[u16], current: &[u8], descriptor: &[u8]) -> Words {
    let mut report = unwritten();
    // SAFETY: as above.
    unsafe {
        raw::demnyaluz_merge(
            words.as_ptr(),
            words.len(),
            strings.as_ptr(),
            strings.len(),
            current.as_ptr(),
            current.len(),
            descriptor.as_ptr(),
            descriptor.len(),
            report.as_mut_ptr(),
        );
    }
    assert_eq!(lent::merge(words, strings, current, descriptor).as_slice(), &report[..], "by lent slices");
    *report
}

/// What it answers, and the bytes taken and written.
pub fn text_feed(words: &mut [u64], strings: &mut [u16], state: &mut [u64], line: &mut [u8], piece: &[u8], rows: &mut [u8]) -> (bool, [u64; 2]) {
    let mut result = Box::new([u64::MAX; 2]);
    // SAFETY: as above; the result has two words.
    let fed = unsafe {
        raw::demnyaluz_text_feed(
            words.as_mut_ptr(),
            words.len(),
            strings.as_mut_ptr(),
            strings.len(),
            state.as_mut_ptr(),
            state.len(),
            line.as_mut_ptr(),
            line.len(),
            piece.as_ptr(),
            piece.len(),
            rows.as_mut_ptr(),
            rows.len(),
            result.as_mut_ptr(),
        )
    };
    (fed, *result)
}

/// Likewise.
pub fn text_end(words: &mut [u64], strings: &mut [u16], state: &mut [u64], line: &mut [u8], rows: &mut [u8]) -> (bool, [u64; 2]) {
    let mut result = Box::new([u64::MAX; 2]);
    // SAFETY: as above; the result has two words.
    let ended = unsafe {
        raw::demnyaluz_text_end(
            words.as_mut_ptr(),
            words.len(),
            strings.as_mut_ptr(),
            strings.len(),
            state.as_mut_ptr(),
            state.len(),
            line.as_mut_ptr(),
            line.len(),
            rows.as_mut_ptr(),
            rows.len(),
            result.as_mut_ptr(),
        )
    };
    (ended, *result)
}
