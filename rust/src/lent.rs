//! The call for callers with memory of their own: both buffers are lent.

use crate::{Refusal, Totals};

extern "C" {
    // as in include/desk.h
    fn desk_run(
        book: *const u8,
        book_len: usize,
        rows: *mut i64,
        rows_len: usize,
        choice: *mut u16,
        choice_len: usize,
        code: *mut u64,
        place: *mut u64,
        mark: *mut i64,
        naked: *mut i64,
        cross: *mut i64,
    );
}

/// The call's five numbers, as the library hands them over.
#[derive(Clone, Copy, Debug, Default, PartialEq, Eq, Hash)]
pub struct Answer {
    /// 0 where the book is accepted, else the refusal's code.
    pub code: u64,
    /// 0 where the book is accepted, else the refusal's place.
    pub place: u64,
    /// The totals; zeros where the book is refused.
    pub totals: Totals,
}

/// The totals of a book, or why it is refused; buffers of any length may be lent.
///
/// Where the book is accepted, `rows` has one row a class, each of as many amounts as the classes
/// have points, and `choice` one point a class and then one an instrument. Entries past these stay
/// as they were, and so do all where the book is refused.
///
/// # Errors
///
/// A refusal with a code from 1 to 8 by the book, with 9 where `rows` is shorter than classes times
/// points, with 10 where `choice` is shorter than classes plus instruments.
pub fn run(book: &[u8], rows: &mut [i64], choice: &mut [u16]) -> Result<Totals, Refusal> {
    match answer(book, rows, choice) {
        Answer {
            code: 0, totals, ..
        } => Ok(totals),
        Answer { code, place, .. } => Err(Refusal::of(book, code, place)),
    }
}

/// The same, as plain numbers: for those who check the library, or hand its numbers on.
#[must_use]
#[allow(unsafe_code)]
pub fn answer(book: &[u8], rows: &mut [i64], choice: &mut [u16]) -> Answer {
    let mut answer = Answer::default();
    // SAFETY: each slice goes with its own length, the five numbers are variables of their own, and
    // borrows keep them all apart. The call asks nothing else: it is proved for every book and all
    // lengths, writes to what it is lent alone, and has no memory of its own between calls.
    unsafe {
        desk_run(
            book.as_ptr(),
            book.len(),
            rows.as_mut_ptr(),
            rows.len(),
            choice.as_mut_ptr(),
            choice.len(),
            &mut answer.code,
            &mut answer.place,
            &mut answer.totals.mark,
            &mut answer.totals.naked,
            &mut answer.totals.cross,
        );
    }
    answer
}
