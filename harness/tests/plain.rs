//! The plain program of the benchmark against the second program: answers, rows, choice, and buffers left alone.

use harness::compare::{self, Range};
use harness::plain;

#[test]
fn random_books() {
    let range = Range {
        seed: 9,
        first: 0,
        books: 20_000,
        threads: 2,
    };
    let judge = || compare::by_program(|book, rows, choice| Ok(plain::run(book, rows, choice)));
    let counts = compare::books(range, judge)
        .unwrap_or_else(|found| panic!("book {}: {}", found.index, found.detail));
    for code in 0..=10 {
        assert!(counts.codes.contains_key(&code), "{:?}", counts.codes);
    }
}
