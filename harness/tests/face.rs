//! The library's safe face for Rust against the second program: figures by class and instrument, refusals in words.

use desk::{Figures, Refusal};
use harness::second::{self, Outcome};
use harness::{books, record};

const BOOKS: u64 = 20_000;

fn figures_agree(book: &[u8], wanted: &Outcome, figures: &Figures) {
    let totals = figures.totals();
    let given = [0, 0, totals.mark, totals.naked, totals.cross];
    assert_eq!(given, wanted.answer());
    assert_eq!(figures.rows().collect::<Vec<_>>().concat(), wanted.rows);
    let choice = [figures.class_points(), figures.instrument_points()].concat();
    assert_eq!(choice, wanted.choice);
    let decoded = record::decode(book).unwrap_or_else(|refusal| panic!("{refusal:?}"));
    assert_eq!(figures.classes(), decoded.classes.len());
    assert_eq!(figures.instruments(), decoded.instruments.len());
    assert_eq!(figures.points(), decoded.points());
}

fn refusals_agree(book: &[u8], wanted: &Outcome, refusal: Refusal) {
    assert_eq!(
        (refusal.code(), refusal.place()),
        (wanted.code, wanted.place)
    );
    assert_eq!(format!("{refusal}\n"), second::complaint(book));
}

#[test]
fn random_books() {
    let mut accepted = 0;
    for index in 0..BOOKS {
        let book = books::case(11, index).book;
        let wanted = second::run(&book, usize::MAX, usize::MAX);
        match desk::run(&book) {
            Ok(figures) => {
                figures_agree(&book, &wanted, &figures);
                accepted += 1;
            }
            Err(refusal) => refusals_agree(&book, &wanted, refusal),
        }
    }
    assert!(accepted > BOOKS / 4, "{accepted}");
}

/// Buffers that are too short have words too.
#[test]
fn short_buffers() {
    let mut short = 0;
    for index in 0..BOOKS {
        let case = books::case(11, index);
        let (mut rows, mut choice) = (vec![0; case.rows_len], vec![0; case.choice_len]);
        let Err(refusal) = desk::lent::run(&case.book, &mut rows, &mut choice) else {
            continue;
        };
        if refusal.code() > 8 {
            let line = second::in_words(&case.book, refusal.code(), refusal.place());
            assert_eq!(format!("{refusal}\n"), line);
            short += 1;
        }
    }
    assert!(short > BOOKS / 20, "{short}");
}
