//! The tree walk against every allowed choice, on tiny books.

use harness::record::decode;
use harness::{books, brute, second};

#[test]
fn lowest_total_and_choice() {
    let mut tried = 0;
    for index in 0..6000 {
        let bytes = books::tiny(7, index);
        let book = decode(&bytes).unwrap_or_else(|refusal| panic!("{index}: {refusal:?}"));
        let outcome = second::run(&bytes, 21, 6);
        assert_eq!(outcome.code, 0);
        // All at the middle point is allowed, and no amount there is a gain.
        assert!(outcome.cross <= 0);
        let total = brute::total_of(&book, &outcome.choice);
        assert_eq!(total, Some(outcome.cross), "choice of {index}");
        if brute::choices(&book) <= 50_000 {
            assert_eq!(
                brute::lowest_total(&book),
                outcome.cross,
                "lowest of {index}"
            );
            tried += 1;
        }
    }
    assert!(tried > 5000, "{tried}");
}

/// Each change of one point either is not allowed or gives no lower total.
#[test]
fn choices_that_are_not_allowed() {
    let mut refused = 0;
    for index in 0..500 {
        let bytes = books::tiny(8, index);
        let Ok(book) = decode(&bytes) else {
            panic!("{index}");
        };
        let outcome = second::run(&bytes, 21, 6);
        for number in 0..outcome.choice.len() {
            for point in 0..book.points() as u16 + 1 {
                let mut other = outcome.choice.clone();
                other[number] = point;
                match brute::total_of(&book, &other) {
                    Some(total) => assert!(total >= outcome.cross),
                    None => refused += 1,
                }
            }
        }
        assert_eq!(brute::total_of(&book, &[0; 99]), None);
    }
    assert!(refused > 500, "{refused}");
}
