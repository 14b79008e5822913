//! Each code, on either side of each limit, and which code comes first.

use harness::encode::{self, put, Record};
use harness::listing::child;
use harness::record::{Form, KINDS};
use harness::second;

/// Two classes, one instrument of each product, a position in each and one more.
fn sound() -> Vec<Record> {
    vec![
        encode::class(65_535, 31, 4000),
        encode::class(0, 31, 1500),
        encode::instrument(1, 0, 91, [3_700_000, 3_690_000, 400_000, 20_000]),
        encode::instrument(2, 1, 0, [96_300_000, 96_310_000, 400_000, 20_000]),
        encode::instrument(3, 1, 0, [101_700_000, 101_800_000, 30_000, 1_000]),
        encode::position(1, 0, 1000, 0, 0),
        encode::position(2, 1, 700, 96_000_000, 1),
        encode::position(1, 2, 100, 101_800_000, 1),
        encode::position(2, 0, 5, 3_600_000, 1),
    ]
}

fn given(records: &[Record]) -> (u64, u64) {
    let outcome = second::run(&records.concat(), 24 * 201, 88);
    if outcome.code != 0 {
        assert_eq!((outcome.mark, outcome.naked, outcome.cross), (0, 0, 0));
        assert!(outcome.rows.is_empty() && outcome.choice.is_empty());
    }
    (outcome.code, outcome.place)
}

/// The sound book with one field of one record changed.
fn with(number: usize, first: usize, last: usize, value: u64) -> (u64, u64) {
    let mut records = sound();
    put(&mut records[number], first, last, value);
    given(&records)
}

#[test]
fn the_sound_book() {
    assert_eq!(given(&sound()), (0, 0));
}

#[test]
fn lengths() {
    let book = sound().concat();
    for cut in 1..32 {
        let outcome = second::run(&book[..book.len() - cut], 9999, 99);
        assert_eq!((outcome.code, outcome.place), (1, 8));
    }
    assert_eq!(second::run(&[0; 31], 0, 0).place, 0);
}

#[test]
fn letters_and_order() {
    for letter in [0, 66, 68, 72, 74, 79, 81, 99, 105, 112, 255] {
        assert_eq!(with(3, 0, 0, letter), (2, 3));
    }
    for (from, to) in [(0, 2), (1, 8), (2, 5), (4, 8)] {
        let mut records = sound();
        let copy = records[from];
        records.insert(to + 1, copy);
        assert_eq!(given(&records), (3, to as u64 + 1));
    }
}

#[test]
fn counts() {
    for (from, limit) in [(1, 24), (4, 64), (8, 256)] {
        let mut records = sound();
        let copy = records[from];
        let there = records.iter().filter(|record| record[0] == copy[0]).count();
        for _ in there..limit {
            records.insert(from, copy);
        }
        assert_eq!(given(&records), (0, 0));
        let last = records
            .iter()
            .rposition(|record| record[0] == copy[0])
            .unwrap_or(0);
        records.insert(last + 1, copy);
        assert_eq!(given(&records), (4, last as u64 + 1));
        // Code 4 comes before the record's later faults.
        put(&mut records[last + 1], 31, 31, 1);
        assert_eq!(given(&records), (4, last as u64 + 1));
    }
}

#[test]
fn reserved_bytes() {
    let mut free = 0;
    for (number, named) in [(1, 8), (3, 24), (7, 13)] {
        for at in 0..32 {
            let gap = (number == 1 && at == 1) || (number == 3 && (at == 6 || at == 7));
            if at >= named || gap {
                assert_eq!(with(number, at, at, 1), (5, number as u64));
                assert_eq!(with(number, at, at, 128), (5, number as u64));
                free += 1;
            }
        }
    }
    assert_eq!(free, 25 + 10 + 19);
}

/// Each byte of a record is the letter, in one field, or reserved; kinds have ranks and letters of their own.
#[test]
fn kinds() {
    for form in &KINDS {
        let runs = form.fields.iter().chain(form.reserved);
        let mut bytes: Vec<usize> = runs.flat_map(|&(first, last)| first..=last).collect();
        bytes.sort_unstable();
        assert_eq!(bytes, (1..32).collect::<Vec<_>>(), "{}", form.words);
        let alike = |other: &&Form| {
            other.rank == form.rank || other.letter == form.letter || other.kind == form.kind
        };
        assert_eq!(KINDS.iter().filter(alike).count(), 1);
    }
    assert!(KINDS.is_sorted_by_key(|form| form.rank));
}

#[test]
fn references() {
    for parent in [1, 2, 256, 65_534] {
        assert_eq!(with(1, 2, 3, parent), (6, 1));
    }
    assert_eq!(with(0, 2, 3, 0), (6, 0));
    assert_eq!(with(1, 2, 3, 65_535), (0, 0));
    assert_eq!((with(2, 2, 3, 2), with(2, 2, 3, 65_535)), ((6, 2), (6, 2)));
    assert_eq!((with(5, 2, 3, 3), with(5, 2, 3, 65_535)), ((6, 5), (6, 5)));
    assert_eq!((with(2, 2, 3, 1), with(5, 2, 3, 2)), ((0, 0), (0, 0)));
}

/// Record, first and last byte, lowest and highest value.
const RANGES: [(usize, usize, usize, u64, u64); 20] = [
    (1, 6, 7, 0, 10_000),
    (2, 4, 5, 1, 366),
    (3, 4, 5, 0, 0),
    (4, 4, 5, 0, 0),
    (2, 8, 11, 0, 100_000_000),
    (3, 8, 11, 0, 200_000_000),
    (4, 8, 11, 0, 200_000_000),
    (2, 12, 15, 0, 100_000_000),
    (3, 12, 15, 0, 200_000_000),
    (4, 12, 15, 0, 200_000_000),
    (2, 16, 19, 0, 10_000_000),
    (3, 16, 19, 0, 10_000_000),
    (4, 16, 19, 0, 500_000),
    (2, 20, 23, 0, 1_000_000),
    (3, 20, 23, 0, 1_000_000),
    (4, 20, 23, 0, 50_000),
    (5, 4, 7, 1, 1_000_000),
    (6, 8, 11, 0, 200_000_000),
    (7, 8, 11, 0, 200_000_000),
    (8, 8, 11, 0, 100_000_000),
];

#[test]
fn ranges() {
    for (number, first, last, low, high) in RANGES {
        assert_eq!(with(number, first, last, low), (0, 0), "{number} {first}");
        assert_eq!(with(number, first, last, high), (0, 0), "{number} {first}");
        for bad in [low.wrapping_sub(1), high + 1, u64::MAX] {
            assert_eq!(
                with(number, first, last, bad),
                (7, number as u64),
                "{number} {first}"
            );
        }
    }
}

#[test]
fn small_fields() {
    for side in [0, 3, 255] {
        assert_eq!(with(5, 1, 1, side), (7, 5));
    }
    for traded in [2, 255] {
        assert_eq!(with(6, 12, 12, traded), (7, 6));
    }
    for product in [0, 4, 255] {
        assert_eq!(with(2, 1, 1, product), (7, 2));
    }
    // A carried position has contracted price 0.
    assert_eq!(with(5, 8, 11, 1), (7, 5));
    assert_eq!(with(6, 12, 12, 0), (7, 6));
}

#[test]
fn points() {
    for (points, wanted) in [(3, 0), (201, 0), (1, 7), (203, 7), (2, 7), (200, 7), (0, 7)] {
        let mut records = sound();
        put(&mut records[0], 4, 5, points);
        put(&mut records[1], 4, 5, points);
        assert_eq!(given(&records), (wanted, 0));
    }
    assert_eq!((with(1, 4, 5, 33), with(1, 4, 5, 29)), ((8, 1), (8, 1)));
    assert_eq!((with(1, 4, 5, 32), with(0, 4, 5, 33)), ((7, 1), (8, 1)));
}

#[test]
fn buffers() {
    let book = sound().concat();
    for (rows, choice, code, place) in [
        (62, 5, 0, 0),
        (61, 5, 9, 9),
        (62, 4, 10, 9),
        (61, 4, 9, 9),
        (0, 0, 9, 9),
        (99, 99, 0, 0),
    ] {
        let outcome = second::run(&book, rows, choice);
        assert_eq!((outcome.code, outcome.place), (code, place));
    }
    assert_eq!(second::run(&[], 0, 0).answer(), [0; 5]);
}

/// In one record the lower code wins; of two records the first does.
#[test]
fn which_comes_first() {
    let mut records = sound();
    put(&mut records[1], 4, 5, 33);
    put(&mut records[4], 31, 31, 1);
    assert_eq!(given(&records), (8, 1));
    put(&mut records[1], 6, 7, 10_001);
    assert_eq!(given(&records), (7, 1));
    put(&mut records[1], 2, 3, 1);
    assert_eq!(given(&records), (6, 1));
    put(&mut records[1], 1, 1, 1);
    assert_eq!(given(&records), (5, 1));
    put(&mut records[1], 0, 0, 0);
    assert_eq!(given(&records), (2, 1));
    put(&mut records[0], 6, 7, 10_001);
    assert_eq!(given(&records), (7, 0));
}

fn words(records: &[Record]) -> String {
    second::complaint(&records.concat())
}

/// Record, byte and value that spoil the sound book, and the words for it.
const SPOILT: [(usize, usize, u64, &str); 9] = [
    (3, 0, 99, "3, of no kind: its letter is not C, I or P"),
    (
        0,
        0,
        80,
        "0, a position: what it names does not stand before it",
    ),
    (1, 8, 1, "1, a class: a reserved byte is not zero"),
    (4, 31, 1, "4, an instrument: a reserved byte is not zero"),
    (8, 13, 1, "8, a position: a reserved byte is not zero"),
    (
        2,
        2,
        2,
        "2, an instrument: what it names does not stand before it",
    ),
    (7, 1, 3, "7, a position: a field is out of its range"),
    (1, 4, 33, "1, a class: its points differ from class 0's"),
    (2, 0, 67, "2, a class: a reserved byte is not zero"),
];

#[test]
fn complaints() {
    assert_eq!(words(&sound()), "");
    assert_eq!(second::complaint(&[]), "");
    let torn = [&sound().concat()[..], &[0; 31]].concat();
    let length = "a book of 9 whole records: the length is not a multiple of 32 bytes\n";
    assert_eq!(second::complaint(&torn), length);
    for (number, at, value, wanted) in SPOILT {
        let mut records = sound();
        put(&mut records[number], at, at, value);
        assert_eq!(words(&records), format!("record {wanted}\n"));
    }
}

/// Order and number of records, in words, and the two codes that a listing never has.
#[test]
fn complaints_of_order_and_number() {
    let mut records = sound();
    records.push(records[2]);
    let order = "record 9, an instrument: it comes after a record of a later kind\n";
    assert_eq!(words(&records), order);
    for (letter, from, last, kind) in [(0, 0, 24, "a class"), (2, 2, 66, "an instrument")] {
        let copy = sound()[letter];
        let mut records = sound();
        records.splice(from..from, vec![copy; 70]);
        let number = format!("record {last}, {kind}: one more than a book may have of its kind\n");
        assert_eq!(words(&records), number);
    }
    let rows = "a book of 9 whole records: the rows buffer is too short\n";
    assert_eq!(second::in_words(&sound().concat(), 9, 9), rows);
    let choice = "a book of 9 whole records: the choice buffer is too short\n";
    assert_eq!(second::in_words(&sound().concat(), 10, 9), choice);
}

/// The second program's own listing program: both outputs, and the status after the listing.
#[test]
fn listing_status() {
    let program = env!("CARGO_BIN_EXE_second_listing");
    let words = ["/bin/sh", "-c", "\"$0\"; echo $?", program];
    let book = sound().concat();
    for (book, status) in [(&book[..], 0), (&book[..33], 1)] {
        let printed = child(&words, book).expect("it was started");
        let wanted = format!("{}{status}\n", second::listing(book));
        assert_eq!(printed.text, wanted.as_bytes());
        assert_eq!(printed.complaint, second::complaint(book).as_bytes());
    }
}
