//! Each code with its line, torn lengths, and every book that is one byte off.

mod books;

use std::error::Error;
use std::io;

use books::{bond, changed, class, example, position, sound, Record, ROOT};
use desk::Kind::{Class, Instrument, Position};
use desk::{lent, Kind};

/// Both calls refuse the book so.
#[track_caller]
fn refused(book: &[u8], code: u64, place: u64, kind: Option<Kind>, line: &str) {
    let refusal = desk::run(book).expect_err(line);
    assert_eq!((refusal.code(), refusal.place()), (code, place), "{line}");
    assert_eq!(refusal.kind(), kind, "{line}");
    assert_eq!(refusal.to_string(), line);
    assert_eq!(lent::run(book, &mut [0; 99], &mut [0; 99]), Err(refusal));
}

/// The sound book with a record put in.
fn with(number: usize, record: Record) -> Vec<u8> {
    let mut records = sound();
    records.insert(number, record);
    records.concat()
}

#[test]
fn letters() {
    let line = "record 3, of no kind: its letter is not C, I or P";
    for letter in [0, b'B', b'c', 255] {
        refused(&changed(3, 0, letter), 2, 3, None, line);
    }
}

#[test]
fn order() {
    let line = "record 4, a class: it comes after a record of a later kind";
    refused(&with(4, class(ROOT, 3, 0)), 3, 4, Some(Class), line);
    let line = "record 5, an instrument: it comes after a record of a later kind";
    refused(&with(5, bond(0, 0, 0)), 3, 5, Some(Instrument), line);
}

#[test]
fn fields() {
    let line = "record 5, a position: a reserved byte is not zero";
    refused(&changed(5, 31, 1), 5, 5, Some(Position), line);
    let line = "record 3, an instrument: what it names does not stand before it";
    refused(&changed(3, 2, 2), 6, 3, Some(Instrument), line);
    let line = "record 4, a position: a field is out of its range";
    refused(&changed(4, 1, 3), 7, 4, Some(Position), line);
    let line = "record 1, a class: its points differ from class 0's";
    refused(&changed(1, 4, 5), 8, 1, Some(Class), line);
}

/// A book of so many classes, instruments and positions, of so many points.
fn book_of(classes: usize, instruments: usize, positions: usize, points: usize) -> Vec<u8> {
    let classes = vec![class(ROOT, points as u16, 10_000); classes];
    let instruments = vec![bond(0, 0, 0); instruments];
    let positions = vec![position(1, 0, 1); positions];
    [classes, instruments, positions].concat().concat()
}

#[test]
fn one_more_than_the_limits() {
    let line = "record 24, a class: one more than a book may have of its kind";
    refused(
        &book_of(desk::MOST_CLASSES + 1, 0, 0, 3),
        4,
        24,
        Some(Class),
        line,
    );
    let line = "record 65, an instrument: one more than a book may have of its kind";
    refused(
        &book_of(1, desk::MOST_INSTRUMENTS + 1, 0, 3),
        4,
        65,
        Some(Instrument),
        line,
    );
    let line = "record 258, a position: one more than a book may have of its kind";
    refused(
        &book_of(1, 1, desk::MOST_POSITIONS + 1, 3),
        4,
        258,
        Some(Position),
        line,
    );
    let line = "record 0, a class: a field is out of its range";
    refused(
        &book_of(1, 0, 0, desk::MOST_POINTS + 2),
        7,
        0,
        Some(Class),
        line,
    );
}

#[test]
fn the_limits() -> Result<(), desk::Refusal> {
    let (classes, instruments) = (desk::MOST_CLASSES, desk::MOST_INSTRUMENTS);
    let book = book_of(
        classes,
        instruments,
        desk::MOST_POSITIONS,
        desk::MOST_POINTS,
    );
    let figures = desk::run(&book)?;
    assert_eq!(figures.points(), desk::MOST_POINTS);
    assert_eq!(
        (figures.classes(), figures.instruments()),
        (classes, instruments)
    );
    Ok(())
}

/// Lent buffers of these lengths are too short for the sound book, and stay as they were.
#[track_caller]
fn too_short(rows_len: usize, choice_len: usize, code: u64, line: &str) {
    let (mut rows, mut choice) = (vec![7; rows_len], vec![7; choice_len]);
    let refusal = lent::run(&sound().concat(), &mut rows, &mut choice).expect_err(line);
    assert_eq!((refusal.code(), refusal.place()), (code, 6));
    assert_eq!(refusal.kind(), None);
    assert_eq!(refusal.to_string(), line);
    assert_eq!((rows, choice), (vec![7; rows_len], vec![7; choice_len]));
}

/// Two classes of 3 points and two instruments ask for 6 rows' entries and a choice of 4.
#[test]
fn short_buffers() {
    let line = "a book of 6 whole records: the rows buffer is too short";
    too_short(5, 4, 9, line);
    too_short(0, 0, 9, line);
    let line = "a book of 6 whole records: the choice buffer is too short";
    too_short(6, 3, 10, line);
    too_short(99, 0, 10, line);
    assert!(lent::run(&sound().concat(), &mut [0; 6], &mut [0; 4]).is_ok());
}

#[test]
fn torn_lengths() {
    let book = sound().concat();
    let meaning = "the length is not a multiple of 32 bytes";
    for len in (0..book.len()).filter(|len| len % desk::RECORD != 0) {
        let whole = len / desk::RECORD;
        let line = format!("a book of {whole} whole records: {meaning}");
        refused(&book[..len], 1, whole as u64, None, &line);
    }
}

#[test]
fn the_empty_book() -> Result<(), desk::Refusal> {
    let figures = desk::run(&[])?;
    assert_eq!(figures.totals(), desk::Totals::default());
    assert_eq!((figures.classes(), figures.instruments()), (0, 0));
    assert_eq!(figures.points(), 0);
    assert_eq!((figures.row(0), figures.rows().next()), (None, None));
    assert_eq!(lent::run(&[], &mut [], &mut []), Ok(figures.totals()));
    Ok(())
}

/// Every book that is one byte off the guide's ends in figures of the same shape, or in a refusal
/// of a record that it has.
#[test]
fn one_byte_off() -> io::Result<()> {
    let guide = example("guide.book")?;
    let mut codes = [0; 9];
    for case in 0..guide.len() * 255 {
        let mut book = guide.clone();
        let byte = &mut book[case / 255];
        *byte = byte.wrapping_add(1 + (case % 255) as u8);
        let code = match desk::run(&book) {
            Ok(figures) => {
                assert_eq!((figures.classes(), figures.instruments()), (1, 2));
                assert_eq!(figures.row(0).map(<[i64]>::len), Some(figures.points()));
                0
            }
            Err(refusal) => {
                assert!(refusal.place() < 5, "{refusal}");
                refusal.code()
            }
        };
        codes[code as usize] += 1;
    }
    // one byte reaches neither a count's limit nor the points of a second class
    assert!(
        [0, 2, 3, 5, 6, 7].iter().all(|code| codes[*code] > 0),
        "{codes:?}"
    );
    Ok(())
}

/// A refusal goes through `?` into any error.
#[test]
fn an_error_like_any_other() {
    fn cross(book: &[u8]) -> Result<i64, Box<dyn Error>> {
        Ok(desk::run(book)?.totals().cross)
    }
    let line = "a book of 0 whole records: the length is not a multiple of 32 bytes";
    assert_eq!(
        cross(b"C").map_err(|why| why.to_string()).err().as_deref(),
        Some(line)
    );
}
