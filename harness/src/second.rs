//! The second program: the margin calculation in its plainest form.

use std::cmp::Ordering;

use crate::ore::Ore;
use crate::record::{decode, form, Book, Instrument, Position, Refusal, RECORD};

#[derive(Clone, Debug, Default, PartialEq, Eq)]
pub struct Outcome {
    pub code: u64,
    pub place: u64,
    pub mark: i64,
    pub naked: i64,
    pub cross: i64,
    pub rows: Vec<i64>,
    pub choice: Vec<u16>,
}

impl Outcome {
    fn refused(code: u64, place: u64) -> Outcome {
        Outcome {
            code,
            place,
            ..Outcome::default()
        }
    }

    pub fn answer(&self) -> [i64; 5] {
        [
            self.code as i64,
            self.place as i64,
            self.mark,
            self.naked,
            self.cross,
        ]
    }

    /// Writes the lent buffers; a refusal has nothing to write.
    pub fn write(&self, rows: &mut [i64], choice: &mut [u16]) -> [i64; 5] {
        rows[..self.rows.len()].copy_from_slice(&self.rows);
        choice[..self.choice.len()].copy_from_slice(&self.choice);
        self.answer()
    }
}

pub fn run(bytes: &[u8], rows_len: usize, choice_len: usize) -> Outcome {
    let whole = (bytes.len() / RECORD) as u64;
    let book = match decode(bytes) {
        Ok(book) => book,
        Err(Refusal { code, place }) => return Outcome::refused(code, place),
    };
    if rows_len < book.rows_len() {
        return Outcome::refused(9, whole);
    }
    if choice_len < book.choice_len() {
        return Outcome::refused(10, whole);
    }
    accepted(&book)
}

fn accepted(book: &Book) -> Outcome {
    let vectors = vectors(book);
    let rows = class_rows(book, &vectors);
    Outcome {
        code: 0,
        place: 0,
        mark: marks(book).number(),
        naked: naked(&vectors).number(),
        cross: cross(book, &rows).number(),
        rows: rows.concat().into_iter().map(Ore::number).collect(),
        choice: choice(book, &rows, &vectors),
    }
}

fn marks(book: &Book) -> Ore {
    let mut marks = Ore::ZERO;
    for position in &book.positions {
        marks += mark_to_market(position, &book.instruments[position.instrument]);
    }
    marks
}

fn naked(vectors: &[Vec<Ore>]) -> Ore {
    let mut naked = Ore::ZERO;
    for vector in vectors {
        naked += lowest_entry(vector);
    }
    naked
}

/// The sum of the roots' lowest results.
fn cross(book: &Book, rows: &[Vec<Ore>]) -> Ore {
    let mut cross = Ore::ZERO;
    for (number, class) in book.classes.iter().enumerate() {
        if class.parent.is_none() {
            cross += lowest_entry(&rows[number]);
        }
    }
    cross
}

/// To the nearest whole number, halves away from zero: of the whole numbers on either side the nearer one, of two equally
/// near ones the farther from zero.
pub fn rounded(numerator: i128, denominator: i128) -> i128 {
    let below = numerator.div_euclid(denominator);
    let above = below + 1;
    let past_below = numerator - below * denominator;
    let short_of_above = above * denominator - numerator;
    match past_below.cmp(&short_of_above) {
        Ordering::Less => below,
        Ordering::Greater => above,
        Ordering::Equal if above.abs() > below.abs() => above,
        Ordering::Equal => below,
    }
}

fn signed(position: &Position) -> i128 {
    position.quantity * if position.sold { -1 } else { 1 }
}

/// Bought less sold quantity.
pub fn net(book: &Book, item: usize) -> i128 {
    let mut net = 0;
    for position in &book.positions {
        if position.instrument == item {
            net += signed(position);
        }
    }
    net
}

pub fn amount(instrument: &Instrument, net: i128, points: usize, point: usize) -> Ore {
    if net == 0 {
        return Ore::ZERO;
    }
    let m = points as i128 - 1;
    let s = instrument.par * (2 * point as i128 - m);
    let turned = if net > 0 { s } else { -s };
    // Both sides lose the adjustment.
    let adjustment = instrument.adj * m;
    let one = match instrument.product {
        1 => rounded((turned - adjustment) * instrument.days, 360 * m),
        // A future bought gains where the yield falls: the turn is the other way.
        2 => 25 * rounded(-turned - adjustment, 100 * m),
        _ => rounded(instrument.today * (turned - adjustment), 1_000_000 * m),
    };
    Ore::whole(one * net.abs())
}

pub fn mark_to_market(position: &Position, instrument: &Instrument) -> Ore {
    let from = if position.traded_today {
        position.price
    } else {
        instrument.before
    };
    let d = instrument.today - from;
    let one = match instrument.product {
        1 => rounded(d * instrument.days, 360),
        2 => rounded(d, 4),
        _ => d,
    };
    Ore::whole(one * signed(position))
}

/// The smallest odd number not below share times points / 10,000.
pub fn width(share: u64, points: usize) -> usize {
    let mut width = 1;
    while (width as u64) * 10_000 < share * points as u64 {
        width += 2;
    }
    width
}

pub fn reach(book: &Book, class: usize) -> usize {
    width(book.classes[class].share, book.points()) / 2
}

/// Each instrument's amounts, point by point.
pub fn vectors(book: &Book) -> Vec<Vec<Ore>> {
    let mut vectors = Vec::new();
    for (item, instrument) in book.instruments.iter().enumerate() {
        let net = net(book, item);
        let points = book.points();
        vectors.push(
            (0..points)
                .map(|point| amount(instrument, net, points, point))
                .collect(),
        );
    }
    vectors
}

/// First and last point within reach; points off the scale don't exist.
pub fn window(point: usize, reach: usize, points: usize) -> (usize, usize) {
    let first = point.saturating_sub(reach);
    let last = (point + reach).min(points - 1);
    (first, last)
}

pub fn lowest_entry(entries: &[Ore]) -> Ore {
    let mut lowest = entries[0];
    for &entry in entries {
        if entry < lowest {
            lowest = entry;
        }
    }
    lowest
}

/// The lowest-numbered point with the lowest entry from first to last.
pub fn lowest_point(entries: &[Ore], first: usize, last: usize) -> usize {
    let mut lowest = first;
    for point in first..=last {
        if entries[point] < entries[lowest] {
            lowest = point;
        }
    }
    lowest
}

/// One row a class; a child has the larger number, so the last class goes first.
fn class_rows(book: &Book, vectors: &[Vec<Ore>]) -> Vec<Vec<Ore>> {
    let mut rows = vec![vec![Ore::ZERO; book.points()]; book.classes.len()];
    for class in (0..book.classes.len()).rev() {
        let reach = reach(book, class);
        for point in 0..book.points() {
            let seen = window(point, reach, book.points());
            rows[class][point] = result(book, &rows, vectors, class, seen);
        }
    }
    rows
}

/// The sum of each child's lowest entry in the window seen from a point.
fn result(
    book: &Book,
    rows: &[Vec<Ore>],
    vectors: &[Vec<Ore>],
    class: usize,
    (first, last): (usize, usize),
) -> Ore {
    let mut sum = Ore::ZERO;
    for (child, row) in rows.iter().enumerate() {
        if book.classes[child].parent == Some(class) {
            sum += lowest_entry(&row[first..=last]);
        }
    }
    for (item, vector) in vectors.iter().enumerate() {
        if book.instruments[item].class == class {
            sum += lowest_entry(&vector[first..=last]);
        }
    }
    sum
}

/// One point a class, then one an instrument; parents choose before children.
fn choice(book: &Book, rows: &[Vec<Ore>], vectors: &[Vec<Ore>]) -> Vec<u16> {
    let mut choice: Vec<usize> = Vec::new();
    for (number, class) in book.classes.iter().enumerate() {
        choice.push(match class.parent {
            None => lowest_point(&rows[number], 0, book.points() - 1),
            Some(parent) => child_point(book, parent, choice[parent], &rows[number]),
        });
    }
    for (item, instrument) in book.instruments.iter().enumerate() {
        let parent = instrument.class;
        choice.push(child_point(book, parent, choice[parent], &vectors[item]));
    }
    choice.into_iter().map(|point| point as u16).collect()
}

fn child_point(book: &Book, parent: usize, parent_point: usize, entries: &[Ore]) -> usize {
    let (first, last) = window(parent_point, reach(book, parent), book.points());
    lowest_point(entries, first, last)
}

/// The instrument's amount at a point; none if refused or not there.
pub fn amount_at(bytes: &[u8], item: usize, point: usize) -> Option<i64> {
    let book = decode(bytes).ok()?;
    let instrument = book.instruments.get(item)?;
    if point >= book.points() {
        return None;
    }
    let there = amount(instrument, net(&book, item), book.points(), point);
    Some(there.number())
}

/// Kroner with two decimals, "-" before negatives only.
pub fn kroner(ore: i64) -> String {
    let sign = if ore < 0 { "-" } else { "" };
    let size = ore.unsigned_abs();
    format!("{sign}{}.{:02}", size / 100, size % 100)
}

/// The evening listing, with buffers always long enough.
pub fn listing(bytes: &[u8]) -> String {
    let outcome = run(bytes, usize::MAX, usize::MAX);
    if outcome.code != 0 {
        return format!("REFUSED {} {}\n", outcome.code, outcome.place);
    }
    let mut text = format!("MTM {}\n", kroner(outcome.mark));
    text += &format!("NAKED {}\n", kroner(outcome.naked));
    text += &format!("CROSS {}\n", kroner(outcome.cross));
    let classes = decode(bytes).map_or(0, |book| book.classes.len());
    for (number, &point) in outcome.choice.iter().enumerate() {
        if number < classes {
            text += &format!("CLASS {number} {point}\n");
        } else {
            let item = number - classes;
            let there = amount_at(bytes, item, point as usize).unwrap_or(0);
            text += &format!("ITEM {item} {point} {}\n", kroner(there));
        }
    }
    text
}

/// What each code means; the paper's table, in words.
const MEANINGS: [(u64, &str); 10] = [
    (1, "the length is not a multiple of 32 bytes"),
    (2, "its letter is not C, I or P"),
    (3, "it comes after a record of a later kind"),
    (4, "one more than a book may have of its kind"),
    (5, "a reserved byte is not zero"),
    (6, "what it names does not stand before it"),
    (7, "a field is out of its range"),
    (8, "its points differ from class 0's"),
    (9, "the rows buffer is too short"),
    (10, "the choice buffer is too short"),
];

/// The listing's line on standard error: the refusal in words, or nothing for an accepted book.
pub fn complaint(bytes: &[u8]) -> String {
    let outcome = run(bytes, usize::MAX, usize::MAX);
    in_words(bytes, outcome.code, outcome.place)
}

/// A code and place in words, with a line feed; nothing for code 0.
pub fn in_words(bytes: &[u8], code: u64, place: u64) -> String {
    if code == 0 {
        return String::new();
    }
    let entry = MEANINGS.iter().find(|(known, _)| *known == code);
    let (_, meaning) = entry.expect("each code has its meaning");
    // The place of these is no record but their number.
    if [1, 9, 10].contains(&code) {
        return format!("a book of {place} whole records: {meaning}\n");
    }
    let letter = bytes[place as usize * RECORD];
    let kind = form(letter).map_or("of no kind", |form| form.words);
    format!("record {place}, {kind}: {meaning}\n")
}
