//! Damage done to a sound book: one fault or more.

use crate::encode::{self, put};
use crate::random::Random;
use crate::record::{
    field, form, limits, number_named, Form, Kind, KINDS, RECORD, REFERENCE, ROOT,
};

pub fn damage(random: &mut Random, book: &mut Vec<u8>) {
    // Two faults in one book show which refusal comes first.
    let faults = random.pick(&[1, 1, 1, 1, 1, 2, 2, 3]);
    for _ in 0..faults {
        one_fault(random, book);
    }
}

fn one_fault(random: &mut Random, book: &mut Vec<u8>) {
    if book.len() < RECORD {
        return length(random, book);
    }
    match random.below(18) {
        0 => flip(random, book),
        1 => swap(random, book),
        2 | 3 => many(random, book),
        4..=6 => edge(random, book),
        7 => length(random, book),
        8 | 9 => reserved(random, book),
        10 | 11 => reference(random, book),
        12 | 13 => points(random, book),
        14 => small_field(random, book),
        15 | 16 => misplaced(random, book),
        _ => letter(random, book),
    }
}

/// The numbers of the records of a kind.
fn of_kind(book: &[u8], kind: Kind) -> Vec<usize> {
    let records = book.chunks_exact(RECORD).enumerate();
    records
        .filter(|(_, record)| record[0] == kind.letter())
        .map(|(number, _)| number)
        .collect()
}

/// A record of no kind is damaged further as a position would be.
fn form_of(book: &[u8], number: usize) -> &'static Form {
    form(book[number * RECORD]).unwrap_or(Kind::Position.form())
}

fn record(book: &mut [u8], number: usize) -> &mut [u8] {
    &mut book[number * RECORD..(number + 1) * RECORD]
}

fn any_record(random: &mut Random, book: &[u8]) -> usize {
    random.below((book.len() / RECORD) as u64) as usize
}

fn flip(random: &mut Random, book: &mut [u8]) {
    let at = random.below(book.len() as u64) as usize;
    book[at] ^= if random.chance(50) {
        1 << random.below(8)
    } else {
        random.between(1, 255) as u8
    };
}

fn swap(random: &mut Random, book: &mut [u8]) {
    let (one, other) = (any_record(random, book), any_record(random, book));
    for at in 0..RECORD {
        book.swap(one * RECORD + at, other * RECORD + at);
    }
}

/// A record copied to another place, most often behind a later kind.
fn misplaced(random: &mut Random, book: &mut Vec<u8>) {
    let from = any_record(random, book);
    let to = random.between(from as u64, (book.len() / RECORD) as u64) as usize;
    let copy = record(book, from).to_vec();
    book.splice(to * RECORD..to * RECORD, copy);
}

/// Records of one kind up to the limit, or past it.
fn many(random: &mut Random, book: &mut Vec<u8>) {
    let form = random.pick(&KINDS.each_ref());
    let wanted = form.most + random.pick(&[0, 1, 1, 2, 130]);
    let there = of_kind(book, form.kind);
    let Some(&last) = there.last() else {
        return;
    };
    let copy = record(book, last).to_vec();
    let more = copy.repeat((wanted - there.len().min(wanted)).min(400));
    let end = (last + 1) * RECORD;
    book.splice(end..end, more);
}

/// First and last byte of a field, and its lowest and highest value.
type Field = (usize, usize, u64, u64);

fn fields(book: &[u8], kind: Kind, number: usize) -> Vec<Field> {
    let record = &book[number * RECORD..(number + 1) * RECORD];
    match kind {
        Kind::Class => vec![(4, 5, 3, 201), (6, 7, 0, 10_000)],
        Kind::Instrument => {
            let Some(limits) = limits(field(record, 1, 1)) else {
                return vec![(1, 1, 1, 3)];
            };
            vec![
                (1, 1, 1, 3),
                (4, 5, limits.days.0, limits.days.1),
                (8, 11, 0, limits.price),
                (12, 15, 0, limits.price),
                (16, 19, 0, limits.par),
                (20, 23, 0, limits.adj),
            ]
        }
        Kind::Position => vec![
            (1, 1, 1, 2),
            (4, 7, 1, 1_000_000),
            (8, 11, 0, highest_price(book, record)),
            (12, 12, 0, 1),
        ],
    }
}

/// The end of the contracted price depends on the instrument's product.
fn highest_price(book: &[u8], position: &[u8]) -> u64 {
    let instruments = of_kind(book, Kind::Instrument);
    let named = number_named(position) as usize;
    let product = instruments
        .get(named)
        .map_or(2, |&number| u64::from(book[number * RECORD + 1]));
    limits(product).map_or(200_000_000, |limits| limits.price)
}

/// One field at either end, one past either end, or with its high bits set.
fn edge(random: &mut Random, book: &mut [u8]) {
    use Kind::{Class, Instrument, Position};
    let kind = random.pick(&[Class, Instrument, Instrument, Position, Position]);
    let there = of_kind(book, kind);
    if there.is_empty() {
        return;
    }
    let number = random.pick(&there);
    let (first, last, low, high) = random.pick(&fields(book, kind, number));
    let top = 1u64 << (8 * (last - first + 1) - 1);
    let value = match random.below(8) {
        0 => low,
        1 => high,
        2 | 3 => low.wrapping_sub(1),
        4 | 5 => high + 1,
        6 => high | top,
        _ => u64::MAX,
    };
    let record = record(book, number);
    put(record, first, last, value);
    // A contracted price at its end needs a position traded today.
    if kind == Position && first == 8 && random.chance(80) {
        put(record, 12, 12, 1);
    }
}

/// Cut or drawn out, mostly so that no whole number of records is left.
fn length(random: &mut Random, book: &mut Vec<u8>) {
    let whole = book.len() / RECORD;
    let odd = random.between(1, 31) as usize;
    match random.below(5) {
        0 => book.truncate(book.len().saturating_sub(odd)),
        1 => book.truncate(random.below(book.len() as u64 + 1) as usize),
        2 => book.resize(book.len() + odd, 0),
        3 => book.truncate(random.below(whole as u64 + 1) as usize * RECORD),
        _ => {
            let records = random.pick(&[1, 2, 345, 346, 400, 3000]);
            let position = encode::position(1, 0, 1, 0, 0);
            book.extend(position.repeat(records));
            if random.chance(50) {
                book.push(Kind::Position.letter());
            }
        }
    }
}

fn reserved(random: &mut Random, book: &mut [u8]) {
    let number = any_record(random, book);
    let runs = form_of(book, number).reserved.iter();
    let bytes: Vec<usize> = runs.flat_map(|&(first, last)| first..=last).collect();
    let ends = [bytes[0], bytes[1], bytes[2], bytes[bytes.len() - 1]];
    let at = if random.chance(50) {
        random.pick(&ends)
    } else {
        random.pick(&bytes)
    };
    record(book, number)[at] = random.pick(&[1, 128, 255]);
}

fn reference(random: &mut Random, book: &mut [u8]) {
    let number = any_record(random, book);
    let names = form_of(book, number).names;
    let named = of_kind(book, names);
    // A class may not name itself.
    let itself = named.iter().position(|&class| class == number);
    let end = itself.unwrap_or(named.len()) as u64;
    let beyond = random.between(end, end + 3);
    let named = random.pick(&[end, end, beyond, 65_534, ROOT, end + 256]);
    put(record(book, number), REFERENCE.0, REFERENCE.1, named);
}

/// Points that differ in one class, or points at and past their ends in all.
fn points(random: &mut Random, book: &mut [u8]) {
    let classes = of_kind(book, Kind::Class);
    if classes.is_empty() {
        return;
    }
    let old = field(record(book, classes[0]), 4, 5);
    if random.chance(85) {
        let near = if old < 100 { old + 2 } else { old - 2 };
        let value = random.pick(&[near, near, near, 3, 201, old + 1, old + 256]);
        let number = random.pick(&classes);
        return put(record(book, number), 4, 5, value);
    }
    let value = random.pick(&[1, 2, 3, 4, 200, 202, 203, 257, 259]);
    for number in classes {
        put(record(book, number), 4, 5, value);
    }
}

/// Side, product, traded and the price of a carried position.
fn small_field(random: &mut Random, book: &mut [u8]) {
    use Kind::{Instrument, Position};
    let kind = random.pick(&[Instrument, Position, Position, Position]);
    let there = of_kind(book, kind);
    if there.is_empty() {
        return;
    }
    let number = random.pick(&there);
    let record = record(book, number);
    if kind == Instrument {
        // Another product without another days: the days decide.
        return record[1] = random.pick(&[0, 1, 2, 3, 4, 255]);
    }
    match random.below(3) {
        0 => record[1] = random.pick(&[0, 3, 255]),
        1 => record[12] = random.pick(&[2, 3, 128, 255]),
        _ => {
            record[12] = 0;
            put(
                record,
                8,
                11,
                random.pick(&[1, 256, 65_536, 16_777_216, 100_000_000]),
            );
        }
    }
}

/// Letters of no kind, some next to a kind's.
const NO_KIND: [u8; 7] = [0, b'c', b'i', b'D', b'Q', b'B', 255];

/// A letter of no kind, or that of another kind.
fn letter(random: &mut Random, book: &mut [u8]) {
    let number = any_record(random, book);
    let mut letters = NO_KIND.to_vec();
    letters.extend(KINDS.iter().map(|form| form.letter));
    record(book, number)[0] = random.pick(&letters);
}
