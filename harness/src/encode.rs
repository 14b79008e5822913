//! Records written from their fields.

use crate::record::{Kind, RECORD};

pub type Record = [u8; RECORD];

pub fn put(record: &mut [u8], first: usize, last: usize, value: u64) {
    for (k, byte) in record[first..=last].iter_mut().enumerate() {
        *byte = (value >> (8 * k)) as u8;
    }
}

pub fn class(parent: u64, points: u64, share: u64) -> Record {
    let mut record = [0; RECORD];
    record[0] = Kind::Class.letter();
    put(&mut record, 2, 3, parent);
    put(&mut record, 4, 5, points);
    put(&mut record, 6, 7, share);
    record
}

/// The four amounts are fixing today, fixing before, Par and Adj.
pub fn instrument(product: u64, class: u64, days: u64, amounts: [u64; 4]) -> Record {
    let mut record = [0; RECORD];
    record[0] = Kind::Instrument.letter();
    put(&mut record, 1, 1, product);
    put(&mut record, 2, 3, class);
    put(&mut record, 4, 5, days);
    for (k, amount) in amounts.into_iter().enumerate() {
        put(&mut record, 8 + 4 * k, 11 + 4 * k, amount);
    }
    record
}

pub fn position(side: u64, instrument: u64, quantity: u64, price: u64, traded: u64) -> Record {
    let mut record = [0; RECORD];
    record[0] = Kind::Position.letter();
    put(&mut record, 1, 1, side);
    put(&mut record, 2, 3, instrument);
    put(&mut record, 4, 7, quantity);
    put(&mut record, 8, 11, price);
    put(&mut record, 12, 12, traded);
    record
}

/// The book after the guide's example: one root, 31 points, a window of 40 %.
pub fn example() -> Vec<u8> {
    [
        class(65_535, 31, 4000),
        instrument(1, 0, 91, [3_700_000, 3_690_000, 400_000, 20_000]),
        instrument(1, 0, 91, [3_800_000, 3_800_000, 400_000, 20_000]),
        position(1, 0, 1000, 0, 0),
        position(2, 1, 700, 0, 0),
    ]
    .concat()
}
