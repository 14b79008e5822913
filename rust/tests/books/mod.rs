//! Books for the tests: records from their fields, and the project's examples.

// each test file takes what it needs
#![allow(dead_code)]

use std::path::PathBuf;
use std::{fs, io};

pub type Record = [u8; desk::RECORD];

/// No parent: a root.
pub const ROOT: u16 = 65_535;

/// A record of bytes at places, all others zero.
fn record(fields: &[(usize, &[u8])]) -> Record {
    let mut record = [0; desk::RECORD];
    for (at, bytes) in fields {
        record[*at..at + bytes.len()].copy_from_slice(bytes);
    }
    record
}

pub fn class(parent: u16, points: u16, share: u16) -> Record {
    record(&[
        (0, b"C"),
        (2, &parent.to_le_bytes()),
        (4, &points.to_le_bytes()),
        (6, &share.to_le_bytes()),
    ])
}

/// A mortgage bond future; the fixings of today and before, in millionths of a price point.
pub fn bond(class: u16, today: u32, before: u32) -> Record {
    record(&[
        (0, b"I\x03"),
        (2, &class.to_le_bytes()),
        (8, &today.to_le_bytes()),
        (12, &before.to_le_bytes()),
        (16, &30_000_u32.to_le_bytes()),
        (20, &1_000_u32.to_le_bytes()),
    ])
}

/// A carried position.
pub fn position(side: u8, instrument: u16, quantity: u32) -> Record {
    record(&[
        (0, &[b'P', side]),
        (2, &instrument.to_le_bytes()),
        (4, &quantity.to_le_bytes()),
    ])
}

/// Two classes of 3 points, the second in the first; an instrument in each; a position in each.
pub fn sound() -> Vec<Record> {
    vec![
        class(ROOT, 3, 0),
        class(0, 3, 0),
        bond(0, 100_000_000, 99_000_000),
        bond(1, 100_000_000, 100_000_000),
        position(1, 0, 2),
        position(2, 1, 1),
    ]
}

/// The sound book with one byte of one record changed.
pub fn changed(number: usize, at: usize, byte: u8) -> Vec<u8> {
    let mut records = sound();
    records[number][at] = byte;
    records.concat()
}

/// The project's examples: name, book, listing.
pub fn examples() -> io::Result<Vec<(String, Vec<u8>, String)>> {
    let folder = PathBuf::from(env!("CARGO_MANIFEST_DIR")).join("../examples");
    let mut found = Vec::new();
    for entry in fs::read_dir(folder)? {
        let path = entry?.path();
        if path.extension().is_some_and(|end| end == "book") {
            let listing = fs::read_to_string(path.with_extension("listing"))?;
            found.push((path.display().to_string(), fs::read(&path)?, listing));
        }
    }
    Ok(found)
}

pub fn example(name: &str) -> io::Result<Vec<u8>> {
    fs::read(
        PathBuf::from(env!("CARGO_MANIFEST_DIR"))
            .join("../examples")
            .join(name),
    )
}
