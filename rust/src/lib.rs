//! The evening margin desk's figures for Rust: how much collateral a book of positions asks for.
//!
//! [`run`] takes a book, records of 32 bytes, and gives its [`Figures`] or a numbered [`Refusal`].
//! Any bytes may be handed in: nothing is to be checked first, nothing panics, and calls from
//! several threads need nothing between them. Amounts are whole øre, a loss is negative, and
//! [`Kroner`] shows them in kroner. Callers with memory of their own lend it to [`lent::run`].
//!
//! The calculation is the static library `libdesk.a`, which is proved against its contract;
//! `tools/native` writes it into `target/native`, where this package
//! looks for it. The environment's `DESK_LIBRARY` names another folder.
//!
//! # Example
//!
//! One contract of a bond future with a nominal of a million kroner, bought at an earlier date.
//! The price is 100 today and was 99 before; the risk is 3 % either way, the adjustment 0.1 %.
//!
//! ```
//! use desk::{Kind, Kroner};
//!
//! let mut book = [0; 3 * desk::RECORD];
//! let mut put = |at: usize, bytes: &[u8]| book[at..at + bytes.len()].copy_from_slice(bytes);
//! // class 0: a root of 3 points, each reaching no further than itself
//! put(0, b"C");
//! put(2, &u16::MAX.to_le_bytes());
//! put(4, &3_u16.to_le_bytes());
//! // instrument 0: product 3, in class 0; fixing today and before, risk interval, adjustment
//! put(32, b"I\x03");
//! put(40, &100_000_000_u32.to_le_bytes());
//! put(44, &99_000_000_u32.to_le_bytes());
//! put(48, &30_000_u32.to_le_bytes());
//! put(52, &1_000_u32.to_le_bytes());
//! // position 0: bought, instrument 0, quantity 1, carried
//! put(64, b"P\x01");
//! put(68, &1_u32.to_le_bytes());
//!
//! let figures = desk::run(&book)?;
//! // 3.1 % lost at the lowest price, 0.1 % at today's, 2.9 % gained at the highest
//! assert_eq!(figures.row(0), Some(&[-3_100_000, -100_000, 2_900_000][..]));
//! assert_eq!(figures.totals().cross, -3_100_000);
//! assert_eq!(Kroner(figures.totals().cross).to_string(), "-31000.00");
//! assert_eq!(figures.totals().naked, -3_100_000);
//! // the worst case is the lowest price, point 0
//! assert_eq!((figures.class_points(), figures.instrument_points()), (&[0][..], &[0][..]));
//! // one price point up, of a million kroner
//! assert_eq!(Kroner(figures.totals().mark).to_string(), "10000.00");
//!
//! // a side that is neither bought nor sold
//! book[65] = 3;
//! let refusal = desk::run(&book).unwrap_err();
//! assert_eq!((refusal.code(), refusal.place()), (7, 2));
//! assert_eq!(refusal.kind(), Some(Kind::Position));
//! assert_eq!(refusal.to_string(), "record 2, a position: a field is out of its range");
//! # Ok::<(), desk::Refusal>(())
//! ```

#![deny(
    clippy::unwrap_used,
    clippy::expect_used,
    clippy::indexing_slicing,
    clippy::panic,
    clippy::arithmetic_side_effects,
    missing_docs,
    unsafe_code,
    unsafe_op_in_unsafe_fn
)]

mod figures;
mod kroner;
pub mod lent;
mod refusal;

pub use figures::{Figures, Totals};
pub use kroner::Kroner;
pub use refusal::{Kind, Refusal};

/// Bytes of a record.
pub const RECORD: usize = 32;
/// The most classes that a book may have.
pub const MOST_CLASSES: usize = 24;
/// The most instruments that a book may have.
pub const MOST_INSTRUMENTS: usize = 64;
/// The most positions that a book may have.
pub const MOST_POSITIONS: usize = 256;
/// The most points that a book's classes may have.
pub const MOST_POINTS: usize = 201;

/// The figures of a book, or why it is refused.
///
/// # Errors
///
/// A refusal with a code from 1 to 8, exactly when the rules say; 9 and 10 are for lent memory.
pub fn run(book: &[u8]) -> Result<Figures, Refusal> {
    let mut rows = vec![0; MOST_CLASSES * MOST_POINTS];
    let mut choice = vec![0; MOST_CLASSES + MOST_INSTRUMENTS];
    let totals = lent::run(book, &mut rows, &mut choice)?;
    Ok(Figures::cut(book, totals, rows, choice))
}
