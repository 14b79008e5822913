//! Why a book is refused.

use std::error::Error;
use std::fmt;

use crate::RECORD;

/// What a record is about.
#[derive(Clone, Copy, Debug, PartialEq, Eq, Hash)]
#[non_exhaustive]
pub enum Kind {
    /// A class, whose record begins with `C`.
    Class,
    /// An instrument, whose record begins with `I`.
    Instrument,
    /// A position, whose record begins with `P`.
    Position,
}

impl Kind {
    /// The kind of a record by its first byte; none for any other byte than the three letters.
    pub(crate) fn of(record: &[u8]) -> Option<Self> {
        match record.first() {
            Some(b'C') => Some(Self::Class),
            Some(b'I') => Some(Self::Instrument),
            Some(b'P') => Some(Self::Position),
            _ => None,
        }
    }
}

/// The kind with its article: `a class`, `an instrument`, `a position`.
impl fmt::Display for Kind {
    fn fmt(&self, to: &mut fmt::Formatter<'_>) -> fmt::Result {
        to.pad(match self {
            Self::Class => "a class",
            Self::Instrument => "an instrument",
            Self::Position => "a position",
        })
    }
}

/// A refusal by the rules' table: a code and its place.
#[derive(Clone, Copy, Debug, PartialEq, Eq, Hash)]
pub struct Refusal {
    code: u64,
    place: u64,
    kind: Option<Kind>,
}

impl Refusal {
    /// The refusal of a book, with the kind of the record at its place.
    pub(crate) fn of(book: &[u8], code: u64, place: u64) -> Self {
        let record = match code {
            2..=8 => usize::try_from(place)
                .ok()
                .and_then(|at| book.chunks_exact(RECORD).nth(at)),
            _ => None,
        };
        let kind = record.and_then(Kind::of);
        Self { code, place, kind }
    }

    /// The code, from 1 to 10.
    #[must_use]
    pub fn code(&self) -> u64 {
        self.code
    }

    /// The record's number, from 0; for codes 1, 9 and 10 how many whole records the book has.
    #[must_use]
    pub fn place(&self) -> u64 {
        self.place
    }

    /// The kind of the record at the place; none where its letter is none of the three, and for
    /// codes 1, 9 and 10, which are about the whole book.
    #[must_use]
    pub fn kind(&self) -> Option<Kind> {
        self.kind
    }

    /// The code in words.
    #[must_use]
    pub fn meaning(&self) -> &'static str {
        match self.code {
            1 => "the length is not a multiple of 32 bytes",
            2 => "its letter is not C, I or P",
            3 => "it comes after a record of a later kind",
            4 => "one more than a book may have of its kind",
            5 => "a reserved byte is not zero",
            6 => "what it names does not stand before it",
            7 => "a field is out of its range",
            8 => "its points differ from class 0's",
            9 => "the rows buffer is too short",
            10 => "the choice buffer is too short",
            _ => "a refusal that this package does not know",
        }
    }
}

/// Place and meaning in one line.
impl fmt::Display for Refusal {
    fn fmt(&self, to: &mut fmt::Formatter<'_>) -> fmt::Result {
        let (code, place, meaning) = (self.code, self.place, self.meaning());
        match (code, self.kind) {
            (2..=8, Some(kind)) => write!(to, "record {place}, {kind}: {meaning}"),
            (2..=8, None) => write!(to, "record {place}, of no kind: {meaning}"),
            (1 | 9 | 10, _) => write!(to, "a book of {place} whole records: {meaning}"),
            _ => write!(to, "code {code}, place {place}: {meaning}"),
        }
    }
}

impl Error for Refusal {}

#[cfg(test)]
mod tests {
    use super::{Kind, Refusal};

    /// A later library may know more codes than this package.
    #[test]
    fn a_code_that_is_not_known() {
        for code in [0, 11, u64::MAX] {
            let refusal = Refusal::of(b"C", code, 3);
            assert_eq!(
                refusal.meaning(),
                "a refusal that this package does not know"
            );
            let line = format!("code {code}, place 3: a refusal that this package does not know");
            assert_eq!(refusal.to_string(), line);
        }
    }

    #[test]
    fn a_place_past_the_book() {
        let book = [b'I'; 2 * crate::RECORD];
        for code in 2..=8 {
            assert_eq!(Refusal::of(&book, code, 1).kind(), Some(Kind::Instrument));
            let past = Refusal::of(&book, code, 2);
            let line = format!("record 2, of no kind: {}", past.meaning());
            assert_eq!((past.kind(), past.to_string()), (None, line));
            assert_eq!(Refusal::of(&book, code, u64::MAX).kind(), None);
        }
    }

    /// Their place is a count, and says nothing of a record.
    #[test]
    fn codes_of_the_whole_book() {
        for code in [1, 9, 10] {
            assert_eq!(Refusal::of(&[b'I'; crate::RECORD], code, 0).kind(), None);
        }
    }

    #[test]
    fn the_readme_has_the_same_words() {
        let readme = include_str!("../../README.md");
        for code in 1..=10 {
            let row = format!("\n| {code} | {} | ", Refusal::of(&[], code, 0).meaning());
            assert!(readme.contains(&row), "{row}");
        }
    }
}
