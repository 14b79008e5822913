//! The figures of an accepted book.

use crate::refusal::Kind;
use crate::RECORD;

/// A book's totals, in whole øre; a loss is negative.
#[derive(Clone, Copy, Debug, Default, PartialEq, Eq, Hash)]
pub struct Totals {
    /// Mark-to-market of all positions.
    pub mark: i64,
    /// The sum of the instruments' margins, each by itself.
    pub naked: i64,
    /// The cross margin: the lowest total that the windows allow.
    pub cross: i64,
}

/// What an accepted book comes to: totals, the classes' rows and the worst case's points.
#[derive(Clone, Debug, PartialEq, Eq, Hash)]
pub struct Figures {
    totals: Totals,
    points: usize,
    rows: Vec<i64>,
    class_points: Vec<u16>,
    instrument_points: Vec<u16>,
}

impl Figures {
    /// The lent buffers of an accepted book, cut to what the book has.
    pub(crate) fn cut(
        book: &[u8],
        totals: Totals,
        mut rows: Vec<i64>,
        mut choice: Vec<u16>,
    ) -> Self {
        let (classes, points) = (count(book, Kind::Class), points(book));
        let instruments = choice
            .iter()
            .skip(classes)
            .take(count(book, Kind::Instrument));
        let instrument_points = instruments.copied().collect();
        rows.truncate(classes.saturating_mul(points));
        rows.shrink_to_fit();
        choice.truncate(classes);
        Self {
            totals,
            points,
            rows,
            class_points: choice,
            instrument_points,
        }
    }

    /// Mark-to-market, naked and cross margin.
    #[must_use]
    pub fn totals(&self) -> Totals {
        self.totals
    }

    /// How many points each class has; 0 in a book without classes.
    #[must_use]
    pub fn points(&self) -> usize {
        self.points
    }

    /// How many classes the book has.
    #[must_use]
    pub fn classes(&self) -> usize {
        self.class_points.len()
    }

    /// How many instruments the book has.
    #[must_use]
    pub fn instruments(&self) -> usize {
        self.instrument_points.len()
    }

    /// A class's results, one amount a point; none where the book has no such class.
    #[must_use]
    pub fn row(&self, class: usize) -> Option<&[i64]> {
        self.rows().nth(class)
    }

    /// The classes' results, a row each, in number order.
    #[must_use]
    pub fn rows(&self) -> impl DoubleEndedIterator<Item = &[i64]> + ExactSizeIterator + Clone {
        // a book without classes has no points, and parts of 0 entries would panic
        self.rows.chunks_exact(self.points.max(1))
    }

    /// The worst case's point of each class, in number order.
    #[must_use]
    pub fn class_points(&self) -> &[u16] {
        &self.class_points
    }

    /// The worst case's point of each instrument, in number order.
    #[must_use]
    pub fn instrument_points(&self) -> &[u16] {
        &self.instrument_points
    }
}

/// How many records of a kind the book has.
fn count(book: &[u8], kind: Kind) -> usize {
    let records = book.chunks_exact(RECORD);
    records
        .filter(|record| Kind::of(record) == Some(kind))
        .count()
}

/// The points of class 0, which are every class's; its record is the book's first.
fn points(book: &[u8]) -> usize {
    match book.get(4..6) {
        Some(&[low, high]) => u16::from_le_bytes([low, high]).into(),
        _ => 0,
    }
}
