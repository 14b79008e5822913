//! The figures: the examples against their listings, the shape of rows and points, both calls.

mod books;

use std::io;
use std::thread;

use desk::{lent, Figures, Kroner, Totals};

/// The listing's lines without the instruments' amounts, which are not among the figures.
fn lines(book: &[u8]) -> Vec<String> {
    let figures = match desk::run(book) {
        Ok(figures) => figures,
        Err(refusal) => return vec![format!("REFUSED {} {}", refusal.code(), refusal.place())],
    };
    let Totals { mark, naked, cross } = figures.totals();
    let totals = [("MTM", mark), ("NAKED", naked), ("CROSS", cross)];
    let totals = totals.map(|(tag, amount)| format!("{tag} {}", Kroner(amount)));
    let classes = figures.class_points().iter().enumerate();
    let classes = classes.map(|(number, point)| format!("CLASS {number} {point}"));
    let items = figures.instrument_points().iter().enumerate();
    let items = items.map(|(number, point)| format!("ITEM {number} {point}"));
    totals.into_iter().chain(classes).chain(items).collect()
}

#[test]
fn the_examples_are_as_listed() -> io::Result<()> {
    let examples = books::examples()?;
    assert!(examples.len() >= 5, "{} examples", examples.len());
    for (name, book, listing) in examples {
        let three = |line: &str| line.split(' ').take(3).collect::<Vec<_>>().join(" ");
        let listed: Vec<String> = listing.lines().map(three).collect();
        assert_eq!(lines(&book), listed, "{name}");
    }
    Ok(())
}

/// The parent of each class, from the book itself.
fn parents(book: &[u8]) -> Vec<u16> {
    let classes = book.chunks(desk::RECORD).filter(|record| record[0] == b'C');
    classes
        .map(|record| u16::from_le_bytes([record[2], record[3]]))
        .collect()
}

/// The roots' lowest results add up to the cross margin, and stand at the roots' points.
fn check_rows(name: &str, book: &[u8], figures: &Figures) {
    let parents = parents(book);
    assert_eq!(figures.classes(), parents.len(), "{name}");
    assert_eq!(figures.rows().len(), parents.len(), "{name}");
    let mut cross = 0;
    for (number, row) in figures.rows().enumerate() {
        assert_eq!(row.len(), figures.points(), "{name}");
        assert_eq!(figures.row(number), Some(row), "{name}");
        if parents[number] == books::ROOT {
            let point = usize::from(figures.class_points()[number]);
            assert_eq!(row.iter().min(), Some(&row[point]), "{name}");
            cross += row[point];
        }
    }
    assert_eq!(cross, figures.totals().cross, "{name}");
    assert_eq!(figures.row(parents.len()), None, "{name}");
    assert_eq!(figures.row(usize::MAX), None, "{name}");
}

#[test]
fn the_rows_are_the_classes() -> io::Result<()> {
    let mut shapes = Vec::new();
    for (name, book, _) in books::examples()? {
        if let Ok(figures) = desk::run(&book) {
            check_rows(&name, &book, &figures);
            shapes.push((figures.points(), figures.classes(), figures.instruments()));
        }
    }
    // the empty book, the bond's, the guide's and the full one
    let wanted = [(0, 0, 0), (31, 1, 1), (31, 1, 2), (201, 24, 64)];
    let found = |shape| shapes.contains(shape);
    assert!(wanted.iter().all(found), "{shapes:?}");
    Ok(())
}

/// Sums in one's head: two contracts bought lose 3.1 % of a million each at the lowest price and
/// gain 2.9 % at the highest, one sold the other way round; 0.1 % is lost by all.
#[test]
fn a_small_book() -> Result<(), desk::Refusal> {
    let figures = desk::run(&books::sound().concat())?;
    let (bought, sold) = (
        [-6_200_000, -200_000, 5_800_000],
        [2_900_000, -100_000, -3_100_000],
    );
    let both = [-3_300_000, -300_000, 2_700_000];
    assert_eq!(figures.rows().collect::<Vec<_>>(), [both, sold]);
    let totals = Totals {
        mark: 2_000_000,
        naked: bought[0] + sold[2],
        cross: both[0],
    };
    assert_eq!(figures.totals(), totals);
    assert_eq!(figures.class_points(), [0, 0]);
    assert_eq!(figures.instrument_points(), [0, 0]);
    assert_eq!((figures.classes(), figures.instruments()), (2, 2));
    assert_eq!(figures.points(), 3);
    Ok(())
}

/// Lent memory with more entries than the figures have: those past them stay.
fn check_lent(name: &str, book: &[u8], figures: &Figures, more: usize) {
    let rows: Vec<i64> = figures.rows().flatten().copied().collect();
    let choice = [figures.class_points(), figures.instrument_points()].concat();
    let mut lent_rows = vec![i64::MIN; rows.len() + more];
    let mut lent_choice = vec![u16::MAX; choice.len() + more];
    let totals = lent::run(book, &mut lent_rows, &mut lent_choice);
    assert_eq!(totals, Ok(figures.totals()), "{name}");
    assert_eq!(lent_rows, [rows, vec![i64::MIN; more]].concat(), "{name}");
    assert_eq!(
        lent_choice,
        [choice, vec![u16::MAX; more]].concat(),
        "{name}"
    );
}

#[test]
fn the_lent_call_gives_the_same() -> io::Result<()> {
    let mut accepted = 0;
    for (name, book, _) in books::examples()? {
        if let Ok(figures) = desk::run(&book) {
            check_lent(&name, &book, &figures, 0);
            check_lent(&name, &book, &figures, 40);
            accepted += 1;
        }
    }
    assert!(accepted >= 4, "{accepted}");
    Ok(())
}

/// Calls at one time, of different books, do not disturb each other.
#[test]
fn several_threads() -> io::Result<()> {
    let examples = books::examples()?;
    let figures = || {
        examples
            .iter()
            .map(|(_, book, _)| desk::run(book))
            .collect::<Vec<_>>()
    };
    let alone = figures();
    let same = || assert!((0..20).all(|_| figures() == alone));
    thread::scope(|scope| {
        for _ in 0..8 {
            scope.spawn(same);
        }
    });
    Ok(())
}
