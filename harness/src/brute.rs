//! A third opinion on the lowest total: every allowed choice of a small tree.

use crate::ore::Ore;
use crate::record::Book;
use crate::second::{reach, vectors};

/// How many choices there are before the reach cuts any off.
pub fn choices(book: &Book) -> u128 {
    (book.points() as u128).saturating_pow(book.choice_len() as u32)
}

/// The lowest total over all allowed choices.
pub fn lowest_total(book: &Book) -> i64 {
    let mut choice = Vec::new();
    lowest_from(book, &vectors(book), &mut choice).number()
}

/// Classes are chosen in number order, then instruments: parents come first.
fn lowest_from(book: &Book, vectors: &[Vec<Ore>], choice: &mut Vec<u16>) -> Ore {
    let number = choice.len();
    if number == book.choice_len() {
        return total(book, vectors, choice);
    }
    let mut lowest = Ore::HIGHEST;
    for point in 0..book.points() as u16 {
        choice.push(point);
        if is_allowed_at(book, choice, number) {
            lowest = lowest.min(lowest_from(book, vectors, choice));
        }
        choice.pop();
    }
    lowest
}

fn total(book: &Book, vectors: &[Vec<Ore>], choice: &[u16]) -> Ore {
    let mut total = Ore::ZERO;
    for (item, vector) in vectors.iter().enumerate() {
        total += vector[usize::from(choice[book.classes.len() + item])];
    }
    total
}

/// A root takes any point; a child one within its parent's reach of the parent's.
fn is_allowed_at(book: &Book, choice: &[u16], number: usize) -> bool {
    let classes = book.classes.len();
    let point = usize::from(choice[number]);
    if point >= book.points() {
        return false;
    }
    let parent = if number < classes {
        book.classes[number].parent
    } else {
        Some(book.instruments[number - classes].class)
    };
    match parent {
        None => true,
        Some(parent) => point.abs_diff(usize::from(choice[parent])) <= reach(book, parent),
    }
}

/// The total of a given choice, or none if the choice is not allowed.
pub fn total_of(book: &Book, choice: &[u16]) -> Option<i64> {
    if choice.len() != book.choice_len() {
        return None;
    }
    for number in 0..choice.len() {
        if !is_allowed_at(book, choice, number) {
            return None;
        }
    }
    Some(total(book, &vectors(book), choice).number())
}
