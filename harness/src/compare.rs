//! The comparison of the second program with the program under test.

use std::collections::BTreeMap;
use std::fmt::Debug;
use std::panic::resume_unwind;
use std::sync::atomic::{AtomicU64, Ordering};
use std::thread;

use crate::books::{self, Case};
use crate::brute;
use crate::record::decode;
use crate::second::{self, Outcome};

/// The five numbers of the program under test, or why it gave none.
pub type Answer = Result<[i64; 5], String>;

/// What differs, and how.
pub type Found = (&'static str, String);

/// A case's code and whether every allowed choice was tried too, or what differs.
pub type Verdict = Result<(u64, bool), Found>;

pub struct Difference {
    pub index: u64,
    pub what: &'static str,
    pub detail: String,
    pub case: Case,
}

#[derive(Debug, Default, PartialEq, Eq)]
pub struct Counts {
    /// Books by their code.
    pub codes: BTreeMap<u64, u64>,
    /// Books in which every allowed choice was tried too.
    pub tried: u64,
}

/// Which books: count of them from the first index of a seed; and on how many threads.
#[derive(Clone, Copy)]
pub struct Range {
    pub seed: u64,
    pub first: u64,
    pub books: u64,
    pub threads: usize,
}

/// Entries kept before and after each lent buffer, to see writes outside it.
const KEPT: usize = 16;
const MOST_CHOICES: u128 = 20_000;

/// Judges every case of the range, each thread by a judge of its own; of several differences the one of the lowest index.
pub fn books<J>(range: Range, judge: impl Fn() -> J + Sync) -> Result<Counts, Difference>
where
    J: FnMut(&Case) -> Verdict,
{
    let taken = AtomicU64::new(0);
    let parts: Vec<_> = thread::scope(|scope| {
        let work = || part(range, &taken, judge());
        let threads: Vec<_> = (0..range.threads).map(|_| scope.spawn(work)).collect();
        threads.into_iter().map(|thread| thread.join()).collect()
    });
    let mut counts = Counts::default();
    let mut lowest: Option<Difference> = None;
    for part in parts {
        match part.unwrap_or_else(|panic| resume_unwind(panic)) {
            Ok(more) => counts.add(more),
            Err(other) => {
                let lower = lowest.as_ref().is_none_or(|one| other.index < one.index);
                lowest = if lower { Some(other) } else { lowest };
            }
        }
    }
    lowest.map_or(Ok(counts), Err)
}

impl Counts {
    fn add(&mut self, more: Counts) {
        for (code, books) in more.codes {
            *self.codes.entry(code).or_default() += books;
        }
        self.tried += more.tried;
    }
}

/// Takes the range's indices one by one, in rising order, until none is left or a case differs.
fn part(
    range: Range,
    taken: &AtomicU64,
    mut judge: impl FnMut(&Case) -> Verdict,
) -> Result<Counts, Difference> {
    let mut counts = Counts::default();
    loop {
        let offset = taken.fetch_add(1, Ordering::Relaxed);
        if offset >= range.books {
            return Ok(counts);
        }
        let index = range.first + offset;
        let case = books::case(range.seed, index);
        let named = Named(range.seed, index);
        match judge(&case) {
            Ok((code, tried)) => {
                *counts.codes.entry(code).or_default() += 1;
                counts.tried += u64::from(tried);
            }
            Err((what, detail)) => {
                // All lower indices are taken, and no higher one is needed.
                taken.store(range.books, Ordering::Relaxed);
                return Err(Difference {
                    index,
                    what,
                    detail,
                    case,
                });
            }
        }
        drop(named);
    }
}

/// Seed and index, named where the second program itself gives up.
struct Named(u64, u64);

impl Drop for Named {
    fn drop(&mut self) {
        if thread::panicking() {
            eprintln!("seed {}, index {}: given up", self.0, self.1);
        }
    }
}

/// A judge that asks the program under test, whose buffers are lent.
pub fn by_program(
    mut program: impl FnMut(&[u8], &mut [i64], &mut [u16]) -> Answer,
) -> impl FnMut(&Case) -> Verdict {
    move |case| check(case, &mut program)
}

/// Compares one case.
pub fn check(
    case: &Case,
    program: &mut impl FnMut(&[u8], &mut [i64], &mut [u16]) -> Answer,
) -> Verdict {
    let expected = second::run(&case.book, case.rows_len, case.choice_len);
    // Values that no result and no point can have.
    let mut rows = patterned(case.rows_len, |at| i64::MIN + 7 * at as i64);
    let mut choice = patterned(case.choice_len, |at| 0xA500 + (at % 256) as u16);
    let (rows_before, choice_before) = (rows.clone(), choice.clone());
    let lent_rows = &mut rows[KEPT..KEPT + case.rows_len];
    let lent_choice = &mut choice[KEPT..KEPT + case.choice_len];
    let answer = program(&case.book, lent_rows, lent_choice).map_err(|why| ("program", why))?;
    numbers(&expected, answer)?;
    let refused = expected.code != 0;
    entries(
        ["rows", "past the rows"],
        refused,
        &rows,
        &rows_before,
        &expected.rows,
    )?;
    entries(
        ["choice", "past the choice"],
        refused,
        &choice,
        &choice_before,
        &expected.choice,
    )?;
    let tried = third_opinion(&case.book, &expected)?;
    Ok((expected.code, tried))
}

fn patterned<T>(len: usize, value: impl Fn(usize) -> T) -> Vec<T> {
    (0..len + 2 * KEPT).map(value).collect()
}

fn numbers(expected: &Outcome, answer: [i64; 5]) -> Result<(), Found> {
    let names = ["code", "place", "mark", "naked", "cross"];
    for (k, wanted) in expected.answer().into_iter().enumerate() {
        if answer[k] != wanted {
            return Err((
                names[k],
                format!("second {wanted}, under test {}", answer[k]),
            ));
        }
    }
    Ok(())
}

/// The written entries must be the second program's, all others as before.
fn entries<T: Copy + PartialEq + Debug>(
    names: [&'static str; 2],
    refused: bool,
    after: &[T],
    before: &[T],
    written: &[T],
) -> Result<(), Found> {
    for at in 0..after.len() {
        let inside = at >= KEPT && at < KEPT + written.len();
        let wanted = if inside {
            written[at - KEPT]
        } else {
            before[at]
        };
        if after[at] != wanted {
            let what = match (refused, inside) {
                (true, _) => "altered on refusal",
                (false, true) => names[0],
                (false, false) => names[1],
            };
            let entry = at as i64 - KEPT as i64;
            let found = after[at];
            let text = format!(
                "{} entry {entry}: second {wanted:?}, under test {found:?}",
                names[0]
            );
            return Err((what, text));
        }
    }
    Ok(())
}

/// The second program's own choice must be allowed and attain the cross margin.
fn third_opinion(bytes: &[u8], expected: &Outcome) -> Result<bool, Found> {
    let Ok(book) = decode(bytes) else {
        return Ok(false);
    };
    if expected.code != 0 {
        return Ok(false);
    }
    let total = brute::total_of(&book, &expected.choice);
    if total != Some(expected.cross) {
        return Err((
            "second",
            format!("its choice gives {total:?}, its cross {}", expected.cross),
        ));
    }
    if brute::choices(&book) > MOST_CHOICES {
        return Ok(false);
    }
    let lowest = brute::lowest_total(&book);
    if lowest != expected.cross {
        return Err((
            "second",
            format!("lowest total {lowest}, its cross {}", expected.cross),
        ));
    }
    Ok(true)
}
