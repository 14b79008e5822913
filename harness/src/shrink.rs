//! A case with a difference made smaller, while a difference of the same name is still found.

use std::collections::BTreeMap;
use std::ops::Range;

use crate::books::Case;
use crate::compare::Verdict;
use crate::encode::put;
use crate::record::{
    decode, field, form, number_named, Bytes, Form, Kind, KINDS, RECORD, REFERENCE, ROOT,
};

/// The smaller case, how it differs, and how many cases were tried.
#[derive(Debug, PartialEq, Eq)]
pub struct Shrunk {
    pub case: Case,
    pub detail: String,
    pub tries: u32,
}

/// None where the case itself has no difference of that name. No more than `most` cases are tried.
pub fn shrunk(
    case: &Case,
    what: &str,
    most: u32,
    judge: &mut dyn FnMut(&Case) -> Verdict,
) -> Option<Shrunk> {
    let mut search = Search {
        case: case.clone(),
        found: None,
        what,
        judge,
        tries: 0,
        most,
    };
    search.keep(case.clone());
    while search.found.is_some() {
        let before = search.case.clone();
        search.tail();
        search.records();
        search.fields_at_once();
        search.fields();
        search.buffers();
        if search.case == before {
            break;
        }
    }
    search.found.map(|detail| Shrunk {
        case: search.case,
        detail,
        tries: search.tries,
    })
}

/// Each case that is kept has fewer bytes than the one before; or as many and a lower field; or the same book and a shorter
/// buffer. So the search ends.
struct Search<'a> {
    case: Case,
    found: Option<String>,
    what: &'a str,
    judge: &'a mut dyn FnMut(&Case) -> Verdict,
    tries: u32,
    most: u32,
}

impl Search<'_> {
    /// Keeps the case if it differs under the same name.
    fn keep(&mut self, case: Case) -> bool {
        if self.tries == self.most {
            return false;
        }
        self.tries += 1;
        match (self.judge)(&case) {
            Err((what, detail)) if what == self.what => {
                self.case = case;
                self.found = Some(detail);
                true
            }
            _ => false,
        }
    }

    /// With buffers as much too long or too short for the book as they were, or else with the same buffers.
    fn keep_book(&mut self, book: Vec<u8>) -> bool {
        let same = Case { book, ..self.case };
        let fitted = fitted(&self.case, &same);
        (fitted != same && self.keep(fitted)) || self.keep(same)
    }

    fn whole(&self) -> usize {
        self.case.book.len() / RECORD
    }

    /// Of the bytes after the last whole record: none, or one that is zero.
    fn tail(&mut self) {
        let end = self.whole() * RECORD;
        let cut = self.case.book[..end].to_vec();
        let one = [&cut[..], &[0]].concat();
        let is_torn = self.case.book.len() > end;
        if is_torn && !self.keep_book(cut) && self.case.book != one {
            self.keep_book(one);
        }
    }

    /// Runs of records: all, half of them, a quarter, down to single ones.
    fn records(&mut self) {
        let mut run = self.whole();
        while run > 0 {
            self.runs(run);
            run /= 2;
        }
    }

    /// The last run first, as records name earlier ones.
    fn runs(&mut self, run: usize) {
        let mut end = self.whole();
        while end > 0 {
            let first = end.saturating_sub(run);
            let plain = without(&self.case.book, first..end);
            let renumbered = renumbered(&self.case.book, first..end);
            if renumbered == plain || !self.keep_book(renumbered) {
                self.keep_book(plain);
            }
            end = first;
        }
    }

    /// Each field in all records of a kind at once, as points have to agree.
    fn fields_at_once(&mut self) {
        for (letter, bytes) in fields_of_kinds() {
            let records = of_letter(&self.case.book, letter);
            self.lower_field(&records, bytes);
        }
    }

    fn fields(&mut self) {
        for number in 0..self.whole() {
            self.fields_of(number);
        }
    }

    fn fields_of(&mut self, number: usize) {
        for bytes in lowerable(record(&self.case.book, number)) {
            self.lower_field(&[number], bytes);
        }
    }

    fn lower_field(&mut self, records: &[usize], bytes: Bytes) {
        let values = records
            .iter()
            .map(|&at| value(record(&self.case.book, at), bytes));
        let highest = values.max().unwrap_or(0);
        self.lower(highest, |search, value| {
            search.keep_book(capped(&search.case.book, records, bytes, value))
        });
    }

    fn buffers(&mut self) {
        self.lower(self.case.rows_len as u64, |search, len| {
            let mut case = search.case.clone();
            case.rows_len = len as usize;
            search.keep(case)
        });
        self.lower(self.case.choice_len as u64, |search, len| {
            let mut case = search.case.clone();
            case.choice_len = len as usize;
            search.keep(case)
        });
    }

    /// Brings a number to 0, 1 or 3, or else down by halves of what lies above the highest value that would not do.
    fn lower(&mut self, from: u64, keep_at: impl Fn(&mut Self, u64) -> bool) {
        let mut small = [0, 1, 3].into_iter().filter(|&value| value < from);
        if small.any(|value| keep_at(self, value)) {
            return;
        }
        let (mut low, mut high) = (from.min(3), from);
        while low + 1 < high {
            let middle = low + (high - low) / 2;
            if keep_at(self, middle) {
                high = middle;
            } else {
                low = middle;
            }
        }
    }
}

/// The book of one case with the other's room to spare in the buffers, or lack of it.
fn fitted(before: &Case, after: &Case) -> Case {
    let (Ok(old), Ok(new)) = (decode(&before.book), decode(&after.book)) else {
        return after.clone();
    };
    let shifted = |len: usize, old: usize, new: usize| (len + new).saturating_sub(old);
    Case {
        book: after.book.clone(),
        rows_len: shifted(before.rows_len, old.rows_len(), new.rows_len()),
        choice_len: shifted(before.choice_len, old.choice_len(), new.choice_len()),
    }
}

fn record(book: &[u8], number: usize) -> &[u8] {
    &book[number * RECORD..(number + 1) * RECORD]
}

fn of_letter(book: &[u8], letter: u8) -> Vec<usize> {
    let numbers = 0..book.len() / RECORD;
    numbers
        .filter(|number| book[number * RECORD] == letter)
        .collect()
}

fn fields_of_kinds() -> Vec<(u8, Bytes)> {
    let of_kind = |form: &'static Form| form.fields.iter().map(|&bytes| (form.letter, bytes));
    KINDS.iter().flat_map(of_kind).collect()
}

/// The record's fields and then its reserved bytes, one by one; all bytes of a record of no kind.
fn lowerable(record: &[u8]) -> Vec<Bytes> {
    let Some(form) = form(record[0]) else {
        return (1..RECORD).map(|at| (at, at)).collect();
    };
    let reserved = form.reserved.iter().flat_map(|&(first, last)| first..=last);
    let fields = form.fields.iter().copied();
    fields.chain(reserved.map(|at| (at, at))).collect()
}

/// The number in a field; no parent at all counts as the lowest.
fn value(record: &[u8], bytes: Bytes) -> u64 {
    match field(record, bytes.0, bytes.1) {
        ROOT if bytes == REFERENCE => 0,
        value => value,
    }
}

/// The book with a field of some records no higher than the value.
fn capped(book: &[u8], records: &[usize], bytes: Bytes, highest: u64) -> Vec<u8> {
    let mut capped = book.to_vec();
    for &number in records {
        if value(record(book, number), bytes) > highest {
            put(&mut capped[number * RECORD..], bytes.0, bytes.1, highest);
        }
    }
    capped
}

fn without(book: &[u8], gone: Range<usize>) -> Vec<u8> {
    [&book[..gone.start * RECORD], &book[gone.end * RECORD..]].concat()
}

/// The book without a run of records, sound if it was: a class whose parent goes is a root, and what else names a record that
/// goes, goes too.
pub fn renumbered(book: &[u8], gone: Range<usize>) -> Vec<u8> {
    let records = book.chunks_exact(RECORD);
    let torn = records.remainder();
    let mut left = Left::default();
    for (number, record) in records.enumerate() {
        left.take(record, gone.contains(&number));
    }
    left.book.extend(torn);
    left.book
}

#[derive(Default)]
struct Left {
    book: Vec<u8>,
    /// By rank, what each record's number is now, or none if it went.
    numbers: BTreeMap<usize, Vec<Option<u64>>>,
    /// By rank, how many are left.
    count: BTreeMap<usize, u64>,
}

impl Left {
    fn take(&mut self, record: &[u8], gone: bool) {
        let Some(form) = form(record[0]) else {
            let left = if gone { &[] } else { record };
            return self.book.extend(left);
        };
        let root = (form.kind == Kind::Class).then_some(ROOT);
        let number = match self.now_named(form, record).or(root) {
            Some(named) if !gone => Some(self.leave(form, record, named)),
            _ => None,
        };
        self.numbers.entry(form.rank).or_default().push(number);
    }

    /// What the record is to name now, if that did not go.
    fn now_named(&self, form: &Form, record: &[u8]) -> Option<u64> {
        let named = number_named(record);
        if form.kind == Kind::Class && named == ROOT {
            return None;
        }
        let rank = form.names.form().rank;
        let numbers = self.numbers.get(&rank).map_or(&[][..], |numbers| numbers);
        let left = self.count.get(&rank).copied().unwrap_or(0);
        let went = numbers.len() as u64 - left;
        // One that is not there stays as far past the end as it was.
        let now = numbers.get(named as usize).copied();
        now.unwrap_or(Some(named.saturating_sub(went)))
    }

    /// Its number in its kind.
    fn leave(&mut self, form: &Form, record: &[u8], named: u64) -> u64 {
        let at = self.book.len();
        self.book.extend(record);
        put(&mut self.book[at..], REFERENCE.0, REFERENCE.1, named);
        let count = self.count.entry(form.rank).or_default();
        *count += 1;
        *count - 1
    }
}
