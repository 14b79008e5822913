//! Differences of deliberately wrong programs, shrunk to small books.

use harness::books::{self, Case};
use harness::compare::{by_program, Verdict};
use harness::encode::{class, instrument, position, Record};
use harness::listing::{by_listing, Printed};
use harness::record::{decode, number_named, Book, RECORD, ROOT};
use harness::second::{self, net, Outcome};
use harness::shrink::{renumbered, shrunk, Shrunk};
use harness::under_test;

const SEED: u64 = 20_261_115;
const TRIES: u32 = 20_000;

/// What a wrong program does to the right answer, which it may have the book for.
type Fault = fn(&[u8], &Outcome, &mut [i64], &mut [i64; 5]);

fn wrong(fault: Fault) -> impl FnMut(&Case) -> Verdict {
    by_program(move |book, rows, choice| {
        let outcome = second::run(book, rows.len(), choice.len());
        let mut answer = outcome.write(rows, choice);
        fault(book, &outcome, rows, &mut answer);
        Ok(answer)
    })
}

fn differs(judge: &mut impl FnMut(&Case) -> Verdict, what: &str, case: &Case) -> bool {
    judge(case).is_err_and(|found| found.0 == what)
}

/// The first case of the seed that differs so.
fn first(what: &str, judge: &mut impl FnMut(&Case) -> Verdict) -> Case {
    let mut cases = (0..20_000).map(|index| books::case(SEED, index));
    let case = cases.find(|case| differs(judge, what, case));
    case.expect("some book differs")
}

/// Shrinks one case and sees that what is left still differs, as it is said to.
fn small(what: &str, judge: &mut impl FnMut(&Case) -> Verdict, case: &Case) -> Shrunk {
    let small = shrunk(case, what, TRIES, judge).expect("a difference can be shrunk");
    assert!(small.tries < TRIES, "{} tries", small.tries);
    let (name, detail) = judge(&small.case).expect_err("the shrunk book differs");
    assert_eq!((name, &detail), (what, &small.detail));
    small
}

/// Of the books that differ the first is to shrink to the wanted records and buffers, and a few more to no more than as many.
fn shrinks_to(what: &str, fault: Fault, records: &[Record], rows_len: usize, choice_len: usize) {
    let mut judge = wrong(fault);
    let cases = (0..20_000).map(|index| books::case(SEED, index));
    let found: Vec<Case> = cases
        .filter(|case| differs(&mut judge, what, case))
        .take(8)
        .collect();
    assert!(found.len() > 3 && found.iter().any(|case| case.book.len() > 20 * RECORD));
    let wanted = Case {
        book: records.concat(),
        rows_len,
        choice_len,
    };
    assert_eq!(small(what, &mut judge, &found[0]).case, wanted);
    for case in found {
        let small = small(what, &mut judge, &case).case;
        assert_eq!(small.book.len(), wanted.book.len());
    }
}

fn has_sold(book: &Book, product: u64) -> bool {
    let mut instruments = book.instruments.iter().enumerate();
    instruments.any(|(item, instrument)| instrument.product == product && net(book, item) < 0)
}

#[test]
fn cross_off_by_one() {
    let sold: Fault = |bytes, outcome, _, answer| {
        let sold = decode(bytes).is_ok_and(|book| has_sold(&book, 3));
        answer[4] += i64::from(outcome.code == 0 && sold);
    };
    let item = instrument(3, 0, 0, [0; 4]);
    let records = [class(ROOT, 3, 0), item, position(2, 0, 1, 0, 0)];
    shrinks_to("cross", sold, &records, 3, 2);
}

#[test]
fn code_8_as_7() {
    let records = [class(ROOT, 3, 0), class(0, 5, 0)];
    let early: Fault = |_, outcome, _, answer| answer[0] -= i64::from(outcome.code == 8);
    shrinks_to("code", early, &records, 0, 0);
}

/// The smallest case there is of its kind stays what it is; a root has no lower parent.
#[test]
fn nothing_smaller() {
    let mut judge = wrong(|_, outcome, _, answer| answer[0] -= i64::from(outcome.code == 8));
    let case = Case {
        book: [class(ROOT, 3, 0), class(ROOT, 5, 0)].concat(),
        rows_len: 0,
        choice_len: 0,
    };
    assert_eq!(small("code", &mut judge, &case).case, case);
}

/// A reference that has to stay just past the end: no class is left, and class 0 is named.
#[test]
fn a_reference_one_too_far() {
    let far: Fault = |bytes, outcome, _, answer| {
        let place = outcome.place as usize * RECORD;
        let letters = bytes[..place].iter().step_by(RECORD);
        let classes = letters.filter(|&&letter| letter == b'C').count();
        let record = bytes.get(place..place + RECORD).unwrap_or(&[0; RECORD]);
        let is_next = record[0] == b'I' && number_named(record) == classes as u64;
        answer[0] += i64::from(outcome.code == 6 && is_next);
    };
    shrinks_to("code", far, &[instrument(0, 0, 0, [0; 4])], 0, 0);
}

/// A buffer that has to stay long while the book gets smaller.
#[test]
fn long_rows() {
    let long: Fault = |_, outcome, rows, answer| {
        answer[3] += i64::from(outcome.code == 0 && rows.len() > 100);
    };
    shrinks_to("naked", long, &[], 101, 0);
}

/// Buffers that have to stay exact while the book gets smaller.
#[test]
fn code_9_for_rows_just_long_enough() {
    let exact: Fault = |_, outcome, rows, answer| {
        if !rows.is_empty() && rows.len() == outcome.rows.len() {
            *answer = [9, 0, 0, 0, 0];
        }
    };
    shrinks_to("code", exact, &[class(ROOT, 3, 0)], 3, 1);
}

/// Three classes in a line are left.
#[test]
fn rows_of_a_deep_tree() {
    let deep: Fault = |bytes, outcome, rows, _| {
        let Ok(book) = decode(bytes) else { return };
        let above = |class: usize| book.classes[class].parent;
        let has_two_above = |class| above(class).and_then(above).is_some();
        if outcome.code == 0 && (0..book.classes.len()).any(has_two_above) {
            rows[0] += 1;
        }
    };
    let records = [class(ROOT, 3, 0), class(0, 3, 0), class(1, 3, 0)];
    shrinks_to("rows", deep, &records, 9, 3);
}

/// No smaller book has the fault than one of a class and 65 instruments.
#[test]
fn the_65th_instrument() {
    let mut judge = wrong(|bytes, outcome, _, answer| {
        let letter = bytes.get(outcome.place as usize * RECORD);
        answer[1] += i64::from(outcome.code == 4 && letter == Some(&b'I'));
    });
    let case = first("place", &mut judge);
    let small = small("place", &mut judge, &case).case;
    assert_eq!(small.book.len(), 66 * RECORD);
    assert_eq!((small.rows_len, small.choice_len), (0, 0));
}

/// A price that matters from a number on.
#[test]
fn a_mark_from_a_price_on() {
    let dear: Fault = |bytes, outcome, _, answer| {
        let is_dear = |book: Book| {
            book.positions
                .iter()
                .any(|position| position.price >= 12_345)
        };
        answer[2] += i64::from(outcome.code == 0 && decode(bytes).is_ok_and(is_dear));
    };
    let item = instrument(1, 0, 1, [0; 4]);
    let records = [class(ROOT, 3, 0), item, position(1, 0, 1, 12_345, 1)];
    shrinks_to("mark", dear, &records, 3, 2);
}

#[test]
fn a_torn_book() {
    let mut judge = wrong(|bytes, outcome, _, answer| {
        answer[1] -= i64::from(outcome.code == 1 && bytes.len() > 2 * RECORD);
    });
    let case = first("place", &mut judge);
    let small = small("place", &mut judge, &case).case;
    assert_eq!(small.book.len(), 2 * RECORD + 1);
    assert_eq!((small.rows_len, small.choice_len), (0, 0));
}

/// One judge for texts and complaints: the fault is in the words.
fn wrong_words(from: &'static str, to: &'static str) -> impl FnMut(&Case) -> Verdict {
    by_listing(move |book| {
        Ok(Printed {
            text: second::listing(book).replace(from, to).into_bytes(),
            complaint: second::complaint(book).replace(from, to).into_bytes(),
        })
    })
}

#[test]
fn listings() {
    for (what, from, to, records) in [
        ("text", "ITEM 2 ", "ITEM  2 ", 4),
        ("text", "REFUSED 7", "REFUSED 6", 1),
        ("complaint", "an instrument", "a class", 1),
        ("complaint", "out of its range", "wrong", 1),
    ] {
        let mut judge = wrong_words(from, to);
        let case = first(what, &mut judge);
        let small = small(what, &mut judge, &case).case;
        assert_eq!(small.book.len(), records * RECORD, "{from}");
        assert_eq!((small.rows_len, small.choice_len), (0, 0));
    }
}

#[test]
fn a_right_program_has_nothing_to_shrink() {
    let mut linked = by_program(|book, rows, choice| Ok(under_test::run(book, rows, choice)));
    for index in 0..200 {
        let case = books::case(SEED, index);
        assert_eq!(shrunk(&case, "cross", TRIES, &mut linked), None);
    }
    // Nor has a wrong one under another name.
    let mut naked = wrong(|_, _, _, answer| answer[3] += 1);
    let case = books::case(SEED, 0);
    assert_eq!(shrunk(&case, "cross", TRIES, &mut naked), None);
    assert!(shrunk(&case, "naked", TRIES, &mut naked).is_some());
}

/// The same case always shrinks to the same, and no more cases are tried than may be.
#[test]
fn same_and_bounded() {
    let mut judge = wrong(|_, outcome, _, answer| answer[4] -= i64::from(outcome.cross < -1000));
    let case = first("cross", &mut judge);
    let once = small("cross", &mut judge, &case);
    assert_eq!(small("cross", &mut judge, &case), once);
    assert!(once.case.book.len() <= 3 * RECORD);
    let mut asked = 0;
    let few = shrunk(&case, "cross", 25, &mut |case| {
        asked += 1;
        judge(case)
    });
    let few = few.expect("it differs");
    assert_eq!((few.tries, asked), (25, 25));
    assert!(differs(&mut judge, "cross", &few.case));
}

/// A sound book stays sound without any one of its records, or any half of them.
#[test]
fn renumbered_books_are_sound() {
    for index in 0..300 {
        let case = books::case(SEED, index);
        let whole = case.book.len() / RECORD;
        if decode(&case.book).is_err() || whole > 60 {
            continue;
        }
        let half = whole / 2;
        let runs = (0..whole)
            .flat_map(|first| [first..first + 1, first.min(half)..first.min(half) + half]);
        for gone in runs {
            let less = renumbered(&case.book, gone.clone());
            assert!(decode(&less).is_ok(), "{index} without {gone:?}");
            assert!(less.len() <= case.book.len() - gone.len() * RECORD);
            let torn = renumbered(&[&case.book[..], b"x"].concat(), gone);
            assert_eq!(torn, [&less[..], b"x"].concat());
        }
    }
}
