//! The comparison catches each class of fault, and the books bring up each code.

use std::collections::BTreeMap;
use std::thread;
use std::time::Duration;

use harness::books::{self, Case};
use harness::compare::{self, by_program, Counts, Difference, Range, Verdict};
use harness::listing::{by_listing, child, Printed};
use harness::second::{self, Outcome};
use harness::under_test;

const RANGE: Range = Range {
    seed: 20_261_115,
    first: 0,
    books: 3000,
    threads: 2,
};

/// What a wrong program does after the right one has answered.
type Fault = fn(&Outcome, &mut [i64], &mut [u16], &mut [i64; 5]);

fn wrong_judge(fault: Fault) -> impl FnMut(&Case) -> Verdict {
    by_program(move |book, rows, choice| {
        let outcome = second::run(book, rows.len(), choice.len());
        let mut answer = outcome.write(rows, choice);
        fault(&outcome, rows, choice, &mut answer);
        Ok(answer)
    })
}

fn wrong(fault: Fault) -> Result<Counts, Difference> {
    compare::books(RANGE, || wrong_judge(fault))
}

fn caught(what: &str, fault: Fault) {
    match wrong(fault) {
        Ok(_) => panic!("{what} went unseen"),
        Err(difference) => {
            assert_eq!(difference.what, what, "{}", difference.detail);
            assert_eq!(difference.case, books::case(RANGE.seed, difference.index));
        }
    }
}

#[test]
fn a_right_program_passes() {
    let counts =
        wrong(|_, _, _, _| ()).unwrap_or_else(|difference| panic!("{}", difference.detail));
    assert_eq!(counts.codes.values().sum::<u64>(), RANGE.books);
    assert!(counts.tried > 100);
}

#[test]
fn the_program_under_test_passes() {
    let linked = || by_program(|book, rows, choice| Ok(under_test::run(book, rows, choice)));
    assert!(compare::books(RANGE, linked).is_ok());
}

#[test]
fn wrong_numbers() {
    caught("code", |outcome, _, _, answer| {
        answer[0] -= i64::from(outcome.code == 8)
    });
    caught("code", |outcome, _, _, answer| {
        answer[0] += i64::from(outcome.code == 9)
    });
    caught("place", |outcome, _, _, answer| {
        answer[1] -= i64::from(outcome.place > 20)
    });
    caught("place", |outcome, _, _, answer| {
        answer[1] += i64::from(outcome.code == 1)
    });
    caught("mark", |outcome, _, _, answer| {
        answer[2] -= i64::from(outcome.mark < 0)
    });
    caught("mark", |outcome, _, _, answer| {
        answer[2] = i64::from(outcome.code == 5)
    });
    caught("naked", |outcome, _, _, answer| {
        answer[3] += i64::from(outcome.naked < 0)
    });
    caught("cross", |outcome, _, _, answer| {
        answer[4] += i64::from(outcome.rows == [0; 3])
    });
    caught("cross", |outcome, _, _, answer| {
        answer[4] -= i64::from(outcome.cross < -1000)
    });
}

#[test]
fn wrong_entries() {
    caught("rows", |outcome, rows, _, _| {
        if outcome.rows.len() > 40 {
            rows[outcome.rows.len() - 1] += 1;
        }
    });
    caught("choice", |outcome, _, choice, _| {
        if outcome.choice.len() > 8 {
            choice[outcome.choice.len() - 1] ^= 1;
        }
    });
    caught("past the rows", |outcome, rows, _, _| {
        if outcome.code == 0 && rows.len() > outcome.rows.len() {
            rows[outcome.rows.len()] = 0;
        }
    });
    caught("past the choice", |outcome, _, choice, _| {
        if outcome.code == 0 && choice.len() > outcome.choice.len() {
            choice[outcome.choice.len()] = 0;
        }
    });
    caught("rows", |outcome, rows, _, _| {
        if outcome.code == 0 && outcome.mark != 0 && rows.len() > 1 {
            rows[..outcome.rows.len()].rotate_left(1);
        }
    });
}

#[test]
fn buffers_touched_on_refusal() {
    caught("altered on refusal", |outcome, rows, _, _| {
        if outcome.code == 10 {
            rows[0] = 0;
        }
    });
    caught("altered on refusal", |outcome, _, choice, _| {
        if outcome.code == 7 && !choice.is_empty() {
            choice[0] = 0;
        }
    });
}

/// A program that gives no answer is a difference, at its first book.
#[test]
fn no_answer() {
    let silent = || by_program(|_, _, _| Err("gone".to_string()));
    let difference = compare::books(RANGE, silent).expect_err("no answer went unseen");
    assert_eq!((difference.what, difference.index), ("program", 0));
    assert_eq!(difference.detail, "gone");
}

/// The counts of a range, one book after another.
fn counted(range: Range) -> Counts {
    let mut judge = wrong_judge(|_, _, _, _| ());
    let mut counts = Counts::default();
    for index in range.first..range.first + range.books {
        let (code, tried) = judge(&books::case(range.seed, index)).expect("it is right");
        *counts.codes.entry(code).or_default() += 1;
        counts.tried += u64::from(tried);
    }
    counts
}

/// Each index is judged once, and the first difference is named, on any number of threads.
#[test]
fn threads() {
    let first = 500;
    let wanted = counted(Range { first, ..RANGE });
    let odd: Fault = |outcome, _, _, answer| answer[2] += i64::from(outcome.mark % 7 == 3);
    let is_odd = |&index: &u64| wrong_judge(odd)(&books::case(RANGE.seed, index)).is_err();
    let lowest = (first..first + RANGE.books).find(is_odd);
    assert!(lowest.is_some());
    for threads in [1, 2, 3, 8] {
        let range = Range {
            first,
            threads,
            ..RANGE
        };
        let right = compare::books(range, || wrong_judge(|_, _, _, _| ()));
        assert_eq!(right.ok().as_ref(), Some(&wanted));
        let found = compare::books(range, || wrong_judge(odd)).err();
        assert_eq!(found.map(|difference| difference.index), lowest);
    }
}

/// Of several differences the lowest index counts, though it is found last.
#[test]
fn the_lowest_index() {
    let first = books::case(RANGE.seed, 7);
    let slow = || {
        |case: &Case| {
            let pause = if *case == first { 100 } else { 10 };
            thread::sleep(Duration::from_millis(pause));
            Err(("code", String::new()))
        }
    };
    let range = Range {
        first: 7,
        threads: 4,
        ..RANGE
    };
    let found = compare::books(range, slow).err();
    assert_eq!(found.map(|difference| difference.index), Some(7));
}

/// Compares the second program's own listing after a fault.
fn wrong_listing(fault: fn(&mut String, &mut String)) -> Option<Difference> {
    let printing = || {
        by_listing(move |book| {
            let mut text = second::listing(book);
            let mut complaint = second::complaint(book);
            fault(&mut text, &mut complaint);
            Ok(Printed {
                text: text.into_bytes(),
                complaint: complaint.into_bytes(),
            })
        })
    };
    compare::books(RANGE, printing).err()
}

#[test]
fn wrong_text() {
    let faults: [fn(&mut String, &mut String); 5] = [
        |text, _| text.push('\n'),
        |text, _| text.truncate(text.len() - 1),
        |text, _| *text = text.replace("ITEM 1 ", "ITEM 1  "),
        |text, _| *text = text.replace("REFUSED 6 3", "REFUSED 6 4"),
        |text, _| *text = text.replace("CLASS 3 1\n", "CLASS 3 2\n"),
    ];
    for fault in faults {
        assert_eq!(wrong_listing(fault).map(|found| found.what), Some("text"));
    }
    assert!(wrong_listing(|_, _| ()).is_none());
}

#[test]
fn wrong_complaints() {
    let faults: [fn(&mut String, &mut String); 6] = [
        |_, complaint| complaint.push('\n'),
        |_, complaint| complaint.truncate(complaint.len().saturating_sub(1)),
        |_, complaint| complaint.clear(),
        |_, complaint| *complaint = complaint.replace("a position", "an instrument"),
        |_, complaint| *complaint = complaint.replace("of no kind", "a class"),
        |_, complaint| *complaint = complaint.replace("record 3,", "record 4,"),
    ];
    for fault in faults {
        assert_eq!(
            wrong_listing(fault).map(|found| found.what),
            Some("complaint")
        );
    }
}

#[test]
fn listing_programs() {
    let few = Range {
        books: 200,
        ..RANGE
    };
    let judged = |words: &[&str]| {
        let found = compare::books(few, || by_listing(|book| child(words, book))).err();
        found.map(|difference| difference.what)
    };
    assert_eq!(judged(&[env!("CARGO_BIN_EXE_second_listing")]), None);
    assert_eq!(judged(&["/bin/cat"]), Some("text"));
    assert_eq!(judged(&["/no/such/program"]), Some("program"));
    assert_eq!(judged(&["/bin/sh", "-c", "kill -9 $$"]), Some("program"));
}

/// More than any pipe holds goes in, and comes back on both outputs.
#[test]
fn full_pipes() {
    let book = vec![b'x'; 1 << 20];
    let printed = child(&["tee", "/dev/stderr"], &book).expect("it was started");
    assert!(printed.text == book && printed.complaint == book);
    let deaf = child(&["/bin/sh", "-c", "exec <&-; echo deaf"], &book).expect("it was started");
    assert_eq!(deaf.text, b"deaf\n");
}

/// The codes that books have to bring up.
const CODES: [u64; 11] = [0, 1, 2, 3, 4, 5, 6, 7, 8, 9, 10];

/// Every code comes up in at least one book of a hundred, and each seed is its own.
#[test]
fn each_code_comes_up() {
    let books = 10_000;
    let mut codes = BTreeMap::from(CODES.map(|code| (code, 0)));
    for index in 0..books {
        let case = books::case(RANGE.seed, index);
        let code = second::run(&case.book, case.rows_len, case.choice_len).code;
        *codes.entry(code).or_default() += 1;
    }
    for (code, count) in &codes {
        assert!(*count >= books / 100, "code {code}: {count}");
    }
    assert_eq!(codes.len(), CODES.len());
    assert_eq!(books::case(1, 5).book, books::case(1, 5).book);
    assert_ne!(books::case(1, 150).book, books::case(2, 150).book);
}
