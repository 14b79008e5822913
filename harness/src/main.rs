//! harness compare [--books N] [--seed N|fresh] [--first I] [--save FILE] [--server "COMMAND WORDS"]
//! harness listing PROGRAM [--books N] [--seed N|fresh] [--first I] [--save FILE]
//! harness bench [--seed N|fresh] [--rounds N]

use std::process::ExitCode;
use std::thread::available_parallelism;
use std::time::{Instant, SystemTime, UNIX_EPOCH};

use harness::books::Case;
use harness::compare::{self, Counts, Difference, Range, Verdict};
use harness::record::RECORD;
use harness::server::Server;
use harness::shrink::shrunk;
use harness::{bench, listing, under_test};

const SEED: u64 = 20_261_115;
const BOOKS: u64 = 100_000;
/// Each listing is a process of its own: fewer books, and fewer tries to make one smaller.
const LISTINGS: u64 = 10_000;
const TRIES: u32 = 20_000;
const LISTING_TRIES: u32 = 2_000;
/// Of so many timings the best counts.
const ROUNDS: u64 = 300;

struct Options {
    range: Range,
    save: String,
    server: Option<String>,
    rounds: u64,
}

fn main() -> ExitCode {
    let words: Vec<String> = std::env::args().skip(1).collect();
    let words: Vec<&str> = words.iter().map(String::as_str).collect();
    let done = match words.as_slice() {
        ["compare", rest @ ..] => options(rest, BOOKS).and_then(|options| compared(&options)),
        ["listing", program, rest @ ..] => {
            serverless(rest, LISTINGS).and_then(|options| listed(program, &options))
        }
        ["bench", rest @ ..] => {
            serverless(rest, 0).map(|options| bench::run(options.range.seed, options.rounds))
        }
        _ => Err("harness compare | listing PROGRAM | bench".to_string()),
    };
    match done {
        Ok(()) => ExitCode::SUCCESS,
        Err(why) => {
            eprintln!("{why}");
            ExitCode::FAILURE
        }
    }
}

fn options(words: &[&str], books: u64) -> Result<Options, String> {
    let range = Range {
        seed: SEED,
        first: 0,
        books,
        threads: available_parallelism().map_or(1, usize::from),
    };
    let mut options = Options {
        range,
        save: "difference.book".to_string(),
        server: None,
        rounds: ROUNDS,
    };
    for pair in words.chunks(2) {
        let [name, value] = pair else {
            return Err(format!("{} needs a value", pair[0]));
        };
        options.set(name, value)?;
    }
    let end = options.range.first.checked_add(options.range.books);
    end.ok_or("the last index is past 64 bits")?;
    Ok(options)
}

/// The options of what asks no server.
fn serverless(words: &[&str], books: u64) -> Result<Options, String> {
    let options = options(words, books)?;
    match options.server {
        None => Ok(options),
        Some(_) => Err("--server: for compare alone".to_string()),
    }
}

impl Options {
    fn set(&mut self, name: &str, value: &str) -> Result<(), String> {
        let number = || {
            let number = value.parse::<u64>();
            number.map_err(|_| format!("{name} {value}: not a number"))
        };
        match (name, value) {
            ("--books", _) => self.range.books = number()?,
            ("--seed", "fresh") => self.range.seed = fresh(),
            ("--seed", _) => self.range.seed = number()?,
            ("--first", _) => self.range.first = number()?,
            ("--save", _) => self.save = value.to_string(),
            ("--rounds", _) => self.rounds = number()?.max(1),
            ("--server", _) => self.server = Some(value.to_string()),
            _ => return Err(format!("{name}: no such option")),
        }
        Ok(())
    }
}

/// A seed from the clock; the first line names it, so that the run can be had again.
fn fresh() -> u64 {
    let since = SystemTime::now().duration_since(UNIX_EPOCH);
    since.map_or(0, |since| since.as_nanos() as u64)
}

fn compared(options: &Options) -> Result<(), String> {
    let Some(command) = &options.server else {
        let linked =
            || compare::by_program(|book, rows, choice| Ok(under_test::run(book, rows, choice)));
        return judged("the linked library", options, TRIES, linked);
    };
    judged(&format!("the server {command}"), options, TRIES, || {
        let mut server = Server::start(command);
        compare::by_program(move |book, rows, choice| server.run(book, rows, choice))
    })
}

fn listed(program: &str, options: &Options) -> Result<(), String> {
    let printing = || listing::by_listing(|book| listing::child(&[program], book));
    judged(
        &format!("the listings of {program}"),
        options,
        LISTING_TRIES,
        printing,
    )
}

/// Compares, and says what came of it; a difference is shrunk and saved.
fn judged<J>(
    through: &str,
    options: &Options,
    tries: u32,
    judge: impl Fn() -> J + Sync,
) -> Result<(), String>
where
    J: FnMut(&Case) -> Verdict,
{
    let Range {
        seed,
        first,
        books,
        threads,
    } = options.range;
    if books == 0 {
        return Err("no book to compare".to_string());
    }
    println!("seed {seed}, {books} books from index {first}, {threads} threads, through {through}");
    let start = Instant::now();
    match compare::books(options.range, &judge) {
        Ok(counts) => report(&counts, books),
        Err(difference) => return Err(saved(&difference, options, tries, &mut judge())),
    }
    println!("no difference; {:.1} s", start.elapsed().as_secs_f64());
    Ok(())
}

fn report(counts: &Counts, books: u64) {
    for (code, count) in &counts.codes {
        let percent = *count as f64 * 100.0 / books as f64;
        println!("code {code:2}: {count:7} books, {percent:5.2} %");
    }
    // A listing shows no choice to be tried.
    if counts.tried > 0 {
        println!("every choice tried in {} books", counts.tried);
    }
}

/// The text for a difference; the shrunk book is kept in a file.
fn saved(
    difference: &Difference,
    options: &Options,
    tries: u32,
    judge: &mut dyn FnMut(&Case) -> Verdict,
) -> String {
    let Difference {
        index,
        what,
        detail,
        case,
    } = difference;
    let seed = options.range.seed;
    let found = format!("DIFFERENCE: seed {seed}, index {index}, {what}: ");
    let Some(small) = shrunk(case, what, tries, judge) else {
        let kept = kept(&options.save, &case.book);
        return format!(
            "{found}{detail}\nnot found again, so not shrunk: {}\n{kept}",
            extent(case)
        );
    };
    let kept = kept(&options.save, &small.case.book);
    let (was, is) = (extent(case), extent(&small.case));
    let tries = small.tries;
    format!(
        "{found}{}\nshrunk in {tries} tries: it had {was}\nand has {is}\n{kept}",
        small.detail
    )
}

fn extent(case: &Case) -> String {
    let whole = case.book.len() / RECORD;
    let torn = match case.book.len() % RECORD {
        0 => String::new(),
        bytes => format!(" and {bytes} bytes"),
    };
    let (rows, choice) = (case.rows_len, case.choice_len);
    format!("{whole} records{torn}, rows buffer {rows}, choice buffer {choice}")
}

fn kept(file: &str, book: &[u8]) -> String {
    match std::fs::write(file, book) {
        Ok(()) => format!("the book is in {file}"),
        Err(why) => format!("the book could not be saved in {file}: {why}"),
    }
}
