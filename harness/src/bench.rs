//! The full book: the program under test against the plain one, as a table for docs/SPEED.md.

use std::hint::black_box;
use std::time::Instant;

use crate::books::FULL;
use crate::encode::{self, Record};
use crate::random::Random;
use crate::record::{limits, Limits, ROOT};
use crate::{plain, under_test};

type Program = fn(&[u8], &mut [i64], &mut [u16]) -> [i64; 5];

pub const SHARES: [u64; 3] = [4000, 1500, 0];
pub const SHAPES: [Shape; 3] = [Shape::Chains, Shape::Star, Shape::Tree];
/// The products of a book, dealt to its instruments in turn.
pub const MIXES: [&[u64]; 4] = [&[1], &[2], &[3], &[1, 2, 3]];

#[derive(Clone, Copy, Debug, PartialEq)]
pub enum Shape {
    /// Three chains of eight.
    Chains,
    /// One root and its 23 children.
    Star,
    /// One root; any smaller class may be a parent.
    Tree,
}

pub fn run(seed: u64, rounds: u64) {
    println!("{}; best of {rounds} rounds; seed {seed}\n", processor());
    let names = columns(|share| format!(" share {share}: ours µs | plain µs | ours / plain |"));
    println!("| classes | products |{names}");
    println!("|---|---|{}", columns(|_| "--:|--:|--:|".to_string()));
    for shape in SHAPES {
        for mix in MIXES {
            let cells = columns(|share| cells(&book(seed, shape, mix, share), rounds));
            let products = format!("{mix:?}");
            println!(
                "| {shape:?} | {} |{cells}",
                products.trim_matches(['[', ']'])
            );
        }
    }
}

fn columns(cells: impl Fn(u64) -> String) -> String {
    SHARES.map(cells).concat()
}

fn cells(book: &[u8], rounds: u64) -> String {
    let (ours, plain) = best(book, rounds);
    format!(" {ours:.1} | {plain:.1} | {:.2} |", ours / plain)
}

/// The architecture, and the model in the system's words; some processors have a number alone.
fn processor() -> String {
    let told = std::fs::read_to_string("/proc/cpuinfo").unwrap_or_default();
    let line = |name: &str| told.lines().find(|line| line.starts_with(name));
    let model = line("model name").or(line("CPU part")).unwrap_or_default();
    format!("{}, {}", std::env::consts::ARCH, model.replace('\t', ""))
}

/// A full book of one shape, one mix of products and one share; the same seed gives the same tree whatever the others.
pub fn book(seed: u64, shape: Shape, mix: &[u64], share: u64) -> Vec<u8> {
    let mut random = Random::new(seed, shape as u64);
    let mut records = Vec::new();
    for number in 0..FULL.classes {
        let parent = parent(&mut random, shape, number);
        records.push(encode::class(parent, FULL.points, share));
    }
    let product = |item: u64| mix[item as usize % mix.len()];
    for item in 0..FULL.instruments {
        records.push(instrument(&mut random, product(item)));
    }
    for number in 0..FULL.positions {
        let item = number % FULL.instruments;
        let first = number < FULL.instruments;
        records.push(position(&mut random, item, product(item), first));
    }
    records.concat()
}

fn parent(random: &mut Random, shape: Shape, number: u64) -> u64 {
    match shape {
        Shape::Chains if !number.is_multiple_of(8) => number - 1,
        Shape::Star if number != 0 => 0,
        Shape::Tree if number != 0 => random.below(number),
        _ => ROOT,
    }
}

fn known(product: u64) -> Limits {
    limits(product).expect("products are 1 to 3")
}

fn instrument(random: &mut Random, product: u64) -> Record {
    let limits = known(product);
    let class = random.below(FULL.classes);
    let days = random.between(limits.days.0, limits.days.1);
    let ends = [limits.price, limits.price, limits.par, limits.adj];
    encode::instrument(product, class, days, ends.map(|end| random.between(0, end)))
}

/// An instrument's first position outweighs its three others, so that no net is zero.
fn position(random: &mut Random, item: u64, product: u64, first: bool) -> Record {
    let (low, high) = if first {
        (750_001, 1_000_000)
    } else {
        (1, 250_000)
    };
    let (side, quantity) = (random.between(1, 2), random.between(low, high));
    let traded = random.below(2);
    let price = traded * random.between(0, known(product).price);
    encode::position(side, item, quantity, price, traded)
}

/// Best microseconds of ours and of the plain program, run by turns so that both meet the same noise.
fn best(book: &[u8], rounds: u64) -> (f64, f64) {
    let (mut rows, mut choice) = buffers();
    assert_eq!(given(under_test::run, book), given(plain::run, book));
    let (mut ours, mut other) = (f64::MAX, f64::MAX);
    for _ in 0..rounds {
        ours = ours.min(timed(under_test::run, book, &mut rows, &mut choice));
        other = other.min(timed(plain::run, book, &mut rows, &mut choice));
    }
    (ours, other)
}

/// Buffers that just fit, with entries that no result and no point can have.
fn buffers() -> (Vec<i64>, Vec<u16>) {
    let rows = vec![i64::MIN; (FULL.classes * FULL.points) as usize];
    let choice = vec![u16::MAX; (FULL.classes + FULL.instruments) as usize];
    (rows, choice)
}

fn given(program: Program, book: &[u8]) -> ([i64; 5], Vec<i64>, Vec<u16>) {
    let (mut rows, mut choice) = buffers();
    let answer = program(book, &mut rows, &mut choice);
    (answer, rows, choice)
}

fn timed(program: Program, book: &[u8], rows: &mut [i64], choice: &mut [u16]) -> f64 {
    let start = Instant::now();
    black_box(program(black_box(book), rows, choice));
    start.elapsed().as_secs_f64() * 1e6
}
