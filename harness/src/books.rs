//! Books made from a seed: sound ones of every size, and damaged ones.

use crate::encode::{self, Record};
use crate::faults;
use crate::random::Random;
use crate::record::{limits, ROOT};

/// One book and the lengths of the two buffers lent with it.
#[derive(Clone, Debug, PartialEq, Eq)]
pub struct Case {
    pub book: Vec<u8>,
    pub rows_len: usize,
    pub choice_len: usize,
}

#[derive(Clone, Copy)]
pub struct Size {
    pub points: u64,
    pub classes: u64,
    pub instruments: u64,
    pub positions: u64,
}

pub const FULL: Size = Size {
    points: 201,
    classes: 24,
    instruments: 64,
    positions: 256,
};

/// The same seed and index always give the same case.
pub fn case(seed: u64, index: u64) -> Case {
    let mut random = Random::new(seed, index);
    // A fixed share of large books: they take nearly all the time.
    let size = match index % 100 {
        0..=2 => large(&mut random),
        3..=14 => sized(&mut random, 101, 24, 64, 128),
        15..=39 => sized(&mut random, 7, 3, 3, 6),
        _ => sized(&mut random, 31, 8, 12, 24),
    };
    let mut book = sound(&mut random, size).concat();
    if random.chance(62) {
        faults::damage(&mut random, &mut book);
    }
    let (rows_len, choice_len) = buffers(&mut random, size);
    Case {
        book,
        rows_len,
        choice_len,
    }
}

/// A sound book small enough for every choice to be tried.
pub fn tiny(seed: u64, index: u64) -> Vec<u8> {
    let mut random = Random::new(seed, index);
    let size = sized(&mut random, 7, 3, 3, 6);
    sound(&mut random, size).concat()
}

fn large(random: &mut Random) -> Size {
    if random.chance(50) {
        return FULL;
    }
    Size {
        points: 2 * random.between(75, 100) + 1,
        classes: random.between(12, 24),
        instruments: random.between(32, 64),
        positions: random.between(64, 256),
    }
}

/// A size up to the given ends; points are odd and at least 3.
fn sized(random: &mut Random, points: u64, classes: u64, instruments: u64, positions: u64) -> Size {
    let wide = points > 7 && random.chance(3);
    let points = if wide { 201 } else { points };
    let classes = random.between(0, classes);
    let instruments = if classes == 0 {
        0
    } else {
        random.between(0, instruments)
    };
    let positions = if instruments == 0 {
        0
    } else {
        random.between(0, positions)
    };
    Size {
        points: 2 * random.between(1, (points - 1) / 2) + 1,
        classes,
        instruments,
        positions,
    }
}

/// What a book's records have in common, so that ties come up on purpose.
struct Taste {
    values: u64,
    tied: bool,
    product: u64,
    share: u64,
    amounts: [u64; 4],
    positions: u64,
}

fn taste(random: &mut Random, points: u64) -> Taste {
    let values = random.below(6);
    Taste {
        values,
        tied: random.chance(35),
        product: random.between(1, 3),
        share: share(random, points),
        amounts: [100_000_000, 100_000_000, 500_000, 50_000].map(|end| value(random, values, end)),
        positions: random.below(5),
    }
}

fn sound(random: &mut Random, size: Size) -> Vec<Record> {
    let taste = taste(random, size.points);
    let shape = random.below(7);
    let placing = random.below(4);
    let mut records = Vec::new();
    for number in 0..size.classes {
        let parent = parent(random, shape, number);
        let own = if taste.tied {
            taste.share
        } else {
            share(random, size.points)
        };
        records.push(encode::class(parent, size.points, own));
    }
    let mut products = Vec::new();
    for item in 0..size.instruments {
        let class = placed(random, placing, item, size.classes);
        let record = instrument(random, &taste, class);
        products.push(u64::from(record[1]));
        records.push(record);
    }
    for number in 0..size.positions {
        records.push(position(random, &taste, number, &products));
    }
    records
}

/// Chain, star, many roots, forest, wide tree, two children each, any tree.
fn parent(random: &mut Random, shape: u64, number: u64) -> u64 {
    if number == 0 {
        return ROOT;
    }
    match shape {
        0 => number - 1,
        1 => 0,
        2 => ROOT,
        3 if random.chance(30) => ROOT,
        4 => random.below(number.min(3)),
        5 => (number - 1) / 2,
        _ => random.below(number),
    }
}

fn placed(random: &mut Random, placing: u64, item: u64, classes: u64) -> u64 {
    match placing {
        0 => classes - 1,
        1 => item % classes,
        2 => random.below(classes.min(2)),
        _ => random.below(classes),
    }
}

/// Shares of the paper, the ends, and shares that just give or just miss a width.
pub fn share(random: &mut Random, points: u64) -> u64 {
    let edge = 10_000 * random.between(0, points) / points;
    match random.below(8) {
        0 => 0,
        1 => 10_000,
        2 => random.pick(&[4000, 1500, 2200, 1, 9999]),
        3 => edge,
        4 => (edge + 1).min(10_000),
        5 => random.below(1000),
        _ => random.between(0, 10_000),
    }
}

/// A value from 0 to the end: extreme, coarse (so that halves come up), small or any.
pub fn value(random: &mut Random, values: u64, end: u64) -> u64 {
    let values = if random.chance(25) {
        random.below(6)
    } else {
        values
    };
    match values {
        0 => random.pick(&[0, 1, end - 1, end]),
        1 => random.below(end / 50 + 1) * 50,
        2 => random.below(end / 5_000 + 1) * 5_000,
        3 => random.below(end.min(30)),
        _ => random.between(0, end),
    }
}

fn instrument(random: &mut Random, taste: &Taste, class: u64) -> Record {
    let kept = taste.tied && random.chance(80);
    let product = if kept {
        taste.product
    } else {
        random.between(1, 3)
    };
    let limits = limits(product).expect("products are 1 to 3");
    let ends = [limits.price, limits.price, limits.par, limits.adj];
    let mut amounts = taste.amounts;
    for k in 0..4 {
        if !kept || random.chance(20) {
            amounts[k] = value(random, taste.values, ends[k]);
        }
    }
    let usual = random.pick(&[1, 30, 45, 90, 91, 180, 360, 366]);
    let days = match product {
        1 if random.chance(70) => usual,
        1 => random.between(1, 366),
        _ => 0,
    };
    encode::instrument(product, class, days, amounts)
}

/// Any; pairs that cancel; one instrument with the largest quantities; one each; equal.
fn position(random: &mut Random, taste: &Taste, number: u64, products: &[u64]) -> Record {
    let count = products.len() as u64;
    let any = random.below(count);
    let (side, item, quantity) = match taste.positions {
        0 => (
            1 + number % 2,
            number / 2 % count,
            1 + (number / 2 * 37) % 1_000_000,
        ),
        1 => (one_sided(taste.product, number), 0, 1_000_000),
        2 => (
            random.between(1, 2),
            number % count,
            random.between(1, 1_000_000),
        ),
        3 => (random.between(1, 2), any, random.pick(&[1, 2, 700, 1000])),
        _ => (
            random.between(1, 2),
            any,
            1 + value(random, taste.values, 999_999),
        ),
    };
    let highest = limits(products[item as usize]).map_or(0, |limits| limits.price);
    if random.chance(50) {
        return encode::position(side, item, quantity, 0, 0);
    }
    encode::position(
        side,
        item,
        quantity,
        value(random, taste.values, highest),
        1,
    )
}

/// All bought, all sold, or some of both: the first two give the largest totals.
fn one_sided(taste: u64, number: u64) -> u64 {
    match taste {
        1 | 2 => taste,
        _ => 1 + number / 3 % 2,
    }
}

/// Exact, longer, or short, in each buffer or in both.
fn buffers(random: &mut Random, size: Size) -> (usize, usize) {
    let rows = (size.classes * size.points) as usize;
    let choice = (size.classes + size.instruments) as usize;
    let longer = |random: &mut Random| random.pick(&[0, 0, 1, 2, 7, 40]);
    let (more_rows, more_choice) = (longer(random), longer(random));
    match random.below(20) {
        0 => (rows.saturating_sub(1), choice + more_choice),
        1 | 2 => (rows + more_rows, choice.saturating_sub(1)),
        3 => (rows.saturating_sub(1), choice.saturating_sub(1)),
        4 => (rows / 2, choice / 2 + more_choice),
        5 => (rows + more_rows, 0),
        6 => (0, choice + more_choice),
        _ => (rows + more_rows, choice + more_choice),
    }
}
