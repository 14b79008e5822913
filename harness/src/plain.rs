//! The plain program that ours is timed against: each figure worked once, every window rescanned, nothing clever.

use std::ops::Range;

const RECORD: usize = 32;
const ROOT: usize = 65_535;
const MOST_CLASSES: usize = 24;
const MOST_INSTRUMENTS: usize = 64;
const MOST_POSITIONS: usize = 256;

type Record = [u8; RECORD];

/// A refusal's code and place.
type Refusal = (i64, usize);

/// Code, place, mark-to-market, naked and cross margin; a refusal leaves the lent buffers alone.
pub fn run(book: &[u8], rows: &mut [i64], choice: &mut [u16]) -> [i64; 5] {
    match admitted(book, rows.len(), choice.len()) {
        Ok(book) => figures(&book, rows, choice),
        Err((code, place)) => [code, place as i64, 0, 0, 0],
    }
}

/// The highest values of a product's fields; of the days the lowest too.
struct Limits {
    days: (i64, i64),
    price: i64,
    par: i64,
    adj: i64,
}

const FRA: Limits = Limits {
    days: (1, 366),
    price: 100_000_000,
    par: 10_000_000,
    adj: 1_000_000,
};

const FUTURE: Limits = Limits {
    days: (0, 0),
    price: 200_000_000,
    par: 10_000_000,
    adj: 1_000_000,
};

const BOND: Limits = Limits {
    days: (0, 0),
    price: 200_000_000,
    par: 500_000,
    adj: 50_000,
};

/// What the product number decides.
struct Product {
    limits: Limits,
    /// 1 where a bought net gains as the points go up, -1 where it loses.
    bought: i64,
    /// Øre for each unit that an amount is rounded to.
    tick: i64,
    /// Factor and divisor of the amount of one contract at a point.
    amount: (i64, i64),
    /// Factor and divisor of the mark of one contract.
    mark: (i64, i64),
}

fn product(number: u8, days: i64, today: i64) -> Option<Product> {
    let (limits, bought, tick, amount, mark) = match number {
        1 => (FRA, 1, 1, (days, 360), (days, 360)),
        2 => (FUTURE, -1, 25, (1, 100), (1, 4)),
        3 => (BOND, 1, 1, (today, 1_000_000), (1, 1)),
        _ => return None,
    };
    Some(Product {
        limits,
        bought,
        tick,
        amount,
        mark,
    })
}

struct Class {
    parent: Option<usize>,
    reach: usize,
}

struct Instrument {
    product: Product,
    class: usize,
    today: i64,
    before: i64,
    par: i64,
    adj: i64,
}

struct Position {
    instrument: usize,
    /// Below zero where sold.
    quantity: i64,
    /// The contracted price, where traded today.
    price: Option<i64>,
}

struct Book {
    points: usize,
    classes: Vec<Class>,
    instruments: Vec<Instrument>,
    positions: Vec<Position>,
}

/// The kinds in the order of the book.
#[derive(Clone, Copy, PartialEq, PartialOrd)]
enum Kind {
    Class,
    Instrument,
    Position,
}

fn kind(letter: u8) -> Option<Kind> {
    match letter {
        b'C' => Some(Kind::Class),
        b'I' => Some(Kind::Instrument),
        b'P' => Some(Kind::Position),
        _ => None,
    }
}

/// The book, where codes 1 to 10 let it pass.
fn admitted(bytes: &[u8], rows: usize, choice: usize) -> Result<Book, Refusal> {
    let (records, rest) = bytes.as_chunks::<RECORD>();
    let whole = records.len();
    if !rest.is_empty() {
        return Err((1, whole));
    }
    let book = decoded(records)?;
    if rows < book.classes.len() * book.points {
        return Err((9, whole));
    }
    if choice < book.classes.len() + book.instruments.len() {
        return Err((10, whole));
    }
    Ok(book)
}

fn decoded(records: &[Record]) -> Result<Book, Refusal> {
    let mut book = Book {
        points: 0,
        classes: Vec::with_capacity(MOST_CLASSES),
        instruments: Vec::with_capacity(MOST_INSTRUMENTS),
        positions: Vec::with_capacity(MOST_POSITIONS),
    };
    let mut before = Kind::Class;
    for (place, record) in records.iter().enumerate() {
        before = book.add(record, before).map_err(|code| (code, place))?;
    }
    Ok(book)
}

fn two(record: &Record, at: usize) -> usize {
    usize::from(u16::from_le_bytes([record[at], record[at + 1]]))
}

fn four(record: &Record, at: usize) -> i64 {
    let bytes = [record[at], record[at + 1], record[at + 2], record[at + 3]];
    i64::from(u32::from_le_bytes(bytes))
}

fn zero(bytes: &[u8]) -> bool {
    bytes.iter().all(|&byte| byte == 0)
}

fn unless(fault: bool, code: i64) -> Result<(), i64> {
    if fault {
        Err(code)
    } else {
        Ok(())
    }
}

impl Book {
    /// Takes in a record and gives its kind, or the first of codes 2 to 8 that it has.
    fn add(&mut self, record: &Record, before: Kind) -> Result<Kind, i64> {
        let kind = kind(record[0]).ok_or(2)?;
        unless(kind < before, 3)?;
        match kind {
            Kind::Class => self.add_class(record)?,
            Kind::Instrument => self.add_instrument(record)?,
            Kind::Position => self.add_position(record)?,
        }
        Ok(kind)
    }

    fn add_class(&mut self, record: &Record) -> Result<(), i64> {
        let held = self.classes.len();
        unless(held == MOST_CLASSES, 4)?;
        unless(record[1] != 0 || !zero(&record[8..]), 5)?;
        let (named, points, share) = (two(record, 2), two(record, 4), two(record, 6));
        let parent = (named != ROOT).then_some(named);
        unless(parent.is_some_and(|parent| parent >= held), 6)?;
        let odd = points % 2 == 1;
        unless(!odd || !(3..=201).contains(&points) || share > 10_000, 7)?;
        unless(held > 0 && points != self.points, 8)?;
        self.points = points;
        self.classes.push(Class {
            parent,
            reach: width(share, points) / 2,
        });
        Ok(())
    }

    fn add_instrument(&mut self, record: &Record) -> Result<(), i64> {
        unless(self.instruments.len() == MOST_INSTRUMENTS, 4)?;
        unless(!zero(&record[6..8]) || !zero(&record[24..]), 5)?;
        let class = two(record, 2);
        unless(class >= self.classes.len(), 6)?;
        let days = two(record, 4) as i64;
        let (today, before) = (four(record, 8), four(record, 12));
        let (par, adj) = (four(record, 16), four(record, 20));
        let product = product(record[1], days, today).ok_or(7)?;
        let limits = &product.limits;
        unless(days < limits.days.0 || days > limits.days.1, 7)?;
        unless(today > limits.price || before > limits.price, 7)?;
        unless(par > limits.par || adj > limits.adj, 7)?;
        self.instruments.push(Instrument {
            product,
            class,
            today,
            before,
            par,
            adj,
        });
        Ok(())
    }

    fn add_position(&mut self, record: &Record) -> Result<(), i64> {
        unless(self.positions.len() == MOST_POSITIONS, 4)?;
        unless(!zero(&record[13..]), 5)?;
        let number = two(record, 2);
        let instrument = self.instruments.get(number).ok_or(6)?;
        let (quantity, price) = (four(record, 4), four(record, 8));
        unless(!(1..=1_000_000).contains(&quantity), 7)?;
        unless(price > instrument.product.limits.price, 7)?;
        let quantity = match record[1] {
            1 => quantity,
            2 => -quantity,
            _ => return Err(7),
        };
        let price = match record[12] {
            1 => Some(price),
            0 if price == 0 => None,
            _ => return Err(7),
        };
        self.positions.push(Position {
            instrument: number,
            quantity,
            price,
        });
        Ok(())
    }
}

/// The smallest odd number not below share times points / 10,000.
fn width(share: usize, points: usize) -> usize {
    (share * points).div_ceil(10_000) | 1
}

fn figures(book: &Book, rows: &mut [i64], choice: &mut [u16]) -> [i64; 5] {
    let points = book.points;
    if points == 0 {
        // A book without classes is empty.
        return [0; 5];
    }
    let (nets, mark) = nets_and_mark(book);
    let vectors = vectors(book, &nets);
    let rows = &mut rows[..book.classes.len() * points];
    fill_rows(book, &vectors, rows);
    choose(book, &vectors, rows, choice);
    let naked = vectors.chunks_exact(points).map(lowest).sum();
    let cross = book
        .classes
        .iter()
        .zip(rows.chunks_exact(points))
        .filter(|(class, _)| class.parent.is_none())
        .map(|(_, row)| lowest(row))
        .sum();
    [0, 0, mark, naked, cross]
}

/// To the nearest whole number, halves away from zero.
fn rounded(numerator: i64, divisor: i64) -> i64 {
    let half = divisor / 2;
    let up = if numerator < 0 { -half } else { half };
    (numerator + up) / divisor
}

/// Each instrument's bought less sold quantity, and the mark-to-market of all positions.
fn nets_and_mark(book: &Book) -> (Vec<i64>, i64) {
    let mut nets = vec![0; book.instruments.len()];
    let mut mark = 0;
    for position in &book.positions {
        let instrument = &book.instruments[position.instrument];
        let (factor, divisor) = instrument.product.mark;
        let moved = instrument.today - position.price.unwrap_or(instrument.before);
        mark += position.quantity * rounded(moved * factor, divisor);
        nets[position.instrument] += position.quantity;
    }
    (nets, mark)
}

/// The amounts of every instrument at every point, one vector after the other.
fn vectors(book: &Book, nets: &[i64]) -> Vec<i64> {
    let mut vectors = vec![0; book.instruments.len() * book.points];
    let each = vectors.chunks_exact_mut(book.points);
    for ((vector, instrument), &net) in each.zip(&book.instruments).zip(nets) {
        fill_vector(vector, instrument, net);
    }
    vectors
}

fn fill_vector(vector: &mut [i64], instrument: &Instrument, net: i64) {
    let product = &instrument.product;
    let m = vector.len() as i64 - 1;
    let (factor, divisor) = (product.amount.0, product.amount.1 * m);
    let par = instrument.par * product.bought * net.signum();
    // Both sides lose the adjustment.
    let adjustment = instrument.adj * m;
    let size = product.tick * net.abs();
    for (point, amount) in vector.iter_mut().enumerate() {
        let shift = par * (2 * point as i64 - m);
        *amount = size * rounded((shift - adjustment) * factor, divisor);
    }
}

/// The points of the scale within reach of a point.
fn window(point: usize, reach: usize, points: usize) -> Range<usize> {
    point.saturating_sub(reach)..(point + reach + 1).min(points)
}

/// No window and no vector is empty.
fn lowest(entries: &[i64]) -> i64 {
    entries.iter().copied().min().unwrap_or(0)
}

/// Adds to each of a class's results the child's lowest entry within reach.
fn add_child(row: &mut [i64], child: &[i64], reach: usize) {
    for (point, result) in row.iter_mut().enumerate() {
        *result += lowest(&child[window(point, reach, child.len())]);
    }
}

fn fill_rows(book: &Book, vectors: &[i64], rows: &mut [i64]) {
    let points = book.points;
    rows.fill(0);
    for (instrument, vector) in book.instruments.iter().zip(vectors.chunks_exact(points)) {
        let row = &mut rows[instrument.class * points..][..points];
        add_child(row, vector, book.classes[instrument.class].reach);
    }
    // A child has the larger number, so the last row is whole first.
    for (number, class) in book.classes.iter().enumerate().rev() {
        if let Some(parent) = class.parent {
            let (smaller, child) = rows.split_at_mut(number * points);
            let row = &mut smaller[parent * points..][..points];
            add_child(row, &child[..points], book.classes[parent].reach);
        }
    }
}

/// The lowest-numbered point of the window with the lowest entry there: of equals min_by_key takes the first.
fn lowest_point(entries: &[i64], window: Range<usize>) -> u16 {
    window.min_by_key(|&point| entries[point]).unwrap_or(0) as u16
}

/// One point a class, then one an instrument; parents choose before children.
fn choose(book: &Book, vectors: &[i64], rows: &[i64], choice: &mut [u16]) {
    let points = book.points;
    let near =
        |point: u16, parent: usize| window(usize::from(point), book.classes[parent].reach, points);
    for (number, row) in rows.chunks_exact(points).enumerate() {
        choice[number] = match book.classes[number].parent {
            None => lowest_point(row, 0..points),
            Some(parent) => lowest_point(row, near(choice[parent], parent)),
        };
    }
    let (classes, items) = choice.split_at_mut(book.classes.len());
    for (item, vector) in vectors.chunks_exact(points).enumerate() {
        let class = book.instruments[item].class;
        items[item] = lowest_point(vector, near(classes[class], class));
    }
}
