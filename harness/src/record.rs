//! The records of a book, and the refusals of codes 1 to 8 in the paper's order.

pub const RECORD: usize = 32;
pub const ROOT: u64 = 65_535;

#[derive(Clone, Copy, Debug, PartialEq, Eq)]
pub enum Kind {
    Class,
    Instrument,
    Position,
}

/// First and last byte, both counted.
pub type Bytes = (usize, usize);

/// What the paper says of a kind's records, apart from their fields' ranges.
pub struct Form {
    pub kind: Kind,
    pub letter: u8,
    /// Kinds stand in a book by rising rank, whatever their letters.
    pub rank: usize,
    /// At most so many in a book.
    pub most: usize,
    pub reserved: &'static [Bytes],
    /// All but the letter.
    pub fields: &'static [Bytes],
    /// The kind that the reference is to.
    pub names: Kind,
    pub words: &'static str,
}

/// The bytes of the reference, in every kind.
pub const REFERENCE: Bytes = (2, 3);

/// One row a kind.
pub const KINDS: [Form; 3] = [
    Form {
        kind: Kind::Class,
        letter: b'C',
        rank: 0,
        most: 24,
        reserved: &[(1, 1), (8, 31)],
        fields: &[REFERENCE, (4, 5), (6, 7)],
        names: Kind::Class,
        words: "a class",
    },
    Form {
        kind: Kind::Instrument,
        letter: b'I',
        rank: 1,
        most: 64,
        reserved: &[(6, 7), (24, 31)],
        fields: &[
            (1, 1),
            REFERENCE,
            (4, 5),
            (8, 11),
            (12, 15),
            (16, 19),
            (20, 23),
        ],
        names: Kind::Class,
        words: "an instrument",
    },
    Form {
        kind: Kind::Position,
        letter: b'P',
        rank: 2,
        most: 256,
        reserved: &[(13, 31)],
        fields: &[(1, 1), REFERENCE, (4, 7), (8, 11), (12, 12)],
        names: Kind::Instrument,
        words: "a position",
    },
];

impl Kind {
    pub fn form(self) -> &'static Form {
        let row = KINDS.iter().find(|form| form.kind == self);
        row.expect("each kind has its row")
    }

    pub fn letter(self) -> u8 {
        self.form().letter
    }
}

/// The form of a letter's records; none for a letter of no kind.
pub fn form(letter: u8) -> Option<&'static Form> {
    KINDS.iter().find(|form| form.letter == letter)
}

pub struct Class {
    pub parent: Option<usize>,
    pub points: usize,
    pub share: u64,
}

pub struct Instrument {
    pub product: u64,
    pub class: usize,
    pub days: i128,
    pub today: i128,
    pub before: i128,
    pub par: i128,
    pub adj: i128,
}

pub struct Position {
    pub sold: bool,
    pub instrument: usize,
    pub quantity: i128,
    pub price: i128,
    pub traded_today: bool,
}

#[derive(Default)]
pub struct Book {
    pub classes: Vec<Class>,
    pub instruments: Vec<Instrument>,
    pub positions: Vec<Position>,
}

impl Book {
    /// All classes have the same points; a book without classes has none.
    pub fn points(&self) -> usize {
        self.classes.first().map_or(0, |class| class.points)
    }

    pub fn count(&self, kind: Kind) -> usize {
        match kind {
            Kind::Class => self.classes.len(),
            Kind::Instrument => self.instruments.len(),
            Kind::Position => self.positions.len(),
        }
    }

    /// Entries of the rows buffer: one row a class.
    pub fn rows_len(&self) -> usize {
        self.classes.len() * self.points()
    }

    /// Entries of the choice buffer: one point a class, then one an instrument.
    pub fn choice_len(&self) -> usize {
        self.classes.len() + self.instruments.len()
    }
}

#[derive(Clone, Copy, Debug, PartialEq, Eq)]
pub struct Refusal {
    pub code: u64,
    pub place: u64,
}

/// The product's field ranges; every range but the days' begins at 0.
pub struct Limits {
    pub days: (u64, u64),
    pub price: u64,
    pub par: u64,
    pub adj: u64,
}

pub fn limits(product: u64) -> Option<Limits> {
    let (days, price, par, adj) = match product {
        1 => ((1, 366), 100_000_000, 10_000_000, 1_000_000),
        2 => ((0, 0), 200_000_000, 10_000_000, 1_000_000),
        3 => ((0, 0), 200_000_000, 500_000, 50_000),
        _ => return None,
    };
    Some(Limits {
        days,
        price,
        par,
        adj,
    })
}

/// The little endian number in the bytes first to last, both counted.
pub fn field(record: &[u8], first: usize, last: usize) -> u64 {
    let mut value = 0;
    for at in (first..=last).rev() {
        value = value * 256 + u64::from(record[at]);
    }
    value
}

/// The number of the record that this one names.
pub fn number_named(record: &[u8]) -> u64 {
    field(record, REFERENCE.0, REFERENCE.1)
}

pub fn decode(bytes: &[u8]) -> Result<Book, Refusal> {
    let whole = bytes.len() / RECORD;
    if !bytes.len().is_multiple_of(RECORD) {
        return Err(Refusal {
            code: 1,
            place: whole as u64,
        });
    }
    let mut book = Book::default();
    let mut rank_before = 0;
    for (number, record) in bytes.chunks_exact(RECORD).enumerate() {
        let form = sound_form(record, rank_before, &book).map_err(|code| Refusal {
            code,
            place: number as u64,
        })?;
        add(&mut book, form.kind, record);
        rank_before = form.rank;
    }
    Ok(book)
}

/// The record's form, or the first of codes 2 to 8 that fits it.
fn sound_form(record: &[u8], rank_before: usize, book: &Book) -> Result<&'static Form, u64> {
    let form = form(record[0]).ok_or(2u64)?;
    if form.rank < rank_before {
        return Err(3);
    }
    if book.count(form.kind) == form.most {
        return Err(4);
    }
    if !reserved_is_zero(form, record) {
        return Err(5);
    }
    if !reference_is_good(form, record, book) {
        return Err(6);
    }
    if !fields_in_range(form.kind, record, book) {
        return Err(7);
    }
    if form.kind == Kind::Class && !points_agree(record, book) {
        return Err(8);
    }
    Ok(form)
}

fn reserved_is_zero(form: &Form, record: &[u8]) -> bool {
    let mut runs = form.reserved.iter();
    runs.all(|&(first, last)| record[first..=last].iter().all(|&byte| byte == 0))
}

/// A class names a smaller class or none; the others name a record before them.
fn reference_is_good(form: &Form, record: &[u8], book: &Book) -> bool {
    let named = number_named(record);
    let is_root = form.kind == Kind::Class && named == ROOT;
    is_root || named < book.count(form.names) as u64
}

fn fields_in_range(kind: Kind, record: &[u8], book: &Book) -> bool {
    match kind {
        Kind::Class => class_in_range(record),
        Kind::Instrument => instrument_in_range(record),
        Kind::Position => position_in_range(record, book),
    }
}

fn class_in_range(record: &[u8]) -> bool {
    let points = field(record, 4, 5);
    let share = field(record, 6, 7);
    (3..=201).contains(&points) && points % 2 == 1 && share <= 10_000
}

fn instrument_in_range(record: &[u8]) -> bool {
    let Some(limits) = limits(field(record, 1, 1)) else {
        return false;
    };
    let days = field(record, 4, 5);
    days >= limits.days.0
        && days <= limits.days.1
        && field(record, 8, 11) <= limits.price
        && field(record, 12, 15) <= limits.price
        && field(record, 16, 19) <= limits.par
        && field(record, 20, 23) <= limits.adj
}

fn position_in_range(record: &[u8], book: &Book) -> bool {
    let side = field(record, 1, 1);
    let quantity = field(record, 4, 7);
    let price = field(record, 8, 11);
    let traded = field(record, 12, 12);
    let product = book.instruments[number_named(record) as usize].product;
    let highest = limits(product).map_or(0, |limits| limits.price);
    (side == 1 || side == 2)
        && (1..=1_000_000).contains(&quantity)
        && price <= highest
        && (traded == 1 || (traded == 0 && price == 0))
}

fn points_agree(record: &[u8], book: &Book) -> bool {
    book.classes.is_empty() || field(record, 4, 5) == book.points() as u64
}

fn add(book: &mut Book, kind: Kind, record: &[u8]) {
    let number = |first, last| i128::from(field(record, first, last));
    let named = number_named(record) as usize;
    match kind {
        Kind::Class => book.classes.push(Class {
            parent: (named as u64 != ROOT).then_some(named),
            points: field(record, 4, 5) as usize,
            share: field(record, 6, 7),
        }),
        Kind::Instrument => book.instruments.push(Instrument {
            product: field(record, 1, 1),
            class: named,
            days: number(4, 5),
            today: number(8, 11),
            before: number(12, 15),
            par: number(16, 19),
            adj: number(20, 23),
        }),
        Kind::Position => book.positions.push(Position {
            sold: field(record, 1, 1) == 2,
            instrument: named,
            quantity: number(4, 7),
            price: number(8, 11),
            traded_today: field(record, 12, 12) == 1,
        }),
    }
}
