//! The program under test: the static library, linked through its Rust package.

/// Code, place, mark-to-market, naked and cross margin; the buffers are lent.
pub fn run(book: &[u8], rows: &mut [i64], choice: &mut [u16]) -> [i64; 5] {
    let desk::lent::Answer {
        code,
        place,
        totals,
    } = desk::lent::answer(book, rows, choice);
    [
        code as i64,
        place as i64,
        totals.mark,
        totals.naked,
        totals.cross,
    ]
}
