//! The numbers stated in the paper itself, and small sums done by hand.

use harness::encode;
use harness::record::decode;
use harness::second::{self, kroner, rounded, width};

/// One root, one instrument, one contract.
fn one(points: u64, product: u64, days: u64, amounts: [u64; 4], side: u64) -> Vec<u8> {
    [
        encode::class(65_535, points, 4000),
        encode::instrument(product, 0, days, amounts),
        encode::position(side, 0, 1, 0, 0),
    ]
    .concat()
}

#[test]
fn whole_listing() {
    let wanted = "MTM 25280.00\nNAKED -1804839.00\nCROSS -955501.00\n\
                  CLASS 0 6\nITEM 0 0 -1061670.00\nITEM 1 12 106169.00\n";
    assert_eq!(second::listing(&encode::example()), wanted);
}

#[test]
fn other_listings() {
    assert_eq!(second::listing(&[]), "MTM 0.00\nNAKED 0.00\nCROSS 0.00\n");
    assert_eq!(second::listing(b"C"), "REFUSED 1 0\n");
    assert_eq!(second::listing(&encode::example()[..65]), "REFUSED 1 2\n");
    let long = encode::position(1, 0, 1, 0, 0).repeat(400);
    assert_eq!(second::listing(&long), "REFUSED 6 0\n");
    assert_eq!(second::listing(&long[..long.len() - 1]), "REFUSED 1 399\n");
}

#[test]
fn kroner_of_ore() {
    let texts = [
        (-5, "-0.05"),
        (0, "0.00"),
        (5, "0.05"),
        (-100, "-1.00"),
        (12_345, "123.45"),
    ];
    for (ore, text) in texts {
        assert_eq!(kroner(ore), text);
    }
}

#[test]
fn widths() {
    let sums = [
        (4000, 31, 13),
        (1500, 201, 31),
        (2200, 201, 45),
        (0, 31, 1),
        (10_000, 31, 31),
    ];
    for (share, points, wanted) in sums {
        assert_eq!(width(share, points), wanted);
    }
    // 400 of 25 points is 1 exactly; one hundredth of a percent more needs 3.
    assert_eq!((width(400, 25), width(401, 25), width(800, 25)), (1, 3, 3));
    assert_eq!((width(1200, 25), width(1201, 25)), (3, 5));
}

#[test]
fn roundings() {
    assert_eq!((rounded(1, 2), rounded(-1, 2), rounded(1, 3)), (1, -1, 0));
    assert_eq!((rounded(3, 2), rounded(-3, 2), rounded(5, 2)), (2, -2, 3));
    assert_eq!((rounded(-2, 3), rounded(-1, 3), rounded(6, 3)), (-1, 0, 2));
}

/// The sentence itself: no whole number is nearer, and of two equally near it is the one away from zero.
fn is_nearest(numerator: i128, denominator: i128, given: i128) -> bool {
    let away = |whole: i128| (numerator - whole * denominator).abs();
    let others = [given - 1, given + 1];
    let is_farther = |other: i128| given.abs() > other.abs();
    others
        .into_iter()
        .all(|other| away(given) < away(other) || (away(given) == away(other) && is_farther(other)))
}

#[test]
fn roundings_of_small_fractions() {
    for denominator in 1..=60 {
        for numerator in -400..=400 {
            let given = rounded(numerator, denominator);
            assert!(
                is_nearest(numerator, denominator, given),
                "{numerator}/{denominator}"
            );
        }
    }
}

/// A half and its neighbours, as large as the paper's limits make them.
#[test]
fn roundings_of_large_fractions() {
    for whole in [-400_000_000_000_007, -1, 0, 1, 400_000_000_000_007] {
        for (half, less) in [(36_000, -1), (36_000, 0), (36_000, 1), (100_000_000, 0)] {
            let numerator = 2 * half * whole + half + less;
            let given = rounded(numerator, 2 * half);
            assert!(is_nearest(numerator, 2 * half, given), "{numerator}");
        }
    }
}

#[test]
fn amounts_of_one_contract() {
    let fra = one(31, 1, 91, [3_700_000, 0, 400_000, 20_000], 1);
    for (point, wanted) in [(0, -106_167), (15, -5056), (16, 1685)] {
        assert_eq!(second::amount_at(&fra, 0, point), Some(wanted));
    }
    let future = one(31, 2, 0, [96_300_000, 0, 400_000, 20_000], 1);
    assert_eq!(second::amount_at(&future, 0, 16), Some(-11_675));
    let bond = one(31, 3, 0, [101_700_000, 0, 30_000, 1_000], 1);
    assert_eq!(second::run(&bond, 31, 2).naked, -3_152_700);
}

/// Minus [(Par + Adj) days / 360], minus 25 [(Par + Adj) / 100], minus
/// [fixing (Par + Adj) / 1,000,000], on either side.
#[test]
fn naked_of_one_contract() {
    for points in [3, 5, 31, 201] {
        for (par, adj) in [
            (400_000, 20_000),
            (1, 0),
            (0, 0),
            (0, 49),
            (50, 0),
            (499_999, 49_999),
        ] {
            for side in [1, 2] {
                let naked = |product, days, fixing| {
                    let book = one(points, product, days, [fixing, 0, par, adj], side);
                    i128::from(second::run(&book, 201, 2).naked)
                };
                let sum = i128::from(par + adj);
                assert_eq!(naked(1, 91, 1), -rounded(sum * 91, 360));
                assert_eq!(naked(2, 0, 1), -25 * rounded(sum, 100));
                assert_eq!(
                    naked(3, 0, 101_700_003),
                    -rounded(101_700_003 * sum, 1_000_000)
                );
            }
        }
    }
}

/// d is 10 for the carried and 7 for the traded: 10 * 180 / 360 is 5, 7 / 2 is 4
/// rounded; 10 / 4 is 3 rounded, 7 / 4 is 2; product 3 takes d itself.
#[test]
fn marks() {
    for (product, days, carried, traded) in [(1, 180, 5, 4), (2, 0, 3, 2), (3, 0, 10, 7)] {
        let mark = |side, price, today| {
            let book = [
                encode::class(65_535, 3, 0),
                encode::instrument(product, 0, days, [110, 100, 5, 5]),
                encode::position(side, 0, 3, price, today),
            ]
            .concat();
            second::run(&book, 3, 2).mark
        };
        assert_eq!((mark(1, 0, 0), mark(2, 0, 0)), (3 * carried, -3 * carried));
        assert_eq!(
            (mark(1, 103, 1), mark(2, 103, 1)),
            (3 * traded, -3 * traded)
        );
    }
    // A traded price of 0 is a price.
    let record = encode::position(1, 0, 1, 0, 1);
    let future = encode::instrument(3, 0, 0, [110, 100, 0, 0]);
    let book = [encode::class(65_535, 3, 0), future, record].concat();
    assert_eq!(second::run(&book, 3, 2).mark, 110);
}

/// A root that reaches nothing over a class that reaches one point.
/// Item 0 has -10, 0, 10 in class 1; item 1 has 4, 0, -4 in class 0.
#[test]
fn two_layers() {
    let book = [
        encode::class(65_535, 3, 0),
        encode::class(0, 3, 10_000),
        encode::instrument(3, 1, 0, [1_000_000, 0, 10, 0]),
        encode::instrument(3, 0, 0, [1_000_000, 0, 4, 0]),
        encode::position(1, 0, 1, 0, 0),
        encode::position(2, 1, 1, 0, 0),
    ]
    .concat();
    let outcome = second::run(&book, 6, 4);
    assert_eq!(outcome.rows, [-6, -10, -4, -10, -10, 0]);
    assert_eq!(outcome.choice, [1, 1, 0, 1]);
    assert_eq!(outcome.answer(), [0, 0, 0, -14, -10]);
}

/// A net of zero, and a class without children: zeros, lowest-numbered points.
#[test]
fn zeros() {
    let book = [
        encode::class(65_535, 5, 2000),
        encode::class(65_535, 5, 0),
        encode::instrument(1, 0, 91, [1, 1, 400_000, 20_000]),
        encode::position(1, 0, 7, 0, 0),
        encode::position(2, 0, 7, 0, 0),
    ]
    .concat();
    let outcome = second::run(&book, 10, 3);
    assert_eq!((outcome.rows, outcome.choice), (vec![0; 10], vec![0; 3]));
    assert_eq!((outcome.naked, outcome.cross), (0, 0));
    assert!(decode(&book).is_ok());
}
