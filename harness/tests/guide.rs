//! The numbers of the Danish guide, copied from its tables.

use harness::encode;
use harness::second;

/// The vector file of CFRAU9, 1,000 bought, in kroner.
const CFRAU9: [i64; 31] = [
    -1_061_670, -994_260, -926_850, -859_440, -792_040, -724_630, -657_220, -589_810, -522_410,
    -455_000, -387_590, -320_190, -252_780, -185_370, -117_960, -50_560, 16_850, 84_260, 151_670,
    219_070, 286_480, 353_890, 421_300, 488_700, 556_110, 623_520, 690_930, 758_330, 825_740,
    893_150, 960_560,
];

/// The vector file of CFRAH9, 700 sold, in kroner.
const CFRAH9: [i64; 31] = [
    672_392, 625_205, 578_018, 530_831, 483_651, 436_464, 389_277, 342_090, 294_910, 247_723,
    200_536, 153_349, 106_169, 58_982, 11_795, -35_392, -82_572, -129_759, -176_946, -224_133,
    -271_313, -318_500, -365_687, -412_867, -460_054, -507_241, -554_428, -601_608, -648_795,
    -695_982, -743_169,
];

/// The guide's last table, the whole result vector, in kroner.
const RESULT: [i64; 31] = [
    -672_393, -719_580, -766_760, -813_947, -861_134, -908_321, -955_501, -935_278, -915_055,
    -894_832, -874_612, -854_389, -834_166, -813_943, -793_723, -773_500, -753_277, -733_057,
    -712_834, -692_611, -672_388, -652_168, -631_945, -611_722, -591_499, -524_099, -456_689,
    -389_279, -321_869, -254_469, -187_059,
];

#[test]
fn vector_files() {
    let book = encode::example();
    for point in 0..31 {
        assert_eq!(
            second::amount_at(&book, 0, point),
            Some(100 * CFRAU9[point]),
            "{point}"
        );
        assert_eq!(
            second::amount_at(&book, 1, point),
            Some(100 * CFRAH9[point]),
            "{point}"
        );
    }
    assert_eq!(second::amount_at(&book, 0, 31), None);
    assert_eq!(second::amount_at(&book, 2, 0), None);
}

#[test]
fn result_vector() {
    let outcome = second::run(&encode::example(), 31, 3);
    assert_eq!(outcome.rows, RESULT.map(|kroner| 100 * kroner));
    assert_eq!(outcome.cross, -95_550_100);
}

/// The two nodes of the result table: 3,30 % is node 0, 3,72 % node 12.
#[test]
fn chosen_nodes() {
    assert_eq!(second::run(&encode::example(), 31, 3).choice, [6, 0, 12]);
}

/// 100 bought MBFH9 at 101,8, fixing 101,7, Par 3 %, Adj 0,1 %.
#[test]
fn mortgage_bond_future() {
    for points in [3, 31, 201] {
        let book = [
            encode::class(65_535, points, 4000),
            encode::instrument(3, 0, 0, [101_700_000, 1, 30_000, 1_000]),
            encode::position(1, 0, 100, 101_800_000, 1),
        ]
        .concat();
        let outcome = second::run(&book, 201, 2);
        assert_eq!(
            outcome.answer(),
            [0, 0, -10_000_000, -315_270_000, -315_270_000]
        );
        let text = second::listing(&book);
        assert!(text.starts_with("MTM -100000.00\nNAKED -3152700.00\nCROSS -3152700.00\n"));
    }
}

/// Sold the loss is the same, and the mark-to-market is the negative.
#[test]
fn mortgage_bond_future_sold() {
    let book = [
        encode::class(65_535, 31, 4000),
        encode::instrument(3, 0, 0, [101_700_000, 101_800_000, 30_000, 1_000]),
        encode::position(2, 0, 100, 0, 0),
    ]
    .concat();
    let outcome = second::run(&book, 31, 2);
    assert_eq!(
        outcome.answer(),
        [0, 0, 10_000_000, -315_270_000, -315_270_000]
    );
}
