//! Sums that leave the signed 64-bit numbers are seen, whatever the build.

use harness::ore::Ore;

#[test]
fn sums_at_the_ends() {
    let highest = Ore::whole(i128::from(i64::MAX));
    let lowest = Ore::whole(i128::from(i64::MIN));
    assert_eq!((highest + lowest).number(), -1);
    assert_eq!((highest + Ore::ZERO).number(), i64::MAX);
}

#[test]
#[should_panic(expected = "left the signed 64-bit numbers")]
fn a_sum_past_the_highest() {
    let _ = Ore::whole(i128::from(i64::MAX)) + Ore::whole(1);
}

#[test]
#[should_panic(expected = "left the signed 64-bit numbers")]
fn a_sum_past_the_lowest() {
    let mut sum = Ore::whole(i128::from(i64::MIN));
    sum += Ore::whole(-1);
}

#[test]
#[should_panic(expected = "left the signed 64-bit numbers")]
fn an_amount_past_the_highest() {
    let _ = Ore::whole(i128::from(i64::MAX) + 1);
}
