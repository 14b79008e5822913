//! Øre as kroner.

use desk::Kroner;

#[test]
fn two_decimals_and_a_minus_before_negatives_only() {
    for (amount, text) in [
        (0, "0.00"),
        (5, "0.05"),
        (-5, "-0.05"),
        (-99, "-0.99"),
        (100, "1.00"),
        (-100, "-1.00"),
        (-10_010, "-100.10"),
        (i64::MAX, "92233720368547758.07"),
        (i64::MIN, "-92233720368547758.08"),
    ] {
        assert_eq!(Kroner(amount).to_string(), text);
    }
}

#[test]
fn columns() {
    assert_eq!(
        format!("{:9}|{:<9}|", Kroner(-1205), Kroner(5)),
        "   -12.05|0.05     |"
    );
}
