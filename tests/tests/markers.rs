//! What a marker holds once a value is written to it: the nearest whole unit, halves away from zero.

use reference::value::{in_range, Rounding, TOP, UNIT};

#[test]
fn a_half_goes_away_from_zero_and_the_rest_to_the_nearest_unit() {
    for units in [0, 1, 2, 3, 7, 100, 999_999] {
        for (fraction, more) in [(0, 0), (1, 0), (499, 0), (500, 1), (501, 1), (999, 1)] {
            let value = units * UNIT + fraction;
            let expected = (units + more) * UNIT;
            assert_eq!(Rounding::Nearest.units(value), expected);
            assert_eq!(Rounding::Nearest.units(-value), -expected);
        }
    }
}

#[test]
fn rounding_stays_in_the_range() {
    for value in (TOP - 2 * UNIT..=TOP).chain(-TOP..=-TOP + 2 * UNIT) {
        let units = Rounding::Nearest.units(value);
        assert!(in_range(units) && units % UNIT == 0 && 2 * (units - value).abs() <= UNIT);
    }
}
