//! Doubles as exact fractions, from their bits and to them.

use reference::doubles::{self, ExactReport, Parts, Report};
use reference::rng::Rng;

#[test]
fn the_parts_of_a_double() {
    let parts = |negative, significand, exponent| Some(Parts { negative, significand, exponent });
    assert_eq!(doubles::parts(1.0), parts(false, 1 << 52, -52));
    assert_eq!(doubles::parts(-1.75), parts(true, 7 << 50, -52));
    assert_eq!(doubles::parts(0.0), parts(false, 0, -1_074));
    assert_eq!(doubles::parts(-0.0), parts(true, 0, -1_074));
    assert_eq!(doubles::parts(f64::from_bits(1)), parts(false, 1, -1_074));
    assert_eq!(doubles::parts(f64::MIN_POSITIVE), parts(false, 1 << 52, -1_074));
    assert_eq!(doubles::parts(f64::MAX), parts(false, (1 << 53) - 1, 971));
    for double in [f64::NAN, f64::INFINITY, f64::NEG_INFINITY] {
        assert_eq!(doubles::parts(double), None);
    }
}

#[test]
fn the_numerator_of_a_double() {
    for (double, numerator) in [
        (0.0, Some(0)),
        (-0.0, Some(0)),
        (1.0, Some(1 << 20)),
        (-1.75, Some(-7 << 18)),
        (5696.0, Some(5_972_688_896)),
        (f64::from_bits(0x3eb0_0000_0000_0000), Some(1)),
        (f64::from_bits(0x3ea0_0000_0000_0000), None),
        (f64::from_bits(0x3eb8_0000_0000_0000), None),
        (f64::from_bits(1), None),
        (f64::from_bits(0x4680_0000_0000_0000), Some(1 << 125)),
        (f64::from_bits(0x4690_0000_0000_0000), None),
        (f64::MAX, None),
        (f64::NAN, None),
        (f64::NEG_INFINITY, None),
    ] {
        assert_eq!(doubles::numerator(double), numerator, "{double:e}");
    }
}

/// A fraction of at most 53 bits is a double, the one that division gives too,
/// and is had back from its bits.
#[test]
fn a_fraction_and_its_double_there_and_back() {
    let assert_same = |size: i128| {
        for numerator in [size, -size] {
            let double = doubles::over_2_to_20(numerator);
            assert_eq!(doubles::numerator(double), Some(numerator));
            assert_eq!(double.to_bits(), (numerator as f64 / 1_048_576.0).to_bits());
            assert_eq!(double.is_sign_negative(), numerator < 0, "no -0");
        }
    };
    for power in 0..=53 {
        for size in [(1 << power) - 1, 1 << power, (1 << power) + 1] {
            if size <= 1 << 53 {
                assert_same(size);
            }
        }
    }
    let mut rng = Rng::new(5);
    for _ in 0..20_000 {
        let bits = rng.below(53);
        assert_same(i128::from(rng.number() & ((2 << bits) - 1)));
    }
}

#[test]
#[should_panic(expected = "over 53 bits")]
fn a_fraction_of_54_bits_is_no_double() {
    doubles::over_2_to_20((1 << 53) + 1);
}

/// Reports are told apart by their bits.
#[test]
fn a_report_is_equal_bit_by_bit() {
    let report = |largest: f64| Report { mean: 0.0, pending: 0.0, largest };
    assert_eq!(report(0.0), report(0.0));
    assert_ne!(report(0.0), report(-0.0));
    assert_eq!(report(f64::NAN), report(f64::NAN));
    assert_eq!(report(f64::NAN).exact(), None);
}

#[test]
fn a_report_and_its_fractions() {
    let exact = ExactReport { mean: 5_972_688_896, pending: 10 << 20, largest: -7 << 18 };
    let report = Report { mean: 5696.0, pending: 10.0, largest: -1.75 };
    assert_eq!(exact.report(), report);
    assert_eq!(report.exact(), Some(exact));
    assert_eq!(report.array(), [5696.0, 10.0, -1.75]);
    let nothing = ExactReport { mean: 0, pending: 0, largest: 0 };
    assert_eq!(nothing.report().bits(), [0; 3]);
}
