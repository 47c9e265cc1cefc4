//! Doubles with bits in place of the numbers, so that whatever lies in the array
//! is compared, and what an accepted call of it has shown: a comparison in which
//! no two differences are of one size says nothing of the place among equals.

use crate::calls;
use crate::lent::Loan;
use reference::area::Area;
use reference::calls as reference_calls;
use reference::doubles::Report;
use reference::rng::Rng;

/// The bits of the three doubles: by them the two zeros are told apart, and
/// doubles that are no numbers from each other.
pub type Bits = [u64; 3];

/// Those of a long run. Differences of one size and unlike signs alone tell the
/// lowest place from another; a mean other than the readings' takes an altered
/// area.
pub const SEEN: [&str; 5] = [
    "doubles with nothing delivered",
    "doubles with a largest below 0",
    "doubles with several of the largest size",
    "doubles with several of the largest size, of both signs",
    "doubles with another mean than that of the readings",
];

/// Performs the library's call.
pub fn call(loan: Loan, bits: &mut Bits) -> u32 {
    let mut report = bits.map(f64::from_bits);
    let number = calls::doubles(loan, &mut report);
    *bits = report.map(f64::to_bits);
    number
}

/// What may lie in the array beforehand: any bits, at times -0, and often what is
/// no number, of both kinds and with any sign and payload.
pub fn any_bits(rng: &mut Rng) -> Bits {
    const NO_NUMBER: u64 = 0x7ff << 52;
    std::array::from_fn(|_| match rng.below(8) {
        0..=4 => rng.number(),
        5 | 6 => rng.number() | NO_NUMBER,
        _ => (-0.0f64).to_bits(),
    })
}

/// Which of the list an area and its report show.
pub fn seen(area: &Area, report: &Report) -> [bool; SEEN.len()] {
    let largest = report.exact().expect("the reference's report is exact").largest;
    let differences = reference_calls::delivered_differences(area);
    let number = |of: i128| differences.iter().filter(|(_, d)| *d == of).count();
    let (alike, unlike) = (number(largest), number(-largest));
    let sum: i128 = differences.iter().map(|(_, difference)| difference).sum();
    [
        differences.is_empty(),
        largest < 0,
        largest != 0 && alike + unlike > 1,
        largest != 0 && unlike > 0,
        sum != area.job.mean.into(),
    ]
}

#[cfg(test)]
mod tests {
    use super::*;
    use reference::reports;

    #[test]
    fn areas_by_name_show_what_they_are_named_for() {
        let due = [
            ("three axes, nothing delivered", [true, false, false, false, false]),
            ("a root of 0", [false; 5]),
            ("the scope document's job", [false; 5]),
            ("a largest below 0, of an active index", [false, true, false, false, false]),
            ("4, -4", [false, false, true, true, false]),
            ("0, -4, 4, 4", [false, true, true, true, false]),
            ("a mean of 12345", [false, true, false, false, true]),
        ];
        let cases = reports::cases();
        for (name, expected) in due {
            let case = cases.iter().find(|case| case.name == name).expect("an area of this name");
            let report = case.answer.expect("doubles is accepted there");
            assert_eq!(seen(&case.area, &report), expected, "{name}");
        }
    }
}
