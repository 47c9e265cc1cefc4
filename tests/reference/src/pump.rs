//! A metering pump as a source of readings: the volume delivered by one
//! stroke, in nanolitres, from whole-number formulas. Positions 0 to 128 span
//! each dimension's tolerance, 64 being the nominal value.
//!
//! The model is plausible and no more: a piston displaces a cylinder; some of
//! it leaks past the seal with the cube of the clearance; some flows back
//! until the spring has closed the valve; the rest of the dimensions act on
//! these two losses.

/// The nominal value and the step for one position of a dimension.
struct Dimension {
    nominal: i128,
    step: i128,
}

impl Dimension {
    fn at(&self, position: u8) -> i128 {
        self.nominal + self.step * (i128::from(position) - 64)
    }
}

/// Micrometres.
const BORE: Dimension = Dimension { nominal: 10_000, step: 2 };
/// Micrometres.
const STROKE: Dimension = Dimension { nominal: 8_000, step: 4 };
/// Nanometres.
const CLEARANCE: Dimension = Dimension { nominal: 12_000, step: 110 };
/// Newtons for each metre.
const SPRING: Dimension = Dimension { nominal: 2_000, step: 18 };
/// Kilopascals.
const PRESSURE: Dimension = Dimension { nominal: 400, step: 2 };
/// Micropascal seconds.
const VISCOSITY: Dimension = Dimension { nominal: 1_000, step: 5 };
/// Micrometres.
const LIFT: Dimension = Dimension { nominal: 600, step: 4 };
/// Strokes for each minute.
const SPEED: Dimension = Dimension { nominal: 120, step: 1 };

/// Quotient rounded to the nearest whole number; the divisor is above 0.
fn rounded(dividend: i128, divisor: i128) -> i128 {
    (2 * dividend + divisor).div_euclid(2 * divisor)
}

/// The delivered volume at these positions, of which there are four (bore,
/// stroke, seal clearance, spring rate) or eight (then supply pressure, fluid
/// viscosity, valve lift and stroke rate); missing ones are nominal.
pub fn delivered_volume(positions: &[u8]) -> i32 {
    let at = |axis: usize| positions.get(axis).copied().unwrap_or(64);
    let (bore, stroke) = (BORE.at(at(0)), STROKE.at(at(1)));
    let (clearance, spring) = (CLEARANCE.at(at(2)), SPRING.at(at(3)));
    let (pressure, viscosity) = (PRESSURE.at(at(4)), VISCOSITY.at(at(5)));
    let (lift, speed) = (LIFT.at(at(6)), SPEED.at(at(7)));

    // A quarter of pi is 355/452 to six digits; a nanolitre is a million
    // cubic micrometres. Kept in thousandths of a nanolitre up to the end.
    let displaced = rounded(355 * bore * bore * stroke, 452 * 1_000);

    // Two hundredths of the displaced volume when all is nominal: with the
    // cube of the clearance and the pressure, against viscosity and speed.
    let gap = clearance * clearance * clearance * pressure;
    let nominal_gap = 12_000i128.pow(3) * 400;
    let leaked = rounded(displaced * 2 * gap * 1_000 * 120, 100 * nominal_gap * viscosity * speed);

    // Three hundredths when all is nominal: with lift and speed, against the
    // spring's rate, and more so the higher the pressure.
    let returned = rounded(
        displaced * 3 * lift * speed * (1_200 + pressure) * 2_000,
        100 * 600 * 120 * 1_600 * spring,
    );

    let volume = rounded(displaced - leaked - returned, 1_000);
    i32::try_from(volume).expect("a stroke displaces less than a millilitre")
}
