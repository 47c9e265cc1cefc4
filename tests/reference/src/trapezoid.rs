//! The one-axis rule once more, from first principles and with exact
//! fractions: the composite trapezoidal rule on the interval from -1 to 1,
//! divided by 2 because the mean is the integral divided by 2 for each axis.
//! Nothing here uses the words of the [`crate::rule`] module.

/// An exact fraction in lowest terms with a positive denominator.
#[derive(Clone, Copy, Debug, PartialEq, Eq)]
pub struct Fraction {
    pub numerator: i128,
    pub denominator: i128,
}

fn common_divisor(a: i128, b: i128) -> i128 {
    if b == 0 {
        a.abs()
    } else {
        common_divisor(b, a % b)
    }
}

impl Fraction {
    pub fn new(numerator: i128, denominator: i128) -> Fraction {
        assert!(denominator != 0);
        let sign = denominator.signum();
        let divisor = common_divisor(numerator, denominator);
        Fraction {
            numerator: sign * numerator / divisor,
            denominator: sign * denominator / divisor,
        }
    }

    pub fn whole(number: i128) -> Fraction {
        Fraction::new(number, 1)
    }

    pub fn plus(self, other: Fraction) -> Fraction {
        Fraction::new(
            self.numerator * other.denominator + other.numerator * self.denominator,
            self.denominator * other.denominator,
        )
    }

    pub fn times(self, other: Fraction) -> Fraction {
        Fraction::new(self.numerator * other.numerator, self.denominator * other.denominator)
    }

    pub fn minus(self, other: Fraction) -> Fraction {
        self.plus(other.times(Fraction::whole(-1)))
    }
}

/// A rule: abscissas on the interval from -1 to 1 with their weights.
pub type Rule = Vec<(Fraction, Fraction)>;

/// The abscissa that a position stands for: position/64 - 1.
pub fn abscissa(position: u32) -> Fraction {
    Fraction::new(position as i128, 64).minus(Fraction::whole(1))
}

/// The weight a rule gives to an abscissa, 0 where it has no point.
pub fn weight_at(rule: &Rule, at: Fraction) -> Fraction {
    rule.iter().filter(|(x, _)| *x == at).fold(Fraction::whole(0), |sum, (_, w)| sum.plus(*w))
}

/// The trapezoidal rule of a level for the mean. Level 1 has no panel: one
/// point in the middle stands for the whole interval of length 2. Level k has
/// 2^(k-1) panels, and each gives half its length to both of its ends.
pub fn rule(level: u32) -> Rule {
    let half = Fraction::new(1, 2);
    if level == 1 {
        return vec![(Fraction::whole(0), Fraction::whole(2).times(half))];
    }
    let panels = 1i128 << (level - 1);
    let length = Fraction::new(2, panels);
    let mut points: Rule = Vec::new();
    for panel in 0..panels {
        let left = Fraction::whole(-1).plus(length.times(Fraction::whole(panel)));
        for end in [left, left.plus(length)] {
            let share = length.times(half).times(half);
            match points.iter_mut().find(|(x, _)| *x == end) {
                Some((_, weight)) => *weight = weight.plus(share),
                None => points.push((end, share)),
            }
        }
    }
    points
}

/// The difference rule at an abscissa: the rule of the level minus the rule
/// of the level below; level 1 is its own difference.
pub fn difference_at(level: u32, at: Fraction) -> Fraction {
    let here = weight_at(&rule(level), at);
    match level {
        1 => here,
        _ => here.minus(weight_at(&rule(level - 1), at)),
    }
}
