//! The bracket of the logarithm with F-9's number, 2^g <= m^1048576 < 2^(g+2), by the power itself:
//! it says that m^1048576 has g + 1 or g + 2 binary digits. For every m they are counted by bounds
//! on the power's first 64, and for some m on the whole number. Nothing here is taken from an
//! implementation but the g that is looked at.

use crate::draft::LARGEST;
use crate::natural::Natural;

/// How often m is squared: 1,048,576 is 2^20.
const SQUARINGS: usize = 20;

/// A bound on a power: its first 64 binary digits, the highest of them 1, and how many it has.
#[derive(Clone, Copy)]
struct Bound {
    first: u64,
    digits: u64,
}

impl Bound {
    /// The number itself, which is above zero.
    fn exact(m: u32) -> Self {
        let unused = u64::from(m).leading_zeros();
        Bound {
            first: u64::from(m) << unused,
            digits: u64::from(64 - unused),
        }
    }

    /// The square, and how many of its binary digits are more than 64.
    fn square(self) -> (u128, u32) {
        let square = u128::from(self.first) * u128::from(self.first);
        (square, 64 - square.leading_zeros())
    }

    fn squared_down(self) -> Self {
        let (square, more) = self.square();
        Bound {
            first: (square >> more) as u64,
            digits: 2 * self.digits + u64::from(more) - 64,
        }
    }

    fn squared_up(self) -> Self {
        let (square, more) = self.square();
        let down = self.squared_down();
        let inexact = square.trailing_zeros() < more;
        match down.first.checked_add(inexact.into()) {
            Some(first) => Bound { first, ..down },
            // 64 ones, rounded up.
            None => Bound {
                first: 1 << 63,
                digits: down.digits + 1,
            },
        }
    }
}

/// m^1048576 between two bounds. They are rigorous: both begin as m itself; of numbers above zero
/// the larger has the larger square; and the lower square is cut to 64 binary digits rounding down
/// and the upper one rounding up, so that the power lies between them after every squaring. A power
/// of two has 63 zeros behind its first digit, before and after, and stays exact.
#[derive(Clone, Copy)]
pub struct Power {
    lower: Bound,
    upper: Bound,
}

impl Power {
    pub fn of(m: u32) -> Self {
        let mut power = Power {
            lower: Bound::exact(m),
            upper: Bound::exact(m),
        };
        for _ in 0..SQUARINGS {
            power.lower = power.lower.squared_down();
            power.upper = power.upper.squared_up();
        }
        power
    }

    /// How many binary digits the power has, if both bounds have as many: so has every number
    /// between them.
    pub fn digits(&self) -> Option<u64> {
        (self.lower.digits == self.upper.digits).then_some(self.lower.digits)
    }

    /// The power's first digits, rounded down: the lower, the less is the exact logarithm above a
    /// whole unit.
    pub fn first_digits(&self) -> u64 {
        self.lower.first
    }
}

/// Whether 2^g <= m^1048576 < 2^(g+2), for a power of so many binary digits.
pub fn fits(g: i64, digits: u64) -> bool {
    [g + 1, g + 2].contains(&(digits as i64))
}

/// What can be wrong with a g.
#[derive(Debug, PartialEq, Eq)]
pub enum Fault {
    /// The bounds leave open how many binary digits the power has.
    Unknown,
    NoBracket {
        g: i64,
        digits: u64,
    },
    /// "A larger m never has a smaller g."
    BelowSmaller {
        g: i64,
        before: i64,
    },
}

/// One m, its power, and what is wrong with its g.
pub struct Bracketed {
    pub m: u32,
    pub power: Power,
    pub fault: Option<Fault>,
}

/// Every `step`th m that can be measured.
pub fn walk<'a>(
    logarithm: impl Fn(u32) -> i64 + 'a,
    step: usize,
) -> impl Iterator<Item = Bracketed> + 'a {
    let mut before = i64::MIN;
    (1..=LARGEST).step_by(step).map(move |m| {
        let (g, power) = (logarithm(m), Power::of(m));
        let fault = fault(g, power, before);
        before = g;
        Bracketed { m, power, fault }
    })
}

fn fault(g: i64, power: Power, before: i64) -> Option<Fault> {
    let Some(digits) = power.digits() else {
        return Some(Fault::Unknown);
    };
    if !fits(g, digits) {
        Some(Fault::NoBracket { g, digits })
    } else if g < before {
        Some(Fault::BelowSmaller { g, before })
    } else {
        None
    }
}

/// A prime, by which whole powers are checked.
const PRIME: u64 = (1 << 61) - 1;

/// The whole number m^1048576: how many binary digits it has, and whether it leaves by a prime what
/// the power leaves that is taken by remainders alone.
pub fn whole_power(m: u32) -> (u64, bool) {
    let mut power = Natural::new(m);
    let mut remainder = u64::from(m);
    for _ in 0..SQUARINGS {
        power = power.squared();
        let square = u128::from(remainder) * u128::from(remainder);
        remainder = (square % u128::from(PRIME)) as u64;
    }
    (power.binary_digits(), power.remainder(PRIME) == remainder)
}
