//! Series of plans 2, 4 and 5 whose W is exact to the unit. They stand on a line, P = c x root of W
//! with W above zero, which alone tells "at most" from "less than" there; or their W is the last
//! whole number that decides, or one unit beyond it, which tells W from W plus or minus one.
//!
//! The d_j have the sum D, and n times the sum of their squares is W + D^2. All but three of them
//! are chosen at random, and the last three solved for. On the line, with c in lowest terms as
//! p / q, D = p k and the root of W is q k for some k.
//!
//! Several series are found on both sides in every row, and one on the line wherever there can be
//! one; the comparison fails where one is not. Each of plans 2 and 5 has a run-in twin (F-2) with
//! the same d_j.

use crate::draft::LARGEST;
use crate::paper::{Cell, Line, Paper, Single};
use random::Random;
use second::{Decision, Document, Document01};

/// How many sets of d_j are tried for one series.
const ATTEMPTS: usize = 3000;
/// How many orders of one set are tried for one that stays undecided until the last.
const ORDERS: usize = 200;
/// A doubling of m, in units of g.
const OCTAVE: f64 = 1_048_576.0;
/// From here on g takes every value: at OCTAVE / ln 2 = 1,512,775 its steps get below 1.
const DENSE: u32 = 1_520_000;
/// The g about which the measurements lie, in the middle of where it takes every value.
const CENTRE: f64 = 22_950_000.0;

/// Where a series stands by its W.
#[derive(Clone, Copy, Debug, PartialEq, Eq)]
pub enum Stand {
    /// P^2 = c^2 W.
    OnLine,
    /// Of the whole numbers that decide, the one next to the line.
    Deciding,
    /// One unit of W beyond it.
    Beyond,
}

/// A series that stands so by the cell's line, if one is found.
pub fn series(paper: &Paper, cell: Cell, stand: Stand, random: &mut Random) -> Option<Single> {
    let (c, n) = (paper.number(cell) as i64, cell.row as i64);
    let skewed = cell.plan == 4 && cell.line == Line::Last;
    let widest = widest_spread(cell.plan, c, skewed);
    (0..ATTEMPTS).find_map(|_| {
        let target = match stand {
            Stand::OnLine if !has_series_on_line(cell) => None,
            Stand::OnLine => on_line(c, n, widest, random),
            Stand::Deciding | Stand::Beyond => beside_line(cell, c, stand, widest, random),
        };
        let target = target?;
        let differences = target.differences(skewed, random)?;
        let series = single(cell.plan, target.limit(), differences)?;
        in_order(paper, cell, stand, series, random)
    })
}

/// Two kinds of line have no series on them with W above zero and without gross emitters.
/// - At n = 3, W is twice a number x^2 + xy + y^2, in which 2 has an even power, so that in W it has
///   an odd one, as in no square.
/// - On the fail line of plan 4 at n = 4, p is 768,627 and q is 100,000. The sum of the squares is
///   (p^2 + q^2) k^2 / 4, a whole number and even or odd as p k is only if 4 divides k. The mean of
///   the d_j is then 768,627 or more; at 1.5 times the limit, by the bracket, d_j is 613,379 at
///   most.
pub fn has_series_on_line(Cell { plan, row, line }: Cell) -> bool {
    row > 3 && (plan, row, line) != (4, 4, Line::Fail)
}

/// What n numbers d_j have to add up to.
struct Target {
    n: i64,
    sum: i64,
    squares: i64,
    mean: f64,
    spread: f64,
}

impl Target {
    /// With D and W, if some whole numbers have them: n divides W + D^2, and the sum of the
    /// squares is even or odd as the sum is.
    fn new(n: i64, sum: i64, w: i64) -> Option<Self> {
        let squares = (w + sum * sum) / n;
        let fits = (w + sum * sum) % n == 0 && (squares - sum) % 2 == 0;
        fits.then(|| Target {
            n,
            sum,
            squares,
            mean: sum as f64 / n as f64,
            spread: (w as f64).sqrt() / n as f64,
        })
    }

    fn differences(&self, skewed: bool, random: &mut Random) -> Option<Vec<i64>> {
        let offset = if skewed { offset_skewed } else { offset_even };
        let mut differences: Vec<i64> = (3..self.n)
            .map(|_| (self.mean + self.spread * offset(random)).round() as i64)
            .collect();
        let sum = self.sum - differences.iter().sum::<i64>();
        let squares = self.squares - differences.iter().map(|d| d * d).sum::<i64>();
        differences.extend(three_numbers(sum, squares)?);
        Some(differences)
    }

    /// A limit that puts the measurements where g takes every value.
    fn limit(&self) -> u32 {
        let octaves = (CENTRE - self.mean) / OCTAVE;
        (octaves.exp2() as u32).clamp(1, LARGEST)
    }
}

/// D = p k and W = (q k)^2.
fn on_line(c: i64, n: i64, widest: f64, random: &mut Random) -> Option<Target> {
    let divisor = greatest_common_divisor(c.abs(), 100_000);
    let (p, q) = (c / divisor, 100_000 / divisor);
    let most = (widest * n as f64 / q as f64) as i64;
    let start = 1 + random.below(most as usize / 2 + 1) as i64;
    (start..=most.min(start + 4 * n)).find_map(|k| Target::new(n, p * k, q * q * k * k))
}

/// A random D, and the W that stands beside the line for it.
fn beside_line(
    cell: Cell,
    c: i64,
    stand: Stand,
    widest: f64,
    random: &mut Random,
) -> Option<Target> {
    let n = cell.row as i64;
    let spread = f64::from(random.magnitude(500, widest as u32));
    let start = (c as f64 / 100_000.0 * spread * n as f64).round() as i64;
    (start..start + 4 * n).find_map(|sum| Target::new(n, sum, w_beside(cell.line, c, sum, stand)))
}

/// With c below 0, and on a fail line, P^2 has to be at least c^2 W: the last W that decides is
/// P^2 / c^2 rounded down. With a pass number above 0, in plan 4's last row and in plan 5's last
/// two, P^2 has to be at most c^2 W: it is rounded up.
fn w_beside(line: Line, c: i64, sum: i64, stand: Stand) -> i64 {
    let p = 100_000 * i128::from(sum);
    let (p2, c2) = (p * p, i128::from(c) * i128::from(c));
    let beyond = i64::from(stand == Stand::Beyond);
    if line != Line::Fail && c >= 0 {
        ((p2 + c2 - 1) / c2) as i64 - beyond
    } else {
        (p2 / c2) as i64 + beyond
    }
}

/// The measurements that have these d_j; none if one of them is out of reach.
fn single(plan: u8, limit: u32, differences: Vec<i64>) -> Option<Single> {
    let measured = |d| measurement(plan, limit, d);
    let measurements: Option<Vec<u32>> = differences.into_iter().map(measured).collect();
    Some(Single {
        plan,
        limit,
        deviation: 0,
        run_in: None,
        measurements: measurements?,
    })
}

/// How many shifts are tried for a run-in twin, and how far they go to either side.
const SHIFTS: usize = 200;
const WIDEST_SHIFT: u32 = 500_000;

/// A run-in series with the same d_j: "g(x_j) + g(value) - g(x_1) - g(L)" is of the first engine
/// g(value) - g(L), so that the value is what the plain series measures there; and every g(x_j) is
/// moved by the same.
pub fn run_in_twin(series: &Single, random: &mut Random) -> Option<Single> {
    let value = *series.measurements.first()?;
    (0..SHIFTS).find_map(|_| {
        let up = i64::from(random.between(0, 2 * WIDEST_SHIFT));
        let shift = up - i64::from(WIDEST_SHIFT);
        let moved = |&x: &u32| with_logarithm(Document01.g(x) + shift);
        let measurements: Option<Vec<u32>> = series.measurements.iter().map(moved).collect();
        Some(Single {
            run_in: Some(value),
            measurements: measurements?,
            ..series.clone()
        })
    })
}

/// The series in an order that leaves it undecided until its last engine.
fn in_order(
    paper: &Paper,
    cell: Cell,
    stand: Stand,
    mut series: Single,
    random: &mut Random,
) -> Option<Single> {
    let wanted = (decision(cell.line, stand), cell.row);
    let found = (0..ORDERS).any(|_| {
        random.shuffle(&mut series.measurements);
        paper.outcome(&series) == wanted
    });
    found.then_some(series)
}

/// What the row says of a series that stands so.
fn decision(line: Line, stand: Stand) -> Decision {
    match (line, stand) {
        (Line::Last, Stand::Beyond) => Decision::Fail,
        (_, Stand::Beyond) => Decision::Open,
        (Line::Fail, _) => Decision::Fail,
        (Line::Pass | Line::Last, _) => Decision::Pass,
    }
}

/// Offsets from the mean, in units of the spread.
fn offset_even(random: &mut Random) -> f64 {
    random.fraction() * 3.2 - 1.6
}

/// Many a little above the mean and few far below it.
fn offset_skewed(random: &mut Random) -> f64 {
    if random.fraction() < 0.27 {
        random.fraction() * -0.6 - 1.4
    } else {
        random.fraction() * 0.2 + 0.4
    }
}

/// In service the measurements stay at or under 1.5 times the limit, 0.58 octaves above it; in
/// production their mean stays where the limit is 1 or more.
fn widest_spread(plan: u8, c: i64, skewed: bool) -> f64 {
    let ratio = c as f64 / 100_000.0;
    match plan {
        4 if skewed => 800_000.0,
        4 => 608_000.0 / (ratio + 1.2),
        _ => f64::min(600_000.0, CENTRE / (ratio + 1.7)),
    }
}

/// The measurement with g(x) - g(L) = d; none if that is out of reach.
fn measurement(plan: u8, limit: u32, d: i64) -> Option<u32> {
    let x = with_logarithm(Document01.g(limit) + d)?;
    let gross = plan == 4 && 2 * u64::from(x) > 3 * u64::from(limit);
    (!gross).then_some(x)
}

/// The least m with this g where g takes every value; none if it is out of reach.
fn with_logarithm(wanted: i64) -> Option<u32> {
    let (mut low, mut high) = (DENSE, LARGEST);
    while low < high {
        let middle = low.midpoint(high);
        if Document01.g(middle) < wanted {
            low = middle + 1;
        } else {
            high = middle;
        }
    }
    (Document01.g(low) == wanted).then_some(low)
}

/// Three whole numbers with this sum and this sum of squares, the least of them first. With x from
/// the least to the next and y from that to the largest, the reach is twice the root of
/// x^2 + xy + y^2, and the sum less three times the least is 2x + y: half the reach or more, and
/// not more than the reach.
fn three_numbers(sum: i64, squares: i64) -> Option<[i64; 3]> {
    let reach = 2 * (3 * squares - sum * sum);
    if reach < 0 {
        return None;
    }
    let reach = (reach as f64).sqrt() as i64;
    ((sum - reach) / 3..=(sum - reach / 2) / 3).find_map(|a| {
        let rest = sum - a;
        let root = square_root(2 * (squares - a * a) - rest * rest)?;
        ((rest + root) % 2 == 0).then_some([a, (rest + root) / 2, (rest - root) / 2])
    })
}

/// The root of a square number, which by 16 leaves 0, 1, 4 or 9.
fn square_root(square: i64) -> Option<i64> {
    if !matches!(square & 15, 0 | 1 | 4 | 9) {
        return None;
    }
    let root = (square.max(0) as f64).sqrt().round() as i64;
    (root * root == square).then_some(root)
}

fn greatest_common_divisor(a: i64, b: i64) -> i64 {
    if b == 0 {
        a
    } else {
        greatest_common_divisor(b, a % b)
    }
}
