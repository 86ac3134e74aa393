//! The decision numbers, typed as printed: tables I.1.5, I.2.5 and I.3.5 of document 001, table 1
//! of document 000, and the corrected sheet of F-6 (document 02). The columns begin with a sample
//! of 3, but plan 3's pass column, which is blank there, with 4. The fail columns of plans 1 to 4
//! end a row early, because "in the last row, what doesn't pass fails". That of plan 5 is whole,
//! as F-6 gives it; for the same reason its last number decides nothing.

#[derive(Clone, Copy, Debug, PartialEq, Eq)]
pub enum Column {
    Pass,
    Fail,
}

/// A plan's number for a sample of n; none where its column has not begun or has ended, and none
/// for what refusal 5 does not admit as a plan.
pub fn printed(plan: u8, column: Column, n: usize) -> Option<i64> {
    let (first, entries): (usize, &[i64]) = match (plan, column) {
        (1, Column::Pass) => (3, &PLAN_1_PASS),
        (1, Column::Fail) => (3, &PLAN_1_FAIL),
        (2, Column::Pass) => (3, &PLAN_2_PASS),
        (2, Column::Fail) => (3, &PLAN_2_FAIL),
        (3, Column::Pass) => (4, &PLAN_3_PASS),
        (3, Column::Fail) => (3, &PLAN_3_FAIL),
        (4, Column::Pass) => (3, &PLAN_4_PASS),
        (4, Column::Fail) => (3, &PLAN_4_FAIL),
        (5, Column::Pass) => (3, &PLAN_5_PASS),
        (5, Column::Fail) => (3, &PLAN_5_FAIL),
        _ => return None,
    };
    entries.get(n.checked_sub(first)?).copied()
}

/// Table I.1.5, thousandths.
const PLAN_1_PASS: [i64; 30] = [
    3327, 3261, 3195, 3129, 3063, 2997, 2931, 2865, 2799, 2733, 2667, 2601, 2535, 2469, 2403, 2337,
    2271, 2205, 2139, 2073, 2007, 1941, 1875, 1809, 1743, 1677, 1611, 1545, 1479, -2112,
];
const PLAN_1_FAIL: [i64; 29] = [
    -4724, -4790, -4856, -4922, -4988, -5054, -5120, -5185, -5251, -5317, -5383, -5449, -5515,
    -5581, -5647, -5713, -5779, -5845, -5911, -5977, -6043, -6109, -6175, -6241, -6307, -6373,
    -6439, -6505, -6571,
];

/// Table I.2.5, hundred-thousandths, "signs as printed in 001".
const PLAN_2_PASS: [i64; 30] = [
    -80381, -76339, -72982, -69962, -67129, -64406, -61750, -59135, -56542, -53960, -51379, -48791,
    -46191, -43573, -40933, -38266, -35570, -32840, -30072, -27263, -24410, -21509, -18557, -15550,
    -12483, -9354, -6159, -2892, -449, -3876,
];
const PLAN_2_FAIL: [i64; 29] = [
    1664743, 768627, 467136, 325573, 245431, 194369, 159105, 133295, 113566, 97970, 85307, 74801,
    65928, 58321, 51718, 45922, 40788, 36203, 32078, 28343, 24943, 21831, 18970, 16328, 13880,
    11603, 9480, 7493, 5629,
];

/// Table I.3.5, engines. The pass column from 4 on.
const PLAN_3_PASS: [i64; 16] = [0, 0, 1, 1, 2, 2, 3, 3, 4, 4, 5, 5, 6, 6, 7, 8];
const PLAN_3_FAIL: [i64; 16] = [3, 4, 4, 5, 5, 6, 6, 7, 7, 8, 8, 9, 9, 10, 10, 11];

/// Table 1 of document 000, hundred-thousandths.
const PLAN_4_PASS: [i64; 13] = [
    -80381, -76339, -72982, -69962, -67129, -64406, -61750, -59135, -56542, -53960, -51379, -48791,
    15474,
];
const PLAN_4_FAIL: [i64; 12] = [
    1664743, 768627, 467136, 325573, 245431, 194369, 159105, 133295, 113566, 97970, 85307, 74801,
];

/// The corrected sheet of F-6, hundred-thousandths: "A is 449 at 31, A and B are 3876 at 32",
/// "otherwise as plan 2". Table I/-/9.3.5 of document 004 prints the same columns, with both signs
/// marked as corrected.
const PLAN_5_PASS: [i64; 30] = [
    -80381, -76339, -72982, -69962, -67129, -64406, -61750, -59135, -56542, -53960, -51379, -48791,
    -46191, -43573, -40933, -38266, -35570, -32840, -30072, -27263, -24410, -21509, -18557, -15550,
    -12483, -9354, -6159, -2892, 449, 3876,
];
const PLAN_5_FAIL: [i64; 30] = [
    1664743, 768627, 467136, 325573, 245431, 194369, 159105, 133295, 113566, 97970, 85307, 74801,
    65928, 58321, 51718, 45922, 40788, 36203, 32078, 28343, 24943, 21831, 18970, 16328, 13880,
    11603, 9480, 7493, 5629, 3876,
];
