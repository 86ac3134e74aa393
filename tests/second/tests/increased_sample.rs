//! Document 02, F-11: "only row 3 is left open for gross emitters".

mod records;

use records::{another, equal_cause, in_service, referred, Answer, Vehicle};
use second::{Decision, Ground, Verdict};

const FAIL_AT_4: Answer = (Verdict::Fail, 4, Ground::Row, (Decision::Fail, 4));
const PASS_AT_4: Answer = (Verdict::Pass, 4, Ground::Row, (Decision::Pass, 4));

fn judged(vehicles: &[Vehicle], expected: Answer) {
    assert_eq!(in_service(vehicles), expected, "{vehicles:?}");
}

/// "Another at 4 before" the request, each.
#[test]
fn increased_sample_is_decided() {
    judged(&[(1501, 1), (1501, 2), (1501, 3), (1501, 4)], FAIL_AT_4);
    judged(&[(1501, 1), (20, 0), (20, 0), (1501, 2)], PASS_AT_4);
}

/// "At n = 3, a gross emitter among the three leaves the row open", wherever it stands; one vehicle
/// more of those that measured little, and row 4 passes.
#[test]
fn row_3_is_left_open() {
    for gross in 0..3 {
        let mut vehicles = [(20, 0); 4];
        vehicles[gross] = (1501, 1);
        judged(&vehicles[..3], another(3));
        judged(&vehicles, PASS_AT_4);
    }
    judged(&[(1501, 1), (1501, 2), (1501, 3)], another(3));
}

/// "Equal cause and referral come first as before."
#[test]
fn equal_cause_comes_first() {
    judged(&[(1501, 1), (20, 0), (20, 0), (1501, 1)], equal_cause(4));
    judged(&[(1501, 1), (1501, 1), (20, 0)], equal_cause(3));
}

/// In row 15 one gross emitter, the newest, has its statistics; two refer the series.
#[test]
fn row_15() {
    let mut vehicles = [(800, 0), (1250, 0)].repeat(7);
    vehicles.push((1501, 9));
    let pass: Answer = (Verdict::Pass, 15, Ground::Row, (Decision::Pass, 15));
    judged(&vehicles, pass);
    vehicles[7] = (1501, 8);
    judged(&vehicles, referred(15));
}

/// "A decided series still keeps its decision when extended", by a vehicle of equal cause too.
#[test]
fn a_decision_is_kept() {
    for cause in [1, 2, 3] {
        let vehicles = [(1501, 1), (20, 0), (20, 0), (1501, 2), (9000, cause)];
        judged(&vehicles, PASS_AT_4);
    }
}
