//! Sheets to time on, in records of either size: full ones, which no row decides before the last,
//! and typical ones, decided at 3 to 7 engines.

use random::Random;
use second::{judge, Document, Document01, Ground, Judgement, Verdict, FOUR_POLLUTANTS};

/// "Cause 65,535 now marks a gross emitter whose finding is pending" (F-5).
const PENDING: u16 = 65_535;

/// One pollutant and what was measured of it.
struct Series {
    limit: u32,
    deviation: u32,
    measurements: Vec<u32>,
}

/// Sheets of every pollutant of the size and `engines` engines, every pollutant open until the last
/// of them.
pub fn full(size: usize, plan: u8, engines: usize, count: usize) -> Vec<Vec<u8>> {
    let mut random = Random::new(0xF0 + u64::from(plan));
    let mut all = || -> Vec<Series> {
        let pollutants = 0..Document01.pollutants(size);
        pollutants
            .map(|_| open_series(plan, engines, &mut random))
            .collect()
    };
    (0..count).map(|_| sheet(size, plan, &all())).collect()
}

/// Sheets of one pollutant that end with the engine which decides them, the 3rd to the 7th.
pub fn typical(size: usize, plan: u8, count: usize) -> Vec<Vec<u8>> {
    let mut random = Random::new(0x70 + u64::from(plan));
    let series = std::iter::repeat_with(|| decided_series(plan, &mut random));
    let series = series.flatten().take(count);
    series
        .map(|series| sheet(size, plan, std::slice::from_ref(&series)))
        .collect()
}

/// The sheet, of one pollutant, with a record of kind 5 behind it: 699 cm³, 3001 per minute, 30
/// September 1998.
pub fn with_small_engine(size: usize, sheet: &[u8]) -> Vec<u8> {
    let mut small_engine = vec![5, 0];
    small_engine.extend(699u16.to_le_bytes());
    small_engine.extend(3001u16.to_le_bytes());
    small_engine.extend([0, 0]);
    small_engine.extend(19_980_930u32.to_le_bytes());
    small_engine.resize(size, 0);
    let (pollutant, engines) = sheet.split_at(size);
    [pollutant, &small_engine, engines].concat()
}

/// The sheet, with a record of kind 6 before its first engine. The run-in values are what that
/// engine measured, so that the sheet is decided at the same engine.
pub fn with_run_in(size: usize, sheet: &[u8]) -> Vec<u8> {
    let pollutants = sheet.chunks_exact(size).take_while(|record| record[0] == 1);
    let (pollutants, engines) = sheet.split_at(pollutants.count() * size);
    let mut run_in = engines[..size].to_vec();
    run_in[0] = 6;
    [pollutants, &run_in, engines].concat()
}

/// The sheet of plan 4, of one pollutant, with a gross emitter for its first vehicle, whose cause is
/// known.
pub fn with_gross_emitter(size: usize, sheet: &[u8]) -> Vec<u8> {
    with_cause(size, sheet, 1)
}

/// The same while the finding is pending: a sheet of three vehicles or more is held at 3.
pub fn with_pending(size: usize, sheet: &[u8]) -> Vec<u8> {
    with_cause(size, sheet, PENDING)
}

/// The first vehicle measures twice the limit.
fn with_cause(size: usize, sheet: &[u8], cause: u16) -> Vec<u8> {
    let mut sheet = sheet.to_vec();
    let (pollutant, engines) = sheet.split_at_mut(size);
    let limit = u32::from_le_bytes(pollutant[4..8].try_into().expect("four bytes"));
    engines[2..4].copy_from_slice(&cause.to_le_bytes());
    engines[4..8].copy_from_slice(&(2 * limit).to_le_bytes());
    sheet
}

/// A sheet of 37 records of 20 bytes whose last is refused, so that all are checked, none judged.
pub fn refused_at_the_end() -> Vec<u8> {
    let mut sheet = full(FOUR_POLLUTANTS, 1, 32, 1).remove(0);
    let stop = sheet.len();
    sheet.resize(stop + FOUR_POLLUTANTS, 0);
    sheet[stop] = 3;
    sheet[stop + FOUR_POLLUTANTS - 1] = 1;
    sheet
}

fn open_series(plan: u8, engines: usize, random: &mut Random) -> Series {
    loop {
        let mut series = Series::new(plan, random);
        while series.measurements.len() < engines && series.grow_undecided(plan, random) {}
        if series.measurements.len() == engines {
            return series;
        }
    }
}

fn decided_series(plan: u8, random: &mut Random) -> Option<Series> {
    let mut series = Series::new(plan, random);
    for n in 1..=7 {
        series.measure(plan, random);
        if n >= 3 && series.judged(plan).ground == Ground::Row {
            return Some(series);
        }
    }
    None
}

impl Series {
    fn new(plan: u8, random: &mut Random) -> Self {
        let deviation = (50_000.0 + random.fraction() * 450_000.0) as u32;
        Series {
            limit: (1_000.0 + random.fraction() * 999_000.0) as u32,
            deviation: if plan == 1 { deviation } else { 0 },
            measurements: Vec::new(),
        }
    }

    /// Tries for an engine that decides nothing; any will do as the plan's last.
    fn grow_undecided(&mut self, plan: u8, random: &mut Random) -> bool {
        (0..50).any(|_| {
            self.measure(plan, random);
            let last = self.measurements.len() == Document01.last_row(plan);
            let kept = last || self.judged(plan).verdict == Verdict::Another;
            if !kept {
                self.measurements.pop();
            }
            kept
        })
    }

    /// Alone on a sheet.
    fn judged(&self, plan: u8) -> Judgement {
        let sheet = sheet(FOUR_POLLUTANTS, plan, std::slice::from_ref(self));
        judge(&Document01, FOUR_POLLUTANTS, &sheet).expect("an accepted sheet")
    }

    /// No measurement is a gross emitter's.
    fn measure(&mut self, plan: u8, random: &mut Random) {
        let offset = random.fraction() - 0.5;
        let octaves = match plan {
            1 => offset * f64::from(self.deviation) / 300_000.0,
            _ => offset * 1.1,
        };
        let x = f64::from(self.limit) * octaves.exp2();
        self.measurements.push(x.round() as u32);
    }
}

/// The series as pollutants 1, 2, .. of one sheet.
fn sheet(size: usize, plan: u8, series: &[Series]) -> Vec<u8> {
    let mut sheet = Vec::with_capacity(Document01.longest_sheet(size));
    for (number, series) in (1..).zip(series) {
        sheet.extend([1, number, plan, 0]);
        sheet.extend(series.limit.to_le_bytes());
        sheet.extend(series.deviation.to_le_bytes());
        sheet.resize(sheet.len().next_multiple_of(size), 0);
    }
    for n in 0..series[0].measurements.len() {
        let measurements = series.iter().map(|series| series.measurements[n]);
        sheet.extend([2, 0, 0, 0]);
        sheet.extend(measurements.flat_map(u32::to_le_bytes));
        sheet.resize(sheet.len().next_multiple_of(size), 0);
    }
    sheet
}
