//! Times the logarithm alone: the delivered library's, by way of the probe library, against the
//! second implementation's and the C library's `log`.

use bench::timing::{against, time};
use entries::probe_logarithm;
use random::Random;
use second::{Document, Document01};
use std::hint::black_box;

extern "C" {
    fn log(x: f64) -> f64;
}

const BY_SECOND: f64 = 1.0;

fn library(m: u32) -> u32 {
    // SAFETY: the function takes any number.
    unsafe { probe_logarithm(m) }
}

#[inline(never)]
fn second(m: u32) -> u32 {
    Document01.g(m) as u32
}

fn main() {
    let mut random = Random::new(0x109);
    let numbers: Vec<u32> = (0..4096)
        .map(|_| 10f64.powf(random.fraction() * 7.0).min(9_999_999.0) as u32)
        .collect();
    let taking = |logarithm: fn(u32) -> u32| {
        let numbers = &numbers;
        move || {
            for &m in numbers {
                black_box(logarithm(black_box(m)));
            }
        }
    };
    let times = time(&mut [&mut taking(library), &mut taking(second), &mut || {
        for &m in &numbers {
            // SAFETY: the function takes any number.
            black_box(unsafe { log(black_box(f64::from(m))) });
        }
    }]);
    let by_second = against(times.ratio(0, 1), BY_SECOND);
    let nanoseconds = times.seconds(0) / numbers.len() as f64 * 1e9;
    println!("logarithm alone, time of the library:");
    println!(
        "  by the second {by_second}, by the C library's log {:5.2}; {nanoseconds:.1} ns",
        times.ratio(0, 2)
    );
}
