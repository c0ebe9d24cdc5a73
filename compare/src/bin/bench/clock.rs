//! CPU time, and calls timed by turns.

use std::hint::black_box;

extern "C" {
    fn clock() -> i64;
}

/// How many ticks of `clock` a second has (POSIX).
const TICKS: f64 = 1_000_000.0;

/// A timed run is made of so many calls that it takes about this long.
const RUN_MS: f64 = 1.0;

/// Every rival runs for at least so long in all, and at least so often.
const TOTAL_MS: f64 = 60.0;
const RUNS: usize = 5;

/// The CPU time that this process has used, in milliseconds.
pub fn cpu_ms() -> f64 {
    // SAFETY: C's `clock` takes nothing, and may be called at any time.
    unsafe { clock() as f64 / TICKS * 1000.0 }
}

/// The milliseconds that one call takes, over so many calls in a row.
fn timed<T>(call: &mut impl FnMut() -> T, calls: usize) -> f64 {
    let start = cpu_ms();
    for _ in 0..calls {
        black_box(call());
    }
    (cpu_ms() - start) / calls as f64
}

/// Warms the call up, and says how many calls make up a run.
fn run_length<T>(call: &mut impl FnMut() -> T) -> usize {
    let once = timed(call, 1).max(0.001);
    (RUN_MS / once).ceil() as usize
}

/// The middle one of the times.
fn median(mut times: Vec<f64>) -> f64 {
    times.sort_by(f64::total_cmp);
    times[times.len() / 2]
}

/// Two rivals: the milliseconds of one call of each, and how many times as long as the other the one takes.
pub struct Compared {
    pub one: f64,
    pub other: f64,
    pub ratio: f64,
}

/// Runs two rivals by turns. The ratio is the median over the turns, so that a change of the machine's speed hardly touches it.
pub fn rivals<A, B>(mut one: impl FnMut() -> A, mut other: impl FnMut() -> B) -> Compared {
    let (calls_one, calls_other) = (run_length(&mut one), run_length(&mut other));
    let (mut times_one, mut times_other, mut ratios) = (Vec::new(), Vec::new(), Vec::new());
    let end = cpu_ms() + 2.0 * TOTAL_MS;
    while ratios.len() < RUNS || cpu_ms() < end {
        let (time_one, time_other) = (timed(&mut one, calls_one), timed(&mut other, calls_other));
        times_one.push(time_one);
        times_other.push(time_other);
        ratios.push(time_one / time_other);
    }
    Compared { one: median(times_one), other: median(times_other), ratio: median(ratios) }
}

/// The milliseconds of one call.
pub fn alone<T>(mut call: impl FnMut() -> T) -> f64 {
    let calls = run_length(&mut call);
    let mut times = Vec::new();
    let end = cpu_ms() + TOTAL_MS;
    while times.len() < RUNS || cpu_ms() < end {
        times.push(timed(&mut call, calls));
    }
    median(times)
}
