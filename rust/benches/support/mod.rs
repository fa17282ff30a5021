//! What the benchmarks share: both sides timed in turn by the processor time
//! of the thread, the median of their rounds, one line for each call.

#![allow(dead_code)] // each benchmark uses its own share

pub mod package;

use std::hint::black_box;

/// How many rounds are timed, behind one to warm up.
const ROUNDS: usize = 15;

/// A time as the C library tells it.
#[repr(C)]
struct Timespec {
    seconds: i64,
    nanoseconds: i64,
}

extern "C" {
    fn clock_gettime(clock: i32, time: *mut Timespec) -> i32;
}

/// The seconds that this thread has had the processor. The time that other
/// programs had it is not in them.
pub fn seconds() -> f64 {
    const CLOCK_THREAD_CPUTIME_ID: i32 = 3; // as on Linux
    let mut time = Timespec {
        seconds: 0,
        nanoseconds: 0,
    };
    // SAFETY: the time is lent for writing, and has the C library's layout.
    let failed = unsafe { clock_gettime(CLOCK_THREAD_CPUTIME_ID, &mut time) };
    assert_eq!(failed, 0, "the thread's clock");
    time.seconds as f64 + 1e-9 * time.nanoseconds as f64
}

/// Numbers that look random and are the same in each run.
pub struct Random(pub u64);

impl Random {
    pub fn below(&mut self, limit: usize) -> usize {
        self.0 = self.0.wrapping_mul(6_364_136_223_846_793_005);
        self.0 = self.0.wrapping_add(1_442_695_040_888_963_407);
        (self.0 >> 33) as usize % limit
    }

    /// The numbers below `count` in some order.
    pub fn shuffled(&mut self, count: usize) -> Vec<usize> {
        let mut numbers: Vec<usize> = (0..count).collect();
        for i in (1..count).rev() {
            numbers.swap(i, self.below(i + 1));
        }
        numbers
    }
}

/// Prints what the columns are.
pub fn heading() {
    println!("million calls per second; ratio: archive time / reference time");
    let (empty, archive, reference, ratio) = ("", "archive", "reference", "ratio");
    println!("{empty:26} {archive:>10} {reference:>10} {ratio:>8}");
}

/// The seconds of one round: so many passes over all cases.
fn round(passes: usize, cases: usize, call: &mut impl FnMut(usize) -> usize) -> f64 {
    let start = seconds();
    let mut sum = 0;
    for _ in 0..passes {
        for case in 0..cases {
            sum += call(black_box(case));
        }
    }
    black_box(sum);
    seconds() - start
}

pub fn median(mut times: Vec<f64>) -> f64 {
    times.sort_by(f64::total_cmp);
    times[times.len() / 2]
}

/// The seconds of a call of each of these, timed in turn: a slow moment of the
/// machine hits all. All have the same cases.
pub fn in_turn<const N: usize>(
    passes: usize,
    cases: usize,
    mut calls: [&mut dyn FnMut(usize) -> usize; N],
) -> [f64; N] {
    let mut times = [const { Vec::new() }; N];
    for number in 0..=ROUNDS {
        for (call, times) in calls.iter_mut().zip(&mut times) {
            let seconds = round(passes, cases, call);
            if number > 0 {
                times.push(seconds);
            } // else it was the warm-up
        }
    }
    times.map(|times| median(times) / (passes * cases) as f64)
}

/// Checks that both sides answer alike in each case, times them in turn and
/// prints a line. Answers the archive's and the reference's seconds a call.
pub fn compare(
    what: &str,
    passes: usize,
    cases: usize,
    mut archive: impl FnMut(usize) -> usize,
    mut reference: impl FnMut(usize) -> usize,
) -> (f64, f64) {
    for case in 0..cases {
        assert_eq!(archive(case), reference(case), "{what}, case {case}");
    }
    let (mut archive_times, mut reference_times) = (Vec::new(), Vec::new());
    for number in 0..=ROUNDS {
        let a = round(passes, cases, &mut archive);
        let r = round(passes, cases, &mut reference);
        if number > 0 {
            archive_times.push(a);
            reference_times.push(r);
        } // else it was the warm-up
    }
    let calls = (passes * cases) as f64;
    let (a, r) = (
        median(archive_times) / calls,
        median(reference_times) / calls,
    );
    print_line(what, a, r);
    (a, r)
}

/// Prints a line, from the seconds that a call takes on each side.
pub fn print_line(what: &str, archive: f64, reference: f64) {
    let rate = |seconds: f64| 1e-6 / seconds;
    let ratio = archive / reference;
    println!(
        "{what:26} {:10.3} {:10.3} {ratio:8.2}",
        rate(archive),
        rate(reference)
    );
}
