//! Time of the processor, and what many rounds of it say.
use std::hint::black_box;

/// C's `struct timespec` on Linux, 64 bits.
#[repr(C)]
#[derive(Default)]
struct Timespec {
    seconds: i64,
    nanoseconds: i64,
}

/// Linux's number of the clock that counts what this process has spent.
const CLOCK_PROCESS_CPUTIME_ID: i32 = 2;

/// glibc's numbers of the two settings that `keep_memory` makes.
const M_TRIM_THRESHOLD: i32 = -1;
const M_MMAP_MAX: i32 = -4;

unsafe extern "C" {
    safe fn clock_gettime(clock: i32, time: &mut Timespec) -> i32;
    safe fn mallopt(setting: i32, value: i32) -> i32;
}

/// Keeps freed memory in the process, so that no call is charged for fresh pages.
pub fn keep_memory() {
    let kept = mallopt(M_TRIM_THRESHOLD, i32::MAX) == 1 && mallopt(M_MMAP_MAX, 0) == 1;
    assert!(kept, "freed memory is not kept");
}

/// Microseconds of the processor that this process has spent.
pub fn spent() -> f64 {
    let mut time = Timespec::default();
    assert_eq!(clock_gettime(CLOCK_PROCESS_CPUTIME_ID, &mut time), 0, "there is no clock of the process");
    time.seconds as f64 * 1e6 + time.nanoseconds as f64 / 1e3
}

/// Microseconds per call of `call`, which takes the inputs one after another. Dropping an answer is counted, reading
/// the clock is not.
pub fn per_call<I, T>(inputs: impl ExactSizeIterator<Item = I>, mut call: impl FnMut(I) -> T) -> f64 {
    let calls = inputs.len() as f64;
    let began = spent();
    for input in inputs {
        black_box(&call(input));
    }
    (spent() - began - reading()) / calls
}

/// Microseconds of reading the clock: the least of a few times.
fn reading() -> f64 {
    let one = |_| -> f64 {
        let began = spent();
        spent() - began
    };
    (0..5).map(one).fold(f64::INFINITY, f64::min)
}

/// Microseconds per call, round by round.
#[derive(Clone, Default)]
pub struct Times(Vec<f64>);

impl Times {
    /// The round in the middle.
    pub fn median(&self) -> f64 {
        let mut sorted = self.0.clone();
        sorted.sort_by(f64::total_cmp);
        sorted[sorted.len() / 2]
    }

    /// The quickest round.
    pub fn least(&self) -> f64 {
        self.0.iter().copied().fold(f64::INFINITY, f64::min)
    }

    /// How many times the other's: the ratio of each round's two, and of those the median.
    pub fn ratio(&self, other: &Self) -> f64 {
        Self(self.0.iter().zip(&other.0).map(|(x, y)| x / y).collect()).median()
    }
}

/// A side of a row: runs one round and answers microseconds per call.
pub type Side<'a> = Box<dyn FnMut() -> f64 + 'a>;

/// Runs each side once a round, in turn, so that all see the same machine.
pub fn interleaved(rounds: usize, mut sides: Vec<Side>) -> Vec<Times> {
    let mut spent = vec![Times::default(); sides.len()];
    for _ in 0..rounds {
        sides.iter_mut().zip(&mut spent).for_each(|(side, times)| times.0.push(side()));
    }
    spent
}
