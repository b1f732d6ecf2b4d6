//! The stopwatch.

use std::cell::Cell;
use std::hint::black_box;
use std::time::{Duration, Instant};

/// Calls before those that count.
const WARM_UP: usize = 3;
/// A median is over an odd number of calls, at least so many,
const LEAST: usize = 5;
/// and at most so many,
const MOST: usize = 301;
/// unless the time for them is up.
const TIME: Duration = Duration::from_millis(800);
/// What takes longer, in nanoseconds, is timed by the thread's processor time: another program may take the processor
/// meanwhile. Shorter calls seldom meet that, and the median leaves it out.
const LONG: f64 = 20_000.0;

pub struct Watch {
    /// What the clock itself takes, in nanoseconds.
    own: f64,
    by_processor: Cell<bool>,
}

/// The median of the times in nanoseconds, and the quartiles beside it.
#[derive(Clone, Copy)]
pub struct Times {
    pub low: f64,
    pub median: f64,
    pub high: f64,
    pub count: usize,
}

fn summed(mut times: Vec<f64>) -> Times {
    times.sort_by(f64::total_cmp);
    let at = |share: f64| times[(share * (times.len() - 1) as f64).round() as usize];
    Times { low: at(0.25), median: at(0.5), high: at(0.75), count: times.len() }
}

/// The thread's processor time.
fn processor() -> Duration {
    #[repr(C)]
    struct Spec {
        seconds: i64,
        nanos: i64,
    }
    const THREAD: i32 = 3;
    unsafe extern "C" {
        fn clock_gettime(clock: i32, spec: *mut Spec) -> i32;
    }
    let mut spec = Spec { seconds: 0, nanos: 0 };
    // SAFETY: `spec` is C's `struct timespec` on 64-bit Linux, and nobody else uses it meanwhile.
    assert_eq!(unsafe { clock_gettime(THREAD, &mut spec) }, 0);
    Duration::new(spec.seconds as u64, spec.nanos as u32)
}

impl Watch {
    pub fn new() -> Self {
        let mut watch = Watch { own: 0.0, by_processor: Cell::new(false) };
        let times = (0..10_001).map(|_| watch.time(|| ()).0).collect();
        watch.own = summed(times).median;
        watch
    }

    /// How long something takes in nanoseconds, and what it gives.
    pub fn time<T>(&self, f: impl FnOnce() -> T) -> (f64, T) {
        if self.by_processor.get() {
            let start = processor();
            let given = black_box(f());
            return ((processor() - start).as_nanos() as f64, given);
        }
        let start = Instant::now();
        let given = black_box(f());
        let took = start.elapsed().as_nanos() as f64;
        ((took - self.own).max(0.0), given)
    }

    /// Repeats something that times N things, the i-th time with i.
    pub fn repeat<const N: usize>(&self, mut one: impl FnMut(usize) -> [f64; N]) -> [Times; N] {
        self.by_processor.set(false);
        let first = (0..WARM_UP).flat_map(&mut one).fold(f64::INFINITY, f64::min);
        self.by_processor.set(first > LONG);
        let start = Instant::now();
        let mut times: [Vec<f64>; N] = std::array::from_fn(|_| Vec::new());
        let mut i = 0;
        while i < MOST && (i < LEAST || i % 2 == 0 || start.elapsed() < TIME) {
            for (list, took) in times.iter_mut().zip(one(WARM_UP + i)) {
                list.push(took);
            }
            i += 1;
        }
        self.by_processor.set(false);
        times.map(summed)
    }
}
