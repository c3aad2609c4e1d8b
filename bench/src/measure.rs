//! Times, and the calls that they are of.

use second::archive;
use second::calls::{need_of, unnest_need};
use second::nodes::LARGEST_PLAN;
use std::ffi::{c_int, c_long};
use std::hint::black_box;
use std::time::{Duration, Instant};

extern "C" {
    fn clock_gettime(clock: c_int, time: *mut [c_long; 2]) -> c_int;
}

/// The clock of a thread's own time on a processor, in Linux.
const OF_THREAD: c_int = 3;

/// The seconds that this thread has had on a processor.
fn thread_seconds() -> f64 {
    let mut time = [0; 2];
    // The seconds and the nanoseconds of C's timespec are two long numbers.
    let status = unsafe { clock_gettime(OF_THREAD, &mut time) };
    assert_eq!(status, 0, "a thread has such a clock");
    time[0] as f64 + time[1] as f64 * 1e-9
}

/// How long a time is measured at least.
#[derive(Clone, Copy)]
pub struct Clock {
    pub least: Duration,
}

impl Clock {
    /// The time of one run in seconds: the quickest of at least 5. The quickest is the one that other work on the machine disturbed least.
    /// A long run can be interrupted each time, so there only the thread's own time counts; it takes too long to read for a short one.
    pub fn time(self, mut run: impl FnMut()) -> f64 {
        let first = Instant::now();
        run();
        let is_long = first.elapsed() > Duration::from_micros(500);
        let start = Instant::now();
        let now = || if is_long { thread_seconds() } else { start.elapsed().as_secs_f64() };
        let mut quickest = f64::INFINITY;
        let mut runs = 0;
        while runs < 5 || start.elapsed() < self.least {
            let before = now();
            run();
            quickest = quickest.min(now() - before);
            runs += 1;
        }
        quickest
    }
}

/// Bytes of a set and a plan, buffers for the reporting call, and the report that it left in them.
pub struct Report<'b> {
    set: &'b [u8],
    plan: &'b [u8],
    out: Vec<i64>,
    scratch: Vec<u64>,
    cells: usize,
    pub columns: usize,
}

impl<'b> Report<'b> {
    pub fn of(set: &'b [u8], plan: &'b [u8]) -> Report<'b> {
        let need = need_of(set, plan).expect("an accepted plan") as usize;
        let mut report = Report { set, plan, out: vec![0; 4096 * 32], scratch: vec![0; need], cells: 0, columns: 0 };
        report.ask();
        report
    }

    /// Makes the call.
    fn ask(&mut self) {
        let word = archive::report_in(black_box(self.set), black_box(self.plan), &mut self.out, &mut self.scratch);
        assert_eq!(word & 0xff, 0, "a report");
        self.columns = (word >> 8 & 0xff) as usize;
        self.cells = self.columns * (word >> 16) as usize;
    }

    /// The codes that it left.
    pub fn codes(&self) -> &[i64] {
        &self.out[..self.cells]
    }

    /// The rows that it left.
    pub fn rows(&self) -> Vec<Vec<i64>> {
        self.codes().chunks(self.columns).map(<[i64]>::to_vec).collect()
    }

    /// The time of the call.
    pub fn time(&mut self, clock: Clock) -> f64 {
        clock.time(|| self.ask())
    }
}

/// The steps of the unnesting call.
pub fn steps(set: &[u8], plan: &[u8]) -> Vec<(u8, u8)> {
    archive::steps(set, plan, unnest_need(set, plan).expect("an accepted plan") as usize)
}

/// The time of the unnesting call.
pub fn unnesting_time(set: &[u8], plan: &[u8], clock: Clock) -> f64 {
    let (mut out_plan, mut out_steps) = ([0; LARGEST_PLAN], [0; 384]);
    let mut scratch = vec![0; unnest_need(set, plan).expect("an accepted plan") as usize];
    clock.time(|| {
        let word = archive::unnest_in(black_box(set), black_box(plan), &mut out_plan, &mut out_steps, &mut scratch);
        assert_eq!(word & 0xff, 0, "a plan left");
    })
}
