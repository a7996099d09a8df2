//! Times of two sides, taken in turn: CPU time of the thread, which other work on the machine does not lengthen.
use std::hint::black_box;
use std::time::Duration;

#[repr(C)]
struct Timespec {
    seconds: i64,
    nanoseconds: i64,
}

unsafe extern "C" {
    fn clock_gettime(clock: i32, time: *mut Timespec) -> i32;
}

/// Linux's CLOCK_THREAD_CPUTIME_ID.
const THREAD_CLOCK: i32 = 3;

fn now() -> f64 {
    let mut time = Timespec { seconds: 0, nanoseconds: 0 };
    // SAFETY: the C library's call, with a local of the type that it writes.
    let failed = unsafe { clock_gettime(THREAD_CLOCK, &mut time) };
    assert_eq!(failed, 0, "no clock of the thread's time");
    time.seconds as f64 + time.nanoseconds as f64 * 1e-9
}

/// The shortest time of each side in seconds; `None` for a side that was left out.
#[derive(Clone, Copy)]
pub struct Times {
    pub ours: Option<f64>,
    pub theirs: Option<f64>,
}

/// One side: its call, how often it is called at a time so that the clock does not count, and its shortest time.
struct Side<F> {
    call: F,
    repeats: usize,
    best: f64,
}

impl<T, F: FnMut() -> T> Side<F> {
    fn new(call: F) -> Self {
        let mut side = Self { call, repeats: 1, best: f64::INFINITY };
        side.sample();
        side.repeats = (2e-4 / side.best).ceil().clamp(1.0, 200.0) as usize;
        side
    }

    /// What the calls return is dropped outside of their time.
    fn sample(&mut self) -> f64 {
        let mut results = Vec::with_capacity(self.repeats);
        let start = now();
        for _ in 0..self.repeats {
            results.push(black_box((self.call)()));
        }
        let spent = now() - start;
        self.best = self.best.min(spent / self.repeats as f64);
        spent
    }
}

/// Both sides in turn until the budget is spent, at least three times each (twice where that takes far longer than the budget).
pub fn both<T, U>(budget: Duration, ours: Option<impl FnMut() -> T>, theirs: Option<impl FnMut() -> U>) -> Times {
    let (mut ours, mut theirs) = (ours.map(Side::new), theirs.map(Side::new));
    let (budget, mut spent, mut turns) = (budget.as_secs_f64(), 0.0, 1);
    while turns < 2 || (turns < 3 && spent < budget * 8.0) || spent < budget {
        spent += ours.as_mut().map_or(0.0, Side::sample) + theirs.as_mut().map_or(0.0, Side::sample);
        turns += 1;
        if ours.is_none() && theirs.is_none() {
            break;
        }
    }
    Times { ours: ours.map(|side| side.best), theirs: theirs.map(|side| side.best) }
}

/// Leaves a side out once its next size would take too long, judged by its growth so far.
pub struct Guard {
    last: Option<(f64, f64)>,
    before: Option<(f64, f64)>,
    limit: f64,
}

impl Guard {
    pub fn new(limit: f64) -> Self {
        Self { last: None, before: None, limit }
    }

    pub fn allows(&self, size: usize) -> bool {
        let Some((n, t)) = self.last else { return true };
        let power = match self.before {
            Some((m, s)) if s > 0.0 && n > m => ((t / s).ln() / (n / m).ln()).clamp(1.0, 2.0),
            _ => 1.0,
        };
        t * (size as f64 / n).powf(power) < self.limit
    }

    pub fn saw(&mut self, size: usize, time: Option<f64>) {
        if let Some(t) = time {
            self.before = self.last.replace((size as f64, t));
        }
    }
}

/// A line for the report: `time PART SUBJECT SIZE KIND OURS THEIRS`, in nanoseconds, `-` for a side left out.
pub fn print(part: &str, subject: &str, size: usize, kind: &str, times: Times) {
    let word = |t: Option<f64>| t.map_or("-".to_owned(), |t| format!("{:.0}", t * 1e9));
    println!("time {part} {subject} {size} {kind} {} {}", word(times.ours), word(times.theirs));
}
