//! Times of several jobs that do the same, taken in turn so that a disturbance meets all of them.
use std::hint::black_box;
use std::time::Duration;

/// Linux's clock of the time that this thread has had a core, which other programs' turns do not lengthen.
#[repr(C)]
struct Timespec {
    seconds: i64,
    nanoseconds: i64,
}

const THREAD_CLOCK: i32 = 3;

extern "C" {
    fn clock_gettime(clock: i32, time: *mut Timespec) -> i32;
}

pub fn now() -> Duration {
    let mut time = Timespec {
        seconds: 0,
        nanoseconds: 0,
    };
    // SAFETY: the struct is the C library's on 64-bit Linux, and is the caller's own.
    let done = unsafe { clock_gettime(THREAD_CLOCK, &mut time) };
    assert_eq!(done, 0);
    Duration::new(time.seconds as u64, time.nanoseconds as u32)
}

/// How many times each job is timed, and about how long one timing takes.
const REPETITIONS: usize = 15;
const SPAN: Duration = Duration::from_millis(3);

/// Above this a job is timed only twice.
const LONG: Duration = Duration::from_millis(400);

pub type Job<'a> = Box<dyn FnMut() + 'a>;

/// A job whose result counts as used.
pub fn job<'a, T>(mut work: impl FnMut() -> T + 'a) -> Job<'a> {
    Box::new(move || {
        black_box(work());
    })
}

fn once(job: &mut Job, times: u32) -> Duration {
    let begun = now();
    for _ in 0..times {
        job();
    }
    now() - begun
}

/// How many times in a row a job has to run to fill the span; the first run warms the caches.
fn times_for(job: &mut Job) -> (u32, bool) {
    let first = once(job, 1);
    if first > LONG {
        return (1, true);
    }
    let again = once(job, 1).max(Duration::from_nanos(20));
    let times = SPAN.as_nanos() / again.as_nanos() + 1;
    (times.min(1_000_000) as u32, false)
}

/// The best time of each job, in nanoseconds.
pub fn best(mut jobs: Vec<Job>) -> Vec<f64> {
    let plans: Vec<(u32, bool)> = jobs.iter_mut().map(times_for).collect();
    let mut best = vec![f64::MAX; jobs.len()];
    for repetition in 0..REPETITIONS {
        for (i, job) in jobs.iter_mut().enumerate() {
            let (times, long) = plans[i];
            if !long || repetition < 2 {
                let each = once(job, times).as_nanos() as f64 / times as f64;
                best[i] = best[i].min(each);
            }
        }
    }
    best
}
