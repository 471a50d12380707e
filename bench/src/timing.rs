//! How long the library and a peer take: rows of a table.

use std::hint::black_box;
use std::time::Duration;

/// What is timed, of the library and of the peer.
pub struct Row<'a> {
    pub name: String,
    /// Operations in one time.
    pub operations: usize,
    pub goal: Option<f64>,
    pub ours: Run<'a>,
    pub peer: Run<'a>,
}

/// Does the row's operations so many times, and says how long they took.
pub type Run<'a> = Box<dyn FnMut(u32) -> Duration + 'a>;

const REPETITIONS: usize = 41;
const SLICE: Duration = Duration::from_millis(3);

pub fn timed<T>(run: impl FnOnce() -> T) -> Duration {
    let start = processor_time();
    black_box(run());
    processor_time() - start
}

#[repr(C)]
struct TimeSpec {
    seconds: i64,
    nanoseconds: i64,
}

extern "C" {
    fn clock_gettime(clock: i32, time: *mut TimeSpec) -> i32;
}

/// What the processor has spent on this thread, so that it does not count while another program runs.
fn processor_time() -> Duration {
    const CLOCK_THREAD_CPUTIME_ID: i32 = 3;
    let mut time = TimeSpec {
        seconds: 0,
        nanoseconds: 0,
    };
    // SAFETY: the call writes the two numbers of a timespec, as Linux has it on 64 bits.
    let failed = unsafe { clock_gettime(CLOCK_THREAD_CPUTIME_ID, &mut time) };
    assert_eq!(failed, 0, "no clock of the thread's time");
    Duration::new(time.seconds as u64, time.nanoseconds as u32)
}

/// How many times fill a slice of time.
pub fn enough(run: &mut Run) -> u32 {
    let mut times = 1;
    loop {
        let spent = run(times);
        if spent >= SLICE || times > 1 << 28 {
            return times;
        }
        let wanted = SLICE.as_secs_f64() / spent.as_secs_f64().max(1e-7);
        times = (f64::from(times) * wanted.clamp(1.3, 50.0)) as u32 + 1;
    }
}

/// Nanoseconds an operation: the least of several repetitions, what a run with no times costs taken off.
fn cost(run: &mut Run, times: u32, operations: usize) -> f64 {
    let idle = run(0).min(run(0));
    let spent = run(times).saturating_sub(idle);
    spent.as_nanos() as f64 / (f64::from(times) * operations as f64)
}

impl Row<'_> {
    /// Our nanoseconds and the peer's, in turn, the least of each.
    fn measure(&mut self) -> (f64, f64) {
        let (our_times, peer_times) = (enough(&mut self.ours), enough(&mut self.peer));
        let (mut ours, mut peer) = (f64::MAX, f64::MAX);
        for _ in 0..REPETITIONS {
            ours = ours.min(cost(&mut self.ours, our_times, self.operations));
            peer = peer.min(cost(&mut self.peer, peer_times, self.operations));
        }
        (ours, peer)
    }

    pub fn print(&mut self) {
        let (ours, peer) = self.measure();
        let ratio = peer / ours;
        let goal = match self.goal {
            Some(goal) => format!("{goal:.1} {}", if ratio >= goal { "met" } else { "MISSED" }),
            None => "-".to_string(),
        };
        println!(
            "{:<46} {:>9.1} {:>9.1} {:>8.2}   {goal}",
            self.name, ours, peer, ratio
        );
    }
}
