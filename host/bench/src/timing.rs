//! How long a piece of work takes.

use std::fmt::Debug;
use std::hint::black_box;
use std::time::{Duration, Instant};

const ROUNDS: usize = 9;

/// No round starts after this.
const LONGEST: Duration = Duration::from_secs(5);

/// Short work is repeated for as long as this in a turn.
const TURN: Duration = Duration::from_millis(50);

/// The best of several rounds; of one alone, if that takes long.
pub fn best_time<T>(mut work: impl FnMut() -> T) -> Duration {
    let start = Instant::now();
    let mut best = Duration::MAX;
    for _ in 0..ROUNDS {
        let round = Instant::now();
        black_box(work());
        best = best.min(round.elapsed());
        if start.elapsed() > LONGEST {
            break;
        }
    }
    best
}

/// The time of the work once by a clock, over as many repeats as fill a turn.
fn time_by<T>(clock: impl Fn() -> Duration, mut work: impl FnMut() -> T) -> Duration {
    let start = clock();
    let mut repeats = 0;
    while repeats == 0 || clock() - start < TURN {
        black_box(work());
        repeats += 1;
    }
    (clock() - start) / repeats
}

/// A turn.
pub fn turn_time<T>(work: impl FnMut() -> T) -> Duration {
    let start = Instant::now();
    time_by(|| start.elapsed(), work)
}

/// The best of several turns.
pub fn best_turn<T>(mut work: impl FnMut() -> T) -> Duration {
    let turns = (0..ROUNDS).map(|_| turn_time(&mut work));
    turns.min().unwrap_or_default()
}

/// The best of the times that each of these gives of itself, over several
/// turns that they take one after the other: what slows the machine for a while
/// slows not one of them alone.
pub fn best_in_turns(times: &[&dyn Fn() -> Duration]) -> Vec<Duration> {
    let mut best = vec![Duration::MAX; times.len()];
    for _ in 0..ROUNDS {
        for (best, time) in best.iter_mut().zip(times) {
            let turn = Instant::now();
            while turn.elapsed() < TURN {
                *best = time().min(*best);
            }
        }
    }
    best
}

/// The time of work on something of its own, made before; it must be done.
pub fn time_on<S, T, E: Debug>(mut own: S, work: impl Fn(&mut S) -> Result<T, E>) -> Duration {
    let start = Instant::now();
    let result = black_box(work(&mut own));
    let time = start.elapsed();
    result.expect("work to be timed is done");
    time
}

/// A turn in time of the processor, which others that run do not lengthen much.
pub fn processor_time<T>(work: impl FnMut() -> T) -> Duration {
    time_by(processor, work)
}

/// The processor times of two pieces of work, the middle of several turns that
/// they take one after the other.
pub fn processor_times<S, T>(
    mut first: impl FnMut() -> S,
    mut second: impl FnMut() -> T,
) -> [Duration; 2] {
    let (mut firsts, mut seconds) = (vec![], vec![]);
    for _ in 0..ROUNDS {
        firsts.push(processor_time(&mut first));
        seconds.push(processor_time(&mut second));
    }
    [firsts, seconds].map(middle)
}

/// What the thread has had of the processor so far.
fn processor() -> Duration {
    const OF_THIS_THREAD: i32 = 3;
    #[repr(C)]
    struct Clock {
        seconds: i64,
        nanoseconds: i64,
    }
    unsafe extern "C" {
        fn clock_gettime(clock: i32, time: *mut Clock) -> i32;
    }
    let mut clock = Clock {
        seconds: 0,
        nanoseconds: 0,
    };
    // SAFETY: the C library fills the struct, which has its 64-bit Linux layout
    assert_eq!(unsafe { clock_gettime(OF_THIS_THREAD, &mut clock) }, 0);
    Duration::new(clock.seconds as u64, clock.nanoseconds as u32)
}

/// How often work that takes so long is repeated to fill a turn.
pub fn repeats(time: Duration) -> u32 {
    let count = TURN.as_nanos() / time.as_nanos().max(1);
    count.clamp(1, 1_000) as u32
}

/// The middle of some times.
pub fn middle(mut times: Vec<Duration>) -> Duration {
    times.sort();
    times[times.len() / 2]
}

/// A time in the unit that suits it.
pub fn shown(time: Duration) -> String {
    let seconds = time.as_secs_f64();
    if seconds < 1e-3 {
        format!("{:.1} µs", seconds * 1e6)
    } else if seconds < 1.0 {
        format!("{:.2} ms", seconds * 1e3)
    } else {
        format!("{seconds:.2} s")
    }
}

/// How many times as long the first takes as the second.
pub fn ratio(first: Duration, second: Duration) -> f64 {
    first.as_secs_f64() / second.as_secs_f64()
}
