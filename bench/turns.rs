// Times of a call and of one permutation of ours, turn about, so that both meet the same machine. A time is the thread's own: what the processor does for other programs meanwhile is not in it.
use crate::counts::RATE;

extern "C" {
    // crates/shake: writes SHAKE256 of the message to the whole of out
    fn biscuit_shake256(message: *const u8, message_len: usize, out: *mut u8, out_len: usize);
    fn clock_gettime(clock: i32, time: *mut Time) -> i32;
}

#[repr(C)]
struct Time {
    seconds: i64,
    nanoseconds: i64,
}

// CLOCK_THREAD_CPUTIME_ID of Linux.
const OWN_TIME: i32 = 3;
const BLOCKS: usize = 2000;

// The least time of each in nanoseconds, over so many rounds: of the call, and of one permutation.
pub fn least(rounds: usize, mut call: impl FnMut()) -> (f64, f64) {
    let mut out = vec![0u8; RATE * BLOCKS];
    let seed = [7u8; 32];
    let (mut best, mut one) = (f64::MAX, f64::MAX);
    for _ in 0..rounds {
        one = one.min(time(|| unsafe { biscuit_shake256(seed.as_ptr(), seed.len(), out.as_mut_ptr(), out.len()) }));
        best = best.min(time(&mut call));
    }
    (best, one / BLOCKS as f64)
}

// The thread's own time of one run, in nanoseconds.
pub fn time(run: impl FnOnce()) -> f64 {
    let start = now();
    run();
    now() - start
}

fn now() -> f64 {
    let mut time = Time { seconds: 0, nanoseconds: 0 };
    assert_eq!(unsafe { clock_gettime(OWN_TIME, &mut time) }, 0);
    time.seconds as f64 * 1e9 + time.nanoseconds as f64
}
