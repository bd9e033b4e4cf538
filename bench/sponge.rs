// SHAKE256 through the compiled proved code and through OpenSSL, in one run: 16 MB absorbed, 16 MB squeezed, and the ratios.
// Each figure is the least of several rounds in which the two take turns, so that a disturbance touches both.
use std::ffi::c_void;
use std::time::{Duration, Instant};

extern "C" {
    // crates/shake: writes SHAKE256 of the message to the whole of out
    fn biscuit_shake256(message: *const u8, message_len: usize, out: *mut u8, out_len: usize);

    fn EVP_MD_CTX_new() -> *mut c_void;
    fn EVP_MD_CTX_free(context: *mut c_void);
    fn EVP_shake256() -> *const c_void;
    fn EVP_DigestInit_ex(context: *mut c_void, digest: *const c_void, engine: *mut c_void) -> i32;
    fn EVP_DigestUpdate(context: *mut c_void, data: *const c_void, len: usize) -> i32;
    fn EVP_DigestFinalXOF(context: *mut c_void, out: *mut u8, len: usize) -> i32;
}

const LONG: usize = 16 * 1024 * 1024;
const SHORT: usize = 32;
const ROUNDS: usize = 9;
const RATE: usize = 136;

fn ours(message: &[u8], out: &mut [u8]) {
    unsafe { biscuit_shake256(message.as_ptr(), message.len(), out.as_mut_ptr(), out.len()) }
}

fn openssl(message: &[u8], out: &mut [u8]) {
    unsafe {
        let context = EVP_MD_CTX_new();
        assert!(EVP_DigestInit_ex(context, EVP_shake256(), std::ptr::null_mut()) == 1);
        assert!(EVP_DigestUpdate(context, message.as_ptr().cast(), message.len()) == 1);
        assert!(EVP_DigestFinalXOF(context, out.as_mut_ptr(), out.len()) == 1);
        EVP_MD_CTX_free(context);
    }
}

fn time(run: impl FnOnce()) -> Duration {
    let start = Instant::now();
    run();
    start.elapsed()
}

fn compare(name: &str, message: &[u8], out_len: usize) {
    let (mut a, mut b) = (vec![0; out_len], vec![0; out_len]);
    let (mut best_ours, mut best_openssl) = (Duration::MAX, Duration::MAX);
    for _ in 0..ROUNDS {
        best_ours = best_ours.min(time(|| ours(message, &mut a)));
        best_openssl = best_openssl.min(time(|| openssl(message, &mut b)));
    }
    assert!(a == b, "the two outputs differ");
    let blocks = (message.len().max(out_len) / RATE) as f64;
    println!(
        "{name}: proved {:.1} ms ({:.0} ns a block), OpenSSL {:.1} ms ({:.0} ns a block), ratio {:.3}",
        best_ours.as_secs_f64() * 1e3,
        best_ours.as_nanos() as f64 / blocks,
        best_openssl.as_secs_f64() * 1e3,
        best_openssl.as_nanos() as f64 / blocks,
        best_ours.as_secs_f64() / best_openssl.as_secs_f64()
    );
}

// Many short hashes, as a signature makes them: a ratio to as many blocks of a long one.
fn short() {
    const COUNT: usize = 20000;
    let message = [7u8; 100];
    let mut out = [0u8; 64];
    let long = vec![0u8; COUNT * RATE];
    let (mut best, mut floor) = (Duration::MAX, Duration::MAX);
    for _ in 0..ROUNDS {
        best = best.min(time(|| {
            for _ in 0..COUNT {
                ours(&message, &mut out);
            }
        }));
        floor = floor.min(time(|| ours(&long, &mut out)));
    }
    println!(
        "100 bytes in, 64 bytes out: {:.0} ns, {:.3} of one block of a long message",
        best.as_nanos() as f64 / COUNT as f64,
        best.as_secs_f64() / floor.as_secs_f64()
    );
}

fn main() {
    let message: Vec<u8> = (0..LONG).map(|i| (i % 251) as u8).collect();
    compare("absorb 16 MB", &message, SHORT);
    compare("squeeze 16 MB", &message[..SHORT], LONG);
    short();
}
