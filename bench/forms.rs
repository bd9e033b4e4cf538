// The linear parts of the three forms at the shares of sixteen parties, through the compiled proved code, in nanoseconds a party, at the three sizes
// (n, m), beside one permutation of ours and beside a plain table loop on unpacked elements, in one run. Each figure is the least of several rounds.
use std::hint::black_box;
use std::time::{Duration, Instant};

extern "C" {
    // crates/bench_forms: the linear parts of the three forms at the shares of sixteen parties
    fn bench_linear_forms(
        circuit: *const u8, circuit_len: usize, shares: *const u64, shares_len: usize,
        x: *mut u64, x_len: usize, y: *mut u64, y_len: usize, z: *mut u64, z_len: usize,
    );
    // crates/bench_forms: the first bytes of SHAKE256 of a seed
    fn bench_tape_bytes(seed: *const u8, seed_len: usize, out: *mut u8, out_len: usize);
}

const SIZES: [(usize, usize); 3] = [(64, 67), (87, 90), (118, 121)];
const PARTIES: usize = 16;
const ROUNDS: usize = 40;
const TURNS: u32 = 40;
const RATE: usize = 136;
const BLOCKS: usize = 100;

fn least(mut run: impl FnMut()) -> f64 {
    let mut best = Duration::MAX;
    for _ in 0..ROUNDS {
        let start = Instant::now();
        for _ in 0..TURNS {
            run();
        }
        best = best.min(start.elapsed());
    }
    best.as_nanos() as f64 / TURNS as f64
}

// The product modulo x^4 + x + 1.
fn product(a: u8, b: u8) -> u8 {
    let mut sum = 0u8;
    for i in 0..4 {
        if a >> i & 1 == 1 {
            sum ^= b << i;
        }
    }
    for d in (4..7).rev() {
        if sum >> d & 1 == 1 {
            sum ^= 0b10011 << (d - 4);
        }
    }
    sum
}

// Bytes with no pattern.
fn bytes(count: usize) -> Vec<u8> {
    let mut state = 0x9e3779b97f4a7c15u64;
    (0..count)
        .map(|_| {
            state ^= state << 13;
            state ^= state >> 7;
            state ^= state << 17;
            (state >> 24) as u8
        })
        .collect()
}

fn nib(bytes: &[u8], i: usize) -> u8 {
    bytes[i / 2] >> (4 * (i % 2)) & 15
}

fn plain(table: &[u8; 256], rows: &[u8], n: usize, share: &[u8], out: &mut [u8]) {
    for (k, value) in out.iter_mut().enumerate() {
        let row = &rows[k * n..(k + 1) * n];
        let mut sum = 0;
        for i in 0..n {
            sum ^= table[(row[i] as usize) * 16 + share[i] as usize];
        }
        *value = sum;
    }
}

fn main() {
    let mut table = [0u8; 256];
    for a in 0..16 {
        for b in 0..16 {
            table[a * 16 + b] = product(a as u8, b as u8);
        }
    }
    let mut tape = [0u8; RATE * BLOCKS];
    let permutation = least(|| unsafe { bench_tape_bytes(table.as_ptr(), 16, black_box(&mut tape).as_mut_ptr(), RATE * BLOCKS) }) / BLOCKS as f64;
    println!("one permutation: {permutation:.0} ns");
    for (n, m) in SIZES {
        let (width, first) = (n.div_ceil(2), m.div_ceil(2));
        let size = first + m * width;
        let circuit = bytes(3 * size);
        let shares: Vec<Vec<u8>> = (0..PARTIES).map(|q| bytes(1000 + 500 * q + n)[1000 + 500 * q..].iter().map(|b| b & 15).collect()).collect();
        let words: Vec<u64> = (0..n).map(|i| (0..PARTIES).map(|q| (shares[q][i] as u64) << (4 * q)).sum()).collect();
        let rows: Vec<Vec<u8>> = (0..3)
            .map(|j| (0..m * n).map(|c| nib(&circuit, 2 * (j * size + first + c / n * width) + c % n)).collect())
            .collect();
        let mut ours = vec![vec![0u64; m]; 3];
        let [x, y, z] = &mut ours[..] else { unreachable!() };
        let proved = least(|| unsafe {
            bench_linear_forms(
                black_box(&circuit).as_ptr(), circuit.len(), words.as_ptr(), n,
                x.as_mut_ptr(), m, y.as_mut_ptr(), m, z.as_mut_ptr(), m,
            )
        });
        let mut value = vec![0u8; m];
        let loop_time = least(|| {
            for j in 0..3 {
                plain(&table, black_box(&rows[j]), n, &shares[0], &mut value);
                black_box(&value);
            }
        });
        for j in 0..3 {
            for q in 0..PARTIES {
                plain(&table, &rows[j], n, &shares[q], &mut value);
                for k in 0..m {
                    assert!((ours[j][k] >> (4 * q) & 15) as u8 == value[k], "the two values differ");
                }
            }
        }
        let party = proved / PARTIES as f64;
        println!(
            "({n}, {m}): proved {party:.0} ns a party, {:.2} permutations; plain table loop {loop_time:.0} ns a party, {:.1} times as long",
            party / permutation,
            loop_time / party
        );
    }
}
