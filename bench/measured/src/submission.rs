//! The submission's own table of cycles (its tables 5 to 8): averages of 1000 runs on an 11th Gen Intel Core i7-1185G7 at 3.00 GHz without TurboBoost, GCC 10.2.1.

use crate::Call;

pub const PROCESSOR: &str = "Intel Core i7-1185G7 at 3.00 GHz";
/// Cycles in a nanosecond there.
pub const CLOCK: f64 = 3.0;

/// Cycles of one set: make keys, sign, verify.
struct Cycles(u64, u64, u64);

/// The implementation `generic64`, by the set's number less 1.
const GENERIC64: [Cycles; 6] = [
    Cycles(110_419, 106_256_349, 105_028_599),
    Cycles(108_608, 12_991_223, 11_995_363),
    Cycles(274_275, 775_763_124, 770_260_803),
    Cycles(256_728, 87_269_078, 81_529_919),
    Cycles(417_886, 1_453_937_743, 1_462_615_033),
    Cycles(419_094, 167_453_309, 155_923_813),
];

/// The implementation `sse2`.
const SSE2: [Cycles; 6] = [
    Cycles(82_632, 80_555_671, 78_899_797),
    Cycles(82_505, 9_653_412, 8_734_302),
    Cycles(210_159, 724_466_241, 714_947_231),
    Cycles(210_150, 81_492_308, 75_826_788),
    Cycles(332_165, 1_291_111_734, 1_274_568_395),
    Cycles(353_223, 147_099_575, 137_359_832),
];

pub fn generic64(set: usize, call: Call) -> f64 {
    of(&GENERIC64[set - 1], call)
}

pub fn sse2(set: usize, call: Call) -> f64 {
    of(&SSE2[set - 1], call)
}

fn of(cycles: &Cycles, call: Call) -> f64 {
    match call {
        Call::MakeKeys => cycles.0 as f64,
        Call::Sign => cycles.1 as f64,
        Call::Verify => cycles.2 as f64,
    }
}
