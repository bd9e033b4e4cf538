//! SHAKE256, step by step from FIPS 202. Section and algorithm numbers in this file are those of
//! the standard. Bit z of lane `a[x][y]` is the standard's A[x, y, z].

/// The rate r of KECCAK[512] is 1600 - 512 bits.
pub const RATE_BYTES: usize = 136;
const RATE_BITS: usize = 8 * RATE_BYTES;
const ROUNDS: usize = 24;
const LANE_BITS: usize = 64;

type State = [[u64; 5]; 5];

/// SHAKE256(message, 8 out_len), section 6.2, by the sponge of algorithm 8.
pub fn shake256(message: &[u8], out_len: usize) -> Vec<u8> {
    let mut state = absorb(message); // steps 1 to 6
    let mut z = Vec::new(); // step 7
    loop {
        z.extend(first_rate_bytes(&state)); // step 8
        if out_len <= z.len() {
            z.truncate(out_len); // step 9
            return z;
        }
        state = keccak_f(state); // step 10
    }
}

/// SHAKE256(message, ∞): the same output, read on bit by bit, the lowest bit of a byte first.
pub struct Tape {
    state: State,
    bits_read: usize,
}

impl Tape {
    pub fn new(message: &[u8]) -> Tape {
        Tape {
            state: absorb(message),
            bits_read: 0,
        }
    }

    pub fn next_bit(&mut self) -> u8 {
        if self.bits_read == RATE_BITS {
            self.state = keccak_f(self.state);
            self.bits_read = 0;
        }
        let (lane, z) = (self.bits_read / LANE_BITS, self.bits_read % LANE_BITS);
        self.bits_read += 1;
        (self.state[lane % 5][lane / 5] >> z & 1) as u8
    }
}

/// The state after the message, algorithm 8, steps 1 to 6.
fn absorb(message: &[u8]) -> State {
    let mut padded = message.to_vec();
    padded.extend(suffix_and_padding(8 * message.len()));
    let mut state = [[0; 5]; 5];
    for block in padded.chunks(RATE_BYTES) {
        for (position, lane) in block.chunks(8).enumerate() {
            // section 3.1.2: A[x, y, z] is bit 64(5y + x) + z of the string
            let (x, y) = (position % 5, position / 5);
            state[x][y] ^= u64::from_le_bytes(lane.try_into().unwrap());
        }
        state = keccak_f(state);
    }
    state
}

/// What follows a message of so many bits (a multiple of 8): 1111 by section 6.2, then
/// pad10*1 by algorithm 9; as bytes by section B.1, the first bit lowest.
fn suffix_and_padding(message_bits: usize) -> Vec<u8> {
    let mut bits = vec![1, 1, 1, 1];
    let m = message_bits + bits.len();
    let j = (-(m as isize) - 2).rem_euclid(RATE_BITS as isize);
    bits.push(1);
    bits.extend(vec![0; j as usize]);
    bits.push(1);
    let mut bytes = Vec::new();
    for eight in bits.chunks(8) {
        let mut byte = 0;
        for (k, bit) in eight.iter().enumerate() {
            byte |= bit << k;
        }
        bytes.push(byte);
    }
    bytes
}

/// Trunc_r of the state as a string, section 3.1.3.
fn first_rate_bytes(state: &State) -> Vec<u8> {
    let mut bytes = Vec::new();
    for position in 0..RATE_BYTES / 8 {
        let (x, y) = (position % 5, position / 5);
        bytes.extend(state[x][y].to_le_bytes());
    }
    bytes
}

/// KECCAK-p[1600, 24], algorithm 7.
fn keccak_f(mut state: State) -> State {
    for round in 0..ROUNDS {
        state = iota(chi(pi(rho(theta(state)))), round);
    }
    state
}

/// Algorithm 1.
fn theta(a: State) -> State {
    let mut c = [0; 5];
    for x in 0..5 {
        c[x] = a[x][0] ^ a[x][1] ^ a[x][2] ^ a[x][3] ^ a[x][4];
    }
    let mut d = [0; 5];
    for x in 0..5 {
        d[x] = c[(x + 4) % 5] ^ c[(x + 1) % 5].rotate_left(1);
    }
    let mut result = a;
    for x in 0..5 {
        for y in 0..5 {
            result[x][y] = a[x][y] ^ d[x];
        }
    }
    result
}

/// Algorithm 2.
fn rho(a: State) -> State {
    let mut result = a;
    let (mut x, mut y) = (1, 0);
    for t in 0..24 {
        let offset = (t + 1) * (t + 2) / 2 % LANE_BITS;
        result[x][y] = a[x][y].rotate_left(offset as u32);
        (x, y) = (y, (2 * x + 3 * y) % 5);
    }
    result
}

/// Algorithm 3.
fn pi(a: State) -> State {
    let mut result = a;
    for x in 0..5 {
        for y in 0..5 {
            result[x][y] = a[(x + 3 * y) % 5][x];
        }
    }
    result
}

/// Algorithm 4.
fn chi(a: State) -> State {
    let mut result = a;
    for x in 0..5 {
        for y in 0..5 {
            result[x][y] = a[x][y] ^ (!a[(x + 1) % 5][y] & a[(x + 2) % 5][y]);
        }
    }
    result
}

/// Algorithm 6.
fn iota(a: State, round: usize) -> State {
    let mut result = a;
    result[0][0] = a[0][0] ^ ROUND_CONSTANTS[round];
    result
}

/// RC of algorithm 6 for each round, worked out once from rc.
const ROUND_CONSTANTS: [u64; ROUNDS] = {
    let mut constants = [0; ROUNDS];
    let mut round = 0;
    while round < ROUNDS {
        let mut j = 0;
        while j <= 6 {
            constants[round] |= rc(j + 7 * round) << ((1 << j) - 1);
            j += 1;
        }
        round += 1;
    }
    constants
};

/// Algorithm 5. R has a ninth place for the bit that step 3.f drops.
const fn rc(t: usize) -> u64 {
    if t % 255 == 0 {
        return 1;
    }
    let mut r = [1, 0, 0, 0, 0, 0, 0, 0, 0];
    let mut i = 1;
    while i <= t % 255 {
        r = [0, r[0], r[1], r[2], r[3], r[4], r[5], r[6], r[7]];
        r[0] ^= r[8];
        r[4] ^= r[8];
        r[5] ^= r[8];
        r[6] ^= r[8];
        i += 1;
    }
    r[0]
}
