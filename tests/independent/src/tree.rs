//! The seed tree, algorithms 3 to 5. Levels and positions count from 0, repetitions and parties
//! from 1; the seed of party i is at place i - 1 of a list of leaves.

use crate::hashes::child_seeds;
use crate::sets::Parameters;

/// Algorithm 3, GetSeeds: all leaves of a root, for a number of parties that is a power of two.
pub fn get_seeds(
    p: &Parameters,
    root: &[u8],
    salt: &[u8],
    e: usize,
    parties: usize,
) -> Vec<Vec<u8>> {
    let mut seeds = vec![root.to_vec()]; // line 2
    for k in 1..=levels(parties) {
        let mut new_seeds = Vec::new(); // line 4
        for (j, seed) in seeds.iter().enumerate() {
            let (seed_1, seed_2) = child_seeds(p, salt, e, k - 1, j, seed); // line 7
            new_seeds.push(seed_1); // line 8
            new_seeds.push(seed_2);
        }
        seeds = new_seeds; // line 11
    }
    seeds
}

/// Algorithm 4, GetPath: the sibling's seed at each level from 1 on.
pub fn get_path(
    p: &Parameters,
    root: &[u8],
    salt: &[u8],
    e: usize,
    hidden: usize,
    parties: usize,
) -> Vec<Vec<u8>> {
    let mut path = Vec::new(); // line 2
    let mut seed = root.to_vec(); // line 3
    for k in 1..=levels(parties) {
        let position = (hidden - 1) >> (levels(parties) - k); // line 5
        let (seed_1, seed_2) = child_seeds(p, salt, e, k - 1, position / 2, &seed); // line 6
        if position % 2 == 1 {
            path.push(seed_1); // line 8
            seed = seed_2; // line 9
        } else {
            seed = seed_1; // line 11
            path.push(seed_2); // line 12
        }
    }
    path
}

/// Algorithm 5, GetPathSeeds: all leaves but the hidden party's, which is none.
pub fn get_path_seeds(
    p: &Parameters,
    path: &[Vec<u8>],
    salt: &[u8],
    e: usize,
    hidden: usize,
    parties: usize,
) -> Vec<Option<Vec<u8>>> {
    let mut seeds: Vec<Option<Vec<u8>>> = vec![None]; // line 3
    for k in 1..=levels(parties) {
        let mut new_seeds = Vec::new(); // line 5
        let position = (hidden - 1) >> (levels(parties) - k); // line 7
        for (j, seed) in seeds.iter().enumerate() {
            if let Some(seed) = seed {
                let (seed_1, seed_2) = child_seeds(p, salt, e, k - 1, j, seed); // line 10
                new_seeds.extend([Some(seed_1), Some(seed_2)]); // line 11
            } else if position % 2 == 1 {
                new_seeds.extend([Some(path[k - 1].clone()), None]); // line 14
            } else {
                new_seeds.extend([None, Some(path[k - 1].clone())]); // line 16
            }
        }
        seeds = new_seeds; // line 21
    }
    seeds
}

/// The levels below the root, log2 of the number of parties.
fn levels(parties: usize) -> usize {
    parties.ilog2() as usize
}
