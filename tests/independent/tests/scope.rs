//! The numbers of document 01: its table of sets, "Close comparisons", and the rules of tree,
//! sampling and forms.

use independent::envelope::header;
use independent::field::{add, add_vectors, pack, product, subtract_vectors, unpack};
use independent::forms::{affine_values, eval_circuit, expand_circuit, linear_circuit};
use independent::hashes::enc16;
use independent::repetition::{party_alpha, party_v};
use independent::sampling::{expand_indexes, expand_vectors};
use independent::sets::{parameters, SETS};
use independent::shake::shake256;
use independent::tree::{get_path, get_path_seeds, get_seeds};

#[test]
fn sizes() {
    let sizes = SETS.map(|p| {
        (
            p.parties(),
            p.secret_key_bytes(),
            p.public_key_bytes(),
            p.signature_bytes(),
        )
    });
    let table = [
        (256, 115, 50, 4758),
        (16, 115, 50, 6726),
        (256, 158, 69, 11349),
        (16, 158, 69, 15129),
        (256, 212, 93, 20192),
        (16, 212, 93, 27348),
    ];
    assert_eq!(sizes, table);
    assert!(parameters(0).is_none());
    assert!(parameters(7).is_none());
}

#[test]
fn products() {
    assert_eq!(product(2, 8), 3);
    assert_eq!(product(2, 9), 1);
    assert_eq!(product(3, 7), 9);
    assert_eq!(product(8, 8), 12);
    assert_eq!(product(15, 15), 10);
}

#[test]
fn products_make_a_field() {
    for a in 1..16 {
        let mut row: Vec<u8> = (0..16).map(|b| product(a, b)).collect();
        row.sort();
        assert_eq!(row, (0..16).collect::<Vec<u8>>());
        for b in 0..16 {
            assert_eq!(product(a, b), product(b, a));
            assert_eq!(product(a, add(b, 5)), add(product(a, b), product(a, 5)));
        }
    }
}

#[test]
fn packing() {
    assert_eq!(pack(&[]), []);
    assert_eq!(pack(&[1, 2, 3]), [0x21, 0x03]);
    assert_eq!(pack(&[10, 11]), [0xba]);
    assert_eq!(unpack(&[0x21, 0xf3], 3), [1, 2, 3]);
}

#[test]
fn sixteen_bit_numbers() {
    assert_eq!(enc16(256), [0x00, 0x01]);
    assert_eq!(header(2, 300), [0x12, 0x01, 0x2c]);
}

#[test]
fn sibling_positions() {
    for (hidden, positions) in [(1, [1, 1, 1, 1]), (6, [1, 0, 3, 4]), (16, [0, 2, 6, 14])] {
        let p = &SETS[1];
        let path = get_path(p, &[7; 16], &[8; 32], 3, hidden, 16);
        for k in 1..=4 {
            // the tree of 2^k parties is the first k levels of the tree of 16
            let level = get_seeds(p, &[7; 16], &[8; 32], 3, 1 << k);
            assert_eq!(path[k - 1], level[positions[k - 1]]);
        }
    }
}

#[test]
fn a_path_rebuilds_the_other_leaves() {
    for p in &SETS {
        let (root, salt) = (vec![5; p.seed_bytes()], vec![6; p.hash_bytes()]);
        let seeds = get_seeds(p, &root, &salt, p.tau, p.parties());
        for hidden in [1, 2, 7, p.parties() - 1, p.parties()] {
            let path = get_path(p, &root, &salt, p.tau, hidden, p.parties());
            let rebuilt = get_path_seeds(p, &path, &salt, p.tau, hidden, p.parties());
            let mut others: Vec<Option<Vec<u8>>> = seeds.iter().cloned().map(Some).collect();
            others[hidden - 1] = None;
            assert_eq!(rebuilt, others);
        }
    }
}

#[test]
fn check_values() {
    let sum_is_zero = |z, c, epsilon| {
        let alpha = party_alpha(&[2], &[epsilon], &[3]);
        party_v(&[9], &alpha, &[z], &[epsilon], &[c]) == [0]
    };
    for epsilon in 0..16 {
        assert!(sum_is_zero(1, 8, epsilon));
        assert_eq!(sum_is_zero(0, 13, epsilon), epsilon == 5);
    }
}

#[test]
fn samples_are_whole_bytes() {
    let tape = shake256(&[9; 32], 70);
    let vectors = expand_vectors(&[9; 32], 2, 67);
    assert_eq!(vectors[0], unpack(&tape[..34], 67));
    assert_eq!(vectors[1], unpack(&tape[34..68], 67));
    let low: Vec<usize> = tape.iter().map(|byte| (byte & 15) as usize + 1).collect();
    let all: Vec<usize> = tape.iter().map(|byte| *byte as usize + 1).collect();
    assert_eq!(expand_indexes(&[9; 32], 70, 4), low);
    assert_eq!(expand_indexes(&[9; 32], 70, 8), all);
}

#[test]
fn shares_of_the_forms_add_up() {
    for p in &SETS {
        let f = expand_circuit(p, &vec![3; p.seed_bytes()]);
        let shares = expand_vectors(&[1], p.parties(), p.n);
        let sum = |vectors: Vec<Vec<u8>>| {
            vectors
                .into_iter()
                .reduce(|a, b| add_vectors(&a, &b))
                .unwrap()
        };
        let s = sum(shares.clone());
        let (y, t) = eval_circuit(&s, &f);
        let parts: Vec<_> = (1..=p.parties())
            .map(|i| linear_circuit(&shares[i - 1], &t, i, &f))
            .collect();
        assert_eq!(
            sum(parts.iter().map(|part| part.0.clone()).collect()),
            affine_values(&f, 1, &s)
        );
        assert_eq!(sum(parts.iter().map(|part| part.1.clone()).collect()), y);
        let z = subtract_vectors(&t, &affine_values(&f, 0, &s));
        assert_eq!(sum(parts.iter().map(|part| part.2.clone()).collect()), z);
    }
}
