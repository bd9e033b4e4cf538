//! The forms, algorithms 8 to 10. Each equation is f = A0 + A1·A2 with affine forms.

use crate::field::{add, add_vectors, product, product_vectors, subtract_vectors};
use crate::sampling::sample_vector;
use crate::sets::Parameters;
use crate::shake::Tape;

/// The three tables: `constants[j][k]` and `rows[j][k]` are the constant and the coefficients of
/// the form A_j of equation k, counted from 0.
#[derive(Default)]
pub struct Circuit {
    pub constants: [Vec<u8>; 3],
    pub rows: [Vec<Vec<u8>>; 3],
}

/// Algorithm 8, ExpandCircuit.
pub fn expand_circuit(p: &Parameters, circuit_seed: &[u8]) -> Circuit {
    let mut tape = Tape::new(circuit_seed); // line 2
    let mut f = Circuit::default();
    for j in [1, 2, 0] {
        f.constants[j] = sample_vector(&mut tape, p.m); // line 4
        for _k in 0..p.m {
            f.rows[j].push(sample_vector(&mut tape, p.n)); // line 6
        }
    }
    f
}

/// Algorithm 9, LinearCircuit: x, y and z of the party idx. The first party alone keeps the
/// constants, and it alone leaves t out.
pub fn linear_circuit(s: &[u8], t: &[u8], idx: usize, f: &Circuit) -> (Vec<u8>, Vec<u8>, Vec<u8>) {
    let values = |j| match idx {
        1 => affine_values(f, j, s), // line 3
        _ => linear_values(f, j, s), // line 5
    };
    let x = values(1); // line 7
    let y = values(2); // line 8
    let z = if idx == 1 {
        subtract_vectors(&vec![0; t.len()], &values(0)) // line 10
    } else {
        subtract_vectors(t, &values(0)) // line 12
    };
    (x, y, z)
}

/// Algorithm 10, EvalCircuit: y and t of a secret.
pub fn eval_circuit(s: &[u8], f: &Circuit) -> (Vec<u8>, Vec<u8>) {
    let x = affine_values(f, 1, s); // line 2
    let y = affine_values(f, 2, s); // line 3
    let z = product_vectors(&x, &y); // line 4
    let t = add_vectors(&z, &affine_values(f, 0, s)); // line 5
    (y, t)
}

/// A_j(s) of all equations, constants included.
pub fn affine_values(f: &Circuit, j: usize, s: &[u8]) -> Vec<u8> {
    add_vectors(&f.constants[j], &linear_values(f, j, s))
}

/// A_j(s) of all equations, constants left out.
pub fn linear_values(f: &Circuit, j: usize, s: &[u8]) -> Vec<u8> {
    f.rows[j].iter().map(|row| linear_value(row, s)).collect()
}

/// The sum of the products of coefficients and variables.
fn linear_value(row: &[u8], s: &[u8]) -> u8 {
    let mut sum = 0;
    for (coefficient, variable) in row.iter().zip(s) {
        sum = add(sum, product(*coefficient, *variable));
    }
    sum
}
