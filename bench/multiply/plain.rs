//! The same products in plain Rust, each divided by a guessed quotient, for comparison.
const MODULUS: u64 = 2_305_843_009_213_693_951;

/// A modulus, and what a quotient by it is guessed by.
#[derive(Clone, Copy)]
struct Ring {
    modulus: u64,
    shift: u32,
    reciprocal: u64,
}

impl Ring {
    fn new(modulus: u64) -> Ring {
        let shift = modulus.leading_zeros();
        Ring { modulus, shift, reciprocal: (u128::MAX / (modulus << shift) as u128) as u64 }
    }

    fn add(self, a: u64, b: u64) -> u64 {
        let sum = a + b;
        sum.min(sum.wrapping_sub(self.modulus))
    }

    fn mul(self, a: u64, b: u64) -> u64 {
        let product = a as u128 * b as u128;
        let whole = product.wrapping_shl(self.shift);
        let guess = ((whole >> 64) * self.reciprocal as u128).wrapping_add(whole) >> 64;
        let multiple = guess * self.modulus as u128;
        if multiple <= product && product - multiple < 2 * self.modulus as u128 {
            return self.add((product - multiple) as u64, 0);
        }
        (product % self.modulus as u128) as u64
    }
}

fn residues_of(step: u64, ring: Ring) -> Vec<u64> {
    let mut residues = Vec::new();
    let mut residue = 1u64;
    for _ in 0..1_000_000 {
        residues.push(residue);
        residue = ring.add(residue, step);
    }
    residues
}

fn sum_of_products(a: &[u64], b: &[u64], ring: Ring) -> u64 {
    a.iter().zip(b).fold(0, |sum, (x, y)| ring.add(sum, ring.mul(*x, *y)))
}

fn main() {
    let ring = std::hint::black_box(Ring::new(MODULUS));
    let a = residues_of(1_234_567_890_123_456_789, ring);
    let b = residues_of(987_654_321_987_654_321, ring);
    let sum = (0..50).fold(0u64, |sum, place| sum.wrapping_add(sum_of_products(&a[place..], &b[place..], ring)));
    println!("{}", sum);
}
