//! The same products in plain Rust, in Montgomery form, for comparison.
const MODULUS: u64 = 2_305_843_009_213_693_951;

/// An odd modulus, minus its inverse modulo 2^64, and the first two powers of 2^64 modulo it.
#[derive(Clone, Copy)]
struct Ring {
    modulus: u64,
    negated: u64,
    one: u64,
    square: u64,
}

impl Ring {
    fn new(modulus: u64) -> Ring {
        let mut inverse = 1u64;
        for _ in 0..6 {
            inverse = inverse.wrapping_mul(modulus.wrapping_mul(inverse).wrapping_add(2));
        }
        let one = ((1u128 << 64) % modulus as u128) as u64;
        let square = (one as u128 * one as u128 % modulus as u128) as u64;
        Ring { modulus, negated: inverse, one, square }
    }

    fn reduced(self, sum: u128) -> u64 {
        let factor = (sum as u64).wrapping_mul(self.negated);
        let whole = sum + factor as u128 * self.modulus as u128;
        let rest = (whole >> 64) as u64;
        rest.min(rest.wrapping_sub(self.modulus))
    }

    fn of(self, n: u64) -> u64 {
        self.reduced(n as u128 * self.square as u128)
    }

    fn add(self, a: u64, b: u64) -> u64 {
        let sum = a + b;
        sum.min(sum.wrapping_sub(self.modulus))
    }

    fn mul(self, a: u64, b: u64) -> u64 {
        self.reduced(a as u128 * b as u128)
    }
}

fn residues_of(step: u64, ring: Ring) -> Vec<u64> {
    let mut residues = Vec::new();
    let mut residue = ring.one;
    for _ in 0..1_000_000 {
        residues.push(residue);
        residue = ring.add(residue, step);
    }
    residues
}

fn sum_of_products(a: &[u64], b: &[u64], ring: Ring) -> u64 {
    a.iter().zip(b).fold(0, |sum, (x, y)| ring.add(sum, ring.mul(*x, *y)))
}

fn main() {
    let ring = std::hint::black_box(Ring::new(MODULUS));
    let a = residues_of(ring.of(1_234_567_890_123_456_789), ring);
    let b = residues_of(ring.of(987_654_321_987_654_321), ring);
    let sum = (0..50).fold(0u64, |sum, place| sum.wrapping_add(sum_of_products(&a[place..], &b[place..], ring)));
    println!("{}", sum);
}
