//! The same merge in plain Rust, for comparison.
const MODULUS: u64 = 2_305_843_009_213_693_951;

/// A modulus, and what a quotient by it is guessed by.
#[derive(Clone, Copy)]
struct Ring {
    modulus: u64,
    shift: u32,
    reciprocal: u64,
}

impl Ring {
    fn new(modulus: u64) -> Ring {
        let shift = modulus.leading_zeros();
        Ring { modulus, shift, reciprocal: (u128::MAX / (modulus << shift) as u128) as u64 }
    }

    fn add(self, a: u64, b: u64) -> u64 {
        let sum = a + b;
        sum.min(sum.wrapping_sub(self.modulus))
    }

    fn mul(self, a: u64, b: u64) -> u64 {
        let product = a as u128 * b as u128;
        let whole = product.wrapping_shl(self.shift);
        let guess = ((whole >> 64) * self.reciprocal as u128).wrapping_add(whole) >> 64;
        let multiple = guess * self.modulus as u128;
        if multiple <= product && product - multiple < 2 * self.modulus as u128 {
            return self.add((product - multiple) as u64, 0);
        }
        (product % self.modulus as u128) as u64
    }
}

fn add_scaled(row: &mut Vec<(u16, u64)>, c: u64, other: &[(u16, u64)], ring: Ring) {
    let mut sum = Vec::new();
    let (mut i, mut k) = (0, 0);
    while i < row.len() || k < other.len() {
        let left = row.get(i).map_or(u32::MAX, |e| e.0 as u32);
        let right = other.get(k).map_or(u32::MAX, |e| e.0 as u32);
        let (col, residue) = if left < right {
            i += 1;
            row[i - 1]
        } else if right < left {
            k += 1;
            (other[k - 1].0, ring.mul(c, other[k - 1].1))
        } else {
            i += 1;
            k += 1;
            (row[i - 1].0, ring.add(row[i - 1].1, ring.mul(c, other[k - 1].1)))
        };
        if residue != 0 {
            sum.push((col, residue));
        }
    }
    *row = sum;
}

fn row_of(step: u16) -> Vec<(u16, u64)> {
    (0..1000u16).map(|i| (i * step, i as u64 * 7919 + 1)).collect()
}

fn main() {
    let ring = std::hint::black_box(Ring::new(MODULUS));
    let mut row = row_of(2);
    let other = row_of(3);
    for _ in 0..20000 {
        add_scaled(&mut row, 1_234_567_890_123_456_789, &other, ring);
    }
    println!("{}", row.iter().fold(0u64, |sum, e| sum.wrapping_add(e.1)));
}
