//! The same products in plain Rust: the recursion by first letters, each word added to a hashed map where it arises.
use std::collections::HashMap;

const MODULUS: u64 = 2_305_843_009_213_693_951;

/// A word: its letters in the lowest bits, x 0 and y 1, the first letter highest, with how many there are.
#[derive(Clone, Copy, PartialEq, Eq, Hash)]
struct Word {
    letters: u32,
    weight: u32,
}

const EMPTY: Word = Word { letters: 0, weight: 0 };

impl Word {
    fn concat(self, v: Word) -> Word {
        Word { letters: self.letters << v.weight | v.letters, weight: self.weight + v.weight }
    }

    /// The first letter of so many letters x and y, and the rest.
    fn cut(self, first: u32) -> (Word, Word) {
        let rest = self.weight - first;
        (Word { letters: self.letters >> rest, weight: first }, Word { letters: self.letters & ((1 << rest) - 1), weight: rest })
    }

    /// How many letters the front up to the first y has.
    fn first_z(self) -> u32 {
        self.weight - (31 - self.letters.leading_zeros())
    }
}

fn add(sum: &mut HashMap<Word, u64>, w: Word, modulus: u64) {
    let residue = sum.entry(w).or_insert(0);
    let more = *residue + 1;
    *residue = more.min(more.wrapping_sub(modulus));
}

fn add_products(stuffle: bool, front: Word, u: Word, v: Word, modulus: u64, sum: &mut HashMap<Word, u64>) {
    if u.weight == 0 {
        return add(sum, front.concat(v), modulus);
    }
    if v.weight == 0 {
        return add(sum, front.concat(u), modulus);
    }
    let (a, u_rest) = u.cut(if stuffle { u.first_z() } else { 1 });
    let (b, v_rest) = v.cut(if stuffle { v.first_z() } else { 1 });
    add_products(stuffle, front.concat(a), u_rest, v, modulus, sum);
    add_products(stuffle, front.concat(b), u, v_rest, modulus, sum);
    if stuffle {
        let joined = Word { letters: 1, weight: a.weight + b.weight };
        add_products(stuffle, front.concat(joined), u_rest, v_rest, modulus, sum);
    }
}

fn all_products(stuffle: bool, left: u32, right: u32, modulus: u64) -> u64 {
    let mut told = 0u64;
    for i in 0..1u32 << left {
        for k in 0..1u32 << right {
            let u = Word { letters: i << 1 | 1, weight: left + 2 };
            let v = Word { letters: k << 1 | 1, weight: right + 2 };
            let mut sum = HashMap::new();
            add_products(stuffle, EMPTY, u, v, modulus, &mut sum);
            sum.retain(|_, residue| *residue != 0);
            for (w, residue) in &sum {
                told = told.wrapping_add(residue.wrapping_mul(w.letters.count_ones() as u64 + 1)).wrapping_add(1 << 40);
            }
        }
    }
    told
}

fn main() {
    let modulus = std::hint::black_box(MODULUS);
    let mut told = 0u64;
    for _ in 0..20 {
        for stuffle in [false, true] {
            told = told.wrapping_add(all_products(stuffle, 4, 4, modulus));
            told = told.wrapping_add(all_products(stuffle, 2, 6, modulus));
        }
    }
    println!("{told}");
}
