//! The same additions into a hashed map in plain Rust, for comparison.
use std::collections::HashMap;

const MODULUS: u64 = 2_305_843_009_213_693_951;

// The letters of a word, and its weight.
type Word = u32;

fn word_of(number: u32) -> Word {
    (number << 12) | 12
}

fn add_term(sum: &mut HashMap<Word, u64>, modulus: u64, word: Word, residue: u64) {
    let more = sum.get(&word).copied().unwrap_or(0) + residue;
    let reduced = more.min(more.wrapping_sub(modulus));
    if reduced == 0 {
        sum.remove(&word);
    } else {
        sum.insert(word, reduced);
    }
}

fn main() {
    let modulus = std::hint::black_box(MODULUS);
    let words: Vec<Word> = (0..1000).map(word_of).collect();
    let mut sum = HashMap::new();
    for _ in 0..5000 {
        for word in &words {
            add_term(&mut sum, modulus, *word, 1_234_567_890_123_456_789);
        }
    }
    println!("{}", words.iter().fold(0u64, |total, word| total.wrapping_add(sum.get(word).copied().unwrap_or(0))));
}
