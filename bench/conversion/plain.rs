//! The same tables and rows in plain Rust, with the same loops, for comparison. A sum of words is a hashed map of std.
use std::cmp::Ordering;
use std::collections::HashMap;
use std::io::Read;
use std::time::Instant;

const MODULUS: u64 = 2_305_843_009_213_693_951;

#[derive(Clone, Copy)]
struct Ring {
    modulus: u64,
    shift: u32,
    reciprocal: u64,
}

impl Ring {
    fn new(modulus: u64) -> Ring {
        let shift = modulus.leading_zeros();
        Ring { modulus, shift, reciprocal: (u128::MAX / (modulus << shift) as u128) as u64 }
    }

    fn rest_of(self, sum: u128) -> u64 {
        let whole = sum.wrapping_shl(self.shift);
        let guess = ((whole >> 64) * self.reciprocal as u128).wrapping_add(whole) >> 64;
        let product = guess * self.modulus as u128;
        if product <= sum && sum - product < 2 * self.modulus as u128 {
            return self.below_twice((sum - product) as u64);
        }
        (sum % self.modulus as u128) as u64
    }

    fn below_twice(self, n: u64) -> u64 {
        n.min(n.wrapping_sub(self.modulus))
    }

    fn mul(self, a: u64, b: u64) -> u64 {
        self.rest_of(a as u128 * b as u128)
    }

    fn add(self, a: u64, b: u64) -> u64 {
        self.below_twice(a + b)
    }

    fn neg(self, a: u64) -> u64 {
        self.below_twice(self.modulus - a)
    }

    fn add_product(self, sum: u128, a: u64, b: u64) -> u128 {
        let sum = sum + a as u128 * b as u128;
        (self.below_twice((sum >> 64) as u64) as u128) << 64 | sum as u64 as u128
    }

    fn close(self, sum: u128) -> u64 {
        if sum == 0 { 0 } else { self.rest_of(sum) }
    }

    fn inverse(self, a: u64) -> u64 {
        let (mut high, mut low, mut high_factor, mut low_factor) = (self.modulus, a, 0, 1);
        while low != 0 {
            let next = self.add(high_factor, self.neg(self.mul(high / low % self.modulus, low_factor)));
            (high, low) = (low, high % low);
            (high_factor, low_factor) = (low_factor, next);
        }
        assert!(high == 1, "no inverse");
        high_factor
    }
}

/// A word: its letters in the upper 24 of 29 bits, the first one highest, 0 for x and 1 for y, and the weight in the lowest five.
#[derive(Clone, Copy, PartialEq, Eq, PartialOrd, Ord, Hash)]
struct Word(u32);

impl Word {
    fn of(bits: u64, weight: u32) -> Word {
        Word((bits as u32) << (24 - weight) << 5 | weight)
    }

    fn weight(self) -> u32 {
        self.0 % 32
    }

    fn depth(self) -> u32 {
        (self.0 / 32).count_ones()
    }

    fn letter(self, i: u32) -> u32 {
        (self.0 / 32 >> (23 - i)) % 2
    }

    fn push(self, a: u32) -> Word {
        Word((self.0 | a << (28 - self.weight())) + 1)
    }

    fn behind(self, a: u32) -> Word {
        Word(a << 28 | (self.0 / 64) << 5 | (self.weight() + 1))
    }

    fn from(self, i: u32) -> Word {
        let letters = (self.0 / 32) << i & ((1 << 24) - 1);
        Word(letters << 5 | (self.weight() - i))
    }

    fn part(self, from: u32, to: u32) -> Word {
        let mut part = Word(0);
        for i in from..to {
            part = part.push(self.letter(i));
        }
        part
    }
}

/// The Lyndon factors of a word, by Duval's algorithm.
fn factors(w: Word) -> Vec<Word> {
    let mut found = Vec::new();
    let n = w.weight();
    let mut i = 0;
    while i < n {
        let (mut j, mut k) = (i + 1, i);
        while j < n && w.letter(k) <= w.letter(j) {
            k = if w.letter(k) < w.letter(j) { i } else { k + 1 };
            j += 1;
        }
        while i <= k {
            found.push(w.part(i, i + j - k));
            i += j - k;
        }
    }
    found
}

struct Column {
    word: Word,
    factors: Vec<Word>,
}

fn lead_order(a: &Column, b: &Column) -> Ordering {
    let lens = a.factors.len().cmp(&b.factors.len());
    lens.then_with(|| b.word.depth().cmp(&a.word.depth())).then_with(|| b.factors.cmp(&a.factors))
}

fn push_words(words: &mut Vec<Word>, front: Word, more: u32, depth: u32) {
    if more == 0 {
        words.push(front.push(1));
        return;
    }
    push_words(words, front.push(0), more - 1, depth);
    if depth > 0 {
        push_words(words, front.push(1), more - 1, depth - 1);
    }
}

/// The columns in lead order, and of each word, by increasing words, the place of its column.
struct Columns {
    list: Vec<Column>,
    words: Vec<Word>,
    places: Vec<u32>,
}

impl Columns {
    fn new(w: u32, d: u32) -> Columns {
        let mut words = Vec::new();
        push_words(&mut words, Word(0).push(0), w - 2, d - 1);
        let mut list: Vec<Column> = words.iter().map(|&word| Column { word, factors: factors(word) }).collect();
        list.sort_by(lead_order);
        let mut places = vec![0; words.len()];
        for (i, column) in list.iter().enumerate() {
            places[words.binary_search(&column.word).unwrap()] = i as u32;
        }
        Columns { list, words, places }
    }

    fn place_of_word(&self, w: Word) -> Option<u32> {
        self.words.binary_search(&w).ok().map(|k| self.places[k])
    }
}

type Terms = Vec<(Word, u64)>;
type Sum = HashMap<Word, u64>;

/// The terms with a letter in front of each, merged by decreasing words.
fn merged(ring: Ring, a: u32, left: &[(Word, u64)], b: u32, right: &[(Word, u64)]) -> Terms {
    let mut terms = Vec::with_capacity(left.len() + right.len());
    let put = |terms: &mut Terms, a: u32, t: &(Word, u64)| terms.push((t.0.behind(a), t.1));
    if a != b {
        let (first, second) = if a > b { ((a, left), (b, right)) } else { ((b, right), (a, left)) };
        first.1.iter().for_each(|t| put(&mut terms, first.0, t));
        second.1.iter().for_each(|t| put(&mut terms, second.0, t));
        return terms;
    }
    let (mut i, mut k) = (0, 0);
    while i < left.len() && k < right.len() {
        match left[i].0.cmp(&right[k].0) {
            Ordering::Greater => {
                put(&mut terms, a, &left[i]);
                i += 1;
            }
            Ordering::Less => {
                put(&mut terms, a, &right[k]);
                k += 1;
            }
            Ordering::Equal => {
                put(&mut terms, a, &(left[i].0, ring.add(left[i].1, right[k].1)));
                i += 1;
                k += 1;
            }
        }
    }
    left[i..].iter().for_each(|t| put(&mut terms, a, t));
    right[k..].iter().for_each(|t| put(&mut terms, a, t));
    terms
}

/// A multiple of the shuffle of two words, by rows: one word times each suffix of the other.
fn product_terms(ring: Ring, c: u64, u: Word, v: Word) -> Terms {
    let n = v.weight();
    let mut row: Vec<Terms> = (0..=n).map(|k| vec![(v.from(n - k), c)]).collect();
    for i in (0..u.weight()).rev() {
        let mut next = vec![vec![(u.from(i), c)]];
        for k in 1..=n as usize {
            next.push(merged(ring, u.letter(i), &row[k], v.letter(n - k as u32), &next[k - 1]));
        }
        row = next;
    }
    row.pop().unwrap()
}

fn add_term(ring: Ring, sum: &mut Sum, word: Word, residue: u64) {
    let held = sum.entry(word).or_insert(0);
    *held = ring.add(*held, residue);
    if *held == 0 {
        sum.remove(&word);
    }
}

/// The shuffle of the factors.
fn shuffled(ring: Ring, factors: &[Word]) -> Sum {
    let mut sum = Sum::from([(Word(0), 1)]);
    for &factor in factors {
        let mut next = Sum::new();
        for (&word, &c) in &sum {
            for (word, residue) in product_terms(ring, c, word, factor) {
                add_term(ring, &mut next, word, residue);
            }
        }
        sum = next;
    }
    sum
}

type Row = Vec<(u16, u64)>;

struct Table {
    ring: Ring,
    columns: Columns,
    rows: Vec<(Word, Row)>,
}

/// The start, plus the rows of the words of a sum, each `scale` times its residue.
fn row_of_sum(ring: Ring, columns: usize, rows: &[(Word, Row)], start: &[(u16, u64)], scale: u64, sum: &Sum) -> Row {
    let mut sums = vec![0u128; columns];
    let mut add_entries = |c: u64, entries: &[(u16, u64)]| {
        for &(column, residue) in entries {
            let sum = &mut sums[column as usize];
            *sum = ring.add_product(*sum, c, residue);
        }
    };
    add_entries(1, start);
    for (word, &residue) in sum {
        let place = rows.binary_search_by_key(word, |row| row.0).unwrap();
        add_entries(ring.mul(scale, residue), &rows[place].1);
    }
    let mut row = Vec::new();
    for (column, &sum) in sums.iter().enumerate() {
        let residue = ring.close(sum);
        if residue != 0 {
            row.push((column as u16, residue));
        }
    }
    row
}

impl Table {
    fn new(ring: Ring, columns: Columns) -> Table {
        let mut words: Vec<Word> = columns.list.iter().map(|column| column.word).collect();
        words.sort_unstable();
        let mut rows: Vec<(Word, Row)> = Vec::with_capacity(words.len());
        for word in words {
            let p = factors(word);
            let column = columns.place_of_word(word).unwrap();
            let mut lesser = shuffled(ring, &p);
            let inverse = ring.inverse(lesser.remove(&word).unwrap());
            let start = [(column as u16, inverse)];
            let row = row_of_sum(ring, columns.list.len(), &rows, &start, ring.neg(inverse), &lesser);
            rows.push((word, row));
        }
        Table { ring, columns, rows }
    }

    fn to_columns(&self, sum: &Sum) -> Option<Row> {
        if sum.keys().any(|word| self.columns.place_of_word(*word).is_none()) {
            return None;
        }
        Some(row_of_sum(self.ring, self.columns.list.len(), &self.rows, &[], 1, sum))
    }
}

fn with_row(digest: u64, row: &[(u16, u64)]) -> u64 {
    let mixed = |digest: u64, n: u64| (digest ^ n).wrapping_mul(1099511628211);
    row.iter().fold(digest, |more, entry| mixed(mixed(more, entry.0 as u64), entry.1))
}

fn digest_of(table: &Table) -> u64 {
    table.columns.list.iter().fold(14695981039346656037, |digest, column| {
        with_row(digest, &table.to_columns(&Sum::from([(column.word, 1)])).unwrap())
    })
}

fn timed(ring: Ring, w: u32, d: u32) -> (Table, u128) {
    let columns = Columns::new(w, d);
    let start = Instant::now();
    let table = Table::new(ring, columns);
    (table, start.elapsed().as_nanos())
}

fn main() {
    let ring = std::hint::black_box(Ring::new(MODULUS));
    let mut bytes = Vec::new();
    std::io::stdin().read_to_end(&mut bytes).unwrap();
    let mut numbers = bytes.chunks_exact(8).map(|chunk| u64::from_le_bytes(chunk.try_into().unwrap()));
    let weight = numbers.next().unwrap() as u32;
    let (table, first) = timed(ring, 13, 12);
    let full = digest_of(&table);
    let (table, second) = timed(ring, 24, 4);
    let deep = digest_of(&table);
    let (table, third) = timed(ring, weight, weight - 1);
    let (mut digest, mut rows) = (14695981039346656037, 0);
    for _ in 0..numbers.next().unwrap() {
        let mut sum = Sum::new();
        for _ in 0..numbers.next().unwrap() {
            let word = Word::of(numbers.next().unwrap(), weight);
            add_term(ring, &mut sum, word, numbers.next().unwrap());
        }
        let start = Instant::now();
        let row = table.to_columns(&sum).unwrap();
        rows += start.elapsed().as_nanos();
        digest = with_row(digest, &row);
    }
    println!("{full:016x} {deep:016x} {digest:016x}");
    eprintln!("13,12 {first} 24,4 {second} table {third} rows {rows}");
}
