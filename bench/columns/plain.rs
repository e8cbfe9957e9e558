//! The same lists in plain Rust, for comparison.
use std::cmp::Ordering;
use std::time::Instant;

/// A word: its letters in the upper 24 of 29 bits, the first one highest, 0 for x and 1 for y, and the weight in the lowest five.
#[derive(Clone, Copy, PartialEq, Eq, PartialOrd, Ord)]
struct Word(u32);

impl Word {
    fn weight(self) -> u32 {
        self.0 % 32
    }

    fn depth(self) -> u32 {
        (self.0 / 32).count_ones()
    }

    fn letter(self, i: u32) -> u32 {
        (self.0 / 32 >> (23 - i)) % 2
    }

    fn push(self, a: u32) -> Word {
        Word((self.0 | a << (28 - self.weight())) + 1)
    }

    fn part(self, from: u32, to: u32) -> Word {
        let mut part = Word(0);
        for i in from..to {
            part = part.push(self.letter(i));
        }
        part
    }
}

struct Column {
    word: Word,
    factors: [Word; 12],
    len: usize,
    ranks: u32,
    depth: u32,
}

fn rank(w: Word) -> u32 {
    let mut run = 1;
    for i in 0..w.weight() {
        if w.letter(i) == 0 {
            run += 1;
        } else {
            if run % 2 == 0 || run < 3 {
                return 1;
            }
            run = 1;
        }
    }
    0
}

/// The Lyndon factors of a word, by Duval's algorithm.
fn column(w: Word) -> Column {
    let mut column = Column { word: w, factors: [Word(0); 12], len: 0, ranks: 0, depth: w.depth() };
    let n = w.weight();
    let mut i = 0;
    while i < n {
        let (mut j, mut k) = (i + 1, i);
        while j < n && w.letter(k) <= w.letter(j) {
            k = if w.letter(k) < w.letter(j) { i } else { k + 1 };
            j += 1;
        }
        while i <= k {
            let factor = w.part(i, i + j - k);
            column.factors[column.len] = factor;
            column.len += 1;
            column.ranks += rank(factor);
            i += j - k;
        }
    }
    column
}

fn lead_order(a: &Column, b: &Column) -> Ordering {
    a.len
        .cmp(&b.len)
        .then_with(|| b.ranks.cmp(&a.ranks))
        .then_with(|| b.depth.cmp(&a.depth))
        .then_with(|| b.factors[..b.len].cmp(&a.factors[..a.len]))
}

fn push_columns(columns: &mut Vec<Column>, front: Word, more: u32, depth: u32) {
    if more == 0 {
        columns.push(column(front.push(1)));
        return;
    }
    push_columns(columns, front.push(0), more - 1, depth);
    if depth > 0 {
        push_columns(columns, front.push(1), more - 1, depth - 1);
    }
}

/// The columns in lead order, and of each word, by increasing words, the place of its column.
struct Columns {
    list: Vec<Column>,
    words: Vec<Word>,
    places: Vec<u32>,
}

impl Columns {
    fn new(w: u32, d: u32) -> Columns {
        let mut list = Vec::new();
        push_columns(&mut list, Word(0).push(0), w - 2, d - 1);
        let words: Vec<Word> = list.iter().map(|column| column.word).collect();
        list.sort_by(lead_order);
        let mut places = vec![0; words.len()];
        for (i, column) in list.iter().enumerate() {
            places[words.binary_search(&column.word).unwrap()] = i as u32;
        }
        Columns { list, words, places }
    }

    fn place_of_word(&self, w: Word) -> Option<u32> {
        self.words.binary_search(&w).ok().map(|k| self.places[k])
    }
}

fn sum_of(w: u32, d: u32) -> u64 {
    Columns::new(w, d).list.iter().fold(0u64, |sum, p| {
        let told = p.len as u64 * 32 + p.factors[..p.len].iter().map(|f| f.depth() as u64).sum::<u64>();
        sum.wrapping_mul(31).wrapping_add(told)
    })
}

fn lists() -> u64 {
    let (w, d) = std::hint::black_box((13, 12));
    let (v, e) = std::hint::black_box((24, 4));
    let mut sum = 0u64;
    for _ in 0..50 {
        sum = sum.wrapping_add(sum_of(w, d)).wrapping_add(sum_of(v, e));
    }
    sum
}

fn places(columns: &Columns, words: &[Word]) -> u64 {
    let mut sum = 0u64;
    for _ in 0..50 {
        let placed = std::hint::black_box(words).iter().fold(0u64, |sum, w| match columns.place_of_word(*w) {
            Some(place) => sum.wrapping_mul(31).wrapping_add(place as u64),
            None => sum,
        });
        sum = sum.wrapping_add(placed);
    }
    sum
}

fn main() {
    let columns = Columns::new(13, 12);
    let words = columns.words.clone();
    let start = Instant::now();
    let listed = lists();
    let made = start.elapsed().as_nanos();
    let start = Instant::now();
    let placed = places(&columns, &words);
    let found = start.elapsed().as_nanos();
    println!("{listed} {placed}");
    eprintln!("lists {made} places {found}");
}
