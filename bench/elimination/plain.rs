//! The same elimination in plain Rust, with the same loops, for comparison.
use std::io::Read;
use std::time::Instant;

const MANY: u32 = 32;

type Pairs<K> = Vec<(K, u64)>;

#[derive(Clone, Copy)]
struct Ring {
    modulus: u64,
    shift: u32,
    reciprocal: u64,
}

impl Ring {
    fn new(modulus: u64) -> Ring {
        let shift = modulus.leading_zeros();
        Ring { modulus, shift, reciprocal: (u128::MAX / (modulus << shift) as u128) as u64 }
    }

    fn rest_of(self, sum: u128) -> u64 {
        let whole = sum.wrapping_shl(self.shift);
        let guess = ((whole >> 64) * self.reciprocal as u128).wrapping_add(whole) >> 64;
        let product = guess * self.modulus as u128;
        if product <= sum && sum - product < 2 * self.modulus as u128 {
            return self.below_twice((sum - product) as u64);
        }
        (sum % self.modulus as u128) as u64
    }

    fn below_twice(self, n: u64) -> u64 {
        n.min(n.wrapping_sub(self.modulus))
    }

    fn mul(self, a: u64, b: u64) -> u64 {
        self.rest_of(a as u128 * b as u128)
    }

    fn add(self, a: u64, b: u64) -> u64 {
        self.below_twice(a + b)
    }

    fn neg(self, a: u64) -> u64 {
        self.below_twice(self.modulus - a)
    }

    fn add_product(self, sum: u128, a: u64, b: u64) -> u128 {
        let sum = sum + a as u128 * b as u128;
        (self.below_twice((sum >> 64) as u64) as u128) << 64 | sum as u64 as u128
    }

    fn close(self, sum: u128) -> u64 {
        if sum == 0 { 0 } else { self.rest_of(sum) }
    }

    fn inverse(self, a: u64) -> u64 {
        let (mut high, mut low, mut high_factor, mut low_factor) = (self.modulus, a, 0, 1);
        while low != 0 {
            let next = self.add(high_factor, self.neg(self.mul(high / low % self.modulus, low_factor)));
            (high, low) = (low, high % low);
            (high_factor, low_factor) = (low_factor, next);
        }
        assert!(high == 1, "no inverse");
        high_factor
    }
}

fn scale<K>(ring: Ring, pairs: &mut Pairs<K>, c: u64) {
    for pair in pairs {
        pair.1 = ring.mul(pair.1, c);
    }
}

fn add_entries(ring: Ring, sums: &mut [u128], c: u64, entries: &[(u16, u64)]) {
    for &(column, residue) in entries {
        let sum = &mut sums[column as usize];
        *sum = ring.add_product(*sum, c, residue);
    }
}

fn gathered(ring: Ring, sums: &[u128]) -> Pairs<u16> {
    let mut row = Vec::new();
    for (column, sum) in sums.iter().enumerate() {
        let residue = ring.close(*sum);
        if residue != 0 {
            row.push((column as u16, residue));
        }
    }
    row
}

/// What the rows from `first` on leave of a row, and the factor of each row.
fn swept(ring: Ring, columns: usize, rows: &[Pairs<u16>], first: usize, row: &[(u16, u64)]) -> (Pairs<u16>, Vec<u64>) {
    let mut sums = vec![0; columns];
    add_entries(ring, &mut sums, 1, row);
    let mut factors = Vec::with_capacity(rows.len());
    factors.resize(first, 0);
    for row in &rows[first..] {
        let residue = ring.close(sums[row[0].0 as usize]);
        let factor = ring.neg(residue);
        if residue != 0 {
            add_entries(ring, &mut sums, factor, row);
        }
        factors.push(if residue == 0 { 0 } else { factor });
    }
    (gathered(ring, &sums), factors)
}

fn named(numbers: &[u32], factors: &[u64]) -> Pairs<u32> {
    let mut uses = Vec::new();
    for i in 0..numbers.len() {
        if factors[i] != 0 {
            uses.push((numbers[i], factors[i]));
        }
    }
    uses
}

/// What is left of the entries, where the row that stands for a column is put in its place.
fn left_of(ring: Ring, standing: &[Pairs<u16>], entries: &[(u16, u64)]) -> Pairs<u16> {
    let mut sums = vec![0; standing.len()];
    for &(column, residue) in entries {
        add_entries(ring, &mut sums, residue, &standing[column as usize]);
    }
    gathered(ring, &sums)
}

fn standing_rows(ring: Ring, columns: usize, rows: &[Pairs<u16>]) -> Vec<Pairs<u16>> {
    let mut standing: Vec<Pairs<u16>> = (0..columns).map(|column| vec![(column as u16, 1)]).collect();
    for row in rows.iter().rev() {
        let mut left = left_of(ring, &standing, &row[1..]);
        scale(ring, &mut left, ring.neg(1));
        standing[row[0].0 as usize] = left;
    }
    standing
}

struct Echelon {
    ring: Ring,
    columns: usize,
    numbers: Vec<u32>,
    rows: Vec<Pairs<u16>>,
    standing: Vec<Pairs<u16>>,
    wasted: u32,
}

impl Echelon {
    fn offer(&mut self, n: u32, row: &[(u16, u64)]) -> Option<(Pairs<u16>, u64, Pairs<u32>)> {
        let ring = self.ring;
        if self.standing.len() == self.columns && left_of(ring, &self.standing, row).is_empty() {
            return None;
        }
        let (mut rest, factors) = swept(ring, self.columns, &self.rows, 0, row);
        let Some(lead) = rest.first() else {
            self.wasted += 1;
            if self.wasted == MANY {
                self.wasted = 0;
                self.standing = standing_rows(ring, self.columns, &self.rows);
            }
            return None;
        };
        let factor = ring.inverse(lead.1);
        scale(ring, &mut rest, factor);
        let mut uses = named(&self.numbers, &factors);
        scale(ring, &mut uses, factor);
        self.numbers.push(n);
        self.rows.push(rest.clone());
        Some((rest, factor, uses))
    }

    fn place_of(&self, column: usize) -> Option<usize> {
        self.rows.iter().position(|row| row[0].0 as usize == column)
    }

    /// The reduced rows, each the unit row of its lead less the row that stands for it.
    fn reduced(&self) -> Vec<Pairs<u16>> {
        let standing = standing_rows(self.ring, self.columns, &self.rows);
        let mut made = Vec::new();
        for column in 0..self.columns {
            if self.place_of(column).is_some() {
                let mut row = vec![(column as u16, 1)];
                row.extend(standing[column].iter().map(|pair| (pair.0, self.ring.neg(pair.1))));
                made.push(row);
            }
        }
        let leads = |column| made.binary_search_by_key(&column, |row: &Pairs<u16>| row[0].0).is_ok();
        assert!(made.iter().all(|row| !row[1..].iter().any(|pair| leads(pair.0))), "not reduced");
        made
    }

    /// The reduced rows, and of each the forward rows that it is the sum of.
    fn finish(&self) -> (Vec<Pairs<u16>>, Vec<Pairs<u32>>) {
        let (mut reduced, mut all_uses) = (Vec::new(), Vec::new());
        for column in 0..self.columns {
            let Some(i) = self.place_of(column) else { continue };
            let (row, mut factors) = swept(self.ring, self.columns, &self.rows, i + 1, &self.rows[i]);
            factors[i] = 1;
            reduced.push(row);
            all_uses.push(named(&self.numbers, &factors));
        }
        (reduced, all_uses)
    }
}

fn digest_of(rows: &[Pairs<u16>], columns: usize) -> u64 {
    let mut digest: u64 = 14695981039346656037;
    for row in rows {
        let mut dense = vec![0; columns];
        for &(column, residue) in row {
            dense[column as usize] = residue;
        }
        for n in dense {
            digest = (digest ^ n).wrapping_mul(1099511628211);
        }
    }
    digest
}

fn main() {
    let mut bytes = Vec::new();
    std::io::stdin().read_to_end(&mut bytes).unwrap();
    let mut words = bytes.chunks_exact(8).map(|word| u64::from_le_bytes(word.try_into().unwrap()));
    let mut next = || words.next().unwrap();
    let (rows, columns, modulus) = (next() as u32, next() as usize, next());
    let mut echelon =
        Echelon { ring: Ring::new(modulus), columns, numbers: vec![], rows: vec![], standing: vec![], wasted: 0 };
    let mut offers = 0;
    for n in 0..rows {
        let row: Pairs<u16> = (0..next()).map(|_| (next() as u16, next())).collect();
        let start = Instant::now();
        std::hint::black_box(echelon.offer(n, &row));
        offers += start.elapsed().as_nanos();
    }
    let start = Instant::now();
    let alone = std::hint::black_box(echelon.reduced());
    let reduced = start.elapsed().as_nanos();
    let start = Instant::now();
    let (list, _) = std::hint::black_box(echelon.finish());
    let finish = start.elapsed().as_nanos();
    assert!(list == alone, "the reduced rows differ");
    println!("rank {}, digest {:016x}", list.len(), digest_of(&list, columns));
    eprintln!("offers {offers} reduced {reduced} finish {finish}");
}
