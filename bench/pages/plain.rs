//! The same pages in plain Rust, for comparison.
use std::time::Instant;

struct Entry {
    number: u32,
    row: Vec<(u16, u64)>,
    combination: Vec<(u32, u64)>,
}

fn residue(i: u64) -> u64 {
    if i == 0 { 1 } else { i.wrapping_mul(0x9e3779b97f4a7c15) >> 2 | 1 }
}

fn encode(first: u32, entries: &[Entry], out: &mut Vec<u8>) {
    let size: usize = entries.iter().map(|e| 8 + 10 * e.row.len() + 12 * e.combination.len()).sum();
    out.reserve(10 + size);
    out.push(2);
    out.extend_from_slice(&(5 + size as u32).to_le_bytes());
    out.extend_from_slice(&first.to_le_bytes());
    out.push(entries.len() as u8);
    for e in entries {
        out.extend_from_slice(&e.number.to_le_bytes());
        out.extend_from_slice(&(e.row.len() as u16).to_le_bytes());
        for (column, residue) in &e.row {
            out.extend_from_slice(&column.to_le_bytes());
            out.extend_from_slice(&residue.to_le_bytes());
        }
        out.extend_from_slice(&(e.combination.len() as u16).to_le_bytes());
        for (number, residue) in &e.combination {
            out.extend_from_slice(&number.to_le_bytes());
            out.extend_from_slice(&residue.to_le_bytes());
        }
    }
}

struct Reader<'a>(&'a [u8]);

impl Reader<'_> {
    fn take<const N: usize>(&mut self) -> Option<[u8; N]> {
        let (front, rest) = self.0.split_first_chunk::<N>()?;
        self.0 = rest;
        Some(*front)
    }

    fn u8(&mut self) -> Option<u8> {
        Some(self.take::<1>()?[0])
    }

    fn u16(&mut self) -> Option<u16> {
        Some(u16::from_le_bytes(self.take()?))
    }

    fn u32(&mut self) -> Option<u32> {
        Some(u32::from_le_bytes(self.take()?))
    }

    fn u64(&mut self) -> Option<u64> {
        Some(u64::from_le_bytes(self.take()?))
    }
}

fn decode(bytes: &[u8]) -> Option<(u32, Vec<Entry>, usize)> {
    let mut reader = Reader(bytes);
    if reader.u8()? != 2 {
        return None;
    }
    let length = reader.u32()? as usize;
    let mut body = Reader(reader.0.get(..length)?);
    let first = body.u32()?;
    let count = body.u8()? as usize;
    if first % 64 != 0 || count > 64 {
        return None;
    }
    let mut entries = Vec::with_capacity(count);
    let mut low = first as u64;
    for _ in 0..count {
        let number = body.u32()?;
        if (number as u64) < low || number as u64 >= first as u64 + 64 {
            return None;
        }
        low = number as u64 + 1;
        let columns = body.u16()? as usize;
        if columns == 0 || columns > 2048 {
            return None;
        }
        let mut row = Vec::with_capacity(columns);
        let mut key = 0;
        for i in 0..columns {
            let (column, residue) = (body.u16()?, body.u64()?);
            if (column as u64) < key || column >= 2048 || residue == 0 || residue >= (1 << 63) - 1 || i == 0 && residue != 1 {
                return None;
            }
            key = column as u64 + 1;
            row.push((column, residue));
        }
        let numbers = body.u16()? as usize;
        if numbers == 0 || numbers > 2048 {
            return None;
        }
        let mut combination = Vec::with_capacity(numbers);
        let mut key = 0;
        for _ in 0..numbers {
            let (number, residue) = (body.u32()?, body.u64()?);
            if (number as u64) < key || residue == 0 || residue >= (1 << 63) - 1 {
                return None;
            }
            key = number as u64 + 1;
            combination.push((number, residue));
        }
        entries.push(Entry { number, row, combination });
    }
    if !body.0.is_empty() {
        return None;
    }
    Some((first, entries, 5 + length))
}

fn main() {
    let entries: Vec<Entry> = (0..64)
        .map(|number| Entry {
            number,
            row: (0..2048).map(|i| (i, residue(i as u64))).collect(),
            combination: (0..2048).map(|i| (i, residue(i as u64))).collect(),
        })
        .collect();
    let entries = std::hint::black_box(entries);
    let (mut sum, mut spelled, mut read) = (0u64, 0, 0);
    let mut bytes = Vec::new();
    for _ in 0..100 {
        let start = Instant::now();
        bytes.clear();
        encode(0, &entries, &mut bytes);
        std::hint::black_box(&mut bytes);
        spelled += start.elapsed().as_nanos();
        let start = Instant::now();
        let found = std::hint::black_box(decode(&bytes));
        read += start.elapsed().as_nanos();
        if let Some((_, _, length)) = found {
            sum = sum.wrapping_mul(31).wrapping_add(length as u64);
        }
    }
    println!("{sum}");
    eprintln!("encode {spelled} decode {read}");
}
