//! What the checks that are written by hand share: binomials, the parser of blocks, the first clear rank and its set,
//! and the generator of inputs.

use std::io::{self, BufWriter, Write};

pub const POINTS: usize = 99;
pub const LARGEST: usize = 8;

pub type Binomials = [[u64; POINTS + 2]; LARGEST + 1];

pub fn binomials() -> Binomials {
    let mut table = [[0; POINTS + 2]; LARGEST + 1];
    table[0] = [1; POINTS + 2];
    for n in 1..POINTS + 2 {
        for size in 1..=LARGEST {
            table[size][n] = table[size][n - 1] + table[size - 1][n - 1];
        }
    }
    table
}

pub struct Block {
    pub points: [u8; 25],
    pub len: u8,
}

impl Block {
    pub fn points(&self) -> &[u8] {
        &self.points[..usize::from(self.len)]
    }
}

/// The blocks of a text, one a line.
pub fn parse(text: &[u8], k: usize) -> Vec<Block> {
    let mut blocks = Vec::new();
    for line in text.split(|byte| *byte == b'\n') {
        let mut block = Block { points: [0; 25], len: 0 };
        for word in line.split(|byte| *byte == b' ' || *byte == b'\t') {
            if word.is_empty() {
                continue;
            }
            let value = word.iter().fold(0u8, |value, digit| value * 10 + (digit - b'0'));
            block.points[usize::from(block.len)] = value - 1;
            block.len += 1;
        }
        if block.len > 0 {
            assert_eq!(usize::from(block.len), k);
            block.points[..k].sort_unstable();
            blocks.push(block);
        }
    }
    blocks
}

/// Prints `covers N`, or the first set of `size` points whose rank is not marked.
pub fn report(table: &Binomials, size: usize, words: &[u64], len: u64, blocks: usize) {
    match first_clear(words, len) {
        None => println!("covers {blocks}"),
        Some(rank) => {
            let points: Vec<String> = unrank(table, size, rank).iter().map(usize::to_string).collect();
            println!("uncovered {}", points.join(" "));
        }
    }
}

fn first_clear(words: &[u64], len: u64) -> Option<u64> {
    let word = words.iter().position(|word| *word != u64::MAX)?;
    let rank = 64 * word as u64 + u64::from(words[word].trailing_ones());
    (rank < len).then_some(rank)
}

/// The set of a rank, its points numbered from 1.
pub fn unrank(table: &Binomials, size: usize, mut rank: u64) -> Vec<usize> {
    let mut points = Vec::new();
    for size in (1..=size).rev() {
        let point = (0..POINTS).rev().find(|point| table[size][*point] <= rank).unwrap_or(0);
        rank -= table[size][point];
        points.push(point + 1);
    }
    points.reverse();
    points
}

/// Prints `n` blocks of `k` points below `v`.
pub fn generate(v: u64, k: usize, n: u64, seed: u64) -> io::Result<()> {
    let mut out = BufWriter::new(io::stdout().lock());
    let mut state = seed;
    for _ in 0..n {
        let mut points: Vec<u64> = Vec::new();
        while points.len() < k {
            state = state.wrapping_mul(6364136223846793005).wrapping_add(1442695040888963407);
            let point = (state >> 33) % v + 1;
            if !points.contains(&point) {
                points.push(point);
            }
        }
        points.sort_unstable();
        let line: Vec<String> = points.iter().map(u64::to_string).collect();
        writeln!(out, "{}", line.join(" "))?;
    }
    out.flush()
}
