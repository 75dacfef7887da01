//! Counts of a covering, the blocks that remain without spare ones, and the greedy covering, written by hand without
//! proofs. They are what the proved program is measured against. Blocks that do not cover are refused by their counts.
//!
//!     coverings excess V K T < blocks     prints the seven lines of `ljcr excess`
//!     coverings reduce V K T < blocks     prints the file of `ljcr reduce`
//!     coverings greedy V K T              prints the file of `ljcr greedy`

use std::env;
use std::io::{self, BufWriter, Read, Write};
use std::process::ExitCode;

mod common;
use common::{Binomials, Block, binomials, parse, unrank};

struct Counts {
    table: Binomials,
    counts: Vec<u32>,
}

impl Counts {
    fn new(v: usize, t: usize) -> Counts {
        let table = binomials();
        let counts = vec![0; table[t][v] as usize];
        Counts { table, counts }
    }

    // Adds `step` to the count of each set of SIZE points among these, with `rest` added to each rank.
    fn shift<const SIZE: usize>(&mut self, block: &[u8], rest: u64, step: u32) {
        match SIZE {
            0 => self.shift_one(rest, step),
            1 => {
                for p in block {
                    self.shift_one(rest + u64::from(*p), step);
                }
            }
            _ => {
                for i in SIZE - 1..block.len() {
                    let least = rest + self.table[SIZE][usize::from(block[i])];
                    let lower = &block[..i];
                    match SIZE {
                        2 => self.shift::<1>(lower, least, step),
                        3 => self.shift::<2>(lower, least, step),
                        4 => self.shift::<3>(lower, least, step),
                        5 => self.shift::<4>(lower, least, step),
                        6 => self.shift::<5>(lower, least, step),
                        7 => self.shift::<6>(lower, least, step),
                        _ => self.shift::<7>(lower, least, step),
                    }
                }
            }
        }
    }

    #[inline(always)]
    fn shift_one(&mut self, rank: u64, step: u32) {
        let count = &mut self.counts[rank as usize];
        *count = count.wrapping_add(step);
    }

    fn shift_block(&mut self, block: &[u8], t: usize, step: u32) {
        match t {
            0 => self.shift::<0>(block, 0, step),
            1 => self.shift::<1>(block, 0, step),
            2 => self.shift::<2>(block, 0, step),
            3 => self.shift::<3>(block, 0, step),
            4 => self.shift::<4>(block, 0, step),
            5 => self.shift::<5>(block, 0, step),
            6 => self.shift::<6>(block, 0, step),
            7 => self.shift::<7>(block, 0, step),
            _ => self.shift::<8>(block, 0, step),
        }
    }

    // Whether each set of `size` points among these is in two blocks.
    fn is_spare(&self, block: &[u8], size: usize, rest: u64) -> bool {
        match size {
            0 => self.counts[rest as usize] >= 2,
            1 => block.iter().all(|p| self.counts[(rest + u64::from(*p)) as usize] >= 2),
            _ => (size - 1..block.len()).all(|i| {
                let least = rest + self.table[size][usize::from(block[i])];
                self.is_spare(&block[..i], size - 1, least)
            }),
        }
    }
}

fn read_blocks(k: usize) -> io::Result<Vec<Block>> {
    let mut text = Vec::new();
    io::stdin().lock().read_to_end(&mut text)?;
    Ok(parse(&text, k))
}

// The counts of blocks that cover; else the first set that no block contains is printed.
fn counted(blocks: &[Block], v: usize, t: usize) -> Option<Counts> {
    let mut counts = Counts::new(v, t);
    for block in blocks {
        counts.shift_block(block.points(), t, 1);
    }
    match counts.counts.iter().position(|count| *count == 0) {
        None => Some(counts),
        Some(rank) => {
            let points: Vec<String> = unrank(&counts.table, t, rank as u64).iter().map(usize::to_string).collect();
            println!("uncovered {}", points.join(" "));
            None
        }
    }
}

fn schonheim(v: u64, k: u64, t: u64) -> u64 {
    if t == 0 { 1 } else { (v * schonheim(v - 1, k - 1, t - 1)).div_ceil(k) }
}

fn excess(v: usize, k: usize, t: usize) -> io::Result<()> {
    let blocks = read_blocks(k)?;
    let Some(counts) = counted(&blocks, v, t) else {
        return Ok(());
    };
    let sums = &counts.counts;
    println!("blocks {}", blocks.len());
    println!("schonheim {}", schonheim(v as u64, k as u64, t as u64));
    println!("tsets {}", sums.len());
    println!("marks {}", blocks.len() as u64 * counts.table[t][k]);
    println!("excess {}", sums.iter().map(|m| u64::from(m.saturating_sub(1))).sum::<u64>());
    println!("once {}", sums.iter().filter(|m| **m == 1).count());
    println!("most {}", sums.iter().max().unwrap_or(&0));
    Ok(())
}

// The blocks that remain where the places are gone through from the last to the first.
fn reduced(counts: &mut Counts, blocks: Vec<Block>, t: usize) -> Vec<Block> {
    let mut kept = Vec::new();
    for block in blocks.into_iter().rev() {
        if counts.is_spare(block.points(), t, 0) {
            counts.shift_block(block.points(), t, u32::MAX);
        } else {
            kept.push(block);
        }
    }
    kept.reverse();
    kept
}

fn print_file(v: usize, k: usize, t: usize, blocks: &[Block]) -> io::Result<()> {
    let mut out = BufWriter::new(io::stdout().lock());
    writeln!(out, "{v} {k} {t} {}", blocks.len())?;
    for block in blocks {
        for (i, p) in block.points().iter().enumerate() {
            if i > 0 {
                out.write_all(b" ")?;
            }
            write!(out, "{}", p + 1)?;
        }
        out.write_all(b"\n")?;
    }
    out.flush()
}

fn reduce(v: usize, k: usize, t: usize) -> io::Result<()> {
    let blocks = read_blocks(k)?;
    let Some(mut counts) = counted(&blocks, v, t) else {
        return Ok(());
    };
    print_file(v, k, t, &reduced(&mut counts, blocks, t))
}

struct Grower<'a> {
    counts: &'a Counts,
    v: usize,
    gains: [u32; 99],
}

impl Grower<'_> {
    // Adds 1 to the gain of each point that makes an open set of the row.
    #[inline(always)]
    fn add_row(&mut self, row: &[u8]) {
        let table = &self.counts.table;
        let mut base: u64 = row.iter().enumerate().map(|(i, p)| table[i + 2][usize::from(*p)]).sum();
        let mut from = 0;
        for (j, point) in row.iter().enumerate() {
            let point = usize::from(*point);
            self.add_gap(from, point, j + 1, base);
            base = base + table[j + 1][point] - table[j + 2][point];
            from = point + 1;
        }
        self.add_gap(from, self.v, row.len() + 1, base);
    }

    #[inline(always)]
    fn add_gap(&mut self, from: usize, to: usize, size: usize, base: u64) {
        let column = &self.counts.table[size];
        for p in from..to {
            self.gains[p] += u32::from(self.counts.counts[(base + column[p]) as usize] == 0);
        }
    }

    // The rows of the first `len` points of `row`, `left` of these points, and `q` unless it is there.
    fn add_rows(&mut self, block: &[u8], left: usize, row: &mut [u8; 8], len: usize, q: Option<u8>) {
        if left == 0 {
            if let Some(q) = q {
                row[len] = q;
                self.add_row(&row[..len + 1]);
            } else {
                self.add_row(&row[..len]);
            }
            return;
        }
        for i in 0..block.len() {
            if let Some(q) = q.filter(|q| *q < block[i]) {
                row[len] = q;
                return self.add_rows(&block[i..], left, row, len + 1, None);
            }
            row[len] = block[i];
            self.add_rows(&block[i + 1..], left - 1, row, len + 1, q);
        }
    }

    fn add(&mut self, block: &mut Block, t: usize, q: u8) {
        if t >= 2 {
            self.add_rows(block.points(), t - 2, &mut [0; 8], 0, Some(q));
        }
        let place = block.points().iter().take_while(|p| **p < q).count();
        let len = usize::from(block.len);
        block.points.copy_within(place..len, place + 1);
        block.points[place] = q;
        block.len += 1;
    }
}

fn grown(counts: &Counts, v: usize, k: usize, t: usize, set: &[u8]) -> Block {
    let mut grower = Grower { counts, v, gains: [0; 99] };
    let mut block = Block { points: [0; 25], len: 0 };
    if t == 1 {
        grower.add_row(&[]);
    }
    for p in set {
        grower.add(&mut block, t, *p);
    }
    while usize::from(block.len) < k {
        let mut best = 0;
        let mut least = 0;
        for p in 0..v as u8 {
            if grower.gains[usize::from(p)] >= least && !block.points().contains(&p) {
                best = p;
                least = grower.gains[usize::from(p)] + 1;
            }
        }
        grower.add(&mut block, t, best);
    }
    block
}

fn set_of(table: &Binomials, t: usize, mut rank: u64) -> Vec<u8> {
    let mut points = Vec::new();
    for size in (1..=t).rev() {
        let point = (0..99).rev().find(|point| table[size][*point] <= rank).unwrap_or(0);
        rank -= table[size][point];
        points.push(point as u8);
    }
    points.reverse();
    points
}

fn greedy(v: usize, k: usize, t: usize) -> io::Result<()> {
    let mut counts = Counts::new(v, t);
    let mut blocks = Vec::new();
    for rank in 0..counts.counts.len() {
        if counts.counts[rank] == 0 {
            let block = grown(&counts, v, k, t, &set_of(&counts.table, t, rank as u64));
            counts.shift_block(block.points(), t, 1);
            blocks.push(block);
        }
    }
    print_file(v, k, t, &reduced(&mut counts, blocks, t))
}

fn main() -> ExitCode {
    let words: Vec<String> = env::args().skip(1).collect();
    let numbers: Vec<usize> = words.iter().skip(1).filter_map(|word| word.parse().ok()).collect();
    let done = match (words.first().map(String::as_str), numbers.as_slice()) {
        (Some("excess"), [v, k, t]) => excess(*v, *k, *t),
        (Some("reduce"), [v, k, t]) => reduce(*v, *k, *t),
        (Some("greedy"), [v, k, t]) => greedy(*v, *k, *t),
        _ => {
            eprintln!("usage: coverings excess V K T | coverings reduce V K T | coverings greedy V K T");
            return ExitCode::from(2);
        }
    };
    match done {
        Ok(()) => ExitCode::SUCCESS,
        Err(_) => ExitCode::FAILURE,
    }
}
