//! The check of a covering by whole strings of ranks, written by hand without proofs: the proved program is measured
//! against it, and both against `marking.rs`, which marks runs of pairs.
//!
//! All sets of s points below a point p have the ranks from 0 to binom(p, s) - 1. So the marks of a block's sets of s
//! points, made once as a string of bits, serve each choice of the greater points: the first binom(p, s) bits of the
//! string, p being the least of them, are or-ed into the map at the rank of that choice.
//!
//!     strings check V K T [WORKERS] < blocks      prints `covers N`, or the first set that no block contains

use std::env;
use std::io::{self, Read};
use std::process::ExitCode;
use std::thread;

#[allow(dead_code)]
mod common;
use common::{Binomials, Block, binomials, report};

// Words that are marked at a time, words that a block's strings may take, and words that all workers' maps may take.
const PIECE: usize = 81920;
const SCRATCH: usize = 8192;
const SHARED: usize = 1 << 23;

struct Range<'a> {
    words: &'a mut [u64],
    first_word: usize,
}

impl Range<'_> {
    #[inline(always)]
    fn set(&mut self, word: usize, bits: u64) {
        if let Some(word) = self.words.get_mut(word.wrapping_sub(self.first_word)) {
            *word |= bits;
        }
    }

    // Marks rank + i for each of the first bits i of the string that is set.
    #[inline(always)]
    fn mark(&mut self, rank: u64, string: &[u64], bits: u64) {
        let place = (rank / 64) as usize;
        let shift = rank % 64;
        let full = (bits / 64) as usize;
        let left = bits % 64;
        let last = if left > 0 { string[full] & ((1 << left) - 1) } else { 0 };
        if full == 0 {
            self.set(place, last << shift);
            self.set(place + 1, last >> 1 >> (63 - shift));
            return;
        }
        let end = place + full;
        if self.first_word <= place && end + 1 < self.first_word + self.words.len() {
            let words = &mut self.words[place - self.first_word..][..full + 2];
            words[0] |= string[0] << shift;
            for ((word, upper), lower) in words[1..full].iter_mut().zip(&string[1..full]).zip(string) {
                *word |= upper << shift | lower >> 1 >> (63 - shift);
            }
            words[full] |= last << shift | string[full - 1] >> 1 >> (63 - shift);
            words[full + 1] |= last >> 1 >> (63 - shift);
            return;
        }
        self.set(place, string[0] << shift);
        let from = (place + 1).max(self.first_word);
        let to = end.min(self.first_word + self.words.len());
        for word in from..to {
            let i = word - place;
            self.words[word - self.first_word] |= string[i] << shift | string[i - 1] >> 1 >> (63 - shift);
        }
        self.set(end, last << shift | string[full - 1] >> 1 >> (63 - shift));
        self.set(end + 1, last >> 1 >> (63 - shift));
    }

    // Marks the sets of `t` points among these, with `rest` added to each rank, by the string of the sets of `size`.
    fn mark_above(&mut self, table: &Binomials, block: &[u8], t: usize, size: usize, rest: u64, string: &[u64]) {
        let low = 64 * self.first_word as u64;
        let high = low + 64 * self.words.len() as u64;
        for i in t - 1..block.len() {
            let p = usize::from(block[i]);
            let least = rest + table[t][p];
            let bits = table[t - 1][p];
            if least < high && low < least + bits {
                if t == size + 1 {
                    self.mark(least, string, bits);
                } else {
                    self.mark_above(table, &block[..i], t - 1, size, least, string);
                }
            }
        }
    }
}

// Makes the string of a block's sets of `size` points in the first words, from that of one point less after them.
fn make_string(table: &Binomials, block: &[u8], v: usize, size: usize, scratch: &mut [u64]) {
    let (string, others) = scratch.split_at_mut(table[size][v].div_ceil(64) as usize);
    string.fill(0);
    if size == 1 {
        for p in block {
            string[usize::from(*p / 64)] |= 1 << (*p % 64);
        }
    } else {
        make_string(table, block, v, size - 1, others);
        let mut range = Range { words: string, first_word: 0 };
        range.mark_above(table, block, size, size - 1, 0, others);
    }
}

fn needs(table: &Binomials, v: usize, size: usize) -> usize {
    (1..=size).map(|size| table[size][v].div_ceil(64) as usize).sum()
}

// The size of the strings with the least work, as it is estimated.
fn best_size(table: &Binomials, v: usize, k: usize, t: usize) -> usize {
    let work = |size: usize| -> u64 {
        let strings = needs(table, v, size) as u64 + 8 * (k * size) as u64;
        let prefixes = (size..k).map(|i| {
            let point = ((i + 1) * v / (k + 1)).min(v);
            table[t - size - 1][k - 1 - i] * (8 + table[size][point] / 64)
        });
        strings + prefixes.sum::<u64>()
    };
    (1..t).filter(|size| needs(table, v, *size) <= SCRATCH).min_by_key(|size| work(*size)).unwrap_or(0)
}

struct Check {
    table: Binomials,
    v: usize,
    t: usize,
    size: usize,
}

impl Check {
    fn mark(&self, words: &mut [u64], first_word: usize, blocks: &[Block]) {
        let mut scratch = [0; SCRATCH];
        for (i, words) in words.chunks_mut(PIECE).enumerate() {
            let mut range = Range { words, first_word: first_word + i * PIECE };
            for block in blocks {
                self.mark_block(&mut range, block.points(), &mut scratch);
            }
        }
    }

    fn mark_block(&self, range: &mut Range, block: &[u8], scratch: &mut [u64]) {
        match self.t {
            0 => range.set(0, 1),
            1 => block.iter().for_each(|p| range.set(usize::from(*p / 64), 1 << (*p % 64))),
            t => {
                // Points whose sets all come after the range are left out, and of the string those that are not among
                // the `size` least ones of a set.
                let high = 64 * (range.first_word + range.words.len()) as u64;
                let n = block.iter().rposition(|p| self.table[t][usize::from(*p)] < high).map_or(0, |i| i + 1);
                if n >= t {
                    let m = n - (t - self.size - 1);
                    let v = usize::from(block[m - 1]) + 1;
                    make_string(&self.table, &block[..m], v, self.size, scratch);
                    range.mark_above(&self.table, &block[..n], t, self.size, 0, scratch);
                }
            }
        }
    }

    // Small maps: each worker marks its share of the blocks in a map of its own. Large maps: a range of its own.
    fn run(&self, words: &mut [u64], blocks: &[Block], workers: usize) {
        if workers > 1 && workers * words.len() <= SHARED {
            let share = blocks.len().div_ceil(workers).max(1);
            let len = words.len();
            let maps: Vec<Vec<u64>> = thread::scope(|scope| {
                let handles: Vec<_> = blocks
                    .chunks(share)
                    .map(|blocks| {
                        scope.spawn(move || {
                            let mut map = vec![0; len];
                            self.mark(&mut map, 0, blocks);
                            map
                        })
                    })
                    .collect();
                handles.into_iter().map(|handle| handle.join().expect("no worker panics")).collect()
            });
            for map in maps {
                words.iter_mut().zip(map).for_each(|(word, other)| *word |= other);
            }
            return;
        }
        let size = words.len().div_ceil(workers).max(1);
        thread::scope(|scope| {
            for (i, part) in words.chunks_mut(size).enumerate() {
                scope.spawn(move || self.mark(part, i * size, blocks));
            }
        });
    }
}

// The blocks of the standard input, in one pass over its bytes.
fn read_blocks(k: usize) -> io::Result<Vec<Block>> {
    let mut text = Vec::new();
    io::stdin().lock().read_to_end(&mut text)?;
    let mut blocks = Vec::new();
    let mut block = Block { points: [0; 25], len: 0 };
    let mut value = 0;
    for byte in text.iter().chain(b"\n") {
        if byte.is_ascii_digit() {
            value = value * 10 + (byte - b'0');
            continue;
        }
        if value > 0 {
            block.points[usize::from(block.len)] = value - 1;
            block.len += 1;
            value = 0;
        }
        if *byte == b'\n' && block.len > 0 {
            assert_eq!(usize::from(block.len), k);
            block.points[..k].sort_unstable();
            blocks.push(block);
            block = Block { points: [0; 25], len: 0 };
        }
    }
    Ok(blocks)
}

fn check(v: usize, k: usize, t: usize, workers: usize) -> io::Result<()> {
    let blocks = read_blocks(k)?;
    let table = binomials();
    let size = if t < 2 { 0 } else { best_size(&table, v, k, t) };
    let check = Check { table, v, t, size };
    let len = check.table[t][check.v];
    let mut words = vec![0u64; len.div_ceil(64) as usize];
    check.run(&mut words, &blocks, workers);
    report(&check.table, t, &words, len, blocks.len());
    Ok(())
}

fn main() -> ExitCode {
    let words: Vec<String> = env::args().skip(1).collect();
    let numbers: Vec<usize> = words.iter().skip(1).filter_map(|word| word.parse().ok()).collect();
    let done = match (words.first().map(String::as_str), numbers.as_slice()) {
        (Some("check"), [v, k, t]) => check(*v, *k, *t, 1),
        (Some("check"), [v, k, t, workers]) => check(*v, *k, *t, *workers),
        _ => {
            eprintln!("usage: strings check V K T [WORKERS]");
            return ExitCode::from(2);
        }
    };
    match done {
        Ok(()) => ExitCode::SUCCESS,
        Err(_) => ExitCode::FAILURE,
    }
}
