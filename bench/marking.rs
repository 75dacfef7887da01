//! The check of a covering, written by hand without proofs: marks the sets that blocks contain in a bit map, in one
//! range of ranks for each thread. It is what the proved program is measured against.
//!
//!     marking check V K T [WORKERS] < blocks      prints `covers N`, or the first set that no block contains
//!     marking generate V K N SEED > blocks        prints N blocks of K points below V

use std::env;
use std::io::{self, Read};
use std::process::ExitCode;
use std::thread;

mod common;
use common::{Binomials, binomials, generate, parse, report};

struct Range<'a> {
    words: &'a mut [u64],
    first_word: u64,
    table: &'a Binomials,
}

impl Range<'_> {
    #[inline(always)]
    fn set(&mut self, word: u64, bits: u64) {
        if let Some(word) = self.words.get_mut(word.wrapping_sub(self.first_word) as usize) {
            *word |= bits;
        }
    }

    // Marks rank + p for each point p of the mask.
    #[inline(always)]
    fn mark(&mut self, rank: u64, mask: u64) {
        let shift = rank % 64;
        self.set(rank / 64, mask << shift);
        self.set(rank / 64 + 1, mask >> 1 >> (63 - shift));
    }

    // Marks the sets of SIZE points among these, with `rest` added to each rank.
    fn mark_sets<const SIZE: usize>(&mut self, block: &[u8], rest: u64) {
        match SIZE {
            0 => self.mark(rest, 1),
            1 => {
                for p in block {
                    self.mark(rest + u64::from(*p), 1);
                }
            }
            2 => {
                let (mut low, mut high) = (0u64, 0u64);
                for p in block {
                    let rank = rest + self.table[2][usize::from(*p)];
                    self.mark(rank, low);
                    if high != 0 {
                        self.mark(rank + 64, high);
                    }
                    if *p < 64 {
                        low |= 1 << p;
                    } else {
                        high |= 1 << (p - 64);
                    }
                }
            }
            _ => {
                let low = 64 * self.first_word;
                let high = low + 64 * self.words.len() as u64;
                for i in SIZE - 1..block.len() {
                    let p = usize::from(block[i]);
                    let least = rest + self.table[SIZE][p];
                    if least < high && low < rest + self.table[SIZE][p + 1] {
                        let lower = &block[..i];
                        match SIZE {
                            3 => self.mark_sets::<2>(lower, least),
                            4 => self.mark_sets::<3>(lower, least),
                            5 => self.mark_sets::<4>(lower, least),
                            6 => self.mark_sets::<5>(lower, least),
                            7 => self.mark_sets::<6>(lower, least),
                            _ => self.mark_sets::<7>(lower, least),
                        }
                    }
                }
            }
        }
    }

    fn mark_block(&mut self, block: &[u8], size: usize) {
        match size {
            0 => self.mark_sets::<0>(block, 0),
            1 => self.mark_sets::<1>(block, 0),
            2 => self.mark_sets::<2>(block, 0),
            3 => self.mark_sets::<3>(block, 0),
            4 => self.mark_sets::<4>(block, 0),
            5 => self.mark_sets::<5>(block, 0),
            6 => self.mark_sets::<6>(block, 0),
            7 => self.mark_sets::<7>(block, 0),
            _ => self.mark_sets::<8>(block, 0),
        }
    }
}

fn check(v: usize, k: usize, t: usize, workers: usize) -> io::Result<()> {
    let mut text = Vec::new();
    io::stdin().lock().read_to_end(&mut text)?;
    let blocks = parse(&text, k);
    let table = binomials();
    let len = table[t][v];
    let mut words = vec![0u64; len.div_ceil(64) as usize];
    let size = words.len().div_ceil(workers).max(1);
    thread::scope(|scope| {
        for (i, part) in words.chunks_mut(size).enumerate() {
            let (blocks, table) = (&blocks, &table);
            scope.spawn(move || {
                let mut range = Range { words: part, first_word: (i * size) as u64, table };
                for block in blocks {
                    range.mark_block(block.points(), t);
                }
            });
        }
    });
    report(&table, t, &words, len, blocks.len());
    Ok(())
}

fn main() -> ExitCode {
    let words: Vec<String> = env::args().skip(1).collect();
    let numbers: Vec<u64> = words.iter().skip(1).filter_map(|word| word.parse().ok()).collect();
    let done = match (words.first().map(String::as_str), numbers.as_slice()) {
        (Some("check"), [v, k, t]) => check(*v as usize, *k as usize, *t as usize, 1),
        (Some("check"), [v, k, t, workers]) => check(*v as usize, *k as usize, *t as usize, *workers as usize),
        (Some("generate"), [v, k, n, seed]) => generate(*v, *k as usize, *n, *seed),
        _ => {
            eprintln!("usage: marking check V K T [WORKERS] | marking generate V K N SEED");
            return ExitCode::from(2);
        }
    };
    match done {
        Ok(()) => ExitCode::SUCCESS,
        Err(_) => ExitCode::FAILURE,
    }
}
