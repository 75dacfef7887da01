// The blocks of products, written by hand, in the order of the rule, as lines. Without a word they are each pair of 51
// points beside each pair of 40; `short_rows` and `long_rows` are five blocks beside the pairs of 30 points beside
// those of 30 others, where either the five or the others run faster.
use std::io::Write;

#[derive(Clone, Copy)]
struct Block {
    points: [u8; 25],
    len: u8,
}

// The pairs below v in colexicographic order.
fn pairs(v: u8) -> Vec<Block> {
    let mut blocks = Vec::new();
    for b in 1..v {
        for a in 0..b {
            let mut block = Block { points: [0; 25], len: 2 };
            block.points[0] = a;
            block.points[1] = b;
            blocks.push(block);
        }
    }
    blocks
}

fn joined(first: &[Block], second: &[Block], v1: u8) -> Vec<Block> {
    let mut blocks = Vec::with_capacity(first.len() * second.len());
    for a in first {
        for b in second {
            let mut block = *a;
            for point in &b.points[..b.len as usize] {
                block.points[block.len as usize] = v1 + point;
                block.len += 1;
            }
            blocks.push(block);
        }
    }
    blocks
}

fn put_number(out: &mut Vec<u8>, n: u8) {
    if n >= 100 {
        out.push(b'0' + n / 100);
    }
    if n >= 10 {
        out.push(b'0' + n / 10 % 10);
    }
    out.push(b'0' + n % 10);
}

// Five blocks of three of five points.
fn five() -> Vec<Block> {
    let mut blocks = Vec::new();
    for points in [[1, 2, 3], [0, 2, 3], [0, 1, 3], [0, 1, 4], [2, 3, 4]] {
        let mut block = Block { points: [0; 25], len: 3 };
        block.points[..3].copy_from_slice(&points);
        blocks.push(block);
    }
    blocks
}

fn main() {
    let fours = || joined(&pairs(30), &pairs(30), 30);
    let blocks = match std::env::args().nth(1).as_deref() {
        Some("short_rows") => joined(&fours(), &five(), 60),
        Some("long_rows") => joined(&five(), &fours(), 5),
        _ => joined(&pairs(51), &pairs(40), 51),
    };
    let mut text = Vec::new();
    for block in &blocks {
        for (i, point) in block.points[..block.len as usize].iter().enumerate() {
            if i > 0 {
                text.push(b' ');
            }
            put_number(&mut text, point + 1);
        }
        text.push(b'\n');
    }
    std::io::stdout().write_all(&text).unwrap();
}
