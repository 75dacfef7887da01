// `ljcr build` by hand, for a script of a frame alone, in safe Rust: it reads the frame, closes the bounds by a
// worklist in index order, and writes the closing report.
// usage: building < SCRIPT
use std::io::{Read, Write};

#[allow(dead_code)]
mod bounds;
use bounds::{Cell, Frame, Open, binomials, elementary, first_bound, open_readers, product};

fn least_price(frame: &Frame, bounds: &[u64], c: Cell) -> Option<u64> {
    match (elementary(frame, bounds, c), product(frame, bounds, c)) {
        (Some(m), Some(n)) => Some(m.min(n)),
        (m, None) => m,
        (None, n) => n,
    }
}

// Schonheim's number: no covering of the cell has fewer blocks.
fn schonheim(c: Cell) -> u64 {
    let mut least = 1;
    for i in (0..c.t).rev() {
        least = (least * (c.v - i) as u64).div_ceil((c.k - i) as u64);
    }
    least
}

fn main() {
    let mut script = String::new();
    std::io::stdin().read_to_string(&mut script).expect("a script");
    let mut words = script.split_whitespace();
    assert_eq!(words.next(), Some("frame"));
    let mut number = || words.next().and_then(|x| x.parse::<usize>().ok()).expect("a number");
    let top = Cell { v: number(), k: number(), t: number() };
    let frame = Frame::new(top);
    let binomials = binomials();
    let mut bounds: Vec<u64> = frame.cells.iter().map(|c| first_bound(&binomials, *c)).collect();
    let mut open = Open::all(bounds.len());
    while let Some(i) = open.pop_first() {
        let c = frame.cells[i];
        if let Some(cost) = least_price(&frame, &bounds, c) {
            if cost < bounds[i] {
                bounds[i] = cost;
                open_readers(&frame, c, &mut open);
            }
        }
    }
    let mut text = Vec::from(*b"report\n");
    for t in 1..=top.t {
        for k in t + 1..=top.k {
            for v in k + 1..=top.v {
                let c = Cell { v, k, t };
                let (n, low) = (bounds[frame.index(c)], schonheim(c));
                let optimal = if n == low { " optimal" } else { "" };
                writeln!(text, "{v} {k} {t} {n} {low}{optimal}").expect("memory");
            }
        }
    }
    std::io::stdout().write_all(&text).expect("an output");
}
