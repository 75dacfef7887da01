// The least prices of a frame without uploads by hand, in plain Rust, beside the proved program of the same loops: the
// closing bounds by a worklist in index order, and then passes over all cells of the closed table.
// usage: prices V K T PASSES; it writes the number of cells, of evaluations and of lowerings, the sum of all bounds,
// and the time of one pass, the best of the passes. With `--cfg unchecked` the bounds are read without a test of their
// places, which safe Rust can't do.
use std::time::Instant;

#[allow(dead_code)]
mod bounds;
use bounds::{Cell, Frame, Open, binomials, elementary, first_bound, open_readers, product};

fn least_price(frame: &Frame, bounds: &[u64], c: Cell) -> Option<u64> {
    match (elementary(frame, bounds, c), product(frame, bounds, c)) {
        (Some(m), Some(n)) => Some(m.min(n)),
        (m, None) => m,
        (None, n) => n,
    }
}

fn main() {
    let words: Vec<usize> = std::env::args().skip(1).map(|x| x.parse().expect("a number")).collect();
    let frame = Frame::new(Cell { v: words[0], k: words[1], t: words[2] });
    let binomials = binomials();
    let mut bounds: Vec<u64> = frame.cells.iter().map(|c| first_bound(&binomials, *c)).collect();
    let mut open = Open::all(bounds.len());
    let (mut evaluations, mut lowerings) = (0u64, 0u64);
    let start = Instant::now();
    while let Some(i) = open.pop_first() {
        evaluations += 1;
        let c = frame.cells[i];
        if let Some(cost) = least_price(&frame, &bounds, c) {
            if cost < bounds[i] {
                bounds[i] = cost;
                lowerings += 1;
                open_readers(&frame, c, &mut open);
            }
        }
    }
    let settling = start.elapsed();
    let sum: u64 = bounds.iter().fold(0, |sum, n| sum.wrapping_add(*n));
    println!("cells {} evaluations {evaluations} lowerings {lowerings} sum {sum}", bounds.len());
    eprintln!("settling {settling:?}");
    let mut best = None;
    for _ in 0..words.get(3).copied().unwrap_or(3) {
        let start = Instant::now();
        let mut prices = 0u64;
        for (c, bound) in frame.cells.iter().zip(&bounds) {
            if let Some(n) = least_price(&frame, &bounds, *c) {
                assert!(*bound <= n, "the table is not closed");
                prices = prices.wrapping_add(n);
            }
        }
        let time = start.elapsed();
        best = Some(best.map_or(time, |t: std::time::Duration| t.min(time)));
        println!("prices {prices}");
    }
    eprintln!("one pass {:?}", best.unwrap_or_default());
}
