//! What the programs by hand over tables of bounds share: frames, the least price of an elementary rule and of a
//! product over a list of bounds, the open cells, and the bounds of a fresh table. With `--cfg unchecked` products read
//! bounds without a test of their places, which safe Rust can't do.

#[derive(Clone, Copy)]
pub struct Cell {
    pub v: usize,
    pub k: usize,
    pub t: usize,
}

pub struct Frame {
    pub top: Cell,
    pub starts: Vec<usize>,
    pub offsets: [usize; 27],
    pub cells: Vec<Cell>,
}

impl Frame {
    pub fn new(top: Cell) -> Frame {
        let mut offsets = [0; 27];
        for k in 0..26 {
            offsets[k + 1] = offsets[k] + k.min(top.t) + 1;
        }
        let mut starts = vec![0; top.v + 1];
        let mut cells = Vec::new();
        for v in 1..=top.v {
            starts[v] = cells.len();
            for k in 0..=v.min(top.k) {
                for t in 0..=k.min(top.t) {
                    cells.push(Cell { v, k, t });
                }
            }
        }
        Frame { top, starts, offsets, cells }
    }

    pub fn index(&self, c: Cell) -> usize {
        self.starts[c.v] + self.offsets[c.k] + c.t
    }
}

#[derive(Clone, Copy)]
pub struct Sides {
    pub v: usize,
    pub k: usize,
    pub t: usize,
    pub v1: usize,
    first: usize,
    second: usize,
}

impl Sides {
    pub fn of(frame: &Frame, c: Cell, v1: usize) -> Sides {
        Sides {
            v: c.v,
            k: c.k,
            t: c.t,
            v1,
            first: frame.starts[v1],
            second: frame.starts[c.v - v1],
        }
    }
}

#[cfg(not(unchecked))]
#[inline]
fn bound_at(bounds: &[u64], i: usize) -> u64 {
    bounds[i]
}

#[cfg(unchecked)]
#[inline]
fn bound_at(bounds: &[u64], i: usize) -> u64 {
    debug_assert!(i < bounds.len());
    unsafe { *bounds.get_unchecked(i) }
}

#[inline]
pub fn price(bounds: &[u64], offsets: &[usize; 27], s: Sides, a: usize, b: usize, l: usize) -> u64 {
    bound_at(bounds, s.first + offsets[l] + b) * bound_at(bounds, s.second + offsets[s.k - l] + (s.t - a))
}

fn least_part(bounds: &[u64], offsets: &[usize; 27], s: Sides, a: usize, b: usize, low: usize, high: usize) -> u64 {
    let mut least = price(bounds, offsets, s, a, b, low);
    for l in low + 1..high + 1 {
        least = least.min(price(bounds, offsets, s, a, b, l));
    }
    least
}

fn tail(bounds: &[u64], offsets: &[usize; 27], s: Sides, a: usize, tails: &[u64; 10]) -> u64 {
    let hi = s.t.min(s.v1);
    let lowest = s.k.saturating_sub(s.v - s.v1);
    let high = s.v1.min(s.k - s.t + a);
    let mut least = least_part(bounds, offsets, s, a, a, a.max(lowest), high) + tails[a + 1];
    for b in a + 1..hi + 1 {
        let low = b.max(lowest);
        if low <= high {
            least = least.min(least_part(bounds, offsets, s, a, b, low, high) + tails[b + 1]);
        }
    }
    least
}

/// The least price of a product with these sides.
pub fn least_with(bounds: &[u64], offsets: &[usize; 27], s: Sides) -> u64 {
    let lo = s.t.saturating_sub(s.v - s.v1);
    let hi = s.t.min(s.v1);
    let mut tails = [0; 10];
    for i in 0..hi + 1 - lo {
        let a = hi - i;
        tails[a] = tail(bounds, offsets, s, a, &tails);
    }
    tails[lo]
}

/// The least price of a product.
pub fn product(frame: &Frame, bounds: &[u64], c: Cell) -> Option<u64> {
    if c.v < 2 {
        return None;
    }
    let mut least = u64::MAX;
    for v1 in 1..c.v / 2 + 1 {
        least = least.min(least_with(bounds, &frame.offsets, Sides::of(frame, c, v1)));
    }
    Some(least)
}

/// The least price of an elementary rule.
pub fn elementary(frame: &Frame, bounds: &[u64], c: Cell) -> Option<u64> {
    let mut least: Option<u64> = None;
    let mut take = |d: Cell| {
        let n = bounds[frame.index(d)];
        least = Some(least.map_or(n, |m| m.min(n)));
    };
    if c.v < frame.top.v {
        take(Cell { v: c.v + 1, ..c });
    }
    if c.t < c.k && 1 < c.v {
        take(Cell { v: c.v - 1, k: c.k - 1, t: c.t });
    }
    if c.t < c.k {
        take(Cell { k: c.k - 1, ..c });
    }
    if c.t < c.k && c.t < frame.top.t {
        take(Cell { t: c.t + 1, ..c });
    }
    least
}

/// The open cells: a bit for each.
pub struct Open {
    words: Vec<u64>,
    from: usize,
}

impl Open {
    pub fn all(n: usize) -> Open {
        let mut open = Open { words: vec![0; n / 64 + 1], from: 0 };
        open.insert(0, n);
        open
    }

    // The cells at `count` places from `at` on.
    pub fn insert(&mut self, at: usize, count: usize) {
        self.from = self.from.min(at / 64);
        for i in at..at + count {
            self.words[i / 64] |= 1 << (i % 64);
        }
    }

    pub fn remove(&mut self, i: usize) {
        self.words[i / 64] &= !(1 << (i % 64));
    }

    // The first open cell in index order, which is closed.
    pub fn pop_first(&mut self) -> Option<usize> {
        while self.from < self.words.len() {
            let word = self.words[self.from];
            if word != 0 {
                let i = self.from * 64 + word.trailing_zeros() as usize;
                self.remove(i);
                return Some(i);
            }
            self.from += 1;
        }
        None
    }
}

/// Opens the readers of a cell: three near it, and for each greater v and k a run of numbers t.
pub fn open_readers(frame: &Frame, c: Cell, open: &mut Open) {
    open_readers_where(frame, c, open, |_| true);
}

/// Opens the other cells that read a cell, but of those with at most its points only those whose bound is above its
/// own: an instance that has a cell as a child costs at least the cell's bound.
#[allow(dead_code)]
pub fn open_dearer_readers(frame: &Frame, bounds: &[u64], c: Cell, open: &mut Open) {
    let bound = bounds[frame.index(c)];
    open_readers_where(frame, c, open, |i| bounds[i] > bound);
}

fn open_readers_where(frame: &Frame, c: Cell, open: &mut Open, is_dear: impl Fn(usize) -> bool) {
    let top = frame.top;
    let mut near = |d: Cell| {
        let i = frame.index(d);
        if is_dear(i) {
            open.insert(i, 1);
        }
    };
    if 1 < c.v && c.k < c.v {
        near(Cell { v: c.v - 1, ..c });
    }
    if 0 < c.t {
        near(Cell { t: c.t - 1, ..c });
    }
    if c.k < c.v && c.k < top.k {
        near(Cell { k: c.k + 1, ..c });
    }
    for v in c.v + 1..=top.v {
        for k in c.k..=top.k.min(c.k + (v - c.v)) {
            let last = top.t.min(c.t + (k - c.k));
            open.insert(frame.index(Cell { v, k, t: c.t }), last + 1 - c.t);
        }
    }
}

/// The binomials of up to 99 points and up to 8 of them.
pub fn binomials() -> Vec<Vec<u64>> {
    let mut binomials = vec![vec![0u64; 9]; 100];
    for n in 0..100 {
        binomials[n][0] = 1;
        for r in 1..9 {
            binomials[n][r] = if n == 0 { 0 } else { binomials[n - 1][r - 1] + binomials[n - 1][r] };
        }
    }
    binomials
}

pub fn first_bound(binomials: &[Vec<u64>], c: Cell) -> u64 {
    if c.t == 0 || c.k == c.v {
        1
    } else if c.t == 1 {
        c.v.div_ceil(c.k) as u64
    } else {
        binomials[c.v][c.t]
    }
}
