// A table of bounds by hand, in plain Rust, beside the proved one: for each cell a bound and a node, for each node the
// rule over its children's nodes, and a worklist in index order.
// usage: table settle V K T TIMES: fresh tables are settled that many times.
// table upload V K T TIMES: the same after an upload of all quadruples with xor 0 of 32 points.
// With `sparing_` in front of these two words a lowered bound opens, of the readers with at most the cell's points,
// only those whose bound is above it, as the proved table does.
// table copy V K T COUNT: an upload of (12,6,3) is copied that many times; table accept V K T COUNT: and the copies are
// accepted in one table; table close V K T COUNT: and that is settled.
// Each writes the sum of all bounds, and on standard error the number of cells, of evaluations and of lowerings.
// table quadruples, table sextuples: the lines of these quadruples, and of the 20 blocks of (12,6,3).

#[allow(dead_code)]
mod bounds;
use bounds::{Cell, Frame, Open, Sides, binomials, first_bound, least_with, open_dearer_readers, open_readers, price};

// Which of the elementary rules it is.
#[allow(dead_code)]
#[derive(Clone, Copy)]
enum Kind {
    Drop,
    Add,
    Grow,
    Lower,
}

// What is stored of a derivation is for plans, which nobody asks for here.
#[allow(dead_code)]
#[derive(Clone, Copy)]
struct Part {
    a: u8,
    b: u8,
    l: u8,
    first: u64,
    second: u64,
}

#[allow(dead_code)]
#[derive(Clone, Copy)]
enum Rule {
    One,
    Runs,
    All,
    Leaf { upload: u32 },
    Derived { upload: u32, point: u8 },
    DerivedTwice { upload: u32, first: u8, second: u8 },
    Elementary { kind: Kind, child: u64 },
    Product { v1: u8, parts: [Part; 9], count: u8 },
    Induced { upload: u32, children: [u64; 26] },
}

#[allow(dead_code)]
#[derive(Clone, Copy)]
struct Node {
    rule: Rule,
    cell: [u8; 3],
    cost: u64,
}

// An upload: its cell, the points of its blocks, how many blocks it has, for each number of points how many blocks have
// how many below it, and the point and the pair of least degree. The points are for plans.
#[allow(dead_code)]
#[derive(Clone)]
struct Upload {
    cell: Cell,
    points: Vec<u8>,
    blocks: u64,
    counts: Vec<[u32; 26]>,
    least: (u8, u64),
    least_pair: (u8, u8, u64),
}

impl Upload {
    fn of<const K: usize>(cell: Cell, blocks: &[[u8; K]]) -> Upload {
        let mut counts = vec![[0; 26]; cell.v + 1];
        for (w, row) in counts.iter_mut().enumerate() {
            for block in blocks {
                row[block.iter().filter(|p| (**p as usize) < w).count()] += 1;
            }
        }
        let degree = |x: u8| blocks.iter().filter(|b| b.contains(&x)).count() as u64;
        let pair = |x: u8, y: u8| blocks.iter().filter(|b| b.contains(&x) && b.contains(&y)).count() as u64;
        let most = cell.v as u8;
        let least = (0..most).map(|x| (x, degree(x))).min_by_key(|x| x.1).expect("a point");
        let least_pair = (0..most)
            .flat_map(|x| (x + 1..most).map(move |y| (x, y)))
            .map(|(x, y)| (x, y, pair(x, y)))
            .min_by_key(|x| x.2)
            .expect("a pair");
        let (points, blocks) = (blocks.concat(), blocks.len() as u64);
        Upload { cell, points, blocks, counts, least, least_pair }
    }
}

// The least price of an elementary rule, the rule and its child.
fn elementary(frame: &Frame, bounds: &[u64], c: Cell) -> Option<(u64, Kind, usize)> {
    let mut least: Option<(u64, Kind, usize)> = None;
    let mut take = |kind: Kind, d: Cell| {
        let i = frame.index(d);
        if least.is_none_or(|m| bounds[i] < m.0) {
            least = Some((bounds[i], kind, i));
        }
    };
    if c.v < frame.top.v {
        take(Kind::Drop, Cell { v: c.v + 1, ..c });
    }
    if c.t < c.k && 1 < c.v {
        take(Kind::Add, Cell { v: c.v - 1, k: c.k - 1, t: c.t });
    }
    if c.t < c.k {
        take(Kind::Grow, Cell { k: c.k - 1, ..c });
    }
    if c.t < c.k && c.t < frame.top.t {
        take(Kind::Lower, Cell { t: c.t + 1, ..c });
    }
    least
}

// The least price of a product, and the first side's points where it is reached.
fn product(frame: &Frame, bounds: &[u64], c: Cell) -> Option<(u64, usize)> {
    if c.v < 2 {
        return None;
    }
    let mut least = (u64::MAX, 1);
    for v1 in 1..c.v / 2 + 1 {
        let found = least_with(bounds, &frame.offsets, Sides::of(frame, c, v1));
        if found < least.0 {
            least = (found, v1);
        }
    }
    Some(least)
}

struct Table<'a> {
    frame: &'a Frame,
    bounds: Vec<u64>,
    nodes: Vec<u64>,
    arena: Vec<Node>,
    open: Open,
    uploads: Vec<Upload>,
    sparing: bool,
    evaluations: u64,
    lowerings: u64,
}

impl<'a> Table<'a> {
    fn start(frame: &'a Frame, binomials: &[Vec<u64>], sparing: bool) -> Table<'a> {
        let n = frame.cells.len();
        let mut table = Table {
            frame,
            bounds: Vec::with_capacity(n),
            nodes: Vec::with_capacity(n),
            arena: Vec::with_capacity(n),
            open: Open::all(n),
            uploads: Vec::new(),
            sparing,
            evaluations: 0,
            lowerings: 0,
        };
        for (i, c) in frame.cells.iter().enumerate() {
            let rule = if c.t == 0 || c.k == c.v {
                Rule::One
            } else if c.t == 1 {
                Rule::Runs
            } else if c.t == c.k {
                Rule::All
            } else {
                let child = frame.index(Cell { k: c.k - 1, ..*c }) as u64;
                Rule::Elementary { kind: Kind::Grow, child }
            };
            let cost = first_bound(binomials, *c);
            table.bounds.push(cost);
            table.nodes.push(i as u64);
            table.add(rule, *c, cost);
        }
        table
    }

    fn add(&mut self, rule: Rule, c: Cell, cost: u64) -> u64 {
        self.arena.push(Node { rule, cell: [c.v as u8, c.k as u8, c.t as u8], cost });
        self.arena.len() as u64 - 1
    }

    fn offer(&mut self, rule: Rule, c: Cell, cost: u64) {
        let i = self.frame.index(c);
        if cost < self.bounds[i] {
            self.bounds[i] = cost;
            self.nodes[i] = self.add(rule, c, cost);
            open_readers(self.frame, c, &mut self.open);
        }
    }

    fn accept(&mut self, up: Upload) {
        let upload = self.uploads.len() as u32;
        let Cell { v, k, t } = up.cell;
        let (least, least_pair) = (up.least, up.least_pair);
        self.offer(Rule::Leaf { upload }, up.cell, up.blocks);
        self.uploads.push(up);
        let (point, cost) = least;
        self.offer(Rule::Derived { upload, point }, Cell { v: v - 1, k: k - 1, t: t - 1 }, cost);
        let (first, second, cost) = least_pair;
        self.offer(Rule::DerivedTwice { upload, first, second }, Cell { v: v - 2, k: k - 2, t: t - 2 }, cost);
        for v in 1..=v {
            for k in t..=v.min(self.frame.top.k) {
                self.open.insert(self.frame.index(Cell { v, k, t }), 1);
            }
        }
    }

    // The least price of a cut of an upload's blocks, and the upload.
    fn induced(&self, c: Cell) -> Option<(u64, usize)> {
        let mut least: Option<(u64, usize)> = None;
        let mut prices = [0; 26];
        let mut known = false;
        for (i, up) in self.uploads.iter().enumerate() {
            if up.cell.t == c.t && c.v <= up.cell.v {
                if !known {
                    for l in c.t..=c.v.min(self.frame.top.k) {
                        prices[l] = if l <= c.k { 1 } else { self.bounds[self.frame.index(Cell { v: l, ..c })] };
                    }
                    known = true;
                }
                let cost = up.counts[c.v].iter().zip(&prices).map(|(n, p)| u64::from(*n) * p).sum();
                if least.is_none_or(|m| cost < m.0) {
                    least = Some((cost, i));
                }
            }
        }
        least
    }

    fn settle(&mut self) {
        while let Some(i) = self.open.pop_first() {
            self.evaluations += 1;
            let c = self.frame.cells[i];
            let mut least = self.bounds[i];
            let mut found = 0;
            let rule = elementary(self.frame, &self.bounds, c);
            if rule.is_some_and(|x| x.0 < least) {
                least = rule.expect("a rule").0;
                found = 1;
            }
            let sides = product(self.frame, &self.bounds, c);
            if sides.is_some_and(|x| x.0 < least) {
                least = sides.expect("sides").0;
                found = 2;
            }
            let cut = self.induced(c);
            if cut.is_some_and(|x| x.0 < least) {
                least = cut.expect("a cut").0;
                found = 3;
            }
            let rule = match (found, rule, sides, cut) {
                (1, Some((_, kind, child)), _, _) => Rule::Elementary { kind, child: self.nodes[child] },
                (2, _, Some((_, v1)), _) => self.product_rule(c, v1),
                (3, _, _, Some((_, upload))) => self.induced_rule(c, upload),
                _ => continue,
            };
            self.bounds[i] = least;
            self.nodes[i] = self.add(rule, c, least);
            self.lowerings += 1;
            if self.sparing {
                open_dearer_readers(self.frame, &self.bounds, c, &mut self.open);
            } else {
                open_readers(self.frame, c, &mut self.open);
            }
        }
    }

    // Prints what the table has come to, where asked.
    fn report(&self, prints: bool) {
        std::hint::black_box(&self.arena);
        if prints {
            println!("sum {}", self.bounds.iter().fold(0u64, |sum, n| sum.wrapping_add(*n)));
            let (cells, evaluations, lowerings) = (self.bounds.len(), self.evaluations, self.lowerings);
            eprintln!("cells {cells} evaluations {evaluations} lowerings {lowerings}");
        }
    }

    // The parts of the least product with these sides.
    fn product_rule(&self, c: Cell, v1: usize) -> Rule {
        let s = Sides::of(self.frame, c, v1);
        let (lo, hi) = (s.t.saturating_sub(s.v - s.v1), s.t.min(s.v1));
        let lowest = s.k.saturating_sub(s.v - s.v1);
        let mut tails = [(0u64, 0usize, 0usize); 10];
        for a in (lo..=hi).rev() {
            let mut least = (u64::MAX, 0, 0);
            for b in a..=hi {
                for l in b.max(lowest)..=s.v1.min(s.k - s.t + a) {
                    let cost = price(&self.bounds, &self.frame.offsets, s, a, b, l) + tails[b + 1].0;
                    if cost < least.0 {
                        least = (cost, b, l);
                    }
                }
            }
            tails[a] = least;
        }
        let mut parts = [Part { a: 0, b: 0, l: 0, first: 0, second: 0 }; 9];
        let (mut a, mut count) = (lo, 0);
        while a <= hi {
            let (_, b, l) = tails[a];
            let first = self.nodes[self.frame.index(Cell { v: v1, k: l, t: b })];
            let second = self.nodes[self.frame.index(Cell { v: c.v - v1, k: c.k - l, t: c.t - a })];
            parts[count as usize] = Part { a: a as u8, b: b as u8, l: l as u8, first, second };
            count += 1;
            a = b + 1;
        }
        Rule::Product { v1: v1 as u8, parts, count }
    }

    fn induced_rule(&self, c: Cell, upload: usize) -> Rule {
        let mut children = [0; 26];
        for l in c.k + 1..=c.v.min(self.frame.top.k) {
            children[l] = self.nodes[self.frame.index(Cell { v: l, ..c })];
        }
        Rule::Induced { upload: upload as u32, children }
    }
}

// All blocks of four of 32 points with xor 0, in lexicographic order.
fn quadruples() -> Vec<[u8; 4]> {
    let mut blocks = Vec::new();
    for a in 0..32 {
        for b in a + 1..32 {
            for c in b + 1..32 {
                if (a ^ b ^ c) > c {
                    blocks.push([a, b, c, a ^ b ^ c]);
                }
            }
        }
    }
    blocks
}

// Three of six pairs of points in each block: each three of the 12 points are in one.
fn sextuples() -> Vec<[u8; 6]> {
    let mut blocks = Vec::new();
    for a in 0..6 {
        for b in a + 1..6 {
            for c in b + 1..6 {
                blocks.push([2 * a, 2 * a + 1, 2 * b, 2 * b + 1, 2 * c, 2 * c + 1]);
            }
        }
    }
    blocks
}

fn print(block: &[u8]) {
    let line: Vec<String> = block.iter().map(|p| (p + 1).to_string()).collect();
    println!("{}", line.join(" "));
}

fn main() {
    let words: Vec<String> = std::env::args().skip(1).collect();
    match words[0].as_str() {
        "quadruples" => return quadruples().iter().for_each(|block| print(block)),
        "sextuples" => return sextuples().iter().for_each(|block| print(block)),
        _ => (),
    }
    let numbers: Vec<usize> = words[1..].iter().map(|x| x.parse().expect("a number")).collect();
    let frame = Frame::new(Cell { v: numbers[0], k: numbers[1], t: numbers[2] });
    let binomials = binomials();
    let sparing = words[0].starts_with("sparing_");
    let (work, count) = (words[0].strip_prefix("sparing_").unwrap_or(&words[0]), numbers[3]);
    let up = match work {
        "settle" | "upload" => Upload::of(Cell { v: 32, k: 4, t: 3 }, &quadruples()),
        _ => Upload::of(Cell { v: 12, k: 6, t: 3 }, &sextuples()),
    };
    match work {
        "settle" | "upload" => {
            for time in 0..count {
                let mut table = Table::start(&frame, &binomials, sparing);
                if work == "upload" {
                    table.accept(up.clone());
                }
                table.settle();
                table.report(time + 1 == count);
            }
        }
        _ => {
            let mut table = Table::start(&frame, &binomials, sparing);
            for _ in 0..count {
                let copy = std::hint::black_box(up.clone());
                if work != "copy" {
                    table.accept(copy);
                }
            }
            if work == "close" {
                table.settle();
            }
            table.report(true);
        }
    }
}
