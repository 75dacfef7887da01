// Reads standard input and goes through its lines twice, by hand in safe Rust: it prints how many lines there are, and
// how many bytes of them are no spaces.
use std::io::Read;

fn main() {
    let mut text = Vec::new();
    std::io::stdin().read_to_end(&mut text).expect("an input");
    let (mut lines, mut bytes) = (0u64, 0u64);
    for _ in 0..2 {
        for line in text.split(|b| *b == b'\n') {
            lines += 1;
            bytes += line.iter().filter(|b| **b != b' ').count() as u64;
        }
    }
    println!("{lines} {bytes}");
}
