//! Plain Rust's `str::parse` over the texts that `benches decimals` reads, for `bench/run`: `parse COUNT`.

use std::hint::black_box;

const TEXTS: [&str; 8] = [
    "123.456000",
    "-17.250000",
    "0.000000",
    "99999.999000",
    "1.5E+1",
    "-4096.031250",
    "250.0",
    "12.345678",
];

fn main() {
    let count: u32 = std::env::args().nth(1).and_then(|word| word.parse().ok()).unwrap_or(0);
    let mut sum = 0.0;
    for k in 0..count {
        if let Ok(x) = black_box(TEXTS[(k % 8) as usize]).parse::<f64>() {
            sum += x;
        }
    }
    println!("{sum}");
}
