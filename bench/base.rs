//! The yardstick of bench/base.py: the work of crates/bench_base in plain Rust.
use std::cmp::Ordering;
use std::collections::{HashMap, HashSet};

#[derive(Clone, Copy)]
struct Frac {
    numerator: i64,
    denominator: i64,
}

const BOUND: u128 = 1 << 62;

fn common_divisor(mut a: u128, mut b: u128) -> u128 {
    while b != 0 {
        (a, b) = (b, a % b);
    }
    a
}

impl Frac {
    fn reduced(numerator: i128, denominator: i128) -> Option<Frac> {
        let common = common_divisor(numerator.unsigned_abs(), denominator.unsigned_abs()) as i128;
        let (numerator, denominator) = (numerator / common, denominator / common);
        if numerator.unsigned_abs() >= BOUND || denominator.unsigned_abs() >= BOUND {
            return None;
        }
        Some(Frac { numerator: numerator as i64, denominator: denominator as i64 })
    }

    fn add(self, other: Frac) -> Option<Frac> {
        let left = self.numerator as i128 * other.denominator as i128;
        let right = other.numerator as i128 * self.denominator as i128;
        Frac::reduced(left + right, self.denominator as i128 * other.denominator as i128)
    }

    fn compare(self, other: Frac) -> Ordering {
        let left = self.numerator as i128 * other.denominator as i128;
        let right = other.numerator as i128 * self.denominator as i128;
        left.cmp(&right)
    }
}

fn pairs(count: usize) -> impl Iterator<Item = (Frac, Frac)> {
    let fractions: Vec<Frac> = (1..1025).filter_map(|k| Frac::reduced(k, 2048 - k)).collect();
    (0..count).map(move |step| (fractions[step % 1024], fractions[step / 3 % 1024]))
}

#[derive(Default)]
struct FreshNames {
    names: HashSet<String>,
    last: HashMap<String, u64>,
}

impl FreshNames {
    fn next(&mut self, base: &str) -> String {
        let mut number = self.last.get(base).copied().unwrap_or(0);
        loop {
            let name = if number == 0 { base.to_owned() } else { format!("{base}-{number}") };
            if !self.names.contains(&name) {
                self.last.insert(base.to_owned(), number);
                self.names.insert(name.clone());
                return name;
            }
            number += 1;
        }
    }
}

fn main() {
    let words: Vec<String> = std::env::args().collect();
    let count: usize = words[2].parse().unwrap();
    let total: u64 = match words[1].as_str() {
        "add" => pairs(count).filter_map(|(a, b)| a.add(b)).fold(0, |total, sum| total.wrapping_add(sum.numerator.unsigned_abs())),
        "compare" => pairs(count).filter(|(a, b)| a.compare(*b) == Ordering::Less).count() as u64,
        _ => {
            let mut names = FreshNames::default();
            (0..count).map(|_| names.next("move").len() as u64).sum()
        }
    };
    println!("{total}");
}
