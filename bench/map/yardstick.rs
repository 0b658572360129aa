//! The same jobs over Rust's BTreeMap, which has no forks: there a change under a fork is a change alone.

use std::collections::BTreeMap;
use std::env;

const KEYS: u64 = 1_000_000;

fn scattered(step: u64) -> u64 {
    step.wrapping_mul(0x9E37_79B9_7F4A_7C15)
}

fn filled(count: u64) -> BTreeMap<u64, u64> {
    let mut map = BTreeMap::new();
    for step in 0..count {
        map.insert(scattered(step), step);
    }
    map
}

fn changed(count: u64, rounds: u64, stride: u64) -> u64 {
    let mut map = filled(count);
    for round in 0..rounds {
        for step in 0..KEYS {
            map.insert(scattered(step * stride % count), round);
        }
    }
    map.values().fold(0, |total, value| total.wrapping_add(*value))
}

fn main() {
    let words: Vec<String> = env::args().skip(1).collect();
    let name = words.first().map_or("", |word| word.as_str());
    let rounds: u64 = words.get(1).map_or(0, |word| word.parse().unwrap_or(0));
    let total = match name {
        "insert" => (0..rounds).fold(0u64, |total, _| total.wrapping_add(filled(KEYS).len() as u64)),
        "look" => {
            let map = filled(KEYS);
            let mut total = 0u64;
            for _ in 0..rounds {
                for step in 0..KEYS {
                    total = total.wrapping_add(map.get(&scattered(step)).copied().unwrap_or(0));
                }
            }
            total
        }
        "scan" => {
            let map = filled(KEYS);
            let mut total = 0u64;
            for _ in 0..rounds {
                for (key, value) in std::hint::black_box(&map) {
                    total = total.wrapping_add(*key).wrapping_add(*value);
                }
            }
            total
        }
        "change" => changed(KEYS, rounds, 1),
        "forked_1000" => changed(1_000, rounds, 7_919),
        "forked_1000000" => changed(KEYS, rounds, 7_919),
        _ => 0,
    };
    println!("{total}");
}
