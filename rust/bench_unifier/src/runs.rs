//! What is run: times, agreement, depth.

use std::collections::BTreeMap;
use std::hint::black_box;
use std::time::Instant;

use crate::{plain, proved};

const AMPLE: u64 = 10_000_000;

fn times(name: &str, kept: &[u32], a: u32, b: u32, turns: u32) {
    let count = (kept.len() / 3) as u32;
    let mut words = kept.to_vec();
    let mut best = [f64::MAX; 4];
    for _ in 0..5 {
        for which in 0..4 {
            let begun = Instant::now();
            let mut sum = 0u64;
            for _ in 0..turns {
                let mut left = AMPLE;
                let number = match which {
                    0 | 1 => {
                        words.copy_from_slice(kept);
                        let run = if which == 0 { proved::unify } else { plain::unify };
                        run(&mut words, &mut left, count, a, b)
                    }
                    2 => proved::solved(&words, &mut left, count, a),
                    _ => plain::solved(&mut words, &mut left, count, a),
                };
                sum += u64::from(number) + left;
            }
            black_box(sum);
            best[which] = best[which].min(begun.elapsed().as_secs_f64() * 1e6 / f64::from(turns));
        }
    }
    let [u, v, s, t] = best;
    println!("{name:28} nodes {count:5}   unify {u:8.2} / {v:8.2} us = {:.2}   solved {s:8.2} / {t:8.2} us = {:.2}", u / v, s / t);
}

fn nested(left: bool) -> (Vec<u32>, u32, u32) {
    let mut words: Vec<u32> = vec![0x41, 0, 0, 0x41, 0, 0];
    let (mut l, mut r) = (0u32, 1u32);
    for _ in 0..900 {
        let n = (words.len() / 3) as u32;
        words.extend([0x4E, 0, 0]);
        words.extend(if left { [0x44, l, n] } else { [0x44, n, l] });
        words.extend(if left { [0x44, r, 1] } else { [0x44, 1, r] });
        l = n + 1;
        r = n + 2;
    }
    (words, l, r)
}

pub fn table() {
    let (words, l, r) = nested(true);
    times("products, left-nested", &words, l, r, 2_000);
    let (words, l, r) = nested(false);
    times("products, right-nested", &words, l, r, 2_000);
    let mut words: Vec<u32> = vec![0x4E, 0, 0, 0x41, 0, 0];
    for i in 0..2_000u32 {
        words.extend([0x43, i, 0]);
    }
    times("two towers of powers", &words, 2_000, 2_001, 4_000);
    let mut words: Vec<u32> = vec![0x4E, 0, 0, 0x41, 0, 0];
    for i in 1..11u32 {
        words.extend([0x44, i, i]);
    }
    times("an unknown, a shared tree", &words, 0, 11, 4_000);
    let mut words: Vec<u32> = vec![0x4E, 0, 0, 0x41, 0, 0];
    for i in 0..1_000u32 {
        words.extend([0x4D, if i == 0 { 0 } else { i + 1 }, 0]);
    }
    times("a chain of bindings, laid by hand", &words, 1_001, 1, 8_000);
    times("one small pair", &[0x4E, 0, 0, 0x41, 0, 0, 0x43, 0, 0, 0x43, 1, 0], 2, 3, 400_000);
}

/// Arenas from a fixed seed, one in twenty damaged; after each, both sides' numbers, budgets and words are held against each other.
pub fn agree(arenas: u32) -> BTreeMap<u32, u64> {
    let mut seed: u64 = 88_172_645_463_325_252;
    let mut below = move |n: u64| {
        seed ^= seed << 13;
        seed ^= seed >> 7;
        seed ^= seed << 17;
        seed % n
    };
    let mut counted = BTreeMap::new();
    for _ in 0..arenas {
        let nodes = 1 + below(14) as usize;
        let damaged = below(20) == 0;
        let mut words = vec![0u32; nodes * 3 + below(4) as usize];
        for i in 0..nodes {
            let earlier = i as u64;
            let node = match below(9) {
                3 => [0x41, 0, 0],
                4 => [0x40, 0, 0],
                5 => [0x42, below(2) as u32, 0],
                6 | 7 if i > 0 => [0x44, below(earlier) as u32, below(earlier) as u32],
                8 if i > 0 => [0x43, below(earlier) as u32, 0],
                // An unknown, now and then of a rank that calls alone would take long to make, the last one among them.
                _ if below(6) == 0 => [0x4E, 0, below(40) as u32],
                _ => [0x4E, 0, 0],
            };
            words[3 * i..3 * i + 3].copy_from_slice(&node);
        }
        if damaged {
            for _ in 0..3 {
                let at = below(words.len() as u64) as usize;
                words[at] = match below(4) {
                    0 => 0x4D,
                    1 => below(nodes as u64 + 2) as u32,
                    2 => 0x40 + below(16) as u32,
                    _ => below(1 << 32) as u32,
                };
            }
        }
        let count = if below(30) == 0 { below(40) as u32 } else { nodes as u32 };
        for _ in 0..4 {
            let (a, b) = (below(nodes as u64 + u64::from(damaged)) as u32, below(nodes as u64) as u32);
            let budget = if below(3) == 0 { below(12) } else { 5_000 };
            let (mut one, mut two) = (budget, budget);
            let mut other = words.clone();
            let number = proved::unify(&mut words, &mut one, count, a, b);
            let as_plain = plain::unify(&mut other, &mut two, count, a, b);
            assert_eq!((number, one, &words), (as_plain, two, &other), "{words:?} {count} {a} {b} {budget}");
            *counted.entry(number).or_insert(0) += 1;
            let (mut one, mut two) = (budget, budget);
            let number = proved::solved(&words, &mut one, count, a);
            let as_plain = plain::solved(&mut other, &mut two, count, a);
            assert_eq!((number, one), (as_plain, two), "{words:?} {count} {a} {budget}");
        }
    }
    counted
}

/// A type of a given depth, by powers or by products' left halves, in a thread with a stack of a given size.
pub fn deep(name: &str, depth: u32, bytes: usize, halves: bool) {
    let name = name.to_string();
    let level = move |part: u32| if halves { [0x44, part, 1] } else { [0x43, part, 0] };
    let run = move || {
        let mut left = u64::from(u32::MAX);
        let mut words: Vec<u32> = vec![0x4E, 0, 0, 0x41, 0, 0];
        let number = match name.as_str() {
            "unify" => {
                words[0] = 0x41;
                for i in 0..2 * depth {
                    words.extend(level(i));
                }
                proved::unify(&mut words, &mut left, 2 * depth + 2, 2 * depth, 2 * depth + 1)
            }
            "circle" => {
                left = u64::from(depth);
                proved::solved(&if halves { [0x44, 0, 0] } else { [0x43, 0, 0] }, &mut left, 1, 0)
            }
            _ => {
                for i in 1..=depth {
                    words.extend(level(i));
                }
                if name == "occurs" {
                    proved::unify(&mut words, &mut left, depth + 2, 0, depth + 1)
                } else {
                    proved::solved(&words, &mut left, depth + 2, depth + 1)
                }
            }
        };
        println!("{name}, depth {depth}, stack {bytes}: {number}");
    };
    std::thread::Builder::new().stack_size(bytes).spawn(run).unwrap().join().unwrap();
}
