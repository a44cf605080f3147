//! Times our table against the Rust's in one run, rounds of the two in turn, and prints ns for an operation of each and
//! the ratio of the medians (see README.md).

mod ours;
mod rust;

use std::hint::black_box;
use std::time::Instant;

use compare::lines::{Open, Region};
use compare::opening::Opening;
use ours::OurTable;
use rust::RustTable;

/// Rounds of each side.
const ROUNDS: usize = 41;

/// About this many operations in a round.
const OPERATIONS: u64 = 8192;

fn opening(depth: u64) -> Opening {
    let open = Open {
        depth,
        block: 512,
        buffers: depth,
        capacity: 8192,
        lifetime: 1 << 62,
        card: 1 << 40,
        read_only: false,
        flush_policy: false,
        volume: 1,
        class: 0,
        label: 0,
        epoch: 1,
    };
    // A run that ends at 65,536, and one far away.
    let runs = vec![(65_536, 1 << 30)];
    let region = Region { id: 7, generation: 3, first: 1 << 20, capacity: 1 << 24, data: 1 << 24, runs };
    Opening { open, regions: vec![region] }
}

/// Nanoseconds that `work` takes.
fn time(work: impl FnOnce()) -> f64 {
    let start = Instant::now();
    work();
    start.elapsed().as_nanos() as f64
}

fn median(mut times: Vec<f64>) -> f64 {
    times.sort_by(f64::total_cmp);
    times[times.len() / 2]
}

/// Rounds of the Rust and of ours in turn, each after the other's half of the time.
fn beside(name: &str, per: f64, mut rust: impl FnMut(), mut ours: impl FnMut()) {
    let (mut a, mut b) = (Vec::new(), Vec::new());
    rust();
    ours();
    for round in 0..ROUNDS {
        if round % 2 == 0 {
            a.push(time(&mut rust) / per);
            b.push(time(&mut ours) / per);
        } else {
            b.push(time(&mut ours) / per);
            a.push(time(&mut rust) / per);
        }
    }
    let (least_a, least_b) = (a.iter().copied().fold(f64::MAX, f64::min), b.iter().copied().fold(f64::MAX, f64::min));
    let (a, b) = (median(a), median(b));
    println!("{name:<40} {a:>10.1} {b:>10.1} {:>7.2} {:>12.2}", b / a, least_b / least_a);
}

fn operations(depth: u64, offset: u64, length: u64, pieces: u64, name: &str) {
    let opening = opening(depth);
    let (mut rust, mut ours) = (RustTable::open(&opening), OurTable::open(&opening));
    let times = (OPERATIONS / depth).max(1);
    let per = (times * depth) as f64;
    let rust_round = || (0..times).for_each(|_| rust.round(depth, offset, length, pieces));
    let ours_round = || (0..times).for_each(|_| ours.round(depth, offset, length, pieces));
    beside(&format!("{name}, depth {depth}"), per, rust_round, ours_round);
}

fn turns(n: usize, k: usize) {
    let (mut a, mut b) = (vec![1u8; n], vec![1u8; n]);
    let times = (1 << 22) / n;
    let rust = || (0..times).for_each(|_| black_box(&mut a[..]).rotate_left(black_box(k)));
    let ours = || (0..times).for_each(|_| ours::turn(black_box(&mut b[..]), black_box(k)));
    beside(&format!("turn of {n} by {k}"), times as f64, rust, ours);
}

fn main() {
    println!("{:<40} {:>10} {:>10} {:>7} {:>12}", "", "Rust ns", "ours ns", "ratio", "least ratio");
    for depth in [1, 64, 4096] {
        operations(depth, 0, 4096, 1, "write of 4,096 in one piece");
    }
    for depth in [1, 64, 4096] {
        operations(depth, 65_536 - 4096, 8192, 2, "write of 8,192 in two pieces");
    }
    // A table turns by whole blocks; the turns by 256 and by 1 are of the function by itself.
    for (n, k) in [(512, 256), (4096, 512), (8192, 4096), (8192, 512), (65_536, 512), (65_536, 32_768), (4096, 1), (65_536, 1)] {
        turns(n, k);
    }
}
