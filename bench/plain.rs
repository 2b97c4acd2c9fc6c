//! The accesses of `bench memory` over atomic words, with nothing proved: what the row of words is compared with. It is no
//! part of the product. Built by `rustc -O`.
//!
//! The arguments are `stores`, `swaps`, `adds`, `ands`, `ors` or `xors`; `turns` (each thread on its own word, in turn with
//! loads), `apart` (each on its own) or `together` (all on one); the number of threads, 1 to 16; and the number of accesses
//! in all. It prints the nanoseconds of all.

use std::hint::black_box;
use std::sync::atomic::{AtomicU64, Ordering::SeqCst};
use std::time::Instant;

/// What a thread does with its word.
#[derive(Clone, Copy)]
enum Change {
    Add,
    Store,
    Swap,
    And,
    Or,
    Xor,
}

/// Changes a word.
fn change_word(word: &AtomicU64, change: Change, round: u64) {
    match change {
        Change::Store => word.store(round, SeqCst),
        Change::Add => drop(black_box(word.fetch_add(1, SeqCst))),
        Change::Swap => drop(black_box(word.swap(round, SeqCst))),
        Change::And => drop(black_box(word.fetch_and(round, SeqCst))),
        Change::Or => drop(black_box(word.fetch_or(round, SeqCst))),
        Change::Xor => drop(black_box(word.fetch_xor(round, SeqCst))),
    }
}

/// The accesses of one thread.
fn perform(word: &AtomicU64, change: Change, loads: bool, times: u64) {
    for round in 0..times {
        if loads && round % 2 == 1 {
            black_box(word.load(SeqCst));
        } else {
            change_word(word, change, round);
        }
    }
}

const USAGE: &str = "plain stores|swaps|adds|ands|ors|xors turns|apart|together THREADS ACCESSES";

fn main() {
    let words: Vec<String> = std::env::args().collect();
    let number = |i: usize| words.get(i).and_then(|word| word.parse::<u64>().ok());
    let change = match words.get(1).map(String::as_str) {
        Some("adds") => Change::Add,
        Some("stores") => Change::Store,
        Some("swaps") => Change::Swap,
        Some("ands") => Change::And,
        Some("ors") => Change::Or,
        Some("xors") => Change::Xor,
        _ => panic!("{USAGE}"),
    };
    let (loads, apart) = match words.get(2).map(String::as_str) {
        Some("turns") => (true, 8),
        Some("apart") => (false, 8),
        Some("together") => (false, 0),
        _ => panic!("{USAGE}"),
    };
    let (threads, accesses) = match (number(3), number(4)) {
        (Some(t @ 1..=16), Some(n)) => (t, n),
        _ => panic!("{USAGE}"),
    };
    let row: Vec<AtomicU64> = (0..8192).map(|_| AtomicU64::new(0)).collect();
    let start = Instant::now();
    std::thread::scope(|scope| {
        for i in 0..threads {
            let word = &row[apart * i as usize + 8];
            scope.spawn(move || perform(word, change, loads, accesses / threads));
        }
    });
    println!("nanoseconds {}", start.elapsed().as_nanos());
}
