//! The work of `bench desk` with a mutex, a condition variable and nothing proved: what it is compared with. It is no
//! part of the product.
//!
//! The arguments are `alone` (one thread notifies where nobody is asleep) or `turns` (two threads hand a turn to one
//! another), and the number of calls or of turns of each thread, 1 to 90,000.

use std::sync::{Condvar, Mutex};
use std::time::Instant;

/// One entry of the log, about as large as one of the product's.
#[allow(dead_code)]
#[derive(Clone, Copy)]
struct Entry {
    thread: u32,
    kind: u32,
    addr: u64,
    value: u64,
    expected: u64,
    reply: u64,
}

/// What lies under the lock: whose turn it is, who is asleep, and the log with its room reserved.
struct State {
    turn: u32,
    sleepers: Vec<u32>,
    log: Vec<Entry>,
}

/// The state, and what tells of its changes.
struct Table {
    state: Mutex<State>,
    changed: Condvar,
}

/// The most entries of the log.
const MOST_ENTRIES: usize = 1_000_000;

/// Enters something.
fn enter(state: &mut State, thread: u32, kind: u32, value: u64) {
    state.log.push(Entry { thread, kind, addr: 0, value, expected: 0, reply: 0 });
}

/// Wakes one sleeper, and answers how many were woken.
fn notify(table: &Table, thread: u32) -> u64 {
    let mut state = table.state.lock().unwrap();
    let woken = u64::from(state.sleepers.pop().is_some());
    enter(&mut state, thread, 0, 1);
    enter(&mut state, thread, 1, woken);
    drop(state);
    table.changed.notify_all();
    woken
}

/// Sleeps while it is the other thread's turn.
fn wait(table: &Table, thread: u32) {
    let mut state = table.state.lock().unwrap();
    enter(&mut state, thread, 2, 0);
    if state.turn != thread {
        state.sleepers.push(thread);
        state = table.changed.wait_while(state, |state| state.sleepers.contains(&thread)).unwrap();
    }
    enter(&mut state, thread, 1, 0);
    drop(state);
    table.changed.notify_all();
}

/// Gives the turn to the other thread.
fn give(table: &Table, thread: u32) {
    let mut state = table.state.lock().unwrap();
    state.turn = 1 - thread;
    enter(&mut state, thread, 3, u64::from(1 - thread));
}

/// The turns of one thread.
fn take_turns(table: &Table, thread: u32, times: u32) {
    for _ in 0..times {
        wait(table, thread);
        give(table, thread);
        std::hint::black_box(notify(table, thread));
    }
}

fn main() {
    let words: Vec<String> = std::env::args().collect();
    let times: u32 = words[2].parse().unwrap();
    let state = State { turn: 0, sleepers: Vec::with_capacity(2), log: Vec::with_capacity(MOST_ENTRIES) };
    let table = Table { state: Mutex::new(state), changed: Condvar::new() };
    let start = Instant::now();
    if words[1] == "turns" {
        std::thread::scope(|scope| {
            scope.spawn(|| take_turns(&table, 1, times));
            take_turns(&table, 0, times);
        });
    } else {
        for _ in 0..times {
            std::hint::black_box(notify(&table, 0));
        }
    }
    let nanos = start.elapsed().as_nanos();
    println!("entries {}", table.state.lock().unwrap().log.len());
    if words.get(3).is_some_and(|word| word == "time") {
        println!("{} nanoseconds each", nanos / u128::from(times));
    }
}
