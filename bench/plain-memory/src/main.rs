//! The work of `bench memory` over bytes and a log under a mutex, with nothing proved: what it is compared with. It is
//! no part of the product.
//!
//! The arguments are the number of threads, 1 to 16, and the number of accesses in all, 1 to 1,000,000.

use std::sync::Mutex;
use std::time::Instant;

/// How a read-modify-write makes the new value.
#[allow(dead_code)]
#[derive(Clone, Copy)]
enum RmwOp {
    Add,
    Sub,
    And,
    Or,
    Xor,
    Xchg,
}

/// What a thread asks of the desk.
#[allow(dead_code)]
#[derive(Clone, Copy)]
enum Question {
    Wait { addr: u64, width: u8, expected: u64, timeout: i64 },
    Notify { addr: u64, count: u32 },
    Spawn { arg: u32 },
    Leave,
}

/// What the desk answers.
#[allow(dead_code)]
#[derive(Clone, Copy)]
enum Answer {
    Number(u32),
    ForGood,
}

/// What a thread wants of the memory.
#[allow(dead_code)]
#[derive(Clone, Copy)]
enum Event {
    Size,
    Grow(u32),
    Load { addr: u64, width: u8, reach: u64 },
    Store { addr: u64, width: u8, reach: u64, value: u64 },
    Rmw { op: RmwOp, addr: u64, width: u8, value: u64 },
    Cmpxchg { addr: u64, width: u8, expected: u64, replacement: u64 },
    Ask(Question),
    Told(Answer),
}

/// What an event gets.
#[allow(dead_code)]
#[derive(Clone, Copy)]
enum Reply {
    Value(u64),
    Done,
    OutOfBounds,
    Again,
    Full,
}

/// One entry of the log.
#[allow(dead_code)]
#[derive(Clone, Copy)]
struct Entry {
    thread: u32,
    event: Event,
    reply: Reply,
}

/// The bytes, and the log with its room reserved.
type Memory = Mutex<(Vec<u8>, Vec<Entry>)>;

/// The most entries of the log.
const MOST_ENTRIES: usize = 1_000_000;

/// The number in some bytes, the lowest first.
fn number_at(bytes: &[u8], addr: u64, width: u8) -> u64 {
    let part = &bytes[addr as usize..addr as usize + usize::from(width)];
    part.iter().rev().fold(0, |number, byte| number << 8 | u64::from(*byte))
}

/// Writes a number to some bytes, the lowest first.
fn write(bytes: &mut [u8], addr: u64, width: u8, value: u64) {
    let part = &mut bytes[addr as usize..addr as usize + usize::from(width)];
    part.copy_from_slice(&value.to_le_bytes()[..usize::from(width)]);
}

/// Makes an event on the bytes; the two kinds that the work has.
fn step(bytes: &mut [u8], event: &Event) -> Reply {
    match *event {
        Event::Load { addr, width, reach } if reach <= bytes.len() as u64 => {
            Reply::Value(number_at(bytes, addr, width))
        }
        Event::Rmw { op: RmwOp::Add, addr, width: 8, value } if addr + 8 <= bytes.len() as u64 => {
            let old = number_at(bytes, addr, 8);
            write(bytes, addr, 8, old.wrapping_add(value));
            Reply::Value(old)
        }
        _ => Reply::OutOfBounds,
    }
}

/// Makes one event under the lock, and enters it in the log.
fn access(memory: &Memory, thread: u32, event: Event) -> Reply {
    let mut guard = memory.lock().unwrap();
    let (bytes, log) = &mut *guard;
    if log.len() >= MOST_ENTRIES {
        return Reply::Full;
    }
    let reply = step(bytes, &event);
    log.push(Entry { thread, event, reply });
    reply
}

/// The accesses of one thread: alternately it adds 1 to its own word of 8 bytes, and loads it.
fn work(memory: &Memory, thread: u32, times: u32) {
    let addr = 64 * u64::from(thread);
    for i in 0..times {
        let event = if i % 2 == 0 {
            Event::Rmw { op: RmwOp::Add, addr, width: 8, value: 1 }
        } else {
            Event::Load { addr, width: 8, reach: addr + 8 }
        };
        let _ = std::hint::black_box(access(memory, thread, event));
    }
}

fn main() {
    let words: Vec<String> = std::env::args().collect();
    let number = |i: usize| words.get(i).and_then(|word| word.parse::<u32>().ok());
    let (threads, accesses) = match (number(1), number(2)) {
        (Some(t @ 1..=16), Some(n @ 1..=1_000_000)) => (t, n),
        _ => panic!("plain-memory THREADS ACCESSES [time]"),
    };
    let memory = Mutex::new((vec![0; 65536], Vec::with_capacity(MOST_ENTRIES + 48)));
    let start = Instant::now();
    std::thread::scope(|scope| {
        for i in 0..threads {
            let memory = &memory;
            let times = accesses / threads + u32::from(i < accesses % threads);
            scope.spawn(move || work(memory, i, times));
        }
    });
    let nanos = start.elapsed().as_nanos();
    let (_, log) = memory.into_inner().unwrap();
    println!("accesses {} by {} threads", log.len(), threads);
    if words.get(3).is_some_and(|word| word == "time") {
        println!("nanoseconds {nanos}");
    }
}
