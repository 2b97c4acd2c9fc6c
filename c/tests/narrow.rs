// Compare-exchanges of 8 and 16 bits, also by negative values. All counts are right.
#![no_std]
#![no_main]
#[path = "../../examples/rust/wathread.rs"]
mod wathread;
use core::cell::UnsafeCell;
use core::sync::atomic::{AtomicI16, AtomicI8, AtomicU16, AtomicU8, Ordering::*};
use wathread::{join, spawn};

const FREE: i8 = -1;

struct Count {
    lock: AtomicI8,
    value: UnsafeCell<i32>,
}

unsafe impl Sync for Count {}

static COUNT: Count = Count { lock: AtomicI8::new(FREE), value: UnsafeCell::new(0) };
static BYTE: AtomicU8 = AtomicU8::new(254);
static WORD: AtomicU16 = AtomicU16::new(65534);
static SIGNED: AtomicI16 = AtomicI16::new(-2);
static ZEROS: (AtomicU8, AtomicI8, AtomicU16, AtomicI16) =
    (AtomicU8::new(0), AtomicI8::new(0), AtomicU16::new(0), AtomicI16::new(0));

extern "C" fn body(thread: i32) {
    while COUNT.lock.compare_exchange(FREE, thread as i8, Acquire, Relaxed).is_err() {}
    unsafe { *COUNT.value.get() += 1 };
    COUNT.lock.store(FREE, Release);
    let _ = BYTE.fetch_update(SeqCst, SeqCst, |value| Some(value.wrapping_add(1)));
    let _ = WORD.fetch_update(SeqCst, SeqCst, |value| Some(value.wrapping_add(1)));
    let _ = SIGNED.fetch_update(SeqCst, SeqCst, |value| Some(value + 1));
}

#[export_name = "__main_void"]
pub extern "C" fn main() -> i32 {
    let threads = [spawn(body, 1), spawn(body, 2)];
    for thread in threads {
        join(thread);
    }
    assert!(unsafe { *COUNT.value.get() } == 2);
    assert!(BYTE.load(SeqCst) == 0 && WORD.load(SeqCst) == 0 && SIGNED.load(SeqCst) == 0);
    assert!(ZEROS.0.compare_exchange(0, 1, SeqCst, SeqCst) == Ok(0));
    assert!(ZEROS.0.compare_exchange(0, 1, SeqCst, SeqCst) == Err(1));
    assert!(ZEROS.1.compare_exchange(0, -3, SeqCst, SeqCst) == Ok(0));
    assert!(ZEROS.1.swap(0, SeqCst) == -3);
    assert!(ZEROS.2.compare_exchange(0, 1, SeqCst, SeqCst) == Ok(0));
    assert!(ZEROS.2.compare_exchange(0, 1, SeqCst, SeqCst) == Err(1));
    assert!(ZEROS.3.compare_exchange(0, -3, SeqCst, SeqCst) == Ok(0));
    assert!(ZEROS.3.compare_exchange(0, 1, SeqCst, SeqCst) == Err(-3));
    7
}
