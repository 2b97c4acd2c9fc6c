// A mutex of one word, with a value that only who holds it comes to: 0 free, 1 held, 2 held and somebody may sleep.
#![no_std]
#![no_main]
mod wathread;

use core::cell::UnsafeCell;
use core::sync::atomic::{AtomicI32, Ordering::SeqCst};
use wathread::{join, notify_one, spawn, wait_while};

struct Mutex {
    state: AtomicI32,
    value: UnsafeCell<i32>,
}

unsafe impl Sync for Mutex {}

impl Mutex {
    fn with(&self, change: impl FnOnce(&mut i32)) {
        if self.state.compare_exchange(0, 1, SeqCst, SeqCst).is_err() {
            while self.state.swap(2, SeqCst) != 0 {
                wait_while(&self.state, 2);
            }
        }
        change(unsafe { &mut *self.value.get() });
        if self.state.swap(0, SeqCst) == 2 {
            notify_one(&self.state);
        }
    }
}

static MUTEX: Mutex = Mutex { state: AtomicI32::new(0), value: UnsafeCell::new(0) };

extern "C" fn body(amount: i32) {
    MUTEX.with(|value| *value += amount);
}

#[export_name = "__main_void"]
pub extern "C" fn main() -> i32 {
    let threads = [spawn(body, 1), spawn(body, 2)];
    for thread in threads {
        join(thread);
    }
    MUTEX.with(|value| assert!(*value == 3));
    0
}
