// What a `#![no_std]` program of wathread has: threads, waiting and waking, and an end where it panics.
#![allow(dead_code)]
use core::fmt::{self, Write};
use core::sync::atomic::AtomicI32;

extern "C" {
    fn thread_spawn(body: extern "C" fn(i32), arg: i32) -> i32;
    fn thread_join(thread: i32);
    fn thread_self() -> i32;
    fn wathread_wait(word: *const AtomicI32, value: i32, nanoseconds: i64) -> i32;
    fn wathread_notify(word: *const AtomicI32, most: i32) -> i32;
    fn wathread_print(text: *const u8, bytes: usize);
}

/// Starts a thread that calls `body(arg)`, and answers its number: the t1, t2 of a trace.
pub fn spawn(body: extern "C" fn(i32), arg: i32) -> i32 {
    unsafe { thread_spawn(body, arg) }
}

/// Waits until a thread has ended.
pub fn join(thread: i32) {
    unsafe { thread_join(thread) }
}

/// The number of the thread that asks, 0 in `main`.
pub fn number() -> i32 {
    unsafe { thread_self() }
}

/// Sleeps until a notify of the same word, if it is `value`: to look and to fall asleep is one step.
pub fn wait_while(word: &AtomicI32, value: i32) {
    unsafe { wathread_wait(word, value, -1) };
}

/// Wakes one thread that sleeps on the word.
pub fn notify_one(word: &AtomicI32) {
    unsafe { wathread_notify(word, 1) };
}

/// Wakes all of them.
pub fn notify_all(word: &AtomicI32) {
    unsafe { wathread_notify(word, -1) };
}

/// What is printed stays with its thread, as with `printf` in C.
pub struct Out;

impl Write for Out {
    fn write_str(&mut self, text: &str) -> fmt::Result {
        unsafe { wathread_print(text.as_ptr(), text.len()) };
        Ok(())
    }
}

#[panic_handler]
fn panic(info: &core::panic::PanicInfo) -> ! {
    let _ = write!(Out, "{}\n", info);
    core::arch::wasm32::unreachable()
}
