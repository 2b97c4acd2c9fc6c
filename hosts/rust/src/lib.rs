//! wathread for hosts: the declarations of `wathread.h`, and over them the safe module [`safe`].
//!
//! ```
//! use wathread_sys::safe::{check, replay, run, Memory, Options, Record};
//!
//! # fn main() -> Result<(), Box<dyn std::error::Error>> {
//! # let module = std::fs::read(concat!(env!("CARGO_MANIFEST_DIR"), "/../../examples/c/broken_lock.wasm"))?;
//! check(&module)?;
//! let options = Options { seed: 4, run: 13, ..Options::default() };
//! let made = run(&module, "main", &[], &options, Record::Kept)?;
//! println!("{}: a record of {} bytes", made.end, made.record.len());
//! assert_eq!(made.end.to_string(), "ok i32:1");
//! let again = replay(&module, &made.record, Memory::Left)?;
//! assert!(again.object.contains(r#""outcome":{"ok":{"i32":1}}"#));
//! # Ok(())
//! # }
//! ```
//!
//! A module may stay, and an instance's memory from one call to the next: [`kept`].
#![allow(non_camel_case_types)]
#![warn(missing_docs)]

pub mod kept;
pub mod safe;

/// A status: `wathread_status` of the header.
pub type wathread_status = u32;
#[allow(missing_docs)]
mod numbers {
    pub const WATHREAD_WELL: u32 = 0;
    pub const WATHREAD_ENDED: u32 = 1;
    pub const WATHREAD_NO_MODULE: u32 = 2;
    pub const WATHREAD_NO_CALL: u32 = 3;
    pub const WATHREAD_NO_RECORD: u32 = 4;
    pub const WATHREAD_FAILED: u32 = 5;

    pub const WATHREAD_NONE: u32 = 0;
    pub const WATHREAD_VOID: u32 = 1;
    pub const WATHREAD_I32: u32 = 2;
    pub const WATHREAD_I64: u32 = 3;
    pub const WATHREAD_TRAP: u32 = 4;
    pub const WATHREAD_STOP: u32 = 5;

    pub const WATHREAD_MIX: u32 = 0;
    pub const WATHREAD_RANDOM: u32 = 1;
    pub const WATHREAD_PRIORITIES: u32 = 2;
    pub const WATHREAD_SPIN: u32 = 3;
}
pub use numbers::*;

/// What a call answers beside its status.
#[repr(C)]
#[derive(Debug, Clone, Copy, Default, PartialEq, Eq)]
pub struct wathread_answer {
    /// How many bytes the object of JSON has.
    pub text: usize,
    /// How many the record of a run has, or the memory behind a replay.
    pub bytes: usize,
    /// How many units thread 0 spent.
    pub units: u64,
    /// What its function returned.
    pub value: u64,
    /// How it ended.
    pub kind: u32,
    /// The number of a trap or a stop.
    pub number: u32,
}

/// An argument: an i64 where `is_wide` isn't 0, and else an i32.
#[repr(C)]
#[derive(Debug, Clone, Copy, Default, PartialEq, Eq)]
pub struct wathread_word {
    /// The value, of an i32 in the low half.
    pub bits: u64,
    /// Whether it is an i64.
    pub is_wide: u32,
}

/// The options of a run or a search.
#[repr(C)]
#[derive(Debug, Clone, Copy, PartialEq, Eq)]
#[allow(missing_docs)]
pub struct wathread_options {
    pub seed: u64,
    pub run: u64,
    pub fuel: u64,
    pub limit: u32,
    pub strategy: u32,
    pub depth: u32,
    pub states: u32,
    pub dump: u32,
}

/// Options that fit most calls.
pub const WATHREAD_OPTIONS: wathread_options = wathread_options {
    seed: 1,
    run: 1,
    fuel: 10_000_000,
    limit: 10_000,
    strategy: WATHREAD_MIX,
    depth: 3,
    states: 1_000_000,
    dump: 0,
};

/// A handle of a module that stays: closed where it is all zero.
#[repr(C)]
#[derive(Debug)]
#[allow(missing_docs)]
pub struct wathread_module {
    pub at: *mut std::os::raw::c_void,
    pub is_open: u32,
}

/// A handle of an instance: closed where it is all zero.
#[repr(C)]
#[derive(Debug)]
#[allow(missing_docs)]
pub struct wathread_instance {
    pub at: *mut std::os::raw::c_void,
    pub is_open: u32,
}

extern "C" {
    /// Checks a module.
    pub fn wathread_check(
        module: *const u8,
        module_len: usize,
        text: *mut u8,
        text_len: usize,
        answer: *mut wathread_answer,
    ) -> wathread_status;

    /// Makes a run.
    pub fn wathread_run(
        module: *const u8,
        module_len: usize,
        name: *const u8,
        name_len: usize,
        args: *const wathread_word,
        args_count: usize,
        options: *const wathread_options,
        record: *mut u8,
        record_len: usize,
        answer: *mut wathread_answer,
    ) -> wathread_status;

    /// Makes the run of a record again.
    pub fn wathread_replay(
        module: *const u8,
        module_len: usize,
        record: *const u8,
        record_len: usize,
        bytes: *mut u8,
        bytes_len: usize,
        text: *mut u8,
        text_len: usize,
        answer: *mut wathread_answer,
    ) -> wathread_status;

    /// Goes through every order.
    pub fn wathread_search(
        module: *const u8,
        module_len: usize,
        name: *const u8,
        name_len: usize,
        args: *const wathread_word,
        args_count: usize,
        options: *const wathread_options,
        text: *mut u8,
        text_len: usize,
        answer: *mut wathread_answer,
    ) -> wathread_status;

    /// Opens a handle of a module.
    pub fn wathread_module_open(
        module: *const u8,
        module_len: usize,
        to: *mut wathread_module,
        text: *mut u8,
        text_len: usize,
        answer: *mut wathread_answer,
    ) -> wathread_status;

    /// Opens another handle of the same module.
    pub fn wathread_module_share(module: *mut wathread_module, to: *mut wathread_module) -> wathread_status;

    /// Closes a handle.
    pub fn wathread_module_free(module: *mut wathread_module);

    /// Opens a handle of an instance of a module.
    pub fn wathread_instance_open(module: *mut wathread_module, to: *mut wathread_instance) -> wathread_status;

    /// Closes a handle.
    pub fn wathread_instance_free(instance: *mut wathread_instance);

    /// Says how many pages the memory has.
    pub fn wathread_instance_pages(instance: *mut wathread_instance) -> u32;

    /// Reads bytes of the memory.
    pub fn wathread_instance_read(
        instance: *mut wathread_instance,
        address: u32,
        bytes: *mut u8,
        bytes_len: usize,
    ) -> wathread_status;

    /// Writes bytes into the memory.
    pub fn wathread_instance_write(
        instance: *mut wathread_instance,
        address: u32,
        bytes: *const u8,
        bytes_len: usize,
    ) -> wathread_status;

    /// Makes bytes the whole memory.
    pub fn wathread_instance_set(
        instance: *mut wathread_instance,
        bytes: *const u8,
        bytes_len: usize,
    ) -> wathread_status;

    /// Makes a call that begins with the memory, and keeps what it leaves.
    pub fn wathread_call(
        instance: *mut wathread_instance,
        name: *const u8,
        name_len: usize,
        args: *const wathread_word,
        args_count: usize,
        options: *const wathread_options,
        record: *mut u8,
        record_len: usize,
        answer: *mut wathread_answer,
    ) -> wathread_status;

    /// Makes a call again by its record, and keeps what it leaves.
    pub fn wathread_instance_replay(
        instance: *mut wathread_instance,
        record: *const u8,
        record_len: usize,
        text: *mut u8,
        text_len: usize,
        answer: *mut wathread_answer,
    ) -> wathread_status;

    /// Goes through every order of a call that begins with the memory.
    pub fn wathread_instance_search(
        instance: *mut wathread_instance,
        name: *const u8,
        name_len: usize,
        args: *const wathread_word,
        args_count: usize,
        options: *const wathread_options,
        text: *mut u8,
        text_len: usize,
        answer: *mut wathread_answer,
    ) -> wathread_status;
}
