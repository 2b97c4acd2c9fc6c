//! Modules that stay, and instances, whose memory stays from one call to the next.
//!
//! ```
//! use wathread_sys::kept::Module;
//! use wathread_sys::safe::{End, Options, Record};
//!
//! # fn main() -> Result<(), Box<dyn std::error::Error>> {
//! # let module = std::fs::read(concat!(env!("CARGO_MANIFEST_DIR"), "/../../examples/atomic_add.wasm"))?;
//! let mut counter = Module::open(&module)?.instance()?;
//! counter.call("f", &[], &Options::default(), Record::Dropped)?;
//! let second = counter.call("f", &[], &Options::default(), Record::Dropped)?;
//! assert_eq!((second.end, counter.read(0, 1)?), (End::I32(5), vec![10]));
//! # Ok(())
//! # }
//! ```
use crate::safe::{made_by, raw_words, with_text, Error, Options, Record, Replay, Run, Search, Word};
use crate::*;
use std::ptr::null_mut;

const PAGE: usize = 1 << 16;

/// A module that is read and validated once. Another one of it, for another thread say, is made by [`Module::share`].
#[derive(Debug)]
pub struct Module {
    raw: wathread_module,
}

// SAFETY: a handle may go to another thread, and no two have one, since each call borrows it alone.
unsafe impl Send for Module {}

/// A module with a memory that stays between calls. It has a share in the module.
#[derive(Debug)]
pub struct Instance {
    raw: wathread_instance,
}

// SAFETY: as of a module.
unsafe impl Send for Instance {}

/// What a call without a text came to, of an open handle.
fn done(status: u32) -> Result<(), Error> {
    match status {
        WATHREAD_WELL => Ok(()),
        WATHREAD_FAILED => Err(Error::Memory),
        _ => Err(Error::Bounds),
    }
}

impl Module {
    fn closed() -> Module {
        Module { raw: wathread_module { at: null_mut(), is_open: 0 } }
    }

    /// Reads and validates a module.
    pub fn open(module: &[u8]) -> Result<Module, Error> {
        let mut made = Module::closed();
        with_text(|text, answer| {
            // SAFETY: a slice's pointer isn't null, and what is written overlaps nothing, since it is borrowed for that.
            unsafe {
                let to = &mut made.raw;
                wathread_module_open(module.as_ptr(), module.len(), to, text.as_mut_ptr(), text.len(), answer)
            }
        })?;
        Ok(made)
    }

    /// The same module.
    pub fn share(&mut self) -> Result<Module, Error> {
        let mut other = Module::closed();
        // SAFETY: as of open.
        done(unsafe { wathread_module_share(&mut self.raw, &mut other.raw) })?;
        Ok(other)
    }

    /// An instance, whose memory is the one with which the module begins.
    pub fn instance(&mut self) -> Result<Instance, Error> {
        let mut made = Instance { raw: wathread_instance { at: null_mut(), is_open: 0 } };
        // SAFETY: as of open.
        done(unsafe { wathread_instance_open(&mut self.raw, &mut made.raw) })?;
        Ok(made)
    }
}

impl Drop for Module {
    fn drop(&mut self) {
        // SAFETY: as of open.
        unsafe { wathread_module_free(&mut self.raw) }
    }
}

impl Instance {
    /// How many pages of 65,536 bytes the memory has.
    pub fn pages(&mut self) -> u32 {
        // SAFETY: as of Module::open, and so below.
        unsafe { wathread_instance_pages(&mut self.raw) }
    }

    /// Bytes of the memory from an address on.
    pub fn read(&mut self, address: u32, count: usize) -> Result<Vec<u8>, Error> {
        let mut bytes = vec![0; count];
        done(unsafe { wathread_instance_read(&mut self.raw, address, bytes.as_mut_ptr(), count) })?;
        Ok(bytes)
    }

    /// Writes bytes into the memory from an address on.
    pub fn write(&mut self, address: u32, bytes: &[u8]) -> Result<(), Error> {
        done(unsafe { wathread_instance_write(&mut self.raw, address, bytes.as_ptr(), bytes.len()) })
    }

    /// The whole memory.
    pub fn memory(&mut self) -> Result<Vec<u8>, Error> {
        let count = self.pages() as usize * PAGE;
        self.read(0, count)
    }

    /// Makes bytes the whole memory: as many whole pages as the module's memory can have.
    pub fn set_memory(&mut self, bytes: &[u8]) -> Result<(), Error> {
        done(unsafe { wathread_instance_set(&mut self.raw, bytes.as_ptr(), bytes.len()) })
    }

    /// Makes the run of `options.run` by `options.seed` that begins with this memory, which is then what the run left.
    pub fn call(&mut self, name: &str, args: &[Word], options: &Options, record: Record) -> Result<Run, Error> {
        let (words, raw) = (raw_words(args), options.raw());
        let made = made_by(record, |bytes, answer| unsafe {
            wathread_call(
                &mut self.raw,
                name.as_ptr(),
                name.len(),
                words.as_ptr(),
                words.len(),
                &raw,
                bytes.as_mut_ptr(),
                bytes.len(),
                answer,
            )
        });
        made.map_err(|status| self.refusal(status, name, args))
    }

    /// What a call was refused for, which has no object: a search has that.
    fn refusal(&mut self, status: u32, name: &str, args: &[Word]) -> Error {
        if status == WATHREAD_FAILED {
            return Error::Memory;
        }
        let none = Options { states: 0, ..Options::default() };
        self.search(name, args, &none).err().unwrap_or_else(Error::out_of_range)
    }

    /// Makes a call again by its record, which began with just this memory: that is then what the run left.
    pub fn replay(&mut self, record: &[u8]) -> Result<Replay, Error> {
        let (is_well, object) = with_text(|text, answer| unsafe {
            let (at, len) = (record.as_ptr(), record.len());
            wathread_instance_replay(&mut self.raw, at, len, text.as_mut_ptr(), text.len(), answer)
        })?;
        Ok(Replay { is_well, object, memory: Vec::new() })
    }

    /// Goes through every order of a call that begins with this memory, which stays.
    pub fn search(&mut self, name: &str, args: &[Word], options: &Options) -> Result<Search, Error> {
        let (words, raw) = (raw_words(args), options.raw());
        let (is_well, object) = with_text(|text, answer| unsafe {
            wathread_instance_search(
                &mut self.raw,
                name.as_ptr(),
                name.len(),
                words.as_ptr(),
                words.len(),
                &raw,
                text.as_mut_ptr(),
                text.len(),
                answer,
            )
        })?;
        Ok(Search { is_well, object })
    }
}

impl Drop for Instance {
    fn drop(&mut self) {
        // SAFETY: as of Module::open.
        unsafe { wathread_instance_free(&mut self.raw) }
    }
}
