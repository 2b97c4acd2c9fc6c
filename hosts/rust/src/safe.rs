//! The calls with slices in place of pointers, and a [`Result`] in place of a status. They may be made on several
//! threads at once.
use crate::*;
use std::fmt;

const FIRST_TEXT: usize = 1 << 14;
const FIRST_RECORD: usize = 1 << 15;
const FIRST_MEMORY: usize = 1 << 17;

/// Why a call gave nothing. `object` is the object of JSON that says so.
#[derive(Debug, Clone, PartialEq, Eq)]
#[non_exhaustive]
pub enum Error {
    /// The bytes are no valid module's.
    Module {
        /// Whether it can't be read (`read`), or isn't valid (`validity`).
        stage: Stage,
        /// The kind of the first fault, by the tables of docs/LIMITS.md.
        number: u64,
        /// Where a module can't be read.
        offset: Option<u64>,
        /// The function in whose body it isn't valid.
        function: Option<u64>,
        /// The instruction there.
        instruction: Option<u64>,
        /// The object.
        object: String,
    },
    /// No such function is exported, or the arguments don't fit, or a number is out of its range.
    Call {
        /// The words.
        fault: String,
        /// The object.
        object: String,
    },
    /// The bytes are no record's, or it is of no run of the module.
    Record {
        /// The words.
        fault: String,
        /// The first wrong line, where one is named.
        line: Option<u64>,
        /// The object.
        object: String,
    },
    /// Bytes don't lie within an instance's memory, or can't be the whole of it.
    Bounds,
    /// The system refused memory.
    Memory,
}

/// At which stage a module is refused.
#[derive(Debug, Clone, Copy, PartialEq, Eq)]
#[allow(missing_docs)]
pub enum Stage {
    Read,
    Validity,
}

impl fmt::Display for Error {
    fn fmt(&self, to: &mut fmt::Formatter<'_>) -> fmt::Result {
        match self {
            Error::Module { stage: Stage::Read, number, offset, .. } => {
                write!(to, "module refused: read {} at {}", number, offset.unwrap_or(0))
            }
            Error::Module { number, function: Some(function), instruction: Some(instruction), .. } => {
                write!(to, "module refused: validity {} in function {} at {}", number, function, instruction)
            }
            Error::Module { number, .. } => write!(to, "module refused: validity {}", number),
            Error::Call { fault, .. } => write!(to, "call refused: {}", fault),
            Error::Record { fault, .. } => write!(to, "record refused: {}", fault),
            Error::Bounds => write!(to, "out of the memory's bounds"),
            Error::Memory => write!(to, "no memory"),
        }
    }
}

impl std::error::Error for Error {}

impl Error {
    fn of(status: u32, object: String) -> Error {
        match status {
            WATHREAD_NO_MODULE => Error::Module {
                stage: if text_in(&object, "stage") == "read" { Stage::Read } else { Stage::Validity },
                number: number_in(&object, "number").unwrap_or(0),
                offset: number_in(&object, "offset"),
                function: number_in(&object, "function"),
                instruction: number_in(&object, "instruction"),
                object,
            },
            WATHREAD_NO_CALL => Error::Call { fault: text_in(&object, "fault").to_string(), object },
            WATHREAD_NO_RECORD => {
                let (fault, line) = (text_in(&object, "fault").to_string(), number_in(&object, "line"));
                Error::Record { fault, line, object }
            }
            _ => Error::Memory,
        }
    }

    pub(crate) fn out_of_range() -> Error {
        let object = r#"{"status":3,"refused":{"stage":"call","fault":"fuel or limit out of range"}}"#;
        Error::of(WATHREAD_NO_CALL, object.to_string())
    }
}

/// What stands behind a name in the object of a refusal, whose texts have no such name within them.
fn behind<'a>(object: &'a str, name: &str) -> Option<&'a str> {
    let before = format!("\"{}\":", name);
    object.find(&before).map(|at| &object[at + before.len()..])
}

fn number_in(object: &str, name: &str) -> Option<u64> {
    let text = behind(object, name)?.trim_start_matches('"');
    let end = text.find(|it: char| !it.is_ascii_digit()).unwrap_or(text.len());
    text[..end].parse().ok()
}

fn text_in<'a>(object: &'a str, name: &str) -> &'a str {
    behind(object, name).and_then(|it| it.strip_prefix('"')).and_then(|it| it.split('"').next()).unwrap_or("")
}

/// How thread 0 ended.
#[derive(Debug, Clone, Copy, PartialEq, Eq, Hash)]
pub enum End {
    /// Its function returned nothing.
    Void,
    /// It returned an i32.
    I32(u32),
    /// It returned an i64.
    I64(u64),
    /// It trapped: docs/LIMITS.md has the numbers.
    Trap(u32),
    /// It was stopped: 1 out of fuel, 2 asleep for good, 3 record full.
    Stop(u32),
}

impl End {
    fn of(answer: &wathread_answer) -> End {
        match answer.kind {
            WATHREAD_I32 => End::I32(answer.value as u32),
            WATHREAD_I64 => End::I64(answer.value),
            WATHREAD_TRAP => End::Trap(answer.number),
            WATHREAD_STOP => End::Stop(answer.number),
            _ => End::Void,
        }
    }
}

impl fmt::Display for End {
    fn fmt(&self, to: &mut fmt::Formatter<'_>) -> fmt::Result {
        match self {
            End::Void => write!(to, "ok"),
            End::I32(value) => write!(to, "ok i32:{}", value),
            End::I64(value) => write!(to, "ok i64:{}", value),
            End::Trap(number) => write!(to, "trap {}", number),
            End::Stop(number) => write!(to, "stop {}", number),
        }
    }
}

/// An argument.
#[derive(Debug, Clone, Copy, PartialEq, Eq)]
#[allow(missing_docs)]
pub enum Word {
    I32(u32),
    I64(u64),
}

/// Who goes on, whenever more than one thread can.
#[derive(Debug, Clone, Copy, PartialEq, Eq)]
pub enum Strategy {
    /// One of the others, by the number of the run.
    Mix,
    /// Anybody.
    Random,
    /// The one with the highest priority; they change at so many points less one, 1 to 32.
    Priorities(u32),
    /// The same one for a long time.
    Spin,
}

/// The options of a run or a search, as the header has them.
#[derive(Debug, Clone, Copy, PartialEq, Eq)]
#[allow(missing_docs)]
pub struct Options {
    pub seed: u64,
    pub run: u64,
    pub fuel: u64,
    pub limit: u32,
    pub strategy: Strategy,
    pub states: u32,
    pub dump: u32,
}

impl Default for Options {
    fn default() -> Options {
        let it = WATHREAD_OPTIONS;
        let (seed, run, fuel, limit, states, dump) = (it.seed, it.run, it.fuel, it.limit, it.states, it.dump);
        Options { seed, run, fuel, limit, strategy: Strategy::Mix, states, dump }
    }
}

impl Options {
    pub(crate) fn raw(&self) -> wathread_options {
        let (strategy, depth) = match self.strategy {
            Strategy::Mix => (WATHREAD_MIX, WATHREAD_OPTIONS.depth),
            Strategy::Random => (WATHREAD_RANDOM, WATHREAD_OPTIONS.depth),
            Strategy::Priorities(depth) => (WATHREAD_PRIORITIES, depth),
            Strategy::Spin => (WATHREAD_SPIN, WATHREAD_OPTIONS.depth),
        };
        let Options { seed, run, fuel, limit, states, dump, .. } = *self;
        wathread_options { seed, run, fuel, limit, strategy, depth, states, dump }
    }
}

/// A run. Where `is_well` is false a thread ended in a trap or a stop.
#[derive(Debug, Clone, PartialEq, Eq)]
pub struct Run {
    /// Whether all threads ended well.
    pub is_well: bool,
    /// How thread 0 ended.
    pub end: End,
    /// How many units it spent.
    pub units: u64,
    /// The record, or nothing where it wasn't wanted.
    pub record: Vec<u8>,
}

/// Whether a run's record is given.
#[derive(Debug, Clone, Copy, PartialEq, Eq)]
#[allow(missing_docs)]
pub enum Record {
    Kept,
    Dropped,
}

/// Whether a replay gives the memory's bytes.
#[derive(Debug, Clone, Copy, PartialEq, Eq)]
#[allow(missing_docs)]
pub enum Memory {
    Given,
    Left,
}

/// A run that was made again.
#[derive(Debug, Clone, PartialEq, Eq)]
pub struct Replay {
    /// Whether all threads ended well.
    pub is_well: bool,
    /// What became of each thread, an object of JSON.
    pub object: String,
    /// The memory, or nothing where it was left.
    pub memory: Vec<u8>,
}

/// A search through every order.
#[derive(Debug, Clone, PartialEq, Eq)]
pub struct Search {
    /// Whether all endings are known and well.
    pub is_well: bool,
    /// Its object of JSON.
    pub object: String,
}

impl Search {
    /// Whether no run by the call ends otherwise than the endings of the object.
    pub fn is_complete(&self) -> bool {
        text_in(&self.object, "verdict") == "all"
    }
}

pub(crate) fn raw_words(args: &[Word]) -> Vec<wathread_word> {
    let raw = |it: &Word| match *it {
        Word::I32(value) => wathread_word { bits: value.into(), is_wide: 0 },
        Word::I64(value) => wathread_word { bits: value, is_wide: 1 },
    };
    args.iter().map(raw).collect()
}

/// Makes a call that writes a text, once more where that wants more room. Gives whether all is well, and its object.
pub(crate) fn with_text(mut call: impl FnMut(&mut [u8], &mut wathread_answer) -> u32) -> Result<(bool, String), Error> {
    let (mut text, mut answer) = (vec![0; FIRST_TEXT], wathread_answer::default());
    let mut status = call(&mut text, &mut answer);
    while status != WATHREAD_FAILED && answer.text > text.len() {
        text.resize(answer.text, 0);
        status = call(&mut text, &mut answer);
    }
    text.truncate(answer.text.saturating_sub(1));
    let object = String::from_utf8_lossy(&text).into_owned();
    if status > WATHREAD_ENDED {
        return Err(Error::of(status, object));
    }
    Ok((status == WATHREAD_WELL, object))
}

/// Reads and validates a module, and gives its object of JSON.
pub fn check(module: &[u8]) -> Result<String, Error> {
    let made = with_text(|text, answer| {
        // SAFETY: a slice's pointer isn't null, and what is written overlaps nothing, since it is borrowed for that.
        unsafe { wathread_check(module.as_ptr(), module.len(), text.as_mut_ptr(), text.len(), answer) }
    });
    made.map(|(_, object)| object)
}

/// Makes the run of `options.run` by `options.seed`, the same one on every machine.
pub fn run(module: &[u8], name: &str, args: &[Word], options: &Options, record: Record) -> Result<Run, Error> {
    let (words, raw) = (raw_words(args), options.raw());
    let call = |bytes: &mut [u8], answer: &mut wathread_answer| {
        // SAFETY: as of check; the raw words and options live behind the call.
        unsafe {
            wathread_run(
                module.as_ptr(),
                module.len(),
                name.as_ptr(),
                name.len(),
                words.as_ptr(),
                words.len(),
                &raw,
                bytes.as_mut_ptr(),
                bytes.len(),
                answer,
            )
        }
    };
    made_by(record, call).map_err(|status| refusal(status, module, name, args))
}

/// Makes a run, once more where its record wants more room; or gives the status from 2 on.
pub(crate) fn made_by(
    record: Record,
    mut call: impl FnMut(&mut [u8], &mut wathread_answer) -> u32,
) -> Result<Run, u32> {
    let is_kept = record == Record::Kept;
    let (mut bytes, mut answer) = (vec![0; if is_kept { FIRST_RECORD } else { 0 }], wathread_answer::default());
    loop {
        let status = call(&mut bytes, &mut answer);
        if status > WATHREAD_ENDED {
            return Err(status);
        }
        if !is_kept || answer.bytes <= bytes.len() {
            bytes.truncate(answer.bytes);
            let (is_well, end) = (status == WATHREAD_WELL, End::of(&answer));
            return Ok(Run { is_well, end, units: answer.units, record: bytes });
        }
        bytes.resize(answer.bytes, 0);
    }
}

/// What a run was refused for, which has no object: a check has that of a module, a search that of a call.
fn refusal(status: u32, module: &[u8], name: &str, args: &[Word]) -> Error {
    if status == WATHREAD_FAILED {
        return Error::Memory;
    }
    let none = Options { states: 0, ..Options::default() };
    match check(module).and_then(|_| search(module, name, args, &none)) {
        Ok(_) => Error::out_of_range(),
        Err(fault) => fault,
    }
}

/// Makes the run of a record again.
pub fn replay(module: &[u8], record: &[u8], memory: Memory) -> Result<Replay, Error> {
    let is_given = memory == Memory::Given;
    let (mut bytes, mut wanted) = (vec![0; if is_given { FIRST_MEMORY } else { 0 }], 0);
    loop {
        let (is_well, object) = with_text(|text, answer| {
            // SAFETY: as of check.
            let status = unsafe {
                wathread_replay(
                    module.as_ptr(),
                    module.len(),
                    record.as_ptr(),
                    record.len(),
                    bytes.as_mut_ptr(),
                    bytes.len(),
                    text.as_mut_ptr(),
                    text.len(),
                    answer,
                )
            };
            wanted = answer.bytes;
            status
        })?;
        if !is_given || wanted <= bytes.len() {
            bytes.truncate(wanted);
            return Ok(Replay { is_well, object, memory: bytes });
        }
        bytes.resize(wanted, 0);
    }
}

/// Goes through every order of the threads' entries, and tells all endings.
pub fn search(module: &[u8], name: &str, args: &[Word], options: &Options) -> Result<Search, Error> {
    let (words, raw) = (raw_words(args), options.raw());
    let (is_well, object) = with_text(|text, answer| {
        // SAFETY: as of run.
        unsafe {
            wathread_search(
                module.as_ptr(),
                module.len(),
                name.as_ptr(),
                name.len(),
                words.as_ptr(),
                words.len(),
                &raw,
                text.as_mut_ptr(),
                text.len(),
                answer,
            )
        }
    })?;
    Ok(Search { is_well, object })
}
