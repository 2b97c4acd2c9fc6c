//! The declarations are those of the header: a small program in C says what that has.
use std::env;
use std::fmt::Write;
use std::mem::{size_of, MaybeUninit};
use std::path::Path;
use std::process::Command;
use wathread_sys::*;

/// Adds the offsets of the fields of a struct.
macro_rules! fields {
    ($to:ident, $type:ident, $($field:ident)*) => {
        writeln!($to, "{} {}", stringify!($type), size_of::<$type>()).unwrap();
        $({
            let it = MaybeUninit::<$type>::uninit();
            // SAFETY: the field's place is taken, and nothing is read.
            let field = unsafe { std::ptr::addr_of!((*it.as_ptr()).$field) };
            let offset = field as usize - it.as_ptr() as usize;
            writeln!($to, "{}.{} {}", stringify!($type), stringify!($field), offset).unwrap();
        })*
    };
}

macro_rules! numbers {
    ($to:ident, $($name:ident)*) => { $(writeln!($to, "{} {}", stringify!($name), $name).unwrap();)* };
}

fn said_in_rust() -> String {
    let mut to = String::new();
    fields!(to, wathread_answer, text bytes units value kind number);
    fields!(to, wathread_word, bits is_wide);
    fields!(to, wathread_options, seed run fuel limit strategy depth states dump);
    fields!(to, wathread_module, at is_open);
    fields!(to, wathread_instance, at is_open);
    numbers!(to, WATHREAD_WELL WATHREAD_ENDED WATHREAD_NO_MODULE WATHREAD_NO_CALL WATHREAD_NO_RECORD WATHREAD_FAILED);
    numbers!(to, WATHREAD_NONE WATHREAD_VOID WATHREAD_I32 WATHREAD_I64 WATHREAD_TRAP WATHREAD_STOP);
    numbers!(to, WATHREAD_MIX WATHREAD_RANDOM WATHREAD_PRIORITIES WATHREAD_SPIN);
    let it = WATHREAD_OPTIONS;
    let (seed, run, fuel) = (it.seed, it.run, it.fuel);
    let (limit, strategy, depth, states, dump) = (it.limit, it.strategy, it.depth, it.states, it.dump);
    writeln!(to, "plain {seed} {run} {fuel} {limit} {strategy} {depth} {states} {dump}").unwrap();
    to
}

fn said_in_c() -> String {
    let top = Path::new(env!("CARGO_MANIFEST_DIR"));
    let include = env::var("WATHREAD_INCLUDE_DIR").map_or_else(|_| top.join("../../include"), Into::into);
    let program = Path::new(env!("CARGO_TARGET_TMPDIR")).join("layout");
    let compiler = env::var("CC").unwrap_or_else(|_| "cc".into());
    let mut command = Command::new(compiler);
    command.arg("-I").arg(include).arg(top.join("tests/layout.c")).arg("-o").arg(&program);
    assert!(command.status().expect("a C compiler").success());
    String::from_utf8(Command::new(program).output().unwrap().stdout).unwrap()
}

#[test]
fn sizes_offsets_and_numbers_are_those_of_the_header() {
    assert_eq!(said_in_rust(), said_in_c());
}
