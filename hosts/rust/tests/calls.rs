//! The safe calls: what each gives, and what each refusal says.
use std::path::Path;
use wathread_sys::safe::*;

fn example(name: &str) -> Vec<u8> {
    std::fs::read(Path::new(env!("CARGO_MANIFEST_DIR")).join("../../examples").join(name)).unwrap()
}

fn made(module: &[u8], name: &str, args: &[Word]) -> Result<Run, Error> {
    run(module, name, args, &Options::default(), Record::Kept)
}

#[test]
fn a_module_is_checked() {
    assert_eq!(check(&example("atomic_add.wasm")).unwrap(), r#"{"status":0,"functions":1}"#);
}

#[test]
fn a_run_is_replayed() {
    let module = example("atomic_add.wasm");
    let run = made(&module, "f", &[]).unwrap();
    assert_eq!((run.is_well, run.end), (true, End::I32(0)));
    let again = replay(&module, &run.record, Memory::Given).unwrap();
    assert_eq!((again.is_well, again.memory.len(), &again.memory[..2]), (true, 65536, &[5, 0][..]));
    assert!(again.object.contains(r#""outcome":{"ok":{"i32":0}}"#));
    assert!(replay(&module, &run.record, Memory::Left).unwrap().memory.is_empty());
}

#[test]
fn arguments_are_of_a_type() {
    let fac = example("fac.wasm");
    assert_eq!(made(&fac, "fac", &[Word::I64(5)]).unwrap().end, End::I64(120));
    assert_eq!(made(&fac, "fac", &[Word::I32(5)]).unwrap_err().to_string(), "call refused: wrong arguments");
}

#[test]
fn a_long_record_is_whole() {
    let barrier = example("bugs/barrier.wasm");
    let run = made(&barrier, "main", &[]).unwrap();
    assert!(run.record.len() > 1 << 16 && !run.is_well);
    assert!(!replay(&barrier, &run.record, Memory::Left).unwrap().is_well);
}

#[test]
fn a_record_may_be_dropped() {
    let module = example("atomic_add.wasm");
    let run = run(&module, "f", &[], &Options::default(), Record::Dropped).unwrap();
    assert_eq!((run.end, run.record.len()), (End::I32(0), 0));
}

#[test]
fn fuel_ends() {
    let options = Options { fuel: 2, ..Options::default() };
    let run = run(&example("atomic_add.wasm"), "f", &[], &options, Record::Dropped).unwrap();
    assert_eq!((run.is_well, run.end, run.units), (false, End::Stop(1), 2));
}

#[test]
fn every_order_is_gone_through() {
    let peterson = example("search/peterson.wasm");
    let found = search(&peterson, "f", &[Word::I32(1)], &Options::default()).unwrap();
    assert!(found.is_well && found.is_complete() && found.object.contains(r#""states":115"#));
    let few = Options { states: 10, ..Options::default() };
    assert!(!search(&peterson, "f", &[Word::I32(1)], &few).unwrap().is_complete());
}

#[test]
fn a_module_is_refused_with_kind_and_place() {
    let module = &example("atomic_add.wasm")[..5];
    let none = Options::default();
    let (run, search) = (made(module, "f", &[]), search(module, "f", &[], &none));
    for fault in [check(module).unwrap_err(), run.unwrap_err(), search.unwrap_err()] {
        assert_eq!(fault.to_string(), "module refused: read 1 at 5");
        assert!(matches!(fault, Error::Module { stage: Stage::Read, number: 1, offset: Some(5), function: None, .. }));
    }
    assert!(matches!(check(&[]).unwrap_err(), Error::Module { number: 1, offset: Some(0), .. }));
}

#[test]
fn a_call_is_refused() {
    let module = example("atomic_add.wasm");
    let said = |fault: Error| fault.to_string();
    assert_eq!(said(made(&module, "g", &[]).unwrap_err()), "call refused: unknown export");
    assert_eq!(said(made(&module, "f", &[Word::I32(1)]).unwrap_err()), "call refused: wrong arguments");
    let none = Options { limit: 0, ..Options::default() };
    let fault = run(&module, "f", &[], &none, Record::Kept).unwrap_err();
    assert_eq!(said(fault), "call refused: fuel or limit out of range");
}

#[test]
fn a_record_is_refused() {
    let module = example("atomic_add.wasm");
    let record = made(&module, "f", &[]).unwrap().record;
    let fault = replay(&module, &record[..record.len() - 1], Memory::Left).unwrap_err();
    assert!(matches!(&fault, Error::Record { fault, .. } if !fault.is_empty()));
    let other = replay(&example("c/broken_lock.wasm"), &record, Memory::Left).unwrap_err();
    assert!(matches!(&other, Error::Record { object, .. } if object.contains(r#""stage":"replay""#)));
    let _: &dyn std::error::Error = &other;
}

#[test]
fn the_record_of_a_file_is_replayed() {
    let again = replay(&example("c/broken_lock.wasm"), &example("c/broken_lock.record"), Memory::Left).unwrap();
    assert!(again.object.contains(r#"{"thread":0,"outcome":{"ok":{"i32":1}}"#));
}
