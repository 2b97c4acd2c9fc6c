//! Modules and instances that stay.
use std::path::Path;
use wathread_sys::kept::*;
use wathread_sys::safe::*;

fn example(name: &str) -> Vec<u8> {
    std::fs::read(Path::new(env!("CARGO_MANIFEST_DIR")).join("../../examples").join(name)).unwrap()
}

fn called(instance: &mut Instance) -> Run {
    instance.call("f", &[], &Options::default(), Record::Kept).unwrap()
}

#[test]
fn a_memory_stays() {
    let mut module = Module::open(&example("atomic_add.wasm")).unwrap();
    let (mut counter, mut other) = (module.instance().unwrap(), module.share().unwrap().instance().unwrap());
    drop(module);
    assert_eq!(called(&mut counter).end, End::I32(0));
    let before = counter.memory().unwrap();
    let second = called(&mut counter);
    assert_eq!((second.end, counter.pages(), counter.read(0, 2).unwrap()), (End::I32(5), 1, vec![10, 0]));
    assert!(matches!(other.replay(&second.record), Err(Error::Record { .. })));
    other.set_memory(&before).unwrap();
    let again = other.replay(&second.record).unwrap();
    assert!(again.is_well && again.object.contains(r#""outcome":{"ok":{"i32":5}}"#));
    assert_eq!(other.memory().unwrap(), counter.memory().unwrap());
    counter.write(0, &[1, 2]).unwrap();
    assert_eq!(called(&mut counter).end, End::I32(513));
}

#[test]
fn a_search_leaves_the_memory() {
    let mut counter = Module::open(&example("atomic_add.wasm")).unwrap().instance().unwrap();
    called(&mut counter);
    let found = counter.search("f", &[], &Options::default()).unwrap();
    assert!(found.is_well && found.is_complete() && found.object.contains(r#"{"ok":{"i32":5}}"#));
    assert_eq!(counter.read(0, 1).unwrap(), [5]);
}

#[test]
fn what_is_refused_leaves_the_memory() {
    let mut counter = Module::open(&example("atomic_add.wasm")).unwrap().instance().unwrap();
    let refused = [
        counter.read(65536, 1).unwrap_err(),
        counter.write(65535, &[1, 2]).unwrap_err(),
        counter.set_memory(&[1, 2]).unwrap_err(),
    ];
    assert!(refused.iter().all(|it| *it == Error::Bounds));
    assert_eq!(counter.read(65536, 0).unwrap(), []);
    let none = Options { limit: 0, ..Options::default() };
    let said = |it: Result<Run, Error>| it.unwrap_err().to_string();
    assert_eq!(said(counter.call("g", &[], &none, Record::Kept)), "call refused: unknown export");
    assert_eq!(said(counter.call("f", &[], &none, Record::Kept)), "call refused: fuel or limit out of range");
    assert_eq!(counter.memory().unwrap(), vec![0; 65536]);
    let cut = Module::open(&example("atomic_add.wasm")[..5]).unwrap_err();
    assert_eq!(cut.to_string(), "module refused: read 1 at 5");
}

#[test]
fn a_long_record_is_kept_with_its_call() {
    let mut module = Module::open(&example("bugs/barrier.wasm")).unwrap();
    let (mut first, mut second) = (module.instance().unwrap(), module.instance().unwrap());
    let run = first.call("main", &[], &Options::default(), Record::Kept).unwrap();
    assert!(run.record.len() > 1 << 16 && !second.replay(&run.record).unwrap().is_well);
    assert_eq!(first.memory().unwrap(), second.memory().unwrap());
}

#[test]
fn instances_go_to_threads() {
    let mut module = Module::open(&example("c/broken_lock.wasm")).unwrap();
    let options = Options { seed: 4, run: 13, ..Options::default() };
    let threads: Vec<_> = (0..8)
        .map(|_| {
            let mut instance = module.instance().unwrap();
            std::thread::spawn(move || instance.call("main", &[], &options, Record::Dropped).unwrap().end)
        })
        .collect();
    for it in threads {
        assert_eq!(it.join().unwrap(), End::I32(1));
    }
}
