//! Checks a plug-in, makes 20 runs of it, keeps the record of the first that ends otherwise than run 1, and replays it.
//! Then eight threads make these runs at once, 1,000 each, and each run has to end as it did before.
//!
//!     keep_run MODULE [CALLS]
use std::error::Error;
use std::thread;
use wathread_sys::safe::{self, End, Memory, Options, Record, Run};

const SEED: u64 = 4;
const RUNS: usize = 20;
const THREADS: usize = 8;

fn made(module: &[u8], number: usize, record: Record) -> Result<Run, safe::Error> {
    let options = Options { seed: SEED, run: number as u64, ..Options::default() };
    safe::run(module, "main", &[], &options, record)
}

/// Makes the runs again, and counts those that end as before.
fn alike(module: &[u8], ends: &[End], calls: usize) -> usize {
    let numbers = (0..calls).map(|call| call % RUNS);
    numbers.filter(|&it| made(module, it + 1, Record::Dropped).map(|run| run.end) == Ok(ends[it])).count()
}

/// The outcome of thread 0 in an object of JSON.
fn outcome(object: &str) -> &str {
    let behind = object.split("\"outcome\":").nth(1).unwrap_or("");
    behind.split(",\"units\"").next().unwrap_or("")
}

fn main() -> Result<(), Box<dyn Error>> {
    let mut args = std::env::args().skip(1);
    let module = std::fs::read(args.next().ok_or("keep_run MODULE [CALLS]")?)?;
    let calls = args.next().map_or(Ok(1000), |it| it.parse())?;
    println!("check: {}", safe::check(&module)?);
    let runs = (1..=RUNS).map(|it| made(&module, it, Record::Kept)).collect::<Result<Vec<_>, _>>()?;
    let ends: Vec<End> = runs.iter().map(|it| it.end).collect();
    println!("run 1: {}", ends[0]);
    let kept = ends.iter().position(|it| *it != ends[0]).ok_or("all runs end alike")?;
    println!("run {}: {}, a record of {} bytes", kept + 1, ends[kept], runs[kept].record.len());
    println!("replay: {}", outcome(&safe::replay(&module, &runs[kept].record, Memory::Left)?.object));
    let sum: usize = thread::scope(|scope| {
        let threads: Vec<_> = (0..THREADS).map(|_| scope.spawn(|| alike(&module, &ends, calls))).collect();
        threads.into_iter().map(|it| it.join().unwrap_or(0)).sum()
    });
    println!("{} threads: {} of {} runs ended as before", THREADS, sum, THREADS * calls);
    if sum == THREADS * calls {
        Ok(())
    } else {
        Err("a run ended otherwise".into())
    }
}
