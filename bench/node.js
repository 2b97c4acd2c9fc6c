// Runs `run` of a module by node, with worker threads over one shared memory:
//     node --no-wasm-dynamic-tiering node.js MODULE WORKERS ARG..
// Without that switch node runs a long loop to its end as its quick compiler made it, and all threads count in one word
// how often it went round.
// The module imports the memory `env` `memory` of one page, and may import `wasi` `thread-spawn`, as wathread has it. The
// workers are started first and wait until they are spawned, as wathread's are. Prints what `run` answers, and the
// nanoseconds from its call until the last spawned worker has ended.
'use strict';
const fs = require('fs');
const { Worker, isMainThread, workerData } = require('worker_threads');

// control: at 0 how many workers are ready, at 1 how many have ended; from 16 on one word a worker, 1 once it is spawned,
// and from 32 on its argument.
const READY = 0, ENDED = 1, SPAWNED = 16, ARG = 32;

function wait_until(control, place, count) {
    for (let now = Atomics.load(control, place); now < count; now = Atomics.load(control, place)) {
        Atomics.wait(control, place, now);
    }
}

function work({ module, memory, control, id }) {
    const spawn = () => -1;
    const { exports } = new WebAssembly.Instance(module, { env: { memory }, wasi: { 'thread-spawn': spawn } });
    Atomics.add(control, READY, 1);
    Atomics.notify(control, READY);
    wait_until(control, SPAWNED + id, 1);
    exports.wasi_thread_start(id, Atomics.load(control, ARG + id));
    Atomics.add(control, ENDED, 1);
    Atomics.notify(control, ENDED);
}

function lead(file, workers, args) {
    const module = new WebAssembly.Module(fs.readFileSync(file));
    const memory = new WebAssembly.Memory({ initial: 1, maximum: 1, shared: true });
    const control = new Int32Array(new SharedArrayBuffer(256));
    for (let id = 1; id <= workers; id++) {
        new Worker(__filename, { workerData: { module, memory, control, id } });
    }
    let spawned = 0;
    const spawn = arg => {
        if (spawned === workers) return -1;
        spawned += 1;
        Atomics.store(control, ARG + spawned, arg);
        Atomics.store(control, SPAWNED + spawned, 1);
        Atomics.notify(control, SPAWNED + spawned);
        return spawned;
    };
    const { exports } = new WebAssembly.Instance(module, { env: { memory }, wasi: { 'thread-spawn': spawn } });
    wait_until(control, READY, workers);
    const start = process.hrtime.bigint();
    const answer = exports.run(...args);
    wait_until(control, ENDED, spawned);
    const nanos = process.hrtime.bigint() - start;
    fs.writeSync(1, `${answer}\nnanoseconds ${nanos}\n`);
    process.exit(0); // workers that were never spawned still wait
}

if (isMainThread) {
    const [file, workers, ...args] = process.argv.slice(2);
    lead(file, Number(workers), args.map(Number));
} else {
    work(workerData);
}
