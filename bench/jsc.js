// Calls `run` of a module that imports nothing, so many times, by JavaScriptCore's shell, and prints how long the shortest call took
// by the shell's own clock, in nanoseconds:
//     jsc --useBBQJIT=0 --useOMGJIT=0 jsc.js -- MODULE TIMES
// With these switches no code is compiled: its in-place interpreter goes through the module's own bytes.
'use strict';
const bytes = readFile(arguments[0], 'binary');
const { exports } = new WebAssembly.Instance(new WebAssembly.Module(bytes), {});
let least = Infinity;
for (let i = 0; i < Number(arguments[1]); i++) {
    const before = preciseTime();
    exports.run();
    least = Math.min(least, preciseTime() - before);
}
print(`nanoseconds ${Math.round(1e9 * least)}`);
