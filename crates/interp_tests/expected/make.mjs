// Writes src/expected.rt: what the numeric instructions give on edge values, as the engine inside node gives it.
//
// Run in the crate's folder with node 20.20.2 (V8 11.3):
//     node expected/make.mjs > src/expected.rt
//     rt fmt
//
// For each instruction it builds a module of one exported function `f` that does that instruction alone on its
// parameters, and calls it. Nothing of this repository takes part.

const I32 = 0x7f, I64 = 0x7e;

const section = (id, ...bytes) => [id, bytes.length, ...bytes];

const instance = (params, result, opcode) => {
  const code = [0x00, ...params.flatMap((_, i) => [0x20, i]), opcode, 0x0b];
  const bytes = new Uint8Array([
    0x00, 0x61, 0x73, 0x6d, 0x01, 0x00, 0x00, 0x00,
    ...section(1, 1, 0x60, params.length, ...params, 1, result),
    ...section(3, 1, 0),
    ...section(7, 1, 1, 0x66, 0, 0),
    ...section(10, 1, code.length, ...code),
  ]);
  return new WebAssembly.Instance(new WebAssembly.Module(bytes)).exports.f;
};

// values are kept as BigInt without sign
const bits = (type) => (type === I32 ? 32 : 64);
const passed = (type, value) => (type === I32 ? Number(BigInt.asIntN(32, value)) : BigInt.asIntN(64, value));
const answered = (type, value) => BigInt.asUintN(bits(type), BigInt(value));

const traps = {
  "divide by zero": "DivideByZero",
  "remainder by zero": "DivideByZero",
  "divide result unrepresentable": "IntegerOverflow",
};

const run = (params, result, opcode, operands) => {
  const f = instance(params, result, opcode);
  try {
    return { value: answered(result, f(...operands.map((v, i) => passed(params[i], v)))) };
  } catch (error) {
    if (!(error instanceof WebAssembly.RuntimeError) || !(error.message in traps)) throw error;
    return { trap: traps[error.message] };
  }
};

// short, so that a row is a line: `!6` has all bits but those of 6, `1 << 63` only the highest
const written = (value, n) => {
  const rest = (1n << BigInt(n)) - 1n - value;
  if (value < 1000n) return value.toString();
  if (rest < 1000n) return "!" + rest.toString();
  if ((value & (value - 1n)) === 0n) return "1 << " + (value.toString(2).length - 1);
  if ((rest & (rest - 1n)) === 0n) return "!(1 << " + (rest.toString(2).length - 1) + ")";
  const digits = value.toString(16);
  const padded = digits.padStart(digits.length > 8 ? 16 : 8, "0");
  return "0x" + padded.match(/.{4}/g).join("_");
};

// ---- the operands, at a width of N bits

const edge = (n) => {
  const top = 1n << BigInt(n - 1);
  const mask = (1n << BigInt(n)) - 1n;
  const some = n === 32 ? 0x1234_5678n : 0x8001_2345n;
  return { top, mask, some, less: (v) => BigInt.asUintN(n, v) };
};

const arithmetic = (n) => {
  const { top, mask, some } = edge(n);
  return [[0n, 0n], [1n, mask], [mask, mask], [top - 1n, 1n], [top, top], [top, mask], [some, top - 1n], [some, mask - some]];
};

const division = (n) => {
  const { top, mask, some, less } = edge(n);
  return [[0n, 0n], [7n, 0n], [top, 0n], [7n, 2n], [less(-7n), 2n], [7n, less(-2n)], [less(-7n), less(-2n)], [top, mask],
    [top, 1n], [top, 2n], [mask, top], [top - 1n, mask], [some, 1000n]];
};

const shifts = (n) => {
  const { top, mask, some, less } = edge(n);
  return [[some, 0n], [less(top + some), 1n], [some, 31n], [some, 32n], [less(top + some), 33n], [some, 63n], [some, 64n],
    [less(top + some), 65n], [some, mask], [top, top], [top + 1n, 4n], [mask, BigInt(n - 1)]];
};

const comparisons = (n) => {
  const { top, mask } = edge(n);
  return [[0n, 0n], [0n, 1n], [mask, 0n], [0n, mask], [top, top - 1n], [top - 1n, top]];
};

const counts = (n) => {
  const { top, mask, some } = edge(n);
  return [0n, 1n, 2n, top - 1n, top, mask, some, mask - 1n, some << 4n & mask, 1n << BigInt(n / 2)];
};

// the lowest m of n bits: both ends of the signed numbers, and bits above them that have to count for nothing
const extensions = (m, n) => {
  const { mask } = edge(n);
  const [least, bits] = [1n << BigInt(m - 1), (1n << BigInt(m)) - 1n];
  const junk = (n === 32 ? 0x5a3c_69a5n : 0x5a3c_69a5_c396_1e78n) & ~bits & mask;
  return [0n, 1n, least - 1n, least, bits, mask, bits + 1n, mask - bits, junk, junk + 1n, junk + least - 1n, junk + least,
    junk + bits, mask - junk];
};

// ---- the instructions

const unary = ["Clz", "Ctz", "Popcnt"];
const binary = [
  ["Add", arithmetic], ["Sub", arithmetic], ["Mul", arithmetic], ["DivS", division], ["DivU", division], ["RemS", division],
  ["RemU", division], ["And", arithmetic], ["Or", arithmetic], ["Xor", arithmetic], ["Shl", shifts], ["ShrS", shifts],
  ["ShrU", shifts], ["Rotl", shifts], ["Rotr", shifts],
];
const compare = ["Eq", "Ne", "LtS", "LtU", "GtS", "GtU", "LeS", "LeU", "GeS", "GeU"];

const table = (comment, name, row, rows) =>
  console.log(`\n/// ${comment}\npub static ${name}: [${row}; ${rows.length}] = [\n${rows.map((r) => `    (${r.join(", ")}),`).join("\n")}\n];`);

const value = (params, result, opcode, operands) => written(run(params, result, opcode, operands).value, bits(result));

console.log("//! What the numeric instructions give on edge values, written by expected/make.mjs from another engine's answers.");
console.log("\nuse types::{BinaryOp, CompareOp, NarrowWidth, Trap, UnaryOp};");

for (const [type, name, rust, opcodes] of [
  [I32, "I32", "u32", { unary: 0x67, binary: 0x6a, test: 0x45, compare: 0x46 }],
  [I64, "I64", "u64", { unary: 0x79, binary: 0x7c, test: 0x50, compare: 0x51 }],
]) {
  const n = bits(type);
  table("An operator, its operand, and what it gives.", `${name}_UNARY`, `(UnaryOp, ${rust}, ${rust})`,
    unary.flatMap((op, k) => counts(n).map((v) => [`UnaryOp::${op}`, written(v, n), value([type], type, opcodes.unary + k, [v])])));
  table("An operator, the left operand, the right one, and what it gives.", `${name}_BINARY`, `(BinaryOp, ${rust}, ${rust}, Result<${rust}, Trap>)`,
    binary.flatMap(([op, pairs], k) => pairs(n).map((pair) => {
      const answer = run([type, type], type, opcodes.binary + k, pair);
      return [`BinaryOp::${op}`, ...pair.map((v) => written(v, n)), answer.trap ? `Err(Trap::${answer.trap})` : `Ok(${written(answer.value, n)})`];
    })));
  table("An operand, and whether it is zero.", `${name}_EQZ`, `(${rust}, u32)`,
    counts(n).map((v) => [written(v, n), value([type], I32, opcodes.test, [v])]));
  table("A comparison, the left operand, the right one, and whether it holds.", `${name}_COMPARE`, `(CompareOp, ${rust}, ${rust}, u32)`,
    compare.flatMap((op, k) => comparisons(n).map((pair) => [`CompareOp::${op}`, ...pair.map((v) => written(v, n)), value([type, type], I32, opcodes.compare + k, pair)])));
}

const wide = counts(64).concat([0xffff_ffffn, 0x1_0000_0000n, 0x8000_0000n, 0xffff_ffff_8000_0000n]);
table("An operand, and the low half of it.", "WRAP", "(u64, u32)", wide.map((v) => [written(v, 64), value([I64], I32, 0xa7, [v])]));
table("An operand, and the same signed number.", "EXTEND_S", "(u32, u64)", counts(32).map((v) => [written(v, 32), value([I32], I64, 0xac, [v])]));
table("An operand, and the same natural number.", "EXTEND_U", "(u32, u64)", counts(32).map((v) => [written(v, 32), value([I32], I64, 0xad, [v])]));

for (const [type, name, rust, widths] of [
  [I32, "I32", "u32", [[8, 0xc0], [16, 0xc1]]],
  [I64, "I64", "u64", [[8, 0xc2], [16, 0xc3], [32, 0xc4]]],
]) {
  const n = bits(type);
  table("A width, an operand, and its low bits as a signed number.", `${name}_SIGN_EXTEND`, `(NarrowWidth, ${rust}, ${rust})`,
    widths.flatMap(([m, opcode]) => extensions(m, n).map((v) => [`NarrowWidth::${name}Bits${m}`, written(v, n), value([type], type, opcode, [v])])));
}
