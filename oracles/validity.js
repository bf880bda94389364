// Cases for the validator, judged by node's WebAssembly: `node oracles/validity.js FOLDER` writes the tables
// validate_bodies.rt and validate_modules.rt there, with the modules whose parts the cases change. Each case
// is a module in short, which is written in the binary format for node, and as a line or a value for the
// table.
//
// Where this profile differs from node's later version, a case has the profile's answer and says why.
const types = { I32: 0x7f, I64: 0x7e, F32: 0x7d, F64: 0x7c };

// ---- the binary format
const number = n => (n < 128 ? [n] : [(n & 127) | 128, ...number(n >>> 7)]);
const vector = items => [...number(items.length), ...items.flat()];
const section = (id, items) => (items.length ? [id, ...number(vector(items).length), ...vector(items)] : []);
const text = name => vector([...Buffer.from(name)]);
const code = hex => (hex.trim() ? hex.trim().split(/\s+/).map(x => parseInt(x, 16)) : []);
const limits = ([min, max]) => (max === null ? [0, ...number(min)] : [1, ...number(min), ...number(max)]);
const global = ([kind, mutable]) => [types[kind], mutable ? 1 : 0];
const kinds = { Function: 0, Table: 1, Memory: 2, Global: 3 };
const imported = {
  Function: index => number(index),
  Table: these => [0x70, ...limits(these)],
  Memory: limits,
  Global: global,
};

function binary(m) {
  return Uint8Array.from([
    0, 0x61, 0x73, 0x6d, 1, 0, 0, 0,
    ...section(1, m.types.map(([p, r]) => [0x60, ...vector(p.map(t => types[t])),
      ...vector(r.map(t => types[t]))])),
    ...section(2, m.imports.map(([kind, value]) => [...text("m"), ...text("x"), kinds[kind],
      ...imported[kind](value)])),
    ...section(3, m.functions.map(number)),
    ...section(4, m.tables.map(t => [0x70, ...limits(t)])),
    ...section(5, m.memories.map(limits)),
    ...section(6, m.globals.map(([type, first]) => [...global(type), ...code(first), 0x0b])),
    ...section(7, m.exports.map(([name, kind, index]) => [...text(name), kinds[kind], ...number(index)])),
    ...(m.start === null ? [] : [8, number(m.start).length, ...number(m.start)]),
    ...section(9, m.elements.map(([table, offset, fs]) => table === 0
      ? [0, ...code(offset), 0x0b, ...vector(fs.map(number))]
      : [2, ...number(table), ...code(offset), 0x0b, 0, ...vector(fs.map(number))])),
    ...section(10, m.bodies.map(body => {
      const all = [...vector(m.locals.map(([count, kind]) => [...number(count), types[kind]])),
        ...code(body), 0x0b];
      return [...number(all.length), ...all];
    })),
    ...section(11, m.segments.map(([memory, offset]) => memory === 0
      ? [0, ...code(offset), 0x0b, 0]
      : [2, ...number(memory), ...code(offset), 0x0b, 0])),
  ]);
}

// what node says: that it is valid, which function isn't, or that another rule is broken
function judged(m) {
  try {
    new WebAssembly.Module(binary(m));
    return "None";
  } catch (error) {
    const found = /function #(\d+)/.exec(error.message);
    return found ? `Some(Invalid::Function(${found[1]}))` : "RULE";
  }
}

// ---- the values of the tables
const list = items => `&[${items.join(", ")}]`;
const bytes = hex => list(code(hex).map(x => "0x" + x.toString(16).toUpperCase().padStart(2, "0")));
const option = n => (n === null ? "None" : `Some(${n})`);
const limit = ([min, max]) => `(${min}, ${option(max)})`;
const importing = {
  Function: String,
  Table: ([min, max]) => `Limits { min: ${min}, max: ${option(max)} }`,
  Memory: ([min, max]) => `Limits { min: ${min}, max: ${option(max)} }`,
  Global: ([kind, mutable]) => `GlobalType { kind: ${kind}, mutable: ${mutable} }`,
};
const value = {
  types: ([p, r]) => `(${list(p)}, ${list(r)})`,
  imports: one => (one === fn ? "FUNCTION" : one === constant ? "CONSTANT"
    : `ImportKind::${one[0]}(${importing[one[0]](one[1])})`),
  functions: String,
  tables: limit,
  memories: limit,
  globals: ([[kind, mutable], first]) => `(${kind}, ${mutable}, ${bytes(first)})`,
  exports: ([name, kind, index]) => `(b"${name}", ExportKind::${kind}, ${index})`,
  elements: ([table, offset, fs]) => `(${table}, ${bytes(offset)}, ${list(fs)})`,
  segments: ([memory, offset]) => `(${memory}, ${bytes(offset)})`,
  locals: ([count, kind]) => `(${count}, ${kind})`,
  bodies: bytes,
};
const change = ([name, v]) =>
  `Change::${name[0].toUpperCase()}${name.slice(1)}(${name === "start" ? v : list(v.map(value[name]))})`;

// ---- the module round a body: it takes an i32, has a local of i64 and gives an i32
const one = [1, null];
const fn = ["Function", 1], constant = ["Global", ["I32", false]];
const variable = [["I64", true], "42 00"];
const base = {
  types: [
    [[], []], [["I32"], ["I32"]], [["I32", "I64"], ["I64"]], [[], ["I32"]],
    // of these, blocks take several parameters or leave several results
    [["I32", "I64"], ["I64", "I32"]], [[], ["I32", "I64"]], [["I32"], []],
  ],
  imports: [fn, constant],
  functions: [1],
  tables: [one],
  memories: [one],
  globals: [variable],
  exports: [],
  start: null,
  elements: [],
  segments: [],
  locals: [[1, "I64"]],
  bodies: ["20 00"],
};
const bare = { types: [[[], []]], imports: [], functions: [0], tables: [], memories: [], globals: [],
  locals: [], bodies: [""] };

// ---- bodies
const bodies = [
 ["20 00","the parameter"],["","no operand for the result"],["6A 20 00","i32.add without operands"],
 ["20 00 20 00","one operand too many"],
 ["00","unreachable"],["00 6A","code behind unreachable: i32.add"],
 ["00 42 00 6A","i64 for i32 behind unreachable"],["00 42 00","an i64 result behind unreachable"],
 ["00 1A 1B 6A","unknown operands behind unreachable"],
 ["00 41 00 41 00 41 00","too many known operands behind unreachable"],
 ["01 20 00","nop"],
 ["02 7F 41 00 0B","block"],["02 7F 0B","block without its result"],
 ["02 40 41 00 0B 20 00","block with an operand left"],["20 00 02 7F 0B","block takes nothing from outside"],
 ["20 00 02 40 1A 0B","a block drops an outer operand"],["02 7E 42 00 0B A7","a block of i64"],
 ["03 7F 41 00 0B","loop"],["03 7F 41 00 0C 00 0B","branch to a loop with an operand left"],
 ["03 7F 0C 00 0B","branch to a loop takes nothing"],["03 40 0C 00 0B 41 00","endless loop"],
 ["03 7F 20 00 0D 00 41 00 0B","br_if to a loop"],
 ["20 00 04 7F 41 01 05 41 02 0B","if with both parts"],
 ["20 00 04 7F 41 01 0B","if without else has a result"],
 ["20 00 04 40 01 0B 41 02","if without else or result"],["04 40 0B 41 02","if without a condition"],
 ["42 00 04 40 0B 41 02","if with an i64 condition"],
 ["20 00 04 7F 41 01 05 0B","else part without its result"],
 ["20 00 04 7F 05 41 01 0B","then part without its result"],
 ["20 00 04 7F 00 05 00 0B","both parts can't be reached"],
 ["20 00 04 7F 42 00 05 41 01 0B","then part of i64"],
 ["20 00 04 40 41 00 05 0B 20 00","then part leaves an operand"],
 ["02 7F 41 05 0C 00 0B","br to a block"],["02 7F 0C 00 0B","br without the operand"],
 ["41 01 0C 00","br to the function"],["41 01 0C 01","br to no label"],
 ["0C 00","br to the function without its result"],
 ["02 40 41 07 0C 01 0B 20 00","br out of a block to the function"],["41 01 0C 00 6A","code behind br"],
 ["02 40 0C 00 6A 1A 0B 20 00","i32.add behind br in a block"],["42 01 0C 00","br with an i64"],
 ["02 7F 41 01 20 00 0D 00 0B","br_if"],["02 7F 20 00 0D 00 0B","br_if without the operand"],
 ["02 7F 41 01 42 00 0D 00 0B","br_if with an i64 condition"],
 ["02 7F 00 0D 00 0B","br_if behind unreachable"],["41 01 20 00 0D 01","br_if to no label"],
 ["02 7E 00 41 00 0D 00 0B A7","br_if leaves the label's types"],
 ["02 7E 00 41 00 0D 00 6A 0B A7","br_if leaves the label's types, used as another"],
 ["02 7F 41 01 20 00 0E 01 00 01 0B","br_table"],
 ["02 40 41 01 20 00 0E 01 00 01 0B 20 00","br_table of labels with different types"],
 ["02 7F 41 01 20 00 0E 00 02 0B","br_table to no label"],
 ["02 7F 41 01 20 00 0E 01 02 00 0B","br_table with an entry to no label"],
 ["02 7F 20 00 0E 00 00 0B","br_table without the operand"],
 ["02 7F 41 01 42 00 0E 00 00 0B","br_table with an i64 index"],
 ["03 7F 02 7F 41 01 20 00 0E 01 00 01 0B 0B","br_table to a loop and a block with a result"],
 ["03 40 02 40 20 00 0E 01 00 01 0B 0B 20 00","br_table to a loop and a block without"],
 ["41 01 20 00 0E 00 00 6A","code behind br_table"],
 ["41 01 0F","return"],["0F","return without the result"],["42 01 0F","return of an i64"],
 ["02 40 41 01 0F 0B 20 00","return out of a block"],["41 01 0F 6A 1A 41 01","code behind return"],
 ["20 00 10 00","call of an import"],["10 00","call without the parameter"],
 ["20 00 10 01","call of itself"],["20 00 10 02","call of no function"],["20 01 10 00","call with an i64"],
 ["00 10 02","call of no function behind unreachable"],
 ["20 00 20 00 11 01 00","call_indirect"],["20 00 11 01 00","call_indirect without the parameter"],
 ["20 00 20 00 11 09 00","call_indirect of no type"],
 ["20 00 20 01 20 00 11 02 00 A7","call_indirect of two parameters"],
 ["20 00 20 01 11 01 00","call_indirect with an i64 slot"],
 ["20 00 1A 41 01","drop"],["1A 41 01","drop of nothing"],["20 00 41 01 20 00 1B","select"],
 ["20 01 41 01 20 00 1B","select of different types"],["20 00 41 01 20 01 1B","select by an i64"],
 ["20 01 42 00 41 00 1B A7","select of i64"],
 ["00 42 00 41 00 1B 6A","select of a known and an unknown, used as another"],
 ["00 41 00 1B","select of unknowns"],
 ["20 01 A7","local.get"],["20 02","local.get of no local"],["41 01 21 00 20 00","local.set"],
 ["41 01 21 01 20 00","local.set of another type"],["41 01 22 00","local.tee"],
 ["42 01 22 01 A7","local.tee of i64"],["42 01 22 00","local.tee of another type"],
 ["41 01 21 02 20 00","local.set of no local"],
 ["23 00","global.get"],["23 01 A7","global.get of i64"],["23 02","global.get of no global"],
 ["42 01 24 01 20 00","global.set"],["41 01 24 00 20 00","global.set of an immutable global"],
 ["41 01 24 01 20 00","global.set of another type"],["42 01 24 02 20 00","global.set of no global"],
 ["20 00 28 02 00","i32.load"],["20 00 28 03 00","i32.load aligned too much"],
 ["20 00 29 03 00 A7","i64.load"],["20 00 29 04 00 A7","i64.load aligned too much"],
 ["20 00 2D 00 00","i32.load8_u"],["20 00 2D 01 00","i32.load8_u aligned too much"],
 ["20 01 28 02 00","a load at an i64"],["20 00 34 02 00 A7","i64.load32_s"],
 ["20 00 34 03 00 A7","i64.load32_s aligned too much"],
 ["20 00 41 01 36 02 00 20 00","i32.store"],["20 00 41 01 36 03 00 20 00","i32.store aligned too much"],
 ["20 00 42 01 36 02 00 20 00","i32.store of an i64"],["20 00 42 01 3D 01 00 20 00","i64.store16"],
 ["20 00 42 01 3D 02 00 20 00","i64.store16 aligned too much"],
 ["3F 00","memory.size"],["20 00 40 00","memory.grow"],["40 00","memory.grow without operand"],
 ["20 01 40 00","memory.grow of an i64"],
 ["42 01","i64.const for i32"],["20 00 45","i32.eqz"],["20 01 50","i64.eqz"],
 ["20 01 45","i32.eqz of an i64"],["20 01 20 01 7C A7","i64.add"],["20 01 20 00 7C A7","i64.add of an i32"],
 ["20 00 AD A7","i64.extend_i32_u"],["20 00 67","i32.clz"],
 ["05 20 00","else without if"],["20 00 04 40 05 05 0B 20 00","a second else"],
 ["02 40 05 0B 20 00","else in a block"],["20 00 0B 20 00","an end too many"],
 ["02 7F 20 00","a block that isn't closed"],
 ["03 40 41 00 0C 00 0B 20 00","a branch to a loop leaves operands"],
 ["03 7F 41 00 20 00 0D 00 0B","br_if to a loop keeps its operand"],
 ["02 40 00 04 7F 41 01 05 42 01 0B 1A 0B 20 00","else part of i64 behind unreachable"],
];

// ---- bodies with blocks that have parameters or several results: type 4 is [i32 i64] -> [i64 i32], type 5
// is [] -> [i32 i64], type 6 is [i32] -> []; where the profile's answer isn't node's it stands behind
const several = [
 // blocks
 ["20 00 02 01 0B","a block passes its parameter on"],["02 01 0B","a block without its parameter"],
 ["20 01 02 01 0B","a block with a parameter of another type"],
 ["20 00 20 01 02 04 A7 1A 1A 42 00 41 01 0B 1A A7","a block of two parameters and two results"],
 ["20 00 20 01 02 04 0B 1A A7","a block leaves its results in another order"],
 ["20 01 20 00 02 04 00 0B 1A A7","a block takes its parameters in another order"],
 ["20 01 02 04 00 0B 1A A7","a block without its first parameter"],
 ["02 05 41 00 42 00 0B A7 6A","a block of two results"],
 ["02 05 42 00 0B A7 6A","a block without its first result"],
 ["02 05 41 00 41 00 42 00 0B A7 6A","a block with an operand below its results"],
 ["41 01 20 00 02 01 6A 0B","a block takes an operand below its parameter"],
 ["41 01 20 00 02 01 0B 6A","an operand stands below a block's parameter"],
 ["20 00 02 06 1A 0B 20 00","a block of one parameter and no result"],
 ["20 00 02 06 0B 20 00","a block leaves its parameter"],
 ["02 09 0B 20 00","a block of no type"],["03 09 0B 20 00","a loop of no type"],
 ["20 00 04 09 0B 20 00","an if of no type"],
 // loops
 ["20 00 03 01 20 00 0D 00 0B","br_if to a loop with its parameter"],
 ["20 00 03 06 0C 00 0B 20 00","br to a loop with its parameter"],
 ["20 00 03 06 1A 0C 00 0B 20 00","br to a loop without its parameter"],
 ["20 00 03 06 1A 42 00 0C 00 0B 20 00","br to a loop with a parameter of another type"],
 ["20 00 20 01 03 04 0C 00 0B 1A A7","br to a loop with its parameters"],
 ["20 00 20 01 03 04 1A 1A 42 00 41 00 0C 00 0B 1A A7","br to a loop with its results"],
 ["03 05 0C 00 0B A7 6A","br to a loop of results alone"],
 ["03 05 41 00 42 00 20 00 0D 00 0B A7 6A","br_if to a loop takes none of its results"],
 ["20 00 20 01 03 04 1A 1A 42 00 41 00 0B 1A A7","a loop of two parameters and two results"],
 // ifs
 ["20 00 20 00 04 01 0B","an if without else passes its parameter on"],
 ["20 00 20 00 04 01 1A 41 05 0B","an if without else of equal parameters and results"],
 ["20 00 20 01 20 00 04 04 1A 1A 42 00 41 00 0B 1A A7",
   "an if without else of other results than parameters"],
   ["20 00 20 00 04 06 1A 0B 20 00","an if without else of a parameter alone"],
 ["20 00 04 03 41 00 0B","an if without else of a result alone"],
 ["20 00 04 05 41 00 42 00 0B A7 6A","an if without else of two results"],
 ["20 00 20 00 04 06 1A 05 1A 0B 20 00","both parts take the parameter"],
 ["20 00 20 00 04 06 1A 05 0B 20 00","an else part leaves the parameter"],
 ["20 00 20 01 20 00 04 04 1A 1A 42 00 41 00 05 1A 1A 42 01 41 01 0B 1A A7",
   "both parts of two parameters and two results"],
 ["20 00 20 01 20 00 04 04 1A 1A 42 00 41 00 05 42 01 41 01 0B 1A A7",
   "an else part with operands below its results"],
 ["20 00 20 01 20 00 04 04 1A 1A 42 00 41 00 05 0B 1A A7","an else part leaves the parameters"],
 ["20 00 04 01 0B","an if without its parameter"],
 // branches
 ["02 05 41 00 42 00 0C 00 0B A7 6A","br with two results"],
 ["02 05 42 00 41 00 0C 00 0B A7 6A","br with two results in another order"],
 ["02 05 42 00 0C 00 0B A7 6A","br without the first result"],
 ["02 05 41 09 41 00 42 00 0C 00 0B A7 6A","br with an operand below the results"],
 ["02 05 41 00 42 00 20 00 0D 00 0B A7 6A","br_if with two results"],
 ["02 05 02 05 41 00 42 00 20 00 0E 01 00 01 0B 0B A7 6A","br_table with two results"],
 ["03 05 02 05 41 00 42 00 20 00 0E 01 00 01 0B 0B A7 6A","br_table to a loop and a block of two results"],
 ["20 00 11 05 00 A7 6A","call_indirect of two results"],
 // ---- what can't be reached
 ["00 02 01 0B","a block behind unreachable takes any parameter"],
 ["00 02 04 0B 1A A7","parameters behind unreachable are known inside"],
 ["00 02 04 1A 1A 42 00 41 00 0B 1A A7","a block of two results behind unreachable"],
 ["00 42 00 02 04 00 0B 1A A7","a block behind unreachable takes a known operand"],
 ["00 41 00 02 04 00 0B 1A A7","a block behind unreachable takes a known operand of another type"],
 ["00 03 01 0C 00 0B","br to a loop behind unreachable"],
 ["00 03 04 20 00 0D 00 0B 1A A7","br_if to a loop behind unreachable keeps the parameters"],
 ["20 00 20 01 03 04 00 0D 00 0B 1A A7","br_if behind unreachable leaves a loop's parameters"],
 ["20 00 20 01 03 04 00 0C 00 0B 1A A7","br behind unreachable to a loop"],
 ["20 00 20 01 03 04 00 42 00 0C 00 0B 1A A7","br behind unreachable with a known parameter"],
 ["20 00 20 01 03 04 00 41 00 0C 00 0B 1A A7","br behind unreachable with a known parameter of another type"],
 ["00 04 01 0B","an if behind unreachable"],
 ["00 04 04 0B 1A A7","an if without else behind unreachable of other results than parameters"],
 ["00 04 04 00 05 00 0B 1A A7","both parts behind unreachable"],
 ["20 00 20 01 20 00 04 04 00 0B 1A A7","an if without else whose end can't be reached"],
 ["00 04 06 00 05 0B 20 00","an else part leaves the parameter behind unreachable"],
 ["02 05 00 42 00 0C 00 0B A7 6A","br behind unreachable with one known result"],
 ["02 05 00 41 00 0C 00 0B A7 6A","br behind unreachable with one known result of another type"],
 ["02 05 00 0D 00 A7 6A 0B","br_if behind unreachable leaves two results"],
 ["02 05 00 0D 00 0B A7 6A","br_if behind unreachable leaves the block's results"],
 ["02 05 02 05 00 0E 01 00 01 0B 0B A7 6A","br_table behind unreachable"],
 ["03 05 02 05 00 0E 01 00 01 0B 0B A7 6A",
 "br_table behind unreachable to labels of different numbers of types"],
 // node asks for equal numbers of types alone; here all labels have the same types
 ["02 7E 02 7F 00 0E 01 00 01 0B 1A 42 00 0B A7","br_table behind unreachable to labels of different types",
   false],
 ["00 02 09 0B","a block of no type behind unreachable"],
 ["00 03 09 0B","a loop of no type behind unreachable"],["00 04 09 0B","an if of no type behind unreachable"],
 ["00 11 05 00 A7 6A","call_indirect of two results behind unreachable"],
 ["00 41 00 11 02 00 A7","call_indirect behind unreachable with an unknown parameter"],
 ["00 41 00 41 00 11 02 00 A7","call_indirect behind unreachable with a known parameter of another type"],
 ["00 10 00 10 00","calls behind unreachable"],
 ["00 42 00 10 00","a call behind unreachable with a known parameter of another type"],
 ["41 00 0F 02 01 0B","a block behind return"],
 ["41 00 0C 00 02 04 1A 1A 42 00 41 00 0B 1A A7","a block behind br"],
];

const few = [[[], []], [["I32"], ["I32"]]];

// ---- modules: the parts that differ from the module above, and the profile's answer where it isn't node's
// ---- types and functions
const type_cases = [
  ["as it is", {}],
  // types; the profile has no floats
  ["an f32 parameter", { types: [...few, [["F32"], []]] }, "RULE"],
  ["an f64 result", { types: [...few, [[], ["F64"]]] }, "RULE"],
  ["two results", { types: [...few, [[], ["I32", "I32"]]] }],
  ["two results of the function", { ...bare, types: [[[], ["I32", "I32"]]], bodies: ["41 00 41 00"] }],
  ["one of two results", { ...bare, types: [[[], ["I32", "I32"]]], bodies: ["41 00"] }],
  ["two results by return", { ...bare, types: [[[], ["I32", "I64"]]], bodies: ["41 00 42 00 0F"] }],
  ["two results by return in another order",
    { ...bare, types: [[[], ["I32", "I64"]]], bodies: ["42 00 41 00 0F"] }],
  ["two results by br", { ...bare, types: [[[], ["I32", "I64"]]], bodies: ["41 00 42 00 0C 00"] }],
  ["a call of two results", { functions: [1, 5], bodies: ["10 02 A7 6A", "41 00 42 00"] }],
  ["a call of two results that are used as one", { functions: [1, 5], bodies: ["10 02", "41 00 42 00"] }],
  ["a type of a block with floats",
    { types: [...few, [["F32"], ["F32"]]], bodies: ["00 02 02 0B 1A 20 00"] }, "RULE"],
  ["no types", { types: [], imports: [constant], functions: [], bodies: [] }],
  // functions; version 1.0 types a function only where its type exists
  ["an import's type doesn't exist", { imports: [["Function", 9], constant] }],
  ["a call of that import", { imports: [["Function", 9], constant], bodies: ["20 00 10 00"] },
    "Some(Invalid::Function(1))"],
  ["a call of that import behind unreachable",
    { imports: [["Function", 9], constant], bodies: ["00 10 00"] }, "Some(Invalid::Function(1))"],
  ["a function's type doesn't exist", { functions: [9] }, "Some(Invalid::Function(1))"],
  ["that function's body can't be reached", { functions: [9], bodies: ["00"] }, "Some(Invalid::Function(1))"],
  ["a function without code", { functions: [1, 1] }, "Some(Invalid::Function(2))"],
  ["a code without function", { bodies: ["20 00", "20 00"] }],
  ["a body without operands", { ...bare, bodies: ["6A"] }],
  ["that body behind an import", { ...bare, imports: [["Function", 0]], bodies: ["6A"] }],
  ["that body behind unreachable", { ...bare, bodies: ["00 6A 1A"] }],
  ["two such bodies", { functions: [1, 1, 1], bodies: ["20 00", "6A", "6A"] }],
  ["that body and a second memory", { memories: [one, one], bodies: ["6A"] }, "Some(Invalid::Function(1))"],
  ["a type of two results beside that body", { types: [...few, [[], ["I32", "I32"]]], bodies: ["6A"] }],
];

// ---- code; floats again
const code_cases = [
  ["a local of f32", { locals: [[1, "F32"]] }, "RULE"],
  ["locals in several runs", { locals: [[2, "I32"], [0, "I64"], [1, "I64"]], bodies: ["20 03 A7 20 02 6A"] }],
  ["a block of f32", { bodies: ["02 7D 00 0B 1A 20 00"] }, "RULE"],
  // no item with floats has a typing in the profile
  ["f32.const", { bodies: ["43 00 00 00 00 1A 20 00"] }, "Some(Invalid::Function(1))"],
  ["f32.add behind unreachable", { bodies: ["00 92 1A 20 00"] }, "Some(Invalid::Function(1))"],
  ["i32.extend8_s", { bodies: ["20 00 C0"] }],
  ["i32.extend16_s of an i64", { bodies: ["20 01 C1"] }],
  ["i64.extend32_s", { bodies: ["20 01 C4 A7"] }],
  ["no memory for a load", { memories: [], bodies: ["20 00 28 02 00"] }],
  ["no memory for a store", { memories: [], bodies: ["20 00 20 00 36 02 00 20 00"] }],
  ["no memory for memory.size", { memories: [], bodies: ["3F 00"] }],
  ["no memory for memory.grow", { memories: [], bodies: ["20 00 40 00"] }],
  ["an imported memory", { imports: [fn, constant, ["Memory", one]], memories: [],
    bodies: ["20 00 28 02 00"] }],
  ["no table for call_indirect", { tables: [], bodies: ["20 00 20 00 11 01 00"] }],
  ["an imported table", { imports: [fn, constant, ["Table", one]], tables: [],
    bodies: ["20 00 20 00 11 01 00"] }],
  ["global.set of an imported variable",
    { imports: [fn, ["Global", ["I32", true]]], bodies: ["20 00 24 00 20 00"] }],
];

// ---- tables, memories and globals; version 1.0 has one table
const store_cases = [
  ["a second table", { tables: [one, one] }, "RULE"],
  ["an imported table beside one", { imports: [fn, constant, ["Table", one]] }, "RULE"],
  ["a second memory", { memories: [one, one] }],
  ["an imported memory beside one", { imports: [fn, constant, ["Memory", one]] }],
  ["a table's minimum above its maximum", { tables: [[2, 1]] }],
  ["a table's minimum at its maximum", { tables: [[2, 2]] }],
  ["an imported table's minimum above its maximum",
    { imports: [fn, constant, ["Table", [2, 1]]], tables: [] }],
  ["a memory's minimum above its maximum", { memories: [[2, 1]] }],
  ["a memory's minimum at its maximum", { memories: [[2, 2]] }],
  ["a memory's minimum of 65,536", { memories: [[65536, null]] }],
  ["a memory's minimum of 65,537", { memories: [[65537, null]] }],
  ["a memory's maximum of 65,536", { memories: [[1, 65536]] }],
  ["a memory's maximum of 65,537", { memories: [[1, 65537]] }],
  ["an imported memory's maximum of 65,537", { imports: [fn, constant, ["Memory", [1, 65537]]],
    memories: [] }],
  // globals; the profile has no floats
  ["an imported global of f64", { imports: [fn, constant, ["Global", ["F64", false]]] }, "RULE"],
  ["a global of another type than its constant", { globals: [[["I64", true], "41 00"]] }],
  ["a global without initial value", { globals: [[["I64", true], ""]] }],
  ["a global of two constants", { globals: [[["I64", true], "42 00 42 00"]] }],
  ["a global of a size", { globals: [[["I32", true], "3F 00"]] }],
  ["a global of an imported one", { globals: [variable, [["I32", false], "23 00"]] }],
  ["a global of an imported one of another type", { globals: [variable, [["I64", false], "23 00"]] }],
  ["a global of an imported variable",
    { imports: [fn, ["Global", ["I32", true]]], globals: [[["I32", false], "23 00"]] }],
  ["a global of a variable that is defined", { globals: [variable, [["I64", false], "23 01"]] }],
  ["a global of a constant that is defined",
    { globals: [[["I32", false], "41 00"], [["I32", false], "23 01"]] }],
  ["a global of none", { globals: [variable, [["I32", false], "23 07"]] }],
];

// ---- segments, exports and the start function
const segment_cases = [
  ["a segment", { elements: [[0, "41 00", [1, 0]]] }],
  ["a segment without functions", { elements: [[0, "41 00", []]] }],
  ["a segment of no table", { elements: [[1, "41 00", [1]]] }],
  ["a segment where there is no table", { tables: [], elements: [[0, "41 00", [1]]] }],
  ["a segment of no function", { elements: [[0, "41 00", [1, 2]]] }],
  ["a segment at an i64", { elements: [[0, "42 00", [1]]] }],
  ["a segment at an imported global", { elements: [[0, "23 00", [1]]] }],
  // node takes imported ones alone; version 1.0 takes any constant of i32
  ["a segment at a constant that is defined",
    { globals: [[["I32", false], "41 00"]], elements: [[0, "23 01", [1]]] }, "None"],
  ["a segment at a variable", { elements: [[0, "23 01", [1]]] }],
  ["a segment at nothing", { elements: [[0, "", [1]]] }],
  ["data", { segments: [[0, "41 00"]] }],
  ["data of no memory", { segments: [[1, "41 00"]] }],
  ["data where there is no memory", { memories: [], segments: [[0, "41 00"]] }],
  ["data at an i64", { segments: [[0, "42 00"]] }],
  ["data at an imported global", { segments: [[0, "23 00"]] }],
  ["data at an imported global of i64",
    { imports: [fn, ["Global", ["I64", false]]], segments: [[0, "23 00"]] }],
  ["data at a constant that is defined", { globals: [[["I32", false], "41 00"]], segments: [[0, "23 01"]] },
    "None"],
  ["data at a variable", { segments: [[0, "23 01"]] }],
  ["data at no global", { segments: [[0, "23 07"]] }],
  ["data at nothing", { segments: [[0, ""]] }],
  ["data at two constants", { segments: [[0, "41 00 41 00"]] }],
  // exports
  ["exports of each kind", { exports: [["f", "Function", 1], ["t", "Table", 0], ["m", "Memory", 0],
    ["g", "Global", 1]] }],
  ["exports of what is imported", { exports: [["f", "Function", 0], ["g", "Global", 0]] }],
  ["one function by two names", { exports: [["f", "Function", 1], ["g", "Function", 1]] }],
  ["an export of no function", { exports: [["f", "Function", 2]] }],
  ["an export of no table", { exports: [["f", "Table", 1]] }],
  ["an export of no memory", { exports: [["f", "Memory", 1]] }],
  ["an export of no global", { exports: [["f", "Global", 2]] }],
  ["two exports of one name", { exports: [["f", "Function", 1], ["m", "Memory", 0], ["f", "Memory", 0]] }],
  ["an export without a name", { exports: [["", "Function", 1]] }],
  // the profile has no start function
  ["a start function", { functions: [1, 0], bodies: ["20 00", ""], start: 2 }, "RULE"],
  ["a start function with a parameter", { start: 1 }],
];

// ---- the tables
const { writeFileSync } = require("fs");
const body_table = (name, title, cases) => {
  const rows = cases.map(([hex, what, profile]) => {
    const answer = judged({ ...base, bodies: [hex] }) === "None";
    if (profile === answer) throw new Error(what);
    if (/["\\]/.test(what)) throw new Error(what);
    return `${hex} = ${(profile === undefined ? answer : profile) ? "valid" : "refused"}, ${what}`.trim();
  });
  return `/// ${title}.\npub(super) const ${name}: &str = "\\\n${rows.join("\n")}\n";\n`;
};
// the changes of the module above; where all parts of the bare one are given, those of the bare one
const changes = parts => {
  if (!Object.keys(bare).every(name => name in parts)) return Object.entries(parts).map(change);
  const others = Object.entries(parts).filter(([name, v]) =>
    JSON.stringify(v) !== JSON.stringify(bare[name]));
  return ["Change::Bare", ...others.map(change)];
};
const module_table = (name, title, modules) => {
  const rows = modules.map(([what, parts, profile]) => {
    const answer = judged({ ...base, ...parts });
    if (profile === answer) throw new Error(what);
    return `    // ${what}\n    (${list(changes(parts))}, ${profile || answer}),`;
  });
  return `/// ${title}.\npub(super) static ${name}: [Case; ${modules.length}] = [\n${rows.join("\n")}\n];\n`;
};
const parts_of = (name, title, m) => {
  const parts = Object.keys(base).map(part =>
    `    ${part}: ${part === "start" ? option(m.start) : list(m[part].map(value[part]))},`);
  return `${title}\npub(super) static ${name}: Parts = Parts {\n${parts.join("\n")}\n};\n`;
};
const around_title = "/// A module with one function: it takes an i32, has a local of i64 and gives an i32. \
Function 0 and global 0, an immutable\n\
/// i32, are imported; global 1 is a mutable i64; there is a table and a memory.";
const bare_title = "/// A module with one function alone, of no parameters, results and locals.";

writeFileSync(`${process.argv[2]}/validate_bodies.rt`,
  ["//! Bodies that `oracles/validity.js` wrote by node v20.20's answers, each on a line: in the binary \
format, without its `end`, and whether the module\n//! round it is valid.\n",
  body_table("BODIES", "Bodies with blocks of at most one type", bodies),
    body_table("SEVERAL", "Bodies with blocks that have parameters or several results", several)].join("\n"));
writeFileSync(`${process.argv[2]}/validate_modules.rt`,
  ["//! Modules that `oracles/validity.js` wrote by node v20.20's answers, by the parts that differ from \
those of a valid one.\nuse super::validate::{CONSTANT, Case, Change, FUNCTION, Parts, RULE};\n\
use bl_validate::Invalid;\nuse bl_wasm::WasmType::{F32, F64, I32, I64};\n\
use bl_wasm::{ExportKind, GlobalType, ImportKind, Limits};\n",
  parts_of("AROUND", around_title, base), parts_of("BARE", bare_title, { ...base, ...bare }),
  module_table("TYPES", "Types and functions", type_cases), module_table("CODE", "Code", code_cases),
    module_table("STORES", "Tables, memories and globals", store_cases),
  module_table("SEGMENTS", "Segments, exports and the start function", segment_cases)].join("\n"));
