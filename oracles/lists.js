// Builds modules that import from one another, has node run them, and prints their sections and what they
// give: node oracles/lists.js
const leb = n => n < 128 ? [n] : [n & 127 | 128, ...leb(n >>> 7)];
const I = 0x7f;
const text = s => [...leb(s.length), ...Buffer.from(s)];
const vec = xs => [...leb(xs.length), ...xs.flat()];
const section = (id, xs) => xs.length ? (b => [id, ...leb(b.length), ...b])(vec(xs)) : [];
const type = (params, results) => [0x60, ...vec(params.map(t => [t])), ...vec(results.map(t => [t]))];
const limits = (min, max) => max === undefined ? [0, ...leb(min)] : [1, ...leb(min), ...leb(max)];
const code = items => (b => [...leb(b.length), ...b])([0, ...items, 0x0b]);
const custom = (name, bytes) => (b => [0, ...leb(b.length), ...b])([...text(name), ...bytes]);
const KIND = { f: 0, t: 1, m: 2, g: 3 };
// an import or an export: module, name, kind, and what is told of its type
const given = ([from, name, kind, ...of]) => [...text(from), ...text(name), KIND[kind],
  ...(kind == 't' ? [0x70] : []), ...of];
const shown = ([name, kind, index]) => [...text(name), KIND[kind], ...leb(index)];
function sections(m) {
  return [
    ...section(1, m.types || []), ...section(2, (m.imports || []).map(given)),
      ...section(3, (m.functions || []).map(leb)),
    ...section(4, (m.tables || []).map(l => [0x70, ...l])), ...section(5, m.memories || []),
      ...section(6, m.globals || []),
    ...section(7, (m.exports || []).map(shown)), ...section(9, m.elements || []),
      ...section(10, (m.bodies || []).map(code)),
    ...section(11, m.data || []),
  ];
}
const HEAD = [0, 0x61, 0x73, 0x6d, 1, 0, 0, 0];
const built = m => new WebAssembly.Module(Uint8Array.from([...HEAD, ...sections(m)]));
const at = n => [0x41, ...leb(n), 0x0b];
const segment = (offset, bytes) => [0, ...offset, ...vec(bytes.map(b => [b]))];

const one = type([I], [I]), none = type([], [I]);

// a: a memory, a table, two globals and a function that doubles
const base = {
  types: [one], functions: [0], tables: [limits(3, 3)], memories: [limits(1, 2)],
  globals: [[I, 1, ...at(5)], [I, 0, ...at(8)]],
  exports: [['m', 'm', 0], ['t', 't', 0], ['g', 'g', 0], ['c', 'g', 1], ['d', 'f', 0]],
  elements: [segment(at(0), [0])], bodies: [[0x20, 0, 0x41, 2, 0x6c]], data: [segment(at(0), [1, 2, 3, 4])],
};
// b: a function that adds to a's global and doubles it by a's function; it stands in a's table at 1, and its
// data in a's memory at the place that a's other global tells; it has a memory of no other module's
const middle = {
  types: [none, one],
  imports: [['a', 'c', 'g', I, 0], ['a', 'd', 'f', 1], ['a', 'm', 'm', 0, 1], ['a', 'g', 'g', I, 1],
    ['a', 't', 't', ...limits(2, 4)]],
  functions: [1],
  exports: [['s', 'f', 1], ['m', 'm', 0], ['t', 't', 0]],
  elements: [segment(at(1), [1])], bodies: [[0x20, 0, 0x23, 1, 0x6a, 0x24, 1, 0x23, 1, 0x10, 0]],
  data: [segment([0x23, 0, 0x0b], [10, 11])],
};
// c: its function f calls both by the table and b's by its name, grows the memory, stores what comes of it
// and gives it
const last = {
  types: [one],
  imports: [['b', 't', 't', ...limits(3, 3)], ['b', 's', 'f', 0], ['a', 'g', 'g', I, 1],
    ['b', 'm', 'm', ...limits(1, 2)]],
  functions: [0], exports: [['f', 'f', 1]],
  bodies: [[
    0x41, ...[0x90, 0x80, 0x04], // 65552: in the second page
    0x20, 0, 0x41, 0, 0x11, 0, 0, // d(x)
    0x20, 0, 0x41, 1, 0x11, 0, 0, 0x6a, // + s(x) by the table
    0x20, 0, 0x10, 0, 0x6a, // + s(x)
    0x41, 1, 0x40, 0, 0x6a, // + the pages before the growth
    0x41, 0, 0x28, 2, 8, 0x6a, // + the word at 8
    0x36, 2, 0, // is stored
    0x23, 0, 0x41, ...[0x90, 0x80, 0x04], 0x28, 2, 0, 0x6a, // + a's global
  ]],
};
const hex = bytes => bytes.map(b => '0x' + b.toString(16).toUpperCase().padStart(2, '0')).join(', ');
const print = (name, m) => console.log(name, sections(m).length, '[' + hex(sections(m)) + ']');
function rows(buffer, before) {
  const now = new Uint8Array(buffer), old = new Uint8Array(now.length);
  old.set(before);
  const lines = [];
  for (let i = 0; i < now.length; i += 16)
    if (now.slice(i, i + 16).some((b, k) => b != old[i + k])) lines.push('row 0 ' + i + ' '
      + Buffer.from(now.slice(i, i + 16)).toString('hex'));
  return lines;
}
const answer = f => {
  try { return 'returned i32 ' + (f() >>> 0); } catch (e) { return 'trapped ' + e.message; }
};

for (const x of [7, 4294967295]) {
  const a = new WebAssembly.Instance(built(base)).exports;
  const b = new WebAssembly.Instance(built(middle), { a }).exports;
  const c = new WebAssembly.Instance(built(last), { a, b }).exports;
  const before = new Uint8Array(a.m.buffer.slice(0));
  console.log('f', x, answer(() => c.f(x | 0)), '| pages', a.m.buffer.byteLength / 65536,
    rows(a.m.buffer, before));
}
print('BASE', base); print('MIDDLE', middle); print('LAST', last);

// growth, and a store in the page that comes
const growth = { types: [one], functions: [0], memories: [limits(1, 2)], exports: [['f', 'f', 0]],
  bodies: [[0x20, 0, 0x40, 0]] };
const storing = { types: [one], functions: [0], memories: [limits(1, 2)], exports: [['f', 'f', 0]],
  bodies: [[0x20, 0, 0x40, 0, 0x41, 0x80, 0x80, 0x04, 0x20, 0, 0x36, 2, 0]] };
const slots = {
  types: [type([], []), none, one], functions: [0, 1, 2], tables: [limits(3)], exports: [['f', 'f', 2]],
  elements: [segment(at(0), [0]), segment(at(2), [1])], bodies: [[], [0x41, 9], [0x20, 0, 0x11, 1, 0]],
};
for (const [name, m] of [['GROWTH', growth], ['STORING', storing], ['SLOTS', slots]]) {
  print(name, m);
  for (const x of [0, 1, 2, 3]) {
    const e = new WebAssembly.Instance(built(m)).exports;
    console.log(name, x, answer(() => e.f(x)));
  }
}
// a module as a C compiler gives it: the sum of words of a memory
const sum = {
  types: [type([I, I], [I])], functions: [0], tables: [limits(1, 1)], memories: [limits(2)],
    globals: [[I, 1, 0x41, 0x80, 0x88, 0x04, 0x0b]],
  exports: [['memory', 'm', 0], ['sum', 'f', 0]], bodies: [],
    data: [segment([0x41, 0x80, 0x08, 0x0b], [1, 0, 0, 0, 2, 0, 0, 0, 3, 0, 0, 0])],
};
const items = [0x02, 0x40, 0x20, 1, 0x45, 0x0d, 0, 0x03, 0x40, 0x20, 0, 0x28, 2, 0, 0x20, 2, 0x6a, 0x21, 2,
  0x20, 0, 0x41, 4, 0x6a, 0x21, 0, 0x20, 1, 0x41, 0x7f, 0x6a, 0x22, 1, 0x0d, 0, 0x0b, 0x0b, 0x20, 2];
const body = [1, 1, I, ...items, 0x0b];
const whole = [
  ...sections({ ...sum, data: [] }), 10, ...leb(body.length + 1 + leb(body.length).length), 1,
    ...leb(body.length), ...body,
  ...section(11, sum.data), ...custom('name', [0, 2, 1, 0x6d]), ...custom('producers', [0]),
];
console.log('SUM', whole.length, '[' + hex(whole) + ']');
const summed = new WebAssembly.Instance(new WebAssembly.Module(Uint8Array.from([...HEAD, ...whole]))).exports;
console.log('SUM', answer(() => summed.sum(1024, 3)));
// a module that calls another one's function twice, and one with a memory that no other one sees
const twice = { types: [one], imports: [['inc', 'inc', 'f', 0]], functions: [0], exports: [['f', 'f', 1]],
  bodies: [[0x20, 0, 0x10, 0, 0x10, 0]] };
const add = { types: [one], functions: [0], exports: [['inc', 'f', 0]], bodies: [[0x20, 0, 0x41, 1, 0x6a]] };
print('TWICE', twice);
console.log('TWICE', answer(() => new WebAssembly.Instance(built(twice),
  { inc: new WebAssembly.Instance(built(add)).exports }).exports.f(40)));
const bytes = { types: [one], functions: [0], memories: [limits(1, 1)], exports: [['f', 'f', 0]],
  bodies: [[0x20, 0, 0x2d, 0, 0, 0x2d, 0, 0]] };
print('BYTES', bytes);
console.log('BYTES', answer(() => new WebAssembly.Instance(built(bytes)).exports.f(65536)));
// modules that aren't linked behind base: node's reason of each
const refused = {
  UNKNOWN: { imports: [['a', 'g', 'g', I, 1], ['a', 'x', 'm', 0, 1]] },
  MISMATCHED: { imports: [['a', 'm', 'm', ...limits(1, 1)]] },
  ELEMENT: { types: [none], imports: [['a', 't', 't', 0, 1], ['a', 'm', 'm', 0, 1]], functions: [0],
    elements: [segment(at(2), [0, 0])], bodies: [[0x41, 9]],
    data: [segment(at(0), [1]), segment([0x41, 0x7f, 0x0b], [1])] },
  DATA: { imports: [['a', 'm', 'm', 0, 1]], data: [segment([0x41, 0x80, 0x80, 0x04, 0x0b], []),
    segment([0x41, 0xff, 0xff, 0x03, 0x0b], [1, 2])] },
};
for (const [name, m] of Object.entries(refused)) {
  print(name, m);
  const a = new WebAssembly.Instance(built(base)).exports;
  try {
    new WebAssembly.Instance(built(m), { a });
    console.log(name, 'is linked');
  } catch (e) { console.log(name, e.message); }
}
