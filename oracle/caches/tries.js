'use strict';
// Functions with entries in the handler table: try, catch and finally in each order and depth, and the handlers that V8 writes of its own accord, for
// loops over iterators, destructuring, async functions and generators.

// One try.
exports.caught = function caught(f) {
  try {
    f();
  } catch (e) {
    return e;
  }
};
exports.ignored = function ignored(f) {
  try {
    return f();
  } catch {}
};
exports.parts = function parts(f) {
  try {
    return f();
  } catch ({ name, message: [first, ...rest] }) {
    return [name, first, rest];
  }
};
exports.last = function last(f, g) {
  try {
    f();
  } finally {
    g();
  }
};
exports.whole = function whole(f, g, h) {
  try {
    return f();
  } catch (e) {
    return g(e);
  } finally {
    h();
  }
};
exports.again = function again(f) {
  try {
    f();
  } catch (e) {
    throw e;
  }
};
exports.always = function always(e) {
  try {
    throw e;
  } catch (caught) {
    return caught;
  }
};
exports.thrown = function thrown(e) {
  try {
    throw e;
  } finally {
    e.done = true;
  }
};
exports.returned = function returned() {
  try {
    return 1;
  } finally {
    return 2;
  }
};
exports.captured = function captured(f) {
  try {
    return f();
  } catch (e) {
    return () => e;
  }
};
// Their try has no instruction: the entry is empty.
exports.empty = function empty() {
  try {
  } catch (e) {
    return e;
  }
  return 0;
};
exports.emptyBeside = function emptyBeside(f) {
  try {
  } catch {
    return 1;
  }
  try {
    f();
  } catch {
    return 2;
  }
};

// One behind the other.
exports.two = function two(f, g) {
  try {
    f();
  } catch {}
  try {
    g();
  } catch {}
};
exports.six = function six(f) {
  let n = 0;
  try { f(0); } catch { n++; }
  try { f(1); } catch { n++; }
  try { f(2); } finally { n++; }
  try { f(3); } catch { n++; } finally { n++; }
  try { f(4); } catch { n++; }
  try { f(5); } finally { n++; }
  return n;
};
exports.chosen = function chosen(k, f) {
  switch (k) {
    case 0: try { return f(0); } catch { return 0; }
    case 1: try { f(1); } finally { k = 2; } break;
    case 2: try { f(2); } catch (e) { k = e; }
    case 3: return 3;
    case 4: throw k;
    case 5: try { throw f; } catch (e) { e(); }
    default: return k;
  }
};

// Within one another.
exports.inner = function inner(f) {
  try {
    try {
      f();
    } catch (e) {
      f(e);
    }
  } catch (e) {
    return e;
  }
};
exports.innerLast = function innerLast(f) {
  try {
    try {
      f(1);
    } finally {
      f(2);
    }
  } finally {
    f(3);
  }
};
exports.inCatch = function inCatch(f) {
  try {
    f(1);
  } catch (a) {
    try {
      f(a);
    } catch (b) {
      try {
        f(b);
      } catch (c) {
        return c;
      }
    }
  }
};
exports.inFinally = function inFinally(f) {
  try {
    f(1);
  } finally {
    try {
      f(2);
    } catch (e) {
      f(e);
    } finally {
      f(3);
    }
  }
};
exports.deep = function deep(f) {
  try {
    f(0);
    try {
      f(1);
      try {
        f(2);
        try {
          f(3);
          try { f(4); } catch { f(5); } finally { f(6); }
        } catch { f(7); }
      } finally { f(8); }
    } catch { f(9); } finally { f(10); }
  } catch { f(11); }
};
exports.everywhere = function everywhere(f) {
  try {
    try { f(1); } finally { f(2); }
  } catch (e) {
    try { f(e); } finally { f(3); }
  } finally {
    try { f(4); } finally { f(5); }
  }
};

// Loops, and ways out of them.
exports.looped = function looped(f) {
  for (let k = 0; k < 9; k++) {
    try {
      if (f(k)) continue;
      if (f(-k)) break;
      if (f()) return k;
    } catch (e) {
      if (e) continue;
      break;
    } finally {
      f(null);
    }
  }
};
exports.endless = function endless(f) {
  for (;;) {
    try {
      f();
    } catch {}
  }
};
exports.whiled = function whiled(f) {
  while (f()) {
    try {
      do {
        f(1);
      } while (f(2));
    } finally {
      if (f(3)) break;
    }
  }
};
exports.labelled = function labelled(f) {
  outer: for (const a in f) {
    for (const b in f[a]) {
      try {
        if (b) continue outer;
        if (a) break outer;
        f(a, b);
      } finally {
        f(b, a);
      }
    }
  }
};
exports.around = function around(f) {
  try {
    for (let k = 0; k < f.length; k++) {
      for (let j = k; j < f.length; j++) f(k, j);
    }
  } catch (e) {
    return e;
  }
};
exports.each = function each(list, f) {
  for (const item of list) f(item);
};
exports.eachTried = function eachTried(list, f) {
  for (const item of list) {
    try {
      f(item);
    } catch (e) {
      return e;
    }
  }
};
exports.triedEach = function triedEach(list, f) {
  try {
    for (const item of list) if (f(item)) return item;
  } catch {
    return null;
  } finally {
    f();
  }
};
exports.eachOfEach = function eachOfEach(lists) {
  let sum = 0;
  outer: for (const list of lists) {
    for (const item of list) {
      if (item < 0) continue outer;
      if (item > 9) break outer;
      sum += item;
    }
  }
  return sum;
};
exports.pairs = function pairs(map) {
  const out = {};
  for (const [key, { value = key, ...rest }] of map) out[key] = [value, rest];
  return out;
};

// Iterators without a loop.
exports.listed = function listed([a, b = a, ...c]) {
  return [c, b, a];
};
exports.assigned = function assigned(from, to) {
  [to.a, to.b = to.a, ...to.c] = from;
  return to;
};
exports.nested = function nested([[a, [b]], { c: [d] }]) {
  return a + b + d;
};
exports.spread = function spread(f, ...lists) {
  try {
    return f(...lists[0], ...lists[1]);
  } finally {
    lists.length = 0;
  }
};

// Classes and contexts.
exports.scoped = function scoped(f) {
  try {
    let a = f();
    {
      let b = () => a;
      f(b, () => b);
    }
  } catch (e) {
    let c = () => e;
    f(c, () => c);
  } finally {
    let d = f(() => f);
    f(() => d);
  }
};
exports.Made = class Made {
  #f = 0;
  static #count = 0;
  static {
    try {
      Made.#count = Made.missing();
    } catch {
      Made.#count = 1;
    }
  }
  constructor(f) {
    try {
      this.#f = f();
    } finally {
      Made.#count++;
    }
  }
  get value() {
    try {
      return this.#f.value;
    } catch {
      return undefined;
    }
  }
};
exports.Derived = class Derived extends exports.Made {
  constructor(f) {
    try {
      super(f);
    } catch (e) {
      super(() => e);
    }
  }
};
exports.early = function early(f) {
  try {
    f(late);
    let late = 1;
  } catch (e) {
    return e instanceof ReferenceError;
  }
};
exports.typed = function typed(x) {
  try {
    return typeof x.y.z === 'string' ? x?.y.z.length : new x.y(...x.z);
  } catch (e) {
    return `${e}` in x;
  }
};

// Generators.
exports.counted = function* counted(n) {
  try {
    for (let k = 0; k < n; k++) yield k;
  } finally {
    n = 0;
  }
};
exports.asked = function* asked(f) {
  for (;;) {
    try {
      f(yield);
    } catch (e) {
      yield e;
    }
  }
};
exports.passed = function* passed(list) {
  try {
    return yield* list;
  } catch (e) {
    yield* e;
  } finally {
    yield 1;
  }
};
exports.yielding = function* yielding(lists) {
  for (const list of lists) for (const item of list) yield item;
};
exports.yieldingDeep = function* yieldingDeep(f) {
  try {
    yield 1;
    try {
      yield 2;
    } finally {
      yield 3;
      try {
        yield 4;
      } catch {
        yield 5;
      }
    }
  } catch (e) {
    yield e;
  }
};

// Async functions: V8 writes a handler around the whole.
exports.plain = async function plain() {};
exports.waited = async function waited(f) {
  return await f();
};
exports.arrow = async (f) => {
  await f;
};
exports.retried = async function retried(f, n) {
  for (let k = 0; k < n; k++) {
    try {
      return await f(k);
    } catch (e) {
      await e;
    }
  }
};
exports.closed = async function closed(f, g) {
  try {
    await f();
  } finally {
    await g();
  }
};
exports.streamed = async function streamed(source, f) {
  for await (const item of source) await f(item);
};
exports.streamedTried = async function streamedTried(sources, f) {
  try {
    for await (const source of sources) {
      for await (const { item = f() } of source) {
        if (item) continue;
        if (f(item)) return item;
        try {
          await item;
        } catch (e) {
          f(e);
        } finally {
          await f;
        }
      }
    }
  } catch (e) {
    return e;
  }
};
exports.defaults = async function defaults(a = 1, [b] = [a], { c } = b) {
  return a + b + c;
};
exports.method = {
  async wait(f) {
    try {
      return await this.wait(f);
    } catch {
      return f;
    }
  },
  *[Symbol.iterator]() {
    try {
      yield this;
    } finally {
      this.done = true;
    }
  },
  async *all(f) {
    try {
      yield await f();
    } finally {
      await this.wait(f);
    }
  },
};

// Async generators.
exports.made = async function* made(n) {
  for (let k = 0; k < n; k++) yield k;
};
exports.handed = async function* handed(source) {
  yield* source;
};
exports.guarded = async function* guarded(source, f) {
  try {
    for await (const item of source) {
      try {
        yield await f(item);
      } catch (e) {
        yield e;
      }
    }
  } catch (e) {
    return e;
  } finally {
    await f();
  }
};
exports.returning = async function* returning(f) {
  try {
    yield 1;
    return f;
  } finally {
    yield 2;
  }
};

// Ranges under a prefix: more than 128 registers, and handlers more than 255 bytes away.
exports.wide = function wide(f) {
  let [a0, a1, a2, a3, a4, a5, a6, a7, a8, a9] = f(0);
  let [b0, b1, b2, b3, b4, b5, b6, b7, b8, b9] = f(1);
  let [c0, c1, c2, c3, c4, c5, c6, c7, c8, c9] = f(2);
  let x0, x1, x2, x3, x4, x5, x6, x7, x8, x9, y0, y1, y2, y3, y4, y5, y6, y7, y8, y9;
  let z0, z1, z2, z3, z4, z5, z6, z7, z8, z9, w0, w1, w2, w3, w4, w5, w6, w7, w8, w9;
  let u0, u1, u2, u3, u4, u5, u6, u7, u8, u9, v0, v1, v2, v3, v4, v5, v6, v7, v8, v9;
  let s0, s1, s2, s3, s4, s5, s6, s7, s8, s9, t0, t1, t2, t3, t4, t5, t6, t7, t8, t9;
  let q0, q1, q2, q3, q4, q5, q6, q7, q8, q9, r0, r1, r2, r3, r4, r5, r6, r7, r8, r9;
  try {
    t0 = f(a0, b0, c0, x0, y0, z0, w0, u0, v0, s0);
    r9 = f(t0, q0, r0, a9, b9, c9);
    for (const t of r9) f(t, t0, t1, t9);
  } catch (e) {
    r8 = e;
    throw f(e, r8, r9, q9, s9, u9);
  } finally {
    f(a1, b1, c1, x1, y1, z1, w1, u1, v1, s1, t1, q1, r1);
  }
  return r9;
};
