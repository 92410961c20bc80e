'use strict';
// Handler tables: each function has another form of try, of a loop that closes its iterator, or of a function that can be suspended.
exports.none = function none(f) {
  return f();
};
exports.caught = function caught(f) {
  try {
    return f();
  } catch (e) {
    return e.message;
  }
};
exports.finished = function finished(f, g) {
  try {
    f();
  } finally {
    g();
  }
};
exports.both = function both(f, g) {
  try {
    return f(1);
  } catch ({ message, cause: { code } = {} }) {
    return f(message + code);
  } finally {
    g();
  }
};
exports.nested = function nested(f) {
  try {
    try {
      f(1);
    } catch (e) {
      try {
        f(2);
      } finally {
        f(3);
      }
    } finally {
      try {
        f(4);
      } catch {
        f(5);
      }
    }
  } catch (e) {
    throw new Error('again', { cause: e });
  }
};
// The try has no instruction: start and end of its entry are equal.
exports.emptied = function emptied() {
  try {
  } catch (e) {
    return e;
  }
};
exports.iterated = function iterated(list, f) {
  for (const [key, value = 1] of list) {
    try {
      if (key === 1) continue;
      if (key === 2) break;
      if (key === 3) return value;
      f(key);
    } finally {
      f(null);
    }
  }
  return 0;
};
exports.generated = function* generated(list) {
  try {
    for (const item of list) yield item;
    yield* list;
  } catch (e) {
    yield e;
  } finally {
    yield 0;
  }
};
exports.awaited = async function awaited(f) {
  try {
    return await f();
  } catch (e) {
    await f(e);
  } finally {
    await null;
  }
};
exports.streamed = async function* streamed(list) {
  for await (const item of list) {
    try {
      yield await item;
    } catch {
      return;
    }
  }
};
exports.thrown = (f) => {
  for (let k = 0; k < 3; k++) {
    try {
      throw f(k);
    } catch (e) {
      if (k === 2) throw e;
    }
  }
};
exports.Held = class Held {
  #list = [];
  static made(f) {
    try {
      return new Held(f);
    } catch {
      return null;
    }
  }
  *[Symbol.iterator]() {
    for (const item of this.#list) {
      try {
        yield item;
      } finally {
        this.#list.length = 0;
      }
    }
  }
};
// Behind more than 255 bytes: offsets above one byte, and instructions with a prefix within a try.
exports.long = function long(f, o) {
  f(o.a0, o.a1, o.a2, o.a3, o.a4, o.a5, o.a6, o.a7, o.a8, o.a9, o.b0, o.b1, o.b2, o.b3, o.b4, o.b5, o.b6, o.b7, o.b8, o.b9);
  f(o.c0, o.c1, o.c2, o.c3, o.c4, o.c5, o.c6, o.c7, o.c8, o.c9, o.d0, o.d1, o.d2, o.d3, o.d4, o.d5, o.d6, o.d7, o.d8, o.d9);
  f(o.e0, o.e1, o.e2, o.e3, o.e4, o.e5, o.e6, o.e7, o.e8, o.e9, o.f0, o.f1, o.f2, o.f3, o.f4, o.f5, o.f6, o.f7, o.f8, o.f9);
  f(o.g0, o.g1, o.g2, o.g3, o.g4, o.g5, o.g6, o.g7, o.g8, o.g9, o.h0, o.h1, o.h2, o.h3, o.h4, o.h5, o.h6, o.h7, o.h8, o.h9);
  f(o.i0, o.i1, o.i2, o.i3, o.i4, o.i5, o.i6, o.i7, o.i8, o.i9, o.j0, o.j1, o.j2, o.j3, o.j4, o.j5, o.j6, o.j7, o.j8, o.j9);
  f(o.k0, o.k1, o.k2, o.k3, o.k4, o.k5, o.k6, o.k7, o.k8, o.k9, o.l0, o.l1, o.l2, o.l3, o.l4, o.l5, o.l6, o.l7, o.l8, o.l9);
  f(o.m0, o.m1, o.m2, o.m3, o.m4, o.m5, o.m6, o.m7, o.m8, o.m9, o.n0, o.n1, o.n2, o.n3, o.n4, o.n5, o.n6, o.n7, o.n8, o.n9);
  try {
    f(o.x0, o.x1, 300, 70000);
  } catch (e) {
    f(e.x2, 400);
  }
};
