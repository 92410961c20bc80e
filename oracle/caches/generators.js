'use strict';
// Generators, async functions and async generators.
exports.one = function* one() {
  yield 1;
};
exports.none = function* none() {};
exports.some = function* some(n) {
  for (let k = 0; k < n; k++) {
    const sent = yield k;
    if (sent) return sent;
  }
};
exports.other = function* other(list) {
  yield* list;
  return yield* exports.one();
};
exports.guarded = function* guarded(f) {
  try {
    yield f(1);
  } catch (e) {
    yield e;
  } finally {
    yield f(2);
  }
};
exports.shown = function* shown(list) {
  for (const [key, value = yield key] of list) yield `${key}: ${value}`;
};
exports.later = async function later(f) {
  return f();
};
exports.awaited = async (f, g) => (await f()) + (await g());
exports.retried = async function retried(f, n) {
  for (let k = 0; k < n; k++) {
    try {
      return await f(k);
    } catch (e) {
      if (k + 1 === n) throw e;
    } finally {
      await null;
    }
  }
};
exports.collected = async function collected(source) {
  const out = [];
  for await (const item of source) out.push(item);
  return out;
};
exports.streamed = async function* streamed(source) {
  for await (const item of source) {
    if (item === null) return;
    yield item;
  }
};
exports.delegated = async function* delegated(source) {
  try {
    yield* source;
  } finally {
    await source.close();
  }
};
exports.method = { *walk() { yield this; }, async wait() { await this; }, async *both() { yield await this; } };
exports.imported = (name) => import(name);
