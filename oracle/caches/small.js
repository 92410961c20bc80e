'use strict';
// Short functions: none, one and a few instructions, literals, operators, calls.
exports.nothing = function nothing() {};
exports.arrow = () => {};
exports.itself = (value) => value;
exports.zero = () => 0;
exports.minus = () => -1;
exports.bytes = () => [127, 128, -128, -129];
exports.wide = () => 1000;
exports.wider = () => 100000;
exports.widest = () => -2147483648;
exports.bigint = () => 12345678901234567890n;
exports.pattern = (text) => /a(b+)c/giu.test(text);
exports.literal = () => ({ a: 1, b: [1, , 3], c: { d: null }, 'e f': undefined, 7: true });
exports.template = (a, b) => `${a} and ${b}, ${a + b}`;
exports.tagged = (tag, a) => tag`one ${a} two`;
exports.typed = (a) => typeof a === 'string' || typeof a === 'undefined' || typeof a === 'function' || typeof a === 'bigint';
exports.voided = (a) => void a;
exports.removed = (a, k) => delete a.b && delete a[k];
exports.tested = (a, B) => 'a' in a && a instanceof B && !a;
exports.chained = (a, k) => a?.b?.[k]?.c(1) ?? a?.d ?? 'none';
exports.assigned = function assigned(a) {
  a.b ??= 1;
  a.c ||= 2;
  a.d &&= 3;
  a.e **= 4;
  a.f >>>= 5;
  return a.g++ + --a.h;
};
exports.mathed = (a, b) => (a + b) * (a - b) / (a % b) ** (a | b) ^ (a & b) << (a >> b) >>> ~a;
exports.compared = (a, b) => a == b || a != b || a === b || a !== b || a < b || a > b || a <= b || a >= b;
exports.noted = (a) => [a == null, a === null, a === undefined, a != null, a !== undefined];
exports.called = (f, a) => [f(), f(a), f(a, 1), f(a, 1, 2), a.f(), a.f(1), a.f(1, 2), a.f(1, 2, 3)];
exports.spread = (f, a) => [f(...a), new f(...a), [...a, 1, ...a], { ...a, b: 1 }];
exports.defaults = function defaults(a = 1, { b = 2 } = {}, ...rest) {
  return [a, b, rest, defaults.name];
};
exports.counted = function counted(n) {
  let sum = 0;
  for (let k = 0; k < n; k++) sum += k;
  do sum -= n; while (sum > 0);
  while (n--) sum++;
  return sum;
};
exports.nested = function nested(n) {
  let sum = 0;
  outer: for (let i = 0; i < n; i++) {
    for (let j = i; j < n; j++) {
      if (j === 3) continue outer;
      if (i === 5) break outer;
      for (let k = j; k < n; k++) sum += k;
    }
  }
  return sum;
};
exports.keys = function keys(a) {
  const out = [];
  for (const k in a) if (a.hasOwnProperty(k)) out.push(k);
  return out;
};
exports.closed = function closed(n) {
  const out = [];
  for (let k = 0; k < n; k++) out.push(() => k + n);
  return out;
};
exports.early = function early(a) {
  if (a) return value;
  const value = a;
  return () => value;
};
exports.stopped = function stopped() {
  debugger;
  throw new Error('stopped');
};
