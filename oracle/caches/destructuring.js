'use strict';
// Destructuring of arrays and objects, in declarations, parameters, assignments and loops.
exports.pair = ([a, b]) => a + b;
exports.sparse = ([, a, , b = 2]) => a + b;
exports.rested = ([first, ...rest]) => [rest, first];
exports.named = ({ a, b: c, 'd e': f = 3 }) => a + c + f;
exports.keyed = (k, { [k]: value, ...others }) => [value, others];
exports.deep = ({ a: { b: [{ c }] = [{}] } = {} }) => c;
exports.swapped = function swapped(a, b) {
  [a, b] = [b, a];
  return [a, b];
};
exports.placed = function placed(target, source) {
  ({ a: target.x, b: target['y'], ...target.rest } = source);
  [target.first, ...target.others] = source.list;
  return target;
};
exports.looped = function looped(list) {
  let sum = 0;
  for (const { a, b: [c] = [1] } of list) sum += a + c;
  for (const [k, v] of Object.entries(list)) sum += k.length + v;
  return sum;
};
exports.closed = function closed(iterator) {
  const [a, [b]] = iterator;
  return () => a + b;
};
exports.defaulted = function defaulted({ a = 1, b = a } = {}, [c = b] = []) {
  return a + b + c;
};
exports.caught = function caught(f) {
  try {
    f();
  } catch ([a, { b }]) {
    return a + b;
  }
};
