// What strict mode does not have: with, arguments that alias, eval, a global of no declaration.
exports.within = function within(a) {
  with (a) return b + c;
};
exports.listed = function listed(a, b) {
  arguments[0] = b;
  return arguments.length + a;
};
exports.evaluated = function evaluated(text) {
  var here = 1;
  return eval(text) + here;
};
exports.globals = function globals() {
  undeclared = typeof absent;
  return undeclared;
};
exports.hoisted = function hoisted(a) {
  if (a) {
    function inner() {
      return a;
    }
  }
  return inner;
};
