'use strict';
// try, catch and finally, alone, together and within one another.
exports.caught = function caught(f) {
  try {
    return f();
  } catch (e) {
    return e.message;
  }
};
exports.unbound = function unbound(f) {
  try {
    f();
  } catch {
    return 1;
  }
  return 2;
};
exports.finished = function finished(f, g) {
  try {
    return f();
  } finally {
    g();
  }
};
exports.both = function both(f, g) {
  try {
    f(1);
  } catch (e) {
    f(e);
  } finally {
    g();
  }
};
// The try has no instruction: its entry in the handler table is empty.
exports.emptied = function emptied() {
  try {
  } catch (e) {
    return e;
  }
};
exports.left = function left(list, f) {
  for (const item of list) {
    try {
      if (item === 1) continue;
      if (item === 2) break;
      if (item === 3) return item;
      f(item);
    } finally {
      f(null);
    }
  }
  return 0;
};
exports.overruled = function overruled(f) {
  for (;;) {
    try {
      return f();
    } catch {
      continue;
    } finally {
      break;
    }
  }
};
exports.within = function within(f) {
  try {
    try {
      f(1);
    } catch (e) {
      try {
        f(2);
      } finally {
        f(3);
      }
    } finally {
      f(4);
    }
  } catch ({ message, cause: { code } = {} }) {
    return message + code;
  }
};
exports.again = function again(f) {
  for (let k = 0; k < 3; k++) {
    try {
      return f(k);
    } catch (e) {
      if (k === 2) throw e;
    }
  }
};
exports.thrown = function thrown(kind) {
  try {
    throw kind;
  } catch (e) {
    throw new Error('again', { cause: e });
  }
};
