exports.guarded = function guarded(list, k) {
  try {
    return list[k].name;
  } catch (e) {
    return e.message;
  } finally {
    list.done = true;
  }
};
exports.counted = function* counted() {
  for (let k = 0; k < 3; k++) yield k;
};
exports.worded = function worded(k) {
  switch (k) {
    case 4: return 'four';
    case 5: return 'five';
    case 6: return 'six';
    case 7: return 'seven';
  }
};
exports.nothing = function nothing() {};
