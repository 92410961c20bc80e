'use strict';
// Switches: those with a jump table at each scale, and those without one.
exports.four = function four(k) {
  switch (k) {
    case 4: return 'four';
    case 5: return 'five';
    case 6: return 'six';
    case 7: return 'seven';
  }
};
exports.negative = function negative(k) {
  switch (k) {
    case -3: return 3;
    case -2: return 2;
    case -1: return 1;
    case 0: return 0;
    default: return -k;
  }
};
// Some numbers between the lowest and the highest have no case: their entries lead behind the cases.
exports.holes = function holes(k) {
  let out = '';
  switch (k) {
    case 1: out += 'a';
    case 2: out += 'b'; break;
    case 4: out += 'd'; break;
    case 7: out += 'g';
    case 9: out += 'i'; break;
    case 10: return out;
  }
  return out + k;
};
exports.words = function words(word) {
  switch (word) {
    case 'one': return 1;
    case 'two': return 2;
    case 3: return 3;
    default: return null;
  }
};
exports.inner = function inner(a, b) {
  switch (a) {
    case 0: case 1: case 2:
      switch (b) {
        case 0: return 1;
        case 1: return 2;
        case 2: return 3;
        case 3: return 4;
      }
      break;
    case 3: return 5;
    case 4: return 6;
  }
};
exports.looped = function looped(list) {
  let at = 0, out = 0;
  for (;;) {
    switch (list[at++]) {
      case 0: return out;
      case 1: out++; continue;
      case 2: out--; break;
      case 3: out *= 2; break;
      case 4: { const k = at; out += (() => k)(); }
    }
    out = -out;
  }
};
exports.finished = function finished(k, f) {
  try {
    switch (k) {
      case 1: return f(1);
      case 2: f(2); break;
      case 3: throw f(3);
      case 4: f(4);
    }
  } finally {
    f(0);
  }
  return f(5);
};
exports.resumed = function* resumed(k) {
  switch (k) {
    case 0: yield 'a';
    case 1: yield 'b';
    case 2: yield 'c';
    case 3: yield 'd';
  }
};

// Under a prefix.
exports.wideCases = function wideCases(k) {
  switch (k) {
    case 1000: return 'a';
    case 1001: return 'b';
    case 1002: return 'c';
    case 1003: return 'd';
    case 1004: return 'e';
    case 1005: return 'f';
  }
};
exports.extraWideCases = function extraWideCases(k) {
  switch (k) {
    case 100000: return 'a';
    case 100001: return 'b';
    case 100002: return 'c';
    case 100003: return 'd';
    case 100004: return 'e';
    case 100005: return 'f';
  }
};
// Numbers without a case, below zero and near the end of what V8's int holds (with a case 2147483647 V8 11.3 stops with a fatal error).
exports.wideHoles = function wideHoles(k) {
  let out = '';
  switch (k) {
    case -1000: out += 'a';
    case -999: out += 'b'; break;
    case -997: out += 'd'; break;
    case -994: out += 'g';
    case -992: return out;
    case -991: out += 'j';
  }
  return out + k;
};
exports.extraWideLast = function extraWideLast(k) {
  switch (k) {
    case 2147483640: return 'a';
    case 2147483641: return 'b';
    case 2147483643: return 'd';
    case 2147483644: return 'e';
    case 2147483645: return 'f';
    case 2147483646: return 'g';
  }
};
// Cases that begin with an instruction under a prefix: an entry is its prefix byte. One of them is a switch.
exports.wideToWide = function wideToWide(a, b) {
  switch (a) {
    case 300: return 1000;
    case 301: return 100000;
    case 302:
      switch (b) {
        case -70000: return 2000;
        case -69999: return 200000;
        case -69998: return 3000;
        case -69997: return 300000;
        case -69996: return 5000;
        case -69995: return 500000;
      }
    case 303: return 4000;
    case 304: return 400000;
    case 305: return -4000;
  }
};
// In a loop, and in a generator, whose own switch has no prefix.
exports.wideLooped = function wideLooped(list) {
  let at = 0, out = 0;
  for (;;) {
    switch (list[at++]) {
      case 500: return out;
      case 501: out++; continue;
      case 502: out--; break;
      case 503: out *= 2; break;
      case 504: { const k = at; out += (() => k)(); }
      case 505: out >>= 1;
    }
    out = -out;
  }
};
exports.wideResumed = function* wideResumed(k) {
  switch (k) {
    case 600: yield 'a';
    case 601: yield 'b';
    case 602: yield 'c';
    case 603: yield 'd';
    case 604: yield 'e';
    case 605: return;
  }
};
// A table of 257 entries does not fit behind the pool's first 256 elements, which stay holes: it begins at 256.
exports.manyCases = function manyCases(k) {
  switch (k) {
    case 0: case 1: case 2: case 3: case 4: case 5: case 6: case 7: return 0;
    case 8: case 9: case 10: case 11: case 12: case 13: case 14: case 15: return 8;
    case 16: case 17: case 18: case 19: case 20: case 21: case 22: case 23: return 16;
    case 24: case 25: case 26: case 27: case 28: case 29: case 30: case 31: return 24;
    case 32: case 33: case 34: case 35: case 36: case 37: case 38: case 39: return 32;
    case 40: case 41: case 42: case 43: case 44: case 45: case 46: case 47: return 40;
    case 48: case 49: case 50: case 51: case 52: case 53: case 54: case 55: return 48;
    case 56: case 57: case 58: case 59: case 60: case 61: case 62: case 63: return 56;
    case 64: case 65: case 66: case 67: case 68: case 69: case 70: case 71: return 64;
    case 72: case 73: case 74: case 75: case 76: case 77: case 78: case 79: return 72;
    case 80: case 81: case 82: case 83: case 84: case 85: case 86: case 87: return 80;
    case 88: case 89: case 90: case 91: case 92: case 93: case 94: case 95: return 88;
    case 96: case 97: case 98: case 99: case 100: case 101: case 102: case 103: return 96;
    case 104: case 105: case 106: case 107: case 108: case 109: case 110: case 111: return 104;
    case 112: case 113: case 114: case 115: case 116: case 117: case 118: case 119: return 112;
    case 120: case 121: case 122: case 123: case 124: case 125: case 126: case 127: return 120;
    case 128: case 129: case 130: case 131: case 132: case 133: case 134: case 135: return 128;
    case 136: case 137: case 138: case 139: case 140: case 141: case 142: case 143: return 136;
    case 144: case 145: case 146: case 147: case 148: case 149: case 150: case 151: return 144;
    case 152: case 153: case 154: case 155: case 156: case 157: case 158: case 159: return 152;
    case 160: case 161: case 162: case 163: case 164: case 165: case 166: case 167: return 160;
    case 168: case 169: case 170: case 171: case 172: case 173: case 174: case 175: return 168;
    case 176: case 177: case 178: case 179: case 180: case 181: case 182: case 183: return 176;
    case 184: case 185: case 186: case 187: case 188: case 189: case 190: case 191: return 184;
    case 192: case 193: case 194: case 195: case 196: case 197: case 198: case 199: return 192;
    case 200: case 201: case 202: case 203: case 204: case 205: case 206: case 207: return 200;
    case 208: case 209: case 210: case 211: case 212: case 213: case 214: case 215: return 208;
    case 216: case 217: case 218: case 219: case 220: case 221: case 222: case 223: return 216;
    case 224: case 225: case 226: case 227: case 228: case 229: case 230: case 231: return 224;
    case 232: case 233: case 234: case 235: case 236: case 237: case 238: case 239: return 232;
    case 240: case 241: case 242: case 243: case 244: case 245: case 246: case 247: return 240;
    case 248: case 249: case 250: case 251: case 252: case 253: case 254: case 255: return 248;
    case 256: return 256;
  }
};
// More than 255 places to resume at: the generator's own switch has a prefix.
exports.manyYields = function* manyYields(f) {
  yield; yield; yield; yield; yield; yield; yield; yield; yield; yield; yield; yield; yield; yield; yield; yield; yield; yield; yield; yield;
  yield; yield; yield; yield; yield; yield; yield; yield; yield; yield; yield; yield; yield; yield; yield; yield; yield; yield; yield; yield;
  yield; yield; yield; yield; yield; yield; yield; yield; yield; yield; yield; yield; yield; yield; yield; yield; yield; yield; yield; yield;
  yield; yield; yield; yield; yield; yield; yield; yield; yield; yield; yield; yield; yield; yield; yield; yield; yield; yield; yield; yield;
  yield; yield; yield; yield; yield; yield; yield; yield; yield; yield; yield; yield; yield; yield; yield; yield; yield; yield; yield; yield;
  yield; yield; yield; yield; yield; yield; yield; yield; yield; yield; yield; yield; yield; yield; yield; yield; yield; yield; yield; yield;
  yield; yield; yield; yield; yield; yield; yield; yield; yield; yield; yield; yield; yield; yield; yield; yield; yield; yield; yield; yield;
  yield; yield; yield; yield; yield; yield; yield; yield; yield; yield; yield; yield; yield; yield; yield; yield; yield; yield; yield; yield;
  yield; yield; yield; yield; yield; yield; yield; yield; yield; yield; yield; yield; yield; yield; yield; yield; yield; yield; yield; yield;
  yield; yield; yield; yield; yield; yield; yield; yield; yield; yield; yield; yield; yield; yield; yield; yield; yield; yield; yield; yield;
  yield; yield; yield; yield; yield; yield; yield; yield; yield; yield; yield; yield; yield; yield; yield; yield; yield; yield; yield; yield;
  yield; yield; yield; yield; yield; yield; yield; yield; yield; yield; yield; yield; yield; yield; yield; yield; yield; yield; yield; yield;
  yield; yield; yield; yield; yield; yield; yield; yield; yield; yield; yield; yield; yield; yield; yield; yield; yield; yield; yield; yield;
  yield; yield; yield; yield; yield; yield; yield; yield; yield; yield; yield; yield; yield; yield; yield; yield; yield; yield; yield; yield;
  yield; yield; yield; yield; yield; yield; yield; yield; yield; yield; yield; yield; yield; yield; yield; yield; yield; yield; yield; yield;
};
// Of these places all but the first few cannot be reached, so that no code resumes there: their elements are no small integers.
exports.unreachedYields = function* unreachedYields(f) {
  yield 1;
  f(yield 2);
  return;
  yield; yield; yield; yield; yield; yield; yield; yield; yield; yield; yield; yield; yield; yield; yield; yield; yield; yield; yield; yield;
  yield; yield; yield; yield; yield; yield; yield; yield; yield; yield; yield; yield; yield; yield; yield; yield; yield; yield; yield; yield;
  yield; yield; yield; yield; yield; yield; yield; yield; yield; yield; yield; yield; yield; yield; yield; yield; yield; yield; yield; yield;
  yield; yield; yield; yield; yield; yield; yield; yield; yield; yield; yield; yield; yield; yield; yield; yield; yield; yield; yield; yield;
  yield; yield; yield; yield; yield; yield; yield; yield; yield; yield; yield; yield; yield; yield; yield; yield; yield; yield; yield; yield;
  yield; yield; yield; yield; yield; yield; yield; yield; yield; yield; yield; yield; yield; yield; yield; yield; yield; yield; yield; yield;
  yield; yield; yield; yield; yield; yield; yield; yield; yield; yield; yield; yield; yield; yield; yield; yield; yield; yield; yield; yield;
  yield; yield; yield; yield; yield; yield; yield; yield; yield; yield; yield; yield; yield; yield; yield; yield; yield; yield; yield; yield;
  yield; yield; yield; yield; yield; yield; yield; yield; yield; yield; yield; yield; yield; yield; yield; yield; yield; yield; yield; yield;
  yield; yield; yield; yield; yield; yield; yield; yield; yield; yield; yield; yield; yield; yield; yield; yield; yield; yield; yield; yield;
  yield; yield; yield; yield; yield; yield; yield; yield; yield; yield; yield; yield; yield; yield; yield; yield; yield; yield; yield; yield;
  yield; yield; yield; yield; yield; yield; yield; yield; yield; yield; yield; yield; yield; yield; yield; yield; yield; yield; yield; yield;
  yield; yield; yield; yield; yield; yield; yield; yield; yield; yield; yield; yield; yield; yield; yield; yield; yield; yield; yield; yield;
  yield; yield; yield; yield; yield; yield; yield; yield; yield; yield; yield; yield; yield; yield; yield; yield; yield; yield; yield; yield;
  yield; yield; yield; yield; yield; yield; yield; yield; yield; yield; yield; yield; yield; yield; yield; yield; yield; yield; yield; yield;
};
