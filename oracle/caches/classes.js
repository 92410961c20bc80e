'use strict';
// Classes: fields, private names, accessors, static parts, super, new.target.
class Base {
  constructor(name) {
    this.name = name;
    this.made = new.target;
  }
  get label() {
    return `<${this.name}>`;
  }
  set label(text) {
    this.name = text;
  }
  static of(...names) {
    return names.map((name) => new this(name));
  }
  toString() {
    return this.label;
  }
}
class Empty {}
class Derived extends Base {
  #count = 0;
  static #made = 0;
  static total = 7;
  open = true;
  ['computed' + 1] = () => this.#count;
  static {
    this.#made = this.total;
  }
  constructor(name, count) {
    super(name);
    this.#count = count;
    Derived.#made++;
  }
  get #hidden() {
    return this.#count;
  }
  set #hidden(count) {
    this.#count = count;
  }
  #step(by) {
    return this.#hidden += by;
  }
  next() {
    return this.#step(1);
  }
  get label() {
    return super.label + this.#count;
  }
  toString() {
    return `${super.toString()} ${super['made']}`;
  }
  static is(other) {
    return #count in other && other instanceof Derived;
  }
  static async *all() {
    yield Derived.#made;
  }
}
exports.Base = Base;
exports.Empty = Empty;
exports.Derived = Derived;
exports.Default = class extends Base {};
exports.object = {
  __proto__: Base.prototype,
  get own() {
    return super.label;
  },
  set own(text) {
    super.label = text;
  },
  ['a' + 'b'](k) {
    return super.toString(k);
  },
};
