// Shortest paths from a hierarchy file, by the proved library as a WebAssembly module. docs/BROWSER.md says what is proved of it and
// what is trusted; domethyme.d.ts has the types.
//
// Nodes are numbered from 0. Lengths are sums of weights in the graph's unit, as BigInt: they go to 2^62. Arguments are checked here,
// before they become integers of the module; all else is checked by the library.

const NO_LENGTH = 0xffff_ffff_ffff_ffffn, MOST = 0xffff_ffff;
const HANDLE = 8, INFO = 32, SEED = 16, TEXT = 80;

// What calls return, by the names that the library's documents have.
const CODES = {
  0: "Ok", 1: "NoPath", 2: "NoHandle", 3: "NodeRange", 4: "NoRoom", 5: "OutOfMemory", 6: "TooLong", 7: "SeedCost", 8: "BadLimit",
  34: "Read", 35: "BadMagic", 36: "Truncated", 37: "TooBig", 38: "BoundTooBig", 39: "RankRange", 40: "RankTwice", 41: "LinkEnds",
  42: "LinkOrder", 43: "LinkWeight", 44: "MiddleRange", 45: "MiddleRank", 46: "HalfMissing", 47: "HalfSum", 48: "Trailing",
};
const OK = 0, NO_PATH = 1, NO_HANDLE = 2, NO_ROOM = 4, OUT_OF_MEMORY = 5;

/** What the library refuses: `code` is the name of the reason, and `number` the number that the library returns for it. */
export class DomethymeError extends Error {
  constructor(number, text) {
    super(text);
    this.name = "DomethymeError";
    this.number = number;
    this.code = CODES[number] ?? "Unknown";
  }
}

/** What every call throws once one has trapped: what is in the module's memory isn't known any more. */
export class ModuleTrapped extends Error {
  constructor(cause) {
    super("the module has trapped, and takes no more calls: load it again", { cause });
    this.name = "ModuleTrapped";
  }
}

/** The module: of its address, its bytes, a Response, or a WebAssembly.Module. */
export async function load(source = new URL("domethyme.wasm", import.meta.url)) {
  return new Domethyme((await instantiate(source)).exports);
}

async function instantiate(source) {
  if (source instanceof WebAssembly.Module) return WebAssembly.instantiate(source);
  if (source instanceof ArrayBuffer || ArrayBuffer.isView(source)) return (await WebAssembly.instantiate(source)).instance;
  const response = source instanceof Response ? source : await fetch(source);
  if (!response.ok) throw new Error(`${response.url}: status ${response.status}`);
  // (some servers give another type than the one that streaming asks for)
  return (await WebAssembly.instantiate(await response.arrayBuffer())).instance;
}

export class Domethyme {
  #calls;
  #trap = null;
  #kept = { at: 0n, size: 0 };

  constructor(calls) { this.#calls = calls; }

  /** Opens the bytes of a hierarchy file, which are checked as the library checks them, and aren't needed afterwards. */
  open(bytes) {
    const given = bytes instanceof ArrayBuffer ? new Uint8Array(bytes) : bytes;
    if (!(given instanceof Uint8Array)) throw new TypeError("bytes have to be an ArrayBuffer or a Uint8Array");
    // (taken before, so that nothing is refused once the file is open)
    this._room(INFO);
    const handle = this._take(HANDLE);
    try {
      this._view(BigUint64Array, handle, 1)[0] = 0n;
      const at = this._take(given.length);
      try {
        this._view(Uint8Array, at, given.length).set(given);
        this._check(this._call("domethyme_open", handle, at, BigInt(given.length)));
      } finally {
        this._give(at);
      }
      return new Router(this, handle);
    } catch (error) {
      this._give(handle);
      throw error;
    }
  }

  /** What a code means, in English. */
  text(number) {
    const at = this._take(TEXT);
    const count = Number(this._call("domethyme_text", whole(number, "the code"), at, BigInt(TEXT)));
    const text = String.fromCharCode(...this._view(Uint8Array, at, count - 1));
    this._give(at);
    return text;
  }

  /** How many bytes of memory the module has. It grows, and never shrinks. */
  get memory() { return this.#calls.memory.buffer.byteLength; }

  // The rest is for Router.

  _call(name, ...words) {
    if (this.#trap) throw new ModuleTrapped(this.#trap);
    try {
      return this.#calls[name](...words);
    } catch (error) {
      this.#trap = error;
      throw new ModuleTrapped(error);
    }
  }

  _check(number) { if (number !== OK) throw new DomethymeError(number, number === OUT_OF_MEMORY ? "out of memory" : this.text(number)); }

  // An array in the module's memory. Any call may move the memory: it is taken anew after each.
  _view(kind, at, count) { return new kind(this.#calls.memory.buffer, Number(at), count); }

  // Memory for so many bytes, that is given back.
  _take(bytes) {
    const at = BigInt.asUintN(64, this._call("web_take", BigInt(Math.max(bytes, 1))));
    if (at === 0n) throw new DomethymeError(OUT_OF_MEMORY, "out of memory");
    return at;
  }

  // (a trap has been thrown already: nothing is given back to what can't be called)
  _give(at) { if (!this.#trap) this._call("web_give", at); }

  // Memory that is kept for the next call that wants as much.
  _room(bytes) {
    if (this.#kept.size < bytes) {
      if (this.#kept.size) this._give(this.#kept.at);
      this.#kept = { at: 0n, size: 0 };
      this.#kept = { at: this._take(bytes), size: bytes };
    }
    return this.#kept.at;
  }
}

export class Router {
  #module;
  #handle;
  #room = 1 << 10;
  #nodes = 0;

  constructor(module, handle) {
    this.#module = module;
    this.#handle = handle;
    const at = module._room(INFO);
    module._check(module._call("domethyme_nodes", handle, at));
    this.#nodes = module._view(Uint32Array, at, 1)[0];
  }

  /** The number of nodes. */
  get nodes() {
    this.#open();
    return this.#nodes;
  }

  /** The least length of a path, null if there is none. */
  length(from, to) {
    const module = this.#module, [begin, end] = this.#pair(from, to), at = module._room(INFO);
    return this.#isPath(module._call("domethyme_length", this.#handle, begin, end, at)) ? module._view(BigUint64Array, at, 1)[0] : null;
  }

  /** A shortest path with the fewest arcs: { length, nodes }; null if there is none. */
  route(from, to) {
    const [begin, end] = this.#pair(from, to);
    return this.#withRoom(1, (info, at, room) => this.#module._call("domethyme_route", this.#handle, begin, end, info, at, room),
      ([length], nodes) => ({ length, nodes }));
  }

  /** A shortest path from one of several starts to one of several ends: { length, start, end, nodes }; null if there is none. */
  between(starts, ends) {
    const seeds = [...starts].map(seed), others = [...ends].map(seed);
    this.#open();
    return this.#withArray([...seeds, ...others].flat(), BigUint64Array, (at) => {
      const sides = [at, BigInt(seeds.length), at + BigInt(SEED * seeds.length), BigInt(others.length)];
      return this.#withRoom(3, (info, to, room) => this.#module._call("domethyme_between", this.#handle, ...sides, info, to, room),
        ([length, start, end], nodes) => ({ length, start: Number(start), end: Number(end), nodes }));
    });
  }

  /** The least length of each pair, NO_LENGTH where there is no path. Pairs are a row: from, to, from, to, .. */
  lengths(pairs) {
    const nodes = numbers(pairs, "a node");
    if (nodes.length % 2) throw new RangeError("pairs have two nodes each");
    this.#open();
    return this.#withArray(nodes, Uint32Array, (at) => this.#asked(nodes.length / 2,
      (to, room) => this.#module._call("domethyme_lengths", this.#handle, at, room, to, room)));
  }

  /** The least length from each source to each target, row by row; NO_LENGTH where there is no path. */
  table(sources, targets) {
    const rows = numbers(sources, "a source"), columns = numbers(targets, "a target");
    this.#open();
    return this.#withArray([...rows, ...columns], Uint32Array, (at) => this.#asked(rows.length * columns.length, (to, room) =>
      this.#module._call("domethyme_table", this.#handle, at, BigInt(rows.length), at + BigInt(4 * rows.length), BigInt(columns.length), to, room)));
  }

  /** The least length of each node from the nearest start, NO_LENGTH where that is above the limit. */
  reach(starts, limit = NO_LENGTH) {
    const seeds = [...starts].map(seed), most = big(limit, "the limit");
    this.#open();
    return this.#withArray(seeds.flat(), BigUint64Array, (at) => this.#asked(this.#nodes,
      (to, room) => this.#module._call("domethyme_reach", this.#handle, at, BigInt(seeds.length), most, to, room)));
  }

  /** Frees the hierarchy. Later calls throw NoHandle; closing twice does nothing. */
  close() {
    if (this.#handle === null) return;
    this.#module._call("domethyme_close", this.#handle);
    this.#module._give(this.#handle);
    this.#handle = null;
  }

  #open() { if (this.#handle === null) this.#module._check(NO_HANDLE); }

  #pair(from, to) {
    const found = [whole(from, "from"), whole(to, "to")];
    this.#open();
    return found;
  }

  #isPath(number) {
    if (number !== NO_PATH) this.#module._check(number);
    return number === OK;
  }

  // Calls with an array in the module's memory.
  #withArray(values, kind, call) {
    const module = this.#module, at = module._take(values.length * kind.BYTES_PER_ELEMENT);
    try {
      module._view(kind, at, values.length).set(values);
      return call(at);
    } finally {
      module._give(at);
    }
  }

  // The lengths that a call writes.
  #asked(count, call) {
    const module = this.#module, at = module._take(8 * count);
    try {
      module._check(call(at, BigInt(count)));
      return module._view(BigUint64Array, at, count).slice();
    } finally {
      module._give(at);
    }
  }

  // What a call writes of a route: some numbers, of which the last says how many nodes it has, and the nodes.
  #withRoom(count, call, made) {
    const module = this.#module;
    for (;;) {
      const info = module._room(INFO + 4 * this.#room), at = info + BigInt(INFO);
      const number = call(info, at, BigInt(this.#room));
      if (number !== NO_ROOM && !this.#isPath(number)) return null;
      const found = [...module._view(BigUint64Array, info, count + 1)], nodes = Number(found[count]);
      if (number === OK) return made(found, module._view(Uint32Array, at, nodes).slice());
      this.#room = 2 * nodes;
    }
  }
}

/** What stands for the length of a pair without a path in typed arrays, and for a limit that is none. */
export { NO_LENGTH };

// An integer from 0 to 2^32 - 1. TypeError for what isn't a number, RangeError for others.
function whole(value, name) {
  if (typeof value !== "number") throw new TypeError(`${name} has to be a number`);
  if (!Number.isInteger(value) || value < 0 || value > MOST) throw new RangeError(`${name} has to be an integer from 0 to ${MOST}`);
  return value;
}

// An integer from 0 to 2^64 - 1, as BigInt.
function big(value, name) {
  if (typeof value === "bigint") {
    if (value < 0n || value > NO_LENGTH) throw new RangeError(`${name} has to be from 0 to 2^64 - 1`);
    return value;
  }
  if (typeof value !== "number") throw new TypeError(`${name} has to be a number or a BigInt`);
  if (!Number.isSafeInteger(value) || value < 0) throw new RangeError(`${name} has to be an integer from 0 on`);
  return BigInt(value);
}

function numbers(values, name) {
  if (values instanceof Uint32Array) return values;
  return Array.from(values, (value) => whole(value, name));
}

// A start or an end as the two words of the library's struct: its length, then its node and its arcs.
function seed({ node, length = 0, arcs = 0 }) {
  return [big(length, "a length"), BigInt(whole(node, "a node")) | BigInt(whole(arcs, "arcs")) << 32n];
}
