// What the tests ask of the module, in Node and in a browser: each function takes the module's bytes, and returns what can be JSON.

import { DomethymeError, ModuleTrapped, NO_LENGTH, load } from "./domethyme.js";

// Bytes of a text in base 64.
export const bytesOf = (text) => Uint8Array.from(atob(text), (letter) => letter.charCodeAt(0));

const named = (call) => {
  try {
    return String(call());
  } catch (error) {
    return error instanceof DomethymeError ? `${error.code} ${error.number}` : error.name;
  }
};

// The lines that `routecli route` prints for pairs, whose nodes are numbered from 1; and how many lengths differ from the route's.
export async function routes(module, hierarchy, pairs) {
  const router = (await load(module)).open(hierarchy), lines = [];
  let differing = 0;
  for (const [from, to] of pairs) {
    const found = router.route(from - 1, to - 1), length = router.length(from - 1, to - 1);
    differing += length !== (found ? found.length : null);
    lines.push(found ? `r ${from} ${to} ${found.length} ${found.nodes.length - 1} ${Array.from(found.nodes, (node) => node + 1).join(" ")}` : `n ${from} ${to}`);
  }
  return { lines, differing };
}

// For starts and ends, the length, the places in the lists and the nodes; and for each call the same of tables, rows and reach.
export async function others(module, hierarchy, asked) {
  const router = (await load(module)).open(hierarchy), text = (values) => Array.from(values, String);
  return {
    nodes: router.nodes,
    between: asked.between.map(([starts, ends]) => {
      const found = router.between(starts, ends);
      return found && [String(found.length), found.start, found.end, [...found.nodes]];
    }),
    table: text(router.table(asked.sources, asked.targets)),
    lengths: text(router.lengths(Uint32Array.from(asked.pairs.flat()))),
    reach: asked.limits.map((limit) => text(router.reach([{ node: 0, length: 3 }, { node: 1 }], limit === null ? NO_LENGTH : BigInt(limit)))),
  };
}

// The code of each file that is refused, or its nodes; another file goes on answering.
export async function opened(module, hierarchy, files) {
  const domethyme = await load(module), router = domethyme.open(hierarchy), before = router.route(0, 2);
  const codes = files.map((file) => {
    try {
      const other = domethyme.open(file);
      other.close();
      return 0;
    } catch (error) {
      return error.number;
    }
  });
  return { codes, isSame: String(router.route(0, 2).nodes) === String(before.nodes) };
}

// What calls with wrong arguments throw.
export async function wrong(module, hierarchy) {
  const domethyme = await load(module), router = domethyme.open(hierarchy), closed = domethyme.open(hierarchy);
  closed.close();
  closed.close();
  const calls = {
    fraction: () => router.length(0.5, 0), negative: () => router.route(-1, 0), large: () => router.length(0, 2 ** 32), text: () => router.length("0", 0),
    big: () => router.length(0n, 0), nothing: () => router.route(0), range: () => router.length(0, router.nodes),
    last: () => router.length(0, 2 ** 32 - 1), odd: () => router.lengths([0]), in: () => router.table([0], [router.nodes]), none: () => router.table([], []).length,
    limit: () => router.reach([{ node: 0 }], 2n ** 62n + 1n), beyond: () => router.reach([{ node: 0 }], 2n ** 64n), below: () => router.reach([{ node: 0 }], -1),
    cost: () => router.between([{ node: 0, length: 2n ** 57n + 1n }], [{ node: 0 }]), arcs: () => router.between([{ node: 0, arcs: 2 ** 25 + 1 }], [{ node: 0 }]),
    starts: () => router.between([], [{ node: 0 }]), seed: () => router.between([7], [{ node: 0 }]), closed: () => closed.length(0, 0), open: () => domethyme.open("bytes"),
    empty: () => domethyme.open(new Uint8Array(0)), text36: () => domethyme.text(36), text99: () => domethyme.text(99),
  };
  return Object.fromEntries(Object.entries(calls).map(([name, call]) => [name, named(call)]));
}

// A module whose memory can't grow: what opening the same file again and again ends with, and whether those that are open go on.
export async function full(module, hierarchy, most) {
  const domethyme = await load(module), routers = [];
  let ends = null;
  while (routers.length < most && !ends) {
    ends = named(() => { routers.push(domethyme.open(hierarchy)); return ""; });
  }
  const lengths = routers.map((router) => String(router.length(0, 2)));
  // (queries keep memory of their own, and opening takes more for a while than it keeps: so all but one are closed)
  const opened = routers.length;
  while (routers.length > 1) routers.pop().close();
  return { opened, ends, lengths: [...new Set(lengths)], again: named(() => domethyme.open(hierarchy).nodes), memory: domethyme.memory };
}

// The memory after each of so many times of opening, asking and closing.
export async function repeated(module, hierarchy, times) {
  const domethyme = await load(module);
  return Array.from({ length: times }, () => {
    const router = domethyme.open(hierarchy);
    router.route(0, 2);
    router.table([0, 1, 2], Array.from({ length: 40 }, (_, node) => node));
    router.reach([{ node: 0 }]);
    router.close();
    return domethyme.memory;
  });
}

// After a trap, by an address that isn't the module's, every later call throws, and the module itself refuses them.
export async function trapped(module, hierarchy) {
  const domethyme = await load(module), router = domethyme.open(hierarchy), other = domethyme.open(hierarchy);
  const first = named(() => domethyme._call("domethyme_nodes", 0xffff_fff0n, 0xffff_fff0n));
  const later = [() => router.length(0, 1), () => other.nodes && other.route(0, 1), () => domethyme.open(hierarchy), () => domethyme.text(1), () => router.close()].map(named);
  const { instance } = await WebAssembly.instantiate(module), calls = instance.exports;
  const raw = [["domethyme_nodes", 0xffff_fff0n, 0xffff_fff0n], ["domethyme_text", 1, 0n, 0n], ["web_take", 16n]].map(([name, ...words]) => {
    try {
      return String(calls[name](...words));
    } catch (error) {
      return error instanceof WebAssembly.RuntimeError ? "trap" : error.name;
    }
  });
  return { first, later, raw, isTrap: ModuleTrapped.name };
}
