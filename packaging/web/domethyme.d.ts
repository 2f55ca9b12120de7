/** Shortest paths from a hierarchy file, by the proved library as a WebAssembly module: docs/BROWSER.md. */

/** A node and what it costs to begin or to end there: at most 2^57, and at most 2^25 arcs, which decide between equal lengths. */
export interface Seed {
  node: number;
  length?: number | bigint;
  arcs?: number;
}

/** A path: its length in the graph's unit, and its nodes from 0, both ends among them. */
export interface Route {
  length: bigint;
  nodes: Uint32Array;
}

/** A path from one of several starts to one of several ends, with their places in the lists; the length is that of all three. */
export interface Between extends Route {
  start: number;
  end: number;
}

/** The library's names for what it refuses; faults of a file from `Read` on, as docs/FORMATS.md has them. */
export type Code =
  | "NoHandle" | "NodeRange" | "OutOfMemory" | "TooLong" | "SeedCost" | "BadLimit"
  | "Read" | "BadMagic" | "Truncated" | "TooBig" | "BoundTooBig" | "RankRange" | "RankTwice" | "LinkEnds" | "LinkOrder"
  | "LinkWeight" | "MiddleRange" | "MiddleRank" | "HalfMissing" | "HalfSum" | "Trailing"
  | "Ok" | "NoPath" | "NoRoom" | "Unknown";

export class DomethymeError extends Error {
  readonly code: Code;
  /** The number that the library returns for it. */
  readonly number: number;
}

/** Thrown by every call once one has trapped: the module has to be loaded again. `cause` is the trap. */
export class ModuleTrapped extends Error {}

/** Stands for the length of a pair without a path in arrays, and for a limit that is none: 2^64 - 1. */
export const NO_LENGTH: bigint;

/**
 * Loads the module: `domethyme.wasm` beside this file if nothing is named, or of an address, its bytes, a Response, or a compiled
 * module. `domethyme64.wasm` is the form with 64-bit memory.
 */
export function load(source?: string | URL | Response | ArrayBuffer | Uint8Array | WebAssembly.Module): Promise<Domethyme>;

export class Domethyme {
  private constructor();
  /**
   * Opens the bytes of a hierarchy file. They are copied, and not needed afterwards. Throws DomethymeError with the first fault of
   * the bytes, or OutOfMemory; other open files go on.
   */
  open(bytes: ArrayBuffer | Uint8Array): Router;
  /** What a code means, in English. */
  text(number: number): string;
  /** How many bytes of memory the module has. It grows, and never shrinks. */
  readonly memory: number;
}

/**
 * A hierarchy. Arguments that aren't integers, or out of the range of the library's integers, are a TypeError or a RangeError;
 * what the library refuses is a DomethymeError. After OutOfMemory it works as before.
 */
export class Router {
  private constructor();
  /** The number of nodes. */
  readonly nodes: number;
  /** The least length of a path; null if there is none. */
  length(from: number, to: number): bigint | null;
  /** A shortest path, and of all of them one with the fewest arcs; null if there is none. */
  route(from: number, to: number): Route | null;
  /** The same from one of several starts to one of several ends, of the least whole length. */
  between(starts: Iterable<Seed>, ends: Iterable<Seed>): Between | null;
  /** The least length of each pair, NO_LENGTH if there is no path. Pairs are a row: from, to, from, to, .. */
  lengths(pairs: Uint32Array | Iterable<number>): BigUint64Array;
  /** The least length from each source to each target, row by row. */
  table(sources: Uint32Array | Iterable<number>, targets: Uint32Array | Iterable<number>): BigUint64Array;
  /** The least length of each node from the nearest start, NO_LENGTH where that is above the limit, which is at most 2^62. */
  reach(starts: Iterable<Seed>, limit?: number | bigint): BigUint64Array;
  /** Frees the hierarchy. Later calls throw NoHandle; closing twice does nothing. */
  close(): void;
}
