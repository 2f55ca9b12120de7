// Asks the page's modules, beside this file, for routes between places and what is reached from places: a line of JSON on standard
// input, { network, hierarchy, pairs, limits }.

import { readFileSync } from "node:fs";
import { NO_LENGTH, load } from "./domethyme.js";
import { figures, leg, streets } from "./legs.js";
import { Network } from "./network.js";
import { reachedRoads } from "./reached.js";
import { snapped } from "./snapping.js";
import { tileOf } from "./tiles.js";

const { library, network: path, hierarchy, pairs, limits, tiles } = JSON.parse(readFileSync(0, "utf8"));
const network = new Network(new Uint8Array(readFileSync(path)));
const router = (await load(readFileSync(library))).open(new Uint8Array(readFileSync(hierarchy)));

const routes = pairs.map(([from, to]) => {
  const [start, end] = [snapped(network, from), snapped(network, to)], found = leg(network, router, start, end);
  const points = [start, end].map(({ location, metres, edge, fraction, name }) => ({ location, metres, edge, fraction, name }));
  return { points, leg: found && { length: found.weight, ...figures(network, found), steps: streets(network, found, start, end) } };
});

const reached = pairs.map(([from]) => {
  const start = snapped(network, from), starts = [...start.exits].map(([node, { weight }]) => ({ node, length: weight }));
  const lengths = Float64Array.from(router.reach(starts, limits[limits.length - 1]), (length) => length === NO_LENGTH ? Infinity : Number(length));
  return reachedRoads(network, lengths, limits, start).map(({ points, begins }) => Array.from(begins.subarray(1), (end, line) =>
    Array.from({ length: end - begins[line] }, (_, place) => [...points.subarray(2 * (begins[line] + place), 2 * (begins[line] + place) + 2)])));
});

process.stdout.write(JSON.stringify({ routes, reached, tiles: tiles.map((key) => tileOf(network, key)) }));
