// The page's worker: it has the module, the hierarchy and the network, and answers one question at a time.

import { ModuleTrapped, NO_LENGTH, load } from "./domethyme.js";
import { hierarchyBytes } from "./hierarchy.js";
import { figures, leg, streets } from "./legs.js";
import { Network } from "./network.js";
import { reachedRoads } from "./reached.js";
import { snapped } from "./snapping.js";
import { DEEPEST, GRID, tileOf } from "./tiles.js";

// So many metres from a road a place may be, as by the service.
const FARTHEST = 1000;
let network = null, router = null;

const answers = { begin, tile: (key) => tileOf(network, key), route, reach };

addEventListener("message", async ({ data: { number, name, words } }) => {
  try {
    postMessage({ number, found: await answers[name](...words) });
  } catch (error) {
    const text = error instanceof ModuleTrapped ? "The router has stopped. Load the page again." : error.message;
    postMessage({ number, message: text, code: error.code });
  }
});

// Bytes of a text in base 64, of what gzip made.
async function unpacked(text) {
  const packed = Uint8Array.from(atob(text), (letter) => letter.charCodeAt(0));
  const stream = new Blob([packed]).stream().pipeThrough(new DecompressionStream("gzip"));
  return new Uint8Array(await new Response(stream).arrayBuffer());
}

async function begin(texts) {
  if (!globalThis.WebAssembly || !globalThis.DecompressionStream) throw new Error("This browser is too old for this page.");
  const [module, hierarchy, roads] = await Promise.all(texts.map(unpacked));
  const domethyme = await load(module);
  router = domethyme.open(hierarchyBytes(hierarchy));
  network = new Network(roads);
  if (router.nodes !== network.nodes) throw new Error("The hierarchy is another network's.");
  const { box, attribution, unit } = network;
  return { box, attribution, unit, deepest: DEEPEST, grid: GRID, version: "" };
}

function fault(code, message) { return Object.assign(new Error(message), { code }); }

function snappedPlaces(places) {
  return places.map((place, number) => {
    const found = snapped(network, place, FARTHEST);
    if (!found) throw fault("NoSegment", `there is no road within ${FARTHEST} m of place ${number}`);
    return found;
  });
}

// The members of the service's answer that the page shows.
function route(places) {
  const points = snappedPlaces(places), legs = points.slice(1).map((end, number) => {
    const found = leg(network, router, points[number], end);
    if (!found) throw fault("NoRoute", "there is no route between these places");
    return { ...figures(network, found), length: found.weight, steps: streets(network, found, points[number], end) };
  });
  const sum = (name) => legs.some((each) => each[name] === null) ? null : Math.round(legs.reduce((all, each) => all + each[name], 0) * 1000) / 1000;
  const route = { legs, weight_name: network.unit, weight: sum("weight"), duration: sum("duration"), distance: sum("distance") };
  return { routes: [route], waypoints: points.map(({ location, name, metres }) => ({ location, name, distance: metres })) };
}

// What is reached from a place within numbers of minutes or metres: the lines of roads for each.
function reach(place, isMinutes, numbers) {
  const [point] = snappedPlaces([place]), limits = numbers.map((number) => Math.round(number * (isMinutes ? 60_000 : 100)));
  const starts = [...point.exits].map(([node, { weight }]) => ({ node, length: weight }));
  const lengths = Float64Array.from(router.reach(starts, limits[limits.length - 1]), (length) => length === NO_LENGTH ? Infinity : Number(length));
  return reachedRoads(network, lengths, limits, point);
}
