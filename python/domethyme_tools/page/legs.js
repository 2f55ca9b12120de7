// The shortest path between two points on roads, from the library's path between their nodes, and its streets, by the rules of the
// service: the path stays on one arc, or leaves the first point's edge by the end of an arc and enters the second's by the start of one.

import { NO_ARC } from "./network.js";
import { arcFraction, arcLine, weightBefore } from "./snapping.js";

const PER_UNIT = { duration: 1000, distance: 100 };

// The leg from a point to another: { weight, arcs, weights, begin, end }; null if there is no path.
export function leg(network, router, start, end) {
  if (isSameNode(start, end)) return { weight: 0, arcs: [], weights: [], begin: 0, end: 1 };
  const straight = onOneArc(network, start, end);
  const [starts, ends] = [start.exits, end.entries].map((side) => [...side].sort(([one], [other]) => one - other)
    .map(([node, { weight }]) => ({ node, length: weight })));
  const found = router.between(starts, ends);
  if (!found || straight && BigInt(straight.weight) <= found.length) return straight;
  return byNodes(network, start, end, start.exits.get(starts[found.start].node), end.entries.get(ends[found.end].node), found);
}

const isSameNode = (start, end) => start.copies.length > 0 && String(start.copies) === String(end.copies);

function onOneArc(network, start, end) {
  if (start.copies.length || end.copies.length || start.edge !== end.edge) return null;
  let best = null;
  for (const arc of network.arcs(start.edge)) {
    const [from, to] = [start, end].map((point) => arcFraction(network, arc, point.fraction));
    if (from > to) continue;
    const weight = weightBefore(network, arc, end.fraction) - weightBefore(network, arc, start.fraction);
    if (!best || weight < best.weight) best = { weight, arcs: [arc], weights: [weight], begin: from, end: to };
  }
  return best;
}

function byNodes(network, start, end, first, last, { length, nodes }) {
  const arcs = Array.from(nodes.subarray(1), (node, place) => network.lightest(nodes[place], node));
  if (arcs.includes(NO_ARC)) throw new Error("The network lacks an arc of the hierarchy's graph.");
  const weights = arcs.map((arc) => network.arcWeight[arc]), found = { begin: 0, end: 1 };
  if (first.arc !== NO_ARC) {
    arcs.unshift(first.arc);
    weights.unshift(first.weight);
    found.begin = arcFraction(network, first.arc, start.fraction);
  }
  if (last.arc !== NO_ARC) {
    arcs.push(last.arc);
    weights.push(last.weight);
    found.end = arcFraction(network, last.arc, end.fraction);
  }
  const weight = weights.reduce((sum, each) => sum + each, 0);
  if (BigInt(weight) !== length) throw new Error("The network has other weights than the hierarchy's graph.");
  return { weight, arcs, weights, ...found };
}

// The weight, seconds and metres of a part of a leg, in the unit of answers; seconds are null if the network has none.
export function figures(network, { arcs, weights, begin, end }, low = 0, high = arcs.length) {
  let weight = 0, seconds = 0, metres = 0;
  for (let place = low; place < high; place++) {
    const share = (place === arcs.length - 1 ? end : 1) - (place ? 0 : begin);
    weight += weights[place];
    seconds += share * (network.arcSeconds?.[arcs[place]] ?? 0);
    metres += share * (network.arcMetres?.[arcs[place]] ?? 0);
  }
  const shown = weight / (PER_UNIT[network.unit] ?? 1);
  return {
    weight: shown, duration: network.hasSeconds ? network.unit === "duration" ? shown : Math.round(seconds * 1000) / 1000 : null,
    distance: network.unit === "distance" ? shown : Math.round(metres * 100) / 100,
  };
}

// The streets of a leg: arcs of one name in a row, each with its figures and its line. The lines begin and end at the points.
export function streets(network, found, start, end) {
  const { arcs } = found, steps = [];
  for (let low = 0, high = 0; low < arcs.length; low = high) {
    const name = network.name(arcs[low]), line = [];
    for (; high < arcs.length && network.name(arcs[high]) === name; high++) {
      const part = arcLine(network, arcs[high], high ? 0 : found.begin, high === arcs.length - 1 ? found.end : 1);
      line.push(...part.map((point) => point.map((degrees) => Math.round(degrees * 1e6) / 1e6)));
    }
    steps.push({ name, ...figures(network, found, low, high), geometry: { coordinates: line } });
  }
  if (steps.length) {
    steps[0].geometry.coordinates[0] = start.location;
    steps[steps.length - 1].geometry.coordinates.splice(-1, 1, end.location);
  } else steps.push({ name: start.name, ...figures(network, found), geometry: { coordinates: [start.location, end.location] } });
  return steps;
}
