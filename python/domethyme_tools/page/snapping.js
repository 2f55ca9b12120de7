// The nearest point of a road to a place, which splits the arcs of its edge, by the rules of the service.

import { NO_ARC, UNITS, between, rounded } from "./network.js";

// So many metres from an end of an edge a point is at the end.
const TOLERANCE = 0.005;

// `exits` are the nodes that a point leads to, and `entries` those that lead to it, each with the weight and the arc of the part
// between, NO_ARC if the point is the node. `copies` are the nodes that it is. Null if there is no road within so many metres.
export function snapped(network, place, most = Infinity) {
  const nearest = network.nearest(place, most);
  if (!nearest) return null;
  const { edge, number, metres, share } = nearest, line = network.line(edge);
  const step = number - network.pointBegin[edge], [lon, lat] = between(line.points[step], line.points[step + 1], share);
  const along = line.along[step] + share * (line.along[step + 1] - line.along[step]);
  const isAtStart = along <= TOLERANCE || line.metres <= 2 * TOLERANCE;
  const fraction = isAtStart ? 0 : along >= line.metres - TOLERANCE ? 1 : along / line.metres;
  const arcs = network.arcs(edge), name = arcs.map((arc) => network.name(arc)).find((each) => each) ?? "";
  const found = { location: [rounded(lon * 1e6) / 1e6, rounded(lat * 1e6) / 1e6], metres, edge, fraction, name };
  if (fraction > 0 && fraction < 1) return { ...found, ...split(network, arcs, fraction), copies: [] };
  const isFirst = Boolean(network.arcAlong[arcs[0]]) === (fraction === 0);
  const copies = network.copies(isFirst ? network.arcFrom[arcs[0]] : network.arcTo[arcs[0]]);
  const ends = (isEnd) => new Map(copies.filter(isEnd).map((node) => [node, { weight: 0, arc: NO_ARC }]));
  return { ...found, exits: ends((node) => network.isStart(node)), entries: ends((node) => network.isEnd(node)), copies };
}

function split(network, arcs, fraction) {
  const exits = new Map(), entries = new Map();
  for (const arc of arcs) {
    const before = weightBefore(network, arc, fraction);
    for (const [found, node, weight] of [[exits, network.arcTo[arc], network.arcWeight[arc] - before], [entries, network.arcFrom[arc], before]]) {
      if (!(found.get(node)?.weight <= weight)) found.set(node, { weight, arc });
    }
  }
  return { exits, entries };
}

// The fraction of an arc at a fraction of its edge, and the weight of the part before it.
export const arcFraction = (network, arc, fraction) => network.arcAlong[arc] ? fraction : 1 - fraction;
export const weightBefore = (network, arc, fraction) => rounded(arcFraction(network, arc, fraction) * network.arcWeight[arc]);

// The points of an arc between two fractions of it.
export function arcLine(network, arc, begin = 0, end = 1) {
  const line = network.line(network.arcEdge[arc]);
  return network.arcAlong[arc] ? clipped(line, begin, end) : clipped(line, 1 - end, 1 - begin).reverse();
}

function clipped(line, begin, end) {
  const [low, high] = [begin * line.metres, end * line.metres], points = line.points;
  const first = begin <= 0 ? points[0] : pointAt(line, low), last = end >= 1 ? points[points.length - 1] : pointAt(line, high);
  const isInner = (_, place) => (begin > 0 || end < 1 ? low < line.along[place] && line.along[place] < high : place && place < points.length - 1);
  return [first, ...points.filter(isInner), last];
}

function pointAt(line, metres) {
  let place = 1;
  while (place < line.along.length - 1 && line.along[place] <= metres) place++;
  const length = line.along[place] - line.along[place - 1], share = length ? (metres - line.along[place - 1]) / length : 0;
  return between(line.points[place - 1], line.points[place], share).map((degrees) => Math.round(degrees * UNITS) / UNITS);
}
