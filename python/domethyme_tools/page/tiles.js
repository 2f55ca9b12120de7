// The roads of a tile of the map, in the form of the service's tiles: for each kind of road its lines, as the first point and then the
// steps to the others on the tile's grid, and from MIN_NAMED on the names of lines.

import { UNITS } from "./network.js";

export const GRID = 1024;
export const DEEPEST = 16;
const MIN_NAMED = 14;

const sideOf = (lon) => lon / 360 + 0.5;
const sideOfLat = (lat) => 0.5 - Math.asinh(Math.tan(Math.max(-85.0511, Math.min(85.0511, lat)) * Math.PI / 180)) / (2 * Math.PI);
const latOf = (y) => Math.atan(Math.sinh((0.5 - y) * 2 * Math.PI)) * 180 / Math.PI;

export function tileOf(network, key) {
  const [zoom, x, y] = key.split("/").map(Number), size = 2 ** zoom, kinds = new Map();
  const west = network.grid.east((x / size - 0.5) * 360), margin = 360 / size / 8;
  const box = [west - margin, latOf((y + 1.125) / size), west + 360 / size + margin, latOf((y - 0.125) / size)];
  // (a tile that begins west of the roads' box, counted from there, ends within it)
  if (box[2] > 360) box[0] -= 360, box[2] -= 360;
  const edges = zoom < 3 ? Array.from({ length: network.edges }, (_, edge) => edge) : [...network.grid.within(box)].sort((one, other) => one - other);
  for (const edge of edges) {
    const kind = network.edgeKind[edge];
    if (zoom < network.shown[kind]) continue;
    if (!kinds.has(kind)) kinds.set(kind, { kind, lines: [], name: [], names: [], numbers: new Map() });
    addLines(network, edge, kinds.get(kind), zoom, x, y);
  }
  const roads = [...kinds.values()].filter(({ lines }) => lines.length).map(({ kind, lines, name, names }) =>
    zoom < MIN_NAMED ? { kind, lines } : { kind, lines, name, names });
  return { roads };
}

// Adds the parts of an edge of which a step's middle is in the tile, without steps that have no length on the grid.
function addLines(network, edge, found, zoom, x, y) {
  const scale = 2 ** zoom, first = network.pointBegin[edge];
  let line = null, last = null;
  const end = () => {
    if (line?.steps.length > 2) {
      found.lines.push(line.steps);
      found.name.push(nameNumber(network, edge, found));
    }
    line = null;
  };
  for (let number = first; number < network.pointBegin[edge + 1]; number++) {
    let [east, south] = [sideOf(network.lons[number] / UNITS) * scale - x, sideOfLat(network.lats[number] / UNITS) * scale - y];
    if (last && Math.abs(east - last[0]) > scale / 2) east += east < last[0] ? scale : -scale;
    const point = [Math.round(east * GRID), Math.round(south * GRID)];
    if (last) {
      const turn = Math.round(((east + last[0]) / 2 / scale - 0.5 + x / scale)) * scale;
      const [middle, down] = [(east + last[0]) / 2 - turn, (south + last[1]) / 2];
      if (middle < 0 || middle >= 1 || down < 0 || down >= 1) end();
      else {
        const from = [last[2] - turn * GRID, last[3]], to = [point[0] - turn * GRID, point[1]];
        if (line && from[0] !== line.at[0]) end(); // (across the antimeridian, where the tile is the world)
        line ??= { at: from, steps: [...from] };
        if (to[0] !== line.at[0] || to[1] !== line.at[1]) line.steps.push(to[0] - line.at[0], to[1] - line.at[1]);
        line.at = to;
      }
    }
    last = [east, south, ...point];
  }
  end();
}

function nameNumber(network, edge, { names, numbers }) {
  const name = network.name(network.arcBegin[edge]);
  if (!numbers.has(name)) {
    numbers.set(name, names.length);
    names.push(name);
  }
  return numbers.get(name);
}
