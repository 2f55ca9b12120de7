// The roads, drawn on a canvas from the service's tiles.

import { roomFor } from "./lines.js";

const TILE = 512, MOST_KEPT = 300, MOST_AT_ONCE = 8, PAUSE = 3000;
const WIDTHS = [3.4, 2.7, 2.2, 1.8, 1.3, 1.1];
const NAMES_FROM = 14.3, HOLLOW = 3.4, EDGES = 2.4;

export class Roads {
  constructor(canvas, service, view) {
    Object.assign(this, { canvas, service, view, tiles: new Map(), asked: 0, waiting: [], without: new Set() });
    this.pen = canvas.getContext("2d");
    matchMedia("(prefers-color-scheme: dark)").addEventListener("change", () => { this.colours = null; view.soon(); });
  }

  // `without` are names that aren't written, since the route has them.
  begin(about) { this.about = about; }

  // The colours, which the style sheet has.
  get inks() {
    if (!this.colours) {
      const style = getComputedStyle(document.documentElement), read = (name) => style.getPropertyValue(name).trim();
      this.colours = { ground: read("--ground"), name: read("--name"), road: read("--road"), roads: WIDTHS.map((_, kind) => read(`--road-${kind}`)) };
    }
    return this.colours;
  }

  // Writes names where the room has place for them, and takes it.
  draw(room) {
    const { view, pen, canvas } = this, ratio = devicePixelRatio || 1;
    const [width, height] = [Math.round(view.width * ratio), Math.round(view.height * ratio)];
    if (canvas.width !== width || canvas.height !== height) [canvas.width, canvas.height] = [width, height];
    pen.setTransform(1, 0, 0, 1, 0, 0);
    pen.fillStyle = this.inks.ground;
    pen.fillRect(0, 0, width, height);
    if (!this.about) return;
    const shown = this.shown();
    this.waiting = shown.filter((tile) => !this.tiles.has(tile.key));
    this.fetch();
    const drawn = shown.flatMap((tile) => this.having(tile));
    const thick = Math.max(0.7, Math.min(6, 1.3 ** (view.zoom - 12)));
    pen.lineCap = pen.lineJoin = "round";
    for (let kind = WIDTHS.length - 1; kind >= 0; kind--) this.stroke(drawn, kind, this.inks.roads[kind], WIDTHS[kind] * thick, ratio);
    for (let kind = WIDTHS.length - 1; kind >= 0; kind--) {
      if (thick > HOLLOW) this.stroke(drawn, kind, this.inks.road, WIDTHS[kind] * thick - EDGES, ratio);
    }
    pen.setTransform(ratio, 0, 0, ratio, 0, 0);
    if (view.zoom >= NAMES_FROM) this.write(drawn, room);
  }

  // Draws the roads of a kind, of this width in pixels.
  stroke(drawn, kind, colour, wide, ratio) {
    const { view, pen } = this;
    pen.strokeStyle = colour;
    for (const { tile, data } of drawn) {
      const path = data.paths[kind];
      if (!path) continue;
      const { scale, left, top } = this.frame(tile);
      pen.setTransform(scale * ratio, 0, 0, scale * ratio, left * ratio, top * ratio);
      pen.lineWidth = wide / scale;
      pen.stroke(path);
    }
  }

  // Where a tile lies on the canvas, and how many pixels a step of its grid has.
  frame({ x, y, z }) {
    const { view } = this, scale = view.size / 2 ** z / this.about.grid;
    const left = (x / 2 ** z - view.centre[0]) * view.size + view.width / 2;
    return { scale, left, top: (y / 2 ** z - view.centre[1]) * view.size + view.height / 2 };
  }

  // The tiles that are shown, those in the middle first. A little more is taken around, since a line may begin further off.
  shown() {
    const { view } = this, z = Math.max(0, Math.min(this.about.deepest, Math.round(view.zoom) - 1)), count = 2 ** z;
    const reach = [view.width / 2 + TILE / 8, view.height / 2 + TILE / 8].map((half) => half / view.size);
    const [x, y] = view.centre, clip = (value) => Math.max(0, Math.min(count - 1, Math.floor(value * count)));
    const found = [];
    for (let column = clip(x - reach[0]); column <= clip(x + reach[0]); column++) {
      for (let row = clip(y - reach[1]); row <= clip(y + reach[1]); row++) {
        found.push({ z, x: column, y: row, key: `${z}/${column}/${row}`, far: Math.hypot((column + 0.5) / count - x, (row + 0.5) / count - y) });
      }
    }
    return found.sort((one, other) => one.far - other.far);
  }

  // The data of a tile, or of one that covers it while its own is on the way.
  having(tile) {
    for (let up = 0; up <= tile.z && up < 5; up++) {
      const other = { z: tile.z - up, x: tile.x >> up, y: tile.y >> up };
      const key = `${other.z}/${other.x}/${other.y}`, data = this.tiles.get(key);
      if (!data?.paths) continue;
      this.tiles.delete(key);
      this.tiles.set(key, data);
      return [{ tile: other, data }];
    }
    return [];
  }

  fetch() {
    while (this.asked < MOST_AT_ONCE && this.waiting.length) {
      const { key } = this.waiting.shift();
      this.tiles.set(key, {});
      this.asked++;
      this.service.tile(key, this.about.version)
        .then((found) => this.tiles.set(key, pathsOf(found.roads)), () => setTimeout(() => { this.tiles.delete(key); this.view.soon(); }, PAUSE))
        .finally(() => { this.asked--; this.forget(); this.view.soon(); });
    }
  }

  forget() {
    for (const key of this.tiles.keys()) {
      if (this.tiles.size <= MOST_KEPT) return;
      this.tiles.delete(key);
    }
  }

  // Writes the names of streets along them, each where it has room.
  write(drawn, room) {
    const { pen, inks } = this, last = new Map();
    pen.font = "12px system-ui, 'Segoe UI', Roboto, 'DejaVu Sans', sans-serif";
    pen.textAlign = "center";
    pen.textBaseline = "middle";
    pen.lineWidth = 5;
    pen.strokeStyle = inks.ground;
    pen.fillStyle = inks.name;
    for (const { tile, data } of drawn) {
      const { scale, left, top } = this.frame(tile);
      for (const { name, points } of data.named) {
        if (this.without.has(name)) continue;
        const width = pen.measureText(name).width + 12;
        const at = roomFor(points.map(([x, y]) => [x * scale + left, y * scale + top]), width);
        if (!at || last.has(name) && Math.hypot(at[0] - last.get(name)[0], at[1] - last.get(name)[1]) < 260) continue;
        if (!room.take(at[0], at[1], width, 14, at[2])) continue;
        last.set(name, at);
        pen.save();
        pen.translate(at[0], at[1]);
        pen.rotate(at[2] * Math.PI / 180);
        pen.strokeText(name, 0, 0);
        pen.fillText(name, 0, 0);
        pen.restore();
      }
    }
  }
}

// What a tile is drawn by: a path for each kind, and the lines with names, the longest first.
function pathsOf(roads) {
  const paths = [], named = [];
  for (const { kind, lines, name, names } of roads) {
    const path = paths[kind] = new Path2D();
    lines.forEach((line, number) => {
      let [x, y] = line;
      path.moveTo(x, y);
      const points = [[x, y]];
      for (let i = 2; i < line.length; i += 2) {
        path.lineTo(x += line[i], y += line[i + 1]);
        points.push([x, y]);
      }
      const text = names?.[name[number]];
      if (text) named.push({ name: text, points });
    });
  }
  return { paths, named: named.sort((one, other) => other.points.length - one.points.length) };
}
