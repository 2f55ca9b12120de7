// The roads that are reached within minutes or metres, drawn in colours over the others, and a legend.

import { plane } from "./view.js";

const SVG = "http://www.w3.org/2000/svg", SHARP = 2 ** 24;
const COLOURS = ["#0072b2", "#e69f00", "#009e73", "#cc79a7"];

// The lines of roads by the numbers that were asked for, which rise. As JSON it is a FeatureCollection, as the service has it.
export class Reached {
  constructor(numbers, lines) { Object.assign(this, { numbers, lines }); }

  toJSON() {
    const features = this.lines.map(({ points, begins }, limit) => {
      const coordinates = Array.from(begins.subarray(1), (end, line) =>
        Array.from({ length: end - begins[line] }, (_, place) => Array.from(points.subarray(2 * (begins[line] + place), 2 * (begins[line] + place) + 2))));
      const geometry = coordinates.length ? { type: "MultiLineString", coordinates } : null;
      return { type: "Feature", properties: { contour: this.numbers[limit], color: COLOURS[limit], stroke: COLOURS[limit] }, geometry };
    });
    return { type: "FeatureCollection", features: features.reverse() };
  }
}

export class Reach {
  constructor(canvas, view, legend) { Object.assign(this, { canvas, view, legend, found: null, paths: [], pen: canvas.getContext("2d") }); }

  // Shows what is reached, or nothing. `said` is what the legend calls a number.
  set(found, said) {
    this.found = found;
    this.centre = null;
    this.paths = (found?.lines ?? []).map((lines) => this.path(lines));
    this.legend.replaceChildren(...(found?.numbers ?? []).map((number, limit) => {
      const row = document.createElement("li"), svg = document.createElementNS(SVG, "svg"), line = document.createElementNS(SVG, "path");
      svg.setAttribute("aria-hidden", "true");
      for (const [name, value] of [["d", "M2 9H32"], ["stroke", COLOURS[limit]], ["stroke-width", "5"]]) line.setAttribute(name, value);
      svg.append(line);
      row.append(svg, said(number));
      return row;
    }));
    this.view.soon();
  }

  // Lines in a plane about their first point, in which a path's numbers are exact enough.
  path({ points, begins }) {
    const path = new Path2D();
    for (let line = 0; line + 1 < begins.length; line++) {
      for (let place = begins[line]; place < begins[line + 1]; place++) {
        const at = plane([points[2 * place], points[2 * place + 1]]);
        this.centre ??= at;
        const [x, y] = at.map((value, axis) => (value - this.centre[axis]) * SHARP);
        if (place === begins[line]) path.moveTo(x, y);
        else path.lineTo(x, y);
      }
    }
    return path;
  }

  get box() {
    const points = (this.found?.lines ?? []).map((lines) => lines.points).findLast((each) => each.length);
    if (!points) return null;
    const found = [Infinity, Infinity, -Infinity, -Infinity];
    points.forEach((value, place) => {
      found[place % 2] = Math.min(found[place % 2], value);
      found[2 + place % 2] = Math.max(found[2 + place % 2], value);
    });
    return found;
  }

  // The largest number first, so that each road has the colour of the least within which it is reached.
  draw() {
    const { view, pen, canvas } = this, ratio = devicePixelRatio || 1, scale = view.size / SHARP;
    const [width, height] = [Math.round(view.width * ratio), Math.round(view.height * ratio)];
    if (canvas.width !== width || canvas.height !== height) [canvas.width, canvas.height] = [width, height];
    pen.setTransform(1, 0, 0, 1, 0, 0);
    pen.clearRect(0, 0, width, height);
    if (!this.centre) return;
    const [left, top] = this.centre.map((value, axis) => (value - view.centre[axis]) * view.size + [view.width, view.height][axis] / 2);
    pen.setTransform(scale * ratio, 0, 0, scale * ratio, left * ratio, top * ratio);
    pen.lineWidth = Math.max(2.5, Math.min(7, 2.5 * 1.3 ** (view.zoom - 12))) / scale;
    pen.lineCap = pen.lineJoin = "round";
    for (let limit = this.paths.length - 1; limit >= 0; limit--) {
      pen.strokeStyle = COLOURS[limit];
      pen.stroke(this.paths[limit]);
    }
  }
}

// Saves what is shown as a file.
export function save(found) {
  const link = document.createElement("a");
  link.href = URL.createObjectURL(new Blob([JSON.stringify(found)], { type: "application/geo+json" }));
  link.download = "isochrones.geojson";
  link.click();
  setTimeout(() => URL.revokeObjectURL(link.href), 10_000);
}
