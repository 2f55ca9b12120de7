// What is reached within minutes or metres, drawn over the roads: an area for each number, and a legend.

import { pathOf, thinned } from "./lines.js";

const SVG = "http://www.w3.org/2000/svg";

export class Reach {
  constructor(svg, view, legend) { Object.assign(this, { svg, view, legend, found: null }); }

  // Shows an answer of the service, the largest contour first, or nothing. `said` is what the legend calls a number.
  set(found, said) {
    this.found = found;
    this.legend.replaceChildren(...(found?.features ?? []).map(({ properties }) => {
      const row = document.createElement("li"), svg = document.createElementNS(SVG, "svg");
      svg.setAttribute("aria-hidden", "true");
      svg.append(shape("rect", properties.color));
      row.append(svg, said(properties.contour));
      return row;
    }).reverse());
    this.view.soon();
  }

  get box() {
    const points = (this.found?.features ?? []).flatMap(rings).flat();
    if (!points.length) return null;
    const side = (axis, least) => points.reduce((value, point) => least(value, point[axis]), points[0][axis]);
    return [side(0, Math.min), side(1, Math.min), side(0, Math.max), side(1, Math.max)];
  }

  // Each area is drawn without the one within it, so colours are those of the legend.
  draw() {
    const paths = (this.found?.features ?? []).map((feature) => rings(feature)
      .map((ring) => `${pathOf(thinned(ring.map((point) => this.view.pixel(point))))}Z`).join(""));
    this.svg.replaceChildren(...paths.map((path, number) => {
      const area = shape("path", this.found.features[number].properties.color);
      area.setAttribute("d", path + (paths[number + 1] ?? ""));
      return area;
    }));
  }
}

function shape(name, colour) {
  const made = document.createElementNS(SVG, name);
  made.setAttribute("fill", colour);
  made.setAttribute("stroke", colour);
  return made;
}

function rings({ geometry }) {
  return geometry ? geometry.type === "Polygon" ? geometry.coordinates : geometry.coordinates.flat() : [];
}

// Saves what is shown as a file.
export function save(found) {
  const link = document.createElement("a");
  link.href = URL.createObjectURL(new Blob([JSON.stringify(found)], { type: "application/geo+json" }));
  link.download = "isochrones.geojson";
  link.click();
  setTimeout(() => URL.revokeObjectURL(link.href), 10_000);
}
