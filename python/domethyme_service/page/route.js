// The route, drawn over the roads: its line, arrows in its direction, the names along it, and the step that is looked at. A drag
// of the line leads it by another place. Under it are the lines of other routes, of which a click chooses one.

import { boxOf, lengths, pathOf, pointAlong, roomFor, thinned } from "./lines.js";
import { street } from "./words.js";

const SVG = "http://www.w3.org/2000/svg";
const ARROWS = 90, OFF = 12;

function element(name, attributes, text = "") {
  const made = document.createElementNS(SVG, name);
  for (const [key, value] of Object.entries(attributes)) made.setAttribute(key, value);
  made.textContent = text;
  return made;
}

export class Route {
  // `led` is called with an event, and the number of the leg that is to lead by another place; `chosen` with the number of a route.
  constructor(svg, view, led, chosen) {
    Object.assign(this, { svg, view, legs: [], spots: [], waypoints: [], places: [], others: [], step: null });
    this.layers = Object.fromEntries(["others", "lines", "hits", "signs"].map((name) => [name, svg.appendChild(element("g", { class: name }))]));
    svg.addEventListener("click", (event) => {
      const other = event.target.dataset?.other;
      if (other !== undefined) chosen(this.others[other].number);
    });
    svg.addEventListener("pointerdown", (event) => {
      const leg = event.target.dataset?.leg;
      if (leg !== undefined && event.button === 0) led(event, Number(leg));
    });
  }

  // Shows a route by places, for which it takes points of roads; or nothing.
  set(found, waypoints, places) {
    this.legs = found ? found.legs.map((leg) => leg.steps) : [];
    this.spots = waypoints.map((each) => each.location);
    [this.waypoints, this.places] = [waypoints, places];
    this.others = [];
    this.step = null;
    this.view.soon();
  }

  // Shows the other ones of these routes beside the one of this number.
  beside(routes, chosen) {
    this.others = routes.map(({ legs }, number) => ({ number, line: legs.flatMap((leg) => leg.steps).flatMap((step) => step.geometry.coordinates) }))
      .filter(({ number }) => number !== chosen);
    this.view.soon();
  }

  get box() {
    const points = this.legs.flat().flatMap((step) => step.geometry.coordinates).concat(this.places);
    return points.length ? boxOf(points) : null;
  }

  // Writes names where the room has place for them, and takes it.
  draw(room) {
    const { view, layers } = this, lines = [], signs = [], texts = [];
    for (const spot of this.places) {
      const [x, y] = view.pixel(spot);
      room.take(x, y - 20, 30, 40);
    }
    this.legs.forEach((steps, number) => {
      const pixels = steps.map((step) => thinned(step.geometry.coordinates.map((point) => view.pixel(point))));
      const whole = pixels.flat(), path = pathOf(whole);
      lines.push(element("path", { class: "under", d: path }), element("path", { class: "leg", d: path }));
      // (one that is dragged has the pointer, and would lose it where it was put in anew)
      const hit = layers.hits.children[number] ?? layers.hits.appendChild(element("path", { class: "hit", "data-leg": number }));
      hit.setAttribute("d", path);
      signs.push(...this.arrows(whole));
      steps.forEach((step, place) => texts.push([pixels[place], street(step)]));
    });
    this.places.forEach((place, number) => this.spots[number] && lines.unshift(...this.offRoad(place, this.spots[number])));
    if (this.step) lines.push(element("path", { class: "step", d: pathOf(this.step.geometry.coordinates.map((point) => view.pixel(point))) }));
    for (const [pixels, name] of texts) signs.push(...this.name(pixels, name, room));
    layers.lines.replaceChildren(...lines);
    while (layers.hits.children.length > this.legs.length) layers.hits.lastChild.remove();
    layers.signs.replaceChildren(...signs);
    this.drawOthers();
  }

  drawOthers() {
    const group = this.layers.others;
    this.others.forEach(({ line }, number) => {
      const path = pathOf(thinned(line.map((point) => this.view.pixel(point))));
      const made = group.children[number] ?? group.appendChild(element("g", {}));
      if (!made.firstChild) made.append(...["under", "other", "hit"].map((name) => element("path", { class: name, "data-other": number })));
      for (const each of made.children) each.setAttribute("d", path);
    });
    while (group.children.length > this.others.length) group.lastChild.remove();
  }

  arrows(pixels) {
    const along = lengths(pixels), whole = along[along.length - 1], found = [];
    for (let way = ARROWS / 2; way < whole - 14; way += ARROWS) {
      const [x, y, turn] = pointAlong(pixels, along, way);
      if (x < -9 || y < -9 || x > this.view.width + 9 || y > this.view.height + 9) continue;
      found.push(element("path", { class: "arrow", d: "M-1.8-2.8L1.4 0L-1.8 2.8", transform: `translate(${x.toFixed(1)} ${y.toFixed(1)}) rotate(${turn.toFixed(0)})` }));
    }
    return found;
  }

  // From a place to the point of a road that the route takes for it.
  offRoad(place, spot) {
    const [from, to] = [this.view.pixel(place), this.view.pixel(spot)];
    return Math.hypot(from[0] - to[0], from[1] - to[1]) < OFF ? [] : [element("path", { class: "off", d: pathOf([from, to]) })];
  }

  name(pixels, name, room) {
    const width = name.length * 7.4 + 10, shown = pixels.filter(([x, y]) => x > 0 && y > 0 && x < this.view.width && y < this.view.height);
    if (!name || shown.length < 2) return [];
    const along = lengths(shown), whole = along[along.length - 1];
    if (whole < width * 0.6) return [];
    const at = roomFor(shown, width) ?? [...pointAlong(shown, along, whole / 2).slice(0, 2), 0];
    const up = (at[2] - 90) * Math.PI / 180, x = at[0] + 15 * Math.cos(up), y = at[1] + 15 * Math.sin(up);
    if (!room.take(x, y, width, 16, at[2])) return [];
    return [element("text", { transform: `translate(${x.toFixed(1)} ${y.toFixed(1)}) rotate(${at[2].toFixed(1)})` }, name)];
  }
}
