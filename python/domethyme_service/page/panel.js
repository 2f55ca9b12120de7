// The panel: the way and time of the route, and its steps by street.

import { far, roleOf, takes, told } from "./words.js";

const SVG = "http://www.w3.org/2000/svg";
const TURNS = { straight: 0, "slight right": 35, right: 90, "sharp right": 140, "slight left": -35, left: -90, "sharp left": -140 };

export class Panel {
  // `looked` is called with the step that is looked at.
  constructor(total, steps, looked) { Object.assign(this, { total, steps, looked }); }

  clear() {
    this.total.replaceChildren();
    this.steps.replaceChildren();
  }

  // Shows a route between so many places.
  set(route, count, kind) {
    const way = document.createElement("b");
    way.textContent = takes(route);
    this.total.replaceChildren(way, far(route.distance));
    this.steps.replaceChildren(...route.legs.flatMap((leg, number) => leg.steps.map((step) => {
      const isEnd = step.maneuver.type === "arrive";
      return this.row(step, roleOf(number + isEnd, count, kind));
    })));
  }

  row(step, role) {
    const row = document.createElement("li"), button = document.createElement("button");
    const text = document.createElement("span"), way = document.createElement("span");
    button.type = "button";
    text.className = "text";
    text.textContent = told(step, role);
    way.className = "far";
    way.textContent = step.distance ? far(step.distance) : "";
    button.append(sign(step), text, way);
    button.addEventListener("click", () => {
      this.steps.querySelector("[aria-current]")?.removeAttribute("aria-current");
      button.setAttribute("aria-current", "step");
      this.looked(step);
    });
    row.append(button);
    return row;
  }
}

// The drawing before a step.
function sign({ maneuver: { type, modifier } }) {
  const svg = document.createElementNS(SVG, "svg"), path = document.createElementNS(SVG, "path");
  svg.setAttribute("viewBox", "0 0 24 24");
  svg.setAttribute("aria-hidden", "true");
  path.setAttribute("d", drawing(type, modifier));
  svg.append(path);
  return svg;
}

function drawing(type, modifier) {
  if (type === "depart") return "M12 8a4 4 0 1 0 .01 0ZM12 8V3";
  if (type === "arrive") return "M7 21V4h11l-3 4 3 4H7";
  if (type === "roundabout" || type === "rotary") return "M12 21v-5a4.5 4.5 0 1 1 3.5-1.7M15 9l5-4M20 9.5V5h-4.5";
  if (modifier === "uturn") return "M17 21V10a5 5 0 0 0-10 0v7M3.5 13.5 7 17l3.5-3.5";
  const angle = TURNS[modifier] * Math.PI / 180, long = 10;
  const foot = 12 - 5 * Math.sin(angle), bend = Math.abs(angle) > 2 ? 8 : 12;
  const tip = [foot + long * Math.sin(angle), bend - long * Math.cos(angle)];
  const text = (point) => point.map((value) => value.toFixed(1)).join(" ");
  const side = (by) => text([tip[0] - 5 * Math.sin(angle + by), tip[1] + 5 * Math.cos(angle + by)]);
  return `M${foot.toFixed(1)} 21V${bend}L${text(tip)}M${side(0.75)}L${text(tip)}L${side(-0.75)}`;
}
