// The panel: how long the route is, and its streets with their metres and minutes.

import { far, long, roleOf, roles, street, takes } from "./words.js";

export class Panel {
  // `looked` is called with the step that is looked at.
  constructor(total, steps, looked) { Object.assign(this, { total, steps, looked }); }

  clear() {
    this.total.replaceChildren();
    this.steps.replaceChildren();
  }

  // Shows a route between so many places.
  set(route, count) {
    const way = document.createElement("b");
    way.textContent = takes(route);
    this.total.replaceChildren(way, far(route.distance));
    const rows = route.legs.flatMap((leg, number) => leg.steps.map((step, place) => this.row(step, place ? null : roleOf(number, count))));
    this.steps.replaceChildren(...rows);
  }

  row(step, role) {
    const row = document.createElement("li"), button = document.createElement("button");
    const text = document.createElement("span"), way = document.createElement("span");
    button.type = "button";
    text.className = "text";
    text.textContent = `${role ? `${roles[role]}: ` : ""}${street(step) || "unnamed road"}`;
    way.className = "far";
    way.textContent = step.duration === null ? far(step.distance) : `${far(step.distance)}, ${long(step.duration)}`;
    button.append(text, way);
    button.addEventListener("click", () => {
      this.steps.querySelector("[aria-current]")?.removeAttribute("aria-current");
      button.setAttribute("aria-current", "step");
      this.looked(step);
    });
    row.append(button);
    return row;
  }
}
