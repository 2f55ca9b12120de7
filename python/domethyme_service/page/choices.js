// The routes to choose from, a row for each in the panel. There are none where there is one route alone.

import { far, takes } from "./words.js";

export class Choices {
  // `chosen` is called with the number of the route that is chosen.
  constructor(box, chosen) {
    Object.assign(this, { box, rows: box.querySelector("div") });
    box.addEventListener("change", (event) => chosen(Number(event.target.value)));
  }

  set(routes) {
    this.box.hidden = routes.length < 2;
    this.rows.replaceChildren(...(this.box.hidden ? [] : routes.map((route, number) => this.row(route, number))));
  }

  row(route, number) {
    const row = document.createElement("label"), input = document.createElement("input");
    Object.assign(input, { type: "radio", name: "choice", value: number, checked: number === 0 });
    row.append(input, ` ${[takes(route), far(route.distance)].filter(Boolean).join(", ")}`);
    return row;
  }

  // Marks the route that was chosen on the map.
  mark(number) { this.rows.querySelectorAll("input")[number].checked = true; }
}
