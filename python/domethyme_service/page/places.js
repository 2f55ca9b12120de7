// The places of the route: marks on the map, and rows in the panel. `changed` is called with what has become of them.

import { letter, roleOf, roles, where } from "./words.js";

const NUDGE = 10, FURTHER = 60;

export class Places {
  constructor(view, marks, rows, changed) {
    Object.assign(this, { view, marks, rows, changed, all: [], names: [], kind: "route" });
  }

  get count() { return this.all.length; }

  role(number) { return roleOf(number, this.count, this.kind); }

  letter(number) { return letter(number, this.role(number)); }

  set(places) {
    this.all = places;
    this.names = [];
    this.show();
    this.changed();
  }

  add(place) { this.insert(this.count, place); }

  insert(number, place) {
    this.all.splice(number, 0, place);
    this.names = [];
    this.show();
    this.changed();
  }

  move(number, place, isHeld = false) {
    this.all[number] = place;
    this.names[number] = undefined;
    this.draw();
    this.changed(isHeld);
  }

  remove(number) {
    this.all.splice(number, 1);
    this.names = [];
    this.show();
    this.changed();
  }

  // The streets that the places are on, where the route has them.
  name(waypoints) {
    this.names = waypoints.map((each) => each.name || "unnamed road");
    this.label();
  }

  called(number) {
    const role = this.role(number);
    return role === "via" ? `place ${number}` : role === "start" ? "the start" : "the destination";
  }

  // Puts the places in another order, of their numbers. The focus stays with its place.
  reorder(order) {
    if (order.every((number, at) => number === at)) return;
    this.all = order.map((number) => this.all[number]);
    this.show((held) => order.indexOf(held));
  }

  // Makes marks and rows anew; the focus stays at its place, which may have another number now.
  show(numberNow = (held) => Math.min(held, this.count - 1)) {
    const [mark, row] = [this.marks, this.rows].map((list) => [...list.children].findIndex((each) => each.contains(document.activeElement)));
    this.marks.replaceChildren(...this.all.map((_, number) => this.mark(number)));
    this.rows.replaceChildren(...this.all.map((_, number) => this.row(number)));
    this.label();
    this.draw();
    if (mark >= 0) (this.marks.children[numberNow(mark)] ?? this.view.element).focus();
    if (row >= 0) (this.rows.children[numberNow(row)]?.querySelector(".remove") ?? this.view.element).focus();
  }

  label() {
    this.all.forEach((place, number) => {
      const said = this.names[number] ?? where(place), role = roles[this.role(number)];
      this.rows.children[number].querySelector(".where").textContent = said;
      this.marks.children[number].setAttribute("aria-label", `${role} ${this.letter(number)}: ${said}. Arrow keys move it, Delete removes it.`);
      this.marks.children[number].title = `${role}: ${said}`;
      this.rows.children[number].querySelector(".remove").setAttribute("aria-label", `Remove ${this.called(number)}, ${said}`);
    });
  }

  draw() {
    this.all.forEach((place, number) => {
      const [x, y] = this.view.pixel(place);
      this.marks.children[number].style.translate = `${x}px ${y}px`;
    });
  }

  row(number) {
    const row = document.createElement("li"), badge = document.createElement("span"), said = document.createElement("span");
    row.className = this.role(number);
    badge.className = "letter";
    badge.textContent = this.letter(number);
    said.className = "where";
    const button = document.createElement("button");
    Object.assign(button, { type: "button", className: "remove", textContent: "×" });
    button.addEventListener("click", () => this.remove(number));
    row.append(badge, said, button);
    return row;
  }

  mark(number) {
    const mark = document.createElement("button"), text = document.createElement("span");
    Object.assign(mark, { type: "button", className: `mark ${this.role(number)}` });
    text.textContent = this.letter(number);
    mark.append(text);
    mark.addEventListener("keydown", (event) => this.typed(event, number));
    mark.addEventListener("pointerdown", (event) => { if (event.button === 0) this.hold(event, mark, number); });
    return mark;
  }

  typed(event, number) {
    const step = event.shiftKey ? FURTHER : NUDGE;
    const ways = { ArrowLeft: [-step, 0], ArrowRight: [step, 0], ArrowUp: [0, -step], ArrowDown: [0, step] };
    if (ways[event.key]) {
      const [x, y] = this.view.pixel(this.all[number]), [east, south] = ways[event.key];
      this.move(number, this.view.place([x + east, y + south]));
    } else if (event.key === "Delete" || event.key === "Backspace") this.remove(number);
    else return;
    event.preventDefault();
    event.stopPropagation();
  }

  // Lets the pointer move a place until it is released; the element takes its events.
  hold(event, element, number) {
    event.preventDefault();
    event.stopPropagation();
    element.focus?.({ focusVisible: false });
    element.setPointerCapture(event.pointerId);
    element.classList.add("held");
    const [x, y] = this.view.pixel(this.all[number]), start = this.view.at(event);
    let isMoved = false;
    const at = (now) => this.view.place([x + now[0] - start[0], y + now[1] - start[1]]);
    const moved = (next) => {
      const now = this.view.at(next);
      isMoved ||= Math.hypot(now[0] - start[0], now[1] - start[1]) > 3;
      if (isMoved) this.move(number, at(now), true);
    };
    const released = (next) => {
      element.removeEventListener("pointermove", moved);
      for (const name of ["pointerup", "pointercancel"]) element.removeEventListener(name, released);
      element.classList.remove("held");
      if (isMoved) this.move(number, at(this.view.at(next)));
    };
    element.addEventListener("pointermove", moved);
    for (const name of ["pointerup", "pointercancel"]) element.addEventListener(name, released);
  }
}
