// The part of the earth that the map shows: Mercator's plane, in which the world is 256 * 2 ** zoom pixels wide.

const SHALLOWEST = 2, DEEPEST = 19, CLICK = 6;

export const plane = ([lon, lat]) => {
  const angle = Math.max(-85.05, Math.min(85.05, lat)) * Math.PI / 180;
  return [lon / 360 + 0.5, 0.5 - Math.asinh(Math.tan(angle)) / (2 * Math.PI)];
};

export const place = ([x, y]) => [(x - 0.5) * 360, Math.atan(Math.sinh((0.5 - y) * 2 * Math.PI)) * 180 / Math.PI];

export class View {
  // `changed` is called, once a frame, when what is shown has changed; `clicked` with the place of a click.
  constructor(element, changed, clicked) {
    Object.assign(this, { element, changed, clicked, centre: [0.5, 0.5], zoom: 2, width: 1, height: 1 });
    this.pointers = new Map();
    new ResizeObserver(() => this.resized()).observe(element);
    this.resized();
    element.addEventListener("wheel", (event) => this.wheeled(event), { passive: false });
    element.addEventListener("pointerdown", (event) => this.pressed(event));
    element.addEventListener("pointermove", (event) => this.moved(event));
    for (const name of ["pointerup", "pointercancel"]) element.addEventListener(name, (event) => this.released(event));
    element.addEventListener("keydown", (event) => this.typed(event));
  }

  get size() { return 256 * 2 ** this.zoom; }

  resized() {
    [this.width, this.height] = [this.element.clientWidth, this.element.clientHeight];
    this.soon();
  }

  soon() {
    if (this.frame) return;
    this.frame = requestAnimationFrame(() => { this.frame = 0; this.changed(); });
  }

  // The pixel of a place, and the place of a pixel.
  pixel(at) {
    const [x, y] = plane(at);
    return [(x - this.centre[0]) * this.size + this.width / 2, (y - this.centre[1]) * this.size + this.height / 2];
  }

  place([x, y]) {
    return place([this.centre[0] + (x - this.width / 2) / this.size, this.centre[1] + (y - this.height / 2) / this.size]);
  }

  pan(x, y) {
    this.centre = [this.centre[0] + x / this.size, Math.max(0, Math.min(1, this.centre[1] + y / this.size))];
    this.soon();
  }

  centreAt(at) {
    this.centre = plane(at);
    this.soon();
  }

  // Zooms so that the pixel keeps its place.
  zoomTo(zoom, [x, y] = [this.width / 2, this.height / 2]) {
    const east = x - this.width / 2, south = y - this.height / 2;
    this.pan(east, south);
    this.zoom = Math.max(SHALLOWEST, Math.min(DEEPEST, zoom));
    this.pan(-east, -south);
  }

  // Shows a box [west, south, east, north], with a margin in pixels.
  fit([west, south, east, north], margin = 48) {
    const [left, top] = plane([west, north]), [right, bottom] = plane([east, south]);
    const room = Math.max(1, Math.min(margin, this.width / 4, this.height / 4));
    const scale = Math.min((this.width - 2 * room) / Math.max(right - left, 1e-9), (this.height - 2 * room) / Math.max(bottom - top, 1e-9));
    this.zoom = Math.max(SHALLOWEST, Math.min(17, Math.log2(scale / 256)));
    this.centre = [(left + right) / 2, (top + bottom) / 2];
    this.soon();
  }

  // Whether a place is shown, with so many pixels around it.
  has(at, margin = 30) {
    const [x, y] = this.pixel(at);
    return x > margin && y > margin && x < this.width - margin && y < this.height - margin;
  }

  // The boxes of the map that lie under its scale, its credit and its buttons: no name is written there.
  covered() {
    const { left, top } = this.element.getBoundingClientRect();
    return [...this.element.querySelectorAll("#scale, #credit, #zoom")].map((each) => each.getBoundingClientRect())
      .filter((box) => box.width).map((box) => [box.left - left - 2, box.top - top - 2, box.right - left + 2, box.bottom - top + 2]);
  }

  at(event) {
    const { left, top } = this.element.getBoundingClientRect();
    return [event.clientX - left, event.clientY - top];
  }

  wheeled(event) {
    event.preventDefault();
    const lines = event.deltaMode === 1 ? 30 : 1;
    this.zoomTo(this.zoom - Math.max(-1, Math.min(1, event.deltaY * lines / 240)), this.at(event));
  }

  pressed(event) {
    if (event.button !== 0 || event.target.closest("button, .hit, a")) return;
    this.element.setPointerCapture(event.pointerId);
    this.pointers.set(event.pointerId, this.at(event));
    this.way = this.pointers.size > 1 ? Infinity : 0;
  }

  moved(event) {
    const before = this.pointers.get(event.pointerId);
    if (!before) return;
    const now = this.at(event);
    const other = [...this.pointers].find(([id]) => id !== event.pointerId)?.[1];
    if (other) {
      const apart = (point) => Math.max(20, Math.hypot(point[0] - other[0], point[1] - other[1]));
      this.zoomTo(this.zoom + Math.log2(apart(now) / apart(before)), other);
    } else {
      this.way += Math.hypot(now[0] - before[0], now[1] - before[1]);
      if (this.way <= CLICK) return;
      this.element.classList.add("moving");
      this.pan(before[0] - now[0], before[1] - now[1]);
    }
    this.pointers.set(event.pointerId, now);
  }

  released(event) {
    if (!this.pointers.delete(event.pointerId)) return;
    this.element.classList.remove("moving");
    if (event.type === "pointerup" && this.way <= CLICK && !this.pointers.size) this.clicked(this.place(this.at(event)));
  }

  typed(event) {
    if (event.target !== this.element || event.ctrlKey || event.altKey || event.metaKey) return;
    const step = event.shiftKey ? 240 : 60;
    const ways = { ArrowLeft: [-step, 0], ArrowRight: [step, 0], ArrowUp: [0, -step], ArrowDown: [0, step] };
    if (ways[event.key]) this.pan(...ways[event.key]);
    else if (event.key === "+" || event.key === "=") this.zoomTo(this.zoom + 1);
    else if (event.key === "-" || event.key === "−") this.zoomTo(this.zoom - 1);
    else if (event.key === "Enter" || event.key === " ") this.clicked(this.place([this.width / 2, this.height / 2]));
    else return;
    event.preventDefault();
  }
}
