// What the page asks of its worker, in the place of the service. A fault is an Error with the service's `code`, or without one.

import { Reached } from "./reach.js";

const asked = new Map();
let worker = null, count = 0;

function ask(name, ...words) {
  return new Promise((answered, failed) => {
    asked.set(++count, { answered, failed });
    worker.postMessage({ number: count, name, words });
  });
}

function begin() {
  const text = (id) => document.getElementById(id).textContent;
  worker = new Worker(URL.createObjectURL(new Blob([text("worker")], { type: "text/javascript" })));
  worker.onmessage = ({ data: { number, found, message, code } }) => {
    const { answered, failed } = asked.get(number);
    asked.delete(number);
    if (message === undefined) answered(found);
    else failed(Object.assign(new Error(message), { code }));
  };
  worker.onerror = (event) => asked.forEach(({ failed }) => failed(new Error(event.message || "The page's worker can't run here.")));
  return ask("begin", ["module", "hierarchy", "network"].map(text));
}

export const service = {
  about: begin,
  offers: async () => ({ trip: false, towards: false, alternatives: 0 }),
  tile: (key) => ask("tile", key),
  route: (places) => ask("route", places),
  async reach(place, isMinutes, limits) {
    const numbers = limits.split(",").map(Number);
    return new Reached(numbers, await ask("reach", place, isMinutes, numbers));
  },
};
