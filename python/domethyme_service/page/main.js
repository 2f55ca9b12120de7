// The page: two places or more and the shortest route or round trip by them, or a place and its isochrones.

import { Choices } from "./choices.js";
import { boxOf, least, Room } from "./lines.js";
import { copy, keep, read } from "./link.js";
import { Panel } from "./panel.js";
import { Places } from "./places.js";
import { Reach, save } from "./reach.js";
import { Roads } from "./roads.js";
import { Route } from "./route.js";
import { service } from "./service.js";
import { View } from "./view.js";
import { far, fault, hint, limitsOf, placeOf, reaches, titles } from "./words.js";

export { places, reach, route, view };

const $ = (id) => document.getElementById(id);
const SCALES = [1, 2, 5, 10, 20, 50, 100, 200, 500, 1000, 2000, 5000, 10_000, 20_000, 50_000, 100_000, 200_000, 500_000, 1_000_000];

// `kind` is what is shown: "route", "trip", "reach" or "towards"; `limits` are the numbers of isochrones, as a text, and else null.
// `routes` are those to choose from, and `others` the request for them.
let network = null, offers = null, asking = null, others = null, isWaiting = false, hasToFit = false, kind = "route", limits = null, routes = [];

const view = new View($("map"), draw, (place) => {
  if (limits !== null) places.set([place]);
  else if (kind === "trip" || places.count < 2) {
    hasToFit = places.count > 0;
    places.add(place);
  } else places.insert(legNear(place) + 1, place);
});
const roads = new Roads($("roads"), service, view);
const reach = new Reach($("reach"), view, $("legend"));
const route = new Route($("route"), view, (event, leg) => {
  const hit = event.target;
  places.insert(leg + 1, view.place(view.at(event)));
  places.hold(event, hit, leg + 1);
}, (number) => {
  choices.mark(number);
  choose(number);
});
const choices = new Choices($("choices"), choose);
const panel = new Panel($("total"), $("steps"), (step) => {
  route.step = step;
  const line = step.geometry.coordinates;
  if (!line.every((point) => view.has(point))) view.fit(boxOf(line), 90);
  view.soon();
});
const places = new Places(view, $("marks"), $("places"), changed);

function draw() {
  // The names of the route take their room first, and those of roads what is left.
  const room = new Room(view.covered());
  reach.draw();
  route.draw(room);
  roads.draw(room);
  places.draw();
  scale();
}

// A bar of a round length, in the middle of the map.
function scale() {
  const [, lat] = view.place([view.width / 2, view.height / 2]);
  const pixel = 40_030_228 * Math.cos(lat * Math.PI / 180) / view.size;
  const metres = SCALES.findLast((each) => each / pixel <= 110) ?? 1;
  $("scale").style.width = `${Math.round(metres / pixel)}px`;
  $("scale").textContent = far(metres).replace(".0 ", " ");
}

// The leg of the route that is nearest to a place.
function legNear(place) {
  const [x, y] = view.pixel(place);
  const apart = route.legs.map((steps) => least(steps.flatMap((step) => step.geometry.coordinates).map((point) => {
    const [toX, toY] = view.pixel(point);
    return Math.hypot(toX - x, toY - y);
  })));
  return apart.length ? apart.indexOf(least(apart)) : places.count - 2;
}

// What follows from a change of the places. While one is held, a route is asked for whenever the last one has come.
function changed(isHeld = false) {
  $("hint").textContent = hint(places.count, kind);
  for (const id of ["reverse", "share"]) $(id).disabled = places.count < (limits === null ? 2 : 1);
  $("clear").disabled = places.count === 0;
  $("link").hidden = true;
  if (!isHeld) keep(kind, limits, places.all);
  // (isochrones take the service a second or more, and a round trip gives the places another order: once the place is released)
  if (isHeld && kind !== "route") stop();
  else if (isHeld && asking) isWaiting = true;
  else ask(isHeld);
}

// Waits for no answer any more.
function stop() {
  asking?.abort();
  others?.abort();
  asking = others = null;
}

async function ask(isHeld = false) {
  stop();
  isWaiting = false;
  $("map").classList.remove("waiting");
  if (places.count < (limits === null ? 2 : 1)) {
    show(null);
    return;
  }
  const mine = asking = new AbortController(), asked = places.all.map((place) => [...place]);
  try {
    $("map").classList.toggle("waiting", kind !== "route");
    if (limits !== null) {
      const found = await service.reach(asked[0], reaches[network.unit].isMinutes, limits, kind === "towards", mine.signal);
      if (mine === asking) showReach(found);
    } else if (kind === "trip") {
      const found = await service.trip(asked, mine.signal);
      if (mine === asking) showTrip(found);
    } else {
      const found = await service.route(asked, mine.signal);
      if (mine === asking) show(found.routes, found.waypoints);
      if (mine === asking && !isHeld && asked.length === 2 && offers.alternatives) askOthers(asked);
    }
  } catch (error) {
    if (mine === asking) refuse(error);
  } finally {
    if (mine === asking) {
      $("map").classList.remove("waiting");
      asking = null;
      if (isWaiting) ask();
    }
  }
}

// Asks for other routes beside the one that is shown. If there is no answer, it stays alone.
async function askOthers(asked) {
  const mine = others = new AbortController(), found = await service.route(asked, mine.signal, offers.alternatives).catch(() => null);
  if (mine !== others || !found) return;
  routes = found.routes;
  choices.set(routes);
  route.beside(routes, 0);
}

// Shows isochrones.
function showReach(found) {
  show(null);
  reach.set(found, reaches[network.unit].said);
  $("save").disabled = false;
  if (hasToFit || reach.box && !isShown(reach.box)) fit();
  hasToFit = false;
  document.title = `${reaches[network.unit].said(limits.replaceAll(",", ", "))} · ${titles[kind]}`;
}

// Shows a round trip, whose places take the order in which it visits them.
function showTrip({ trips, waypoints }) {
  const order = waypoints.map((_, number) => number).sort((one, other) => waypoints[one].waypoint_index - waypoints[other].waypoint_index);
  places.reorder(order);
  keep(kind, limits, places.all);
  show(trips, order.map((number) => waypoints[number]));
}

// Shows the first of some routes by the places, for which they take points of roads; or nothing.
function show(found, waypoints = []) {
  say("");
  reach.set(null);
  $("save").disabled = true;
  routes = found ?? [];
  choices.set([]);
  route.set(routes[0], waypoints, places.all);
  roads.without = new Set(route.legs.flat().map((step) => step.name));
  if (!found) {
    panel.clear();
    return;
  }
  panel.set(routes[0], places.count, kind);
  if (hasToFit && !isShown(route.box)) fit();
  hasToFit = false;
  places.name(waypoints);
  document.title = `${$("total").textContent} · ${titles[kind]}`;
}

// Shows the route of this number, and the others beside it.
function choose(number) {
  route.set(routes[number], route.waypoints, places.all);
  route.beside(routes, number);
  roads.without = new Set(route.legs.flat().map((step) => step.name));
  panel.set(routes[number], places.count, kind);
}

// Whether all of a box is shown.
const isShown = ([west, south, east, north]) => view.has([west, south], 10) && view.has([east, north], 10);

function refuse(error) {
  hasToFit = false;
  const { number, text } = fault(error);
  show(null);
  say(text(number === undefined ? undefined : places.called(number)));
}

function say(text) {
  if ($("fault").textContent !== text) $("fault").textContent = text;
}

// Shows the route or the isochrones, or all roads where there is none.
function fit() {
  const box = reach.box ?? route.box ?? network?.box;
  if (box) view.fit(box, 64);
}

// Adds the place that was typed, and shows the route by it.
function typed(event) {
  event.preventDefault();
  const place = placeOf($("at").value);
  $("how").className = place ? "" : "wrong";
  $("how").textContent = place ? "Latitude, longitude" : "That isn't a place. Type its latitude and longitude in degrees, as 47.1410, 9.5215.";
  if (!place) return;
  $("at").value = "";
  hasToFit = true;
  if (limits !== null) places.set([place]);
  else places.add(place);
  if (!view.has(place)) view.centreAt(place);
}

// Takes the places of the address. The route may lead further than they lie: it is shown whole once it is there.
function follow() {
  hasToFit = true;
  const link = read(location.hash), numbers = link.limits === null ? null : limitsOf(link.limits, reaches[network?.unit]?.most);
  const isRight = isOffered(link.kind) && (numbers === null) === (link.limits === null);
  setKind(isRight ? link.kind : "route", isRight ? numbers : null);
  places.set(limits === null ? link.places : link.places.slice(0, 1));
  if (places.count) {
    view.fit(boxOf(places.all), 90);
  } else if (network) view.fit(network.box, 24);
}

// Whether the service answers what is of this kind.
const isOffered = (which) => which === "route" || which === "trip" && Boolean(offers?.trip) || which === "reach" && Boolean(reaches[network?.unit])
  || which === "towards" && Boolean(reaches[network?.unit] && offers.towards);

// Shows the parts of the panel for what is of this kind, with the numbers of isochrones.
function setKind(which, numbers) {
  [kind, limits, places.kind] = [which, numbers, which];
  document.querySelector(`#modes [value=${kind}]`).checked = true;
  for (const id of ["limits", "save"]) $(id).hidden = limits === null;
  $("reverse").hidden = kind !== "route";
  if (limits !== null) $("numbers").value = limits.replaceAll(",", ", ");
}

// Takes another kind, with the places as they are; isochrones are of the first one.
function switched() {
  const which = document.querySelector("#modes :checked").value;
  setKind(which, which === "reach" || which === "towards" ? limitsOf($("numbers").value, reaches[network.unit].most) ?? reaches[network.unit].first : null);
  hasToFit = true;
  places.set(limits === null ? places.all : places.all.slice(0, 1));
}

// Takes the numbers that were typed.
function limited(event) {
  event.preventDefault();
  const found = limitsOf($("numbers").value, reaches[network.unit].most);
  $("limits-how").classList.toggle("wrong", found === null);
  if (found === null) return;
  setKind(kind, found);
  hasToFit = true;
  changed();
}

$("in").addEventListener("click", () => view.zoomTo(view.zoom + 1));
$("out").addEventListener("click", () => view.zoomTo(view.zoom - 1));
$("all").addEventListener("click", fit);
$("map").addEventListener("keydown", (event) => { if (event.key === "Home") fit(); });
$("clear").addEventListener("click", () => { places.set([]); $("map").focus(); });
$("typed").addEventListener("submit", typed);
$("reverse").addEventListener("click", () => places.set(places.all.toReversed()));
$("save").addEventListener("click", () => save(reach.found));
$("limits").addEventListener("submit", limited);
$("modes").addEventListener("change", switched);
$("share").addEventListener("click", () => copy($("share"), $("link")));
window.addEventListener("hashchange", follow);

try {
  [network, offers] = await Promise.all([service.about(), service.offers()]);
  roads.begin(network);
  const inputs = [...document.querySelectorAll("#modes input")];
  for (const input of inputs) input.parentElement.hidden = !isOffered(input.value);
  $("modes").hidden = inputs.filter(({ value }) => isOffered(value)).length < 2;
  $("unit").textContent = reaches[network.unit]?.unit ?? "";
  $("credit").textContent = network.attribution;
  follow();
} catch (error) {
  refuse(error);
}
