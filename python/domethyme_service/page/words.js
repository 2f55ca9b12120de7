// What the page says.

export const far = (metres) => metres < 995 ? `${metres < 95 ? Math.round(metres) : Math.round(metres / 10) * 10} m`
  : `${(metres / 1000).toFixed(metres < 99500 ? 1 : 0)} km`;

export function long(seconds) {
  if (seconds < 30) return "< 1 min";
  const minutes = Math.max(1, Math.round(seconds / 60));
  return minutes < 60 ? `${minutes} min` : `${Math.floor(minutes / 60)} h ${minutes % 60} min`;
}

// How long a route takes; its weight where the network has no seconds, unless that is its length.
export function takes({ duration, weight, weight_name }) {
  if (duration !== null) return long(duration);
  return weight_name === "distance" ? "" : `weight ${weight}`;
}

// The class of a place, by what is shown: "route", "trip" (which ends where it starts), "reach" or "towards"; and how it is called.
export function roleOf(number, count, kind = "route") {
  if (kind === "towards") return "end";
  if (number === 0 || kind === "trip" && number === count) return "start";
  return kind === "route" && number === count - 1 ? "end" : "via";
}
export const roles = { start: "Start", end: "Destination", via: "Via" };
export const letter = (number, role) => ({ start: "A", end: "B", via: String(number) })[role];

export const where = ([lon, lat]) => `${Math.abs(lat).toFixed(4)}° ${lat < 0 ? "S" : "N"}, ${Math.abs(lon).toFixed(4)}° ${lon < 0 ? "W" : "E"}`;

// A street as it is called: its name, its number, or both.
export function street(step) {
  const { name, ref } = step;
  return name && ref && name !== ref ? `${name} (${ref})` : name || ref || "";
}

const th = (number) => `${number}${["th", "st", "nd", "rd"][number % 100 > 10 && number % 100 < 14 ? 0 : number % 10] ?? "th"}`;

// What to do at a step.
export function told(step, role) {
  const { type, modifier, exit } = step.maneuver, name = street(step);
  const into = name ? ` onto ${name}` : "", toward = step.destinations ? ` towards ${step.destinations}` : "";
  if (type === "arrive") return { start: "Arrive back at the start", end: "Arrive at the destination", via: "Arrive at the stop" }[role];
  if (type === "depart") return `${role === "start" ? "Start" : "Continue"}${name ? ` on ${name}` : ""}${toward}`;
  if (type === "roundabout" || type === "rotary") return `At the roundabout take the ${exit ? `${th(exit)} ` : ""}exit${into}${toward}`;
  if (modifier === "uturn") return `Make a U-turn${into}`;
  const side = modifier === "straight" ? "Go straight on" : modifier.startsWith("slight") ? `Keep ${modifier.slice(7)}` : `Turn ${modifier}`;
  if (type === "new name" && modifier === "straight") return `Continue${into}${toward}`;
  return type === "continue" ? `${side}${name ? ` and stay on ${name}` : ""}${toward}` : `${side}${into}${toward}`;
}

// Why there is no route.
export function fault(error) {
  if (error.code === "NoSegment") {
    const number = Number(/place (\d+)/.exec(error.message)?.[1] ?? NaN);
    return { number, text: (name) => `There is no road near ${name ?? "a place"}. Move it nearer to a road.` };
  }
  if (error.code === "NoRoute") return { text: () => "There is no route between these places. Move one of them." };
  if (error.code === "NoTrips") return { text: () => "There is no round trip through these places. Move one of them." };
  if (error.code === "InvalidService") return { text: () => "This service has no map: it was started without a network." };
  if (error.code === "TooBig") return { text: () => "That is too much. Remove some places, or choose smaller numbers." };
  if (error.code === "Overloaded") return { text: () => "The service is busy. Try again in a moment." };
  return { text: () => error.message };
}

// What the numbers of isochrones are, by the unit of weights; undefined for weights of one's own.
export const reaches = {
  duration: { isMinutes: true, unit: "Minutes", most: 600, first: "5,10,15", said: (number) => `${number} min` },
  distance: { isMinutes: false, unit: "Metres", most: 1_000_000, first: "500,1000,2000", said: (number) => `${number} m` },
};

// The numbers of a text, up to four that rise, with commas between; null for others.
export function limitsOf(text, most) {
  const words = text.trim().split(/[,;\s]+/), limits = words.map(Number);
  const isRising = limits.every((value, at) => value > (at ? limits[at - 1] : 0) && value <= most);
  return words.every((word) => /^\d{1,7}(\.\d{1,5})?$/.test(word)) && limits.length <= 4 && isRising ? limits.join() : null;
}

// What one does with a pointer to choose a place: there are phones without a mouse.
const isTouched = matchMedia("(hover: none) and (pointer: coarse)");
const point = () => isTouched.matches ? "Tap" : "Click";

export function hint(count, kind) {
  if (kind === "reach" || kind === "towards") return count ? "Drag the place, or set another one." : `${point()} the map to set the place.`;
  const next = kind === "trip" ? `${point()} the map to add a place to visit.` : ["", `${point()} the map to set the destination.`, "Drag the route or a place to change it."][Math.min(count, 2)];
  return count ? next : `${point()} the map to set the start.`;
}

// What the page is called while it shows this.
export const titles = { route: "Routes", trip: "Round trip", reach: "Isochrones", towards: "Who gets here" };

// The place that a text names: latitude and longitude in degrees, as maps write them, or with N, S, E and W in any order; null for
// what is none.
export function placeOf(text) {
  const found = /^\s*([+-]?\d{1,3}(?:\.\d{0,12})?)\s*°?\s*([NSEW]?)\s*[,;\s]\s*([+-]?\d{1,3}(?:\.\d{0,12})?)\s*°?\s*([NSEW]?)\s*$/i.exec(text);
  if (!found) return null;
  const [first, second] = [found[2].toUpperCase(), found[4].toUpperCase()];
  const value = (digits, side) => Number(digits) * (side === "S" || side === "W" ? -1 : 1);
  const isTurned = "EW".includes(first || "-") || "NS".includes(second || "-");
  if (Boolean(first) !== Boolean(second) || first && "NS".includes(first) === "NS".includes(second)) return null;
  const [one, other] = [value(found[1], first), value(found[3], second)];
  const [lat, lon] = isTurned ? [other, one] : [one, other];
  return Math.abs(lat) <= 90 && Math.abs(lon) <= 180 ? [lon, lat] : null;
}
