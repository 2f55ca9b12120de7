// What the page asks of the service. A fault is an Error with the service's `code`, or without one where it can't be reached.

async function asked(path, signal) {
  let answer, found;
  try {
    answer = await fetch(path, { signal });
    found = await answer.json();
  } catch (error) {
    if (error.name === "AbortError") throw error;
    throw new Error("The service can't be reached.");
  }
  if (!answer.ok) throw Object.assign(new Error(found.message), { code: found.code });
  return found;
}

const SHOWN = "overview=false&steps=true&geometries=geojson&generate_hints=false";
const texts = (places) => places.map((place) => place.map((degrees) => degrees.toFixed(6)).join(",")).join(";");

export const service = {
  about: () => asked("map/about"),
  tile: (key, version) => asked(`map/roads/${key}?v=${version}`),

  // Whether there are round trips, and isochrones towards a place, and how many other routes at most.
  offers: () => asked("health").then(({ towards, alternatives }) => ({ trip: true, towards, alternatives }), () => ({ trip: true, towards: false, alternatives: 0 })),

  // A route by all places, [lon, lat] each, in order; between two also up to so many other ones.
  route: (places, signal, others = 0) => asked(`route/v1/car/${texts(places)}?${SHOWN}${others ? `&alternatives=${others}` : ""}`, signal),

  // A round trip from the first place through the others, in the best order.
  trip: (places, signal) => asked(`trip/v1/car/${texts(places)}?${SHOWN}&source=first`, signal),

  // What is reached from a place within numbers of minutes or metres, or from where it is reached.
  reach(place, isMinutes, limits, isTowards, signal) {
    const numbers = `contours_${isMinutes ? "minutes" : "meters"}=${limits}`;
    return asked(`isochrone/v1/car/${texts([place])}?${numbers}&polygons=true${isTowards ? "&reverse=true" : ""}`, signal);
  },
};
