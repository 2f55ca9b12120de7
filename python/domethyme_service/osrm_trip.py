"""OSRM's trip: the order of some places in which the route by them weighs least (domethyme.tours), and that route."""
import numpy as np

from domethyme import tours
from domethyme.network.leg_tables import weight_rows

from .costs import Work
from .errors import RequestError
from .json_text import join_array
from .osrm import Engine, route_by, snap_places, waypoint_json
from .osrm_request import Request
from .osrm_tables import NODE_CELLS
from .parameters import DESTINATION, ROUNDTRIP, SKIP_WAYPOINTS, SOURCE


def trip(engine: Engine, request: Request) -> str:
    """The trip through all places, back to the first one of a round trip. The waypoints come in the order of the places. Raises
    RequestError."""
    values, points = request.values, snap_places(engine, request)
    rows = weight_rows(engine.queries.table, engine.roads, points, points, NODE_CELLS)
    weights = np.concatenate(list(rows))
    engine.meter.spend(Work.STOP, len(points))
    is_round = values[ROUNDTRIP] == "true"
    order = tours.best_order(weights, is_round, values[SOURCE], values[DESTINATION])
    if order is None:
        raise RequestError(400, "NoTrips", "there is no path from each place to the next one in any order that was found")
    more = {}
    if values[SKIP_WAYPOINTS] != "true":
        index = np.argsort(order).tolist()
        more["waypoints"] = join_array(
            waypoint_json(request, point, f',"trips_index":0,"waypoint_index":{at}') for point, at in zip(points, index)
        )
    return route_by(engine, request, [points[place] for place in [*order, *(order[:1] if is_round else [])]], "trips", more)
