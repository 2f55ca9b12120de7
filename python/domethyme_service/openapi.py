"""The API in OpenAPI's form 3.0.3, for programs that make clients: `python3 -m domethyme_service.openapi` prints it. It is
made of the table of endpoints, and of the shapes of answers, which endpoints name."""
import json
import re
from typing import Any

from . import VERSION
from .access import BATCH_TYPES
from .endpoints import ENDPOINTS, Endpoint
from .handlers import MAX_BODY
from .parameters import Parameter

Schema = dict[str, Any]
TEXT: Schema = {"type": "string"}
NUMBER: Schema = {"type": "number"}
INTEGER: Schema = {"type": "integer"}
NUMBER_OR_NULL: Schema = {"type": "number", "nullable": True}
PATH_WORDS = {
    "PROFILE": "any word: a service has one vehicle",
    "PLACES": "LON,LAT;LON,LAT;.. or polyline(..) or polyline6(..)",
    "PLACE": "LON,LAT",
    "FILE": "the name of a file", "ZOOM": "0 to 16", "X": "from the west", "Y": "from the north",
}


def ref(name: str) -> Schema:
    return {"$ref": f"#/components/schemas/{name}"}


def array(items: Schema, **more: Any) -> Schema:
    return {"type": "array", "items": items, **more}


def record(optional: dict[str, Schema] | None = None, **members: Schema) -> Schema:
    """An object with these members, and perhaps those of `optional`."""
    return {"type": "object", "properties": {**members, **(optional or {})}, "required": [*members], "additionalProperties": False}


def word(*words: str) -> Schema:
    return {"type": "string", "enum": [*words]}


FIGURES = {"weight": NUMBER, "duration": NUMBER_OR_NULL, "distance": NUMBER}
POSITION = array(NUMBER, minItems=2, maxItems=2)
ROWS = array(array(NUMBER_OR_NULL))
WAYPOINTS = array(ref("Waypoint"))
NODES = array(INTEGER)
POINT = {"name": TEXT, "location": POSITION, "distance": NUMBER}
KEYS = {"from_key": TEXT, "to_key": TEXT}
SCHEMAS: dict[str, Schema] = {
    "Error": record({"line": INTEGER}, code=TEXT, message=TEXT),
    "Waypoint": record({"hint": TEXT, "nodes": NODES, "trips_index": INTEGER, "waypoint_index": INTEGER}, **POINT),
    "LineString": record(type=word("LineString"), coordinates=array(POSITION)),
    "Line": {"oneOf": [TEXT, ref("LineString")]},
    "Maneuver": record(
        {"modifier": TEXT, "exit": INTEGER}, type=TEXT, location=POSITION, bearing_before=INTEGER, bearing_after=INTEGER
    ),
    "Intersection": record({"in": INTEGER, "out": INTEGER}, location=POSITION, bearings=NODES, entry=array({"type": "boolean"})),
    "Step": record(
        {"ref": TEXT, "destinations": TEXT}, maneuver=ref("Maneuver"), name=TEXT, mode=TEXT, driving_side=TEXT, **FIGURES,
        geometry=ref("Line"), intersections=array(ref("Intersection"))
    ),
    "Annotation": record({
        **dict.fromkeys(("duration", "weight", "distance", "speed"), array(NUMBER_OR_NULL)), "datasources": NODES, "nodes": NODES
    }),
    "Leg": record({"annotation": ref("Annotation")}, summary=TEXT, steps=array(ref("Step")), **FIGURES),
    "Route": record({"geometry": ref("Line"), "confidence": NUMBER}, legs=array(ref("Leg")), weight_name=TEXT, **FIGURES),
    "Routes": record({"waypoints": WAYPOINTS}, code=word("Ok"), routes=array(ref("Route"))),
    "Trips": record({"waypoints": WAYPOINTS}, code=word("Ok"), trips=array(ref("Route"))),
    "Tracepoint": {**record({"hint": TEXT}, **POINT, matchings_index=INTEGER, waypoint_index={**INTEGER, "nullable": True}), "nullable": True},
    "Matchings": record({"tracepoints": array(ref("Tracepoint"))}, code=word("Ok"), matchings=array(ref("Route"))),
    "Nearest": record({"waypoints": WAYPOINTS}, code=word("Ok")),
    "Table": record(
        {"durations": ROWS, "distances": ROWS, "weights": ROWS, "fallback_speed_cells": array(NODES), "sources": WAYPOINTS,
         "destinations": WAYPOINTS}, code=word("Ok")
    ),
    "Feature": record(
        type=word("Feature"), properties={"type": "object"},
        geometry={"type": "object", "nullable": True, "properties": {"type": TEXT}, "required": ["type", "coordinates"]}
    ),
    "FeatureCollection": record({"attribution": TEXT}, type=word("FeatureCollection"), features=array(ref("Feature"))),
    "NodeRoute": record(
        KEYS, **{"from": INTEGER, "to": INTEGER}, length={**INTEGER, "nullable": True}, arcs={**INTEGER, "nullable": True},
        nodes={**NODES, "nullable": True}
    ),
    "NodeLength": record(KEYS, **{"from": INTEGER, "to": INTEGER}, length={**INTEGER, "nullable": True}),
    "NodeRoutes": {"oneOf": [ref("NodeRoute"), ref("Error")]},
    "NodeLengths": {"oneOf": [ref("NodeLength"), ref("Error")]},
    "Health": record(
        {"exclude": array(array(TEXT))}, status=word("ok"), nodes=INTEGER, links=INTEGER, towards={"type": "boolean"}, alternatives=INTEGER
    ),
    "MapAbout": record(
        box=array(NUMBER, minItems=4, maxItems=4), attribution=TEXT, deepest=INTEGER, grid=INTEGER, version=TEXT, unit=TEXT
    ),
    "MapTile": record(roads=array(record({"names": array(TEXT), "name": NODES}, kind=INTEGER, lines=array(NODES)))),
}


def document() -> Schema:
    """The whole document."""
    paths = {re.sub("[A-Z]+", r"{\g<0>}", each.path): {each.method.lower(): operation(each)} for each in ENDPOINTS if each.path}
    license_ = {"name": "MIT or Apache-2.0"}
    info = {"title": "Domethyme", "version": VERSION, "description": "Shortest paths in road networks", "license": license_}
    return {"openapi": "3.0.3", "info": info, "paths": paths, "components": {"schemas": SCHEMAS}}


def operation(endpoint: Endpoint) -> Schema:
    """What OpenAPI has of an endpoint."""
    found: Schema = {"summary": endpoint.answer, "operationId": "_".join(re.findall("[A-Za-z]+", endpoint.name)) or "page"}
    words = re.findall("[A-Z]+", endpoint.path)
    in_path = [{"name": each, "in": "path", "required": True, "description": PATH_WORDS[each], "schema": TEXT} for each in words]
    parameters = [*in_path, *map(query_parameter, endpoint.parameters or ())]
    if parameters:
        found["parameters"] = parameters
    if endpoint.has_lines:
        schema = {**TEXT, "maxLength": MAX_BODY, "description": 'lines {"from": NODE, "to": NODE}'}
        found["requestBody"] = {"required": True, "content": {BATCH_TYPES[0]: {"schema": schema}}}
    shape = ref(endpoint.schema) if endpoint.schema else TEXT
    error = {"description": "an error", "content": {"application/json": {"schema": ref("Error")}}}
    answer = {"description": "each line" if endpoint.has_lines else "the answer", "content": {endpoint.media: {"schema": shape}}}
    return {**found, "responses": {"200": answer, "default": error}}


def query_parameter(parameter: Parameter[Any]) -> Schema:
    schema = {**TEXT, **({"enum": [*parameter.words]} if parameter.words else {})}
    more = {"description": parameter.accepted} if parameter.accepted else {}
    return {"name": parameter.name, "in": "query", **more, "schema": schema}


if __name__ == "__main__":
    print(json.dumps(document(), indent=1, ensure_ascii=False))
