"""The steps of a route, and what to do at each. Needs numpy.

A step begins where the name of the road changes, or a ferry, at a turn of more than 45 degrees at a junction, and at a roundabout,
until after its exit. Types are depart, turn, new name, continue, roundabout and arrive.
"""
import functools
import itertools
from typing import Any

import numpy as np
from numpy.typing import NDArray

from .columns import TEXTS
from .groups import mask
from .junctions import MIN_DEGREE, junctions
from .leg_geometry import RouteGeometry
from .parallel import differs_from_previous

MIN_TURN_DEGREES = 45
# The least degrees of each of MODIFIERS but the first, which has its words for turns to the left, and to the right.
MODIFIER_LIMITS = (20, 45, 120, 170)
MODIFIERS = [("straight", f"slight {side}", side, f"sharp {side}", "uturn") for side in ("left", "right")]
KINDS = ("continue", "new name", "turn", "roundabout")
# The type and the modifier of a step, by its number of `turns`.
TURNS = [(kind, modifier) for kind in KINDS for side in MODIFIERS for modifier in side]
NAME = TEXTS.index("name")


class RouteSteps:
    """The steps of a route's legs but the arrivals, by their first arcs, and the bearings of each arc at both ends."""

    def __init__(self, geometry: RouteGeometry) -> None:
        self.geometry, self.roads = geometry, geometry.roads
        self.rows = self.roads.arrays.arc_row[geometry.arcs]
        self.names = self.roads.arrays.row_texts[self.rows, NAME]
        self.is_on_roundabout, self.is_on_ferry = self.roads.roundabout_rows[self.rows], self.roads.ferry_rows[self.rows]
        self.first_bearings, self.last_bearings = geometry.bearings
        self.starts = geometry.starts
        self.is_junction = self._are_junctions()
        self.begins = self._is_first().nonzero()[0]
        self.ends = np.append(self.begins[1:], len(geometry.arcs))
        self.is_leg_first = mask(len(geometry.arcs) + 1, geometry.first)[self.begins]
        # (a step that enters a roundabout is named after the first arc behind it)
        self.named = self.begins.copy()
        self.roundabouts: list[int] = (self.is_on_roundabout[self.begins] & ~self.is_leg_first).nonzero()[0].tolist()
        for step in self.roundabouts:
            behind = np.flatnonzero(~self.is_on_roundabout[self.begins[step] : self.ends[step]])
            self.named[step] += behind[0] if len(behind) else 0

    def _are_junctions(self) -> NDArray[np.bool_]:
        """Whether three edges or more meet where each arc begins; nodes that restrictions split are one junction."""
        arrays, firsts = self.roads.arrays, self.geometry.first
        found = arrays.degree(self.starts) >= MIN_DEGREE
        is_split = ~found & (arrays.node_ends[self.starts] != 0)
        is_split[self.geometry.joints] = is_split[firsts[firsts < len(found)]] = False
        if is_split.any():
            arcs = np.flatnonzero(is_split)
            found[junctions(self.geometry, arcs, np.zeros(len(arcs), bool)).arcs] = True
        return found

    def _is_first(self) -> NDArray[np.bool_]:
        """Whether a step begins with each arc."""
        geometry, names, is_round = self.geometry, self.names, self.is_on_roundabout
        turns = (self.first_bearings[1:] - self.last_bearings[:-1] + 180) % 360 - 180
        is_turn = self.is_junction[1:] & (np.abs(turns) > MIN_TURN_DEGREES)
        # (at a point within a road a leg goes on, or turns round)
        joints, is_along = geometry.joints, geometry.are_along
        is_turn[joints - 1] = is_along[joints] != is_along[joints - 1]
        is_new = differs_from_previous(names) | differs_from_previous(self.is_on_ferry)
        is_new[1:] |= is_turn
        if is_round.any():  # (a step begins before a roundabout, but not on it or after it)
            is_free = np.append(True, ~is_round[:-1])
            for first, behind in itertools.pairwise(geometry.first.tolist()):
                if first < behind and is_round[first]:  # (the leg begins on this one, so no step has entered it)
                    is_free[first : first + 1 + int(np.argmin(is_round[first:behind]))] = True
            is_new = np.where(is_round, np.append(True, ~is_round[:-1]), is_new & is_free)
        is_new[geometry.first[:-1][geometry.first[:-1] < geometry.first[1:]]] = True
        return is_new

    @functools.cached_property
    def turns(self) -> list[int]:
        """What to do at the beginning of each step, as a number of TURNS; nothing of the first one of a leg."""
        angles = (self.first_bearings[self.named] - self.last_bearings[self.begins - 1] + 180) % 360 - 180
        is_same = self.names[self.begins - 1] == self.names[self.begins]
        kinds = np.where(is_same, 0, np.where(np.abs(angles) > MIN_TURN_DEGREES, 2, 1))
        kinds[self.roundabouts] = 3
        modifiers = np.searchsorted(MODIFIER_LIMITS, np.abs(angles), side="right")
        numbers: list[int] = ((kinds * 2 + (angles > 0)) * len(MODIFIERS[0]) + modifiers).tolist()
        return numbers

    def exit_of(self, step: int) -> int | None:
        """By which exit the route leaves the roundabout of a step, from 1; None if the leg ends on it."""
        begin, end, named = int(self.begins[step]), int(self.ends[step]), int(self.named[step])
        if named == begin and self.is_on_roundabout[end - 1]:
            return None
        nodes = self.roads.arrays.arc_to[self.geometry.arcs[begin:named]].tolist()
        return 1 + sum(self.roads.count_exits(node) for node in nodes[:-1])


def instructions(geometry: RouteGeometry) -> list[dict[str, Any]]:
    """What to do along the one leg of a route: for each step its type, modifier (None where it departs and arrives), name, metres
    and seconds, None if the network has none, and the exit of a roundabout that it leaves."""
    steps, found = RouteSteps(geometry) if len(geometry.arcs) else None, list[dict[str, Any]]()
    if steps is not None:
        texts, totals = geometry.roads.texts, geometry.totals(steps.begins, steps.ends).rows
        for number, (name, (_, seconds, metres)) in enumerate(zip(steps.names[steps.named].tolist(), totals)):
            kind, modifier = TURNS[steps.turns[number]] if number else ("depart", None)
            found.append({"type": kind, "modifier": modifier, "name": texts[name], "metres": metres, "seconds": seconds})
            if number in steps.roundabouts and (way_out := steps.exit_of(number)) is not None:
                found[-1]["exit"] = way_out
    nothing = {"name": found[-1]["name"] if found else "", "metres": 0.0, "seconds": 0.0 if geometry.roads.has_seconds else None}
    return [*(found or [{"type": "depart", "modifier": None, **nothing}]), {"type": "arrive", "modifier": None, **nothing}]
