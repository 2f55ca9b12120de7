"""The weights and seconds of the arcs of a map, by the time that their roads take and the penalties of turns. Needs numpy."""
import numpy as np

from .groups import Ints
from .sphere import Floats

# Milliseconds in a hundredth of a second, in which penalties are.
PENALTY = 10


def whole_weights(amounts: Floats, added: Ints) -> Ints:
    """Amounts as integers, 1 or more, and what is added to each."""
    return np.asarray(np.maximum(np.rint(amounts), 1).astype(np.int64) + added)


def seconds_of(milliseconds: Floats, penalty: Ints) -> Floats:
    """Seconds to the thousandth, with a penalty in hundredths of a second."""
    return rounded_exactly(milliseconds / 1000 + penalty / 100, 3)


def rounded_exactly(values: Floats, digits: int) -> Floats:
    """The values as Python's `round` rounds them: by their exact value, a tie to the even digit."""
    scaled = values * 10.0**digits
    found: Floats = np.rint(scaled)
    near_ties = np.flatnonzero(np.abs(scaled - np.floor(scaled) - 0.5) < 1e-5)
    found /= 10.0**digits
    found[near_ties] = [round(value, digits) for value in values[near_ties].tolist()]
    return found
