"""What graphs, their files and tables of lengths may have at most."""

MAX_NODES = 1 << 25
MAX_LINES = 1 << 27
MAX_WEIGHT = (1 << 32) - 1
MAX_CELLS = 1 << 29
# How many metres away the nearest node or road may be, where nobody says so.
DEFAULT_RADIUS = 1000.0
# The standard deviation of a place of a trace in metres, where nobody says so, and at most.
DEFAULT_DEVIATION, MAX_DEVIATION = 5.0, 200.0
