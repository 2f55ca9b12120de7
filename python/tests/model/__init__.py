"""What routes, tables and what is reached have to be, by brute force from the tables of a network alone; and the network of a
map. Nothing of the packages is imported here; the functions are named as docs/SERVICE.md, docs/PYTHON.md and docs/MAPS.md name
things.

Where the pages leave a choice, as between two shortest paths, or where rounding decides, a function gives all that may be.
"""
