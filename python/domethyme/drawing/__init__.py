"""Pictures of routes and of what is reached over their network: `picture` makes SVG of what `routes` reads of GeoJSON and `roads` of a
network, by the geometry of `geometry`. Needs numpy.
"""
