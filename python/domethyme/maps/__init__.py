"""Maps of OpenStreetMap: what becomes of them is `conversion`. map_arrays reads them into arrays, vehicle_profile has the rules of a
vehicle, turn_restrictions the turns, and road_network makes nodes and arcs. Needs numpy and scipy.
"""
