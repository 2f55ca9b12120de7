"""A network: the files of its nodes and arcs, and where they lie on the earth.

The modules columns, geo and tables need nothing but Python's own library; contours, contour_shapes and isochrones need
numpy, scipy and shapely; the others numpy. `network` has domethyme.Network. columns is the table of a network's columns.
net_file is a network in arrays, and its file: column_file is its form, indexes, grid and zoom_levels what is derived, and from_tables
makes one of tables, which table_files writes. snapping has the roads, and legs the least way between two places on them. without and
reweigh make views.
"""
