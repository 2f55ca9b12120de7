"""A routing service over HTTP: OSRM's API over a hierarchy in memory, whose answers the library computes and proves.
gunicorn manages its processes, and nginx is the proxy in front of it (packaging/nginx/domethyme.conf).

Read it in the order of a request. The command starts gunicorn_app, whose arbiter opens a dataset and forks workers. A worker reads a
request, waits for its slots, and calls wsgi, which checks access and finds an endpoint of the table. The endpoint's handler parses the
request (osrm_request, parameters), computes what it costs (costs), and answers by osrm and its like, isochrone, node_queries, tiles, or
static; queries has the calls of the library. metrics, log_stream and errors are used by all; openapi makes documents.
"""
VERSION = "1.1.0"
