"""nginx for tests: the shipped configuration (packaging/nginx/domethyme.conf) in front of a service on a unix socket, run
by a real nginx as the user of the test."""
import getpass
import os
import pathlib
import re
import resource
import shutil
import socket
import subprocess

from service_case import ServiceCase
from tool_case import ROOT, SECONDS

SHIPPED = ROOT / "packaging/nginx/domethyme.conf"
MAIN = """
{user}daemon off; worker_processes 2; pid {folder}/nginx.pid; error_log {folder}/nginx.log;
worker_rlimit_nofile {files}; events {{ worker_connections {connections}; }}
http {{
    client_body_temp_path {folder}/body; proxy_temp_path {folder}/proxy; fastcgi_temp_path {folder}/fastcgi;
    uwsgi_temp_path {folder}/uwsgi; scgi_temp_path {folder}/scgi;
    # (a test chooses the address that it comes from)
    set_real_ip_from 127.0.0.1; real_ip_header X-Test-Address;
    {shipped}
}}
"""


def configuration(folder: pathlib.Path, port: int, instead: dict[str, str]) -> str:
    """The shipped configuration, with the sockets, logs and the port of a test, and other texts in place of some."""
    text = SHIPPED.read_text(encoding="utf-8").replace("/run/domethyme/", f"{folder}/").replace("/var/log/nginx/", f"{folder}/")
    text = text.replace("listen [::]:80;", "").replace("listen 80;", f"listen 127.0.0.1:{port};")
    for old, new in instead.items():
        assert old in text, old
        text = text.replace(old, new)
    user = f"user {getpass.getuser()};\n" if os.geteuid() == 0 else ""
    page = (ROOT / "docs/OPERATING.md").read_text(encoding="utf-8")
    connections = re.search(r"worker_connections (\d+);", page)[1]
    # (no more files than a test may have)
    hard, files = resource.getrlimit(resource.RLIMIT_NOFILE)[1], int(re.search(r"worker_rlimit_nofile (\d+);", page)[1])
    files = files if hard == resource.RLIM_INFINITY else min(files, hard)
    return MAIN.format(folder=folder, shipped=text, user=user, connections=connections, files=files)


class NginxCase(ServiceCase):
    """A test with a service behind nginx, which listens at `self.port`."""

    def serve_behind_nginx(self, *words, instead={}):
        """Starts both, and returns the process of the service."""
        process = self.serve("--network", self.folder / "v", "--bind", f"unix:{self.folder}/serve.sock", *words)
        program = shutil.which("nginx", path=f"{os.environ['PATH']}:/usr/sbin")
        # (as an nginx that replaces another one it gets a socket that listens: a port that is only free may be taken)
        with socket.create_server(("127.0.0.1", 0), backlog=511) as listening:
            listening.setblocking(False)
            number, self.port = listening.fileno(), listening.getsockname()[1]
            (self.folder / "nginx.conf").write_text(configuration(self.folder, self.port, instead), encoding="utf-8")
            given = [program, "-c", self.folder / "nginx.conf", "-e", self.folder / "nginx.log"]
            environment = {**os.environ, "NGINX": f"{number};"}
            self.nginx = subprocess.Popen(given, stdin=subprocess.DEVNULL, pass_fds=[number], env=environment)
        self.addCleanup(self.nginx.wait)
        self.addCleanup(self.nginx.terminate)  # (a kill would leave its workers)
        return process

    def hold(self, stack, path, address, count):
        """Connections of an address that nginx has counted, and on which it waits for bodies while the stack is open."""
        fields = f"Host: x\r\nX-Test-Address: {address}\r\nExpect: 100-continue\r\nContent-Length: 9"
        for _ in range(count):
            stream = stack.enter_context(socket.create_connection(("127.0.0.1", self.port), SECONDS))
            stream.sendall(f"POST {path} HTTP/1.1\r\n{fields}\r\n\r\n".encode())
            self.assertIn(b" 100 ", stream.recv(64))  # (which it sends once it has counted)
