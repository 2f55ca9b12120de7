"""The page's text: that of the service's page, with its scripts and styles inside it, and this folder's in the place of some."""
import base64
import gzip
import hashlib
import pathlib
import re

from domethyme.network.net_file import MappedNetwork

from ..cli import ToolError
from .bundle import bundled
from .network import network_bytes

HERE = pathlib.Path(__file__).resolve().parent
SERVICE_PAGE = HERE.parents[1] / "domethyme_service/page"
PROVED = """  <details>
    <summary>What is proved</summary>
    <p>This page works offline, and sends nothing. The length of each route, its nodes, and what is reached come from a library that a
    checker has proved: they are shortest paths of the road network that the page has. Not proved, but tested: the nearest
    road to a place, streets, metres and drawing. Trusted: how the library was made WebAssembly, and the browser. Whether the
    map is right, nobody has proved.</p>
  </details>
"""


def page_of(network: MappedNetwork, hierarchy: bytes, library: pathlib.Path, attribution: str) -> str:
    """The HTML of a network, its hierarchy's columns, and the library in a folder, with an attribution beside the network's."""
    own, theirs = ({file.name: file.read_text(encoding="utf-8") for file in sorted(folder.glob("*.js"))}
                   for folder in (HERE, SERVICE_PAGE))
    calls = (library / "domethyme.js").read_text(encoding="utf-8")
    script = bundled({**theirs, **own}, "main.js")
    data = {
        "worker": bundled({**own, "domethyme.js": calls}, "worker.js"),
        "module": packed((library / "domethyme.wasm").read_bytes()),
        "hierarchy": packed(hierarchy),
        "network": packed(network_bytes(network, attribution)),
    }
    if any("</script" in text.lower() for text in (script, *data.values())):
        raise ToolError("a script would end in its midst")
    parts = "".join(f'<script type="text/plain" id="{name}">{text}</script>\n' for name, text in data.items())
    style = (SERVICE_PAGE / "style.css").read_text(encoding="utf-8")
    policy = f"default-src 'none'; script-src {digest(script)} 'wasm-unsafe-eval'; style-src {digest(style)}; img-src data:; worker-src blob:"
    text = (SERVICE_PAGE / "index.html").read_text(encoding="utf-8")
    for old, new in (
        ('<meta charset="utf-8">\n', f'<meta charset="utf-8">\n<meta http-equiv="Content-Security-Policy" content="{policy}">\n'),
        ('<link rel="icon" href="map/icon.svg" type="image/svg+xml">\n', '<link rel="icon" href="data:,">\n'),
        ('<link rel="stylesheet" href="map/style.css">\n', f"<style>{style}</style>\n"),
        ('<script type="module" src="map/main.js"></script>\n', ""),
        ('<svg id="reach" aria-hidden="true"></svg>\n', '<canvas id="reach" aria-hidden="true"></canvas>\n'),
        ("  </details>\n", "  </details>\n" + PROVED),
        ("</body>\n", f"{parts}<script>{script}</script>\n</body>\n"),
    ):
        if text.count(old) != 1:
            raise ToolError(f"has another form than expected at {old.strip()}", SERVICE_PAGE / "index.html")
        text = text.replace(old, new)
    if found := re.search(r'(?:src|href)="(?!data:)[^"]*"', text):
        raise ToolError(f"asks for another file: {found[0]}", SERVICE_PAGE / "index.html")
    return text


def packed(data: bytes) -> str:
    """Bytes by gzip, in base 64."""
    return base64.b64encode(gzip.compress(data, 9, mtime=0)).decode()


def digest(text: str) -> str:
    """A script or style, as a Content-Security-Policy names one that may be used."""
    return f"'sha256-{base64.b64encode(hashlib.sha256(text.encode()).digest()).decode()}'"
