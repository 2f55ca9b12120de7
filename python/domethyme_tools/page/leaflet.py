"""The parts of Leaflet that a page embeds, from Debian's package libjs-leaflet, with its licence."""
import pathlib
import re

from ..cli import ToolError

LEAFLET = pathlib.Path("/usr/share/javascript/leaflet")
LEAFLET_COPYRIGHT = pathlib.Path("/usr/share/doc/libjs-leaflet/copyright")


def of_leaflet(name: str) -> str:
    """The text of one of Leaflet's files, without the line that names a map of its source."""
    return re.sub(r"(//|/\*)# sourceMappingURL=.*", "", package_text(LEAFLET / name)).strip()


def leaflet_notice() -> str:
    """Whose Leaflet is, and its licence, from what Debian's package says of it."""
    paragraphs = package_text(LEAFLET_COPYRIGHT).split("\n\n")
    notices = [text for text in paragraphs if text.startswith(("Files: *\n", "License: BSD-2-clause\n"))]
    if len(notices) != 2:
        raise ToolError("has Leaflet's licence in another form than expected", LEAFLET_COPYRIGHT)
    return "\n\n".join(["Leaflet", *notices])


def package_text(path: pathlib.Path) -> str:
    """The text of a file of Debian's package libjs-leaflet."""
    try:
        return path.read_text(encoding="utf-8")
    except FileNotFoundError as error:
        raise ToolError("isn't there: pages need Debian's package libjs-leaflet", path) from error
