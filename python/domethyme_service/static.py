"""The files of the page at `/`, by path, read when the service starts, so no path leads to another file. Their
Content-Security-Policy lets the page load only them, and send requests to this service alone."""
import pathlib

FOLDER = pathlib.Path(__file__).resolve().parent / "page"
MEDIA_TYPES = {
    ".html": "text/html; charset=utf-8",
    ".css": "text/css; charset=utf-8",
    ".js": "text/javascript; charset=utf-8",
    ".svg": "image/svg+xml",
}
POLICY = (
    "default-src 'none'; script-src 'self'; style-src 'self'; img-src 'self'; connect-src 'self'; "
    "base-uri 'none'; form-action 'none'; frame-ancestors 'none'"
)
HEADERS = {"Content-Security-Policy": POLICY, "Referrer-Policy": "no-referrer", "Cache-Control": "no-cache"}
CACHE_ONE_DAY = {"Cache-Control": "public, max-age=86400"}
NO_CACHE, NO_STORE = {"Cache-Control": "no-cache"}, {"Cache-Control": "no-store"}
FILES = [file for file in sorted(FOLDER.iterdir()) if file.suffix in MEDIA_TYPES]
# The media type and the bytes of each file, by its path.
PAGE_FILES = {f"/map/{file.name}": (MEDIA_TYPES[file.suffix], file.read_bytes()) for file in FILES}
PAGE_FILES["/"] = PAGE_FILES.pop("/map/index.html")
