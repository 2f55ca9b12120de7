"""Errors that become HTTP error responses, and the error of a service that can't start."""
import functools

from .json_text import to_json


class RequestError(Exception):
    """The response `{"code": .., "message": ..}`, with a status of 400 to 505. Codes are OSRM's, or of this service."""

    def __init__(self, status: int, code: str, message: str, **headers: str) -> None:
        super().__init__(message)
        self.status, self.code, self.message = status, code, message
        self.headers = {"Retry-After": "1"} if status == 503 else headers

    def json(self, **more: object) -> str:
        return to_json(dict[str, object](code=self.code, message=self.message, **more))


class StartupError(Exception):
    """The service can't start, or can't reload its files. Its text is one line."""


# An unknown parameter, or a request of the wrong shape; an invalid value of a parameter; an OSRM parameter that would change
# the answer, and that this service doesn't support; too much; and a request that isn't valid HTTP (RFC 9112).
invalid_query = functools.partial(RequestError, 400, "InvalidQuery")
invalid_value = functools.partial(RequestError, 400, "InvalidValue")
not_implemented = functools.partial(RequestError, 400, "NotImplemented")
too_big = functools.partial(RequestError, 400, "TooBig")
malformed = functools.partial(RequestError, 400, "InvalidUrl", "the request cannot be read")
