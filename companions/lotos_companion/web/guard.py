"""Which requests are answered: those that come to this server by its own address, from its own page, with its token."""
from __future__ import annotations

import hmac
from dataclasses import dataclass
from typing import Mapping, Optional

# The most bytes that the body of a request may have: a picture of a long chart is the longest that a page sends.
MOST_BYTES = 16 << 20
POLICY = ("default-src 'none'; script-src 'self'; style-src 'self'; img-src 'self' blob:; connect-src 'self'; "
          "base-uri 'none'; form-action 'none'; frame-ancestors 'none'")
HEADERS = {
    "Content-Security-Policy": POLICY,
    "X-Content-Type-Options": "nosniff",
    "X-Frame-Options": "DENY",
    "Referrer-Policy": "no-referrer",
    "Cross-Origin-Opener-Policy": "same-origin",
    "Cross-Origin-Resource-Policy": "same-origin",
    "Cache-Control": "no-store",
}


class Refused(Exception):
    """A request that is not answered: its status, and why."""

    def __init__(self, status: int, why: str):
        super().__init__(why)
        self.status = status
        self.why = why


@dataclass(frozen=True)
class Guard:
    """What a request has to have: the token in its path, and the address of this server as `Host` and `Origin`."""

    port: int
    token: str

    @property
    def host(self) -> str:
        """What stands behind `Host`."""
        return f"127.0.0.1:{self.port}"

    @property
    def address(self) -> str:
        """The address of the page."""
        return f"http://{self.host}/{self.token}/"

    def path(self, path: str, headers: Mapping[str, str], is_post: bool) -> str:
        """What stands in the path behind the token, for headers by their names in small letters. `Refused` where the request is none of the page's own."""
        if headers.get("host") != self.host:
            raise Refused(421, "another host")
        origin = headers.get("origin")
        if origin is None and is_post or origin not in (None, f"http://{self.host}"):
            raise Refused(403, "another origin")
        token, slash, rest = path.partition("?")[0].lstrip("/").partition("/")
        if not slash or not hmac.compare_digest(token.encode("utf-8", "surrogateescape"), self.token.encode()):
            raise Refused(403, "no token")
        is_first = not is_post and rest == "" and headers.get("sec-fetch-dest") == "document"
        if headers.get("sec-fetch-site", "none") not in ("none", "same-origin") and not is_first:
            raise Refused(403, "another site")
        return rest

    @staticmethod
    def length(headers: Mapping[str, str]) -> int:
        """The length of a body. `Refused` where it is too long, not told, or no JSON."""
        told: Optional[str] = headers.get("content-length")
        if headers.get("transfer-encoding") is not None or told is None or not (told.isascii() and told.isdigit()):
            raise Refused(411, "the length of the body is not told")
        if len(told) > 12 or int(told) > MOST_BYTES:
            raise Refused(413, f"the body has more than {MOST_BYTES} bytes")
        if headers.get("content-type", "").partition(";")[0].strip() != "application/json":
            raise Refused(415, "the body is no JSON")
        return int(told)
