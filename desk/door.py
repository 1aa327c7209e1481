"""Who gets in at the desk: whoever has its token, or, behind a web server, whom that names."""
import hmac
import re
import secrets
from urllib.parse import urlsplit

from service import lines

HOST = "127.0.0.1"
# The page sends the token in this header. A cookie would go to every other port of this machine.
TOKEN = "X-Desk-Token"
# The web server says in this one who somebody is. It counts only at the socket that the web server alone can connect
# to.
PERSON = "X-Desk-Person"
NAME = re.compile(lines.PERSON.pattern.decode("ascii"))


class TokenDoor:
    """For one person, at a port of this machine: whoever has the token is the user that started the desk."""

    is_behind = False

    def __init__(self, port):
        self.port, self.token = port, secrets.token_urlsafe(24)

    def address(self):
        # What stands behind `#` stays in the browser.
        return f"http://{HOST}:{self.port}/#token={self.token}"

    def refusal(self, request, is_page):
        """Why a request is refused, or None. A page elsewhere has another Origin, and where a name of its own leads
        here, another Host. The page itself has no secret, and is given to all."""
        given = request.headers.get(TOKEN, "").encode("utf-8", "replace")
        host = request.headers.get("Host", "")
        if host.split(":")[0] not in (HOST, "localhost") or request.headers.get("Origin") not in (
            None,
            f"http://{host}",
        ):
            return "This is for the desk's own page."
        if not is_page and not hmac.compare_digest(given, self.token.encode()):
            return "Open the address that altdesk has printed: it has the token."
        return None

    def name(self, _request):
        """Who asks: None for the user that started the desk."""
        return None


class BehindDoor:
    """For many, behind a web server that knows who they are, at a socket of its own."""

    is_behind = True

    def __init__(self, path):
        self.path = path

    def address(self):
        return f"behind a web server, at {self.path}"

    def refusal(self, request, is_page):
        """Why a request is refused, or None. Browsers let no page elsewhere send the page's header, and say where a
        request is from."""
        if not NAME.fullmatch(self.name(request)):
            return "The web server has not said who you are."
        origin, host = request.headers.get("Origin"), request.headers.get("Host", "")
        is_from_here = request.headers.get("Sec-Fetch-Site", "same-origin") in ("same-origin", "none")
        if (
            origin is not None
            and urlsplit(origin).netloc != host
            or not is_page
            and (not is_from_here or TOKEN not in request.headers)
        ):
            return "This is for the desk's own page."
        return None

    def name(self, request):
        names = request.headers.getall(PERSON, [])
        return names[0] if len(names) == 1 else ""
