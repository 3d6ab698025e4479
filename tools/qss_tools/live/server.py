"""The server of a page: on this computer only, and only for addresses with its token."""
import hmac
import json
import os
import secrets
import threading
from http.server import BaseHTTPRequestHandler, ThreadingHTTPServer
from typing import Any, Callable, Dict, List, Optional

from ..fault import Fault
from .session import Loaded, Session, Stale

HOST = "127.0.0.1"
FOLDER = os.path.dirname(os.path.abspath(__file__))
KINDS = {"html": "text/html; charset=utf-8", "js": "text/javascript; charset=utf-8", "css": "text/css; charset=utf-8"}
PAGE = {"": "page.html", "page.js": "page.js", "page.css": "page.css"}
MOST_REQUEST = 1 << 20  # bytes of a request
PAUSE = 0.05  # seconds between two looks at the file
BEAT = 10.0  # seconds after which a page is sent a sign of life
# The page loads nothing from elsewhere, is in no frame, and says to nobody where it is.
SAFE = {
    "Content-Security-Policy": "default-src 'none'; script-src 'self'; connect-src 'self'; img-src 'self' data: blob:;"
    " style-src 'self' 'unsafe-inline'; font-src data:; frame-ancestors 'none'; base-uri 'none'; form-action 'none'",
    "Referrer-Policy": "no-referrer",
    "X-Content-Type-Options": "nosniff",
    "Cross-Origin-Resource-Policy": "same-origin",
    "Cache-Control": "no-store",
}


class LiveServer(ThreadingHTTPServer):
    """Serves the page of a session."""

    daemon_threads = True

    def __init__(self, session: Session, port: int) -> None:
        self.session = session
        self.token = secrets.token_urlsafe(24)
        self.ended = threading.Event()
        self.watching = threading.Thread(target=self.watch, daemon=True)
        super().__init__((HOST, port), Handler)

    @property
    def address(self) -> str:
        """The address of the page."""
        return "http://%s:%d/%s/" % (HOST, self.server_port, self.token)

    def watch(self) -> None:
        """Looks at the file until the server ends. A new source that runs is advised on."""
        advised: Optional[Loaded] = None
        threads: List[threading.Thread] = []
        while not self.ended.wait(PAUSE):
            self.session.look()
            if self.session.loaded is not advised:
                advised = self.session.loaded
                threads = [one for one in threads if one.is_alive()]
                threads.append(threading.Thread(target=self.session.advise, args=[self.ended.is_set], daemon=True))
                threads[-1].start()
        for thread in threads:
            thread.join()

    def end(self) -> None:
        """Ends the threads."""
        self.ended.set()
        with self.session.saved:
            self.session.saved.notify_all()
        self.shutdown()
        self.server_close()
        self.watching.join()

    def handle_error(self, request: Any, client_address: Any) -> None:
        """A page that went away is no fault."""


class Handler(BaseHTTPRequestHandler):
    """Answers one connection."""

    server: LiveServer
    protocol_version = "HTTP/1.1"
    server_version, sys_version = "qss-live", ""

    def log_message(self, format: str, *args: Any) -> None:
        """Nothing is printed: an address has the token."""

    def do_GET(self) -> None:
        name = self.allowed()
        if name is None:
            return
        if name in PAGE:
            with open(os.path.join(FOLDER, PAGE[name]), "rb") as file:
                self.send(200, file.read(), KINDS[PAGE[name].rpartition(".")[2]])
        elif name == "plotly.js":
            self.send(200, plotly_script(), KINDS["js"])
        elif name == "state":
            self.send_json(self.server.session.state())
        elif name == "changes":
            self.stream()
        else:
            self.send(404, b"there is no such page\n")

    def do_POST(self) -> None:
        name = self.allowed()
        if name is None:
            return
        answers: Dict[str, Callable[[Any], Any]] = {
            "draw": self.server.session.draw,
            "measure": self.server.session.measure,
        }
        size = self.headers.get("Content-Length", "")
        if name not in answers or not size.isdigit() or int(size) > MOST_REQUEST:
            self.close_connection = True
            self.send(400, b"not a request of the page\n")
            return
        try:
            self.send_json(answers[name](json.loads(self.rfile.read(int(size)))))
        except Stale:
            self.send_json({"stale": True})
        except Fault as fault:
            self.send_json({"fault": self.server.session.named(fault)})
        except (ValueError, TypeError, KeyError, IndexError, AttributeError):
            self.send(400, b"not a request of the page\n")

    def allowed(self) -> Optional[str]:
        """What is asked for, if the address has the token, and this host is meant by a page of its own; else None."""
        token, _, name = self.path.partition("?")[0].lstrip("/").partition("/")
        here = ["%s:%d" % (host, self.server.server_port) for host in (HOST, "localhost")]
        is_token = hmac.compare_digest(token.encode("utf-8", "replace"), self.server.token.encode())
        origin = self.headers.get("Origin")
        is_own = origin is None or origin in ["http://" + one for one in here]
        if is_token and is_own and self.headers.get("Host") in here:
            return name
        self.close_connection = True
        self.send(403, b"this page is for the one who started qss-live: use the address that it printed\n")
        return None

    def send(self, status: int, body: bytes, kind: str = "text/plain; charset=utf-8") -> None:
        self.send_response(status)
        for name, value in {**SAFE, "Content-Type": kind, "Content-Length": str(len(body))}.items():
            self.send_header(name, value)
        self.end_headers()
        self.wfile.write(body)

    def send_json(self, answer: Any) -> None:
        self.send(200, json.dumps(answer, separators=(",", ":")).encode(), "application/json")

    def stream(self) -> None:
        """Sends the number of each revision of the file, as long as the page is open."""
        self.close_connection = True
        self.send_response(200)
        for name, value in {**SAFE, "Content-Type": "text/event-stream"}.items():
            self.send_header(name, value)
        self.end_headers()
        session, sent = self.server.session, -1
        while not self.server.ended.is_set():
            with session.saved:
                session.saved.wait_for(lambda: session.revision != sent or self.server.ended.is_set(), BEAT)
                revision = session.revision
            self.wfile.write(b"data: %d\n\n" % revision if revision != sent else b": \n\n")
            sent = revision


def plotly_script() -> bytes:
    """The script of plotly, from its package."""
    from plotly.offline import get_plotlyjs

    return str(get_plotlyjs()).encode()


def started(session: Session, port: int) -> LiveServer:
    """A server whose threads run."""
    try:
        server = LiveServer(session, port)
    except (OSError, OverflowError) as error:
        reason = getattr(error, "strerror", None) or "no such port"
        raise Fault("the port %d cannot be used: %s" % (port, reason.lower())) from error
    server.watching.start()
    threading.Thread(target=server.serve_forever, daemon=True).start()
    return server
