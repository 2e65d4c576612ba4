"""The table's server: 127.0.0.1 alone, its own Host, its own paths, bodies up to a bound, and nothing written to disk."""
import http.server
import json
import os
import sys

ADDRESS = "127.0.0.1"
# More than the text of any job that is accepted, and than its fields as JSON.
BODY = 1_000_000
# A connection that says nothing for so many seconds is closed.
SILENCE = 60
PAGE = os.path.join(os.path.dirname(os.path.realpath(__file__)), "page")
TYPES = {".html": "text/html; charset=utf-8", ".css": "text/css; charset=utf-8", ".js": "text/javascript; charset=utf-8"}
CALL = "/call"
# The page takes nothing from elsewhere, and nothing elsewhere may hold it.
HEADERS = {
    "Content-Security-Policy": "default-src 'none'; script-src 'self'; style-src 'self'; connect-src 'self'; img-src 'self' data: blob:; base-uri 'none'; form-action 'none'; frame-ancestors 'none'",
    "Cross-Origin-Resource-Policy": "same-origin",
    "X-Content-Type-Options": "nosniff",
    "Referrer-Policy": "no-referrer",
    "Cache-Control": "no-store",
}


def own_files():
    """What a GET gets, by path, read once."""
    files = {}
    for name in sorted(os.listdir(PAGE)):
        kind = TYPES.get(os.path.splitext(name)[1])
        if kind:
            with open(os.path.join(PAGE, name), "rb") as file:
                files["/" if name == "table.html" else f"/{name}"] = (kind, file.read())
    return files


class Handler(http.server.BaseHTTPRequestHandler):
    protocol_version = "HTTP/1.1"
    server_version, sys_version = "table", ""
    timeout = SILENCE

    def do_GET(self):
        if self.strange():
            return
        kind, data = self.server.files.get(self.path, (None, b""))
        if kind is None:
            self.refuse(404, "no such page")
        else:
            self.answer(200, kind, data)

    def do_POST(self):
        if self.strange():
            return
        length = self.headers.get("Content-Length", "")
        if self.path != CALL:
            self.refuse(404, "no such call")
        elif not length.isdigit():
            self.refuse(411, "a length is needed")
        elif int(length) > BODY:
            self.refuse(413, f"at most {BODY:,} bytes")
        elif self.headers.get_content_type() != "application/json":
            self.refuse(415, "a call is JSON")
        else:
            self.call(self.rfile.read(int(length)))

    def call(self, body):
        try:
            asked = json.loads(body)
            answer = self.server.table.call(asked)
        except (ValueError, KeyError, TypeError, RecursionError) as why:
            self.refuse(400, f"not a call: {type(why).__name__} {why}")
            return
        self.answer(200, "application/json", json.dumps(answer, separators=(",", ":")).encode())

    def strange(self):
        """Another Host, as a page elsewhere has it whose name was turned to this machine, or a call from another page."""
        origin = self.headers.get("Origin", f"http://{self.server.host}")
        if self.headers.get_all("Host") == [self.server.host] and origin == f"http://{self.server.host}":
            return False
        self.refuse(403, f"another Host or Origin: the table is at http://{self.server.host}/")
        return True

    def refuse(self, status, what):
        # The body, if there is one, is not read: so the connection ends.
        self.close_connection = True
        self.answer(status, "text/plain; charset=utf-8", f"{what}\n".encode())

    def answer(self, status, kind, data):
        self.send_response(status)
        self.send_header("Content-Type", kind)
        self.send_header("Content-Length", str(len(data)))
        for name, value in HEADERS.items():
            self.send_header(name, value)
        if self.close_connection:
            self.send_header("Connection", "close")
        self.end_headers()
        self.wfile.write(data)

    def log_message(self, *_):
        """A quiet terminal: the page says what there is to say."""


class Server(http.server.ThreadingHTTPServer):
    daemon_threads = True

    def handle_error(self, request, client_address):
        """A tab that was closed in the middle of an answer is no fault."""
        if not isinstance(sys.exc_info()[1], OSError):
            super().handle_error(request, client_address)


def server(table, port=0):
    """A server of the table on a port, 0 for a free one."""
    made = Server((ADDRESS, port), Handler)
    made.table, made.files = table, own_files()
    made.host = f"{ADDRESS}:{made.server_address[1]}"
    return made
