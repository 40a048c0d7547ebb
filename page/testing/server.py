"""A plain file server, as the page needs one."""
import functools
import http.server
import threading


class Handler(http.server.SimpleHTTPRequestHandler):
    """Serves files, tells nothing, and writes down what was asked for."""

    extensions_map = {**http.server.SimpleHTTPRequestHandler.extensions_map, ".js": "text/javascript", ".wasm": "application/wasm"}

    def log_message(self, *_):
        self.server.asked.append(self.path)


def serve(folder):
    """Serves a folder on a free port of this machine until the process ends: its address, and the list of what is asked for."""
    server = http.server.ThreadingHTTPServer(("127.0.0.1", 0), functools.partial(Handler, directory=str(folder)))
    server.daemon_threads = True
    server.asked = []
    threading.Thread(target=server.serve_forever, daemon=True).start()
    return f"http://127.0.0.1:{server.server_address[1]}", server.asked
