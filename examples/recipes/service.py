"""A service that replies to POST with the DER of a message, or says why it is refused. It has limits, and a pool of processes.

    python3 service.py PORT

What one client can take is bounded: the length of its message, the memory of a process, the seconds that are waited for it, and the number of processes.
"""

import resource
import signal
import sys
from concurrent.futures import ProcessPoolExecutor
from concurrent.futures.process import BrokenProcessPool
from http.server import BaseHTTPRequestHandler, ThreadingHTTPServer
from multiprocessing import get_context

import cms_canon

LIMIT = 1 << 20  # octets of a message, and of its DER
MEMORY = 256 << 20  # octets that a process may have
SECONDS = 10  # for a client to send its message, and to have it converted
PROCESSES = 4


def limited():
    resource.setrlimit(resource.RLIMIT_DATA, (MEMORY, MEMORY))


def converted(octets):
    """Returns the status and the body. This runs in a process of the pool."""
    try:
        return 200, cms_canon.convert(octets, limit=LIMIT)
    except cms_canon.Refused as refused:
        return 422, f"{refused}\n".encode()
    except MemoryError:
        return 503, b"out of memory\n"


class Handler(BaseHTTPRequestHandler):
    timeout = SECONDS

    def do_POST(self):
        length = self.headers.get("Content-Length", "")
        if not length.isdecimal():
            self.say(411, b"the length is needed\n")
        elif int(length) > LIMIT:
            self.say(413, b"the message is too long\n")
        else:
            self.say(*self.answer(self.rfile.read(int(length)), int(length)))

    def answer(self, octets, length):
        if len(octets) != length:
            return 400, b"the message is cut\n"
        try:
            return self.server.pool.submit(converted, octets).result(SECONDS)
        except TimeoutError:
            return 503, b"too busy\n"
        except BrokenProcessPool:  # of a process that was killed: whoever looks after this service starts it again
            self.server.shutdown()
            return 500, b"it is broken\n"

    def say(self, status, body):
        self.send_response(status)
        self.send_header("Content-Type", "application/pkcs7-mime" if status == 200 else "text/plain")
        self.send_header("Content-Length", str(len(body)))
        self.end_headers()
        self.wfile.write(body)


def main(port):
    signal.signal(signal.SIGTERM, lambda *_: sys.exit(0))  # so that the pool is ended too
    how = {"mp_context": get_context("spawn"), "initializer": limited}  # or processes would have the sockets of this one
    with ProcessPoolExecutor(PROCESSES, **how) as pool, ThreadingHTTPServer(("127.0.0.1", port), Handler) as server:
        server.pool = pool
        server.serve_forever()
    return 1


if __name__ == "__main__":
    sys.exit(main(int(sys.argv[1])))
