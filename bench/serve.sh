#!/bin/sh
# Serves 2,000 package_create and 10,000 package_show over loopback, a connection a request and one after the other, and prints
# requests a second, the middle and the 99th of a hundred of their times, and peak memory; and the same for Python's
# `http.server`, which answers every request with a constant of the same length. Needs python3.
cd "$(dirname "$0")/.." || exit 1
./portal play </dev/null || exit 1
exec python3 -B - "$PWD/crates/portal_cli/out/portal_cli" <<'PY'
import http.server
import os
import socket
import subprocess
import sys
import time

CREATES, SHOWS = 2_000, 10_000
TOKEN = "token-ann"


def free_port():
    with socket.socket() as probe:
        probe.bind(("127.0.0.1", 0))
        return probe.getsockname()[1]


def create(number):
    body = f'{{"name":"set-{number:06}","owner_org":"city","title":"Set {number}"}}'
    return (
        f"POST /api/3/action/package_create HTTP/1.1\r\nHost: localhost\r\nAuthorization: {TOKEN}\r\n"
        f"Content-Length: {len(body)}\r\n\r\n{body}"
    ).encode()


def show(number):
    return f"GET /api/3/action/package_show?id=set-{number % CREATES:06} HTTP/1.1\r\nHost: localhost\r\n\r\n".encode()


def exchange(port, request):
    with socket.create_connection(("127.0.0.1", port), timeout=20) as link:
        link.sendall(request)
        pieces = []
        while piece := link.recv(65_536):
            pieces.append(piece)
        return b"".join(pieces)


def timed(port, requests):
    """Seconds of each exchange, all of whose replies are 200, and the length of the last body."""
    seconds = []
    for request in requests:
        start = time.perf_counter()
        reply = exchange(port, request)
        seconds.append(time.perf_counter() - start)
        if not reply.startswith((b"HTTP/1.1 200 ", b"HTTP/1.0 200 ")):
            sys.exit(f"{reply[:200]!r}")
    return seconds, len(reply.partition(b"\r\n\r\n")[2])


def wait_for(port, process):
    for _ in range(200):
        try:
            socket.create_connection(("127.0.0.1", port), timeout=1).close()
            return
        except ConnectionRefusedError:
            if process.poll() is not None:
                sys.exit(f"status {process.returncode}")
            time.sleep(0.05)
    sys.exit("no server")


def told(name, seconds, peak=None):
    ordered = sorted(seconds)
    rate = len(ordered) / sum(ordered)
    middle, late = (ordered[len(ordered) * part // 100] * 1000 for part in (50, 99))
    print(f"{name:<16} {rate:>10.0f} {middle:>10.3f} {late:>10.3f} {peak or '':>9}")
    return rate


def peak_of(process):
    with open(f"/proc/{process.pid}/status") as status:
        return next(line.split()[1] for line in status if line.startswith("VmHWM"))


class Constant(http.server.BaseHTTPRequestHandler):
    protocol_version = "HTTP/1.1"

    def answer(self):
        self.rfile.read(int(self.headers.get("Content-Length", 0)))
        self.send_response(200)
        self.send_header("Content-Length", str(len(self.body)))
        self.send_header("Connection", "close")
        self.end_headers()
        self.wfile.write(self.body)

    do_GET = do_POST = answer

    def log_message(self, *words):
        pass


creates = [create(number) for number in range(CREATES)]
shows = [show(number) for number in range(SHOWS)]
print(f"{'':<16} {'requests/s':>10} {'middle ms':>10} {'99th ms':>10} {'peak KiB':>9}")

port = free_port()
environment = {**os.environ, "PORTAL_PORT": str(port)}
# One link more, by which it is seen that the server listens.
words = [sys.argv[1], "serve", "--links", str(CREATES + SHOWS + 1)]
server = subprocess.Popen(words, env=environment, stdin=subprocess.DEVNULL)
wait_for(port, server)
made, _ = timed(port, creates)
seen, length = timed(port, shows[:-1])
peak = peak_of(server)
seen += timed(port, shows[-1:])[0]
if server.wait(timeout=30) != 0:
    sys.exit(f"status {server.returncode}")
rates = told("portal create", made), told("portal show", seen, peak)

port = free_port()
child = os.fork()
if child == 0:
    Constant.body = b"x" * length
    http.server.HTTPServer(("127.0.0.1", port), Constant).serve_forever()


class Forked:
    pid = child

    def poll(self):
        return None


wait_for(port, Forked())
plain = timed(port, creates)[0], timed(port, shows)[0]
peak = peak_of(Forked())
os.kill(child, 15)
os.waitpid(child, 0)
plain_rates = told("plain create", plain[0]), told("plain show", plain[1], peak)
print(f"portal to plain: create {rates[0] / plain_rates[0]:.2f}, show {rates[1] / plain_rates[1]:.2f}")
PY
