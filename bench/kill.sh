#!/bin/sh
# bench/kill.sh [TIMES]: kills `play` and `serve` over a store in a file by SIGKILL at random moments, TIMES times each (200 without it),
# and starts the program again on the file after each. The next start has to succeed, and to show each change that a reply had
# acknowledged before the kill; at most one more may be there. Prints how many kills met a running program, and how many changes were
# acknowledged. Needs python3.
cd "$(dirname "$0")/.." || exit 1
./portal play </dev/null || exit 1
exec python3 -B - "$PWD/crates/portal_cli/out/portal_cli" "${1:-200}" <<'PY'
import http.client
import json
import os
import random
import signal
import socket
import subprocess
import sys
import tempfile
import threading
import time

PROGRAM, TIMES = sys.argv[1], int(sys.argv[2])
# A script of this many changes takes longer than the longest wait before a kill.
CHANGES = 20_000
LONGEST_WAIT = 0.6


def create(number):
    return {"name": f"set-{number:06}", "owner_org": "city"}


def environment(store, port=None):
    more = {"PORTAL_STORE": store, "PORTAL_TIME": "real"}
    return {**os.environ, **more, **({"PORTAL_PORT": str(port)} if port else {})}


def names_in(store):
    """The names of the datasets that a new start finds."""
    line = json.dumps({"action": "package_list", "as": "root"}) + "\n"
    run = subprocess.run([PROGRAM, "play"], input=line.encode(), capture_output=True, env=environment(store))
    if run.returncode != 0:
        sys.exit(f"the start after a kill ended with {run.returncode}: {run.stderr.decode()}")
    return json.loads(run.stdout.partition(b" ")[2])["result"]


def killed_play(store, first):
    """Plays creations, from this number on, until it is killed. Gives how many were acknowledged by a whole line."""
    script = "".join(
        json.dumps({"action": "package_create", "as": "ann", "body": create(number)}) + "\n"
        for number in range(first, first + CHANGES)
    )
    with tempfile.TemporaryFile("w+") as given:
        given.write(script)
        given.seek(0)
        process = subprocess.Popen([PROGRAM, "play"], stdin=given, stdout=subprocess.PIPE, env=environment(store))
        timer = threading.Timer(random.uniform(0, LONGEST_WAIT), process.kill)
        timer.start()
        written = process.stdout.read()
        status = process.wait()
        timer.cancel()
    return written.count(b"\n"), status == -signal.SIGKILL


def free_port():
    with socket.socket() as probe:
        probe.bind(("127.0.0.1", 0))
        return probe.getsockname()[1]


def killed_serve(store, first):
    """Has a server make datasets, from this number on, until it is killed. Gives how many of its replies were 200."""
    port = free_port()
    process = subprocess.Popen([PROGRAM, "serve"], env=environment(store, port))
    timer = threading.Timer(random.uniform(0, LONGEST_WAIT), process.kill)
    timer.start()
    acknowledged = 0
    while process.poll() is None:
        link = http.client.HTTPConnection("127.0.0.1", port, timeout=5)
        try:
            body = json.dumps(create(first + acknowledged))
            link.request("POST", "/api/3/action/package_create", body, {"Authorization": "token-ann"})
            if link.getresponse().read().endswith(b'"success":true}'):
                acknowledged += 1
        except OSError:
            time.sleep(0.001)
        except http.client.HTTPException:
            pass
        finally:
            link.close()
    timer.cancel()
    return acknowledged, process.wait() == -signal.SIGKILL


for kind, killed in (("play", killed_play), ("serve", killed_serve)):
    met = changes = 0
    with tempfile.TemporaryDirectory() as folder:
        store = f"{folder}/store.db"
        made = names_in(store)
        for _ in range(TIMES):
            acknowledged, was_running = killed(store, len(made))
            wanted = made + [create(len(made) + number)["name"] for number in range(acknowledged)]
            found = names_in(store)
            if found[: len(wanted)] != wanted or len(found) > len(wanted) + 1:
                sys.exit(f"{kind}: {len(found)} datasets where {len(wanted)} were acknowledged")
            met += was_running
            changes += acknowledged
            made = found
    print(f"{kind:<6} {TIMES} kills, {met} of a running program, {changes} acknowledged changes, each there at the next start")
PY
