#!/bin/sh
# Plays many creates and as many shows, and prints lines per second and peak memory, for 10,000 of each and for half as
# many, so that growth is seen. Needs python3 to write the script and to measure.
cd "$(dirname "$0")/.." || exit 1
./portal play </dev/null || exit 1
exec python3 - "$PWD/crates/portal_cli/out/portal_cli" <<'PY'
import os, resource, subprocess, sys, tempfile, time

program = sys.argv[1]


def script(count):
    create = '{"action":"package_create","as":"ann","body":{"name":"set-%06d","owner_org":"city","title":"Set %d"}}\n'
    show = '{"action":"package_show","body":{"id":"set-%06d"}}\n'
    lines = [create % (i, i) for i in range(count)] + [show % i for i in range(count)]
    return "".join(lines)


def measure(count):
    with tempfile.TemporaryFile("w+") as given, tempfile.TemporaryFile("w+b") as taken:
        given.write(script(count))
        given.seek(0)
        start = time.monotonic()
        process = subprocess.Popen([program, "play"], stdin=given, stdout=taken)
        _, status, usage = os.wait4(process.pid, 0)
        seconds = time.monotonic() - start
        taken.seek(0)
        good = sum(line.startswith(b"200 ") for line in taken)
        if status != 0 or good != 2 * count:
            sys.exit(f"status {status}, {good} of {2 * count} lines are 200")
        return seconds, usage.ru_maxrss


print(f"{'lines':>8} {'seconds':>9} {'lines/s':>9} {'peak KiB':>9}")
for count in (5_000, 10_000):
    seconds, peak = measure(count)
    print(f"{2 * count:>8} {seconds:>9.3f} {2 * count / seconds:>9.0f} {peak:>9}")
PY
