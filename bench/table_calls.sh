#!/bin/sh
# Plays a script that fills a table with 25,000, 50,000 and 100,000 rows, 500 in a call, and behind it calls of one kind: filters,
# sorted pages, batches of known keys, and deletions of a row. Prints thousands of rows a second of processor time for the filling,
# how many times as long twice the rows take (more than 2.3 times ends it with a failure), peak memory, and the time of one call of
# each kind, the filling taken off. Needs python3.
cd "$(dirname "$0")/.." || exit 1
./portal play </dev/null || exit 1
exec python3 -B - "$PWD/crates/portal_cli/out/portal_cli" <<'PY'
import json
import os
import subprocess
import sys
import tempfile

PROGRAM = sys.argv[1]
COUNTS = (25_000, 50_000, 100_000)
BATCH = 500
CALLS = 20
STRIDE = 7919
BOUND = 2.3
ROUNDS = 3

FIELDS = [{"id": "id", "type": "int"}, {"id": "place"}, {"id": "value", "type": "int"}]


def line(action, **body):
    return json.dumps({"action": action, "as": "ann", "body": body}, separators=(",", ":")) + "\n"


def on_table(action, **body):
    return line(action, resource_id="rows.1", **body)


def put(keys):
    return on_table("datastore_upsert", records=[{"id": k, "place": f"Station {k}", "value": k % 1000} for k in keys])


def filling(rows):
    yield line("package_create", name="rows", owner_org="city", resources=[{"name": "rows"}])
    yield on_table("datastore_create", fields=FIELDS, primary_key="id")
    for first in range(0, rows, BATCH):
        yield put(range(first, first + BATCH))


# The call of each kind of this number, on a table of so many rows.
KINDS = {
    "filter": lambda rows, number: on_table("datastore_search", filters={"value": number}),
    "page": lambda rows, number: on_table("datastore_search", sort="place desc, id", offset=1000 * number),
    "batch": lambda rows, number: put(at * STRIDE % rows for at in range(number * BATCH, (number + 1) * BATCH)),
    "delete": lambda rows, number: on_table("datastore_delete", filters={"id": number * STRIDE % rows}),
}


def measure(rows, kind=None):
    """Seconds of the processor, and the peak memory in KiB. All replies are 200."""
    with tempfile.TemporaryFile("w+") as given, tempfile.TemporaryFile("w+b") as taken:
        given.writelines(filling(rows))
        if kind:
            given.writelines(KINDS[kind](rows, number) for number in range(CALLS))
        given.seek(0)
        process = subprocess.Popen([PROGRAM, "play"], stdin=given, stdout=taken)
        _, status, usage = os.wait4(process.pid, 0)
        taken.seek(0)
        good = sum(reply.startswith(b"200 ") for reply in taken)
    wanted = 2 + rows // BATCH + (CALLS if kind else 0)
    if status != 0 or good != wanted:
        sys.exit(f"status {status}, {good} of {wanted} replies are 200")
    return usage.ru_utime + usage.ru_stime, usage.ru_maxrss


# The least of all rounds, each of which has each run once.
runs = [(rows, kind) for rows in COUNTS for kind in (None, *KINDS)]
rounds = [{run: measure(*run) for run in runs} for _ in range(ROUNDS)]
least = {run: min(each[run][0] for each in rounds) for run in runs}
peak = {rows: min(each[rows, None][1] for each in rounds) for rows in COUNTS}

is_over = False
before = None
print(f"{'rows':>7} {'k rows/s':>9} {'ratio':>6} {'peak KiB':>9}", *(f"{f'ms/{kind}':>10}" for kind in KINDS))
for rows in COUNTS:
    seconds = least[rows, None]
    ratio = seconds / before if before else None
    is_over = is_over or (ratio or 0) > BOUND
    each = (f"{(least[rows, kind] - seconds) / CALLS * 1000:>10.2f}" for kind in KINDS)
    print(f"{rows:>7} {rows / seconds / 1000:>9.1f} {f'{ratio:.2f}' if ratio else '':>6} {peak[rows]:>9}", *each)
    before = seconds
sys.exit(1 if is_over else 0)
PY
