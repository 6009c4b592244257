#!/bin/sh
# Asks a table of 200,000 rows for a page of 100 rows: sorted by two columns, of the rows with two words, and at an offset of 100,000.
# Prints the milliseconds of processor time of one such call, of the same by SQLite in memory through Python's module, without an index
# of its own for it, and how many times as long the portal takes (more than twice ends it with a failure). SQLite counts the rows
# too, since the answer has their number; it finds words by LIKE. Needs python3.
cd "$(dirname "$0")/.." || exit 1
./portal play </dev/null || exit 1
exec python3 -B - "$PWD" "$PWD/crates/portal_cli/out/portal_cli" <<'PY'
import json
import sqlite3
import sys
import time
from statistics import median

sys.path.insert(0, f"{sys.argv[1]}/bench")
from measuring import played

PROGRAM = sys.argv[2]
ROWS = 200_000
BATCH = 1_000
CALLS = 20
ROUNDS = 5
BOUND = 2.0

# For each kind of page, what the portal is asked, and what SQLite is.
PAGES = {
    "two columns": ({"sort": "n desc,t", "limit": 100}, "", "ORDER BY n DESC, t"),
    "two words": ({"q": "station north", "limit": 100}, "WHERE t LIKE '%station%' AND t LIKE '%north%'", ""),
    "offset": ({"offset": 100_000, "limit": 100}, "", ""),
}


def record(row):
    return row, f"Station {'north' if row % 100 == 0 else 'south'} {row}", row % 1000


def line(action, **body):
    return json.dumps({"action": action, "as": "ann", "body": body}, separators=(",", ":")) + "\n"


def filling():
    yield line("package_create", name="rows", owner_org="city", resources=[{"name": "rows"}])
    fields = [{"id": "k", "type": "int"}, {"id": "t"}, {"id": "n", "type": "int"}]
    yield line("datastore_create", resource_id="rows.1", fields=fields, primary_key="k")
    for first in range(0, ROWS, BATCH):
        records = [dict(zip("ktn", record(row))) for row in range(first, first + BATCH)]
        yield line("datastore_upsert", resource_id="rows.1", method="insert", records=records)


def ours(lines, body):
    """Seconds of one call."""
    calls = [line("datastore_search", resource_id="rows.1", **body)] * CALLS
    return (played(PROGRAM, [*lines, *calls])[0] - played(PROGRAM, lines)[0]) / CALLS


def theirs(table, where, rest):
    """Seconds of the same by SQLite."""
    start = time.process_time()
    for _ in range(CALLS):
        table.execute(f"SELECT count(*) FROM t {where}").fetchone()
        offset = 100_000 if not where and not rest else 0
        table.execute(f"SELECT * FROM t {where} {rest} LIMIT 100 OFFSET {offset}").fetchall()
    return (time.process_time() - start) / CALLS


lines = list(filling())
table = sqlite3.connect(":memory:")
table.execute("CREATE TABLE t (k INTEGER PRIMARY KEY, t TEXT, n INTEGER)")
with table:
    table.executemany("INSERT INTO t VALUES (?, ?, ?)", map(record, range(ROWS)))

is_over = False
print(f"{'page':<12} {'ms':>8} {'SQLite':>8} {'ratio':>6}")
for name, (body, where, rest) in PAGES.items():
    mine = median(ours(lines, body) for _ in range(ROUNDS))
    other = median(theirs(table, where, rest) for _ in range(ROUNDS))
    is_over = is_over or mine > BOUND * other
    print(f"{name:<12} {mine * 1000:>8.1f} {other * 1000:>8.1f} {mine / other:>6.2f}", flush=True)
sys.exit(1 if is_over else 0)
PY
