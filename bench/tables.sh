#!/bin/sh
# Inserts 100,000, 200,000 and 400,000 rows into a table, 500 in a batch, puts 200 batches of 500 known keys into each, the
# same keys into each, and asks each ten times by a filter and five times for a sorted page.
# Prints thousands of rows a second of processor time for the inserts, how many times as long twice the rows take (more
# than 2.3 times ends it with a failure), bytes of peak memory a row, and the time of one batch of known keys, of one filter
# and of one sorted page, from which the inserts are taken off. Beside each how many times as long the table takes as
# SQLite in memory, through Python's module, on the same rows with the same key. Needs python3.
cd "$(dirname "$0")" || exit 1
exec python3 -B - <<'PY'
import multiprocessing
import sqlite3
import sys
import time
from statistics import median

from measuring import built, evened, worked

COUNTS = (100_000, 200_000, 400_000)
BATCH = 500
BATCHES = 200
FILTERS = 10
PAGES = 5
STRIDE = 7919
KNOWN = 100_000
BOUND = 2.3
ROUNDS = 8
INSERTING_ROUNDS = 24

# What is done behind the inserts: nothing, batches of known keys, filters, and sorted pages.
BEHIND = {"inserts": (0, 0, 0), "batch": (BATCHES, 0, 0), "filter": (0, FILTERS, 0), "page": (0, 0, PAGES)}

program = built("table_cases", "0", "0", "0", "0")


def run_of(rows, behind):
    """Seconds of the processor, and the peak memory in bytes."""
    _, filters, pages = behind
    wanted = f"{rows} {filters * rows // 1000} {pages * 100}"
    usage = worked(program, lambda file: wanted, str(rows), *map(str, behind))[2]
    return usage.ru_utime + usage.ru_stime, usage.ru_maxrss * 1024


def record(key):
    return key, f"Station {key}", key % 1000


def upsert(table, rows):
    for place in range(BATCHES):
        keys = (at * STRIDE % KNOWN for at in range(place * BATCH, (place + 1) * BATCH))
        with table:
            table.executemany(
                "INSERT INTO t VALUES (?, ?, ?) ON CONFLICT (id) DO UPDATE SET place = excluded.place,"
                " value = excluded.value",
                map(record, keys),
            )


def ask(table, times, rest):
    """How many rows there are, and a page of them."""
    for _ in range(times):
        table.execute(f"SELECT count(*) FROM t {rest.partition('ORDER')[0]}").fetchone()
        table.execute(f"SELECT * FROM t {rest} LIMIT 100 OFFSET 1000").fetchall()


def timed(call, *given):
    start = time.process_time()
    call(*given)
    return time.process_time() - start


def insert(table, rows):
    table.execute("CREATE TABLE t (id INTEGER PRIMARY KEY, place TEXT, value INTEGER)")
    for first in range(0, rows, BATCH):
        with table:
            table.executemany("INSERT INTO t VALUES (?, ?, ?)", map(record, range(first, first + BATCH)))


def sqlite_of(rows):
    """Seconds of the processor for each of the same."""
    table = sqlite3.connect(":memory:")
    return {
        "inserts": timed(insert, table, rows),
        "batch": timed(upsert, table, rows),
        "filter": timed(ask, table, FILTERS, "WHERE value = 7"),
        "page": timed(ask, table, PAGES, "ORDER BY place DESC, id"),
    }


def apart(call, *given):
    """What the call gives in a process of its own, since a program's peak memory counts that of the one that starts it."""
    with multiprocessing.get_context("fork").Pool(1) as pool:
        return pool.apply(call, given)


def inserting(rows):
    """Seconds of the processor for the inserts."""
    return run_of(rows, BEHIND["inserts"])[0]


# The least of all rounds.
inserts = {}
for _ in range(INSERTING_ROUNDS):
    for rows in COUNTS:
        seconds = evened(inserting, rows, COUNTS[-1])
        inserts[rows] = min(seconds, inserts.get(rows, seconds))

# Of each round, which has each run once, the seconds of each run and of SQLite.
peak = {}
rounds = []
for _ in range(ROUNDS):
    ours, theirs = {}, {}
    for rows in COUNTS:
        for name, behind in BEHIND.items():
            ours[rows, name], memory = run_of(rows, behind)
            peak[rows, name] = min(memory, peak.get((rows, name), memory))
        for name, seconds in apart(sqlite_of, rows).items():
            theirs[rows, name] = seconds
    rounds.append((ours, theirs))


def each(rows, name, times):
    """Milliseconds of one, and how many times as long as by SQLite: the middle one of all rounds."""
    seconds = median(ours[rows, name] - ours[rows, "inserts"] for ours, _ in rounds)
    return f"{seconds / times * 1000:>9.2f} {seconds / median(theirs[rows, name] for _, theirs in rounds):>9.2f}"


def inserts_of_sqlite(rows):
    return median(ours[rows, "inserts"] / theirs[rows, "inserts"] for ours, theirs in rounds)


is_over = False
before = None
print(f"{'rows':>7} {'k rows/s':>9} {'ratio':>6} {'of SQLite':>9} {'bytes/row':>9} {'ms/batch':>9} {'of SQLite':>9}"
      f" {'ms/filter':>9} {'of SQLite':>9} {'ms/page':>9} {'of SQLite':>9}")
for rows in COUNTS:
    seconds = inserts[rows]
    ratio = seconds / before if before else None
    is_over = is_over or (ratio or 0) > BOUND
    print(f"{rows:>7} {rows / seconds / 1000:>9.1f} {f'{ratio:.2f}' if ratio else '':>6}"
          f" {inserts_of_sqlite(rows):>9.2f} {peak[rows, 'inserts'] / rows:>9.0f}"
          f" {each(rows, 'batch', BATCHES)} {each(rows, 'filter', FILTERS)} {each(rows, 'page', PAGES)}")
    before = seconds
sys.exit(1 if is_over else 0)
PY
