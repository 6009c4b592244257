#!/bin/sh
# Loads a CSV of 100,000 and of 400,000 rows of four typed columns into a table of a portal, by the inserts that the command
# `load` plays. Prints thousands of rows a second of processor time, how many times as long four times the rows take, peak
# memory, and how many times as long it takes as SQLite in memory, through Python's modules, on the same file with the same
# key. Needs python3.
cd "$(dirname "$0")" || exit 1
exec python3 -B - <<'PY'
import csv
import sqlite3
import tempfile
import time

from measuring import built, evened, worked
from rows import DESCRIPTOR, rows_of, write_rows

COUNTS = (100_000, 400_000)
ROUNDS = 3


def sqlite_of(count):
    """Seconds of the processor for reading the file into a table in memory."""
    with tempfile.NamedTemporaryFile("w+b") as given:
        write_rows(given, count)
        given.flush()
        start = time.process_time()
        table = sqlite3.connect(":memory:")
        table.execute("CREATE TABLE t (id INTEGER PRIMARY KEY, value NUMERIC, day DATE, note TEXT CHECK (length(note) <= 40))")
        with open(given.name, newline="") as file, table:
            records = csv.reader(file)
            next(records)
            table.executemany("INSERT INTO t VALUES (?, ?, ?, ?)", records)
        return time.process_time() - start


def seconds_of(count):
    """Seconds of the processor. The least peak memory so far, in MiB, is kept."""
    usage = worked(program, rows_of(count), "load", DESCRIPTOR)[2]
    memory = usage.ru_maxrss / 1024
    peak[count] = min(memory, peak.get(count, memory))
    return usage.ru_utime + usage.ru_stime


# The least of all rounds. SQLite runs behind them, since a program's peak memory counts that of the one that starts it.
program = built("portal_cases", "create", "0")
peak = {}
rounds = [{count: evened(seconds_of, count, COUNTS[-1]) for count in COUNTS} for _ in range(ROUNDS)]
beside = [{count: evened(sqlite_of, count, COUNTS[-1]) for count in COUNTS} for _ in range(ROUNDS)]

before = None
print(f"{'rows':>7} {'k rows/s':>9} {'ratio':>6} {'peak MiB':>9} {'of SQLite':>9}")
for count in COUNTS:
    seconds = min(each[count] for each in rounds)
    ratio = f"{seconds / before:.2f}" if before else ""
    print(f"{count:>7} {count / seconds / 1000:>9.1f} {ratio:>6} {peak[count]:>9.1f}"
          f" {seconds / min(each[count] for each in beside):>9.2f}")
    before = seconds
PY
