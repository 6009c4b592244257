#!/bin/sh
# bench/store.sh: plays 5,000 package_create over a store in a file and in memory, and prints accepted changes a second of each beside
# a program over the C library of SQLite that puts the same rows, one transaction a change, in the same journal mode and with the same
# care (WAL, synchronous FULL). Then starts the portal on stores of 10,000, 100,000 and 400,000 rows, and prints seconds and peak memory
# of the start, how many times as long ten (or four) times the rows take, how many times the file the peak is, and how many times as
# long as `sqlite3` takes to select the same rows. The stores are filled by `load`, whose rows a second are printed beside
# `.import` of `sqlite3`. Needs python3 with sqlite3, and the program `sqlite3`.
cd "$(dirname "$0")/.." || exit 1
./portal play </dev/null || exit 1
exec python3 -B - "$PWD" <<'PY'
import json
import os
import sqlite3
import subprocess
import sys
import tempfile
import time

ROOT = sys.argv[1]
sys.path.insert(0, f"{ROOT}/bench")
from rows import DESCRIPTOR, write_rows

PROGRAM = f"{ROOT}/crates/portal_cli/out/portal_cli"
CHANGES = 5_000
ROWS = (10_000, 100_000, 400_000)


def line(action, **body):
    return json.dumps({"action": action, "as": "ann", "body": body}, separators=(",", ":")) + "\n"


def run(words, given, store):
    """Seconds of a run, and its peak memory in bytes."""
    more = {"PORTAL_STORE": store} if store else {}
    begin = time.monotonic()
    with open(os.devnull, "wb") as taken:
        process = subprocess.Popen([PROGRAM, *words], stdin=given, stdout=taken, env={**os.environ, "PORTAL_TIME": "real", **more})
        _, status, usage = os.wait4(process.pid, 0)
    if status != 0:
        sys.exit(f"status {os.waitstatus_to_exitcode(status)} of {words}")
    return time.monotonic() - begin, usage.ru_maxrss * 1024


def played(lines, store):
    with tempfile.TemporaryFile("w+") as given:
        given.writelines(lines)
        given.seek(0)
        return run(["play"], given, store)


def put_by_sqlite(rows, path):
    """Seconds in which the C library puts the rows, one transaction each."""
    connection = sqlite3.connect(path, isolation_level=None)
    connection.execute("pragma journal_mode = wal")
    connection.execute("pragma synchronous = full")
    connection.execute("create table kept (kind integer not null, name text not null, body text not null, primary key (kind, name)) strict")
    begin = time.monotonic()
    for row in rows:
        connection.execute("insert or replace into kept values (?, ?, ?)", row)
    seconds = time.monotonic() - begin
    connection.close()
    return seconds


def sqlite(path, *commands, given=None):
    begin = time.monotonic()
    subprocess.run(["sqlite3", path, *commands], stdin=given, stdout=subprocess.DEVNULL, check=True)
    return time.monotonic() - begin


creates = [line("package_create", name=f"set-{number:06}", owner_org="city", title=f"Set {number}") for number in range(CHANGES)]
with tempfile.TemporaryDirectory() as folder:
    store = f"{folder}/changes.db"
    base = played([], None)[0]
    memory = played(creates, None)[0] - base
    file = played(creates, store)[0] - base
    with sqlite3.connect(store) as connection:
        rows = connection.execute("select kind, name, body from kept where kind = 3").fetchall()
    beside = put_by_sqlite(rows, f"{folder}/beside.db")
    print(f"accepted changes a second: {CHANGES / memory:.0f} in memory, {CHANGES / file:.0f} to a file, "
          f"{CHANGES / beside:.0f} by SQLite: ratio {beside / file:.2f}")
    before = None
    for count in ROWS:
        store, rows_file, schema = f"{folder}/{count}.db", f"{folder}/{count}.csv", f"{folder}/schema.json"
        with open(rows_file, "w+b") as given:
            write_rows(given, count)
        with open(schema, "w") as given:
            given.write(DESCRIPTOR if isinstance(DESCRIPTOR, str) else json.dumps(DESCRIPTOR))
        played([line("package_create", name="rows", owner_org="city", resources=[{"name": "rows"}])], store)
        with open(rows_file, "rb") as given:
            loading = run(["load", "--as", "ann", "--resource", "rows.1", "--schema", schema], given, store)[0]
        importing = sqlite(f"{folder}/{count}-import.db", ".mode csv", f".import {rows_file} rows")
        seconds, peak = played([], store)
        size = os.path.getsize(store) + (os.path.getsize(f"{store}-wal") if os.path.exists(f"{store}-wal") else 0)
        selecting = sqlite(store, "select kind, name, body from kept order by kind, name")
        ratio = f", {seconds / before[1] / (count / before[0]):.2f} times linear" if before else ""
        print(f"{count:>7} rows: load {count / loading:.0f} a second, {loading / importing:.1f} times .import; start {seconds:.2f} s"
              f"{ratio}, {seconds / selecting:.1f} times select, peak {peak / size:.1f} times the file of {size >> 20} MiB")
        before = (count, seconds)
PY
