#!/bin/sh
# Makes 1,000, 10,000 and 100,000 datasets in 40 organizations on a portal over a store, and searches them as nobody, as a
# member of an organization, and as a sysadmin: a word of an eighth of all, a word of a twenty-fifth, a prefix, a field, and no
# query with facets. Prints milliseconds of processor time a search, how many times as long SQLite takes in memory for the same
# question (FTS5, an index a column, GROUP BY, filtered by what the caller sees), and how many times as long ten times the datasets
# take. Numbers after the name bound the counts, as in `bench/search.sh 1000 10000`. Needs python3 with sqlite3 and FTS5.
cd "$(dirname "$0")/.." || exit 1
./portal play </dev/null >/dev/null || exit 1
exec python3 -B - "$PWD/crates/portal_cli/out/portal_cli" "$@" <<'PY'
import json
import os
import sqlite3
import subprocess
import sys
import tempfile
import time

program = sys.argv[1]
COUNTS = [int(word) for word in sys.argv[2:]] or [1_000, 10_000, 100_000]
WORDS = "Air Bus Park Road School Tree Waste Water".split()
QUESTIONS = {
    "word": {"q": "water"},
    "rare word": {"q": "year-2007"},
    "prefix": {"q": "wat*"},
    "field": {"fq": "organization:org-07"},
    "all, facets": {"facet.field": ["organization", "tags", "res_format"]},
}
CALLERS = [None, "dan", "root"]
SEARCHES = 20


def dataset(i):
    word, office = WORDS[i % 8], i % 40
    return {
        "name": f"set-{i:06d}",
        "title": f"{word} {i}",
        "notes": f"Numbers of the city, kept by office {office:02d}.",
        "owner_org": f"org-{office:02d}",
        "private": i % 10 == 0,
        "state": "draft" if i % 50 == 7 else "active",
        "tags": [{"name": word.lower()}, {"name": f"year-{2000 + i % 25}"}],
        "resources": [{"format": "JSON" if i % 2 else "CSV", "name": "data", "url": f"https://data.example/{i}"}],
    }


def line(action, body, caller):
    call = {"action": action, "body": body}
    if caller:
        call["as"] = caller
    return json.dumps(call) + "\n"


def played(lines, store):
    """The replies to a script over a store, the seconds of the processor, and the peak memory in KiB."""
    with tempfile.TemporaryFile("w+") as given, tempfile.TemporaryFile("w+b") as taken:
        given.writelines(lines)
        given.seek(0)
        process = subprocess.Popen(
            [program, "play"], stdin=given, stdout=taken, env={**os.environ, "PORTAL_STORE": store}
        )
        _, status, usage = os.wait4(process.pid, 0)
        taken.seek(0)
        replies = taken.read().splitlines()
    if status != 0 or not all(reply.startswith(b"200 ") for reply in replies):
        sys.exit(f"status {status}: {[reply[:200] for reply in replies if not reply.startswith(b'200 ')][:1]}")
    return replies, usage.ru_utime + usage.ru_stime, usage.ru_maxrss


def beside(count):
    """The same datasets in SQLite, in memory."""
    base = sqlite3.connect(":memory:")
    base.execute("create table sets (id integer primary key, name text, title text, org text, private int, state text)")
    base.execute("create table tags (id int, tag text)")
    base.execute("create table formats (id int, format text)")
    base.execute("create virtual table words using fts5(text, content='')")
    for i in range(1, count + 1):
        d = dataset(i)
        row = (i, d["name"], d["title"], d["owner_org"], d["private"], d["state"])
        base.execute("insert into sets values (?, ?, ?, ?, ?, ?)", row)
        base.executemany("insert into tags values (?, ?)", [(i, tag["name"]) for tag in d["tags"]])
        base.execute("insert into formats values (?, ?)", (i, d["resources"][0]["format"]))
        text = " ".join([d["name"], d["title"], d["notes"], *(tag["name"] for tag in d["tags"]), "data", d["resources"][0]["format"]])
        base.execute("insert into words(rowid, text) values (?, ?)", (i, text))
    for index in ("sets(org)", "tags(id)", "formats(id)"):
        base.execute(f"create index by_{index.replace('(', '_').rstrip(')')} on {index}")
    base.commit()
    return base


def ask(base, name, caller):
    """The question in SQLite: the count, a page of ten, and facets where they are asked for."""
    matches = {
        "word": "id in (select rowid from words('water'))",
        "rare word": "id in (select rowid from words('\"year 2007\"'))",
        "prefix": "id in (select rowid from words('wat*'))",
        "field": "org = 'org-07'",
        "all, facets": "1",
    }[name]
    found = f"from sets where state = 'active' and private = 0 and {matches}"
    count = base.execute(f"select count(*) {found}").fetchone()[0]
    base.execute(f"select * {found} order by name limit 10").fetchall()
    if name == "all, facets":
        base.execute(f"select org, count(*) {found} group by org order by 2 desc, 1").fetchall()
        for table, column in (("tags", "tag"), ("formats", "format")):
            base.execute(
                f"select {column}, count(distinct {table}.id) from {table} where id in (select id {found})"
                f" group by {column} order by 2 desc, 1"
            ).fetchall()
    return count


print(f"{'datasets':>9} {'search':<12} {'caller':<7} {'found':>7} {'ms':>9} {'of SQLite':>10} {'of a tenth':>11}")
before = {}
for count in COUNTS:
    with tempfile.TemporaryDirectory() as folder:
        store = os.path.join(folder, "store.sqlite")
        made = [line("organization_create", {"name": f"org-{k:02d}", "title": f"Office {k:02d}"}, "root") for k in range(40)]
        made.append(line("organization_member_create", {"id": "org-07", "username": "dan", "role": "member"}, "root"))
        made += [line("package_create", dataset(i), "root") for i in range(1, count + 1)]
        _, seconds, _ = played(made, store)
        start = min(played([], store)[1] for _ in range(3))
        peak = played([], store)[2]
        base = beside(count)
        for name, body in QUESTIONS.items():
            for caller in CALLERS:
                replies, used, _ = played([line("package_search", {**body, "sort": "name"}, caller)] * SEARCHES, store)
                found = json.loads(replies[0][4:])["result"]["count"]
                begun = time.process_time()
                for _ in range(SEARCHES):
                    other = ask(base, name, caller)
                sqlite = (time.process_time() - begun) / SEARCHES
                if found != other:
                    sys.exit(f"{name} as {caller}: {found} found, and {other} in SQLite")
                each = max(used - start, 0) / SEARCHES
                tenth = before.get((name, caller))
                ratio = f"{each / tenth:.1f}" if tenth else ""
                shown = (caller or "nobody", found, each * 1000, each / sqlite if sqlite else 0, ratio)
                print(f"{count:>9} {name:<12} {shown[0]:<7} {shown[1]:>7} {shown[2]:>9.2f} {shown[3]:>10.2f} {shown[4]:>11}")
                before[name, caller] = each
        print(f"{count:>9} made in {seconds:.1f} s of the processor, opened in {start:.2f} s, with {peak / 1024:.0f} MiB at most")
PY
