#!/bin/sh
# bench/hostile.sh [KIND..]: plays single legal calls that a stranger could send to stop the portal: long lists, one name or word many
# times, equal digests, all rows at once. Each kind stands on a script that fills the portal, and has three sizes, in which the call
# and what it is about grow together. Prints for each kind the milliseconds of processor time of the call at each size, the filling taken
# off, how many times as long twice the size takes (more than 2.3 times ends it with a failure), and how much the call adds to the peak
# memory at the last size. Without KIND all are played. Needs python3.
cd "$(dirname "$0")/.." || exit 1
./portal play </dev/null || exit 1
exec python3 -B - "$PWD" "$PWD/crates/portal_cli/out/portal_cli" "$@" <<'PY'
import json
import sys
import tempfile

sys.path.insert(0, f"{sys.argv[1]}/bench")
from measuring import played

PROGRAM = sys.argv[2]
BOUND = 2.3
ROUNDS = 3
# A call that takes less than this says nothing of growth.
LEAST_SECONDS = 0.02
BATCH = 500
# A line of a script has at most this many bytes.
LONGEST_LINE = 262_144


def line(action, user="ann", **body):
    return json.dumps({"action": action, "as": user, "body": body}, separators=(",", ":")) + "\n"


def on_table(action, **body):
    return line(action, resource_id="rows.1", **body)


def dataset(name="rows"):
    return line("package_create", name=name, owner_org="city", resources=[{"name": "rows"}])


def batches(records):
    """Calls that insert the records."""
    for first in range(0, len(records), BATCH):
        yield on_table("datastore_upsert", method="insert", records=records[first : first + BATCH])


def table(fields, records, **more):
    """A table with these records."""
    return [dataset(), on_table("datastore_create", fields=fields, **more), *batches(records)]


def described_table(fields, records, **more):
    """As `table`, by a descriptor."""
    return [dataset(), on_table("datastore_create", schema={"fields": fields, **more}), *batches(records)]


def plain_table(rows):
    """Rows with a key, a text of two words and a number."""
    fields = [{"id": "k", "type": "int"}, {"id": "t"}, {"id": "n", "type": "int"}]
    records = [{"k": row, "t": f"Station {row}", "n": row % 1000} for row in range(rows)]
    return table(fields, records, primary_key="k")


def words(count):
    """This many words of four letters, of which all differ."""
    letters = "abcdefghijklmnopqrstuvwxyz"
    return [letters[n // 17_576 % 26] + letters[n // 676 % 26] + letters[n // 26 % 26] + letters[n % 26] for n in range(count)]


# ---- the kinds: for a size the words of the program, what fills the portal, and the call


def sort_by_one_column(size):
    """`sort` with one column in each of its parts."""
    return [], plain_table(size), on_table("datastore_search", sort=",".join(["n"] * size))


def many_words(size):
    return [], plain_table(size), on_table("datastore_search", q=" ".join(words(size // 2)))


def one_word_often(size):
    return [], plain_table(size), on_table("datastore_search", q=" ".join(["station"] * (size // 4)))


def distinct_null_and_zero(size):
    """Rows that differ by where they have 0 and where they have no value."""
    columns = [f"c{column}" for column in range(17)]
    records = [{name: 0 for bit, name in enumerate(columns) if row >> bit & 1} for row in range(size)]
    fields = [{"id": name, "type": "int"} for name in columns]
    return [], table(fields, records), on_table("datastore_search", distinct=True, fields=columns, limit=1)


def one_field_often(size):
    return [], plain_table(size // 10), on_table("datastore_search", fields=["n"] * size, limit=32_000)


def distinct_one_field_often(size):
    return [], plain_table(size // 10), on_table("datastore_search", distinct=True, fields=["n"] * size)


def delete_referring_rows(size):
    """Rows of which each refers to the one before it."""
    fields = [{"name": "k", "type": "integer"}, {"name": "before", "type": "integer"}]
    records = [{"k": row, "before": max(row - 1, 0)} for row in range(size)]
    foreign = [{"fields": "before", "reference": {"resource": "", "fields": "k"}}]
    filling = described_table(fields, records, primaryKey="k", foreignKeys=foreign)
    return [], filling, on_table("datastore_delete", filters={})


def delete_all_rows(size):
    return [], plain_table(size), on_table("datastore_delete", filters={})


def long_filter_list(size):
    return [], plain_table(size), on_table("datastore_search", filters={"n": list(range(1000, 1000 + size // 3))})


def one_batch(size):
    """One call of many records, whose key and a unique column are looked up."""
    fields = [{"name": "k", "type": "integer"}, {"name": "u", "type": "integer", "constraints": {"unique": True}}]
    records = [{"k": row, "u": row} for row in range(size)]
    return [], described_table(fields, [], primaryKey="k"), on_table("datastore_upsert", records=records)


def update_backwards(size):
    """One call that updates all rows, from the last to the first."""
    records = [{"k": row} for row in reversed(range(size))]
    return [], plain_table(size), on_table("datastore_upsert", method="update", records=records)


def long_enum(size):
    """A column with many values that are allowed, and a batch of as many records."""
    values = [f"{row}" for row in range(size)]
    fields = [{"name": "e", "type": "integer", "constraints": {"enum": values}}]
    records = [{"e": size - 1} for _ in range(size)]
    return [], described_table(fields, []), on_table("datastore_upsert", method="insert", records=records)


def sorted_page(size):
    return [], plain_table(size), on_table("datastore_search", sort="n desc,t", offset=100, limit=10)


def page_far_on(size):
    return [], plain_table(size), on_table("datastore_search", offset=size // 2, limit=10)


def faulty_resources(size):
    """A list of resources with an error at its end, each with an id."""
    filling = [line("package_create", name="rows", owner_org="city", resources=[{"name": "r"}])]
    resources = [{"id": f"rows.{number}", "name": "r"} for number in range(1, size)] + [{"name": 1}]
    return [], filling, line("package_patch", id="rows", resources=resources)


def portal_file(users):
    """A file with this many users, each with a role."""
    file = tempfile.NamedTemporaryFile("w", suffix=".toml")
    file.writelines(f'[[user]]\nname = "user-{user}"\ntoken_sha256 = "{user:064x}"\n' for user in range(users))
    roles = ", ".join(f'user-{user} = "editor"' for user in range(users))
    file.write(f'[[user]]\nname = "ann"\nsysadmin = true\n[[organization]]\nname = "city"\nroles = {{ {roles} }}\n')
    file.flush()
    return file


def many_users(size):
    """A portal file with many users; the call reads it."""
    file = portal_file(size)
    return file, [], line("package_list", user="nobody")


def lists_of_a_named_caller(size):
    """A list of many datasets by one of many users, on whose roles it depends what is seen."""
    file = portal_file(size // 4)
    filling = [line("package_create", name=f"set-{row}", owner_org="city", private=True) for row in range(size)]
    return file, filling, line("package_list", user=f"user-{size // 4 - 1}")


def organizations_with_counts(size):
    filling = [line("organization_create", user="root", name=f"org-{row}") for row in range(size)]
    filling += [line("package_create", user="root", name=f"set-{row}", owner_org=f"org-{row}") for row in range(size)]
    return [], filling, line("organization_list", all_fields=True)


# The sizes end with this one.
KINDS = {
    sort_by_one_column: 100_000,
    many_words: 100_000,
    one_word_often: 100_000,
    distinct_null_and_zero: 100_000,
    one_field_often: 20_000,
    distinct_one_field_often: 60_000,
    delete_referring_rows: 8_000,
    delete_all_rows: 100_000,
    long_filter_list: 100_000,
    one_batch: 8_000,
    update_backwards: 20_000,
    long_enum: 16_000,
    sorted_page: 200_000,
    page_far_on: 200_000,
    faulty_resources: 8_000,
    many_users: 16_000,
    lists_of_a_named_caller: 10_000,
    organizations_with_counts: 2_000,
}


def measure(kind, size):
    """Seconds of the processor that the call takes, and MiB that it adds to the peak memory."""
    given, filling, call = kind(size)
    words = ["--portal", given.name] if given else []
    assert len(call) <= LONGEST_LINE, f"{kind.__name__}: the call has {len(call)} bytes"
    base = [] if kind is many_users else filling
    without = played(PROGRAM, base, *([] if kind is many_users else words))
    with_call = played(PROGRAM, [*filling, call], *words)
    return with_call[0] - without[0], (with_call[1] - without[1]) / 1024


def least(kind, size):
    rounds = [measure(kind, size) for _ in range(ROUNDS)]
    return min(seconds for seconds, _ in rounds), min(mebibytes for _, mebibytes in rounds)


chosen = [kind for kind in KINDS if kind.__name__ in sys.argv[3:]] or list(KINDS)
is_over = False
print(f"{'kind':<26} {'size':>8} {'ms':>9} {'ratio':>6} {'MiB':>7}")
for kind in chosen:
    before = None
    for size in (KINDS[kind] // 4, KINDS[kind] // 2, KINDS[kind]):
        seconds, mebibytes = least(kind, size)
        ratio = seconds / before if before and seconds > LEAST_SECONDS else None
        is_over = is_over or (ratio or 0) > BOUND
        print(f"{kind.__name__:<26} {size:>8} {seconds * 1000:>9.1f} {f'{ratio:.2f}' if ratio else '':>6} {mebibytes:>7.1f}", flush=True)
        before = seconds
sys.exit(1 if is_over else 0)
PY
