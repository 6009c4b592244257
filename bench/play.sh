#!/bin/sh
# Makes 10,000, 20,000 and 40,000 datasets on a portal in memory, and works one more call of a kind on each: shown by name,
# shown by id, patched. Prints calls a second of processor time for each kind, the making taken off, and how many times as long
# twice the calls on twice the datasets take; more than 2.3 times ends it with a failure. Needs python3.
cd "$(dirname "$0")" || exit 1
exec python3 -B - <<'PY'
import sys

from measuring import built, evened, worked

KINDS = ("create", "show_by_name", "show_by_id", "patch")
COUNTS = (10_000, 20_000, 40_000)
BOUND = 2.3
ROUNDS = 24

program = built("portal_cases", "create", "0")


def seconds_of(kind, count):
    """Seconds of the processor for a run."""
    wanted = f"{count} {0 if kind == 'create' else count}"
    usage = worked(program, lambda file: wanted, kind, str(count))[2]
    return usage.ru_utime + usage.ru_stime


def round_of(kind, count):
    return evened(lambda size: seconds_of(kind, size), count, COUNTS[-1])


# The least of all rounds.
rounds = [{(kind, count): round_of(kind, count) for kind in KINDS for count in COUNTS} for _ in range(ROUNDS)]
least = {run: min(seconds[run] for seconds in rounds) for run in rounds[0]}

is_over = False
print(f"{'kind':<13} {'datasets':>9} {'calls/s':>9} {'ratio':>6}")
for kind in KINDS:
    before = None
    for count in COUNTS:
        seconds = least[kind, count] - (0 if kind == "create" else least["create", count])
        ratio = seconds / before if before else None
        is_over = is_over or (ratio or 0) > BOUND
        print(f"{kind:<13} {count:>9} {count / seconds:>9.0f} {f'{ratio:.2f}' if ratio else '':>6}")
        before = seconds
sys.exit(1 if is_over else 0)
PY
