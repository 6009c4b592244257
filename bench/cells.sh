#!/bin/sh
# Reads a million cells of each of three types, and prints millions of cells per second and peak memory for each, and the
# same for four million whole numbers, so that growth is seen. Needs python3 to write the texts and to measure.
cd "$(dirname "$0")" || exit 1
exec python3 -B - <<'PY'
import datetime

from measuring import built, measured

START = datetime.date(1970, 1, 1)

TEXTS = {
    "integer": lambda place: str(place * 7919 - 10**9),
    "number": lambda place: f"{place * 31 - 10**6}.{place % 1000:03d}",
    "date": lambda place: (START + datetime.timedelta(days=place % 20000)).isoformat(),
}


def cells_of(kind, count):
    def write(file):
        file.write("".join(TEXTS[kind](place) + "\n" for place in range(count)).encode())
        return f"{count} cells, 0 faults"

    return write


def descriptor(kind):
    return f'{{"fields":[{{"name":"f","type":"{kind}"}}]}}'


program = built("table_cases", "cells", descriptor("integer"))
print(f"{'type':>8} {'cells':>9} {'seconds':>9} {'M cells/s':>10} {'peak MiB':>9}")
for kind, count in (("integer", 10**6), ("number", 10**6), ("date", 10**6), ("integer", 4 * 10**6)):
    _, seconds, peak = measured(program, cells_of(kind, count), "cells", descriptor(kind))
    print(f"{kind:>8} {count:>9} {seconds:>9.3f} {count / seconds / 10**6:>10.2f} {peak:>9.1f}")
PY
