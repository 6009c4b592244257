#!/bin/sh
# Loads rows of four typed columns from standard input, and prints thousands of rows per second and peak memory, for
# 100,000 and for 400,000 rows, so that growth is seen. Needs python3 to write the files and to measure.
cd "$(dirname "$0")" || exit 1
exec python3 -B - <<'PY'
from measuring import built, measured
from rows import DESCRIPTOR, rows_of

program = built("table_cases", "cells", DESCRIPTOR)
print(f"{'rows':>9} {'MiB':>7} {'seconds':>9} {'k rows/s':>9} {'peak MiB':>9}")
for count in (100_000, 400_000):
    length, seconds, peak = measured(program, rows_of(count, ", end"), "rows", DESCRIPTOR)
    print(f"{count:>9} {length / 2**20:>7.2f} {seconds:>9.3f} {count / seconds / 1000:>9.1f} {peak:>9.1f}")
PY
