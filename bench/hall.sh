#!/bin/sh
# Adds 1 to a counter from 1, 2, 4, 8 and 16 threads, in a hall, under std's `Mutex` over the same machine, and, if there is
# `rustc`, under the `Mutex` of Rust's std (mutex.rs), for additions that take 0, 5, 20 and 50 µs, after each of which its thread
# works as long outside. Prints thousands of additions a second for each, µs of the processor that each takes (its own work and that
# outside are in it), and how many times a mutex's the hall's are. The hall gives each thread its turn in order and keeps the history;
# a mutex does neither. The better of two short runs counts. Needs python3.
cd "$(dirname "$0")" || exit 1
exec python3 -B - <<'PY'
import shutil
import subprocess
import tempfile

from measuring import built, worked

THREADS = (1, 2, 4, 8, 16)
# Additions of a run, by the µs that each takes.
ACTS = {0: 160_000, 5: 16_000, 20: 8_000, 50: 4_000}


def run(program, threads, acts, rounds):
    """Seconds, and seconds of the processor. The program is its path with its first words."""
    words = (*program[1:], str(threads), str(acts // threads), str(rounds))
    _, seconds, usage = worked(program[0], lambda file: str(acts), *words)
    return seconds, usage.ru_utime + usage.ru_stime


def rounds_of(program, micros):
    """Rounds of work that take so long. One addition of many rounds, and as many after it, show how long one takes."""
    rounds = 100_000_000
    return round(micros * 2 * rounds / (min(run(program, 1, 1, rounds)[1] for _ in range(2)) * 1_000_000))


def best(program, threads, acts, rounds):
    """Thousands of additions a second, and µs of the processor for each."""
    runs = [run(program, threads, acts, rounds) for _ in range(2)]
    return max(acts / seconds / 1000 for seconds, _ in runs), min(used / acts * 1_000_000 for _, used in runs)


def rust_mutex(folder):
    """The program of mutex.rs, if there is rustc."""
    if shutil.which("rustc") is None:
        return {}
    program = f"{folder}/mutex"
    subprocess.run(("rustc", "-O", "-o", program, "mutex.rs"), check=True)
    return {"Rust": (program,)}


def row(programs, rounds, threads, acts):
    """The figures of the hall, and those of each mutex with how many times they are the hall's."""
    figures = [best(program, threads, acts, rounds[name]) for name, program in programs.items()]
    hall, used = figures[0]
    cells = [f"{hall:>9.1f} {used:>8.2f}"]
    cells += [f"{rate:>9.1f} {hall / rate:>6.2f} {spent:>8.2f} {used / spent:>6.2f}" for rate, spent in figures[1:]]
    return " | ".join(cells)


with tempfile.TemporaryDirectory() as folder:
    program = built("hall_count")
    programs = {"hall": (program, "hall"), "mutex": (program, "lock"), **rust_mutex(folder)}
    heads = [f"{name + ' k/s':>9} {'ratio':>6} {'µs':>8} {'ratio':>6}" for name in list(programs)[1:]]
    print(f"{'µs':>3} {'threads':>7}", " | ".join([f"{'hall k/s':>9} {'µs':>8}", *heads]))
    for micros, acts in ACTS.items():
        rounds = {name: rounds_of(program, micros) if micros else 0 for name, program in programs.items()}
        for threads in THREADS:
            print(f"{micros:>3} {threads:>7}", row(programs, rounds, threads, acts), flush=True)
PY
