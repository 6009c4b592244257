"""Builds a program of this repository, runs it on an input, and measures its time and its peak memory."""

import os
import subprocess
import sys
import tempfile
import time
from pathlib import Path

CRATES = Path(__file__).resolve().parent.parent / "crates"


def built(crate, *words):
    """The program of the crate, which `rt run` proves, compiles and links, and runs once by these words or its own."""
    folder = CRATES / crate
    own = folder / "args"
    if not words and own.exists():
        words = own.read_text().splitlines()
    stdin = folder / "stdin"
    with open(stdin if stdin.exists() else os.devnull, "rb") as given:
        command = ["rt", "run", "--", *words] if words else ["rt", "run"]
        run = subprocess.run(command, cwd=folder, stdin=given, stdout=subprocess.PIPE, stderr=subprocess.STDOUT)
    if run.returncode != 0:
        sys.stderr.buffer.write(run.stdout)
        sys.exit(1)
    return folder / "out" / crate


def filled(given, write):
    """Fills the file in a process of its own, and gives the line that is wanted.

    The host counts to the peak memory of a program what the process had that started it. So this one stays small, some
    14 MiB, below which no peak is told.
    """
    receiver, sender = os.pipe()
    child = os.fork()
    if child == 0:
        wanted = write(given)
        given.flush()
        os.write(sender, wanted.encode())
        os._exit(0)
    os.close(sender)
    with open(receiver, "rb") as told:
        wanted = told.read().decode()
    os.waitpid(child, 0)
    return wanted


def worked(program, write, *words):
    """Bytes of the input, seconds, and what the host says was used.

    `write` fills the input and gives the line that is wanted.
    """
    with tempfile.TemporaryFile("w+b") as given, tempfile.TemporaryFile("w+b") as taken:
        wanted = filled(given, write)
        length = os.fstat(given.fileno()).st_size
        os.lseek(given.fileno(), 0, os.SEEK_SET)
        start = time.monotonic()
        process = subprocess.Popen([program, *words], stdin=given, stdout=taken)
        _, status, usage = os.wait4(process.pid, 0)
        seconds = time.monotonic() - start
        taken.seek(0)
        answer = taken.read().decode()
    if status != 0 or answer != f"{wanted}\n":
        sys.exit(f"status {status}: {answer!r} in place of {wanted!r}")
    return length, seconds, usage


def evened(seconds_of, count, most):
    """Seconds of a run of so many, over runs of as many in all as there are in one of the most: on a host that others use
    a run that is short finds it undisturbed sooner than a long one."""
    times = most // count
    return sum(seconds_of(count) for _ in range(times)) / times


def measured(program, write, *words):
    """As `worked`, with the peak memory in MiB in place of all that was used."""
    length, seconds, usage = worked(program, write, *words)
    return length, seconds, usage.ru_maxrss / 1024


def played(program, lines, *words):
    """Seconds of the processor that a script takes, and its peak memory in KiB. The program ends with 0."""
    with tempfile.TemporaryFile("w+") as given, open(os.devnull, "wb") as taken:
        given.writelines(lines)
        given.seek(0)
        process = subprocess.Popen([program, "play", *words], stdin=given, stdout=taken)
        _, status, usage = os.wait4(process.pid, 0)
    if status != 0:
        sys.exit(f"status {status} of {program}")
    return usage.ru_utime + usage.ru_stime, usage.ru_maxrss
