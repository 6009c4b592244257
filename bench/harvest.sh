#!/bin/sh
# Harvests generated catalogues of 2,000, 8,000 and 20,000 datasets by rounds of `play`: all described in one document, then the
# same round again, which changes nothing, and then each described in a document of its own. Prints seconds of the processor,
# how many times as long as for the smaller catalogue it takes for each dataset, and what was asked for:
#
# - the first round, over twice the seconds of reading the document and describing its datasets plus those of as many
#   package_create: at most 1;
# - the second round over the first: at most 0.7;
# - the peak memory of the first round, without that of an empty script, over the size of the document: at most 6.
#
# Where Python has rdflib, prints how many times as long it takes to parse the same document. Needs python3.
cd "$(dirname "$0")/.." || exit 1
./portal play </dev/null || exit 1
cd bench || exit 1
exec python3 -B - "$PWD/../crates/portal_cli/out/portal_cli" <<'PY'
import json
import os
import subprocess
import sys
import tempfile
import time
from pathlib import Path

from measuring import built, worked

COUNTS = (2_000, 8_000, 20_000)
RUNS = 3
RDF, DCAT, TERMS = "http://www.w3.org/1999/02/22-rdf-syntax-ns#", "http://www.w3.org/ns/dcat#", "http://purl.org/dc/terms/"
PARSE = "import rdflib, sys, time; t = time.process_time(); rdflib.Graph().parse(sys.argv[1], format='nt'); print(time.process_time() - t)"

portal = Path(sys.argv[1])
reader = built("format_cases", "triples")


def described(iri, place):
    """The triples of a dataset."""
    return (
        f"<{iri}> <{RDF}type> <{DCAT}Dataset> .\n"
        f'<{iri}> <{TERMS}title> "Readings of station {place}"@en .\n'
        f'<{iri}> <{TERMS}title> "Messwerte der Station {place}"@de .\n'
        f'<{iri}> <{TERMS}modified> "2024-05-{place % 28 + 1:02d}T10:00:00+02:00" .\n'
        f'<{iri}> <{DCAT}keyword> "air" .\n'
        f'<{iri}> <{DCAT}keyword> "water" .\n'
        f"<{iri}> <{DCAT}distribution> _:file{place} .\n"
        f"_:file{place} <{DCAT}downloadURL> <https://data.example/files/{place}.csv> .\n"
        f'_:file{place} <{TERMS}format> "CSV" .\n'
    )


def catalogue(iris, describe):
    """The document of a catalogue that lists the IRIs and has what else is said of each."""
    yield f"_:catalog <{RDF}type> <{DCAT}Catalog> .\n"
    for place, iri in enumerate(iris):
        yield f"_:catalog <{DCAT}dataset> <{iri}> .\n"
        yield describe(iri, place)


def call(action, user, **body):
    return json.dumps({"action": action, "as": user, "body": body}) + "\n"


SOURCE = call("harvest_source_create", "cyn", name="aa", url="catalogue.nt", owner_org="city")
ROUND = call("harvest_job_create", "cyn", source_id="aa") + '{"round":1}\n'


def creation(place):
    return call(
        "package_create", "ann", name=f"set-{place}", owner_org="city", title=f"Readings of station {place}",
        tags=[{"name": "air"}, {"name": "water"}], resources=[{"url": f"https://data.example/files/{place}.csv", "format": "CSV"}],
    )


def used(usage):
    return usage.ru_utime + usage.ru_stime


def play(folder, lines):
    """Seconds of the processor, peak memory in bytes, and the lines that were written."""
    with tempfile.TemporaryFile("w+") as given, tempfile.TemporaryFile("w+") as taken:
        given.writelines(lines)
        given.seek(0)
        process = subprocess.Popen([portal, "play"], cwd=folder, stdin=given, stdout=taken)
        _, status, usage = os.wait4(process.pid, 0)
        taken.seek(0)
        written = taken.readlines()
    if status != 0:
        sys.exit(f"status {status} of {portal}")
    return used(usage), usage.ru_maxrss * 1024, written


def rounds(folder, count, *expected):
    """The same for a source and as many rounds as there are counts of added and of unchanged datasets."""
    seconds, peak, written = play(folder, [SOURCE] + [ROUND] * len(expected))
    for line, (added, unchanged) in zip(written[2::2], expected):
        report = json.loads(line.removeprefix("round "))["sources"][0]
        if (report["added"], report["unchanged"], report["bad"]) != (added, unchanged, []):
            sys.exit(f"{count} datasets: {line[:200]}")
    return seconds, peak


def least(measure):
    return min(measure() for _ in range(RUNS))


def read_and_described(document, count):
    def write(file):
        file.write(document.read_bytes())
        return f"{count} listed, {count} with a record"

    return used(worked(reader, write, "datasets")[2])


def by_rdflib(document):
    """Seconds of rdflib for the document, or none where Python has no rdflib."""
    run = subprocess.run([sys.executable, "-c", PARSE, document], capture_output=True, text=True)
    return float(run.stdout) if run.returncode == 0 else None


def measured(count, folder):
    """What is measured of a catalogue of that many datasets."""
    document = folder / "catalogue.nt"
    iris = [f"https://data.example/dataset/{place:06d}" for place in range(count)]
    document.write_text("".join(catalogue(iris, described)))
    _, idle, _ = play(folder, [])
    before = least(lambda: rounds(folder, count)[0])
    first, peak = least(lambda: rounds(folder, count, (count, 0)))
    both = least(lambda: rounds(folder, count, (count, 0), (0, count))[0])
    reading = least(lambda: read_and_described(document, count))
    creating = least(lambda: play(folder, [creation(place) for place in range(count)])[0])
    figures = {
        "first": first - before,
        "second": both - first,
        "of limit": (first - before) / (2 * reading + creating),
        "of first": (both - first) / (first - before),
        "memory": (peak - idle) / document.stat().st_size,
        "rdflib": by_rdflib(document),
    }
    own = [f"d/{place:06d}" for place in range(count)]
    (folder / "d").mkdir()
    for place, iri in enumerate(own):
        (folder / iri).write_text(described(iri, place))
    document.write_text("".join(catalogue(own, lambda iri, place: "")))
    figures["own documents"] = least(lambda: rounds(folder, count, (count, 0))[0]) - before
    return figures


def growth(figures, before, name, count, smaller):
    return f"{figures[name] / before[name] * smaller / count:.2f}" if before else ""


print(f"{'datasets':>8} {'first':>7} {'growth':>6} {'second':>7} {'growth':>6} {'own':>7} {'growth':>6}"
      f" {'of limit':>8} {'of first':>8} {'memory':>6} {'rdflib':>7}")
before, smaller, is_over = None, 0, False
for count in COUNTS:
    with tempfile.TemporaryDirectory() as folder:
        figures = measured(count, Path(folder))
    parts = [f"{count:>8}"]
    for name in ("first", "second", "own documents"):
        parts += [f"{figures[name]:>7.3f}", f"{growth(figures, before, name, count, smaller):>6}"]
    parts += [f"{figures['of limit']:>8.2f}", f"{figures['of first']:>8.2f}", f"{figures['memory']:>6.2f}"]
    rdflib = figures["rdflib"]
    parts.append("   none" if rdflib is None else f"{rdflib / figures['first']:>7.2f}")
    print(" ".join(parts), flush=True)
    is_over = is_over or figures["of limit"] > 1 or figures["of first"] > 0.7 or figures["memory"] > 6
    before, smaller = figures, count
sys.exit(1 if is_over else 0)
PY
