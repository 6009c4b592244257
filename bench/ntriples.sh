#!/bin/sh
# Reads generated documents of N-Triples of 8, 32 and 64 MiB, and prints MiB per second and peak memory for each, so
# that growth is seen. Needs python3 to write the documents and to measure.
cd "$(dirname "$0")" || exit 1
exec python3 -B - <<'PY'
from measuring import built, measured

DCAT, TERMS, SCHEMA = "http://www.w3.org/ns/dcat#", "http://purl.org/dc/terms/", "http://www.w3.org/2001/XMLSchema#"


def dataset(place):
    iri = f"<https://data.example/dataset/{place:08d}>"
    return (
        f"{iri} <http://www.w3.org/1999/02/22-rdf-syntax-ns#type> <{DCAT}Dataset> .\n"
        f'{iri} <{TERMS}title> "Messwerte der Gew\u00e4sser {place}"@de .\n'
        f'{iri} <{TERMS}description> "First line\\nsecond \\"line\\" of {place}: \\u00E9, \U0001f30a and \\U0001F30A." . # note\n'
        f'{iri} <{TERMS}issued> "2024-05-{place % 28 + 1:02d}"^^<{SCHEMA}date> .\n'
        f"{iri} <{DCAT}distribution> _:file{place}.csv .\r\n"
        "\n"
    )


def document_of(size):
    def write(file):
        place = 0
        while file.tell() < size:
            file.write("".join(dataset(place + step) for step in range(1000)).encode())
            place += 1000
        return f"{5 * place} triples"

    return write


program = built("format_cases", "triples")
print(f"{'MiB':>6} {'seconds':>9} {'MiB/s':>7} {'peak MiB':>9}")
for mebibytes in (8, 32, 64):
    length, seconds, peak = measured(program, document_of(mebibytes * 2**20), "triples")
    size = length / 2**20
    print(f"{size:>6.1f} {seconds:>9.3f} {size / seconds:>7.1f} {peak:>9.1f}")
PY
