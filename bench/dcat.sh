#!/bin/sh
# Describes all datasets of generated catalogues of 1,000, 2,000 and 4,000 datasets, and prints the time and the peak
# memory for each, so that growth is seen. Then the same for catalogues of 2,000, 4,000 and 8,000 datasets that share one
# distribution with as many download URLs. The time of reading is in it. Needs python3 to write the documents and to
# measure.
cd "$(dirname "$0")" || exit 1
exec python3 -B - <<'PY'
from measuring import built, measured

RDF, DCAT, TERMS = "http://www.w3.org/1999/02/22-rdf-syntax-ns#", "http://www.w3.org/ns/dcat#", "http://purl.org/dc/terms/"


def dataset(place):
    iri = f"<https://data.example/dataset/{place:06d}>"
    return (
        f"_:catalog <{DCAT}dataset> {iri} .\n"
        f"{iri} <{RDF}type> <{DCAT}Dataset> .\n"
        f'{iri} <{TERMS}title> "Readings of station {place}"@en .\n'
        f'{iri} <{TERMS}title> "Messwerte der Station {place}"@de .\n'
        f'{iri} <{TERMS}modified> "2024-05-{place % 28 + 1:02d}T10:00:00+02:00" .\n'
        f'{iri} <{DCAT}keyword> "air" .\n'
        f'{iri} <{DCAT}keyword> "water" .\n'
        f"{iri} <{DCAT}distribution> _:file{place} .\n"
        f"_:file{place} <{DCAT}downloadURL> <https://data.example/files/{place}.csv> .\n"
        f'_:file{place} <{TERMS}format> "CSV" .\n'
    )


def sharing(place):
    iri = f"<https://data.example/dataset/{place:06d}>"
    return (
        f"_:catalog <{DCAT}dataset> {iri} .\n"
        f"{iri} <{RDF}type> <{DCAT}Dataset> .\n"
        f'{iri} <{TERMS}title> "Readings of station {place}" .\n'
        f"{iri} <{DCAT}distribution> _:shared .\n"
        f"_:shared <{DCAT}downloadURL> <https://data.example/files/{place}.csv> .\n"
    )


def catalogue_of(count, dataset):
    def write(file):
        file.write(f"_:catalog <{RDF}type> <{DCAT}Catalog> .\n".encode())
        file.write("".join(dataset(place) for place in range(count)).encode())
        return f"{count} listed, {count} with a record"

    return write


def table(title, counts, dataset):
    print(f"{title:<22} {'datasets':>9} {'seconds':>9} {'peak MiB':>9}")
    for count in counts:
        _, seconds, peak = measured(program, catalogue_of(count, dataset), "datasets")
        print(f"{'':<22} {count:>9} {seconds:>9.3f} {peak:>9.1f}")


program = built("format_cases", "triples")
table("each with its own file", (1000, 2000, 4000), dataset)
table("one shared by all", (2000, 4000, 8000), sharing)
PY
