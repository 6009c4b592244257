"""A CSV of many rows of four typed columns, and the descriptor of them (Table Schema v1)."""

import datetime
import json

START = datetime.date(1970, 1, 1)

DESCRIPTOR = json.dumps({
    "fields": [
        {"name": "id", "type": "integer"},
        {"name": "value", "type": "number"},
        {"name": "day", "type": "date"},
        {"name": "note", "constraints": {"maxLength": 40}},
    ],
    "primaryKey": "id",
})


def row(place):
    day = (START + datetime.timedelta(days=place % 20000)).isoformat()
    return f'{place},{place % 1000}.{place % 100:02d},{day},"Station {place % 40}, ""Nord"""\n'


def write_rows(file, count):
    file.write(b"id,value,day,note\n")
    for place in range(count):
        file.write(row(place).encode())


def rows_of(count, behind=""):
    """What fills a file with so many rows, and gives the line in which a program counts them, with these words behind."""
    def write(file):
        write_rows(file, count)
        return f"{count} rows{behind}"

    return write
