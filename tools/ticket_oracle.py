#!/usr/bin/env python3
"""A second reading of tickets, written from docs/FORMATS.md and docs/REFUSALS.md alone.

It shares no code with the crate `ticket`, and it is built in another way: the bytes are
first split into records as far as they go; then every check is asked of every record, from
the first record on, in the order of docs/REFUSALS.md. It is slow and plain on purpose.

    python3 tools/ticket_oracle.py FILE

prints the line for one ticket, loaded with tables of 8192 entries each.
"""

import sys
from typing import NamedTuple

LONGEST = 32768
MAX = 2**64 - 1
HEAD, TINT, PURGE, RESUME, LIMIT, STRIDE, FIRST, END = 1, 2, 3, 4, 5, 6, 7, 15
BODY = {HEAD: 6, TINT: 3, PURGE: 3, RESUME: 8, LIMIT: 8, STRIDE: 8, FIRST: 1, END: 2}


class Case(NamedTuple):
    purge_entries: int
    tint_entries: int
    ticket: bytes


class Record(NamedTuple):
    place: int  # of the kind byte
    kind: int
    body: bytes  # shorter than BODY says if the ticket is cut here
    before: bytes  # the kinds of all records before this one


class Refused(NamedTuple):
    number: int
    place: int


class Loaded(NamedTuple):
    can: int
    size: int
    resume: int
    limit: int
    stride: int
    first: int
    purges: list  # of (valve, volume)
    tints: list


def number(field):
    return int.from_bytes(field, "big")


def split(ticket):
    """All records, up to the first that is unknown or cut; that one is the last in the list."""
    records, kinds, place = [], b"", 0
    while place < len(ticket):
        kind = ticket[place]
        body = ticket[place + 1 : place + 1 + BODY.get(kind, 0)]
        records.append(Record(place, kind, body, kinds))
        if kind not in BODY or len(body) < BODY[kind]:
            break
        kinds += bytes([kind])
        place += 1 + len(body)
    return records


# One entry for each fault that a record can have, in the order in which they are judged.
# A check may take for granted that the checks above it found nothing.
# `r` is the record, `c` the case.
CHECKS = [
    (3, lambda r, c: r.kind not in BODY),
    (4, lambda r, c: len(r.body) < BODY[r.kind]),
    (5, lambda r, c: (r.kind == HEAD) != (r.place == 0)),
    (6, lambda r, c: r.kind in (RESUME, LIMIT, STRIDE, FIRST) and r.kind in r.before),
    (7, lambda r, c: r.kind in (TINT, PURGE, FIRST) and r.body[0] > 15),
    (1, lambda r, c: r.kind == STRIDE and not any(r.body)),
    (8, lambda r, c: r.kind == PURGE and r.before.count(PURGE) >= c.purge_entries
        or r.kind == TINT and r.before.count(TINT) >= c.tint_entries),
    (9, lambda r, c: r.kind == END
        and number(r.body) != r.before.count(PURGE) + r.before.count(TINT)),
    (10, lambda r, c: r.kind == END and r.place + 3 != len(c.ticket)),
]


def read(ticket, purge_entries, tint_entries):
    """The answer to a ticket: Refused or Loaded."""
    case = Case(purge_entries, tint_entries, bytes(ticket))
    if len(case.ticket) > LONGEST:
        return Refused(2, LONGEST)
    records = split(case.ticket)
    for record in records:
        for fault, found in CHECKS:
            if found(record, case):
                return Refused(fault, record.place + 3 if fault == 10 else record.place)
    if not any(record.kind == END for record in records):
        return Refused(11, len(case.ticket))

    def setting(kind, otherwise):
        return next((number(r.body) for r in records if r.kind == kind), otherwise)

    def strokes(kind):
        return [(r.body[0], number(r.body[1:])) for r in records if r.kind == kind]

    head = records[0].body
    return Loaded(
        can=number(head[:4]), size=number(head[4:]),
        resume=setting(RESUME, 0), limit=setting(LIMIT, MAX),
        stride=setting(STRIDE, 1), first=setting(FIRST, 0),
        purges=strokes(PURGE), tints=strokes(TINT),
    )


def digest(strokes):
    h = 0
    for valve, volume in strokes:
        h = (h * 31 + valve * 65536 + volume) % 2**64
    return h


def line(case):
    """The line that is expected for a case: (purge entries, tint entries, ticket)."""
    purge_entries, tint_entries, ticket = case
    a = read(ticket, purge_entries, tint_entries)
    if isinstance(a, Refused):
        return f"refused {a.number} at {a.place}, tables kept"
    return (
        f"loaded can {a.can} size {a.size} resume {a.resume} limit {a.limit}"
        f" stride {a.stride} first {a.first}"
        f" purges {len(a.purges)} hash {digest(a.purges)}"
        f" tints {len(a.tints)} hash {digest(a.tints)}, later entries kept"
    )


if __name__ == "__main__":
    if len(sys.argv) != 2:
        sys.exit("usage: ticket_oracle.py FILE")
    with open(sys.argv[1], "rb") as file:
        print(line(Case(8192, 8192, file.read())))
