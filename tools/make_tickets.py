#!/usr/bin/env python3
"""Writes the list of test tickets and the lines that are expected for them.

    python3 tools/make_tickets.py [SEED [FOLDER]]

FOLDER is crates/ticket_replay if none is given. The files are FOLDER/data/tickets.bin and
FOLDER/stdout; tools/README.md says what stands in them. The same seed gives the same bytes.
The lines come from tools/ticket_oracle.py. Most cases made by hand also say which answer they
are meant to get, and the run stops if the reading answers otherwise.
"""

import random
import sys
from collections import Counter
from pathlib import Path

sys.dont_write_bytecode = True
from ticket_oracle import Case, Refused, line, read  # noqa: E402

SEED = 20261117
MAX = 2**64 - 1
SIZES = [0, 1, 2, 3, 5, 8, 40, 8192]
KNOWN = [0x01, 0x02, 0x03, 0x04, 0x05, 0x06, 0x07, 0x0F]
UNKNOWN = [kind for kind in range(256) if kind not in KNOWN]
LENGTH = {0x01: 7, 0x02: 4, 0x03: 4, 0x04: 9, 0x05: 9, 0x06: 9, 0x07: 2, 0x0F: 3}


# Records.

def head(can=0, size=0): return b"\x01" + can.to_bytes(4, "big") + size.to_bytes(2, "big")
def tint(valve=0, volume=0): return bytes([2, valve]) + volume.to_bytes(2, "big")
def purge(valve=0, volume=0): return bytes([3, valve]) + volume.to_bytes(2, "big")
def resume(n=0): return b"\x04" + n.to_bytes(8, "big")
def limit(n=0): return b"\x05" + n.to_bytes(8, "big")
def stride(n=1): return b"\x06" + n.to_bytes(8, "big")
def first(canister=0): return bytes([7, canister])
def end(n=0): return b"\x0F" + n.to_bytes(2, "big")


H = head()
RECORD = {0x01: H, 0x02: tint(3, 4), 0x03: purge(5, 6), 0x04: resume(7), 0x05: limit(8),
          0x06: stride(9), 0x07: first(10), 0x0F: end(0)}
SETTINGS = [(resume, 3, 4), (limit, 3, 4), (stride, 3, 4), (first, 3, 4)]

# Every kind of record, twice in different order. The first is an example of docs/FORMATS.md.
EVERY = [head(42, 2500), resume(1), limit(2), stride(2), first(3), purge(0, 50), tint(4, 300),
         tint(15, 25), tint(4, 150), end(4)]
MIXED = [head(0xFFFFFFFF, 0xFFFF), tint(1, 2), first(15), purge(6, 1543), stride(MAX), tint(2, 3),
         resume(0x0F0F0F0F0F0F0F0F), purge(7, 1), limit(0), end(4)]


# The list.

CASES = {}  # used as a list in which each case stands once


def add(ticket, purges=8192, tints=8192, want=None):
    """One case. `want` is "loaded", or the number and place of the refusal, or None: not said."""
    ticket = b"".join(ticket) if isinstance(ticket, list) else ticket
    case = Case(purges, tints, ticket)
    answer = read(ticket, purges, tints)
    got = tuple(answer) if isinstance(answer, Refused) else "loaded"
    if want is not None and got != want:
        sys.exit(f"case {len(CASES)}: {want} was meant, {got} was read: {ticket[:80].hex(' ')}")
    CASES[case] = None  # a case that is there already is not listed twice


def valves_and_canisters():
    for stroke in (tint, purge):
        for valve in (0, 1, 14, 15):
            add([H, stroke(valve, 65535), end(1)], want="loaded")
        for valve in (16, 17, 31, 32, 127, 128, 240, 255):
            add([H, stroke(valve, 1), end(1)], want=(7, 7))
        add([H, stroke(15, 16), stroke(16, 15)], want=(7, 11))
        add([H, stroke(15, 0x1010), end(1)], want="loaded")
        add([H, resume(16), limit(16), stride(16), first(15), stroke(16), end(1)], want=(7, 36))
    for canister in (0, 1, 14, 15):
        add([H, first(canister), end()], want="loaded")
    for canister in (16, 17, 31, 32, 127, 128, 240, 255):
        add([H, first(canister), end()], want=(7, 7))
        add([H, tint(1, 1), first(canister)], want=(7, 11))


def numbers():
    edges = [0, 1, 2, 15, 16, 255, 256, 2**32 - 1, 2**32, 2**63 - 1, 2**63, MAX - 1, MAX]
    edges += [1 << 8 * byte for byte in range(1, 8)]
    for n in edges:
        add([H, resume(n), end()], want="loaded")
        add([H, limit(n), end()], want="loaded")
        add([H, stride(n), end()], want="loaded" if n else (1, 7))
    for before in ([], [tint(1, 1)], [purge(1, 1), tint(2, 2)], [resume(0)], [limit(0)],
                   [first(0)], [resume(0), limit(0), first(0)]):
        place = 7 + len(b"".join(before))
        strokes = sum(record[0] in (2, 3) for record in before)
        add([H, *before, stride(0), end(strokes)], want=(1, place))
        add([H, *before, stride(0), tint(16), H], want=(1, place))
        add([H, *before, stride(0)], want=(1, place))
    for can in (0, 1, 0x01020304, 2**31, 2**32 - 1):
        for size in (0, 1, 0x0102, 2**15, 2**16 - 1):
            add([head(can, size), end()], want="loaded")
    for volume in (0, 1, 255, 256, 0x0102, 2**15, 2**16 - 1):
        add([H, tint(8, volume), purge(9, volume ^ 1), end(2)], want="loaded")


def strokes_in_turn(count):
    return [(purge if i * 7 % 5 < 2 else tint)(i * 5 % 16, i * 641 % 65536) for i in range(count)]


def lengths():
    """Few, as each takes 32 KB. A table has just as many entries as the ticket has strokes."""

    def sized(length, records, want):
        ticket = b"".join(records)
        assert len(ticket) == length, (len(ticket), length)
        kinds = [record[0] for record in records]
        add(ticket, kinds.count(3), kinds.count(2), want)

    s = strokes_in_turn(9999)
    sized(32768, [head(1, 2), *s[:4000], first(15), *s[4000:8189], end(8189)], "loaded")
    sized(32767, [head(3, 4), resume(5), *s[:99], limit(6), *s[99:8000], first(1), *s[8000:8182],
                  stride(7), end(8182)], "loaded")
    sized(32768, [H, *s[:8188], stride(2)], (11, 32768))
    sized(32768, [H, *s[:8190], b"\x0F"], (4, 32767))
    sized(32769, [H, first(1), limit(2), *s[:8187], end(8187)], (2, 32768))
    sized(32769, [H, *s[:8189], first(1), end(8189), b"\x00"], (2, 32768))  # not 10
    add(bytes(32769), 0, 0, (2, 32768))  # not 3
    add(b"".join([H, *s[:8191]])[:32769], 0, 0, (2, 32768))  # no end; not 4, 8 or 11
    sized(40000, [H, *s[:9997], first(1), end(9997)], (2, 32768))


def tables():
    for entries in (0, 1, 2, 5):
        for other in (0, 5, 8192):
            full = [tint(i, i + 1) for i in range(entries)]
            more = full + [tint(15, 99)]
            add([H, *full, end(entries)], other, entries, "loaded")
            add([H, *more, end(entries + 1)], other, entries, (8, 7 + 4 * entries))
            full = [purge(i, i + 1) for i in range(entries)]
            more = full + [purge(15, 99)]
            add([H, *full, end(entries)], entries, other, "loaded")
            add([H, *more, end(entries + 1)], entries, other, (8, 7 + 4 * entries))
        add([H, *more], entries, 8192, (8, 7 + 4 * entries))
        add([H, *more, tint(16), H], entries, 8192, (8, 7 + 4 * entries))
        add([H, resume(1), *more, end(entries + 1)], entries, 8192, (8, 16 + 4 * entries))
    for purges in (0, 1, 2, 5):
        for tints in (0, 1, 2, 5):
            both = [purge(1, i) for i in range(purges)] + [tint(2, i) for i in range(tints)]
            turned = both[::-1]
            add([H, *both, end(purges + tints)], purges, tints, "loaded")
            add([H, *turned, end(purges + tints)], purges, tints, "loaded")
            place = 7 + 4 * (purges + tints)
            add([H, *both, purge(3, 3), end(purges + tints + 1)], purges, tints, (8, place))
            add([H, *turned, tint(3, 3), end(purges + tints + 1)], purges, tints, (8, place))
    for count in (256, 300):
        row = [tint(i % 16, i) for i in range(count)]
        add([H, *row, end(count)], 0, count, "loaded")
        add([H, *row, end(count)], 0, count - 1, (8, 3 + 4 * count))
        row = [purge(i % 16, i) for i in range(count)]
        add([H, *row, end(count)], count, 0, "loaded")
        add([H, *row, end(count)], count - 1, 0, (8, 3 + 4 * count))


def settings_twice():
    for i, (record, one, two) in enumerate(SETTINGS):
        long = len(record(one))
        for again in (one, two):
            add([H, record(one), record(again), end()], want=(6, 7 + long))
            add([H, record(one), tint(1, 1), record(again), end(1)], want=(6, 11 + long))
            add([H, tint(1, 1), record(one), purge(1, 1), tint(2, 2), record(again)],
                want=(6, 19 + long))
            other, value, _ = SETTINGS[(i + 1) % 4]
            add([H, record(one), other(value), record(again), other(value), end()],
                want=(6, 7 + long + len(other(value))))
            add([H, record(one), record(again), record(one), end()], want=(6, 7 + long))
        add([H, record(0 if record is not stride else 1), record(two), end()], want=(6, 7 + long))
    for last in range(4):
        every = [record(one) for record, one, _ in SETTINGS]
        record, one, _ = SETTINGS[last]
        add([H, *every, end()], want="loaded")
        add([H, *every[::-1], end()], want="loaded")
        add([H, *every, record(one), end()], want=(6, 36))


def ends():
    for count in (0, 1, 2, 3, 7, 258):
        row = strokes_in_turn(count)
        place = 7 + 4 * count
        add([H, *row, end(count)], want="loaded")
        for wrong in (count - 1, count + 1, (count & 255) << 8 | count >> 8, count ^ 0x0100):
            if wrong != count and wrong >= 0:
                add([H, *row, end(wrong)], want=(9, place))
    for wrong in (1, 2, 255, 256, 65535):
        add([H, end(wrong)], want=(9, 7))
    for row in ([tint(1, 1), tint(2, 2)], [purge(1, 1), purge(2, 2)], [tint(1, 1), purge(2, 2)]):
        add([H, *row, end(1)], want=(9, 15))
        add([H, *row, first(1), end(3)], want=(9, 17))
        add([H, *row, first(1), end(2)], want="loaded")
    for good in (EVERY, MIXED):
        for wrong in (0, 1, 2, 3, 5, 8, 10, 0x0400):  # tints alone, purges alone, all records
            add(good[:-1] + [end(wrong)], want=(9, len(b"".join(good)) - 3))


def after_the_end():
    tails = [bytes([byte]) for byte in (0x00, 0x01, 0x02, 0x07, 0x08, 0x0A, 0x0F, 0xFF)]
    tails += [end(0), end(1), end(2), H, H + end(), tint(1, 1), first(16), stride(0), bytes(30)]
    for tail in tails:
        add([H, end(), tail], want=(10, 10))
        add([H, tint(1, 1), end(1), tail], want=(10, 14))
    for good in (EVERY, MIXED):
        long = len(b"".join(good))
        for tail in (b"\x00", b"\x0A", good[-1], b"".join(good), b"".join(good[1:])):
            add([*good, tail], want=(10, long))


def no_end():
    add(b"", want=(11, 0))
    add(b"", 0, 0, (11, 0))
    for kind in KNOWN[1:-1]:
        add([H, RECORD[kind]], want=(11, 7 + LENGTH[kind]))
    for good in (EVERY, MIXED):
        for records in range(1, len(good)):
            add(good[:records], want=(11, len(b"".join(good[:records]))))


def heads():
    for kind in KNOWN[1:]:
        add([RECORD[kind]], want=(5, 0))
        add([RECORD[kind], H, end()], want=(5, 0))
        add([RECORD[kind], end()], want=(5, 0))
    add([end(0)], want=(5, 0))
    add([end(0)], 0, 0, (5, 0))
    add([H, H], want=(5, 7))
    add([H, H, end()], want=(5, 7))
    add([H, head(1, 1), end()], want=(5, 7))
    for kind in KNOWN[1:-1]:
        add([H, RECORD[kind], H, end(kind in (2, 3))], want=(5, 7 + LENGTH[kind]))
    add([H, end(), H, end()], want=(10, 10))


def unknown_kinds():
    for kind in UNKNOWN:
        add(bytes([kind]) + bytes(kind % 5), want=(3, 0))
        before = [[], [tint(1, 1)], [first(2)], [purge(1, 1), stride(1)]][kind % 4]
        behind = [b"", bytes([kind]), end(len(before) % 2), bytes(9)][kind // 4 % 4]
        add([H, *before, bytes([kind]), behind], want=(3, 7 + len(b"".join(before))))


def prefixes():
    for good in (EVERY, MIXED):
        whole = b"".join(good)
        starts = [len(b"".join(good[:i])) for i in range(len(good))]
        for cut in range(len(whole)):
            place = max(start for start in starts if start <= cut)
            add(whole[:cut], want=(11, cut) if place == cut else (4, place))
        add(whole, want="loaded")


def cut_bodies():
    for kind in KNOWN[1:]:
        for cut in range(1, LENGTH[kind]):
            add([H, RECORD[kind][:cut]], want=(4, 7))
    for cut in range(1, 7):
        add(H[:cut], want=(4, 0))


def several_faults_in_one_record():
    for kind in (0x00, 0x08, 0x0E, 0x10, 0xFF):
        add(bytes([kind]) + H, 0, 0, (3, 0))  # 3 and 5
    for kind in KNOWN[1:]:
        for cut in range(1, LENGTH[kind]):
            add(RECORD[kind][:cut], want=(4, 0))  # 4 and 5
    for cut in range(1, 7):
        add([H, H[:cut]], want=(4, 7))  # 4 and 5
    for record, one, _ in SETTINGS:
        again = record(one)
        for cut in sorted({1, len(again) - 1}):
            add([H, again, again[:cut]], want=(4, 7 + len(again)))  # 4 and 6
        add([again, again], want=(5, 0))
    for stroke in (tint, purge):
        for valve in (0, 16, 255):
            bad = stroke(valve, 0)
            for cut in (1, 2, 3):
                add([H, bad[:cut]], want=(4, 7))  # 4 and 7
                add([H, bad[:cut]], 0, 0, (4, 7))  # 4, 7 and 8
                add(bad[:cut], 0, 0, (4, 0))  # 4, 5, 7 and 8
        for valve in (16, 255):
            bad = stroke(valve, 0)
            add([bad], want=(5, 0))  # 5 and 7
            add([bad], 0, 0, (5, 0))  # 5, 7 and 8
            add([H, bad, end(1)], 0, 0, (7, 7))  # 7 and 8
            add([H, stroke(1), bad, end(2)], 1, 1, (7, 11))  # 7 and 8
            add([H, stroke(1), bad], 1, 1, (7, 11))
        add([stroke(1), end(1)], 0, 0, (5, 0))  # 5 and 8
    for cut in range(1, 9):
        add([H, stride(0)[:cut]], want=(4, 7))  # 4 and 1
        add([H, stride(5), stride(0)[:cut]], want=(4, 16))  # 4, 6 and 1
    for number in (0, 1, 256):
        add([H, end(number)[:2]], want=(4, 7))  # 4 and 9
        add([end(number)], want=(5, 0))  # 5 and 9
        add([end(number), b"\x00"], want=(5, 0))  # 5, 9 and 10
        add([end(number), end(number)], want=(5, 0))
    for canister in (16, 255):
        add([first(canister)], want=(5, 0))  # 5 and 7
        add([H, first(0), first(canister), end()], want=(6, 9))  # 6 and 7
        add([H, first(15), tint(1, 1), first(canister)], want=(6, 13))  # 6 and 7
    add([stride(0)], want=(5, 0))  # 5 and 1
    add([stride(0), H, end()], want=(5, 0))
    for n in (1, 2, MAX):
        add([H, stride(n), stride(0), end()], want=(6, 16))  # 6 and 1
        add([H, stride(n), purge(1, 1), stride(0)], want=(6, 20))  # 6 and 1
    for number in (1, 2, 256, 65535):
        for tail in (b"\x00", end(0), H + end(0), tint(1, 1)):
            add([H, end(number), tail], want=(9, 7))  # 9 and 10


def faulty_records_in_a_row():
    """Of two faulty records the first decides, whatever the two faults are."""
    faulty = {3: b"\x09", 5: H, 6: first(1), 7: tint(16), 1: stride(0), 8: purge(1), 9: end(7)}
    behind = dict(faulty) | {4: b"\x02\x00", 10: end(0) + b"\x00", 11: b"", 0: end(0)}
    for number, record in faulty.items():
        for second in behind.values():
            add([H, first(2), record, second], 0, 40, (number, 9))
    for second in behind.values():
        if second:
            add([H, first(2), end(0), second], 0, 40, (10, 12))


def examples_of_the_pages():
    add(bytes.fromhex("01000000 0703E8 0305000A 02010064 020200C8 060000000000000002 0F0003"),
        want="loaded")
    add(b"".join(EVERY), want="loaded")
    add([H, end()], want="loaded")
    for ticket, want in (("07 00", (5, 0)), ("02 10 00 00", (5, 0)), ("02", (4, 0))):
        add(bytes.fromhex(ticket), want=want)
    for ticket, purges, tints, want in (
            ("02 00 00 00", 8192, 0, (8, 7)), ("03 00 00 00", 0, 8192, (8, 7)),
            ("02 10 00 00", 8192, 0, (7, 7)), ("07 10 00", 8192, 8192, (7, 7)),
            ("07 00 07 10", 8192, 8192, (6, 9)), ("0F 00 01 00", 8192, 8192, (9, 7)),
            ("0F 00 00 0A", 8192, 8192, (10, 10)), ("02 00 00", 8192, 8192, (4, 7))):
        add(H + bytes.fromhex(ticket), purges, tints, want)


# Cases by chance. Only random() is used, as its sequence is the same in every Python.

class Dice:
    def __init__(self, seed): self.source = random.Random(seed)
    def below(self, n): return int(self.source.random() * n)
    def often(self, share): return self.source.random() < share
    def pick(self, things): return things[self.below(len(things))]
    def bytes(self, count): return bytes(self.below(256) for _ in range(count))

    def number(self, size):
        """A number of `size` bytes; every second one is at an edge."""
        top = 256**size - 1
        if self.often(0.5):
            return self.pick([0, 1, 2, 3, 15, 16, 255, top // 2, top // 2 + 1, top - 1, top])
        return int.from_bytes(self.bytes(size), "big") >> self.below(8 * size)

    def stroke(self, valves=16):
        return self.pick([tint, purge])(self.below(valves), self.number(2))

    def setting(self, kind):
        if kind == 7:
            return first(self.below(16))
        if kind == 6:
            return stride(max(1, self.number(8)))
        return (resume if kind == 4 else limit)(self.number(8))

    def lawful(self, strokes):
        records = [self.stroke() for _ in range(strokes)]
        for kind in (4, 5, 6, 7):
            if self.often(0.5):
                records.insert(self.below(len(records) + 1), self.setting(kind))
        return [head(self.number(4), self.number(2)), *records, end(strokes)]

    def tables(self, large):
        """Sizes of the two tables; `large` is the share of cases with room for 40 or more."""
        sizes = SIZES[-2:] if self.often(large) else SIZES
        return self.pick(sizes), self.pick(sizes)


def lawful_tickets(dice):
    for _ in range(140):
        add(dice.lawful(dice.below(41)), *dice.tables(0.75))
    for _ in range(80):
        add(dice.lawful(dice.below(6)), *dice.tables(0.3))


def damaged(dice, records, way):
    ticket = b"".join(records)
    at = dice.below(len(ticket))
    i, j = dice.below(len(records)), dice.below(len(records))
    if way == 0:
        ticket = ticket[:at] + dice.bytes(1) + ticket[at + 1 :]
    elif way == 1:
        ticket = ticket[:at] + bytes([ticket[at] ^ 1 << dice.below(8)]) + ticket[at + 1 :]
    elif way == 2:
        ticket = ticket[:at] + ticket[at + 1 :]
    elif way == 3:
        ticket = ticket[: at + 1] + ticket[at:]
    elif way == 4:
        ticket = ticket[:at] + bytes([dice.below(17)]) + ticket[at:]
    elif way == 5:
        records[i], records[j] = records[j], records[i]
        ticket = b"".join(records)
    elif way == 6:
        records.insert(j, records[i])
        ticket = b"".join(records)
    elif way == 7:
        del records[i]
        ticket = b"".join(records)
    elif way == 8:
        ticket = ticket[:at]
    else:
        ticket += dice.bytes(1 + dice.below(6))
    return ticket


def damaged_tickets(dice):
    for i in range(360):
        add(damaged(dice, dice.lawful(dice.below(11)), i % 10), *dice.tables(0.6))


def random_bytes(dice):
    for i in range(150):
        length = dice.below(40)
        ticket = bytes(dice.below(17) if dice.often(0.8) else dice.below(256)
                       for _ in range(length))
        if i % 3:
            ticket = head(dice.number(4), dice.number(2)) + ticket
        add(ticket, *dice.tables(0.4))


def plausible_records(dice):
    for _ in range(320):
        records = [head(dice.number(4), dice.number(2))] if dice.often(0.95) else []
        strokes = 0
        for _ in range(dice.below(12)):
            kind = dice.pick([2, 2, 2, 2, 3, 3, 3, 4, 5, 6, 7])
            if dice.often(0.04):
                records.append(dice.pick([H, first(16), stride(0), b"\x00", b"\x08", end(strokes)]))
            elif kind in (2, 3):
                records.append(dice.stroke(17 if dice.often(0.1) else 16))
                strokes += 1
            else:
                records.append(dice.setting(kind))
        if dice.often(0.9):
            records.append(end(strokes if dice.often(0.8) else strokes ^ 1 << dice.below(4)))
        if dice.often(0.1):
            records.append(dice.bytes(1 + dice.below(3)))
        add(records, *dice.tables(0.5))


def main():
    seed = int(sys.argv[1]) if len(sys.argv) > 1 else SEED
    root = Path(__file__).resolve().parent.parent
    folder = Path(sys.argv[2]) if len(sys.argv) > 2 else root / "crates" / "ticket_replay"

    for by_hand in (examples_of_the_pages, valves_and_canisters, numbers, lengths, tables,
                    settings_twice, ends, after_the_end, no_end, heads, unknown_kinds, prefixes,
                    cut_bodies, several_faults_in_one_record, faulty_records_in_a_row):
        by_hand()
    dice = Dice(seed)
    for by_chance in (lawful_tickets, damaged_tickets, random_bytes, plausible_records):
        by_chance(dice)

    data, lines, tally = b"", [], Counter()
    for case in CASES:
        data += b"".join(n.to_bytes(2, "big") for n in (*case[:2], len(case.ticket)))
        data += case.ticket
        lines.append(line(case))
        words = lines[-1].split()
        tally[int(words[1]) if words[0] == "refused" else 0] += 1
    loaded, cases = tally[0], len(CASES)
    lines.append(f"{cases} tickets: {loaded} loaded, {cases - loaded} refused")

    (folder / "data").mkdir(parents=True, exist_ok=True)
    (folder / "data" / "tickets.bin").write_bytes(data)
    (folder / "stdout").write_bytes("".join(text + "\n" for text in lines).encode())
    for number in sorted(tally):
        print(f"{tally[number]:5} {f'refused {number}' if number else 'loaded'}")
    print(f"{lines[-1]}; {len(data)} bytes")


if __name__ == "__main__":
    main()
