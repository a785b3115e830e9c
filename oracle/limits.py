"""Circuits at the limits, for the speed benchmark. Each is its records and, for its inputs in order, values that a run of it takes."""
import random

from generate import (AND, BAD, CARRY_FULL, CARRY_HALF, CONSTRAINT, FULL, HALF, INPUT, INPUT_BIT, LIST_BIT, MATRIARCH, NAND, NOT, OR, QUOTIENT,
                      REMAINDER, reach, record)


def with_inputs(records, bits, chosen):
    """Lists the input bits, 64 to an input, and gives each a value."""
    values = []
    for k in range(0, len(bits), 64):
        part = bits[k:k + 64]
        records += [record(INPUT_BIT, 0, k // 64, g, nid=1000 + k // 64) for g in part]
        # the highest bit of 64 stays 0: a value is signed
        values.append(sum(chosen(g) << i for i, g in enumerate(part) if i < 63))
    return records, values


def full_adders(r):
    """9 inputs and 991 full adders, each over the gate before it and two from anywhere before it: 9,910 pair places."""
    records = [record(INPUT)] * 9 + [record(FULL, 0, n - 1, r.randrange(n), r.randrange(n)) for n in range(9, 1000)]
    records.append(record(BAD, 0, 999, nid=1))
    reached = set()
    gates = [(INPUT,)] * 9 + [(FULL, *(rec[k] + 256 * rec[k + 1] for k in (2, 4, 6))) for rec in records[9:1000]]
    reach(gates, None, 999, reached)
    return with_inputs(records, [g for g in range(9) if g in reached], lambda g: r.randrange(2))


def random_wide(r):
    """60 inputs, 876 gates of every kind but divisions over any of the 200 gates before them, and 64 Ors over the last of those, all bad states."""
    gates = [(INPUT,)] * 60
    kinds = [NOT, AND, NAND, OR, MATRIARCH, HALF, FULL, CARRY_HALF, CARRY_FULL]
    while len(gates) < 936:
        n = len(gates)
        kind = r.choice(kinds)
        if kind in (CARRY_HALF, CARRY_FULL):
            adders = [i for i, g in enumerate(gates) if g[0] == (HALF if kind == CARRY_HALF else FULL)]
            if adders:
                gates.append((kind, r.choice(adders)))
        else:
            gates.append((kind,) + tuple(r.randrange(max(0, n - 200), n) for _ in range({NOT: 1, FULL: 3}.get(kind, 2))))
    gates += [(OR, r.randrange(736, 936), r.randrange(736, 936)) for _ in range(64)]
    reached = set()
    for g in range(936, 1000):
        reach(gates, None, g, reached)
    records = [record(g[0], 0, *g[1:]) for g in gates] + [record(BAD, 0, g, nid=r.randrange(2**64)) for g in range(936, 1000)]
    return with_inputs(records, [g for g in range(60) if g in reached], lambda g: r.randrange(2))


def nots(r):
    """An input and a chain of 999 Nots."""
    records = [record(INPUT)] + [record(NOT, 0, n - 1) for n in range(1, 1000)] + [record(BAD, 0, 999, nid=1)]
    return with_inputs(records, [0], lambda g: r.randrange(2))


def divisions(r):
    """93 inputs and 907 divisions, 900 of them over lists of inputs and 7 over lists of those, with 4,096 list bits: 64 lists of 64. No divisor is 0 in
    a run: gate 0 is true and stands in each list of inputs, and a list of divisions begins with a list divided by itself."""
    count = 93
    records = [record(INPUT)] * count
    for n in range(900):
        a, b = r.randrange(50), r.randrange(50)
        records.append(record(QUOTIENT, 0, a, a) if n % 64 == 0 else record(r.choice([QUOTIENT, REMAINDER]), r.randrange(64), a, b))
    records += [record(QUOTIENT, r.randrange(64), 50 + 2 * k, 51 + 2 * k) for k in range(7)]
    for k in range(50):
        records += [record(LIST_BIT, 0, k, 0)] + [record(LIST_BIT, 0, k, r.randrange(count)) for _ in range(63)]
    for k in range(14):
        records += [record(LIST_BIT, 0, 50 + k, count + 64 * k + i) for i in range(64)]
    records += [record(BAD, 0, count + 900 + k, nid=k) for k in range(7)]
    return with_inputs(records, list(range(count)), lambda g: 1 if g == 0 else r.randrange(2))


def constraints(r):
    """64 inputs, 680 full adders over any gates before them, the last of which is a bad state, and 256 Nots with a constraint each."""
    gates = [(INPUT,)] * 64 + [(FULL, *(r.randrange(n) for _ in range(3))) for n in range(64, 744)] + [(NOT, r.randrange(64, 743)) for _ in range(256)]
    records = [record(g[0], 0, *g[1:]) for g in gates]
    records.append(record(BAD, 0, 743, nid=1))
    records += [record(CONSTRAINT, r.randrange(2), 744 + n) for n in range(256)]
    reached = set()
    for g in range(743, 1000):
        reach(gates, None, g, reached)
    return with_inputs(records, [g for g in range(64) if g in reached], lambda g: r.randrange(2))


def circuits():
    r = random.Random(7)
    for name, make in (('991 full adders', full_adders), ('random, wide, 64 bad states', random_wide), ('999 Nots', nots), ('907 divisions, 4,096 list bits', divisions),
                       ('256 constraints, 680 full adders', constraints)):
        records, values = make(r)
        yield name, b''.join(records), values


def most_divisions():
    """One input and 999 divisions over 64 lists of 64 bits: the most that the checks can have to look at. It passes them all."""
    r = random.Random(8)
    records = [record(INPUT)] + [record(r.choice([QUOTIENT, REMAINDER]), r.randrange(256), r.randrange(64), r.randrange(64)) for _ in range(999)]
    records += [record(LIST_BIT, 0, k, 0) for k in range(64) for _ in range(64)]
    records.append(record(BAD, 0, 999, nid=1))
    return b''.join(records)
