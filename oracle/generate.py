#!/usr/bin/env python3
"""Makes a stream of cases for `oracle` and for `gloprast answers`: generate.py SEED CIRCUITS [RUNS] > cases

Each circuit is asked for its model in both forms and for the runs of RUNS lists of values (3 by default) in both forms. The circuits have every kind of gate,
shared operands, constants, divisions (also nested), carries, several bad states, constraints, unreached gates, unlisted inputs and limits;
about one in ten is damaged: a field, a kind, a section's order, a length. The same seed makes the same bytes.
"""
import random
import struct
import sys

CONST_FALSE, CONST_TRUE, INPUT = 0, 1, 2
NOT, AND, NAND, OR, MATRIARCH = 3, 4, 5, 6, 7
CARRY_HALF, HALF, CARRY_FULL, FULL = 8, 9, 10, 11
QUOTIENT, REMAINDER = 12, 13
LIST_BIT, BAD, CONSTRAINT, INPUT_BIT = 20, 21, 22, 23


def record(kind, byte1=0, a=0, b=0, c=0, nid=0):
    return struct.pack('<BBHHHQ', kind, byte1, a, b, c, nid)


def case(form, job, circuit, values=()):
    head = struct.pack('<BBHI', form, job, len(values), len(circuit))
    return head + circuit + b''.join(struct.pack('<q', v) for v in values)


def gate_records(r, size, lists):
    """Gates in which operands come earlier. Divisions name lists, whose gates come before the first division."""
    gates = [(INPUT,)]
    kinds = [INPUT] * 3 + [CONST_FALSE, CONST_TRUE] + [NOT, AND, NAND, OR, MATRIARCH] * 2 + [CARRY_HALF, HALF, CARRY_FULL, FULL] * 2
    near = r.random() < 0.5
    while len(gates) < size:
        n = len(gates)
        pick = (lambda: max(0, n - 1 - r.randrange(min(n, 4)))) if near else (lambda: r.randrange(n))
        kind = r.choice(kinds + ([QUOTIENT, REMAINDER] * 2 if lists and n > lists['after'] else []))
        if kind in (CONST_FALSE, CONST_TRUE, INPUT):
            gates.append((kind,))
        elif kind == NOT:
            gates.append((kind, pick()))
        elif kind in (AND, NAND, OR, MATRIARCH, HALF):
            gates.append((kind, pick(), pick()))
        elif kind == FULL:
            gates.append((kind, pick(), pick(), pick()))
        elif kind in (CARRY_HALF, CARRY_FULL):
            adders = [i for i, g in enumerate(gates) if g[0] == (HALF if kind == CARRY_HALF else FULL)]
            if adders:
                gates.append((kind, r.choice(adders[-5:])))
        else:
            named = [k for k, last in enumerate(lists['last']) if last < n]
            if named:
                gates.append((kind, r.choice(named), r.choice(named)))
    return gates


def reach(gates, lists, g, reached):
    """The gates that a visit of g reaches join those reached already."""
    todo = [g]
    while todo:
        g = todo.pop()
        if g not in reached:
            reached.add(g)
            kind, *fields = gates[g]
            todo += [b for k in fields for b in lists['members'][k]] if kind in (QUOTIENT, REMAINDER) else fields


def roots(r, gates, lists, reached, count):
    """Gates for bad states or constraints: mostly not reached when their turn comes."""
    out = []
    for _ in range(count):
        free = [g for g in range(len(gates)) if g not in reached]
        if r.random() < 0.03:
            free = list(range(len(gates)))
        if not free:
            break
        g = r.choice(free[:4] if r.random() < 0.5 else free[-4:] if r.random() < 0.7 else free)
        out.append(g)
        reach(gates, lists, g, reached)
    return out


def circuit(r):
    size = r.choice([1, 2, 3, 4, 6, 8, 12, 16, 24, 40, 60])
    if r.random() < 0.01:
        size = r.choice([200, 400, 900, 1000])
    lists = None
    if size > 3 and r.random() < 0.4:
        # lists over gates that will stand early; a list may also hold divisions made before it is named
        after = r.randrange(1, max(2, size // 2))
        count = r.randrange(1, 5)
        members = [[r.randrange(after) for _ in range(r.choice([1, 1, 2, 3, 5, 8, 64 if r.random() < 0.05 else 4]))] for _ in range(count)]
        if r.random() < 0.4 and size > after + 3:
            members.append([r.randrange(after + 2) for _ in range(r.randrange(1, 4))])
        lists = {'after': after, 'members': members, 'last': [max(m) for m in members]}
    gates = gate_records(r, size, lists)
    out = []
    for g in gates:
        kind = g[0]
        if kind in (QUOTIENT, REMAINDER):
            out.append(record(kind, r.choice([0, 0, 0, 1, 2, 3, 7, 63, 64, 255]), g[1], g[2]))
        else:
            out.append(record(kind, 0, *g[1:]))
    if lists:
        for k, m in enumerate(lists['members']):
            out += [record(LIST_BIT, 0, k, g) for g in m]
    reached = set()
    for g in roots(r, gates, lists, reached, r.choice([1, 1, 1, 2, 2, 3, 5, 9])):
        out.append(record(BAD, 0, g, nid=r.choice([r.randrange(1000), r.randrange(2**64)])))
    if r.random() < 0.5:
        for g in roots(r, gates, lists, reached, r.choice([1, 1, 2, 3])):
            out.append(record(CONSTRAINT, r.randrange(2), g))
    bits = [i for i, g in enumerate(gates) if g[0] == INPUT and (i in reached or r.random() < 0.02)]
    if r.random() < 0.1:
        bits = bits[:r.randrange(len(bits) + 1)]
    if r.random() < 0.2:
        r.shuffle(bits)
    inputs = []
    while bits and len(inputs) < 64:
        take = min(len(bits), r.choice([1, 2, 3, 4, 8, 64]))
        inputs.append(bits[:take])
        bits = bits[take:]
    for k, bs in enumerate(inputs):
        nid = r.randrange(10000)
        out += [record(INPUT_BIT, 0, k, g, nid=nid) for g in bs]
    return out, [len(bs) for bs in inputs]


def damaged(r, records):
    records = list(records)
    how = r.randrange(6)
    if how == 0:
        return b''.join(records)[:-r.randrange(1, 16)]
    i = r.randrange(len(records))
    if how == 1:
        raw = bytearray(records[i])
        raw[r.randrange(16)] = r.randrange(256)
        records[i] = bytes(raw)
    elif how == 2:
        j = r.randrange(len(records))
        records[i], records[j] = records[j], records[i]
    elif how == 3:
        del records[i]
    elif how == 4:
        records.insert(i, records[r.randrange(len(records))])
    else:
        raw = bytearray(records[i])
        raw[0] = r.choice([14, 19, 24, 255, r.randrange(24)])
        records[i] = bytes(raw)
    return b''.join(records)


def values_for(r, sizes):
    values = []
    for bits in sizes:
        if r.random() < 0.05:
            values.append(r.choice([-1, -2, -4, -(2**63), 2**63 - 1, 2**bits if bits < 63 else 2**62]))
        else:
            values.append(r.randrange(2**min(bits, 63)))
    if r.random() < 0.01:
        values = values[:-1] if values and r.random() < 0.5 else values + [0]
    return values


def stream(seed, count, runs):
    """The bytes of the cases of so many circuits."""
    r = random.Random(seed)
    out = []
    for _ in range(count):
        records, sizes = circuit(r)
        raw = b''.join(records)
        if r.random() < 0.1:
            raw = damaged(r, records)
        out += [case(form, 0, raw) for form in (0, 1)]
        for _ in range(runs):
            values = values_for(r, sizes)
            out += [case(form, 1, raw, values) for form in (0, 1)]
    return b''.join(out)


def main():
    seed = int(sys.argv[1])
    count = int(sys.argv[2])
    runs = int(sys.argv[3]) if len(sys.argv) > 3 else 3
    sys.stdout.buffer.write(stream(seed, count, runs))


if __name__ == '__main__':
    main()
