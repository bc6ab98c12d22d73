#!/usr/bin/env python3
"""Traces, by a plain program of the rules that shares no code with lnc. Usage:

traces.py explain FILE NAME ROWS            the trace of a rows file, without records that are refused
traces.py spoiled PROGRAM FILE NAME ROWS    what `audit` says of the trace that `explain` writes, and of each text that is like it but for one
                                            line left out, doubled or exchanged with the next, for one byte, or for an end that is missing"""
import csv, os, re, subprocess, sys, tempfile

import plain

NUMBER = r"(0|[1-9]\d*)"
AT = re.compile(rf"at((?: {NUMBER}\^{NUMBER})*) : (0|-?[1-9]\d*)")


def line_of(text):
    """what a line says, or None where it is no line of a trace"""
    words = text.split(" ")
    if len(words) == 2 and words[0] in ("refused", "row") and re.fullmatch(NUMBER, words[1]) and 1 <= int(words[1]) < 2 ** 32:
        return words[0], int(words[1])
    if text in ("sign +", "sign -", "sign 0"):
        return "sign", {"+": 1, "-": -1, "0": 0}[words[1]]
    at = AT.fullmatch(text)
    if at:
        pairs = [tuple(map(int, pair.split("^"))) for pair in at.group(1).split()]
        if all(v < 168 and 1 <= e < 128 for v, e in pairs) and abs(int(at.group(4))) < 2 ** 127:
            return "at", (pairs, int(at.group(4)))
    return None


def form(data):
    """the lines of a trace after the first, or the number of the line at which the bytes stop being one"""
    lines = data.split(b"\n")
    state, said = None, []
    for n, one in enumerate(lines[:-1], 1):
        text = one.decode("latin-1")
        line = line_of(text)
        if n == 1:
            if text != "trace 1":
                return 1
            state = "between"
        elif line is None or line[0] not in {"between": ("refused", "row"), "row": ("at",), "at": ("at", "sign")}[state]:
            return n
        else:
            said.append(line)
            state = {"refused": "between", "row": "row", "at": "at", "sign": "between"}[line[0]]
    return said if state == "between" and not lines[-1] else len(lines)


def row_of(p, fields):
    """the indices and the values of a record, or None where it is no row"""
    if len(fields) != len(p.columns) or not all(re.fullmatch(r"-?\d+", f) for f in fields):
        return None
    row = dict(zip(p.columns, map(int, fields)))
    index, values = [row[a] for a in p.sites], [z for c, z in row.items() if c not in p.sites]
    if len(set(index)) < len(index) or not all(0 <= i < 2 ** 63 for i in index):
        return None
    return (index, values) if all(lo <= z <= hi for z, (_, _, _, (lo, hi)) in zip(values, p.variables)) else None


def key_of(p, index):
    """the rank of a vector in the order of a row's sites"""
    order = [site for _, site in sorted(zip(index, p.sites))]
    weight = {v: (order.index(site) << 5) + 31 - place for v, (_, site, place, _) in enumerate(p.variables) if site}
    return lambda pairs: sum(e << plain.BITS * weight[v] for v, e in pairs)


def whole(pairs):
    return sum(e << plain.BITS * v for v, e in pairs)


def audit(p, records, data):
    said = form(data)
    if isinstance(said, int):
        return f"wrong {said}", 5
    seen, row = 0, None
    for n, (kind, what) in enumerate(said, 2):
        if kind in ("refused", "row"):
            if what != seen + 1 or seen == len(records) or (row_of(p, records[seen]) is None) != (kind == "refused"):
                return f"wrong {n}", 5
            row, seen = row_of(p, records[seen]), seen + 1
            if row:
                key, stood, last = key_of(p, row[0]), set(), None
                stages = p.stages(tuple(site for _, site in sorted(zip(row[0], p.sites))))
        elif kind == "at":
            pairs, value = what
            good = all(v < w for (v, _), (w, _) in zip(pairs, pairs[1:]))
            good = good and all(v < len(p.variables) and p.variables[v][1] for v, _ in pairs)
            good = good and (last is None or last[0] < key(pairs) and last[1] == 0)
            good = good and all(a in stood for a in stages if key(plain.exponents(a)) < key(pairs))
            if not good or value != p.coefficient(whole(pairs), row[1]):
                return f"wrong {n}", 5
            last = key(pairs), value
            stood.add(whole(pairs))
        else:
            if what != (last[1] > 0) - (last[1] < 0) or what == 0 and not all(a in stood for a in stages):
                return f"wrong {n}", 5
    return (f"agreed {seen}", 0) if seen == len(records) else (f"wrong {len(said) + 2}", 5)


def explained(p, records):
    lines = ["trace 1"]
    for n, fields in enumerate(records, 1):
        row = row_of(p, fields)
        lines.append(f"row {n}" if row else f"refused {n}")
        if row:
            value = 0
            for a in p.stages(tuple(site for _, site in sorted(zip(row[0], p.sites)))):
                value = p.coefficient(a, row[1])
                lines.append(" ".join(["at", *(f"{v}^{e}" for v, e in plain.exponents(a)), ":", str(value)]))
                if value:
                    break
            lines.append("sign " + ("+" if value > 0 else "-" if value < 0 else "0"))
    return "\n".join(lines) + "\n"


def spoil(data):
    """texts that are like this one"""
    yield data
    lines = data.splitlines(True)
    for n in range(len(lines)):
        yield b"".join(lines[:n] + lines[n + 1:])
        yield b"".join(lines[:n + 1] + lines[n:])
        yield b"".join(lines[:n] + lines[n + 1:n + 2] + lines[n:n + 1] + lines[n + 2:])
    for n in range(len(data)):
        yield data[:n]
        for other in b"0129-+ ^:\nra":
            if data[n] != other:
                yield data[:n] + bytes([other]) + data[n + 1:]
    # vectors that aren't on the list may stand where their values are right
    for n in range(1, len(lines)):
        for more in (b"at 0^2 : 0\n", b"at 3^2 : 0\n", b"at 5^1 : 0\n", b"at 0^1 1^1 : 0\n", b"at 1^127 : 0\n", b"at 3^1 2^1 : 0\n", b"at 167^1 : 0\n"):
            yield b"".join(lines[:n] + [more] + lines[n:])


def table_of(path):
    return list(csv.reader(open(path, newline="")))[1:]


def explain(path, name, rows):
    print(explained(plain.read(path)[name], table_of(rows)), end="")


def spoiled(program, path, name, rows):
    p, records = plain.read(path)[name], table_of(rows)
    got = subprocess.run([program, "explain", path, name, rows], capture_output=True)
    assert got.stdout.decode() == explained(p, records), "explain"
    assert got.returncode == (0 if all(row_of(p, r) for r in records) else 3), got.returncode
    count = 0
    with tempfile.TemporaryDirectory() as folder:
        trace = os.path.join(folder, "trace")
        for data in dict.fromkeys(spoil(got.stdout)):
            open(trace, "wb").write(data)
            said = subprocess.run([program, "audit", path, name, rows, trace], capture_output=True)
            wanted = audit(p, records, data)
            if (said.stdout.decode(), said.stderr, said.returncode) != (wanted[0] + "\n", b"", wanted[1]):
                sys.exit(f"{data!r}\nwanted {wanted}\ngot {said.stdout!r} {said.returncode}")
            count += 1
    print(count, "equal")


if __name__ == "__main__":
    {"explain": explain, "spoiled": spoiled}[sys.argv[1]](*sys.argv[2:])
