#!/usr/bin/env python3
"""Inputs at the limits of each command, beside what a plain program of the definitions requires of them. Usage, at the top of the repository:

largest_memory.py SHIM PROGRAM [GROUP..]    the groups of these names, or all of lnc; `calls` is of lnc_c; SHIM is refusals.c of this folder, compiled

Each input runs twice. First with all memory that it takes: no allocation is refused, and the status and the bytes are the required ones. Then with two
thirds of that memory: an allocation is refused, the status is 9, and whole lines of what is required are on standard output. So a program that runs out
of memory without a refusal, for an input that is large in any way, has another status than is required. For each group a line is printed with the number
of its inputs, and a line for each input that differs. The status is 0 if none does."""
import itertools
import os
import random
import re
import subprocess
import sys
import tempfile

import plain
import traces

LIMIT = 64 << 20  # bytes of a file of rows, of calls or of C, and of a trace
DONE, ROWS = 0, 3
F_IS_0 = bytes.maketrans(b"F", b"0")  # the plain program has no filter: where one decides, it says 0


def long(name):
    """the longest name that begins so"""
    return name.ljust(32, "_")


def written(name, *parts):
    """a file of this folder with these bytes"""
    with open(name, "wb") as file:
        file.writelines(parts)
    return name


# rows


def refusal(p, fields):
    """the line of a record that is no row"""
    if len(fields) != len(p.columns):
        return "! fields"
    of_column = {name if site is None else p.columns[i]: range_ for i, (name, site, range_) in enumerate(columns(p))}
    for column, field in zip(p.columns, fields):
        low, high = of_column[column]
        if not re.fullmatch(r"-?\d+", field):
            return f"! number {column}"
        if not low <= int(field) <= high:
            return f"! range {column}"
    index = [field for column, field in zip(p.columns, fields) if column in p.sites]
    return "! index " + p.sites[next(i for i in range(len(index)) if index[i] in index[:i])]


def columns(p):
    """for each column its name, its site, and its range"""
    variables = iter(p.variables)
    for column in p.columns:
        if column in p.sites:
            yield column, column, (0, 2 ** 63 - 1)
        else:
            _, site, _, range_ = next(variables)
            yield column, site, range_


def verdict(p, fields, graded=False):
    """the sign of a record that is a row, and what decides it"""
    index, values = traces.row_of(p, fields)
    sign, place = p.answer(dict(zip(p.sites, index)), values, graded)
    return (sign > 0) - (sign < 0), "-" if place is None else str(place)


def line(preds, fields, graded=False):
    """the line of `run` or `graded`, or of `product` where there are more predicates"""
    if traces.row_of(preds[0], fields) is None:
        return refusal(preds[0], fields).encode() + b"\n"
    sign, by = 1, []
    for p in preds:
        one, place = verdict(p, fields, graded)
        sign *= one
        by.append(place)
    return f"{'-0+'[sign + 1]} {','.join(by)}\n".encode()


def drawn(p, draw, count):
    """rows of which most are degenerate"""
    for n in range(count):
        index = draw.sample(range(2 ** 63 - 1 if n % 3 else 9), len(p.sites))
        same = [draw.randint(-2 ** 40, 2 ** 40) for _ in range(32)]
        values = []
        for _, site, place, (low, high) in p.variables:
            anywhere = draw.randint(low, high)
            near = [anywhere, draw.randint(-1, 1), same[place], same[place] if draw.random() < 0.9 else 0, 0]
            z = near[n % 5] if site else anywhere
            values.append(min(max(z, low), high))
        at, rest = iter(index), iter(values)
        yield [str(next(at)) if column in p.sites else str(next(rest)) for column in p.columns]


def padded(fields, zeros):
    """a row with this many zeros before the digits of its last field"""
    last = fields[-1]
    return fields[:-1] + ["-" * last.startswith("-") + "0" * zeros + last.lstrip("-")]


def text_of(records, quoted=False):
    mark = '"' if quoted else ""
    return "".join(",".join(mark + field + mark for field in fields) + "\n" for fields in records).encode()


EIGHT = """P.x*Q.y - P.x*R.y - R.x*Q.y - P.y*Q.x + P.y*R.x + R.y*Q.x; P.x - Q.x; P.y*Q.x - P.x*Q.y; K*R.x + P.x - Q.y; P.x^2 - Q.x^2 + R.y;
Q.y + R.y - P.y - P.x; K*P.x*R.x - K*Q.y; R.x*P.x - 1"""


def eight_preds():
    """a source with eight predicates over three points and a param, of which each column's name but that of the param has as many bytes as it can"""
    text = f"site {long('t')} {{ {long('x')}: {-2 ** 60} .. {2 ** 60}; {long('y')}: {-2 ** 60} .. {2 ** 60}; }}\nparam {long('k')}: -2 .. 2;\n"
    for i, body in enumerate(EIGHT.split(";")):
        body = re.sub(r"\b[PQRKxy]\b", lambda m: long(m[0].lower()), body.strip())
        arguments = ", ".join([f"{long(a)}: {long('t')}" for a in "pqr"] + [f"{long('k')}: param"])
        text += f"predicate f{i}({arguments}) {{ sign {body}; }}\n"
    return list(plain.read(written("eight.ln", text.encode())).values())


def refused_records(row):
    """records that are no rows, one of each kind among many that have another number of fields"""
    yield [*row[:3], "", *row[4:]]
    yield [*row[:4], str(2 ** 60 + 1), *row[5:]]
    yield ["-1", *row[1:]]
    yield [*row[:6], row[3], *row[7:]]
    yield from [["x"]] * 395


class LargeRows:
    """Rows of a predicate: a block of rows and of records that are none, over and over, the last few times in quotes; before these a row with a
    field of 4 MB and a record of a million fields, both in quotes, too. They have a trace of 64 MiB."""

    def __init__(self, p):
        draw = random.Random(1)
        self.p = p
        rows = list(drawn(p, draw, 60))
        self.block = rows + list(refused_records(rows[0]))
        draw.shuffle(self.block)
        self.between = [rows[1], ["x"]]
        # as many blocks as the trace has room for, and after them as many records that are none; the last row's value has as many digits as are left
        self.ends, self.quoted = [], 500
        self.blocks = (LIMIT - 1000) // sum(len(head) + 7 + len(rest) for head, rest in self.told(self.block)) - 1
        left = LIMIT - sum(map(len, self.trace()))
        last = len(b"row 1000000\nat : \nsign +\n")
        digits = next(d for d in range(1, 17) if (left - last - d) % len(b"refused 1000000\n") == 0)
        self.ends = [["x"]] * ((left - last - digits) // len(b"refused 1000000\n")) + [["1", str(10 ** (digits - 1)), "0", "2", "0", "1", "3", "0", "0", "1"]]

    def told(self, records):
        """the lines of a trace for records, without their numbers"""
        for fields in records:
            _, head, rest = traces.explained(self.p, [fields]).split("\n", 2)
            yield head[:-1].encode(), b"\n" + rest.encode()

    def trace(self):
        """the trace, in pieces"""
        block, number = list(self.told(self.block)), itertools.count(1)
        numbered = lambda told: [b"%b%d%b" % (head, next(number), rest) for head, rest in told]
        pieces = [b"trace 1\n"]
        pieces += numbered(block * (self.blocks - self.quoted))
        pieces += numbered(self.told(self.between))
        pieces += numbered(block * self.quoted)
        return pieces + numbered(self.told(self.ends))

    def text(self):
        """the rows file, in pieces"""
        million = b'"",' * 999_999 + b'""\n'
        yield from (text_of([self.p.columns]), text_of(self.block) * (self.blocks - self.quoted), text_of([padded(self.between[0], 4_000_000)], True))
        yield from (million, text_of(self.block, True) * self.quoted, text_of(self.ends, True))

    def padded_text(self):
        """the rows file with zeros in its rows, up to 64 MiB"""
        zeros = (LIMIT - sum(map(len, self.text()))) // (self.blocks * sum(len(fields) > 1 for fields in self.block))
        said, self.block = self.block, [padded(fields, zeros) if len(fields) > 1 else fields for fields in self.block]
        parts = list(self.text())
        self.block = said
        parts[-1] = text_of([*self.ends[:-1], padded(self.ends[-1], LIMIT - sum(map(len, parts)))], True)
        return parts

    def lines(self, preds, graded=False):
        """the lines of `run` and `graded`, or of `product` of these predicates"""
        said = lambda records: b"".join(line(preds, fields, graded) for fields in records)
        block = said(self.block)
        return block * (self.blocks - self.quoted) + said(self.between) + block * self.quoted + said(self.ends)


def rows(lnc):
    preds = eight_preds()
    large = LargeRows(preds[0])
    trace = b"".join(large.trace())
    count = trace.count(b"\nr")
    assert len(trace) == LIMIT and count > 1_000_000
    written("rows.csv", *large.text())
    yield [lnc, "explain", "eight.ln", "f0", "rows.csv"], ROWS, trace
    yield [lnc, "audit", "eight.ln", "f0", "rows.csv", written("trace", trace)], DONE, b"agreed %d\n" % count
    large.blocks = 1_000
    assert os.path.getsize(written("rows.csv", *large.padded_text())) == LIMIT
    yield [lnc, "run", "eight.ln", "f0", "rows.csv"], ROWS, large.lines(preds[:1])
    yield [lnc, "graded", "eight.ln", "f0", "rows.csv"], ROWS, large.lines(preds[:1], True)
    yield [lnc, "product", "eight.ln", *(p.name for p in preds), "rows.csv"], ROWS, large.lines(preds)


def products(lnc):
    """3,000 rows of eight factors beside eight runs of the program itself, in two orders of the factors"""
    preds = eight_preds()
    written("rows.csv", text_of([preds[0].columns, *drawn(preds[0], random.Random(2), 3_000)]))
    runs = [subprocess.run([lnc, "run", "eight.ln", p.name, "rows.csv"], capture_output=True, text=True).stdout.split("\n")[:-1] for p in preds]
    assert all(len(lines) == 3_000 and len(set(lines)) >= 4 for lines in runs)
    for order in (range(8), [3, 1, 4, 0, 5, 2, 7, 6]):
        out = ""
        for lines in zip(*(runs[i] for i in order)):
            signs, by = zip(*map(str.split, lines))
            out += f"{'0' if '0' in signs else '+-'[signs.count('-') % 2]} {','.join(by)}\n"
        yield [lnc, "product", "eight.ln", *(f"f{i}" for i in order), "rows.csv"], DONE, out.encode()


def tall_pred():
    """a predicate with the most columns, 173, each with the longest name"""
    coordinates = [long(f"c{i}") for i in range(32)]
    text = f"site {long('t')} {{ {' '.join(f'{c}: -9 .. 9;' for c in coordinates)} }}\n"
    text += "".join(f"param {long(f'k{i}')}: -2 .. 2;\n" for i in range(8))
    arguments = [f"{long(a)}: {long('t')}" for a in "abcde"] + [f"{long(f'k{i}')}: param" for i in range(8)]
    at = lambda a, i: f"{long(a)}.{coordinates[i]}"
    text += f"predicate f({', '.join(arguments)}) {{ sign {long('k0')}*({at('a', 0)}*{at('b', 31)} - {at('c', 30)}*{at('d', 5)} + {at('e', 7)}); }}\n"
    return plain.read(written("tall.ln", text.encode()))["f"]


def fields(lnc):
    """many fields in quotes: as many as a row can have, and as many as a file can"""
    p = tall_pred()
    rows = list(drawn(p, random.Random(3), 40))
    rows += [[*rows[0][:-1], "3"], [*rows[1][:172], ""], [*rows[2][:8], "-10", *rows[2][9:]], rows[3] + ["0"]]
    written("rows.csv", text_of([p.columns, *rows], True))
    lines = b"".join(line([p], fields) for fields in rows)
    yield [lnc, "run", "tall.ln", "f", "rows.csv"], ROWS, lines
    written("orient.ln", b"site s { x: 0 .. 9; } predicate f(a: s) { sign a.x; }\n")
    written("rows.csv", b"a,a.x\n", b'"",' * ((LIMIT - 20) // 3), b"\n1,5\n")
    yield [lnc, "run", "orient.ln", "f", "rows.csv"], ROWS, b"! fields\n+ 0\n"


def traces_of_rows(lnc):
    """rows with as many stages as a predicate can have, each of up to sixteen variables; the largest values; and lines for 160 variables"""
    p = sixteen_pred()
    rows = [["1", *"0" * 16], ["2", *"0" * 15, "1"], ["3", *"01" * 8]]
    written("rows.csv", text_of([p.columns, *rows]))
    trace = traces.explained(p, rows).encode()
    yield [lnc, "explain", "sixteen.ln", "f", "rows.csv"], DONE, trace
    yield [lnc, "audit", "sixteen.ln", "f", "rows.csv", written("trace", trace)], DONE, b"agreed 3\n"
    most = 2 ** 63 - 2
    written("large.ln", b"site s { t: %d .. %d; } predicate f(a: s, b: s, c: s, d: s) { sign a.t*b.t + c.t*d.t; }\n" % (-most, most))
    p = plain.read("large.ln")["f"]
    rows = [[str(z) for pair in enumerate(values) for z in pair] for values in itertools.product((most, -most), repeat=4)]
    written("rows.csv", text_of([p.columns, *rows]))
    trace = traces.explained(p, rows).encode()
    assert b"at : %d\n" % (2 * most * most) in trace and 2 * most * most > 2 ** 127 - 2 ** 67
    yield [lnc, "explain", "large.ln", "f", "rows.csv"], DONE, trace
    yield [lnc, "audit", "large.ln", "f", "rows.csv", written("trace", trace)], DONE, b"agreed 16\n"
    p = tall_pred()
    row = next(fields for fields in drawn(p, random.Random(4), 1000) if verdict(p, fields) == (0, "-"))
    written("rows.csv", text_of([p.columns, row]))
    *stages, sign = traces.explained(p, [row]).splitlines(True)
    more = ["at" + "".join(f" {v}^{e}" for v in range(160)) + " : 0\n" for e in range(1, 128)]
    written("trace", "".join([*stages, *more, sign]).encode())
    yield [lnc, "audit", "tall.ln", "f", "rows.csv", "trace"], DONE, b"agreed 1\n"


def edges(lnc):
    """as many edges as 256 points can have"""
    kind, x = long("t"), long("x")
    written("plus.ln", f"site {kind} {{ {x}: 1 .. 9; }} predicate f(a: {kind}, b: {kind}, c: {kind}) {{ sign a.{x}*b.{x} + c.{x}; }}\n".encode())
    index = [str(2 ** 63 - 1 - 3 * i) for i in range(256)]
    points = [[i, str(1 + n % 9)] for n, i in enumerate(index)]
    zeros = (LIMIT - len(text_of([[kind, f"{kind}.{x}"], *points], True))) // 256
    written("points.csv", text_of([[kind, f"{kind}.{x}"], *(padded(point, zeros) for point in points)], True))
    yield [lnc, "edges", "plus.ln", "f", "points.csv"], DONE, "".join(f"{i} {j}\n" for i in index for j in index if i != j).encode()


# listings and C


def sixteen_pred():
    """the product of sixteen coordinates of one site, with a stage and a block for each set of them"""
    text = f"site s {{ {' '.join(f't{i}: -1 .. 1;' for i in range(16))} }}\npredicate f(a: s) {{ sign {'*'.join(f'a.t{i}' for i in range(16))}; }}\n"
    return plain.read(written("sixteen.ln", text.encode()))["f"]


def sets_of_sixteen():
    """for each block of that predicate the variables by which it is differentiated, and those that remain"""
    for n in range(1 << 16):
        yield [v for v in range(16) if n >> 15 - v & 1], [v for v in range(16) if not n >> 15 - v & 1]


def listing_of_sixteen():
    """by docs/LISTING.md: block 0 multiplies from the left, as the source does, and a coefficient from the right"""
    lines = ["listing 2", "predicate f", "filter", "input 0 0 1 0"]
    for v in range(1, 16):
        lines += [f"input {v} 0 1 0", "mul 0 1 0"]
    lines.append("decide")
    for n, (by, rest) in enumerate(sets_of_sixteen()):
        lines.append(f"block {n}" + "".join(f" {v}^1" for v in by))
        inputs, times = [f"input {v} -1 1" for v in rest], ["mul64 -1 1"] * (len(rest) - 1)
        if n == 0:
            lines += [inputs[0], *itertools.chain(*zip(inputs[1:], times))]
        else:
            lines += [*inputs, *times] if rest else ["push 1 1 1"]
        lines.append("end")
    lines += ["order 0 : " + " ".join(map(str, range(1 << 16))), "done"]
    return "".join(one + "\n" for one in lines).encode()


def function_of(name, inputs, from_the_left=False):
    """a function of the C, which returns the sign of a product of inputs, or of 1"""
    lines, stack = [f"static int {name}(const int64_t *v) {{"], []

    def declare(value):
        stack.append(len(lines) - 1)
        lines.append(f"  int64_t n{stack[-1]} = {value};")

    def times():
        right, left = stack.pop(), stack.pop()
        declare(f"(((int64_t)n{left}) * ((int64_t)n{right}))")

    for k, v in enumerate(inputs):
        declare(f"((int64_t)v[{v}])")
        if from_the_left and k > 0:
            times()
    while len(stack) > 1:
        times()
    if not inputs:
        declare("((int64_t)((int64_t)1))")
        lines[1:1] = ["  if (((int)0)) {", "    return ((int)v[0]);", "  }"]
    return lines + [f"  return (((int)(((int64_t)n{stack[0]}) > ((int64_t)0))) - ((int)(((int64_t)n{stack[0]}) < ((int64_t)0))));", "}", ""]


def c_of_sixteen():
    """by docs/C.md, in the same order"""
    lines = ["#include <stdint.h>", "", *function_of("lf_f", range(16), True)]
    for n, (_, rest) in enumerate(sets_of_sixteen()):
        lines += function_of(f"lb{n}_f", rest, n == 0)
    lines += ["int ln_f(const int64_t *x, const int64_t *v) {", "  if (((int)0)) {", "    return ((int)x[0]);", "  }"]
    for name in ["lf_f", *(f"lb{n}_f" for n in range(1 << 16))]:
        lines += ["  {", f"    int answer = ((int){name}(v));", "    if ((((int)answer) != ((int)0))) {", "      return ((int)answer);", "    }", "  }"]
    lines += ["  return ((int)0);", "}", ""]
    return "\n".join(lines).encode()


def blocks(lnc):
    """as many blocks as a program can have"""
    p = sixteen_pred()
    listing = listing_of_sixteen()
    yield [lnc, "list", "sixteen.ln"], DONE, listing
    yield [lnc, "verify", "sixteen.ln", written("listing", listing)], DONE, b"valid\n"
    yield [lnc, "emit", "sixteen.ln"], DONE, c_of_sixteen()
    rows = [["1", *"0" * 16], ["1", *"1" * 16], ["5", *["0", "-1"] * 8]]
    written("rows.csv", text_of([p.columns, *rows]))
    yield [lnc, "run", "sixteen.ln", "f", "rows.csv"], DONE, b"".join(line([p], fields) for fields in rows)


def terms(lnc):
    """a coefficient, and so a nested form, with as many terms as there can be: 1,024"""
    sum_of = lambda a, sign: "(" + f" {sign} ".join(f"{a}.c{i}" for i in range(32)) + ")"
    text = f"site s {{ {' '.join(f'c{i}: -9 .. 9;' for i in range(32))} }}\nparam k: -2 .. 2;\n"
    text += f"predicate f(a: s, b: s, c: s, k: param) {{ sign k*c.c0*{sum_of('a', '+')}*{sum_of('b', '-')}; }}\n"
    p = plain.read(written("terms.ln", text.encode()))["f"]
    assert len(p.poly) == 1024
    rows = list(drawn(p, random.Random(5), 60))
    written("rows.csv", text_of([p.columns, *rows]))
    for command in ("run", "graded"):
        yield [lnc, command, "terms.ln", "f", "rows.csv"], DONE, b"".join(line([p], fields, command == "graded") for fields in rows)


def made_rows(lnc):
    """as many rows as can be made"""
    written("plus.ln", b"site s { t: 1 .. 9; } predicate f(a: s) { sign a.t; }\n")
    out = b"signs + 1000000 0 0 - 0\ndeciders filter 1000000 plain 0 stages 0 none 0 deepest 0\nfirst\n"
    yield [lnc, "gen", "plus.ln", "f", "999999999999999999", "1000000"], DONE, out


# the program lnc_c


def calls(lnc_c):
    """C of 64 MiB and 1.6 million lines; 64 MiB of calls, with lists of up to 40 numbers and two of eight million, and a long name"""
    c = c_of_sixteen()
    written("large.c", c, b"\n" * (LIMIT - len(c)))
    one_set = lambda bits: [v for v in range(16) if bits >> 15 - v & 1]
    values = [[0 if v in one_set(bits) else (-1) ** (v * bits) for v in range(16)] for bits in range(40)]
    written("calls", "".join(f"ln_f 7 {','.join(map(str, v))}\n" for v in values).encode())
    # block n is the first that isn't 0 where the variables of block n are; before it the filter is called, which decides where none is 0
    out = "".join(f"{-1 if sum(z < 0 for z in v) % 2 else 1} 0 {1 if bits == 0 else bits + 2}\n" for bits, v in enumerate(values))
    yield [lnc_c, "large.c", "calls"], DONE, out.encode()
    text = "int g(const int64_t *x, const int64_t *v) {\nif ((((int64_t)x[19]) < ((int64_t)v[29]))) {\nreturn ((int)1);\n}\nreturn (-((int)1));\n}\n"
    written("small.c", b"#include <stdint.h>\n", text.encode())
    draw = random.Random(6)
    text, told = "", ""
    for _ in range(1000):
        x, v = ([draw.randint(-2 ** 63, 2 ** 63 - 1) for _ in range(draw.randint(0, 40))] for _ in range(2))
        name = draw.choice("gggggf")
        text += f"{name} {','.join(map(str, x))} {','.join(map(str, v))}\n"
        told += "none\n" if name == "f" else "undefined 3\n" if len(x) < 20 or len(v) < 30 else f"{1 if x[19] < v[29] else -1} 0 0\n"
    times = 20
    lists = [b"0," * 8_000_000 + b"1", b"0," * 8_000_000 + b"-1"]
    parts = [text.encode() * times, b"g %b %b\n" % tuple(lists)]
    short = (LIMIT - sum(map(len, parts))) // len(b"g  \n") // 2
    name = LIMIT - sum(map(len, parts)) - short * len(b"g  \n") - len(b"  ")
    written("calls", *parts, b"g  \n" * short, b"g" * name, b"  ")
    assert os.path.getsize("calls") == LIMIT and short > 1_000_000 and name > 1_000_000
    yield [lnc_c, "small.c", "calls"], DONE, told.encode() * times + b"-1 0 0\n" + b"undefined 3\n" * short + b"none\n"


GROUPS = {"rows": rows, "products": products, "fields": fields, "traces": traces_of_rows, "edges": edges, "blocks": blocks, "terms": terms, "gen": made_rows}
OF_CALLS = {"calls": calls}


# how a run ends


def ended(shim, words, most=0):
    """the status, the bytes on standard output and standard error, and what the shim counted; with no more than this many bytes at a time, if not 0"""
    env = {**os.environ, "LD_PRELOAD": shim, "ASKED": "asked", "MOST": str(most)}
    done = subprocess.run(words, env=env, stdin=subprocess.DEVNULL, capture_output=True)
    with open("asked") as file:
        return done.returncode, done.stdout, done.stderr, tuple(map(int, file.read().split()))


def faults(shim, words, status, out):
    """what is wrong with the two runs of an input"""
    *got, (_, refusals, peak) = ended(shim, words)
    if refusals:
        yield "an allocation was refused"
    if (got[0], got[1].translate(F_IS_0), got[2]) != (status, out.translate(F_IS_0), b""):
        yield f"status {got[0]}, {len(got[1])} bytes where {len(out)} are required, {got[2][:80]}"
    code, some, err, (_, refusals, _) = ended(shim, words, peak * 2 // 3)
    if (code, err) != (9, b"") or not refusals or not got[1].startswith(some) or some[-1:] not in (b"", b"\n"):
        yield f"with less memory: status {code}, {refusals} refused, {len(some)} bytes, {err[:80]}"


def main(shim, program, *names):
    shim, program, bad = os.path.abspath(shim), os.path.abspath(program), False
    with tempfile.TemporaryDirectory() as folder:
        os.chdir(folder)
        for name in names or GROUPS:
            count = 0
            for words, status, out in (GROUPS | OF_CALLS)[name](program):
                count += 1
                for fault in faults(shim, words, status, out):
                    bad = True
                    print(f"FAILED {name}: {' '.join(map(os.path.basename, words))[:100]}: {fault}")
            print(f"{name}: {count} inputs", flush=True)
            for file in os.listdir():
                os.remove(file)
    return bad


if __name__ == "__main__":
    sys.exit(main(*sys.argv[1:]))
