#!/usr/bin/env python3
"""What lnc owes, by a plain program of the definitions that shares no code with it. Usage:

plain.py largest                        a source at its limits: 1,048,576 bytes, 65,536 tokens, 16 predicates, each of 2,048 nodes
plain.py rows FILE NAME COUNT           so many rows for a predicate, of which most are degenerate
plain.py product SEED                   a source of three random predicates f, g and h, and last their product, `whole`
plain.py check FILE                     the lines of `check`
plain.py run FILE NAME ROWS             the lines of `run`; where the plain value isn't 0 it stands as decided by 0, also where a filter does
plain.py graded FILE NAME ROWS          the lines of `graded`, with 0 in place of F as well
plain.py gen FILE NAME SEED COUNT       the lines of `gen`; what the filter decides counts as decided by the plain value
plain.py random LNC FOLDER SEED COUNT   compares `run` and `graded` of the program LNC with the lines of random predicates of three shapes, COUNT of
                                        each, F where the filter decides, and prints how many there were of each kind"""
import collections, functools, importlib.machinery, importlib.util, itertools, math, pathlib, random, re, subprocess, sys

BITS = 8  # of an exponent in a monomial, which is one whole number


class Poly(dict):
    """a polynomial: a coefficient for each monomial"""

    def __add__(self, other):
        out = Poly(self)
        for m, c in other.items():
            out[m] = out.get(m, 0) + c
        return Poly({m: c for m, c in out.items() if c})

    def __neg__(self):
        return Poly({m: -c for m, c in self.items()})

    def __sub__(self, other):
        return self + -other

    def __mul__(self, other):
        out = Poly()
        for m, c in self.items():
            for n, d in other.items():
                out[m + n] = out.get(m + n, 0) + c * d
        return Poly({m: c for m, c in out.items() if c})

    def __pow__(self, n):
        return functools.reduce(Poly.__mul__, [self] * n, Poly({0: 1}))

    @classmethod
    def number(cls, c):
        return cls({0: c} if c else {})


class NoFilter(Exception):
    """an error above 2^31 - 1, or a division by more than 2^255"""


class Truncated:
    """what a filter knows of a node: its value is within e * 2^k of h * 2^k, and |h| is at most m"""

    def __init__(self, k, m, e, h):
        self.k, self.m, self.e, self.h = k, m, e, h

    def divided(self, n):
        """by 2^n towards 0"""
        h = abs(self.h) >> n
        return Truncated(self.k + n, self.m >> n, -(-self.e >> n) + (n > 0), h if self.h > 0 else -h)

    def trimmed(self):
        """with 31 binary digits"""
        out = self.divided(max(0, self.m.bit_length() - 31))
        if out.e >= 2 ** 31 or out.k > 255:
            raise NoFilter
        return out

    @staticmethod
    def leaf(m, z):
        return Truncated(0, m, 0, z).trimmed()

    @staticmethod
    def number(c):
        return Truncated.leaf(c, c)

    def __neg__(self):
        return Truncated(self.k, self.m, self.e, -self.h)

    def __add__(self, other):
        l, r = self.divided(max(0, other.k - self.k)), other.divided(max(0, self.k - other.k))
        return Truncated(l.k, l.m + r.m, l.e + r.e, l.h + r.h).trimmed()

    def __sub__(self, other):
        return self + -other

    def __mul__(self, other):
        e = self.m * other.e + other.m * self.e + self.e * other.e
        return Truncated(self.k + other.k, self.m * other.m, e, self.h * other.h).trimmed()

    def __pow__(self, n):
        return functools.reduce(Truncated.__mul__, [self] * n) if n else Truncated.number(1)


def exponents(m):
    """the variables of a monomial with their exponents"""
    out, v = [], 0
    while m:
        if m & 255:
            out.append((v, m & 255))
        m >>= BITS
        v += 1
    return out


class Predicate:
    """the arguments, the variables with their ranges, and the polynomial"""

    def __init__(self, name, arguments, body, sites, params):
        self.name, self.arguments = name, [tuple(w.strip() for w in a.split(":")) for a in arguments.split(",")]
        self.columns, self.variables, self.body = [], [], body
        for a, kind in self.arguments:
            if kind == "param":
                self.variables.append((a, None, 0, params[a]))
                self.columns.append(a)
                continue
            self.variables += [(f"{a}.{c}", a, k, range_) for k, (c, range_) in enumerate(sites[kind].items())]
            self.columns += [a] + [f"{a}.{c}" for c in sites[kind]]
        self.poly = self.evaluate([Poly({1 << BITS * v: 1}) for v in range(len(self.variables))], Poly.number)
        self.sites = [a for a, kind in self.arguments if kind != "param"]
        self.lists = {}

    def evaluate(self, values, number):
        """the sign expression after its lets, over these values of the variables and what stands for a number"""
        scope = {"Number": number, **{a: type("Site", (), {})() for a, kind in self.arguments if kind != "param"}}
        for (name, site, _, _), value in zip(self.variables, values):
            if site:
                setattr(scope[site], name.split(".")[1], value)
            else:
                scope[name] = value
        text = re.sub(r"\^\s*(\d+)|(?<![\w.])(\d+)\b", lambda n: f"**{int(n[1])}" if n[1] else f"Number({int(n[2])})", self.body)
        for let, value in re.findall(r"let (\w+) = (.*?);", text, re.S):
            scope[let] = eval(value, {}, scope)
        return eval(re.search(r"sign (.*?);", text, re.S)[1], {}, scope)

    def decides(self, values):
        """whether the filter decides a row"""
        try:
            root = self.evaluate([Truncated.leaf(max(map(abs, v[3])), z) for v, z in zip(self.variables, values)], Truncated.number)
        except NoFilter:
            return False
        return abs(root.h) > root.e

    @functools.cached_property
    def covered(self):
        """each vector over the variables of sites that a monomial covers, with the terms that cover it"""
        out = {}
        of_site = [v[1] is not None for v in self.variables]
        for m, c in self.poly.items():
            pairs = exponents(m)
            for a in itertools.product(*(range(e + 1) if of_site[v] else (0,) for v, e in pairs)):
                vector = sum(e << BITS * v for (v, _), e in zip(pairs, a))
                product = c * math.prod(math.comb(e, k) for (_, e), k in zip(pairs, a))
                out.setdefault(vector, []).append((product, [(v, e - k) for (v, e), k in zip(pairs, a) if e > k]))
        return out

    def stages(self, order, graded=False):
        """the stage list of an order of the sites, the one with the smallest index first; graded is by total degree first"""
        if (order, graded) not in self.lists:
            # the weight of a variable's exponent: the site with the larger index, then the coordinate that is declared first, is looked at first
            weight = {v: (order.index(site) << 5) + 31 - place for v, (_, site, place, _) in enumerate(self.variables) if site}
            degree = lambda a: sum(e for _, e in exponents(a)) if graded else 0
            key = lambda a: (degree(a), sum(e << BITS * weight[v] for v, e in exponents(a)))
            keys = {key(a): a for a in self.covered}
            ends = [key(a) for a, terms in self.covered.items() if len(terms) == 1 and not terms[0][1]]
            last = min(ends, default=max(keys))
            self.lists[order, graded] = [keys[k] for k in sorted(keys) if k <= last]
        return self.lists[order, graded]

    def coefficient(self, vector, values):
        return sum(c * math.prod(values[v] ** e for v, e in rest) for c, rest in self.covered.get(vector, []))

    def answer(self, index, values, graded=False):
        """the sign, and the place of the stage that decides it"""
        value = self.coefficient(0, values)
        if value:
            return value, 0
        for place, a in enumerate(self.stages(tuple(sorted(self.sites, key=index.get)), graded)):
            value = self.coefficient(a, values)
            if value:
                return value, place
        return 0, None


def read(path):
    """the predicates of a source by their names; it has no comment inside of an item, and one blank where the samples have one"""
    text = re.sub(r"//[^\n]*", "", open(path).read())
    number = lambda r: tuple(int(n) for n in r)
    coords = lambda body: {c: (int(lo), int(hi)) for c, lo, hi in re.findall(r"(\w+): (-?\d+) \.\. (-?\d+);", body)}
    sites = {name: coords(body) for name, body in re.findall(r"site (\w+) \{(.*?)\}", text, re.S)}
    params = {name: number(r) for name, *r in re.findall(r"param (\w+): (-?\d+) \.\. (-?\d+);", text)}
    return {name: Predicate(name, arguments, body, sites, params) for name, arguments, body in re.findall(r"predicate (\w+)\((.*?)\) \{(.*?)\}", text, re.S)}


def check(path):
    for p in read(path).values():
        print(p.name, "sites", len(p.sites), "stages", sum(len(p.stages(o)) for o in itertools.permutations(p.sites)))


def run(path, name, table, graded=False):
    p = read(path)[name]
    lines = open(table).read().split("\n")
    assert lines[0] == ",".join(p.columns) and lines[-1] == ""
    for line in lines[1:-1]:
        row = dict(zip(p.columns, map(int, line.split(","))))
        sign, place = p.answer({a: row[a] for a in p.sites}, [z for c, z in row.items() if c not in p.sites], graded)
        print("+" if sign > 0 else "-" if sign < 0 else "0", "-" if place is None else place)


def graded(path, name, table):
    run(path, name, table, True)


def generator():
    """The words of the generator of `gen`, by bin/rows."""
    loader = importlib.machinery.SourceFileLoader("rows_of_gen", str(pathlib.Path(__file__).resolve().parents[2] / "bin/rows"))
    module = importlib.util.module_from_spec(importlib.util.spec_from_loader("rows_of_gen", loader))
    loader.exec_module(module)
    return module.words


def gen(path, name, seed, count):
    p = read(path)[name]
    word = generator()(int(seed))
    first, signs, plain, stages, none, deepest = [], {1: 0, 0: 0, -1: 0}, 0, 0, 0, 0
    for n in range(1, int(count) + 1):
        index, values = {}, []
        for variable, site, place, (lo, hi) in p.variables:
            if site and place == 0:
                index[site] = next(word) % 2 ** 32 * 8 + p.sites.index(site)
            low, high = max(lo, -2), min(hi, 2)
            if n % 2 == 0 and low <= high:
                lo, hi = low, high
            values.append(lo + next(word) % (hi - lo + 1))
        sign, by = p.answer(index, values)
        signs[(sign > 0) - (sign < 0)] += 1
        plain, stages, none = plain + (by == 0), stages + (by not in (0, None)), none + (by is None)
        deepest = max(deepest, by or 0)
        if by and len(first) < 3:
            first.append(n)
    lines = [f"signs + {signs[1]} 0 {signs[0]} - {signs[-1]}", f"deciders plain {plain} stages {stages} none {none} deepest {deepest}"]
    # the line of the first three comes as soon as there are three
    lines.insert(0 if len(first) == 3 else 2, " ".join(["first", *map(str, first)]))
    print("\n".join(lines))


def rows(path, name, count):
    p = read(path)[name]
    draw = random.Random(name)
    print(",".join(p.columns))
    for n in range(int(count)):
        index = draw.sample(range(2 ** 63 - 1 if n % 3 else 9), len(p.sites))
        one = [draw.randrange(-2 ** 30, 2 ** 30) for _ in range(32)]
        values = {}
        for name, site, place, (lo, hi) in p.variables:
            # anywhere; near 0; the same point for each site; or one of two points
            z = [draw.randint(lo, hi), draw.randint(-1, 1), one[place], one[place] if draw.random() < 0.9 else 0, 0][n % 5] if site else draw.randint(lo, hi) * (n % 2)
            values.setdefault(site or name, []).append(min(max(z, lo), hi))
        at = dict(zip(p.sites, index))
        print(",".join(str(z) for a, _ in p.arguments for z in ([at[a]] if a in at else []) + values[a]))


def product(seed):
    """a source of three predicates over two sites and a param, and of their product"""
    draw = random.Random(int(seed))
    inputs = ["a.x", "a.y", "b.x", "b.y", "c"]

    def factor():
        low = lambda: draw.choice(inputs + [f"({draw.randint(1, 4)})"])
        return draw.choice([low(), low(), f"{draw.choice(inputs[:4])}^2", f"({low()} {draw.choice('+-')} {low()})"])

    def predicate(name, body):
        return f"predicate {name}(a: point, b: point, c: param) {{ sign {body}; }}"

    bodies = []
    while len(bodies) < 3:
        body = "*".join(factor() for _ in range(draw.randint(1, 2)))
        for _ in range(draw.randint(0, 2)):
            body += f" {draw.choice('+-')} " + "*".join(factor() for _ in range(draw.randint(1, 2)))
        arguments = "a: point, b: point, c: param"
        if Predicate("f", arguments, f"sign {body};", {"point": {"x": (-3, 3), "y": (-3, 3)}}, {"c": (-2, 2)}).poly:
            bodies.append(body)
    print("site point { x: -3 .. 3; y: -3 .. 3; }\nparam c: -2 .. 2;")
    for name, body in zip("fgh", bodies):
        print(predicate(name, body))
    print(predicate("whole", "*".join(f"({body})" for body in bodies)))


class Draw:
    """random expressions and rows over four coordinates and a param, by a linear congruential generator with Knuth's numbers for MMIX"""

    def __init__(self, seed):
        self.state = seed

    def below(self, n):
        self.state = (self.state * 6364136223846793005 + 1442695040888963407) % 2 ** 64
        return (self.state >> 33) % n

    def within(self, most):
        return self.below(2 * most + 1) - most

    def operation(self, factors, place):
        """one on two of the last parts before this place, and how many factors its terms have at most: no more than four"""
        right = place - 1 - self.below(2)
        left = right - 1 - self.below(min(right, 6))
        exponent, kind, l, r = self.below(5), self.below(10), factors[left], factors[right]
        if kind == 0:
            return ("neg", right, None), r
        if kind == 1 and r * exponent <= 4:
            return ("^", right, exponent), max(r * exponent, 1)
        if kind in (2, 3, 4) and l + r <= 4:
            return ("*", left, right), l + r
        if kind in (5, 6) and r + r <= 4:
            return ("*", right, right), r + r
        return ("+" if kind == 7 else "-", left, right), max(l, r)

    def expression(self):
        """its parts: a number, the inputs, and operations on parts before them"""
        parts = [("number", 1 + self.below(3), None)] + [("input", v, None) for v in (4, 0, 1, 2, 3)]
        factors = [1] * 6
        for place in range(6, 12 + self.below(6)):
            part, most = self.operation(factors, place)
            parts.append(part)
            factors.append(most)
        return parts

    def values(self):
        """mostly small, coordinates near one another, so that many rows are degenerate"""
        most = [0, 0, 999999, 1, 1, 1][self.below(6)]
        middle = self.within(1)
        return [middle + self.within(most) for _ in range(4)] + [self.within(1)]


def text_of(parts, inputs):
    """the body of a predicate: parentheses where it needs them, and a let for each operation at a place that 3 divides"""
    body, texts = "", []
    operand = lambda place, least: texts[place][0] if texts[place][1] >= least else f"({texts[place][0]})"
    for place, (op, l, r) in enumerate(parts):
        text = {"number": lambda: (str(l), 4), "input": lambda: (inputs[l], 4), "^": lambda: (f"{operand(l, 4)}^{r}", 3),
                "neg": lambda: ("-" + operand(l, 2), 2), "*": lambda: (f"{operand(l, 1)}*{operand(r, 2)}", 1),
                "+": lambda: (f"{operand(l, 0)} + {operand(r, 1)}", 0), "-": lambda: (f"{operand(l, 0)} - {operand(r, 1)}", 0)}[op]()
        if place >= 6 and place % 3 == 0:
            body, text = f"{body} let d{place} = {text[0]};", (f"d{place}", 4)
        texts.append(text)
    return f"{body} sign {texts[-1][0]};"


def value_of(parts, inputs):
    """the polynomial, by the parts and not by their text"""
    out = []
    for op, l, r in parts:
        out.append({"number": lambda: Poly.number(l), "input": lambda: inputs[l], "neg": lambda: -out[l], "^": lambda: out[l] ** r,
                    "*": lambda: out[l] * out[r], "+": lambda: out[l] + out[r], "-": lambda: out[l] - out[r]}[op]())
    return out[-1]


def repeats(parts):
    """whether an operation is at two places of the text, which aren't names of a let"""
    places = [0] * len(parts)
    places[-1] = 1
    named = lambda place: place % 3 == 0
    for place in reversed(range(6, len(parts))):
        op, l, r = parts[place]
        if places[place] or named(place):
            for operand in [l] if op in ("neg", "^") else [l, r]:
                places[operand] += 1
    return any(n > 1 and not named(place) for place, n in enumerate(places[:-1]) if place >= 6)


# sources before the braces of their predicate, with its inputs
WIDE = "-1000000 .. 1000000"
POINT, NUM, PARAM = f"site point {{ x: {WIDE}; y: {WIDE}; }}", f"site num {{ t: {WIDE}; }}", "param c: -2 .. 2;"
SHAPES = [
    (f"{PARAM} {POINT}\npredicate f(p: point, q: point, c: param)", ["p.x", "p.y", "q.x", "q.y", "c"]),
    (f"{NUM} {PARAM}\npredicate f(p: num, q: num, c: param, r: num, s: num)", ["p.t", "q.t", "r.t", "s.t", "c"]),
    (f"{PARAM} {NUM} {POINT}\npredicate f(c: param, p: num, q: point, r: num)", ["p.t", "q.x", "q.y", "r.t", "c"])]


def worked():
    """coefficients that were worked out by hand: (2 + e)(3 + f) at 1, e, f and ef, a fourth power at 0, and what a param alone has"""
    both = Predicate("f", "a: num, b: num, c: param", "sign a.t*b.t;", {"num": {"t": (-9, 9)}}, {"c": (-9, 9)})
    assert [both.coefficient(v, [2, 3, 0]) for v in (0, 1, 256, 257)] == [6, 3, 2, 1]
    one = Predicate("f", "a: num, c: param", "sign a.t*c;", {"num": {"t": (-9, 9)}}, {"c": (-9, 9)})
    assert [one.coefficient(v, [2, 3]) for v in (0, 1, 256, 257)] == [6, 3, 0, 0]
    fourth = Predicate("f", "a: num", "sign a.t^4;", {"num": {"t": (-9, 9)}}, {})
    assert [fourth.coefficient(v, [0]) for v in range(5)] == [0, 0, 0, 0, 1] and fourth.answer({"a": 7}, [0]) == (1, 4)
    less = Predicate("f", "a: num, b: num", "sign a.t - b.t;", {"num": {"t": (-9, 9)}}, {})
    for graded in (False, True):
        assert less.answer({"a": 7, "b": 3}, [4, 1], graded) == (3, 0) and less.answer({"a": 7, "b": 3}, [4, 4], graded) == (-1, 1)
    param = Predicate("f", "a: num, c: param", "sign c;", {"num": {"t": (-9, 9)}}, {"c": (-9, 9)})
    assert param.answer({"a": 7}, [4, 0]) == (0, None)


def random_rows(draw, predicate, inputs):
    """the text of rows, one for each order of four sites, and for each of both orders of infinitesimals what decides them, and their lines"""
    letters = list(dict.fromkeys(name[0] for name in inputs[:4]))
    text, deciders, lines = ",".join(predicate.columns) + "\n", [[], []], ["", ""]
    for order in range(24):
        index = [0, 7, 1000000007, 2 ** 63 - 1]
        for i, j in ((0, order % 4), (1, 1 + order // 4 % 3), (2, 2 + order // 12 % 2)):
            index[i], index[j] = index[j], index[i]
        index, row = dict(zip(letters, index)), dict(zip(inputs, draw.values()))
        text += ",".join(str(index[c] if c in index else row[c]) for c in predicate.columns) + "\n"
        values = [row[v[0]] for v in predicate.variables]
        for graded in (0, 1):
            sign, place = predicate.answer(index, values, graded == 1)
            deciders[graded].append("F" if predicate.decides(values) else "-" if place is None else place)
            lines[graded] += f"{'+' if sign > 0 else '-' if sign < 0 else '0'} {deciders[graded][-1]}\n"
    return text, deciders, lines


def random_predicates(program, folder, seed, count):
    """the same expressions and rows at each run, and so the same counts"""
    worked()
    draw, of = Draw(int(seed)), collections.Counter()
    by = [collections.Counter(), collections.Counter()]
    source, table = pathlib.Path(folder, "random.ln"), pathlib.Path(folder, "random.csv")

    def says(command, *required):
        said = subprocess.run([program, command, source, "f", table], capture_output=True, text=True)
        assert (said.returncode, said.stdout, said.stderr) == required, (source.read_text(), table.read_text(), command, said, required)

    for head, inputs in SHAPES * int(count):
        parts = draw.expression()
        source.write_text(f"{head} {{{text_of(parts, inputs)} }}\n")
        predicate = read(source)["f"]
        place = {v[0]: Poly({1 << BITS * n: 1}) for n, v in enumerate(predicate.variables)}
        assert predicate.poly == value_of(parts, [place[name] for name in inputs])
        if not predicate.poly:
            table.write_text("")
            says("run", 1, "", "error zero 2:11\n")
            of["that are 0 everywhere"] += 1
            continue
        text, deciders, lines = random_rows(draw, predicate, inputs)
        table.write_text(text)
        says("run", 0, lines[0], "")
        says("graded", 0, lines[1], "")
        of["predicates"] += 1
        of["with equal parts"] += repeats(parts)
        of["that differ by total degree"] += lines[0] != lines[1]
        by = [all_ + collections.Counter(here) for all_, here in zip(by, deciders)]
    print(", ".join(f"{of[kind]} {kind}" for kind in ("predicates", "with equal parts", "that differ by total degree", "that are 0 everywhere")))
    for name, counts in zip(("run", "graded"), by):
        kinds = sorted(counts, key=lambda kind: (isinstance(kind, int), kind))
        print(f"rows by {name}:", ", ".join(f"{counts[kind]} {kind if isinstance(kind, str) else f'at {kind}'}" for kind in kinds))


TOKEN = re.compile(r"\s+|//[^\n]*|(\w+|\.\.|[{}():;,.+*^=-])")
count_tokens = lambda text: sum(t.group(1) is not None for t in TOKEN.finditer(text))
LONG = 32


def long_name(word, k):
    return f"{word}_{k}_".ljust(LONG, "abcdefghijklmnopqrstuvwxyz"[k % 26])


def largest_predicate(k, inputs, draw):
    """predicate k: 64 lets that are sums of differences of inputs, and products of them; so many inputs, and 1,056 operands in all"""
    arguments = [(long_name("site", i), long_name("type", (k + i) % 16)) for i in range(5)]
    params = [long_name("param", (k + i) % 16) for i in range(8)]
    coords = [[long_name(f"c{(k + i) % 16}", (3 * k + j) % 32) for j in range(2)] for i in range(5)]
    lets, left = [], inputs
    for i in range(64):
        here = left // (64 - i)
        left -= here
        body = ""
        for j in range(here):
            s = draw.randrange(5)
            one = f"{arguments[s][0]}.{coords[s][i % 2]}"
            body += f"({one})" if j == 0 else draw.choice([" + ", " - "]) + one
        lets.append((long_name("let", i), body))
    singles = 1056 - inputs
    parts = [f"{lets[2 * i][0]}*{lets[2 * i + 1][0]}" for i in range(32)]
    parts += [f"{c}*{lets[8 * i + 1][0]}" for i, c in enumerate(params)]
    while 2 * len(parts) + 1 < singles:
        i = draw.randrange(32)
        parts.append(f"{lets[2 * i][0]}*{lets[2 * draw.randrange(32) + 1][0]}")
    sign = "-" + parts[0] + "".join(draw.choice([" + ", " - "]) + part for part in parts[1:]) + (" + 0" if singles % 2 else "")
    head = ", ".join([f"{a}: {t}" for a, t in arguments] + [f"{c}: param" for c in params])
    return f"predicate {long_name('predicate', k)}({head}) {{\n" + "".join(f"let {name} = {body};\n" for name, body in lets) + f"sign {sign};\n}}\n"


def largest():
    draw = random.Random(1)
    text = ""
    for k in range(16):
        text += f"site {long_name('type', k)} {{\n" + "".join(f"{long_name(f'c{k}', j)}: {-2 ** 40 + k} .. {2 ** 40 - j};\n" for j in range(32)) + "}\n"
        text += f"param {long_name('param', k)}: {-k} .. {2 ** 20 + k};\n"
    left = 65536 - count_tokens(text)
    for k in range(16):
        # an input takes two tokens more than what stands in its place
        fewest = count_tokens(largest_predicate(k, 600, draw))
        one = largest_predicate(k, 600 + (left // (16 - k) - fewest) // 2, draw)
        left -= count_tokens(one)
        text += one
    # what is left of the tokens goes to parentheses and to a minus sign before a 0; what is left of the bytes to a comment
    if left % 2:
        text = text.replace(": 0 .. ", ": -0 .. ", 1)
    at = text.rindex("sign ") + 5
    text = text[:at] + "(" * (left // 2) + text[at:-4] + ")" * (left // 2) + text[-4:]
    text += "//".ljust(2 ** 20 - len(text) - 1, "x") + "\n"
    assert len(text) == 2 ** 20 and count_tokens(text) == 65536, (len(text), count_tokens(text))
    print(text, end="")


if __name__ == "__main__":
    commands = {"largest": largest, "product": product, "check": check, "run": run, "graded": graded, "gen": gen, "rows": rows}
    {**commands, "random": random_predicates}[sys.argv[1]](*sys.argv[2:])
