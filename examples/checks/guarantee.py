#!/usr/bin/env python3
"""What `run` writes at the head of its lines, by the definitions of crates/ln_top/specs/Guarantee.antt, which this plain program follows in their order and
under their names, with those of csv, ln_base and ln_algebra that they name. A relation that says something of words is a function that yields whatever they
say; that a source declares its predicates in two ways, or in none, is told. It shares no code with lnc, nor with the other checks. Usage:

guarantee.py FILE NAME ROWS    for each record after the columns' names the byte of its perturbed sign, + - or 0, in a line of its own; of a record that
                               is no row in range, or has an index twice, the definitions say nothing of the line: `?`"""
import functools
import sys
from collections import namedtuple
from pathlib import Path

sys.setrecursionlimit(100_000)


# ---- letters and numbers: ln_base, specs/Words.antt and specs/Decimal.antt
KEYWORDS = [b"site", b"param", b"predicate", b"let", b"sign"]


def is_digit(b):
    return 48 <= b <= 57


def is_letter(b):
    return 97 <= b <= 122 or 65 <= b <= 90 or b == 95


def is_word(text):
    return text != b"" and is_letter(text[0]) and all(is_letter(b) or is_digit(b) for b in text)


def is_name(text):
    return is_word(text) and text not in KEYWORDS


def is_digits(ds):
    return ds != b"" and all(is_digit(d) for d in ds)


def decimal_value(ds):
    return sum((d - 48) * 10 ** (len(ds) - 1 - i) for i, d in enumerate(ds))


def natural_value(ds):
    return decimal_value(ds) if is_digits(ds) else None


def integer_value(text):
    n = natural_value(text[1:] if text[:1] == b"-" else text)
    return None if n is None else -n if text[:1] == b"-" else n


# ---- words
SIGNS = [b".."] + [bytes([b]) for b in b"{}():;,.+-*^="]


def is_source_word(w):
    return is_word(w) or is_digits(w) or w in SIGNS


def HasWords(source):
    """The words of the bytes, or None where they have none."""
    words, at = [], 0
    while at < len(source):
        if source[at] in b" \t\n\r":
            at += 1
        elif source[at:at + 2] == b"//":
            end = source.find(b"\n", at) if b"\n" in source[at:] else len(source)
            if not all(b < 128 for b in source[at:end]):
                return None
            at = end
        else:
            # (what a word begins with is a word too, so the longest is reached where the next byte makes none)
            end = at
            while end < len(source) and is_source_word(source[at:end + 1]):
                end += 1
            if end == at:
                return None
            words.append(source[at:end])
            at = end
    return tuple(words)


# ---- expressions: the trees of ln_algebra, specs/Tree.antt
Num, Input, Neg = namedtuple("Num", "value"), namedtuple("Input", "v"), namedtuple("Neg", "e")
Add, Sub, Mul, Pow = (namedtuple(name, "e f") for name in ("Add", "Sub", "Mul", "Pow"))
Atom, Power, Unary, Term, Sum = range(5)


def SaysTree(scope, level, words):
    """The expressions that the words are, where names stand for what the scope lists: for each rule of the level what it gives."""
    @functools.lru_cache(maxsize=None)
    def says(level, ws):
        return list(rules(level, ws))

    def rules(level, ws):
        if level == Atom:
            if len(ws) == 1 and is_digits(ws[0]):
                yield Num(decimal_value(ws[0]))
            yield from (e for name, e in scope if name == ws)
            if len(ws) > 2 and ws[0] == b"(" and ws[-1] == b")":
                yield from says(Sum, ws[1:-1])
        if level == Power:
            yield from says(Atom, ws)
            if len(ws) > 2 and ws[-2] == b"^" and is_digits(ws[-1]):
                yield from (Pow(e, decimal_value(ws[-1])) for e in says(Atom, ws[:-2]))
        if level == Unary:
            yield from says(Power, ws)
            if len(ws) > 1 and ws[0] == b"-":
                yield from (Neg(e) for e in says(Unary, ws[1:]))
        if level == Term:
            yield from says(Unary, ws)
            yield from joined(Mul, b"*", Term, Unary, ws)
        if level == Sum:
            yield from says(Term, ws)
            yield from joined(Add, b"+", Sum, Term, ws)
            yield from joined(Sub, b"-", Sum, Term, ws)

    def joined(tree, sign, left, right, ws):
        for i in range(1, len(ws) - 1):
            if ws[i] == sign:
                for f in says(right, ws[i + 1:]):
                    yield from (tree(e, f) for e in says(left, ws[:i]))

    return says(level, words)


# ---- items
Ranged, SiteType = namedtuple("Ranged", "name lo hi"), namedtuple("SiteType", "name coords")
OfType, OfParam = namedtuple("OfType", "name type"), namedtuple("OfParam", "param")
Predicate = namedtuple("Predicate", "name args root")


def parted(words, *signs):
    """The words before the first of these that is there and the words after it, or nothing. No range, argument, let or expression has the word that ends it."""
    for i in range(len(words) - len(signs) + 1):
        if words[i:i + len(signs)] == signs:
            yield words[:i], words[i + len(signs):]
            return


def IsEnd(words):
    if len(words) == 1 and is_digits(words[0]):
        yield decimal_value(words[0])
    if len(words) == 2 and words[0] == b"-" and is_digits(words[1]):
        yield -decimal_value(words[1])


def AreRanged(words):
    if not words:
        yield ()
    if len(words) > 2 and is_name(words[0]) and words[1] == b":":
        for low, rest in parted(words[2:], b".."):
            for high, more in parted(rest, b";"):
                for lo in IsEnd(low):
                    for hi in IsEnd(high):
                        yield from ((Ranged(words[0], lo, hi), *rs) for rs in AreRanged(more))


def IsArgument(types, params, name, kind):
    if is_name(name):
        yield from (OfType(name, t) for t in types if t.name == kind)
    if kind == b"param":
        yield from (OfParam(p) for p in params if p.name == name)


def AreArguments(types, params, words):
    if len(words) >= 4 and words[1] == b":":
        for a in IsArgument(types, params, words[0], words[2]):
            if words[3:] == (b")",):
                yield (a,)
            if words[3] == b",":
                yield from ((a, *rest) for rest in AreArguments(types, params, words[4:]))


def inputs(args):
    names = []
    for a in args:
        names += [(a.name, b".", c.name) for c in a.type.coords] if isinstance(a, OfType) else [(a.param.name,)]
    return names


def numbered_inputs(v, names):
    return [(name, Input(v + i)) for i, name in enumerate(names)]


def AreLets(scope, words):
    """The scope after the lets."""
    if not words:
        yield scope
    if len(words) > 3 and words[0] == b"let" and is_name(words[1]) and words[2] == b"=":
        for ws, rest in parted(words[3:], b";"):
            for e in SaysTree(scope, Sum, ws):
                yield from AreLets([((words[1],), e), *scope], rest)


def AreItems(types, params, words):
    """The predicates that the items declare, after these site types and params."""
    if not words:
        yield ()
    if words[:1] == (b"site",) and len(words) > 2 and is_name(words[1]) and words[2] == b"{":
        for ws, rest in parted(words[3:], b"}"):
            for coords in AreRanged(ws):
                if ws:
                    yield from AreItems([SiteType(words[1], coords), *types], params, rest)
    if words[:1] == (b"param",):
        for ws, rest in parted(words[1:], b";"):
            for (p,) in AreRanged((*ws, b";")):
                yield from AreItems(types, [p, *params], rest)
    if words[:1] == (b"predicate",) and len(words) > 2 and is_name(words[1]) and words[2] == b"(":
        for arguments, body in parted(words[3:], b"{"):
            for lets, sign in parted(body, b"sign"):
                for ws, rest in parted(sign, b";", b"}"):
                    for args in AreArguments(types, params, arguments):
                        for scope in AreLets(numbered_inputs(0, inputs(args)), lets):
                            for root in SaysTree(scope, Sum, ws):
                                yield from ((Predicate(words[1], args, root), *ps) for ps in AreItems(types, params, rest))


def SourceDeclares(source):
    words = HasWords(source)
    if words is not None:
        yield from AreItems([], [], words)


# ---- rows: the records by csv, specs/Machine.antt with its default settings
def in_field(c):
    return ("StartField", "EndField") if c == 44 else ("AfterCr", "EndRecord") if c == 13 else ("StartRecord", "EndRecord") if c == 10 else ("InField", "Copy")


def start_field(c):
    return ("InQuoted", "Skip") if c == 34 else in_field(c)


def step(state, c):
    if state == "StartRecord" or state == "AfterCr":
        return ("StartRecord", "Skip") if c in (10, 13) else start_field(c)
    if state == "StartField":
        return start_field(c)
    if state == "InQuoted":
        return ("AfterQuote", "Skip") if c == 34 else ("InQuoted", "Copy")
    if state == "AfterQuote" and c == 34:
        return "InQuoted", "Copy"
    return in_field(c)


def records_in(text):
    """The records after a byte order mark."""
    found, fields, field, state = [], [], [], "StartRecord"
    for c in text[3:] if text[:3] == b"\xef\xbb\xbf" else text:
        state, action = step(state, c)
        if action == "Copy":
            field.append(c)
        if action in ("EndField", "EndRecord"):
            fields.append(bytes(field))
            field = []
        if action == "EndRecord":
            found.append(fields)
            fields = []
    return found if state in ("StartRecord", "AfterCr") else [*found, [*fields, bytes(field)]]


def columns_of_arguments(args):
    names = []
    for a in args:
        names += [a.name, *(a.name + b"." + c.name for c in a.type.coords)] if isinstance(a, OfType) else [a.param.name]
    return names


def AreValues(ranged, fields):
    """The values of the fields, or None."""
    zs = [integer_value(f) for f in fields]
    fit = len(ranged) == len(fields) and all(z is not None and r.lo <= z <= r.hi for r, z in zip(ranged, zs))
    return zs if fit else None


def AreRowFields(args, fields):
    """The indices of the sites and the values of all variables, or None."""
    ns, zs = [], []
    for a in args:
        ranged = a.type.coords if isinstance(a, OfType) else (a.param,)
        if isinstance(a, OfType):
            n, fields = natural_value(fields[0]) if fields else None, fields[1:]
            if n is None or n >= 2 ** 63:
                return None
            ns.append(n)
        values, fields = AreValues(ranged, fields[:len(ranged)]), fields[len(ranged):]
        if values is None:
            return None
        zs += values
    return None if fields else (ns, zs)


# ---- coefficients: ln_algebra, specs/Vector.antt and specs/Coefficient.antt
def is_zero(a):
    return all(n == 0 for n in a)


def is_unit(v, a):
    return all(n == (1 if w == v else 0) for w, n in enumerate(a))


def splits(a):
    if not a:
        return [((), ())]
    return [((k, *b), (a[0] - k, *c)) for k in range(a[0] + 1) for b, c in splits(a[1:])]


def constant(c):
    return lambda a: c if is_zero(a) else 0


def variable(perturbed, v, x):
    return lambda a: x if is_zero(a) else 1 if perturbed and is_unit(v, a) else 0


def product(f, g):
    return lambda a: sum(f(b) * g(c) for b, c in splits(a))


def power(f, n):
    return product(power(f, n - 1), f) if n else constant(1)


def coefficient(p, x, e):
    """The series of an expression: its coefficient for each vector."""
    if isinstance(e, Num):
        return constant(e.value)
    if isinstance(e, Input):
        return variable(p(e.v), e.v, x[e.v])
    f = coefficient(p, x, e.e)
    if isinstance(e, Neg):
        return lambda a: -f(a)
    if isinstance(e, Pow):
        return power(f, e.f)
    g = coefficient(p, x, e.f)
    return {Add: lambda a: f(a) + g(a), Sub: lambda a: f(a) - g(a), Mul: product(f, g)}[type(e)]


def degree_of(e):
    if isinstance(e, (Num, Input)):
        return 0 if isinstance(e, Num) else 1
    if isinstance(e, Neg):
        return degree_of(e.e)
    if isinstance(e, Pow):
        return e.f * degree_of(e.e)
    return (sum if isinstance(e, Mul) else max)((degree_of(e.e), degree_of(e.f)))


# ---- the order, and the sign: ln_algebra, specs/Earlier.antt and specs/Sign.antt
Sites = namedtuple("Sites", "site index")  # of each variable its site or None, and of each site its index


def RanksBefore(sites, v, w):
    s, t = sites.site[v], sites.site[w]
    return s is not None and t is not None and (sites.index[s] < sites.index[t] or s == t and w < v)


def Earlier(sites, a, b):
    all_of = range(len(a))
    return any(sites.site[v] is not None and a[v] < b[v] and all(a[w] == b[w] for w in all_of if RanksBefore(sites, v, w)) for v in all_of)


def vectors(n, sites, most):
    """Each vector over the variables of sites, of at most this total degree, in order: a smaller infinitesimal counts before a larger one."""
    moved = [v for v in range(n) if sites.site[v] is not None]
    from_the_smallest = sorted(moved, key=lambda v: sum(RanksBefore(sites, v, w) for w in moved))

    def with_exponents(a, left, variables):
        if not variables:
            yield tuple(a)
            return
        for k in range(left + 1):
            yield from with_exponents([k if v == variables[0] else m for v, m in enumerate(a)], left - k, variables[1:])

    before = None
    for a in with_exponents([0] * n, most, from_the_smallest):
        assert before is None or Earlier(sites, before, a), "the vectors aren't in order"
        yield a
        before = a


def sign_of(z):
    return (z > 0) - (z < 0)


def IsPerturbedSign(n, sites, x, e):
    """The sign of the first coefficient that isn't 0, or 0 where all are."""
    perturbed = coefficient(lambda v: sites.site[v] is not None, x, e)
    return next((sign_of(perturbed(a)) for a in vectors(n, sites, degree_of(e)) if perturbed(a) != 0), 0)


# ---- signs
def sites_after(s, args):
    sites = []
    for a in args:
        if isinstance(a, OfType):
            sites, s = sites + [s] * len(a.type.coords), s + 1
        else:
            sites.append(None)
    return sites


def HasSign(p, ns, zs):
    sites = sites_after(0, p.args)
    return IsPerturbedSign(len(sites), Sites(sites, ns), zs, p.root)


IsByteOf = {1: "+", -1: "-", 0: "0"}


def BeginsWithSign(p, ns, zs):
    sign = HasSign(p, ns, zs)
    assert sign != 0 or None in sites_after(0, p.args), "a predicate without params has the sign 0"
    return IsByteOf[sign]


# ---- `run`
def AreSignLines(p, records):
    for fields in records:
        row = AreRowFields(p.args, fields)
        yield BeginsWithSign(p, *row) if row and len(set(row[0])) == len(row[0]) else "?"


def RunWritesSigns(file, name, rows):
    declared = list(SourceDeclares(Path(file).read_bytes()))
    if len(declared) != 1:
        sys.exit(f"the source declares predicates in {len(declared)} ways")
    named = [p for p in declared[0] if p.name == name.encode()]
    if len(named) != 1:
        sys.exit(f"the source declares {len(named)} predicates of this name")
    records = records_in(Path(rows).read_bytes())
    if records[:1] != [columns_of_arguments(named[0].args)]:
        sys.exit("the first record isn't the names of the columns")
    return AreSignLines(named[0], records[1:])


if __name__ == "__main__":
    for line in RunWritesSigns(*sys.argv[1:]):
        print(line)
