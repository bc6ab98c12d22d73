"""The ready-made predicates, and headers over C of one order, beside `lnc run` and beside exact integers. Usage, at the top of the repository:

predicates.py signs LNC PREFIX FAMILY COUNT    COUNT rows for the family's predicates together, of which every second is near 0: the library's signs,
                                               from Python by whole batches, are those that the program LNC prints, and its plain signs are those of
                                               the source's expression over Python's integers; and so are those of the calls over points
predicates.py orders LNC FOLDER NAME..         of NAME.ln, NAME.c and lnc_NAME.h in FOLDER, for each NAME: rows in every order of their indices, three in four
                                               degenerate, of the predicates whose C is of one order: the header's calls, by gcc and by clang with
                                               sanitizers, have the signs that the program LNC prints, and call the C where indices rise
predicates.py meanings PREFIX [FAMILY]         what + means: signs of a table by hand, of the ready-made families or of one beside them
predicates.py rust                             the Rust crate has the predicates, arguments and ranges of the sources"""
import ctypes
import itertools
import math
import random
import re
import shutil
import subprocess
import sys
import tempfile
from pathlib import Path

sys.dont_write_bytecode = True
sys.path.insert(0, "predicates")
import header  # noqa: E402

FAMILIES = ["plane", "space", "weighted_plane", "weighted_space", "segments"]

# a predicate, its sites without indices, and the sign at the points themselves
MEANINGS = [
    ("orient2", "0,0 1,0 0,1", 1),
    ("incircle", "0,0 4,0 0,4 1,1", 1),
    ("incircle", "0,0 4,0 0,4 4,4", 0),
    ("incircle", "0,0 0,4 4,0 1,1", -1),
    ("diametral2", "0,0 4,0 1,1", 1),
    ("diametral2", "0,0 4,0 1,5", -1),
    ("compare_x2", "1,0 0,9", 1),
    ("compare_y2", "1,0 0,9", -1),
    ("lexicographic2", "1,-9 0,9", 1),
    ("lexicographic2", "1,0 1,9", -1),
    ("orient3", "0,0,0 0,1,0 1,0,0 0,0,1", 1),
    ("insphere", "0,0,0 0,4,0 4,0,0 0,0,4 1,1,1", 1),
    ("insphere", "0,0,0 0,4,0 4,0,0 0,0,4 4,4,4", 0),
    ("insphere", "0,0,0 0,4,0 4,0,0 0,0,4 5,4,4", -1),
    ("diametral3", "0,0,0 4,0,0 1,1,1", 1),
    ("compare_z3", "0,0,1 0,0,0", 1),
    ("lexicographic3", "1,-8388608,0 0,8388608,0", 1),
    ("lexicographic3", "1,1,0 1,1,1", -1),
    ("worient2", "0,0,5 1,0,0 0,1,7", 1),
    ("power2", "0,0,0 4,0,0 0,4,0 1,1,0", 1),
    ("power2", "0,0,0 4,0,0 0,4,0 4,4,0", 0),
    ("power2", "0,0,0 4,0,0 0,4,0 4,4,1", 1),
    ("power2", "0,0,0 4,0,9 0,4,0 4,4,1", -1),
    ("wcompare_w2", "0,0,2 0,0,1", 1),
    ("worient3", "0,0,0,9 0,1,0,0 1,0,0,0 0,0,1,0", 1),
    ("power3", "0,0,0,0 0,4,0,0 4,0,0,0 0,0,4,0 1,1,1,0", 1),
    ("power3", "0,0,0,0 0,4,0,0 4,0,0,0 0,0,4,0 4,4,4,0", 0),
    ("power3", "0,0,0,0 0,4,0,0 4,0,0,0 0,0,4,0 4,4,4,1", 1),
    ("side_a2", "0,0,4,0 1,1,1,-1", 1),
    ("side_b2", "0,0,4,0 1,1,1,-1", -1),
    ("turn2", "0,0,4,0 1,-1,1,1", 1),
    ("crossings2", "0,0,9,0 3,-1,3,1 2,-1,2,1", 1),
    ("crossings2", "0,0,9,0 3,1,3,-1 2,-1,2,1", -1),
    # p at 0: q is farther than r, as far, nearer
    ("compare_distance2", "0,0 3,4 4,2", 1),
    ("compare_distance2", "0,0 3,4 5,0", 0),
    ("wcompare_distance2", "0,0,9 3,4,0 6,0,0", -1),
    ("compare_distance3", "1,1,1 4,1,1 2,2,2", 1),
    ("wcompare_distance3", "1,1,1,9 2,2,2,0 4,1,1,0", -1),
    # powers 25 - 5 and 36 - 18; 25 - 5 and 36 - 16
    ("compare_power2", "0,0,7 3,4,5 6,0,18", 1),
    ("compare_power2", "0,0,7 3,4,5 6,0,16", 0),
    ("compare_power3", "0,0,0,7 3,4,0,6 6,0,0,16", -1),
    # acute, right, obtuse
    ("dot2", "0,0 5,1 2,2 3,2", 1),
    ("dot2", "0,0 5,0 2,2 2,3", 0),
    ("wdot2", "0,0,1 5,1,2 2,2,3 1,2,4", -1),
    ("dot3", "0,0,0 1,1,1 0,0,0 1,1,-1", 1),
    ("wdot3", "0,0,0,5 1,1,1,4 0,0,0,3 1,-1,-1,2", -1),
    # to the left of the x axis
    ("compare_line2", "0,0 9,0 4,3 7,2", 1),
    ("compare_line2", "0,0 9,0 4,-3 7,2", -1),
    ("wcompare_line2", "0,0,1 9,0,2 4,3,3 7,3,4", 0),
    # a triangle in the plane z = x
    ("coplanar_xy", "0,0,0 1,0,1 0,1,0", 1),
    ("coplanar_yz", "0,0,0 1,0,1 0,1,0", -1),
    ("coplanar_zx", "0,0,0 1,0,1 0,1,0", 0),
    ("wcoplanar_xy", "0,0,0,9 1,0,1,8 0,1,0,7", 1),
    ("wcoplanar_yz", "0,0,0,1 0,1,0,2 0,0,1,3", 1),
    ("wcoplanar_zx", "0,0,0,1 0,0,1,2 1,0,0,3", 1),
]

# the line y = 1 meets the bisector x = 2 of p and a at (2, 1), which is nearer to p than to b at (0, 10), and as near as to b at (0, 2)
BISECTORS = [
    ("bisector_side2", "0,0 4,0 0,10 0,1 10,1", 1),
    ("bisector_side2", "0,0 4,0 0,10 10,1 0,1", -1),
    ("bisector_side2", "0,0 4,0 0,2 0,1 10,1", 0),
    ("bisector_side2", "0,0 4,0 0,1 0,1 10,1", -1),
    ("bisector_dot2", "0,0 4,0 0,1 10,1", 1),
    ("bisector_dot2", "0,0 4,0 10,1 0,1", -1),
]

# above the xy plane, in which p, q, r turn counterclockwise, and then clockwise; as far above it
PLANES = [
    ("compare_plane3", "0,0,0 1,0,0 0,1,0 5,5,3 9,9,2", 1),
    ("compare_plane3", "0,0,0 0,1,0 1,0,0 5,5,3 9,9,2", -1),
    ("compare_plane3", "0,0,0 1,0,0 0,1,0 5,5,3 9,9,3", 0),
]


def library(prefix):
    sys.path.insert(0, prefix + "/share/lnc_predicates")
    import lnc_predicates
    return lnc_predicates.load()


def expression(text, name):
    """The source's expression as a function of a row's values: an integer of Python."""
    body = re.search(rf"\bpredicate {name}\([^)]*\)\s*\{{(.*?)\}}", header.COMMENT.sub("", text), flags=re.S)[1]
    lets = re.findall(r"let (\w+) = ([^;]*);", body)
    sign = re.search(r"\bsign ([^;]*);", body)[1]
    python = "\n".join(f"{left} = {right}" for left, right in [*lets, ("result", " ".join(sign.split()))])
    code = compile(re.sub(r"\b([a-z])\.(\w+)", r"\1_\2", python.replace("^", "**")), name, "exec")
    names = [f"{argument}_{c}" if c else argument for argument, c in header.Source(text).values(name)]

    def value(row):
        scope = dict(zip(names, row))
        exec(code, {"__builtins__": {}}, scope)
        return scope["result"]
    return value


def row(source, name, near):
    """Indices and values of a row: near 0, or of the whole range with its ends."""
    least = random.choice((0, 2**63 - 9))
    x = [least + number for number in random.sample(range(9), len(source.indices(name)))]
    ends = [(it.low, it.high) for _, kind in source.predicates[name] for _, it in source.sites[kind]]
    if near:
        return x, [random.randint(max(low, -2), min(high, 2)) for low, high in ends]
    return x, [random.choice((low, high)) if random.random() < 0.1 else random.randint(low, high) for low, high in ends]


def run_signs(lnc, path, source, name, rows):
    """The signs that `lnc run` prints for rows of indices and values."""
    columns = []
    for argument, c in source.values(name):
        if c and (argument, False) not in columns:
            columns.append((argument, False))
        columns.append((f"{argument}.{c}" if c else argument, True))
    with tempfile.NamedTemporaryFile("w", suffix=".csv") as file:
        file.write(",".join(column for column, _ in columns) + "\n")
        for row_x, row_v in rows:
            x, v = iter(row_x), iter(row_v)
            file.write(",".join(str(next(v if is_value else x)) for _, is_value in columns) + "\n")
        file.flush()
        said = subprocess.run([lnc, "run", path, name, file.name], capture_output=True, text=True, check=True).stdout.split("\n")[:-1]
    return ["-0+".index(line[0]) - 1 for line in said]


def over_points(calls, name, sites):
    """The calls of C that take points, which have code of their own: of a row the two signs."""
    def ask(row):
        points = [(ctypes.c_int64 * len(site))(*site) for site in row]
        return [call(*map(ctypes.byref, points)) for call in asked]
    asked = [getattr(calls.library, f"ln_{name}{end}") for end in ("_at", "_plain_at")]
    for call in asked:
        call.argtypes = [ctypes.c_void_p] * sites
    return ask


def signs(lnc, prefix, family, count):
    path, calls = Path("predicates", family + ".ln"), library(prefix)
    text = path.read_text()
    source, total, wrong = header.Source(text), 0, 0
    random.seed(family)
    names = list(source.predicates)
    for i, name in enumerate(names):
        rows = [row(source, name, k % 2) for k in range(int(count) * (i + 1) // len(names) - int(count) * i // len(names))]
        width = len(source.values(name)) // len(source.indices(name))
        run, call = run_signs(lnc, path, source, name, rows), getattr(calls, name)
        got = call.rows([x for x, _ in rows], [v for _, v in rows])
        value, at = expression(text, name), over_points(calls, name, len(source.indices(name)))
        for (x, v), wanted, sign in zip(rows, run, got, strict=True):
            exact, sites = value(v), [(index, *v[width * k:width * (k + 1)]) for k, index in enumerate(x)]
            plain = call.plain(*sites)
            total += 1
            wrong += (wanted != sign or plain != (exact > 0) - (exact < 0) or sign == 0 or (plain != 0 and plain != sign)
                      or at(sites) != [sign, plain])
    print(f"{total} rows, {wrong} wrong")


# reads rows and prints the signs of the calls by arrays, by rows and over points; calls that check pass on to the others
DRIVER = """#define LNC_CHECKED
#define LNC_{upper}_IMPLEMENTATION
#include "lnc_{stem}.h"
#include <inttypes.h>
#include <stdio.h>
#include <string.h>

static int numbers(int64_t *to, int n) {{
  for (int k = 0; k < n; k++)
    if (scanf("%" SCNd64, &to[k]) != 1) return 0;
  return 1;
}}
{functions}
int main(int argc, char **argv) {{
  if (argc != 2) return 2;
{asked}
  return 0;
}}
"""
FUNCTION = """
static void p_{name}(void) {{
  int64_t x[{sites}], v[{values}];
  while (numbers(x, {sites}) && numbers(v, {values})) {{
    int8_t sign;
    ln_{name}_rows(1, x, v, &sign);
{points}
    printf("%d %d %d\\n", ln_{name}(x, v), sign, ln_{name}_at({passed}));
  }}
}}
"""
SANITIZED = {compiler: f"-O0 -fsanitize={those},undefined -fno-sanitize-recover=all" for compiler, those in (("gcc", "address"), ("clang", "memory"))}


def driver(stem, source, names):
    """The C program of these predicates."""
    functions = []
    for name in names:
        sites, values, points = source.indices(name), source.values(name), []
        for argument, kind in source.predicates[name]:
            at = [f"v[{k}]" for k, (owner, _) in enumerate(values) if owner == argument]
            points.append(f"    const int64_t {argument} = {at[0]};" if kind == "param" else
                          f"    const ln_{kind} {argument} = {{x[{sites.index(argument)}], {', '.join(at)}}};")
        passed = ", ".join(a if kind == "param" else "&" + a for a, kind in source.predicates[name])
        functions.append(FUNCTION.format(name=name, sites=len(sites), values=len(values), points="\n".join(points), passed=passed))
    asked = "\n".join(f'  if (!strcmp(argv[1], "{name}")) p_{name}();' for name in names)
    return DRIVER.format(upper=stem.upper(), stem=stem, functions="".join(functions), asked=asked)


def places(source, name):
    """The places of each site's values in a row."""
    return [[k for k, (owner, _) in enumerate(source.values(name)) if owner == site] for site in source.indices(name)]


def ranges(source, name):
    kinds = dict(source.predicates[name])
    return [(it.low, it.high) for it in (dict(source.sites[kinds[a]])[c] if c else source.params[a] for a, c in source.values(name))]


def degenerate(source, name, value, are_equal):
    """Values whose plain value is 0: small ones, or those at another place and in another size; on request all sites are at one place."""
    ends, sites, near = ranges(source, name), places(source, name), random.randint(1, 3)
    while True:
        v = [random.randint(max(low, -near), min(high, near)) for low, high in ends]
        for site in sites[1:] if are_equal else []:
            for k, first in zip(site, sites[0]):
                v[k] = v[first]
        if value(v) == 0:
            break
    size, most = random.randint(1, 4000), min(high for _, high in ends) // 2
    move = {c: random.randint(-most, most) for _, c in source.values(name)}
    far = [n * size ** (2 if c == "w" else 1) + move[c] if c else n for n, (_, c) in zip(v, source.values(name))]
    fits = all(low <= n <= high for n, (low, high) in zip(far, ends))
    return far if fits and random.random() < 0.5 and value(far) == 0 else v


def values(source, name, value, is_degenerate, are_equal=False):
    return degenerate(source, name, value, are_equal) if is_degenerate else [random.randint(low, high) for low, high in ranges(source, name)]


# small ones, large ones and all
INDICES = range(9), range(2**63 - 9, 2**63), range(2**63 - 1)


def in_every_order(source, name):
    """Rows of a predicate in every order of their indices: one in four is at random, and of one in eight all sites are at one place."""
    value, sites = expression(source.text, name), len(source.indices(name))
    for k in range(max(24, 2400 // math.factorial(sites))):
        v = values(source, name, value, k % 4 > 0, k % 8 == 1)
        for x in itertools.permutations(sorted(random.sample(random.choice(INDICES), sites))):
            yield x, v


def compared(lnc, folder, stem, rows, flags):
    """How many rows of the predicates of a source there are, and for how many a call of one of the compilers' programs has another sign."""
    path, program, wrong = Path(folder, stem + ".ln"), Path(folder, stem + "_program"), 0
    source = header.Source(path.read_text())
    wanted = {name: run_signs(lnc, path, source, name, its) for name, its in rows.items()}
    for compiler, own in flags.items():
        words = [compiler, "-std=gnu99", "-Wall", "-Wextra", "-Werror", *own.split(), "-I", folder, "-x", "c", "-", "-o", program]
        subprocess.run(words, input=driver(stem, source, list(rows)), text=True, check=True)
        for name, its in rows.items():
            given = "".join(f"{' '.join(map(str, (*x, *v)))}\n" for x, v in its)
            said = subprocess.run([program, name], input=given, capture_output=True, text=True, check=True).stdout.splitlines()
            differ = sum(line.split() != [str(sign)] * 3 for line, sign in zip(said, wanted[name], strict=True))
            wrong += differ
            if differ:
                print(f"{name} by {compiler}: {differ} of {len(its)} rows differ")
    program.unlink()
    return sum(map(len, rows.values())), wrong


def wary(code, source):
    """C of one order whose calls return 9 where the indices don't rise."""
    text = code.text
    for name in code.of_one_order():
        falls = " || ".join(f"x[{k}] >= x[{k + 1}]" for k in range(len(source.indices(name)) - 1))
        text = re.sub(rf"^int {code.entries[name]}_{name}\(.*$", rf"\g<0>\n  if ({falls}) {{ return 9; }}", text, flags=re.M)
    return text


def orders(lnc, folder, *stems):
    random.seed(1)
    total = []
    for stem in stems:
        with tempfile.TemporaryDirectory() as place:
            for name in (f"{stem}.ln", f"{stem}.c", f"lnc_{stem}.h"):
                shutil.copy(Path(folder, name), place)
            path = Path(place, stem + ".c")
            source = header.Source(path.with_suffix(".ln").read_text())
            code = header.Code(path, path.read_text(), source)
            path.write_text(wary(code, source))
            rows = {name: list(in_every_order(source, name)) for name in code.of_one_order()}
            total.append(compared(lnc, place, stem, rows, SANITIZED))
    print(f"{sum(rows for rows, _ in total)} rows, {sum(wrong for _, wrong in total)} wrong")


def meanings(prefix, family=None):
    calls, wrong, table = library(prefix), 0, {"bisectors": BISECTORS, "planes": PLANES}.get(family, MEANINGS)
    for name, sites, sign in table:
        got = getattr(calls, name).plain(*((k, *map(int, site.split(","))) for k, site in enumerate(sites.split())))
        if got != sign:
            print(f"{name} {sites}: {got}")
            wrong += 1
    unnamed = set(calls.names) - {name for name, _, _ in table}
    print(f"{len(table)} signs, {wrong} wrong, not in the table: {' '.join(sorted(unnamed))}")


def rust():
    text = Path("predicates/rust/src/lib.rs").read_text()
    for family in FAMILIES:
        source = header.Source(Path("predicates", family + ".ln").read_text())
        ranges, names = re.search(rf'"{family}" {family}: \w+ \d+ (\[.*\]);\n((?:.*\n)+?)\}}', text).groups()
        calls = {name: words.split() for name, words in re.findall(r"(\w+)\(([^)]*)\)", names)}
        (coordinates,) = source.sites.values()
        one, _, times = ranges[1:-1].partition("; ")
        ends = eval(f"[{one}]{' * ' + times if times else ''}", {})
        taken = {name: [a for a, _ in arguments] for name, arguments in source.predicates.items()}
        same = calls == taken and ends == [(it.low, it.high) for _, it in coordinates]
        print(f"{family}: {'the same' if same else 'NOT the same'}")


{"signs": signs, "orders": orders, "meanings": meanings, "rust": rust}[sys.argv[1]](*sys.argv[2:])
