"""predicates/header.py and bin/largest on sources and C that they have to refuse, with the lines that they print. Usage, at the top of the repository:

mesher.py refused LNC FOLDER    header.py writes nothing for each of these sources, and one line with the place; FOLDER is for files
mesher.py kept LNC FOLDER       and it writes for each of these, and gcc, clang, g++ and clang++ take what it writes without a warning
mesher.py calls LIBRARY         lnc_predicates.py over a library of plane: what its calls refuse, arrays of numpy too where this Python has it"""
import subprocess
import sys
from pathlib import Path

SITE, SIGN = "site s { x: -5 .. 5; }\n", "predicate f(p: s) { sign p.x; }\n"
# a source, the place at which it is refused, and what is said there
REFUSED = [
    # ranges are macros in capitals
    ("site s { x: -5 .. 5; X: -100 .. 100; }\n", "1:22", "coordinate s.X: the header's name LN_S_X is already taken: coordinate s.x, at 1:10"),
    ("site a_b { c: 0 .. 1; }\nsite a { b_c: 0 .. 9; }\n", "2:10", "coordinate a.b_c: the header's name LN_A_B_C is already taken: coordinate a_b.c, at 1:12"),
    (SITE + "param s_x: 0 .. 9;\n", "2:7", "param s_x: the header's name LN_S_X is already taken: coordinate s.x, at 1:10"),
    ("param c: 0 .. 1;\nparam C: 0 .. 9;\n", "2:7", "param C: the header's name LN_C is already taken: param c, at 1:7"),
    # names that meet
    (SITE + SIGN + "predicate f_plain(p: s) { sign p.x; }\n", "3:11", "predicate f_plain: the header's name ln_f_plain is already taken: predicate f, at 2:11"),
    (SITE + SIGN + "predicate f_rows(p: s) { sign p.x; }\n", "3:11", "predicate f_rows: the header's name ln_f_rows is already taken: predicate f, at 2:11"),
    (SITE + "predicate f_at(p: s) { sign p.x; }\n" + SIGN, "3:11", "predicate f: the header's name ln_f_at is already taken: predicate f_at, at 2:11"),
    (SITE + SIGN + "site f_plain { x: 0 .. 1; }\n", "3:6", "site f_plain: the header's name ln_f_plain is already taken: predicate f, at 2:11"),
    (SITE + "predicate s_in_range(p: s) { sign p.x; }\n", "2:11", "predicate s_in_range: the header's name ln_s_in_range is already taken: site s, at 1:6"),
    (SITE + "predicate in_range(p: s) { sign p.x; }\n", "2:11", "predicate in_range: the header's name lnc::in_range is already taken: the header's own"),
    (SITE + "predicate checked(p: s) { sign p.x; }\n", "2:11", "predicate checked: the header's name lnc::checked is already taken: the header's own"),
    (SITE + "predicate refusal(p: s) { sign p.x; }\n", "2:11", "predicate refusal: the header's name ln_refusal is already taken: the header's own"),
    # names of the header's own, and words of C and C++
    (SITE + "predicate f(x: s) { sign x.x; }\n", "2:13", "argument x: the arrays of indices and values have the names x and v. Give it another name"),
    (SITE + "predicate f(v: s) { sign v.x; }\n", "2:13", "argument v: the arrays of indices and values have the names x and v. Give it another name"),
    (SITE + "predicate f(s: s) { sign s.x; }\n", "2:13", "argument s: a site type has this name. Give it another name"),
    ("site s { index: 0 .. 1; }\n", "1:10", "coordinate index: the member for the index has this name. Give it another name"),
    ("site s { int: 0 .. 1; }\n", "1:10", "coordinate int: a word of C or C++, or one of their libraries'. Give it another name"),
    (SITE + "predicate f(this: s) { sign this.x; }\n", "2:13", "argument this: a word of C or C++, or one of their libraries'. Give it another name"),
    ("site class { x: 0 .. 1; }\n", "1:6", "site class: a word of C or C++, or one of their libraries'. Give it another name"),
    (SITE + "predicate operator(p: s) { sign p.x; }\n", "2:11", "predicate operator: a word of C or C++, or one of their libraries'. Give it another name"),
    ("site s { linux: 0 .. 1; }\n", "1:10", "coordinate linux: a word of C or C++, or one of their libraries'. Give it another name"),
    ("site s { INT64_MAX: 0 .. 1; }\n", "1:10", "coordinate INT64_MAX: a word of C or C++, or one of their libraries'. Give it another name"),
    (SITE + "predicate f(ln_f: s) { sign ln_f.x; }\n", "2:13", "argument ln_f: names that begin so are the header's. Give it another name"),
    ("site s { LN_S_Y_MAX: 0 .. 1; y: 0 .. 9; }\n", "1:10", "coordinate LN_S_Y_MAX: names that begin so are the header's. Give it another name"),
    # a comment that C would end
    (SITE + "// all of a*/b\n" + SIGN, "2:12", "the comment goes into one of C, where */ can't stand"),
    (SITE + "// and\n//   p/*q\n" + SIGN, "3:7", "the comment goes into one of C, where /* can't stand"),
    # what check refuses
    (SITE + "predicate f(p: s) { sign p.y; }\n", "2:28", "lnc check refuses the source: name (docs/LANGUAGE.md)"),
    ("site s { x: 0 .. 9.5; }\n", "1:19", "lnc check refuses the source: syntax (docs/LANGUAGE.md)"),
    (SITE + "predicate f(p: s) { sign p.x - p.x; }\n", "2:11", "lnc check refuses the source: zero (docs/LANGUAGE.md)"),
    (SITE + "\n   #", "3:4", "lnc check refuses the source: lexical (docs/LANGUAGE.md)"),
]
# of a source and the C beside it, where the C is refused
C = "#include <stdint.h>\n\nstatic int lb0_f(const int64_t *v) {\n  return ((int)v[0]);\n}\n\nint ln_f(const int64_t *x, const int64_t *v) {\n  return ((int)lb0_f(v));\n}\n"
REFUSED_C = [
    (SITE + SIGN, "", "1:1", "it isn't C that lnc_exact or `lnc emit` writes"),
    (SITE + SIGN, C.replace("lb0_f(const", "lb0_g(const"), "1:1", "it has no functions of the predicate f: it isn't the C of this source"),
    (SITE + SIGN, C.replace("v[0]", "v[1]"), "7:4", "ln_f reads more values or indices than f has: it isn't the C of this source"),
    (SITE, C, "7:4", "ln_f is no predicate of the source: it isn't the C of this source"),
    # C of one order: of two sites or more, which are alike; of a predicate with one function
    (SITE + SIGN, C.replace("ln_f", "la_f"), "7:4", "la_f exchanges sites that aren't alike: it isn't the C of this source"),
    (SITE + "site t { x: -5 .. 6; }\npredicate f(p: s, q: t) { sign p.x - q.x; }\n", C.replace("ln_f", "ls_f"), "7:4",
     "ls_f exchanges sites that aren't alike: it isn't the C of this source"),
    (SITE + SIGN, C + "\nint la_f(const int64_t *x, const int64_t *v) {\n  return ((int)lb0_f(v));\n}\n", "11:4", "la_f is no predicate of the source: it isn't the C of this source"),
]
# sources of which a header can be written, however they are spelled
KEPT = {
    "blanks": "site s { x:-\n5 .. 5; y : -3\n..\n- 2; }\nparam c:0..007;predicate f(p : s,\n c:param) { sign p.x*c; }\n// no comment of g\n\npredicate g(c: param) { sign c; }\n",
    "apart": "site s { p: 0 .. 9; s: 0 .. 9; f: 0 .. 1; row: 0 .. 1; sign: 0 .. 1; }\n".replace("sign:", "signs:")
             + "// a // b \\\n//* and **\npredicate f(n: s, i: s, signs: s, row: s) { sign n.p - i.s + signs.f - row.row; }\n",
    "large": "site s { x: -9223372036854775807 .. 9223372036854775807; }\npredicate f(p: s, q: s) { sign p.x - q.x; }\n",
}
COMPILERS = {"c": ["gcc -std=gnu99", "gcc -std=c11", "clang -std=gnu99"], "c++": ["g++ -std=c++11 -Wold-style-cast", "clang++ -std=c++17 -Wold-style-cast"]}


def headed(lnc, *files):
    return subprocess.run([sys.executable, "predicates/header.py", *files], capture_output=True, text=True, env={"LNC": lnc, "PATH": "/usr/bin:/bin"})


def refused(lnc, folder):
    wrong = 0
    source, code = Path(folder, "source.ln"), Path(folder, "source.c")
    cases = [(text, None, place, said) for text, place, said in REFUSED] + REFUSED_C
    for text, c, place, said in cases:
        source.write_text(text)
        code.write_text(c or "")
        run = headed(lnc, source, *([code] if c is not None else []))
        if (run.returncode, run.stdout, run.stderr) != (1, "", f"{source if c is None else code}:{place}: {said}\n"):
            print(f"{text!r}: status {run.returncode}, {len(run.stdout)} bytes, {run.stderr}")
            wrong += 1
    code.write_text(C.replace("ln_f", "la_f"))
    unnamed = headed(lnc, source)
    wrong += (unnamed.returncode, unnamed.stdout, unnamed.stderr) != (1, "", f"{code}: it is of one order of the sites: name it after the source\n")
    missing = headed(lnc, Path(folder, "nosuch.ln"))
    wrong += (missing.returncode, missing.stdout, missing.stderr) != (1, "", f"{folder}/nosuch.ln: can't be read: No such file or directory\n")
    print(f"{len(cases) + 2} sources, {wrong} not refused as they should be")


def kept(lnc, folder):
    wrong = 0
    # (that one has C of one order beside it)
    kept_too = Path("examples/checks/exchanges.ln")
    sources = {**KEPT, kept_too.stem: kept_too.read_text()}
    for name, text in sources.items():
        source = Path(folder, name + ".ln")
        source.write_text(text)
        code = Path(folder, name + ".c")
        of_one_order = name == kept_too.stem
        code.write_text(kept_too.with_suffix(".c").read_text() if of_one_order else
                        subprocess.run([lnc, "emit", source], capture_output=True, text=True, check=True).stdout)
        run = headed(lnc, source, code)
        wrong += run.returncode != 0 or f"{name}.c, which {'lnc_exact turning' if of_one_order else 'lnc emit'} writes of it" not in run.stdout
        Path(folder, f"lnc_{name}.h").write_text(run.stdout)
        for kind, calls in COMPILERS.items():
            for call in calls:
                for flags in ([] if call.startswith("clang") else ["-DLNC_CHECKED"], ["-DLNC_CHECKED", f"-DLNC_{name.upper()}_IMPLEMENTATION"]):
                    text = f'#include "lnc_{name}.h"\nint main() {{ return 0; }}\n'
                    words = [*call.split(), "-Wall", "-Wextra", "-Werror", "-Wshadow", *flags, "-I", folder, "-x", kind, "-", "-o", Path(folder, "it")]
                    built = subprocess.run(words, input=text, capture_output=True, text=True)
                    if built.returncode:
                        print(name, call, flags, built.stderr[:2000])
                        wrong += 1
    print(f"{len(sources)} sources, {wrong} wrong")


def answer(call, *arguments):
    """What a call returns or raises, as text."""
    try:
        return str(call(*arguments))
    except (TypeError, ValueError) as error:
        return f"{type(error).__name__}: {error}"


def calls(library):
    sys.dont_write_bytecode = True
    sys.path.insert(0, "predicates")
    import lnc_predicates
    orient2 = lnc_predicates.load(library, ["predicates/lnc_plane.h"]).orient2
    p, q, r, x, v = (1, 0, 0), (2, 1, 0), (3, 0, 1), [[1, 2, 3], [4, 6, 5]], [[0, 0, 1, 0, 0, 1], [0, 0, 1, 1, 2, 2]]
    cases = [
        (orient2, (p, q, r), "1"),
        (orient2.plain, (p, (2, 1, 1), (3, 2, 2)), "0"),
        (orient2, ((1, 0), (2, 1, 0, 5), (3, 0, 1)), "ValueError: orient2: p has an index and 2 coordinates, and not 2 numbers"),
        (orient2, (p, (2, 1, 0, 5), r), "ValueError: orient2: q has an index and 2 coordinates, and not 4 numbers"),
        (orient2, (p, q), "ValueError: orient2 takes p, q, r"),
        (orient2, (p, q, (2, 0, 1)), "ValueError: orient2: r has the index of q too"),
        (orient2.plain, (p, q, (1, 0, 1)), "ValueError: orient2: r has the index of p too"),
        (orient2, (p, (-1, 1, 0), r), "ValueError: orient2: q (its index) is -1, not from 0 to 9223372036854775807"),
        (orient2, (p, q, (3, 0, 2**29 + 1)), "ValueError: orient2: r.y is 536870913, not from -536870912 to 536870912"),
        (orient2, (p, q, (3, 0, 2**64)), "ValueError: orient2: r.y is 18446744073709551616, not from -536870912 to 536870912"),
        (orient2, (p, (2, 0.9, 0), r), "TypeError: orient2: q.x is 0.9, and no integer"),
        (orient2.rows, (x[:1], v[:1]), "[1]"),
        (orient2.rows, (x[:1], [v[0][:5]]), "ValueError: orient2"),
        (orient2.rows, (x, v[:1]), "ValueError: orient2: as many rows of indices as of values"),
        (orient2.rows, ([[1, 2, 3], [4, 5, 4]], v), "ValueError: orient2, row 1: r has the index of p too"),
        (orient2.rows, (x, [v[0], [0, 0, 1, 0, 0, 2**40]]), "ValueError: orient2, row 1: r.y is 1099511627776, not from -536870912 to 536870912"),
        (orient2.rows, (x, [v[0], [0, 0, 0.9, 0, 0, 1]]), "TypeError: orient2"),
        (orient2.rows, ([], []), "[]"),
    ]
    numpy = lnc_predicates.numpy
    if numpy:
        xs, vs = numpy.array(x), numpy.array(v)
        cases += [(orient2.rows, (xs, vs), "[1 1]"), (orient2.rows, (xs, numpy.asfortranarray(vs)), "[1 1]"), (orient2.rows, (xs, vs[::-1]), "[1 1]"),
                  (orient2, (numpy.array(p), q, r), "1"), (orient2, (numpy.array([1, 0.5, 0]), q, r), "TypeError: orient2: p (its index) is")]
        for kind in ("uint64", "float64", "int32", "bool", "object", ">i8"):
            cases += [(orient2.rows, given, f"TypeError: orient2: an array of {numpy.dtype(kind)}, and not of int64")
                      for given in ((xs.astype(kind), vs), (xs, vs.astype(kind)))]
    wrong = 0
    for call, arguments, wanted in cases:
        got = answer(call, *arguments)
        if got != wanted and not (wanted.endswith("orient2") or wanted.endswith(" is")) or not got.startswith(wanted):
            print(f"{arguments}: {got}")
            wrong += 1
    print(f"{'with' if numpy else 'without'} numpy, {wrong} wrong")


if __name__ == "__main__":
    {"refused": refused, "kept": kept, "calls": calls}[sys.argv[1]](*sys.argv[2:])
