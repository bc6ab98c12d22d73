#!/usr/bin/env python3
"""Writes the C and C++ header of a source of predicates, to standard output. Usage:

header.py NAME.ln [NAME.c]     lnc_NAME.h for the C that lnc_exact or `lnc emit` wrote of the source, with both checksums where NAME.c is given. C of one
                               order, by `lnc_exact turning`, has to be given: which predicates it has of one order is read there
header.py --grid BITS NAME.ln  no header but the source for smaller ranges: coordinates from -2^BITS to 2^BITS, weights w to 2^(2*BITS), and the names
                               of sites, params and predicates with _BITS at their ends, so that both sets can be linked together

`lnc check` has to take the source: the program in LNC, that of this checkout, or the one on the path. For what no header can be written the one line
on standard error has its place, and nothing is written: names that the header has for itself or that meet in it (ranges are macros in capitals), words
of C and C++, a comment that C would end, a source that is refused, C that isn't this source's. Status 1."""
import hashlib
import os
import re
import shutil
import subprocess
import sys
import textwrap
from pathlib import Path
from typing import NamedTuple

TOKENS = re.compile(r"[ \t\r\n]+|//[^\n]*|(\.\.|[A-Za-z_][A-Za-z_0-9]*|[0-9]+|[{}():;,.+\-*^=])")
COMMENT = re.compile(r"//[^\n]*")
NAME = "[A-Za-z_][A-Za-z_0-9]*"
# words of C and C++, with those of gcc and clang, and macros of the headers that are included
WORDS = set("""alignas alignof and and_eq asm auto bitand bitor bool break case catch char char16_t char32_t char8_t class co_await co_return co_yield compl
    concept const const_cast consteval constexpr constinit continue decltype default delete do double dynamic_cast else enum explicit export extern false
    float for friend goto if inline int long mutable namespace new noexcept not not_eq nullptr operator or or_eq private protected public register
    reinterpret_cast requires restrict return short signed sizeof static static_assert static_cast struct switch template this thread_local throw true try
    typedef typeid typename typeof typeof_unqual union unsigned using virtual void volatile wchar_t while xor xor_eq std unix linux i386 NULL EOF BUFSIZ
    BIG_ENDIAN BYTE_ORDER EXIT_FAILURE EXIT_SUCCESS FD_SETSIZE FILENAME_MAX FOPEN_MAX LITTLE_ENDIAN L_ctermid L_cuserid L_tmpnam MB_CUR_MAX NFDBITS
    PDP_ENDIAN P_tmpdir RAND_MAX RENAME_EXCHANGE RENAME_NOREPLACE RENAME_WHITEOUT SEEK_CUR SEEK_DATA SEEK_END SEEK_HOLE SEEK_SET TMP_MAX WCONTINUED WEXITED
    WNOHANG WNOWAIT WSTOPPED WUNTRACED stdin stdout stderr size_t""".split())
RESERVED = re.compile(r"_[A-Z_].*|u?int\w*_t|U?INT\w*_(MIN|MAX|C|WIDTH)|(PTRDIFF|SIZE|WCHAR|WINT|SIG_ATOMIC)_(MIN|MAX|WIDTH)")
OWN = re.compile(r"(ln|lf|la|ls|lc|li|lm|lr|lv|lb[0-9]+|lnc|LN|LNC)_.*")


class Fault(Exception):
    """Why no header can be written, with the place in the file: an offset, or a line and a column."""

    def __init__(self, place, text):
        super().__init__(text)
        self.place = place


class Token(NamedTuple):
    text: str
    at: int


class Range(NamedTuple):
    low: int
    high: int
    begin: int
    end: int


class Source:
    """Site types with their coordinates, params, and predicates with their arguments and comments, in the order of the text. What follows a
    predicate's arguments isn't read: that is for `check`."""

    def __init__(self, text):
        self.text, self.sites, self.params, self.predicates, self.places, self.uses = text, {}, {}, {}, {}, []
        self.tokens, self.next = list(tokens(text)), 0
        while self.next < len(self.tokens):
            self.item()
        self.comments = {}
        for match in re.finditer(r"((?:^//[^\n]*\n)+)predicate\s+(\w+)", text, flags=re.M):
            self.comments[match[2]] = list(self.lines(match.start(1), match[1]))

    @staticmethod
    def lines(at, text):
        """The lines of a comment, without what marks it as one."""
        for line in text.splitlines(keepends=True):
            bare = line.strip("/ \r\n")
            yield Token(bare, at + line.index(bare))
            at += len(line)

    def peek(self):
        """The text of the next token; at the end none."""
        return self.tokens[self.next].text if self.next < len(self.tokens) else ""

    def take(self, form):
        """The next token, which has to be of this form."""
        token = self.tokens[self.next] if self.next < len(self.tokens) else Token("", len(self.text))
        if not re.fullmatch(form, token.text):
            raise Fault(token.at, f"{token.text or 'the end'} can't stand here")
        self.next += 1
        return token

    def name(self, kind, owner=None):
        """A name, which is kept with its place."""
        token = self.take(NAME)
        self.uses.append((kind, token.text, owner, token.at))
        return token.text

    def number(self):
        sign = self.take("-") if self.peek() == "-" else None
        digits = self.take("[0-9]+")
        return int(digits.text) * (-1 if sign else 1), (sign or digits).at, digits.at + len(digits.text)

    def range(self):
        """`: LOW .. HIGH ;`"""
        self.take(":")
        low, begin, _ = self.number()
        self.take(r"\.\.")
        high, _, end = self.number()
        self.take(";")
        return Range(low, high, begin, end)

    def item(self):
        keyword = self.take("site|param|predicate").text
        name = self.name(keyword)
        if keyword == "param":
            self.params[name] = self.range()
        elif keyword == "site":
            self.take("{")
            self.sites[name] = []
            while self.peek() != "}":
                coordinate = self.name("coordinate", name)
                self.sites[name].append((coordinate, self.range()))
            self.take("}")
        else:
            self.take(r"\(")
            self.predicates[name] = [self.argument(name)]
            while self.take(r"[,)]").text == ",":
                self.predicates[name].append(self.argument(name))
            while self.take(".+").text != "}":
                pass

    def argument(self, predicate):
        name = self.name("argument", predicate)
        self.take(":")
        return name, self.take(NAME).text

    def values(self, name):
        """The values of a row, in order: each the argument and, of a site, the coordinate."""
        return [(argument, c) for argument, kind in self.predicates[name] for c in ([None] if kind == "param" else [c for c, _ in self.sites[kind]])]

    def indices(self, name):
        return [argument for argument, kind in self.predicates[name] if kind != "param"]

    def end_names(self, name):
        """The macros of the ranges of a row's values, without _MIN and _MAX."""
        kinds = dict(self.predicates[name])
        return [("LN_" + (f"{kinds[a]}_{c}" if c else a).upper()) for a, c in self.values(name)]


def tokens(text):
    at = 0
    while at < len(text):
        match = TOKENS.match(text, at)
        if not match:
            raise Fault(at, "a byte that begins no token")
        if match[1]:
            yield Token(match[1], at)
        at = match.end()


class Names:
    """The names that the header makes, each with what it is of: two that are the same meet."""

    def __init__(self, source):
        self.made = {name: "the header's own" for name in ("ln_refusal", "ln_on_refusal", "lnc::in_range", "lnc::checked")}
        for kind, name, owner, at in source.uses:
            self.usable(source, kind, name, at)
            for made in self.of(kind, name, owner):
                self.make(source, made, f"{kind} {owner + '.' if kind == 'coordinate' else ''}{name}", at)

    @staticmethod
    def of(kind, name, owner):
        """What the header calls by a name of the source."""
        if kind == "coordinate":
            return [f"LN_{owner}_{name}_MIN".upper()]
        if kind == "param":
            return [f"LN_{name}_MIN".upper(), f"ln_{name}_in_range"]
        if kind == "site":
            return [f"ln_{name}", f"ln_{name}_in_range", f"lnc::{name}"]
        if kind == "predicate":
            return [f"ln_{name}{end}" for end in ("", "_plain", "_rows", "_at", "_plain_at")] + [f"lnc::{name}", f"lnc::{name}_plain"]
        return []

    def make(self, source, made, what, at):
        if made in self.made:
            raise Fault(at, f"{what}: the header's name {made.removesuffix('_MIN')} is already taken: {self.made[made]}")
        self.made[made] = f"{what}, at {place_of(source.text, at)}"

    @staticmethod
    def usable(source, kind, name, at):
        """Whether C and C++ can have the name where the header writes it."""
        why = None
        if name in WORDS or RESERVED.fullmatch(name):
            why = "a word of C or C++, or one of their libraries'"
        elif OWN.fullmatch(name):
            why = "names that begin so are the header's"
        elif kind == "coordinate" and name == "index":
            why = "the member for the index has this name"
        elif kind == "argument" and name in ("x", "v"):
            why = "the arrays of indices and values have the names x and v"
        elif kind == "argument" and name in source.sites:
            why = "a site type has this name"
        if why:
            raise Fault(at, f"{kind} {name}: {why}. Give it another name")


def place_of(text, at):
    """`LINE:COLUMN`, from 1."""
    before = text[:at]
    return f"{before.count(chr(10)) + 1}:{len(before) - before.rfind(chr(10))}"


# what a predicate's function is named: right on every row, or on rows whose indices rise, where each exchange of two sites turns the sign or keeps it
EVERY_ROW, ALTERNATING, SYMMETRIC = "ln", "la", "ls"


class Code:
    """The C of a source: by which program it was written, and how it is called."""

    def __init__(self, path, text, source):
        self.name, self.text = path.name, text
        functions = re.findall(r"^(?:static )?int (\w+)\(const int64_t \*(x, const int64_t \*)?v\) \{$(.*?)^\}$", text, flags=re.M | re.S)
        self.functions = {name: body for name, _, body in functions}
        called = {name for name, two, _ in functions if two}
        if re.search(r'["\\\n]', self.name) or not text.startswith("#include <stdint.h>\n"):
            raise Fault(0, "it isn't C that lnc_exact or `lnc emit` writes")
        self.entries = {name: self.entry(name, source) for name in source.predicates}
        for name in called - {f"{entry}_{name}" for name, entry in self.entries.items()}:
            raise Fault(text.index(f" {name}("), f"{name} is no predicate of the source: it isn't the C of this source")
        self.program = ("lnc emit" if any(name.startswith("lf_") for name in self.functions) else
                        "lnc_exact turning" if set(self.entries.values()) - {EVERY_ROW} else "lnc_exact")

    def entry(self, name, source):
        """Which function of the predicate is called; its arrays have to be those of the source's rows."""
        found = [entry for entry in (EVERY_ROW, ALTERNATING, SYMMETRIC) if f"{entry}_{name}" in self.functions]
        block = self.functions.get(f"lb0_{name}")
        if not found or block is None:
            raise Fault(0, f"it has no functions of the predicate {name}: it isn't the C of this source")
        called, sites = f"{found[0]}_{name}", source.indices(name)
        most = [max(map(int, re.findall(rf"\b{array}\[(\d+)\]", body)), default=-1) for array, body in (("v", block), ("x", self.functions[called]))]
        if most[0] >= len(source.values(name)) or most[1] >= max(1, len(sites)):
            raise Fault(self.text.index(f" {called}("), f"{called} reads more values or indices than {name} has: it isn't the C of this source")
        kinds = dict(source.predicates[name])
        if found[0] != EVERY_ROW and (len(sites) < 2 or len({tuple(it[:2] for _, it in source.sites[kinds[a]]) for a in sites}) > 1):
            raise Fault(self.text.index(f" {called}("), f"{called} exchanges sites that aren't alike: it isn't the C of this source")
        return found[0]

    def of_one_order(self):
        """The predicates whose function is right only on rows whose indices rise."""
        return [name for name, entry in self.entries.items() if entry != EVERY_ROW]


def commented(text, indent=""):
    """A C comment within 120 columns."""
    lines = textwrap.wrap(text, 112)
    return f"{indent}/* " + f"\n{indent}   ".join(lines) + " */"


def ranges(source):
    """The ranges as constants, a type of points for each site type, and tests that a point or a param is in range."""
    def ends(name, it):
        yield f"#define LN_{name.upper()}_MIN INT64_C({it.low})"
        yield f"#define LN_{name.upper()}_MAX INT64_C({it.high})"

    def within(name, what):
        return f"LN_{name.upper()}_MIN <= {what} && {what} <= LN_{name.upper()}_MAX"

    for site, coordinates in source.sites.items():
        for c, it in coordinates:
            yield from ends(f"{site}_{c}", it)
        yield f"typedef struct ln_{site} {{ int64_t index, {', '.join(c for c, _ in coordinates)}; }} ln_{site};"
        tests = " &&\n    ".join(within(f"{site}_{c}", f"p->{c}") for c, _ in coordinates)
        yield f"static inline int ln_{site}_in_range(const ln_{site} *p) {{\n  return 0 <= p->index &&\n    {tests};\n}}\n"
    for param, it in source.params.items():
        yield from ends(param, it)
        yield f"static inline int ln_{param}_in_range(int64_t value) {{ return {within(param, 'value')}; }}\n"


class Call:
    """A predicate's calls in C: what they take and what they pass on."""

    def __init__(self, source, name):
        self.name, arguments = name, source.predicates[name]
        self.sites, self.values, self.ends = source.indices(name), source.values(name), source.end_names(name)
        self.points = ", ".join(f"int64_t {a}" if kind == "param" else f"const ln_{kind} *{a}" for a, kind in arguments)
        self.passed = ", ".join(a for a, _ in arguments)
        # a predicate of params alone has no index, and C no empty array
        self.x = f"const int64_t x[] = {{{', '.join(f'{a}->index' for a in self.sites) or 0}}};"
        self.v = f"const int64_t v[] = {{{', '.join(f'{a}->{c}' if c else a for a, c in self.values)}}};"
        self.references = ", ".join(f"std::int64_t {a}" if kind == "param" else f"const {kind} &{a}" for a, kind in arguments)
        self.addresses = ", ".join(a if kind == "param" else "&" + a for a, kind in arguments)


ARRAYS = "const int64_t *x, const int64_t *v"
ROWS = f"size_t n, {ARRAYS}, int8_t *signs"


def prototypes(source, calls):
    """The functions of each predicate that take arrays."""
    for call in calls:
        name = call.name
        if name in source.comments:
            yield commented(" ".join(line.text for line in source.comments[name]))
        values = ", ".join(f"{a}.{c}" if c else a for a, c in call.values)
        yield f"/* x: {', '.join(call.sites)}\n   v: {values} */"
        yield f"int ln_{name}({ARRAYS});"
        yield f"int ln_{name}_plain(const int64_t *v);"
        yield f"void ln_{name}_rows({ROWS});"
        yield f"int ln_{name}_at({call.points});"
        yield f"int ln_{name}_plain_at({call.points});\n"


# what calls that check share, of all headers together
REFUSAL = """
#if defined(LNC_CHECKED) && !defined(LNC_HAS_REFUSAL)
#define LNC_HAS_REFUSAL
#include <stdio.h>
#include <stdlib.h>
#ifdef __cplusplus
extern "C" {
#endif
/* told of the first fault of a call: the predicate, the argument ("p" for its index, "p.x"), what is wrong with it, and of ln_NAME_rows the row,
   from 0, otherwise SIZE_MAX. Where it returns, the call returns 0, or writes 0 for the row. Without another it prints this and aborts */
typedef void ln_refusal(const char *predicate, const char *argument, const char *fault, size_t row);
static inline void lr_aborts(const char *predicate, const char *argument, const char *fault, size_t row) {
  if (row == SIZE_MAX) fprintf(stderr, "lnc: %s: %s %s\\n", predicate, argument, fault);
  else fprintf(stderr, "lnc: %s, row %zu: %s %s\\n", predicate, row, argument, fault);
  abort();
}
__attribute__((weak)) ln_refusal *ln_on_refusal = lr_aborts;
static inline int lr_is(int right, const char *predicate, const char *argument, const char *fault, size_t row) {
  if (!right) ln_on_refusal(predicate, argument, fault, row);
  return right;
}
#ifdef __cplusplus
}
#endif
#endif
"""


def checked(call):
    """The calls of a predicate that check what they are given. (`&&` stops at the first fault.)"""
    name = call.name
    values = [f'lr_is({end}_MIN <= v[{k}] && v[{k}] <= {end}_MAX, "{name}", "{a}{"." + c if c else ""}", "is out of range", row)'
              for k, ((a, c), end) in enumerate(zip(call.values, call.ends))]
    indices = [f'lr_is(0 <= x[{k}], "{name}", "{a}", "has a negative index", row)' for k, a in enumerate(call.sites)]
    indices += [f'lr_is(x[{j}] != x[{k}], "{name}", "{a}", "has the index of {b} too", row)'
                for k, a in enumerate(call.sites) for j, b in enumerate(call.sites[:k])]
    lines = {f"lv_{name}(const int64_t *v, size_t row)": " &&\n    ".join(values)}
    if indices:
        lines[f"li_{name}(const int64_t *x, size_t row)"] = " &&\n    ".join(indices)
    for head, right in lines.items():
        yield f"static inline int {head} {{\n  return {right};\n}}"
    fit, at = f"lv_{name}(v, SIZE_MAX)", f"lv_{name}(v + {len(call.values)} * i, i)"
    fits = fit + f" && li_{name}(x, SIZE_MAX)" * bool(indices)
    ats = at + f" && li_{name}(x + {len(call.sites)} * i, i)" * bool(indices)
    yield f"static inline int lc_{name}({ARRAYS}) {{ return {fits} ? ln_{name}(x, v) : 0; }}"
    yield f"static inline int lc_{name}_plain(const int64_t *v) {{ return {fit} ? ln_{name}_plain(v) : 0; }}"
    yield (f"static inline void lc_{name}_rows({ROWS}) {{\n  for (size_t i = 0; i < n; i++) {{\n    signs[i] = 0;\n"
           f"    if ({ats}) ln_{name}_rows(1, x + {len(call.sites)} * i, v + {len(call.values)} * i, signs + i);\n  }}\n}}")
    x = f"\n  {call.x}" if indices else ""
    yield f"static inline int lc_{name}_at({call.points}) {{{x}\n  {call.v}\n  return {fits} ? ln_{name}_at({call.passed}) : 0;\n}}"
    yield f"static inline int lc_{name}_plain_at({call.points}) {{\n  {call.v}\n  return {fit} ? ln_{name}_plain_at({call.passed}) : 0;\n}}"


def overloads(source, calls):
    """The same in the namespace lnc, by references. (Calls that check are other functions, so that files with and without can be linked.)"""
    yield "#ifdef LNC_CHECKED\n#define LNC_CALL(name) ::lc_##name\n#else\n#define LNC_CALL(name) ::ln_##name\n#endif\nnamespace lnc {"
    for site in source.sites:
        yield f"typedef ::ln_{site} {site};"
        yield f"inline bool in_range(const {site} &p) {{ return ::ln_{site}_in_range(&p) != 0; }}"
    yield "#ifdef LNC_CHECKED\ninline namespace checked {\n#endif"
    for call in calls:
        for name in (call.name, f"{call.name}_plain"):
            yield f"inline int {name}({call.references}) {{\n  return LNC_CALL({name}_at)({call.addresses});\n}}"
    yield "#ifdef LNC_CHECKED\n}\n#endif\n}\n#undef LNC_CALL"


# what puts a row into the order of its indices, of all headers together
IN_ORDER = """
#ifndef LNC_HAS_ORDER
#define LNC_HAS_ORDER
#if defined(__clang__) || __GNUC__ < 8
#define LNC_UNROLLED
#else
#define LNC_UNROLLED _Pragma("GCC unroll 8")
#endif
/* Writes the indices as they rise to y, and of each site as many values alike to w. Returns whether an odd number of pairs of sites was the other way round.
   Two of one index stay as they are. (Without branches, since nothing foretells an order. There are at most 5 sites) */
static inline __attribute__((always_inline)) int lr_in_order(int sites, int many, const int64_t *x, const int64_t *v, int64_t *y, int64_t *w) {
  int turned = 0, rank[] = {0, 1, 2, 3, 4};
  LNC_UNROLLED
  for (int j = 1; j < sites; j++) {
    LNC_UNROLLED
    for (int k = 0; k < j; k++) {
      const int is_turned = x[k] > x[j];
      rank[k] += is_turned;
      rank[j] -= is_turned;
      turned += is_turned;
    }
  }
  LNC_UNROLLED
  for (int j = 0; j < sites; j++) {
    y[rank[j]] = x[j];
    LNC_UNROLLED
    for (int c = 0; c < many; c++) w[many * rank[j] + c] = v[many * j + c];
  }
  return turned % 2;
}
#undef LNC_UNROLLED
#endif"""


def one_order(call, entry):
    """ln_NAME over the function of C of one order, which is right on rows whose indices rise: block 0 on the row as it is; where that is 0, the call of
    the row in order, with the sign turned, if exchanges turn it, where an odd number of pairs was the other way round. There block 0 is 0 too, which the
    compiler is told, so that it doesn't compute it again (with -fsanitize=undefined it does, and tests it)."""
    name, turned, row, own = call.name, entry == ALTERNATING, "w", "v"
    of_sites = [k for k, (_, c) in enumerate(call.values) if c]
    lines = [f"int64_t y[{len(call.sites)}], w[{len(of_sites)}];"]
    if len(of_sites) < len(call.values):
        # params stay where they are
        row, own = "u", "s"
        lines.append(f"const int64_t s[] = {{{', '.join(f'v[{k}]' for k in of_sites)}}};")
    lines.append(f"{'const int odd = ' if turned else '(void)'}lr_in_order({len(call.sites)}, {len(of_sites) // len(call.sites)}, x, {own}, y, w);")
    if row == "u":
        lines.append(f"const int64_t u[] = {{{', '.join(f'w[{of_sites.index(k)}]' if c else f'v[{k}]' for k, (_, c) in enumerate(call.values))}}};")
    lines.append(f"if (lb0_{name}({row}) != 0) __builtin_unreachable();")
    lines += [f"const int sign = {entry}_{name}(y, {row});", "return odd ? -sign : sign;"] if turned else [f"return {entry}_{name}(y, {row});"]
    yield f"static __attribute__((noinline)) int lm_{name}({ARRAYS}) {{" + "".join(f"\n  {line}" for line in lines) + "\n}"
    yield f"int ln_{name}({ARRAYS}) {{\n  const int sign = lb0_{name}(v);\n  return sign != 0 ? sign : lm_{name}(x, v);\n}}"


def bodies(call, entry):
    """What is compiled once for a predicate, over the functions of its C. Block 0, the plain value, is compiled into the calls over points, which
    then read them where they are; where it is 0, the values are copied into arrays."""
    name, sites, values = call.name, len(call.sites), len(call.values)
    if entry != EVERY_ROW:
        yield from one_order(call, entry)
    yield f"int ln_{name}_plain(const int64_t *v) {{ return lb0_{name}(v); }}"
    yield (f"void ln_{name}_rows({ROWS}) {{\n"
           f"  for (size_t i = 0; i < n; i++) signs[i] = (int8_t)ln_{name}(x + {sites} * i, v + {values} * i);\n}}")
    yield (f"static __attribute__((noinline)) int lm_{name}_at({call.points}) {{\n  {call.x}\n  {call.v}\n"
           f"  return {'ln' if entry == EVERY_ROW else 'lm'}_{name}(x, v);\n}}")
    yield f"__attribute__((flatten)) int ln_{name}_plain_at({call.points}) {{\n  {call.v}\n  return lb0_{name}(v);\n}}"
    yield (f"__attribute__((flatten)) int ln_{name}_at({call.points}) {{\n  {call.v}\n  const int sign = lb0_{name}(v);\n"
           f"  return sign != 0 ? sign : lm_{name}_at({call.passed});\n}}")


CALLS = ("", "_plain", "_rows", "_at", "_plain_at")
UNCAST = '#ifdef __cplusplus\n#pragma GCC diagnostic push\n#pragma GCC diagnostic ignored "-Wold-style-cast"\n#endif'


def implementation(upper, calls, name, code):
    """What is compiled once: the C itself, of this name, and what needs its block 0. Then the names by which calls that check are called."""
    turning = code.of_one_order() if code else []
    yield f"\n#if defined(LNC_{upper}_IMPLEMENTATION) && !defined(LNC_{upper}_IMPLEMENTED)\n#define LNC_{upper}_IMPLEMENTED"
    for call in calls:
        yield from (f"#undef ln_{call.name}{end}" for end in CALLS)
    yield f'#ifndef __SIZEOF_INT128__\n#error "no __int128 here: {name} takes gcc or clang for a 64-bit target"\n#endif\n{UNCAST}'
    # (static by this declaration, so that nobody links what is right on some rows alone)
    yield from (f"static inline __attribute__((always_inline)) int {code.entries[it]}_{it}({ARRAYS});" for it in turning)
    if not code:
        yield "/* C of one order, which declares these otherwise, isn't compiled: its header is written of it */"
        yield from (f"extern char {ALTERNATING}_{call.name}, {SYMMETRIC}_{call.name};" for call in calls)
    yield f'#include "{name}"' + IN_ORDER * bool(turning)
    for call in calls:
        yield from bodies(call, code.entries[call.name] if code else EVERY_ROW)
    yield f"#ifdef __cplusplus\n#pragma GCC diagnostic pop\n#endif\n#endif\n\n#ifdef LNC_{upper}_CHECKED"
    for call in calls:
        yield from (f"#define ln_{call.name}{end} lc_{call.name}{end}" for end in CALLS)
    yield "#endif"


ABOUT = """/* lnc_{stem}.h: written by header.py, so change {stem}.ln and not this file.
   {stem}.ln has the SHA-256 {source},
   and {code}, which {program} writes of it, {made}.

   Two files are enough, this one and {code}. In one C file of your program, compiled by gcc or clang for a 64-bit target:

       #define LNC_{upper}_IMPLEMENTATION
       #include "lnc_{stem}.h"

   and in all others, C or C++, the second line alone. For each predicate NAME there are

   ln_NAME_at(&p, ..)           1 or -1, the sign at the moved points; with params it may be 0. The indices of the sites have to differ and are from 0 to
                                2^63 - 1, the values are each in its range. Nothing is checked (but see below). In C++ lnc::NAME(p, ..)
   ln_NAME_plain_at(&p, ..)     1, 0 or -1, the sign at the points themselves, 0 where they are degenerate. In C++ lnc::NAME_plain(p, ..)
   ln_NAME(x, v)                the same of arrays: x has the indices of the sites, v the values, in the order of the comments below; ln_NAME_plain(v)
   ln_NAME_rows(n, x, v, signs) ln_NAME of n rows, each after the other in x and in v, into signs

   and for each type of points SITE, with a member for the index and one for each coordinate, in the order in which the type declares them,

   ln_SITE_in_range(&p)         whether index and coordinates are in range; in C++ lnc::in_range(p). Test each point once, where it is made

   With `#define LNC_CHECKED` before the header is included, all these calls test what they are given. At the first value out of range, negative index or
   index twice they call ln_on_refusal, a pointer that you may set, with the names of predicate and argument; else they print these and abort{order} */"""

# what the header says of C of one order
ORDER = """

   Of {names}
   {code} has the sign in one order of the sites, la_NAME or ls_NAME, which is proved for rows whose indices rise. ln_NAME puts each row into this order
   (lr_in_order below), by lines that are tested and that no proof reaches"""


def header(stem, data, source, code):
    """The lines of the header; code is none where the C isn't there yet."""
    upper, calls = stem.upper(), [Call(source, name) for name in source.predicates]
    made = f"the SHA-256 {hashlib.sha256(code.text.encode('latin-1')).hexdigest()}" if code else "is beside it"
    code_name, program = (code.name, code.program) if code else (stem + ".c", "lnc_exact or lnc emit")
    names = "\n   ".join(textwrap.wrap(", ".join(code.of_one_order() if code else []), 116))
    order = ORDER.format(code=code_name, names=names) if names else ""
    yield ABOUT.format(stem=stem, upper=upper, code=code_name, program=program, made=made, source=hashlib.sha256(data).hexdigest(), order=order)
    yield f"#ifndef LNC_{upper}_H\n#define LNC_{upper}_H\n#include <stddef.h>\n#include <stdint.h>\n{REFUSAL}"
    yield '#ifdef __cplusplus\nextern "C" {\n#endif\n'
    yield from ranges(source)
    yield from prototypes(source, calls)
    yield f"#ifdef LNC_CHECKED\n#define LNC_{upper}_CHECKED"
    for call in calls:
        yield from checked(call)
    yield "#endif\n\n#ifdef __cplusplus\n}\n\n#include <cstdint>"
    yield from overloads(source, calls)
    yield "#endif\n#endif"
    yield from implementation(upper, calls, code_name, code)


def narrower(source, bits):
    """The source with ranges of this many bits and other names. In comments, where names are also those of others' predicates, nothing changes."""
    changes = []
    for coordinates in source.sites.values():
        for c, it in coordinates:
            changes.append((it.begin, it.end, f"0 .. {2**(2 * bits)}" if c == "w" else f"-{2**bits} .. {2**bits}"))
    items = {*source.sites, *source.params, *source.predicates}
    changes += [(token.at, token.at + len(token.text), f"{token.text}_{bits}") for token in source.tokens if token.text in items]
    text, at = f"// Coordinates from -2^{bits} to 2^{bits}, written by header.py --grid {bits} from a source whose own ranges are these:\n", 0
    for begin, end, now in sorted(changes):
        text, at = text + source.text[at:begin] + now, end
    return text + source.text[at:]


def program():
    """The program whose `check` is asked: that in LNC, of this checkout, or on the path."""
    here = Path(__file__).resolve().parent.parent / "bin" / "lnc"
    found = os.environ.get("LNC") or (str(here) if here.exists() else shutil.which("lnc"))
    if not found:
        raise Fault(None, "lnc, which has to take the source, isn't on the path: put its place into LNC")
    return found


def accepted(data):
    """Asks `lnc check`, which says why a source is refused and where."""
    run = subprocess.run([program(), "check", "/dev/stdin"], input=data, capture_output=True)
    if run.returncode:
        said = (run.stderr.decode().strip().splitlines() or [f"status {run.returncode}"])[-1]
        kind = re.fullmatch(r"error (\w+) (\d+:\d+)", said)
        raise Fault(kind[2], f"lnc check refuses the source: {kind[1]} (docs/LANGUAGE.md)") if kind else Fault(None, f"lnc check: {said}")


def read(path):
    try:
        return path.read_bytes()
    except OSError as error:
        raise Fault(None, f"can't be read: {error.strerror}") from None


def written(words):
    """What is written for the words: a text; or the fault, with the file that has it."""
    grid = words[0] == "--grid"
    path, data, text = Path(words[-1] if grid else words[0]), b"", ""
    try:
        data = read(path)
        text = data.decode("latin-1")
        accepted(data)
        source = Source(text)
        if grid:
            return narrower(source, int(words[1]))
        if not re.fullmatch(r"[A-Za-z0-9_]+", path.stem):
            raise Fault(None, "the header's macros have the name of the file, which has to be of letters, digits and _")
        Names(source)
        for line in (line for lines in source.comments.values() for line in lines):
            for end in re.finditer(r"\*/|/\*", line.text):
                raise Fault(line.at + end.start(), f"the comment goes into one of C, where {end[0]} can't stand")
        code, beside = None, path.with_suffix(".c")
        if len(words) == 2:
            path = Path(words[1])
            text = read(path).decode("latin-1")
            code = Code(path, text, source)
        elif beside.exists() and re.search(rf"^int ({ALTERNATING}|{SYMMETRIC})_\w+\(", read(beside).decode("latin-1"), flags=re.M):
            path = beside
            raise Fault(None, "it is of one order of the sites: name it after the source")
        return "\n".join(header(Path(words[0]).stem, data, source, code)) + "\n"
    except Fault as fault:
        place = place_of(text, fault.place) if isinstance(fault.place, int) else fault.place
        sys.exit(f"{path}:{place + ':' if place else ''} {fault}")


def main(words):
    if (len(words) == 3 and words[0] == "--grid" and words[1].isdigit()) or (len(words) in (1, 2) and not words[0].startswith("-")):
        sys.stdout.write(written(words))
    else:
        sys.exit(__doc__)


if __name__ == "__main__":
    main(sys.argv[1:])
