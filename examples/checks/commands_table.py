"""What lnc writes for words, sources and rows, as a table for said.py. The lines are worked out by hand from the definitions.

A case is over a source, the file s.ln, and a table of rows, the file r.csv. No other file is there: t.ln and t.csv are absent."""


def over(source, rows):
    """The files of a case."""
    return {"s.ln": source, "r.csv": rows}


ORIENT = """site point { x: -1000 .. 1000; y: -1000 .. 1000; }
predicate orient(p: point, q: point, r: point) { sign (p.x - r.x)*(q.y - r.y) - (p.y - r.y)*(q.x - r.x); }
"""
SQUARES = "site num { t: -10 .. 10; }\npredicate s(a: num, b: num) { sign a.t^2 - b.t^2; }\n"
CIRCLE = """site point { x: -1048576 .. 1048576; y: -1048576 .. 1048576; }
predicate incircle(a: point, b: point, c: point, d: point) {
  let ax = a.x - d.x; let ay = a.y - d.y;
  let bx = b.x - d.x; let by = b.y - d.y;
  let cx = c.x - d.x; let cy = c.y - d.y;
  let aw = ax^2 + ay^2; let bw = bx^2 + by^2; let cw = cx^2 + cy^2;
  sign ax*(by*cw - bw*cy) - ay*(bx*cw - bw*cx) + aw*(bx*cy - by*cx);
}
"""
# The filter's error is 7.
WIDE = """site point { x: -1099511627776 .. 1099511627776; y: -1099511627776 .. 1099511627776; }
predicate orient(p: point, q: point, r: point) { sign (p.x - r.x)*(q.y - r.y) - (p.y - r.y)*(q.x - r.x); }
"""
# The filter leaves 0, 2^27, 6, 7, 8, -7 and -8.
NEAR_ITS_ERROR = """p,p.x,p.y,q,q.x,q.y,r,r.x,r.y
1,0,0,2,1,0,3,0,1
1,0,0,2,1099511627776,0,3,0,1099511627776
1,805306368,0,2,0,67108864,3,0,0
1,939524096,0,2,0,67108864,3,0,0
1,1073741824,0,2,0,67108864,3,0,0
1,-939524096,0,2,0,67108864,3,0,0
1,-1073741824,0,2,0,67108864,3,0,0
"""
FAR = "site num { t: -10 .. 10; } predicate far(a: num) { sign a.t - 4294967297; }"
HEAD = "p,p.x,p.y,q,q.x,q.y,r,r.x,r.y\n"
LEFT = HEAD + "1,0,0,2,1,0,3,0,1\n"
RIGHT = HEAD + "2,0,0,1,0,1,3,1,0\n"
ALONG = HEAD + "1,0,0,2,1,1,3,2,2\n"
UPRIGHT = HEAD + "1,0,0,2,0,1,3,0,2\n"
EQUAL = HEAD + """1,1,0,2,0,0,3,0,0
1,5,5,2,5,5,3,5,5
2,5,5,1,5,5,3,5,5
"""
MIXED = HEAD + """1,0,0,1,1,0,3,0,1
1,1001,0,2,1,0,3,0,1
1,1e3,0,2,1,0,3,0,1
1,0,0,2,1,0,3,0
1,0,0,2,1,0,3,0,1
"""
MIXED_LINES = "! index q\n! range p.x\n! number p.x\n! fields\n+ F\n"
WRITTEN = (
    "p,p.x,p.y,q,q.x,q.y,r,r.x,r.y\r\n"
    '"1",0,0,2,1,0,3,0,1\r\n'
    "-1,0,0,2,1,0,3,0,1\r\n"
    "1,99999999999999999999,0,2,1,0,3,0,1\r\n"
    "1,-0,007,2,1,0,3,0,1\r\n"
)
EXCHANGED = "p,p.x,p.y,q,q.x,q.y,r,r.y,r.x\n1,0,0,2,1,0,3,0,1\n"
SCALED = """param c: 0 .. 5;
site num { t: -10 .. 10; }
predicate other(a: num) { sign -a.t; }
predicate z(a: num, c: param) { sign c * a.t; }
"""
NOTHING_ADDED = """site num { t: -10 .. 10; }
predicate nf(a: num) { let z = 0*170141183460469231731687303715884105727; let y = z*z*z; sign a.t + y; }
"""
# With d = a.t - b.t the sign is that of -d^3 - 2*(3 - d).
CUBIC = """site num { t: -10 .. 10; }
predicate m(a: num, b: num) { let d = a.t - b.t; let e = -d^2 * d; sign e - 2*(3 - d); }
"""
SQUARE_ROWS = "a,a.t,b,b.t\n1,3,2,3\n1,-3,2,3\n1,0,2,0\n2,0,1,0\n1,4,2,3\n1,-2,2,3\n"
SQUARE_SIGNS = "+ 1\n- 1\n+ 2\n- 2\n+ F\n- F\n"
SCALED_ROWS = "a,a.t,c\n1,7,0\n1,0,2\n1,3,2\n1,-3,2\n1,3,6\n"
SCALED_SIGNS = "0 -\n+ 1\n+ F\n- F\n! range c\n"
THREE = "a,a.t\n1,3\n1,-3\n1,0\n"
CUBES = "a,a.t,b,b.t\n1,3,2,1\n1,0,2,5\n"
NEAR_A_CIRCLE = """a,a.x,a.y,b,b.x,b.y,c,c.x,c.y,d,d.x,d.y
1,0,0,2,1,0,3,1,1,4,0,1
1,0,0,2,4,0,3,0,4,4,1,1
1,0,0,2,4,0,3,0,4,4,5,5
"""
NEAR_SIGNS = "+ 0\n+ F\n+ 0\n+ 0\n+ F\n- 0\n- F\n"
# The weights of both products are just below 2^126.
WIDEST = """site num { t: -9223372036854775806 .. 9223372036854775806; }
predicate big(a: num, b: num, c: num, d: num) { sign a.t*b.t + c.t*d.t; }
"""
UNKNOWN = "site a { x: 0 .. 1; }\npredicate f(p: b) { sign p.x; }"
HEAVY = """site num { t: -9223372036854775807 .. 9223372036854775807; }
predicate big(a: num, b: num, c: num, d: num) { sign a.t*b.t + c.t*d.t; }
"""
HEAVY_LET = """param c: 0 .. 9223372036854775807;
predicate one(c: param) { sign c; } predicate f(c: param) { let d = c^3; sign c; }
"""
MANY = """site s { a: 0 .. 1; b: 0 .. 1; c: 0 .. 1; d: 0 .. 1; e: 0 .. 1; }
predicate f(p: s) { sign (p.a + p.b + p.c + p.d + p.e)^16; }
"""
NONE = "site point { x: 0 .. 9; }\npredicate none(p: point) { sign p.x - p.x; }\n"
# The product of four numbers, as a difference of squares.
CROSS = """site num { t: -4611686018427387903 .. 4611686018427387903; }
predicate cross(a: num, b: num) { sign (a.t + b.t)^2 - (a.t - b.t)^2; }
"""
CROSS_UPWARDS = """site num { t: 0 .. 5000000000000000000; }
predicate cross(a: num, b: num) { sign (a.t + b.t)^2 - (a.t - b.t)^2; }
"""
CROSS_BOTH_WAYS = """site num { t: -5000000000000000000 .. 5000000000000000000; }
predicate cross(a: num, b: num) { sign (a.t + b.t)^2 - (a.t - b.t)^2; }
"""
CROSS_STAGES = "cross sites 2 stages 8\n"
CROSS_ROWS = "a,a.t,b,b.t\n1,0,2,5\n1,0,2,0\n"
# The range is 0 .. 0, the size 2^128.
LARGE_AT_ZERO = "param c: 0 .. 0; predicate f(c: param) { sign (c^16)^8; }"
# The range is 0 .. 2^81, and so is the size; 3^81 exceeds 2^127.
HEAVY_PRODUCT = "param c: 0 .. 2; predicate f(c: param) { sign (c^16)^5*c; }"
LIGHT = "param c: 0 .. 2; predicate f(c: param) { sign (c^16)^5; }"
BOTH = """param c: 0 .. 2; site s { a: 0 .. 1; b: 0 .. 1; c: 0 .. 1; d: 0 .. 1; }
predicate f(p: s, c: param) { sign (p.a + p.b + p.c + p.d + 1)^12 * (c^16)^5*c; }
"""
SOURCE_LIMIT = 1048576


def cube(count):
    """The source of the product of this many coordinates of a site."""
    ranges = " ".join(f"t{i}: -1 .. 1;" for i in range(count))
    product = "*".join(f"a.t{i}" for i in range(count))
    return f"site many {{ {ranges} }}\npredicate cube(a: many) {{ sign {product}; }}\n"


CHECK = ["check", "s.ln"]
RUN = ["run", "s.ln", "orient", "r.csv"]
CHECK_ABSENT = ["check", "t.ln"]
RUN_ABSENT = ["run", "t.ln", "orient", "r.csv"]
NO_NAME = ["run", "s.ln", "nosuch", "r.csv"]
NO_ROWS = ["run", "s.ln", "orient", "t.csv"]


def run_of(name):
    """The words that run a predicate of this name."""
    return ["run", "s.ln", name, "r.csv"]


CASES = {
    "each record has its line": [
        (RUN, over(ORIENT, LEFT), 0, "+ F\n", ""),
        (RUN, over(ORIENT, RIGHT), 0, "- F\n", ""),
        (RUN, over(ORIENT, ALONG), 0, "+ 1\n", ""),
        (RUN, over(ORIENT, UPRIGHT), 0, "- 2\n", ""),
        (RUN, over(ORIENT, EQUAL), 0, "+ 3\n+ 4\n- 4\n", ""),
        (RUN, over(ORIENT, MIXED), 3, MIXED_LINES, ""),
        (RUN, over(ORIENT, WRITTEN), 3, "+ F\n! range p\n! range p.x\n- F\n", ""),
        (RUN, over(ORIENT, HEAD), 0, "", ""),
        (RUN, over(ORIENT, ""), 3, "", "error header\n"),
        (RUN, over(ORIENT, EXCHANGED), 3, "", "error header\n"),
    ],
    "powers, lets, minus and params are evaluated": [
        (run_of("s"), over(SQUARES, SQUARE_ROWS), 0, SQUARE_SIGNS, ""),
        (run_of("z"), over(SCALED, SCALED_ROWS), 3, SCALED_SIGNS, ""),
        (run_of("other"), over(SCALED, THREE), 0, "- F\n+ F\n- 1\n", ""),
        (run_of("nf"), over(NOTHING_ADDED, THREE), 0, "+ 0\n- 0\n+ 1\n", ""),
        (run_of("m"), over(CUBIC, CUBES), 0, "- F\n+ F\n", ""),
    ],
    "filters decide above their error": [
        (run_of("incircle"), over(CIRCLE, NEAR_A_CIRCLE), 0, "- 1\n+ 0\n- 0\n", ""),
        (RUN, over(WIDE, NEAR_ITS_ERROR), 0, NEAR_SIGNS, ""),
        (run_of("far"), over(FAR, "a,a.t\n1,-10\n1,10\n"), 0, "- F\n- F\n", ""),
    ],
    "sources are checked": [
        (CHECK, over("", HEAD), 0, "", ""),
        (CHECK, over(ORIENT, HEAD), 0, "orient sites 3 stages 30\n", ""),
        (CHECK, over(SCALED, HEAD), 0, "other sites 1 stages 2\nz sites 1 stages 2\n", ""),
        (CHECK, over(WIDEST, HEAD), 0, "big sites 4 stages 112\n", ""),
        (CHECK, over(CIRCLE, HEAD), 0, "incircle sites 4 stages 720\n", ""),
    ],
    "sources are refused with their place": [
        (CHECK, over("site a { x: 0 .. 1; } #", HEAD), 1, "", "error lexical 1:23\n"),
        (CHECK, over("site a { }", HEAD), 1, "", "error syntax 1:10\n"),
        (CHECK, over("site a", HEAD), 1, "", "error syntax 1:7\n"),
        (CHECK, over(UNKNOWN, HEAD), 1, "", "error name 2:16\n"),
        (CHECK, over("param c: 5 .. 4;", HEAD), 1, "", "error limit 1:15\n"),
        (CHECK, over(HEAVY, HEAD), 1, "", "error bound 2:62\n"),
        (CHECK, over(HEAVY_LET, HEAD), 1, "", "error bound 2:70\n"),
        (CHECK, over(MANY, HEAD), 1, "", "error terms 2:55\n"),
        (CHECK, over(NONE, HEAD), 1, "", "error zero 2:11\n"),
    ],
    "a difference of squares is accepted by its ranges": [
        (CHECK, over(CROSS, HEAD), 0, CROSS_STAGES, ""),
        (CHECK, over(CROSS_UPWARDS, HEAD), 0, CROSS_STAGES, ""),
        (CHECK, over(CROSS_BOTH_WAYS, HEAD), 1, "", "error bound 2:54\n"),
        (run_of("cross"), over(CROSS_UPWARDS, CROSS_ROWS), 0, "+ 1\n+ 3\n", ""),
    ],
    "sizes and the whole are tested beside ranges": [
        (CHECK, over(LARGE_AT_ZERO, HEAD), 1, "", "error bound 1:53\n"),
        (CHECK, over(HEAVY_PRODUCT, HEAD), 1, "", "error bound 1:55\n"),
        (CHECK, over(LIGHT, HEAD), 0, "f sites 0 stages 1\n", ""),
        (CHECK, over(BOTH, HEAD), 1, "", "error terms 2:63\n"),
    ],
    "words and names that are none are told": [
        ([], over(ORIENT, LEFT), 2, "", "error usage\n"),
        (["run"], over(ORIENT, LEFT), 2, "", "error usage\n"),
        (["check"], over(ORIENT, LEFT), 2, "", "error usage\n"),
        (["draw", "s.ln"], over(ORIENT, LEFT), 2, "", "error usage\n"),
        (NO_NAME, over(ORIENT, LEFT), 4, "", "error predicate\n"),
        (CHECK_ABSENT, over(ORIENT, LEFT), 6, "", "error read\n"),
        (RUN_ABSENT, over(ORIENT, LEFT), 6, "", "error read\n"),
        (NO_ROWS, over(ORIENT, LEFT), 6, "", "error read\n"),
    ],
    "a source over its limit is too long": [
        (CHECK, over(" " * SOURCE_LIMIT, HEAD), 0, "", ""),
        (CHECK, over(" " * (SOURCE_LIMIT + 1), HEAD), 8, "", "error long\n"),
    ],
    "each set of sixteen coordinates is a stage": [
        (CHECK, over(cube(16), HEAD), 0, "cube sites 1 stages 65536\n", ""),
        (CHECK, over(cube(17), HEAD), 1, "", "error stages 2:11\n"),
    ],
    "each record of 200,000 bytes has its line": [
        (RUN, over(ORIENT, HEAD + "1,0,0,2,1,0,3,0,1\n1,0,0,2,1,1,3,2,2\n1,0,0,1,1,0,3,0,1\n" * 3704), 3, "+ F\n+ 1\n! index q\n" * 3704, ""),
    ],
}
