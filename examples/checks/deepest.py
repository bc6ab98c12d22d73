"""Writes the deepest sources that are accepted to a folder, rows for them (rows.csv), and for each the signs that are owed, worked out
beside lnc (NAME.signs). Usage: deepest.py FOLDER"""
import os, sys

RANGE, ROWS = 3, []
for p in range(-RANGE, RANGE + 1):
    for q in range(-RANGE, RANGE + 1):
        ROWS += [(1, p, 2, q), (2, p, 1, q)]


def lets(first, step, count, last):
    """lets of which each is made of the one before"""
    text = f"let a0 = {first}; " + " ".join(f"let a{i} = {step(f'a{i - 1}', i)};" for i in range(1, count))
    return f"{text} sign {last(f'a{count - 1}')};"


def sign(z):
    return "+" if z > 0 else "-" if z < 0 else "0"


def of_difference(c):
    """the signs of c*(p - q), c above or below 0: where it is 0, the site with the smaller index decides"""
    return lambda i, p, j, q: sign(c * (p - q)) if p != q else sign(c if i < j else -c)


def sources():
    # 2,048 nodes: 2,046 minus signs, a difference and its two coordinates would be one too many, so q stands alone
    yield "minus_signs", "sign " + "-" * 2047 + "p.x;", lambda i, p, j, q: sign(-p) if p else "-"
    yield "parentheses_in_lets", lets("(" * 64 + "p.x - q.x" + ")" * 64, lambda a, i: "(" * 64 + a + ")" * 64, 64, lambda a: "(" * 64 + a + ")" * 64), of_difference(1)
    # each let is the square of the one before; the sign is that of the first, as of a number from 0 to 1 the square is the number
    yield "squares", lets("1", lambda a, i: f"({a})^2", 64, lambda a: f"{a}*(p.x - q.x)"), of_difference(1)
    yield "sum_that_leans_left", "sign p.x" + " - q.x + p.x" * 511 + " - q.x;", of_difference(512)
    # 16 lets of sums that lean right, as deep as parentheses may be
    yield "sum_that_leans_right", lets("p.x - q.x", lambda a, i: "p.x - (q.x - (" * 31 + f"p.x - (q.x - ({a}))" + "))" * 31, 16, lambda a: a), of_difference(15 * 32 + 1)


def main(folder):
    for name, body, answer in sources():
        with open(os.path.join(folder, name + ".ln"), "w") as file:
            file.write(f"site s {{ x: {-RANGE} .. {RANGE}; }}\npredicate f(p: s, q: s) {{ {body} }}\n")
        with open(os.path.join(folder, name + ".signs"), "w") as file:
            file.writelines(answer(*row) + "\n" for row in ROWS)
    with open(os.path.join(folder, "rows.csv"), "w") as file:
        file.write("p,p.x,q,q.x\n" + "".join(",".join(map(str, row)) + "\n" for row in ROWS))


main(sys.argv[1])
