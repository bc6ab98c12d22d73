"""predicates/lnc_grid.h, and the same in Rust and Python, beside exact rational arithmetic on random and extreme doubles: denormal and huge ones, mixed
scales, ties, equal points, NaN and infinities. Usage, at the top of the repository:

grid.py compare SEED COUNT PROGRAM..    COUNT grids by each program, which reads what grid.c says; `python` is the module of predicates/
grid.py python                          what grid.c does, over the Python module"""
import math
import random
import struct
import subprocess
import sys
from fractions import Fraction

RANGES = [(-2**29, 2**29), (-2**23, 2**23), (0, 2**20), (-3, 3), (5, 5), (-2**61, 2**61), (1 - 2**63, 2**63 - 1), (2**60, 2**60 + 5), (-1, 2**40)]
GREATEST = Fraction(sys.float_info.max)


def digits(value):
    return struct.pack(">d", value).hex()


def double(word):
    return struct.unpack(">d", bytes.fromhex(word))[0]


def points(kind, n, dimension):
    """Points of a kind."""
    def one():
        if kind == "unit":
            return random.uniform(-1, 1)
        if kind == "far":
            return 1e15 + random.uniform(0, 50)
        if kind == "binade":
            return 2.0**40 + random.uniform(-1, 1) * 2.0**-10
        if kind == "denormal":
            return random.randint(-40, 40) * 5e-324
        if kind == "huge":
            return random.choice((1e308, -1e308, 1.7e308, -1.7e308)) * random.random()
        if kind == "mixed":
            return random.choice((-1, 1)) * math.ldexp(random.random(), random.randint(-1070, 1020))
        if kind == "integer":
            return float(random.randint(-1000, 1000))
        if kind == "tie":
            return random.randint(-9, 9) + random.choice((0, 0.5, 0.25, -0.0))
        return 0.1
    found = [[one() for _ in range(dimension)] for _ in range(n)]
    # some stand twice, some with the other zero, some close to another
    for k in range(1, n):
        if random.random() < 0.15:
            found[k] = list(found[random.randrange(k)])
            if random.random() < 0.5:
                found[k] = [math.nextafter(c, random.choice((-math.inf, math.inf))) if c else -c for c in found[k]]
    if random.random() < 0.1:
        found[random.randrange(n)][random.randrange(dimension)] = random.choice((math.nan, math.inf, -math.inf, sys.float_info.max, -sys.float_info.max))
    return found


def script(count):
    """The lines that a program reads, as words: a grid, then points."""
    for _ in range(count):
        dimension, (low, high), n = random.randint(1, 3), random.choice(RANGES), random.choice((1, 2, 5, 40))
        kind = random.choice(("unit", "far", "binade", "denormal", "huge", "mixed", "integer", "tie", "one"))
        given = points(kind, n, dimension)
        if random.random() < 0.3 and n > 1:
            if random.random() < 0.9:
                given[:2] = [[min(pair) for pair in zip(*given[:2])], [max(pair) for pair in zip(*given[:2])]]
            yield ["over", dimension, low, high, given[:2]]
        else:
            yield ["make", dimension, low, high, given]
        for later in (random.choice(given), *points(random.choice((kind, "mixed")), 3, dimension)):
            yield [random.choice(("add", "snap")), later]
        yield ["weight", random.choice((random.random() * 100, -1.0, 1e300, 5e-324, math.inf))]


def text(lines):
    for word, *rest in lines:
        if word in ("make", "over"):
            dimension, low, high, given = rest
            yield f"{word} {dimension} {low} {high} {len(given)}"
            yield from (" ".join(map(digits, point)) for point in given)
        else:
            yield f"{word} {' '.join(map(digits, rest[0] if word != 'weight' else rest))}"


def is_double(value):
    return abs(value) <= GREATEST and Fraction(float(value)) == value


class Exact:
    """What a grid has to be, over rational numbers."""

    def __init__(self, ends, others, low, high):
        low, high = max(low, -2**62), min(high, 2**62)
        if low > high or any(a > b for a, b in zip(ends, others)):
            raise ValueError("range")
        if int(Fraction(high, 2)) - int(Fraction(low, 2)) > 2**52:
            middle = int(Fraction(high, 2)) + int(Fraction(low, 2))
            low, high = middle - 2**52, middle + 2**52
        self.low, self.high, self.points, self.given, self.move = low, high, [], [], Fraction(0)
        for self.power in range(1074, -1024, -1):
            self.unit = Fraction(2) ** -self.power
            self.origin = [self.middle(Fraction(a), Fraction(b)) for a, b in zip(ends, others)]
            if None not in self.origin:
                return
        raise ValueError("range")

    def middle(self, a, b):
        """An origin for which the box is in range, and the whole range within 2^53 steps from 0: of all these the one nearest to the middle."""
        first, last = round(a / self.unit), round(b / self.unit)
        if not all(abs(whole) <= 2**53 and is_double(whole * self.unit) for whole in (first, last)):
            return None
        least, greatest = max(last - self.high, -2**53 - self.low), min(first - self.low, 2**53 - self.high)
        if least > greatest or last - first > self.high - self.low:
            return None
        middle = (last - self.high) + (first - self.low - (last - self.high)) // 2
        return min(max(middle, least), greatest)

    def snap(self, point):
        if not all(map(math.isfinite, point)):
            raise ValueError("finite")
        wholes = [round(Fraction(c) / self.unit) for c in point]
        coordinates = [whole - origin for whole, origin in zip(wholes, self.origin)]
        if not all(self.low <= c <= self.high and is_double(whole * self.unit) for c, whole in zip(coordinates, wholes)):
            raise ValueError("range")
        return coordinates

    def put(self, point):
        coordinates = self.snap(point)
        self.move = max(self.move, *(abs(Fraction(c) - b) for c, b in zip(point, self.exact(coordinates))))
        self.points.append(coordinates)
        self.given.append(point)

    def exact(self, coordinates):
        return [(c + origin) * self.unit for c, origin in zip(coordinates, self.origin)]

    def place(self, coordinates):
        back = self.exact(coordinates)
        assert all(map(is_double, back))
        return " ".join([*map(str, coordinates), *(digits(float(c)) for c in back)])

    def head(self):
        firsts = [self.points.index(c) for c in self.points]
        equal = [(k, first) for k, first in enumerate(firsts) if k != first]
        merged = [k for k, first in equal if self.given[k] != self.given[first]]
        return f"done {self.power} {' '.join(map(str, self.origin))} {len(equal)} {len(merged)} {digits(float(self.move))}"


def wanted(lines):
    """What a program has to write."""
    grid = None
    for word, *rest in lines:
        try:
            if word in ("make", "over"):
                grid, (_, low, high, given) = None, rest
                for k, point in enumerate(given):
                    if not all(map(math.isfinite, point)):
                        yield "finite" + f" {k}" * (word == "make")
                        break
                else:
                    ends = given if word == "over" else [[min(c) for c in zip(*given)], [max(c) for c in zip(*given)]]
                    try:
                        grid = Exact(*ends, low, high)
                    except ValueError:
                        yield "range" + f" {len(given)}" * (word == "make")
                        continue
                    for point in given if word == "make" else []:
                        grid.put(point)
                    yield grid.head()
                    for coordinates in grid.points:
                        yield f"{grid.points.index(coordinates)} {grid.place(coordinates)}"
            elif grid is None:
                continue
            elif word == "weight":
                if not math.isfinite(rest[0]):
                    raise ValueError("finite")
                whole = round(Fraction(rest[0]) / grid.unit**2)
                yield f"done {whole}" if 0 <= whole <= 2**60 else "range"
            else:
                coordinates = grid.snap(rest[0])
                end = "done"
                if word == "add":
                    if coordinates in grid.points:
                        end = f"taken {grid.points.index(coordinates)}"
                    else:
                        grid.put(rest[0])
                        end = f"done {len(grid.points) - 1}"
                yield f"{end} {grid.place(coordinates)}"
        except ValueError as error:
            yield str(error)


def compare(seed, count, *programs):
    random.seed(int(seed))
    lines = list(script(int(count)))
    # a point after a grid that wasn't made isn't asked about
    kept, made = [], False
    for line in lines:
        if line[0] in ("make", "over"):
            made = next(wanted([line])).startswith("done")
            kept.append(line)
        elif made:
            kept.append(line)
    given, right, bad = "\n".join(text(kept)) + "\n", list(wanted(kept)), False
    for program in programs:
        words = [sys.executable, __file__, "python"] if program == "python" else [program]
        run = subprocess.run(words, input=given, capture_output=True, text=True)
        got = run.stdout.splitlines()
        wrong = [(a, b) for a, b in zip(right, got) if a != b]
        if run.returncode or wrong or len(got) != len(right):
            print(f"{program}: status {run.returncode}, {len(got)} lines of {len(right)}, {len(wrong)} wrong {wrong[:3]} {run.stderr[-500:]}")
            bad = True
    print(f"{len(right)} lines, {'wrong' if bad else 'all right'}; {sum(line.startswith('done') for line in right)} done")


def python():
    sys.dont_write_bytecode = True
    sys.path.insert(0, "predicates")
    import lnc_predicates
    lines, grid, at = sys.stdin.read().splitlines(), None, 0

    def kind(error):
        return "finite" if "finite" in str(error) else "range"

    def place(coordinates):
        return " ".join([*map(str, coordinates), *map(digits, grid.back(coordinates))])

    while at < len(lines):
        word, *rest = lines[at].split()
        at += 1
        try:
            if word in ("make", "over"):
                _, low, high, n = map(int, rest)
                given = [[double(c) for c in line.split()] for line in lines[at:at + n]]
                at += n
                try:
                    grid = lnc_predicates.Grid(given, low, high) if word == "make" else lnc_predicates.Grid.over(*given, low, high)
                except ValueError as error:
                    number = next((k for k, point in enumerate(given) if not all(map(math.isfinite, point))), len(given))
                    print(kind(error) + f" {number}" * (word == "make"))
                    continue
                print("done", grid.power, *grid.origin, grid.equal, grid.merged, digits(grid.move))
                for first, coordinates in zip(grid.first, grid.points):
                    print(first, place(coordinates))
            elif word == "weight":
                print("done", grid.weight(double(rest[0]), 0, 2**60))
            elif word == "add":
                number, new = grid.add([double(c) for c in rest])
                print("done" if new else "taken", number, place(grid.points[number]))
            else:
                print("done", place(grid.snap([double(c) for c in rest])))
        except ValueError as error:
            print(kind(error))


if __name__ == "__main__":
    {"compare": compare, "python": python}[sys.argv[1]](*sys.argv[2:])
