"""The installed predicates from Python, by ctypes; with numpy, whole arrays at once.

    import lnc_predicates
    lnc = lnc_predicates.load()                                # or load(path of a shared library, [paths of its headers])
    lnc.insphere((1, 0, 0, 0), (2, 8, 0, 0), (3, 0, 8, 0), (4, 0, 0, 8), (5, 1, 1, 1))     # sites (index, x, y, z): 1 or -1
    lnc.insphere.plain(..the same..)                           # at the points themselves: 1, 0 or -1
    lnc.insphere.rows(x, v)                                    # n rows: x has an index for each site, v the values; a sign for each row
    grid = lnc_predicates.Grid(points, *lnc.insphere.ranges[0])         # points of floats on a grid: grid.points has their coordinates

Functions, sites and ranges are read from the headers that header.py wrote, so it serves for a library of one's own predicates too. Every call tests what
it is given: ValueError says which argument is out of range, has a negative index, the index of another or too few or too many numbers, TypeError which is
no integer. `rows` takes numpy arrays of int64 and no other type, which would have to be cut, or sequences of rows; it returns a numpy array where numpy is
there, otherwise a list."""
import ctypes
import fractions
import math
import operator
import re
import sys
from pathlib import Path

try:
    import numpy
except ImportError:
    numpy = None

INT64, INT8 = ctypes.POINTER(ctypes.c_int64), ctypes.POINTER(ctypes.c_int8)


class Grid:
    """From doubles to the integers of a family and back, as lnc_grid.h does it (which says more): Grid(points, low, high) over the bounding box of points,
    each a sequence of floats; Grid.over(ends, ends, low, high) over a box, for later points too. A coordinate is the multiple of the step 2^-power nearest to
    it, ties to even, less the origin; the way back is exact. ValueError where a coordinate is NaN or infinite or out of range.

    points, first, equal, merged     the coordinates of each point, the first point at its place (itself, or an earlier one), how many are at the place of
                                     an earlier one, and how many of these weren't before
    power, step, origin, range, move the step is 2^-power; origins are in steps; the range of coordinates; the largest move of a coordinate"""

    def __init__(self, points, low, high):
        points = [tuple(map(float, point)) for point in points]
        if not points:
            raise ValueError("no points: take a box")
        for point in points:
            self._finite(point)
        self._choose([min(c) for c in zip(*points, strict=True)], [max(c) for c in zip(*points)], low, high)
        for point in points:
            self.put(point)

    @classmethod
    def over(cls, ends, others, low, high):
        """The grid over the box from the one point to the other."""
        grid = cls.__new__(cls)
        ends, others = (tuple(map(float, point)) for point in (ends, others))
        grid._finite(ends + others)
        grid._choose(ends, others, low, high)
        return grid

    @staticmethod
    def _finite(point):
        for c in point:
            if not math.isfinite(c):
                raise ValueError(f"{point}: a coordinate is not finite")

    def _choose(self, ends, others, low, high):
        """The smallest step with which the box fits, in the middle of the range."""
        low, high = max(low, -2**62), min(high, 2**62)
        if any(a > b for a, b in zip(ends, others, strict=True)) or low > high:
            raise ValueError("a range with its ends the wrong way round")
        # (the halves towards 0, as in C)
        half = [end // 2 if end >= 0 else -(-end // 2) for end in (low, high)]
        if half[1] - half[0] > 2**52:
            low, high = sum(half) - 2**52, sum(half) + 2**52
        self.range, self.points, self.first, self.equal, self.merged, self.move = (low, high), [], [], 0, 0, 0.0
        self._given, self._places = [], {}
        for self.power in range(1074, -1024, -1):
            self.origin = [self._middle(*box) for box in zip(ends, others)]
            if None not in self.origin:
                self.step = math.ldexp(1, -self.power)
                return
        raise ValueError("no step is large enough")

    def _middle(self, end, other):
        """The origin of a coordinate with this power, None where the box doesn't fit."""
        (low, high), first, last = self.range, self._scaled(end), self._scaled(other)
        if first < -2**53 or last > 2**53 or last - first > high - low or None in map(self._unscaled, (first, last)):
            return None
        # (towards the least as in C, where both ends have one sign)
        least, greatest = last - high, first - low
        middle = min(max(least + (greatest - least) // 2, -2**53 - low), 2**53 - high)
        return middle if least <= middle <= greatest else None

    def _scaled(self, c):
        try:
            return round(math.ldexp(c, self.power))
        except OverflowError:
            return 2**62 if c > 0 else -2**62

    def _unscaled(self, whole):
        try:
            return math.ldexp(whole, -self.power)
        except OverflowError:
            return None

    def snap(self, point):
        """The coordinates of a point, whether or not it is one of the grid's."""
        point = tuple(map(float, point))
        self._finite(point)
        (low, high), coordinates = self.range, []
        for c, origin in zip(point, self.origin, strict=True):
            whole = self._scaled(c)
            coordinates.append(whole - origin)
            if not low <= coordinates[-1] <= high or self._unscaled(whole) is None:
                raise ValueError(f"{point}: out of range")
        return tuple(coordinates)

    def back(self, coordinates):
        """The point that coordinates are of."""
        return tuple(math.ldexp(origin + c, -self.power) for origin, c in zip(self.origin, coordinates, strict=True))

    def find(self, coordinates):
        """The first point at these coordinates, None where there is none."""
        return self._places.get(tuple(coordinates))

    def put(self, point):
        """Takes a point and returns its number, whether or not another is at its place."""
        point, coordinates = tuple(map(float, point)), self.snap(point)
        self.move = max(self.move, *(abs(a - b) for a, b in zip(point, self.back(coordinates))))
        self.points.append(coordinates)
        self._given.append(point)
        self.first.append(self._places.setdefault(coordinates, len(self.first)))
        self.equal += self.first[-1] != len(self.first) - 1
        self.merged += self._given[self.first[-1]] != point
        return len(self.first) - 1

    def add(self, point):
        """Takes a later point where none is yet. Returns its number and True; or the number of the one that is there, and False."""
        there = self.find(self.snap(point))
        return (self.put(point), True) if there is None else (there, False)

    def weight(self, weight, low, high):
        """A weight, whose unit is a squared length, in squared steps."""
        self._finite((weight,))
        numerator, denominator = float(weight).as_integer_ratio()
        whole = round(fractions.Fraction(numerator << max(0, 2 * self.power), denominator << max(0, -2 * self.power)))
        if not low <= whole <= high:
            raise ValueError(f"{weight}: out of range")
        return whole


class Predicate:
    """A function of sites (tuples of an index and coordinates) and params (numbers), in the order of the predicate's arguments."""

    def __init__(self, name, indices, values, arguments, ranges, library):
        self.__name__, self.indices, self.values, self.arguments, self.ranges = name, indices, values, arguments, ranges
        self._width = {argument: sum(value.split(".")[0] == argument for value in values) for argument in arguments}
        self._sign, self._plain, self._rows = (getattr(library, "ln_" + name + end) for end in ("", "_plain", "_rows"))
        self._sign.argtypes, self._plain.argtypes = [INT64, INT64], [INT64]
        self._rows.argtypes, self._rows.restype = [ctypes.c_size_t, INT64, INT64, INT8], None

    def __call__(self, *arguments):
        x, v = self._row(arguments)
        return self._sign(_flat([x]), _flat([v]))

    def plain(self, *arguments):
        """The sign at the points themselves, 0 where they are degenerate."""
        return self._plain(_flat([self._row(arguments)[1]]))

    def rows(self, x, v):
        """A sign for each row of x and v."""
        if numpy is None:
            x, v = ([list(row) for row in rows] for rows in (x, v))
            if len(x) != len(v):
                raise ValueError(f"{self.__name__}: as many rows of indices as of values")
            for k, (indices, values) in enumerate(zip(x, v)):
                self._test(f"{self.__name__}, row {k}", indices, values)
            signs = (ctypes.c_int8 * len(x))()
            self._rows(len(x), _flat(x), _flat(v), signs)
            return list(signs)
        x, v = self._array(x, self.indices), self._array(v, self.values)
        if len(x) != len(v):
            raise ValueError(f"{self.__name__}: as many rows of indices as of values")
        low, high = (numpy.array([r[k] for r in self.ranges], dtype=numpy.int64) for k in (0, 1))
        ordered = numpy.sort(x, axis=1)
        wrong = ((v < low) | (v > high)).any(axis=1) | (x < 0).any(axis=1) | (ordered[:, 1:] == ordered[:, :-1]).any(axis=1)
        for k in numpy.flatnonzero(wrong)[:1]:
            self._test(f"{self.__name__}, row {k}", x[k].tolist(), v[k].tolist())
        signs = numpy.empty(len(x), dtype=numpy.int8)
        self._rows(len(x), x.ctypes.data_as(INT64), v.ctypes.data_as(INT64), signs.ctypes.data_as(INT8))
        return signs

    def _array(self, rows, columns):
        """Rows as an array of int64 with these columns."""
        given = isinstance(rows, numpy.ndarray)
        array = rows if given else numpy.array(rows)
        if not given and array.size == 0:
            array = numpy.empty((0 if columns else len(rows), len(columns)), dtype=numpy.int64)
        if array.dtype != numpy.int64:
            raise TypeError(f"{self.__name__}: an array of {array.dtype}, and not of int64")
        if array.ndim != 2 or array.shape[1] != len(columns):
            raise ValueError(f"{self.__name__}: rows of {len(self.indices)} indices and of {len(self.values)} values")
        return numpy.ascontiguousarray(array)

    def _row(self, arguments):
        """The indices and the values of a call."""
        if len(arguments) != len(self.arguments):
            raise ValueError(f"{self.__name__} takes {', '.join(self.arguments)}")
        x, v = [], []
        for name, argument in zip(self.arguments, arguments):
            if name not in self.indices:
                v.append(argument)
                continue
            if len(argument) != 1 + self._width[name]:
                raise ValueError(f"{self.__name__}: {name} has an index and {self._width[name]} coordinates, and not {len(argument)} numbers")
            x.append(argument[0])
            v.extend(argument[1:])
        return self._test(self.__name__, x, v)

    def _test(self, call, indices, values):
        """The numbers of a row as integers, each in its range, and the indices differ."""
        if len(indices) != len(self.indices) or len(values) != len(self.values):
            raise ValueError(f"{call}: {len(self.indices)} indices and {len(self.values)} values")
        tested = [[], []]
        names = [*((name + " (its index)", 0, 2**63 - 1) for name in self.indices), *((name, *ends) for name, ends in zip(self.values, self.ranges))]
        for k, ((name, low, high), number) in enumerate(zip(names, [*indices, *values])):
            try:
                number = operator.index(number)
            except TypeError:
                raise TypeError(f"{call}: {name} is {number!r}, and no integer") from None
            if not low <= number <= high:
                raise ValueError(f"{call}: {name} is {number}, not from {low} to {high}")
            tested[k >= len(indices)].append(number)
        for k, name in enumerate(self.indices):
            for j in range(k):
                if tested[0][j] == tested[0][k]:
                    raise ValueError(f"{call}: {name} has the index of {self.indices[j]} too")
        return tested


def _flat(rows):
    """Rows as an array of C."""
    numbers = [number for row in rows for number in row]
    return (ctypes.c_int64 * len(numbers))(*numbers)


class Library:
    """The predicates of a shared library, each a member of its name."""

    def __init__(self, path, headers):
        self.library, self.names = ctypes.CDLL(str(path)), []
        for header in headers:
            self._read(Path(header).read_text())

    def _read(self, text):
        ends = {name: int(number) for name, number in re.findall(r"#define LN_(\w+) INT64_C\((-?\d+)\)", text)}
        calls = {name: [a.split() for a in taken.split(",")] for name, taken in re.findall(r"^int ln_(\w+)_at\((.*)\);$", text, flags=re.M)}
        for x, v, name in re.findall(r"/\* x: ([^\n]*)\n   v: ([^\n]*) \*/\nint ln_(\w+)\(const int64_t \*x", text):
            kinds = {a[-1].lstrip("*"): a[1][len("ln_"):] if a[0] == "const" else None for a in calls[name]}
            values = v.split(", ")
            keys = [f"{kinds[value.split('.')[0]]}_{value.split('.')[1]}" if "." in value else value for value in values]
            ranges = [(ends[key.upper() + "_MIN"], ends[key.upper() + "_MAX"]) for key in keys]
            setattr(self, name, Predicate(name, x.split(", ") if x else [], values, list(kinds), ranges, self.library))
            self.names.append(name)


def load(library=None, headers=None):
    """The library beside which this module is installed, or another with its headers."""
    prefix = Path(__file__).resolve().parent.parent.parent
    return Library(library or prefix / "lib" / ("liblnc_predicates.1.dylib" if sys.platform == "darwin" else "liblnc_predicates.so.1"), headers or sorted((prefix / "include").glob("lnc_*.h")))
