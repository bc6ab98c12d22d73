"""A Delaunay triangulation: standard input has pairs of floats, each line of standard output the numbers of a triangle's corners, from 0 and
counterclockwise. Of points at one place the first counts. Flat triangles, which are all at the hull, are left out. PYTHONPATH=PREFIX/share/lnc_predicates"""
import sys
import lnc_predicates
OUTSIDE = -1  # the third corner of the triangles beyond the edges of the hull
lnc = lnc_predicates.load()
numbers = iter(map(float, sys.stdin.read().split()))
grid = lnc_predicates.Grid(list(zip(numbers, numbers)), *lnc.orient2.ranges[0])
site = [(k, *point) for k, point in enumerate(grid.points)]
across = {}  # of each edge, from a to b, the third corner of the triangle at its left


def add(a, b, c):
    across[a, b], across[b, c], across[c, a] = c, a, b


def is_left(a, b, p):
    return lnc.orient2(site[a], site[b], site[p]) > 0


def is_inside(a, b, c, p):  # in the circle of a triangle; of one beyond the hull, beyond its edge
    if OUTSIDE in (a, b, c):
        k = (a, b, c).index(OUTSIDE)
        return is_left((b, c, a)[k], (c, a, b)[k], p)
    return lnc.incircle(site[a], site[b], site[c], site[p]) > 0


def locate(a, b, p):
    """The edges of a triangle with p in it, or of one beyond the hull from which p is seen: from triangle to triangle."""
    sides = 0
    while sides < 3 and OUTSIDE not in (a, b, across[a, b]):
        a, b, sides = (a, b, sides) if is_left(a, b, p) else (b, a, 0)
        a, b, sides = b, across[a, b], sides + 1
    return [(a, b), (b, across[a, b]), (across[a, b], a)]


def insert(p, near):
    """Removes the triangles that have p in their circles, and joins p to the edges of the hole, one of which it returns."""
    hole = locate(*near, p)
    while hole:
        a, b = hole.pop()
        c = across[b, a]
        if is_inside(b, a, c, p):
            del across[a, b], across[b, a]
            hole += [(a, c), (c, b)]
        else:
            add(a, b, p)
            near = near if OUTSIDE in (a, b) else (a, b)
    return near


a, b, c, *others = [k for k in range(len(site)) if grid.first[k] == k]
a, b = (a, b) if is_left(a, b, c) else (b, a)
for corners in ((a, b, c), (b, a, OUTSIDE), (c, b, OUTSIDE), (a, c, OUTSIDE)):
    add(*corners)
for k in others:
    a, b = insert(k, (a, b))
for (a, b), c in across.items():
    if -1 < a < min(b, c) and lnc.orient2.plain(site[a], site[b], site[c]):
        print(a, b, c)
