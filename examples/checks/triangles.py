"""Whether triangles are those of a Delaunay triangulation of points, over rational numbers: standard input has pairs of doubles, a blank line and the
triangles. Each turns left, no corner comes twice, the areas add up to that of the convex hull, and no point across an edge is inside a circle. The points
have to be on the grid as they stand, so that nothing moved. Usage: triangles.py"""
import sys
from fractions import Fraction


def turn(a, b, c):
    return (b[0] - a[0]) * (c[1] - a[1]) - (b[1] - a[1]) * (c[0] - a[0])


def inside(a, b, c, d):
    rows = [(p[0] - d[0], p[1] - d[1], (p[0] - d[0])**2 + (p[1] - d[1])**2) for p in (a, b, c)]
    (ax, ay, aw), (bx, by, bw), (cx, cy, cw) = rows
    return ax * (by * cw - bw * cy) - ay * (bx * cw - bw * cx) + aw * (bx * cy - by * cx) > 0


def hull(points):
    """Twice the area of the convex hull, by Andrew's monotone chain."""
    area = 0
    for order in (sorted(set(points)), sorted(set(points), reverse=True)):
        chain = []
        for p in order:
            while len(chain) > 1 and turn(chain[-2], chain[-1], p) <= 0:
                chain.pop()
            chain.append(p)
        area += sum(a[0] * b[1] - a[1] * b[0] for a, b in zip(chain, chain[1:]))
    return area


def main():
    points, triangles = ([tuple(line.split()) for line in part.splitlines()] for part in sys.stdin.read().split("\n\n"))
    points = [tuple(map(Fraction, point)) for point in points]
    triangles = [tuple(map(int, line)) for line in triangles]
    across = {edge: c for a, b, c in triangles for edge, c in (((a, b), c), ((b, c), a), ((c, a), b))}
    corners = [[points[k] for k in triangle] for triangle in triangles]
    right = all(turn(*three) > 0 for three in corners) and len(across) == 3 * len(triangles) and sum(turn(*three) for three in corners) == hull(points)
    empty = not any((b, a) in across and inside(points[a], points[b], points[c], points[across[b, a]]) for (a, b), c in across.items())
    used = {k for triangle in triangles for k in triangle}
    print(f"{len(set(points))} places, {len(used)} corners, {len(triangles)} triangles, {'a Delaunay triangulation' if right and empty else 'WRONG'}")


if __name__ == "__main__":
    main()
