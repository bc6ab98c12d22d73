"""examples/segments on scenes whose points are on lines and circles, over rational numbers: each triangle turns left and the areas add up to the
hull's; of each segment there is a chain of edges through all points that are on it; across no other edge a point is inside a circle; Euler's formula
holds. Usage: constrained.py FOLDER, where the program `segments` is"""
import random
import subprocess
import sys
from pathlib import Path

from triangles import hull, inside, turn


def between(a, b, p):
    """Whether p is on the closed segment from a to b."""
    return turn(a, b, p) == 0 and (p[0] - a[0]) * (p[0] - b[0]) + (p[1] - a[1]) * (p[1] - b[1]) <= 0


def crossing(a, b, c, d):
    """Whether two segments have one common point, inside both."""
    return turn(a, b, c) * turn(a, b, d) < 0 and turn(c, d, a) * turn(c, d, b) < 0


def apart(points, wanted, seed, near=10**9):
    """Segments at random, no two of which cross."""
    it, found = random.Random(seed), []
    for _ in range(wanted * 20):
        a, b = it.sample(range(len(points)), 2)
        p, q = points[a], points[b]
        if p != q and max(abs(p[0] - q[0]), abs(p[1] - q[1])) <= near and not any(crossing(p, q, points[c], points[d]) for c, d in found):
            found.append((a, b))
        if len(found) == wanted:
            break
    return found


def scenes():
    """A name, the points and the segments of each."""
    it = random.Random(1)
    grid = [(x, y) for x in range(12) for y in range(12)]
    it.shuffle(grid)
    place = grid.index
    lines = [(place((x, 0)), place((x, 11))) for x in range(0, 12, 2)] + [(place((0, 0)), place((11, 0))), (place((0, 11)), place((11, 11)))]
    yield "a grid and its lines", grid, lines + [(place((4, 3)), place((4, 9))), (place((4, 1)), place((4, 5)))]
    yield "a grid and its rows and columns", grid, [(place((x, y)), place((x + 1, y))) for x in range(11) for y in range(12)] + lines
    diagonals = [(place((0, y)), place((11 - y, 11))) for y in range(11)] + [(place((x, 0)), place((11, 11 - x))) for x in range(11)]
    yield "a grid and its diagonals", grid, diagonals
    for seed in range(8):
        yield "a grid", grid, apart(grid, 40, seed, 3 if seed % 2 else 11)
    line = [(3 * k, 5 * k) for k in range(40)]
    it.shuffle(line)
    yield "a line", line, apart(line, 15, 2)
    circle = [(5 * x, 5 * y) for x in range(-65, 66) for y in range(-65, 66) if x * x + y * y == 65 * 65]
    yield "a circle", circle, apart(circle, 20, 3)
    yield "a circle with its centre", circle + [(0, 0)], [(k, len(circle)) for k in range(0, len(circle), 3)] + [(0, 1)]
    for seed in range(8):
        few = [(it.randrange(40), it.randrange(40)) for _ in range(250)]
        yield "places that come twice", few, apart(few, 60, seed, 40 if seed % 2 else 8)
        many = [(it.randrange(1 << 20), it.randrange(1 << 20)) for _ in range(300)]
        yield "at random", many, apart(many, 80, seed, 1 << (18 + seed % 3))
    # one segment across many edges that meet at one of its sides
    comb = [(0, 0), (1000, 0)] + [(100 * k + 50, (60 if k % 2 else 7) + k) for k in range(10)] + [(100 * k, -(60 if k % 3 else 5) - k) for k in range(10)]
    yield "a comb", comb, [(0, 1)]


def faults(points, segments, lines):
    """What is wrong with the lines that were written."""
    first = {}
    for k, point in enumerate(points):
        first.setdefault(point, k)
    split = [line.split() for line in lines]
    chains = [[int(word) for word in words[1:]] for words in split if words[0] == "segment"]
    triangles = [[int(word) for word in words[1:]] for words in split if words[0] == "triangle"]
    across = {edge: c for a, b, c in triangles for edge, c in (((a, b), c), ((b, c), a), ((c, a), b))}
    turns = [turn(*(points[k] for k in triangle)) for triangle in triangles]
    if not all(turn > 0 for turn in turns) or len(across) != 3 * len(triangles):
        yield "a triangle doesn't turn left, or two overlap"
    if sum(turns) != hull(points):
        yield "the areas don't add up to the hull's"
    edges = {tuple(sorted(edge)) for edge in across}
    if triangles and len(first) - len(edges) + len(triangles) != 1:
        yield "Euler's formula doesn't hold"
    if len(chains) != len(segments):
        yield "segments are missing"
    kept = set()
    for (a, b), chain in zip(segments, chains):
        a, b = first[points[a]], first[points[b]]
        on = [k for place, k in first.items() if between(points[a], points[b], place)]
        way = sorted(on, key=lambda k: abs(points[k][0] - points[a][0]) + abs(points[k][1] - points[a][1]))
        pieces = {tuple(sorted(piece)) for piece in zip(chain, chain[1:])}
        kept |= pieces
        if chain != way:
            yield f"the chain from {a} to {b} hasn't the points on it"
        if triangles and not pieces <= edges:
            yield f"a piece from {a} to {b} is no edge"
    for (a, b), c in across.items():
        if tuple(sorted((a, b))) not in kept and (b, a) in across and inside(points[a], points[b], points[c], points[across[b, a]]):
            yield f"a point is inside a circle across {a} {b}"


def written(points, segments):
    return "\n".join([f"{len(points)} {len(segments)}", *(f"{x} {y}" for x, y in points), *(f"{a} {b}" for a, b in segments)]) + "\n"


def main(folder):
    program, count, wrong = Path(folder, "segments"), 0, 0
    for name, points, segments in scenes():
        run = subprocess.run([program], input=written(points, segments), capture_output=True, text=True, timeout=60)
        said = [run.stderr] if run.returncode else list(faults(points, segments, run.stdout.splitlines()))
        count += len(segments)
        wrong += bool(said)
        if said:
            print(f"{name}: {said[0].strip()}")
    print(f"{count} segments, {wrong} scenes wrong")


if __name__ == "__main__":
    main(*sys.argv[1:])
