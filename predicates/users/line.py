# The same from Python, over the installed module: PYTHONPATH=PREFIX/share/lnc_predicates.
import lnc_predicates

lnc = lnc_predicates.load()
p, q, r, far = (1, 0, 0), (2, 1, 1), (3, 2, 2), (4, 2**29 + 1, 0)
try:
    fits = lnc.compare_x2(p, far) != 0
except ValueError:
    fits = False
assert list(lnc.orient2.rows([[1, 2, 3], [1, 2, 3]], [[0, 0, 1, 1, 2, 2], [0, 0, 0, 1, 1, 0]])) == [1, -1]
print(lnc.orient2(p, q, r), lnc.orient2.plain(p, q, r), int(fits))
