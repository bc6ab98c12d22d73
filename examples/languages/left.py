# From Python: the emitted C as a shared library, called by ctypes. The library's path is the first argument.
import ctypes
import sys

library = ctypes.CDLL(sys.argv[1])
library.ln_orient.argtypes = [ctypes.POINTER(ctypes.c_int64)] * 2
library.ln_orient.restype = ctypes.c_int


def orient(x, v):
    return library.ln_orient((ctypes.c_int64 * 3)(*x), (ctypes.c_int64 * 6)(*v))


print(orient([1, 2, 3], [0, 0, 1, 0, 0, 1]), orient([1, 2, 3], [0, 0, 1, 1, 2, 2]))
