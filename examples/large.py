"""Signs of a ready-made predicate on a rows file of any size, on all processors: a line `+`, `-` or `0` for each row, by the batch call of
predicates/lnc_predicates.py. The columns are found by their names, which are those of the predicate's source. Ends with an error at a row that
is none. Usage: large.py LIBRARY HEADER NAME ROWS, as in
    python3 examples/large.py predicates/build/liblnc_predicates.so predicates/lnc_plane.h orient2 rows.csv"""
import multiprocessing
import os
import sys
from pathlib import Path

sys.path.insert(0, str(Path(__file__).resolve().parent.parent / "predicates"))
import lnc_predicates  # noqa: E402

PIECE = 1 << 22


def pieces(rows, begin):
    """The places between which the pieces of a file lie, each of whole lines."""
    with open(rows, "rb") as file:
        end = begin
        while end < os.path.getsize(rows):
            begin = end
            file.seek(begin + PIECE)
            file.readline()
            end = min(file.tell(), os.path.getsize(rows))
            yield begin, end


def opened(library, header, name, file):
    """What a process keeps: the predicate, the file, and the columns of its indices and values."""
    global predicate, rows, columns, indices, values
    predicate, rows = getattr(lnc_predicates.load(library, [header]), name), file
    with open(rows) as text:
        columns = text.readline().strip().split(",")
    indices, values = ([columns.index(word) for word in words] for words in (predicate.indices, predicate.values))


def signs(piece):
    with open(rows, "rb") as file:
        file.seek(piece[0])
        data = file.read(piece[1] - piece[0])
    wrong = f"a row of another length between the bytes {piece[0]} and {piece[1]}"
    if lnc_predicates.numpy:
        bytes_ = lnc_predicates.numpy.frombuffer(data + b"\n" * (not data.endswith(b"\n")), dtype="uint8")
        commas = lnc_predicates.numpy.cumsum(bytes_ == ord(","))[bytes_ == ord("\n")]
        if (lnc_predicates.numpy.diff(commas, prepend=0) != len(columns) - 1).any():
            raise ValueError(wrong)
        numbers = lnc_predicates.numpy.fromstring(data.replace(b"\n", b",").decode().rstrip(","), dtype="int64", sep=",").reshape(-1, len(columns))
        found = predicate.rows(numbers[:, indices], numbers[:, values])
    else:
        numbers = [list(map(int, line.split(b","))) for line in data.splitlines()]
        if any(len(row) != len(columns) for row in numbers):
            raise ValueError(wrong)
        found = predicate.rows([[row[k] for k in indices] for row in numbers], [[row[k] for k in values] for row in numbers])
    return "".join(["0\n", "+\n", "-\n"][sign] for sign in found)


def main(library, header, name, file):
    with open(file, "rb") as text:
        begin = len(text.readline())
    with multiprocessing.Pool(initializer=opened, initargs=(library, header, name, file)) as pool:
        for text in pool.imap(signs, pieces(file, begin)):
            sys.stdout.write(text)


if __name__ == "__main__":
    if len(sys.argv) != 5:
        sys.exit(__doc__)
    main(*sys.argv[1:])
