"""How long the program takes for rows beside a plain reader: both print the signs of a rows file into a file, in turn, three times. Prints `within` where the
least time of processor of the one is at most so many times that of the other, and else both. Usage: timed.py TIMES ROWS PLAIN -- PROGRAM WORD..
PLAIN reads the rows on standard input; of the program's words ROWS is the last."""
import os
import resource
import subprocess
import sys


def seconds(words, rows, out):
    """The time of processor of one run."""
    before = resource.getrusage(resource.RUSAGE_CHILDREN)
    with open(rows, "rb") as given, open(out, "wb") as into:
        subprocess.run(words, stdin=given, stdout=into, check=True)
    used = resource.getrusage(resource.RUSAGE_CHILDREN)
    return used.ru_utime + used.ru_stime - before.ru_utime - before.ru_stime


def main():
    times, rows, plain, _, *words = sys.argv[1:]
    out = os.path.join(os.environ.get("TMPDIR", "/tmp"), "timed")
    runs = [(seconds([plain], rows, out), seconds([*words, rows], rows, out)) for _ in range(3)]
    least, own = min(run[0] for run in runs), min(run[1] for run in runs)
    print("within" if own <= float(times) * least else f"{own:.2f} seconds beside {least:.2f}")
    os.remove(out)


main()
