#!/usr/bin/env python3
"""Runs a predicate on a rows file on the workers of a Dask cluster, and writes what `lnc run` would write if it took so large a file: partitions of whole
records, each signed by `lnc run` on a worker, their lines in the order of the records. Statuses are those of `lnc run`: 3 if some record is invalid. A
partition whose worker is ended is signed by another. Each worker reads its partition from the rows file, so that has to be on a file system that all of them
share, and needs the program lnc: the one in LNC, or that on its path. The last line on standard error says how long it took. Where Dask isn't installed
(Debian's python3-dask and python3-distributed), it says so. Usage:
signs.py FILE NAME ROWS [--scheduler ADDRESS | --workers N] [--partition BYTES]   on a cluster that runs, or one of N processes here, by default 2
signs.py LIBRARY,HEADER NAME ROWS ..   by the batch call of predicates/ in place of `lnc run`: a sign for each row, and an error at a row that is none"""
import argparse
import collections
import importlib.machinery
import importlib.util
import os
import subprocess
import sys
import tempfile
import time
from pathlib import Path

sys.dont_write_bytecode = True
EXAMPLES = Path(__file__).resolve().parent.parent


def sample(name):
    """The module of another sample: examples/large, which knows what a record is, or examples/large.py."""
    loader = importlib.machinery.SourceFileLoader(name.replace(".", "_"), str(EXAMPLES / name))
    module = importlib.util.module_from_spec(importlib.util.spec_from_loader(loader.name, loader))
    loader.exec_module(module)
    return module


def by_lnc(program, source, name, header, rows, begin, end):
    """Signs the records between two places of a rows file by `lnc run`: its status and what it wrote on both streams."""
    with open(rows, "rb") as file, tempfile.NamedTemporaryFile(suffix=".ln") as text:
        file.seek(begin)
        text.write(source)
        text.flush()
        ran = subprocess.run([program, "run", text.name, name, "/dev/stdin"], input=header + file.read(end - begin), capture_output=True)
    return ran.returncode, ran.stdout, ran.stderr


def by_batch(library, header_file, name, rows, begin, end):
    """The same by the batch call of a library of predicates."""
    large = sample("large.py")
    large.opened(library, header_file, name, rows)
    return 0, large.signs((begin, end)).encode(), b""


def partitions(rows, size):
    """The header of a rows file, then the places between which its partitions lie, each of whole records."""
    with open(rows, "rb") as file:
        at = 0
        for piece in sample("large").pieces(file, size):
            yield piece if at == 0 else (at, at + len(piece))
            at += len(piece)


def signed(client, work, parts, ahead):
    """The results of the partitions in their order, with so many of them under way at once."""
    waiting = collections.deque()
    for begin, end in parts:
        waiting.append(client.submit(*work, begin, end, pure=False, retries=2))
        if len(waiting) == ahead:
            yield waiting.popleft().result()
    while waiting:
        yield waiting.popleft().result()


def main(client, workers, source, name, rows, size):
    began, count, worst = time.monotonic(), 0, 0
    library, _, header_file = source.partition(",")
    lnc = os.environ.get("LNC") or "lnc"
    parts = partitions(rows, size)
    header = next(parts)
    if header_file:
        work = (by_batch, os.path.abspath(library), os.path.abspath(header_file), name, os.path.abspath(rows))
    else:
        # a fault of the source, of the name or of the header is told once
        status = subprocess.run([lnc, "run", source, name, "/dev/stdin"], input=header).returncode
        if status:
            return status
        work = (by_lnc, lnc, Path(source).read_bytes(), name, header, os.path.abspath(rows))
    for status, out, said in signed(client, work, parts, 4 * workers):
        sys.stdout.buffer.write(out)
        sys.stderr.buffer.write(said)
        count += 1
        if status not in (0, 3):
            return status
        worst = max(worst, status)
    sys.stdout.buffer.flush()
    print(f"signs: {count} partitions on {workers} worker{'s' * (workers != 1)} in {time.monotonic() - began:.1f} seconds", file=sys.stderr)
    return worst


if __name__ == "__main__":
    arguments = argparse.ArgumentParser(usage=__doc__)
    for word in ("source", "name", "rows"):
        arguments.add_argument(word)
    arguments.add_argument("--scheduler")
    arguments.add_argument("--workers", type=int, default=2)
    arguments.add_argument("--partition", type=int, default=1 << 22)
    given = arguments.parse_args()
    try:
        from dask.distributed import Client, LocalCluster
    except ImportError:
        print("skipped: Dask isn't installed")
        sys.exit()
    cluster = given.scheduler or LocalCluster(n_workers=given.workers, threads_per_worker=1, dashboard_address=":0")
    with Client(cluster) as client:
        number = len(client.scheduler_info()["workers"])
        status = main(client, number, given.source, given.name, given.rows, given.partition)
    if not given.scheduler:
        cluster.close()
    sys.exit(status)
