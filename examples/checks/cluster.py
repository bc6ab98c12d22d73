"""Ends a worker of a local Dask cluster while examples/dask/signs.py signs rows on two, and compares what came with what `lnc run` wrote; prints how many
partitions there were and how often a worker was ended. Usage, with examples/dask in PYTHONPATH: cluster.py LNC FILE NAME ROWS LINES"""
import logging
import os
import signal
import sys
from pathlib import Path

import signs
from dask.distributed import Client, LocalCluster


def main(lnc, source, name, rows, lines):
    parts = signs.partitions(rows, 1 << 18)
    work = (signs.by_lnc, lnc, Path(source).read_bytes(), name, next(parts), os.path.abspath(rows))
    got, count, ended = b"", 0, 0
    with LocalCluster(n_workers=2, threads_per_worker=1, dashboard_address=":0", silence_logs=logging.CRITICAL) as cluster, Client(cluster) as client:
        workers = list(client.run(os.getpid).values())
        for status, out, said in signs.signed(client, work, parts, 8):
            got += out
            count += 1
            if count in (2, 5):
                os.kill(workers.pop(), signal.SIGKILL)
                ended += 1
    print(f"{count} partitions, {ended} workers ended, {'equal' if got == Path(lines).read_bytes() else 'others'}")


if __name__ == "__main__":
    main(*sys.argv[1:])
