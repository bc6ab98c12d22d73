"""Rows of `run` beside the definitions: the first byte of each line that lnc writes has to be the byte that a plain program of the definitions says
(guarantee.py), and `!` beside its `?`. Prints each row that differs, and then how many rows there were. Usage, at the top of the repository:

worked.py LNC PLAIN worked                  the worked ones: each rows file of examples/ with each source beside it, what README.md and examples/README.md
                                            show of `lnc run`, and commands_table.py, whose lines were worked out by hand and are compared too
worked.py LNC PLAIN made FILE SEED COUNT    the rows of bin/rows for each predicate of a source; every second one is nearly degenerate"""
import importlib.util
import os
import re
import subprocess
import sys
import tempfile
from collections import Counter
from pathlib import Path

from commands_table import CASES

KEEP = """#!/bin/sh
[ "$1" = run ] || exec "$LNC" "$@"
kept=$(mktemp -d "$KEPT/XXXXXX"); cat "$2" >"$kept/s.ln"; echo "$3" >"$kept/name"; cat "$4" >"$kept/r.csv"
"""


def bytes_of(text):
    return text.encode() if isinstance(text, str) else text


def predicates(lnc, source):
    return re.findall(r"^(\w+) sites", subprocess.run([lnc, "check", source], capture_output=True, text=True).stdout, flags=re.M)


def from_files(lnc):
    for source in sorted(Path("examples").glob("*/*.ln")):
        for rows in sorted(source.parent.glob("*.csv")):
            for name in predicates(lnc, source):
                yield source.read_bytes(), name, rows.read_bytes(), None


def from_documents(lnc):
    """What the commands of each block that shows `lnc run` give it."""
    with tempfile.TemporaryDirectory() as place:
        keep, kept = Path(place, "keep"), Path(place, "kept")
        keep.write_text(KEEP)
        keep.chmod(0o755)
        kept.mkdir()
        for page in ("README.md", "examples/README.md"):
            for block in re.findall(r"^```console\n(.*?)^```$", Path(page).read_text(), flags=re.M | re.S):
                for command in re.findall(r"^\$ (.*)$", block, flags=re.M) if "bin/lnc run " in block else []:
                    env = {**os.environ, "LNC": lnc, "KEPT": str(kept), "TMPDIR": place}
                    subprocess.run(["bash", "-c", command.replace("bin/lnc", str(keep))], env=env, capture_output=True)
        for folder in sorted(kept.iterdir()):
            yield (folder / "s.ln").read_bytes(), (folder / "name").read_text().strip(), (folder / "r.csv").read_bytes(), None


def from_table(lnc):
    for words, files, status, out, err in (case for cases in CASES.values() for case in cases):
        if words[:1] == ["run"] and out:
            yield bytes_of(files[words[1]]), words[2], bytes_of(files[words[3]]), out


def made(lnc, source, seed, count):
    for name in predicates(lnc, source):
        rows = subprocess.run(["bin/rows", source, name, seed, count], env={**os.environ, "LNC": lnc}, capture_output=True, check=True).stdout
        yield Path(source).read_bytes(), name, rows, None


def differing(lnc, plain, name, source, rows, wanted):
    """Prints the rows that differ; returns the bytes of the definitions, none where neither takes the header."""
    ran = subprocess.run([lnc, "run", source, name, rows], capture_output=True, text=True)
    lines = [line[0] for line in ran.stdout.splitlines()]
    try:
        said = list(plain.RunWritesSigns(source, name, rows))
    except SystemExit as end:
        if ran.stderr != "error header\n":
            print(f"{name}: {end}, and lnc ends with {ran.returncode}")
        return []
    if len(lines) != len(said):
        print(f"{name}: lnc writes {len(lines)} lines, and the definitions say {len(said)}")
    by_hand = [line[0] for line in wanted.splitlines()] if wanted else said
    for number, (line, byte, hand) in enumerate(zip(lines, said, by_hand), 1):
        if line.replace("!", "?") != byte or hand.replace("!", "?") != byte:
            print(f"{name}, record {number}: lnc writes {line}, the definitions say {byte}" + (f", by hand it is {hand}" if wanted else ""))
    return said


def main(lnc, path, kind, *words):
    spec = importlib.util.spec_from_file_location("plain", path)
    plain = importlib.util.module_from_spec(spec)
    spec.loader.exec_module(plain)
    tables, seen = {"made": [made]}.get(kind, [from_files, from_documents, from_table]), set()
    with tempfile.TemporaryDirectory() as folder:
        source, rows = Path(folder, "s.ln"), Path(folder, "r.csv")
        for table in tables:
            number, counts = 0, Counter()
            for text, name, records, wanted in table(lnc, *words):
                if (text, name, records, wanted) in seen:
                    continue
                seen.add((text, name, records, wanted))
                source.write_bytes(text)
                rows.write_bytes(records)
                said = differing(lnc, plain, name, source, rows, wanted)
                number += len(said) > 0
                counts.update(said)
            print(f"{table.__name__}: {sum(counts.values())} rows of {number} tables: " + ", ".join(f"{counts[byte]} {byte}" for byte in "+-0?"))


if __name__ == "__main__":
    main(*sys.argv[1:])
