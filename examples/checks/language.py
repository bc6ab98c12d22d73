"""The tables of docs/LANGUAGE.md, each row by the program. Of a row in which a source and an error are in code font, and nothing else is in
their cells, `lnc check` of the source prints the error; of a row of points and pairs, `lnc edges` of the points prints the pairs. Prints how
many rows agree, and those that don't. Usage, at the top of the repository: language.py PROGRAM FOLDER"""
import re
import subprocess
import sys
from pathlib import Path

program, folder = sys.argv[1], Path(sys.argv[2])
agree = {"sources": 0, "points": 0}


def compare(kind, words, wanted):
    """Whether the program prints what is wanted, and nothing else."""
    run = subprocess.run([program, *words], capture_output=True, text=True)
    if (run.returncode, run.stdout, run.stderr) == wanted:
        agree[kind] += 1
    else:
        print(f"{words}: status {run.returncode}, {run.stdout!r}, {run.stderr!r}; the page says {wanted}")


for line in Path("docs/LANGUAGE.md").read_text().splitlines():
    cells = [cell.strip() for cell in line.strip("|").split(" | ")]
    spans = [cell[1:-1] for cell in cells if re.fullmatch(r"`[^`]*`", cell)]
    if len(spans) == 2 and re.match(r"(site|param|predicate) ", spans[0]) and spans[1].startswith("error "):
        source = folder / "source.ln"
        source.write_text(spans[0])
        compare("sources", ["check", source], (1, "", spans[1] + "\n"))
    points = re.findall(r"`(\d+,-?\d+,-?\d+)`", cells[0])
    if points and len(cells) == 2:
        file = folder / "points.csv"
        file.write_text("\n".join(["point,point.x,point.y", *points]) + "\n")
        pairs = re.findall(r"`(\d+ \d+)`", cells[1])
        compare("points", ["edges", "examples/hull/orient.ln", "orient", file], (0, "\n".join(pairs) + "\n", ""))

print(f"{agree['sources']} sources and {agree['points']} sets of points agree")
