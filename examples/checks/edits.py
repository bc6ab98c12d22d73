"""The edits of the crates, those in must-fail/, which `rt ci` tries, and those in also-must-fail/, which it doesn't. bin/edits tries both, and keeps in
also-must-fail/tried: the checksum of the sources on which all of a crate's were refused, that is of its code, definitions, proofs and edits, and of the
code and definitions of all crates below it, without blank lines and lines of comments; the logic of the prover; how many edits these are; and of each
edit the function at which it was refused and the goal there. Where TRIED names a folder, records are kept there, in TRIED/NAME, and those count too: so the gate
tries what has no record of these sources (.ci/run). Usage, at the top of the repository:
edits.py compare                prints each crate whose edits weren't tried on the sources as they are by this prover, and each edit that can't be applied;
                                then how many edits it looked at
edits.py stale                  the names of these crates
edits.py sum NAME               the checksum of a crate
edits.py keep NAME SUM SAID W   keeps how the edits of a crate came out, by what the prover said, where each was tried, and prints it; status 1 where not
                                each is refused, and 3 where some wasn't tried and W isn't `all`"""
import hashlib
import os
import re
import shutil
import subprocess
import sys
from functools import cache
from pathlib import Path

from sources import file_at, functions


def below():
    """For each crate of crates.txt the crates of the repository that it names."""
    lines = [line.split("#")[0].split(":") for line in Path("crates.txt").read_text().splitlines()]
    named = {line[0].split()[0]: line[1].split() for line in lines if len(line) == 2}
    return {name: [word for word in words if word in named] for name, words in named.items()}


def closure(name, deps):
    """The crates below one, each once."""
    found = set()
    left = [name]
    while left:
        for dep in deps[left.pop()]:
            if dep not in found:
                found.add(dep)
                left.append(dep)
    return sorted(found)


def lines_of(path):
    """What a source says: its lines without those that are blank or comments alone."""
    kept = [line.strip() for line in path.read_text().splitlines()]
    return "\n".join(line for line in kept if line and not line.startswith(("//", "--")))


def edits_of(name):
    return sorted([*Path("crates", name, "also-must-fail").glob("*.edit"), *Path("crates", name, "must-fail").glob("*.edit")], key=lambda path: path.name)


def sum_of(name, deps):
    total = hashlib.sha256()
    own = [path for part in ("src", "specs", "proofs") for path in Path("crates", name, part).rglob("*.*")]
    others = [path for dep in closure(name, deps) for part in ("src", "specs") for path in Path("crates", dep, part).rglob("*.*")]
    for path in sorted(own) + sorted(others):
        total.update(repr((str(path), lines_of(path))).encode())
    for path in edits_of(name):
        total.update(repr((path.name, path.read_text())).encode())
    return total.hexdigest()


def faults_of(path):
    """Where an edit can't be applied: each of its old texts has to be once in its file, as the changes before it leave that."""
    texts, file, old = {}, None, None
    for line in path.read_text().splitlines():
        kind, _, rest = line.partition(": ")
        if kind == "file":
            file = path.parent.parent / rest
            if not file.is_file():
                yield f"{path}: there is no file {rest}"
                return
            texts.setdefault(file, file.read_text())
        elif kind == "old":
            old = rest
        elif line.startswith("new:"):
            if file is None or texts[file].count(old) != 1:
                yield f"{path}: an old text isn't there once"
                return
            texts[file] = texts[file].replace(old, rest)


@cache
def logic():
    """The logic of the prover that is on the path, or none."""
    rt = shutil.which("rt")
    said = subprocess.run([rt, "version"], stdin=subprocess.DEVNULL, capture_output=True, text=True).stdout if rt else ""
    found = re.search(r"\blogic (\w+)", said)
    return found[1] if found else ""


def place_of(name, tried):
    """Where the record of a crate is: in the folder TRIED, or beside its edits."""
    return Path(tried, name) if tried else Path("crates", name, "also-must-fail", "tried")


def record(name, tried=None):
    """What is kept of a crate: the checksum, the logic and the number of edits, and of each edit the function and the goal."""
    path = place_of(name, tried)
    kept, refused = {}, {}
    for line in path.read_text().splitlines() if path.is_file() else []:
        word, _, rest = line.partition(" ")
        if word in ("sources", "logic", "edits"):
            kept[word] = rest
        else:
            refused[word] = tuple(rest.split(" ", 1))
    return kept, refused


def is_stale(name, deps):
    """Whether a crate's edits weren't tried, all of them, on its sources by this prover."""
    names = {path.stem for path in edits_of(name)}
    total = sum_of(name, deps)
    for tried in {None, os.environ.get("TRIED") or None}:
        kept, refused = record(name, tried)
        known = logic() in ("", kept.get("logic"))
        if kept.get("sources") == total and known and refused.keys() == names and kept.get("edits") == str(len(names)):
            return False
    return True


def at_line(crate, path, number):
    """The function of a file of code at a line."""
    file = file_at(f"crates/{crate}/{path}")
    found = [function for function in functions(file) if function.at < int(number)] if file else []
    return "::".join(filter(None, (found[-1].around, found[-1].name))) if found else "?"


def refusal(crate, said):
    """The function at which the prover refused, and the goal there, by the first line that it said."""
    goal = re.search(r"`([^` ]+)`", said)
    proof = re.search(r"proofs/([\w/+]+)/(?:Answers|Invariants|Proof)\.antt", said)
    place = re.search(r"(src/[\w/]+\.rt):(\d+):", said)
    if proof:
        path = [part for part in proof[1].split("/") if part[:1].isupper()] + [proof[1].split("/")[-1]]
        function = "::".join(dict.fromkeys(path))
    else:
        function = at_line(crate, place[1], place[2]) if place else "?"
    return f"{function} {goal[1] if goal else said}"


def keep(name, total, said, which):
    """Keeps how the edits of a crate came out, where each was tried and refused."""
    text = Path(said).read_text(errors="replace")
    outcome = {path.stem: re.search(rf"^(?:rt: )?must-fail {name}/{path.name}: (.*)", text, flags=re.M) for path in edits_of(name)}
    if which != "all" and not all(outcome.values()):
        return 3
    lines, wrong = [], []
    for edit, found in outcome.items():
        came = found[1] if found else "NOT TRIED"
        if came.startswith("refused, as it must be") and not came.startswith("refused, as it must be (only because"):
            lines.append(f"{edit} {refusal(name, came)}")
        else:
            wrong.append(f"{name}/{edit}: {came}")
    print("\n".join([*wrong, f"{name}: {len(lines)} of {len(outcome)} refused"]), flush=True)
    if wrong:
        return 1
    kept = [f"sources {total}", f"logic {logic()}", f"edits {len(lines)}", *lines]
    path = place_of(name, os.environ.get("TRIED"))
    path.parent.mkdir(parents=True, exist_ok=True)
    path.write_text("\n".join(kept) + "\n")
    return 0


def main():
    deps = below()
    verb, *words = sys.argv[1:] or ["compare"]
    if verb == "sum":
        print(sum_of(words[0], deps))
        return 0
    if verb == "keep":
        return keep(*words)
    stale = [name for name in deps if edits_of(name) and is_stale(name, deps)]
    if verb == "stale":
        print("\n".join(stale))
        return 0
    for name in stale:
        print(f"{name}: its edits weren't all tried on these sources by this prover: bin/edits {name}")
    count = 0
    for name in deps:
        for path in edits_of(name):
            count += 1
            for fault in faults_of(path):
                print(fault)
    print(f"{count} edits")
    return 0


if __name__ == "__main__":
    sys.exit(main())
