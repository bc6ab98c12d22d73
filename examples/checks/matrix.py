"""Which promises a wrong body was seen to break: for each edit that the prover refused, bin/edits keeps the function and the goal at which it did
(also-must-fail/tried). A promise is a clause of `lnc`, a field of `Keeps`, which is what its clause `kept` says, or an `ensures` of another function that
other crates can call; laws, which have no body, aren't among them. An `ensures` is hit where an edit was refused at it. `lnc` has no body of its own but
calls, so its clauses and the fields are hit by what an edit is against: a line `against: NAME ..` of an edit that was refused names them. Usage, at the
top of the repository:
matrix.py             prints each promise that no edit hits, and how many of how many are hit
matrix.py --compare   prints what README.md has otherwise, and how many edits there are
matrix.py --write     puts the figures into README.md"""
import re
import sys
from collections import Counter
from pathlib import Path

from edits import edits_of, record
from sources import code_of, crates, file_at, functions, is_law, is_tried, public_functions

PAGE, BEGIN, END = Path("README.md"), "<!-- from bin/edits: what edits hit -->", "<!-- to here -->"


def path_of(function):
    return "::".join(filter(None, (function.around, function.name)))


def ensured(function):
    return [name for kind, name, _, _ in function.clauses if kind == "ensures"]


def top():
    """The clauses of `lnc`, and the fields of `Keeps`."""
    lnc = next(function for function in functions(file_at("crates/ln_top/src/top.rt")) if function.name == "lnc")
    fields = re.findall(r"^  pub (\w+) :", file_at("crates/ln_top/specs/Call.antt").named["Keeps"].text, flags=re.M)
    return [name for name in ensured(lnc) if name != "kept"], fields


def promises(crate):
    """The clauses of a crate's public functions, each with its function."""
    return [(path_of(function), name) for function in public_functions(crate) if not is_law(function) and (crate, function.name) != ("ln_top", "lnc")
            for name in ensured(function)]


def hits(crate):
    """The clauses at which edits of a crate were refused, with their functions, and the names that those edits are against. A refusal at a function
    whose name another one of the crate has too hits no clause, since the record doesn't say which it was."""
    refused, found, against = record(crate)[1], set(), set()
    named_so = Counter(path_of(function) for path in code_of(crate) for function in functions(file_at(str(path))))
    alone = {path_of(function): ensured(function)[0] for function in public_functions(crate) if len(ensured(function)) == 1}
    for path in edits_of(crate):
        if path.stem not in refused:
            continue
        function, goal = refused[path.stem]
        named = re.match(r"returns(?:-.*)?-clause-(\w+)", goal)
        if named_so[function] > 1:
            pass
        elif named:
            found.add((function, named[1]))
        elif goal.startswith("returns") and function in alone:
            found.add((function, alone[function]))
        for line in re.findall(r"^against: (.*)$", path.read_text(), flags=re.M):
            against.update(line.split())
    return found, against


def counts():
    """The promises that nothing hits, in order, and for clauses of `lnc`, fields of `Keeps` and other clauses how many are hit and how many there are."""
    unhit, against, hit, every = [], set(), 0, 0
    for crate in crates():
        if is_tried(crate):
            continue
        found, names = hits(crate)
        against |= names
        for promise in promises(crate):
            every += 1
            hit += promise in found
            if promise not in found:
                unhit.append(f"{crate}: {promise[0]}, {promise[1] or 'its ensures'}")
    clauses, fields = top()
    first = [f"lnc: {name}" for name in clauses if name not in against] + [f"Keeps: {name}" for name in fields if name not in against]
    return first + unhit, [(sum(name in against for name in names), len(names)) for names in (clauses, fields)] + [(hit, every)]


def all_edits():
    return sum(len(edits_of(crate)) for crate in crates())


def sentence(figures):
    """What README.md says: without the figures, until bin/edits has kept of each crate where its edits were refused."""
    clauses, fields, others = figures
    said = f"- **That contracts refuse wrong bodies.** The prover has to refuse {all_edits()} edits, each of which makes a body wrong (`bin/edits`)."
    if not all("sources" in record(crate)[0] for crate in crates() if edits_of(crate)):
        return said
    at_lnc = " and ".join(f"`{name}`" for name in sorted({name for crate in crates() for function, name in hits(crate)[0] if function == "lnc"}))
    return (f"{said}\n  By what their authors wrote beside them they break {clauses[0]} of the {clauses[1]} clauses of `lnc` beside `kept`, and {fields[0]} of the {fields[1]} promises of `kept`.\n"
            f"  The prover stops at the first function that doesn't do what it says; `lnc` itself was that only at {at_lnc}, and an inner one for all else.\n"
            f"  Of the {others[1]:,} clauses of other public functions, {others[0]:,} are those at which one was refused. `python3 examples/checks/matrix.py` lists the rest.")


def main():
    unhit, figures = counts()
    page = PAGE.read_text()
    before, begin, rest = page.partition(BEGIN)
    old, end, after = rest.partition(END)
    if not sys.argv[1:]:
        print("\n".join(unhit))
        print(", ".join(f"{hit} of {every}" for hit, every in figures) + ": clauses of lnc, fields of Keeps, clauses of other public functions")
    elif not (begin and end):
        print(f"{PAGE} has no place for the figures of bin/edits")
    elif sys.argv[1:] == ["--write"]:
        PAGE.write_text(before + begin + "\n\n" + sentence(figures) + "\n\n" + end + after)
    else:
        if old.strip() != sentence(figures):
            print(f"{PAGE} has other figures than bin/edits kept, which are:\n{sentence(figures)}")
        print(f"{all_edits()} edits")


if __name__ == "__main__":
    main()
