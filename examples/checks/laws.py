"""What docs/MAP.md and docs/THEOREM.md have to name, and name. Prints what is missing or isn't so, and how many crates and
clauses of `lnc` it looked at. Usage, at the top of the repository: laws.py

- Of each crate whose public functions have contracts docs/MAP.md has an entry **CRATE**, which goes to the next entry or heading.
- The entry of a crate names each of its laws in code font. A law is a public function that takes nothing and returns nothing: its contract is a statement
  alone. Public is what other crates can call.
- Where an entry has a public function of the crate, a colon and further names, as `call`: `clause`, `other`, these are names of its clauses, up to
  the next semicolon, colon or full stop; what is in brackets explains them.
- The table of clauses of `lnc` in docs/THEOREM.md has all of them and no other; and that page names each field of `Keeps`."""
import re
from pathlib import Path

from sources import crates, file_at, functions, is_law, is_tried, public_functions

MAP, PAGE = Path("docs/MAP.md").read_text(), Path("docs/THEOREM.md").read_text()


def entries():
    """For each crate the texts of its entries."""
    found = {}
    pieces = re.split(r"(?m)^(?=#)|^- (?=\*\*lnc?_)|(?=\*\*ln[a-z_]*\*\*)", MAP)
    for piece in pieces:
        head = re.match(r"\*\*(lnc?[a-z_]*)\*\*", piece)
        if head:
            found[head[1]] = found.get(head[1], "") + piece
    return found


def unnamed_laws(crate, entry):
    for function in public_functions(crate):
        if is_law(function) and not re.search(rf"`(?:[a-z_]+::)*{function.name}`", entry):
            yield f"{crate}: its law {function.name} isn't named"


def wrong_clauses(crate, entry):
    """The names after a call and a colon that are no clauses of it."""
    known = {}
    for function in public_functions(crate):
        names = known.setdefault(function.name, set())
        names.update(name for _, name, _, _ in function.clauses)
    text = re.sub(r" *\([^()]*\)", "", re.sub(r"\s+", " ", entry))
    for call, after in re.findall(r"`((?:\w+::)*\w+)`: ((?:`\w+`(?:, |))+)", text):
        name = call.split("::")[-1]
        for clause in re.findall(r"`(\w+)`", after):
            if name in known and clause not in known[name]:
                yield f"{crate}: {call} has no clause {clause}"


def main():
    found, count = entries(), 0
    for crate in crates():
        if is_tried(crate):
            continue
        count += 1
        if crate not in found and any(function.clauses for function in public_functions(crate)):
            print(f"{crate}: there is no entry **{crate}**")
            continue
        for fault in (*unnamed_laws(crate, found.get(crate, "")), *wrong_clauses(crate, found.get(crate, ""))):
            print(fault)
    lnc = next(function for function in functions(file_at("crates/ln_top/src/top.rt")) if function.name == "lnc")
    clauses = {name for kind, name, _, _ in lnc.clauses if kind == "ensures"}
    table = set(re.findall(r"^\| `(\w+)` \|", PAGE.partition("| clause | what it says |")[2].partition("\n\n")[0], flags=re.M))
    for name in clauses ^ table:
        print(f"the table of the clauses of lnc: {name} is {'missing' if name in clauses else 'none of them'}")
    keeps = file_at("crates/ln_top/specs/Call.antt").named["Keeps"]
    for field in re.findall(r"^  pub (\w+) :", keeps.text, flags=re.M):
        if f"`{field}`" not in PAGE:
            print(f"the field {field} of Keeps isn't named")
    print(f"{count} crates, {len(clauses)} clauses of lnc")


main()
