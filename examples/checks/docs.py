"""What is said of the repository in its documents, by the repository: lines of docs/ have at most 200 letters, those of the sources of crates/ at most
160; each link leads to a file and a heading that are there; each name `ln_crate::name` is in that crate, and of the pages on code each name in code
font in some crate; each file of definitions or lemmas that is named is there; what is said of nanoseconds a call is the table of docs/C.md. Prints
what is wrong, and then how much it looked at. Usage, at the top of the repository: docs.py"""
import re
from pathlib import Path

PAGES = [*map(Path, ["README.md", "CONTRIBUTING.md", "CHANGELOG.md", "examples/README.md"]), *sorted([*Path("docs").glob("*.md"), *Path("predicates").glob("*.md")])]


def anchors(text):
    """The names of a page's headings in links."""
    heads = re.findall(r"^#+ (.*)$", re.sub(r"```.*?```", "", text, flags=re.S), flags=re.M)
    return {re.sub(r"[^\w\- ]", "", head.strip().lower()).replace(" ", "-") for head in heads}


def links(page, text):
    for target in re.findall(r"\]\(([^)\s]+)\)", text):
        LOOKED["links"] += 1
        if "://" in target:
            continue
        path, _, head = target.partition("#")
        file = (page.parent / path) if path else page
        if not file.exists():
            yield f"no file {target}"
        elif head and head not in anchors(file.read_text()):
            yield f"no heading {target}"


def sources(crate):
    """The text of a crate's code and definitions."""
    files = [*Path("crates", crate, "src").rglob("*.rt"), *Path("crates", crate, "specs").rglob("*.antt")]
    return "\n".join(file.read_text() for file in files)


def names(text, held={}):
    for crate, path in set(re.findall(r"\b(ln_[a-z_]+)((?:::[A-Za-z_]+)+)", text)):
        if crate not in held:
            held[crate] = sources(crate)
        for name in path.strip(":").split("::"):
            if not re.search(rf"\b{name}\b", held[crate]) and not Path("crates", crate, "src", name + ".rt").exists():
                yield f"no {name} in {crate}: {crate}{path}"


def files(text):
    """A file of definitions is of the crate named before it in the same brackets, or of any."""
    for crate, path in re.findall(r"(?:\b(ln_[a-z_]+), )?\b((?:specs|proofs)/[A-Za-z/_]+\.antt)", text):
        if re.search(r"NAME|FILE", path):
            continue
        if not (Path("crates", crate, path).exists() if crate else list(Path("crates").glob("*/" + path))):
            yield f"no file {crate} {path}"


def identifiers(text):
    """Names in code font with a `_` or a capital inside are somewhere in the crates."""
    for name in set(re.findall(r"`([A-Za-z]+(?:_[A-Za-z]+)+|[A-Z][a-z]+(?:[A-Z][A-Za-z]+)+)`", text)):
        if name not in WORDS:
            yield f"no {name} in the crates"


def figures(page, text, held={}):
    """What calls take, in nanoseconds, is from the least to the most of the table that bench/c makes."""
    if not held:
        lines = Path("docs/C.md").read_text().split("<!-- from bench/c table -->")[1].split("<!-- to here -->")[0].splitlines()
        for name, by, *cells in ([cell.strip(" `") for cell in line.strip("|").split("|")] for line in lines if line.startswith("| `")):
            held[name, by] = tuple(sorted((cell for cell in cells), key=lambda cell: float(cell.replace(",", "")))[::len(cells) - 1])
    some = r"([\d.,]+) to ([\d.,]+) ns"
    for name, *all_of in re.findall(rf"`(\w+)` takes {some}, CGAL's {some}", text):
        for by, said in [("predicates/", all_of[:2]), ("CGAL", all_of[2:])]:
            if held.get((name, by)) != tuple(said):
                yield f"{name} by {by} takes {' to '.join(held.get((name, by), ['nothing']))} in docs/C.md"
    for other in re.findall(r"[\d.,]+ (?:ns|nanoseconds?)\b", re.sub(rf"`\w+` takes {some}, CGAL's {some}", "", text)):
        yield f"a figure that isn't in the table of docs/C.md: {other}"


WORDS, LOOKED = set(), {"pages": 0, "links": 0, "lines of sources": 0}
for file in [*Path("crates").rglob("*.rt"), *Path("crates").rglob("*.antt")]:
    if "out" not in file.parts:
        source = file.read_text()
        WORDS.update(re.findall(r"[A-Za-z_][A-Za-z0-9_]*", source))
        LOOKED["lines of sources"] += source.count("\n")
        for n, line in enumerate(source.splitlines(), 1):
            if len(line) > 160:
                print(f"{file}: line {n} has {len(line)} letters")

for page in PAGES:
    text = page.read_text()
    LOOKED["pages"] += 1
    joined = re.sub(r"\s+", " ", text)
    wrong = [*links(page, text), *names(joined), *files(joined)]
    if page.name in ("SEMANTICS.md", "COMPILER.md", "THEOREM.md", "MAP.md", "LISTING.md", "C.md", "DECISIONS.md"):
        wrong += identifiers(joined)
    if str(page) in ("README.md", "docs/MESHING.md", "docs/FAQ.md", "predicates/README.md"):
        wrong += figures(page, joined)
    if page.parent.name == "docs":
        wrong += [f"line {n} has {len(line)} letters" for n, line in enumerate(text.splitlines(), 1) if len(line) > 200]
    for fault in wrong:
        print(f"{page}: {fault}")
print(", ".join(f"{number} {what}" for what, number in LOOKED.items()))
