"""The numbers of examples/checks/counts.txt: of the commands that each document shows, of the cases of each file of examples/checks, of the edits of
each crate, those of must-fail and those of also-must-fail, and of its tests, `NAME/tests`. Whatever goes, a document's command, a file, a case, an edit
or a test, differs from them. Usage, at the top of the repository:
counts.py compare    prints what is there and isn't as listed, what is listed and isn't there, and sources that are in no module; then how many it looked at
counts.py of NAME    the number of a file of cases, of a document or of a crate's tests
counts.py ran SAID   prints the crates of which not as many tests ran as are listed, by what rt said; then how many ran
counts.py write      lists documents, files with cases, edits and tests as they are; a file's number of cases stays, until a run of examples/check says
                     that it is another"""
import re
import sys
from pathlib import Path

LIST = Path("examples/checks/counts.txt")
DOCUMENTS = ["README.md", "examples/README.md", "docs/TRACES.md"]
HEAD = """# What examples/check has to find, so that nothing goes unseen: of each document the commands that it shows, of each file of examples/checks its
# cases, of each crate its edits in must-fail and in also-must-fail, and its tests (examples/checks/counts.py)
"""
MODULE = re.compile(r"^ *(?:pub(?:\([a-z]+\))? +)?mod (\w+);", flags=re.M)


def listed():
    lines = [line.split() for line in LIST.read_text().splitlines() if line and not line.startswith("#")]
    return {name: tuple(map(int, numbers)) for name, *numbers in lines}


def commands(page):
    """How many commands the console blocks of a document have."""
    blocks = re.findall(r"^```console\n(.*?)^```$", Path(page).read_text(), flags=re.M | re.S)
    return sum(line.startswith("$ ") for block in blocks for line in block.splitlines())


def edits():
    """Of each crate with edits, how many are in must-fail and in also-must-fail."""
    found = {}
    for n, folder in enumerate(("must-fail", "also-must-fail")):
        for path in Path("crates").glob(f"*/{folder}/*.edit"):
            found.setdefault(path.parts[1], [0, 0])[n] += 1
    return {name: tuple(numbers) for name, numbers in found.items()}


def modules(source):
    """The files of a crate's code that its root leads to."""
    roots = [path for path in (source / "lib.rt", source / "main.rt") if path.is_file()]
    found, left = set(), list(roots)
    while left:
        path = left.pop()
        found.add(path)
        folder = path.parent if path in roots else path.with_suffix("")
        left += [folder / f"{name}.rt" for name in MODULE.findall(path.read_text()) if (folder / f"{name}.rt").is_file()]
    return found


def tests():
    """Of each crate with tests, how many there are in its modules."""
    found = {}
    for source in sorted(Path("crates").glob("*/src")):
        number = sum(len(re.findall(r"^ *#\[test\]", path.read_text(), flags=re.M)) for path in modules(source))
        if number:
            found[f"{source.parts[1]}/tests"] = (number,)
    return found


def there(was):
    """What there is, with the numbers of cases as they are listed."""
    found = {page: (commands(page),) for page in DOCUMENTS if Path(page).is_file()}
    found.update({path.name: was.get(path.name, (0,)) for path in sorted(Path("examples/checks").glob("*.sh"))})
    return {**found, **dict(sorted(edits().items())), **tests()}


def compare(was, now):
    for one in sorted(was.keys() | now.keys()):
        if one not in was:
            print(f"{one} isn't in {LIST}")
        elif one not in now:
            print(f"{one} is gone, or has none")
        elif was[one] != now[one]:
            print(f"{one} has {now[one]}, and {was[one]} are listed")
        elif sum(was[one]) < 1:
            print(f"{one} is listed with none")
    count = 0
    for source in sorted(Path("crates").glob("*/src")):
        every, reached = set(source.rglob("*.rt")), modules(source)
        count += len(every)
        for path in sorted(every - reached):
            print(f"{path} is in no module")
    print(f"{len(now)} entries, {count} files of code")


def ran(was, said):
    """What rt says of a crate's tests are the lines of each, how many passed, and that they passed."""
    passed, number = {}, 0
    for line in Path(said).read_text(errors="replace").splitlines():
        found = re.match(r"test result: ok\. (\d+) passed; 0 failed; 0 ignored; 0 filtered out", line)
        end = re.match(r"rt: (\w+): its tests passed", line)
        if found:
            number = int(found[1])
        elif end:
            passed[f"{end[1]}/tests"], number = (number,), 0
    for one in sorted({name for name in was if name.endswith("/tests")} | passed.keys()):
        if passed.get(one) != was.get(one):
            print(f"{one}: {passed.get(one, (0,))[0]} ran, and {was.get(one, (0,))[0]} are listed")
    print(f"{sum(number for number, in passed.values())} tests ran")


def main(verb="", *words):
    was = listed()
    if verb == "of":
        print(*was.get(words[0], ("none",)))
    elif verb == "ran":
        ran(was, words[0])
    elif verb == "compare":
        compare(was, there(was))
    elif verb == "write":
        LIST.write_text(HEAD + "".join(f"{one} {' '.join(map(str, numbers))}\n" for one, numbers in there(was).items()))
    else:
        sys.exit(__doc__)


if len(sys.argv) < 2 or sys.argv[1] not in ("compare", "of", "ran", "write"):
    print(__doc__, file=sys.stderr)
    sys.exit(2)
main(*sys.argv[1:])
