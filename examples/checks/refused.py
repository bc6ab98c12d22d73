"""The places of the crates' code at which an allocator's refusal comes in: each line that names `AllocError` or `AllocFailed`, the errors of std that say so,
`ReportsNoMemory` or `reported_by`, by which another error does, or makes a `NoMemory` of its field. Each is listed with the lines that it stands under, from
its function or impl on, so with the arm that leads to it. An import isn't listed: it may bring these names in as they are, and under no other name.
Usage, at the top of the repository:
refused.py compare   prints where refused.txt has others, and then how many there are
refused.py write     writes refused.txt, for who looks at what changed"""
import re
import sys
from pathlib import Path

LIST = Path("examples/checks/refused.txt")
HEAD = "# Where an allocator's refusal comes in, each with the lines that it stands under (examples/checks/refused.py)\n"
NAMED = re.compile(r"\b(?:AllocError|AllocFailed|ReportsNoMemory|reported_by)\b|\bNoMemory \{")
HIDDEN = re.compile(r"\b(?:AllocError|AllocFailed|NoMemory|ReportsNoMemory|alloc)\s+as\b|\balloc::(?:\{[^}]*)?\*")


def code(text):
    """The lines without comments, and those of imports blank; and the imports, each as one line."""
    text = re.sub(r"//[^\n]*", "", text)
    imports = re.findall(r"^ *(?:pub(?:\([a-z]+\))? )?use [^;]*;", text, flags=re.M)
    for one in imports:
        text = text.replace(one, "\n" * one.count("\n"))
    return text.split("\n"), [" ".join(one.split()) for one in imports]


def depth(line):
    return len(line) - len(line.lstrip())


def under(lines, at):
    """The lines that a line stands under, outermost first, and the line."""
    found, least = [lines[at].strip()], depth(lines[at])
    for line in reversed(lines[:at]):
        # (a body after clauses begins with a brace alone, and its function stands as deep)
        is_head = re.match(r" *(?:pub(?:\([a-z]+\))? )?(?:fn|impl|trait|struct|enum)\b", line)
        if line.strip() and (depth(line) < least or depth(line) == least and is_head and found[-1] == "{") and not re.match(r"\s*(?:[)}\]]|requires|ensures|where)", line):
            least = depth(line)
            found[-1:] = [line.strip()] if found[-1] == "{" else [found[-1], line.strip()]
    return " > ".join(reversed(found))


def places():
    for path in sorted(Path("crates").glob("*/src/**/*.rt")):
        lines, imports = code(path.read_text())
        for one in imports:
            if HIDDEN.search(one):
                yield f"{path}: {one}: a refusal under another name"
        for at, line in enumerate(lines):
            if NAMED.search(line):
                yield f"{path}: {under(lines, at)}"


def main():
    now = list(places())
    if sys.argv[1:] == ["write"]:
        LIST.write_text(HEAD + "".join(one + "\n" for one in now))
        return
    was = LIST.read_text().splitlines()[1:]
    for one in now:
        if one in was:
            was.remove(one)
        else:
            print(f"{LIST} doesn't have {one}")
    for one in was:
        print(f"{LIST} has {one}")
    print(f"{len(now)} places")


main()
