"""What is said of lemmas and definitions: each public one has a line of its own above it, and each is named somewhere outside of itself: in its
file, by a file that imports it from there, or, if it is of specs/, in a document. Prints those that aren't so, and then how many files it
looked at. Usage, at the top of the repository: proofs.py"""
import re
from collections import Counter, defaultdict
from pathlib import Path

from sources import imports

NAME = r"[A-Za-zℕℤ_][\wℕℤ'²]*(?:[-+][\wℕℤ'²+]+)*"
HEAD = re.compile(rf"^( *)(?:(?:abbrev|unfoldable|opaque) )?(pub )?(?:(?:abbrev|unfoldable|opaque|data|record) )?({NAME}) (?=:|[({{])")
ANSWERS = {"Answers.antt", "Invariants.antt", "Proof.antt", "Lib.antt"}


def depth(line):
    return len(line) - len(line.lstrip())


def code(lines):
    return "\n".join(line for line in lines if not line.lstrip().startswith(("--", "//")))


def around(lines, at):
    """The line that begins the block in which a line is, if there is one."""
    return next((line for line in reversed(lines[:at]) if line.strip() and depth(line) < depth(lines[at])), "")


def end(lines, at, name):
    """Where a lemma ends that begins at this line: its clauses begin with its name."""
    inside = re.compile(rf"^ {{{depth(lines[at])}}}(?:{re.escape(name)}(?![\w'+-])|unfolding |[}})\]])")
    stop = at + 1
    while stop < len(lines) and (not lines[stop].strip() or depth(lines[stop]) > depth(lines[at]) or inside.match(lines[stop])):
        stop += 1
    return stop


TEXTS = {file: file.read_text().split("\n") for kind in ("rt", "antt") for file in Path("crates").rglob(f"*.{kind}") if "out" not in file.parts}
DOCUMENTS = {word for file in [*Path(".").glob("*.md"), *Path("docs").glob("*.md")] for word in re.findall(NAME, file.read_text())}


def module(file):
    return ".".join(("Rattle", *file.parts[1:])).removesuffix(file.suffix)


# the names that files take from a module, by the module's path; and a module's names behind which others stand in a file
IMPORTED, BEHIND = defaultdict(set), defaultdict(set)
for file, lines in TEXTS.items():
    text = "\n".join(lines)
    for lemma in re.findall(r"[\w:]+", " ".join(re.findall(r"using\(([^)]*)\)", text))):
        path, _, name = re.sub(r"^crate\b", file.parts[1], lemma).replace("::", ".").rpartition(".")
        IMPORTED["Rattle." + path].add(name)
    for local, (path, name) in imports(text).items():
        path = path if path.startswith("Rattle.") else f"{module(file)}.{path}"
        if name:
            IMPORTED[path].add(name)
        else:
            BEHIND[path] |= set(re.findall(rf"(?<![\w'+-]){re.escape(local)}\.({NAME})", code(lines)))


def words(lines):
    return Counter(re.findall(NAME, code(line for line in lines if not re.match(r"(?:pub )?use ", line))))


def is_named(file, lines, at, name):
    """Does something name this lemma or definition, or a constructor of it, outside of itself?"""
    own = lines[at:end(lines, at, name)]
    names = [name]
    if re.match(r" *(?:pub )?data ", own[0]):
        names += [word for line in own[1:] for word in re.findall(NAME, line.partition(" :")[0])]
    inside, known = words(own), IMPORTED[module(file)] | BEHIND[module(file)] | (DOCUMENTS if "specs" in file.parts else set())
    return any(word in known or WORDS[file][word] > inside[word] for word in names)


WORDS = {file: words(lines) for file, lines in TEXTS.items() if file.suffix == ".antt"}
files = 0
for file, lines in sorted(TEXTS.items()):
    if file.suffix != ".antt" or file.name in ANSWERS or not {"proofs", "specs"} & set(file.parts):
        continue
    files += 1
    for at, line in enumerate(lines):
        head = HEAD.match(line)
        if not head or re.match(r" *(?:pub )?(?:use|mod|module|syntax|where|let|in|rw)\b", line):
            continue
        block, name = around(lines, at), head[3]
        if block and not block.lstrip().startswith("module "):
            continue
        above = lines[at - 1].lstrip() if at else ""
        if head[2] and (not above.startswith("--") or above.startswith("-- ----")):
            print(f"{file}: line {at + 1}: {name} has no line of its own")
        if not is_named(file, lines, at, name):
            print(f"{file}: line {at + 1}: nothing names {name}")
print(f"{files} files")
