"""Functions and definitions of different crates that say the same: bodies that are equal up to the names of what they bind, and of more than a few
words. Prints each set of them. Usage, at the top of the repository:
twins.py             functions of src and definitions of specs
twins.py proofs      lemmas too
twins.py names       the names of definitions of specs that stand in several crates, each with its crates
twins.py compare     says which of these are not in twins.txt, and what of twins.txt is no longer so; status 1 where there is one
twins.py write       takes out of twins.txt what is no longer so; it adds nothing, since the list may only shrink"""
import re
import sys
from collections import defaultdict
from pathlib import Path

RUST = re.compile(r"b?'(?:[^'\\]|\\.)'|b?\"(?:[^\"\\]|\\.)*\"|[A-Za-z_]\w*|\d\w*|::|->|=>|\S")
ANTT = re.compile(r"\"[^\"]*\"|[^\s(){};,.]+|\S")
FEWEST = {"src": 16, "specs": 24, "proofs": 60}


def canonical(words, is_name):
    """The words, with each that is a name of its own by its number."""
    numbers = {}
    return tuple(numbers.setdefault(word, f"#{len(numbers)}") if is_name(words, at) else word for at, word in enumerate(words))


def is_local(words, at):
    """A lower-case name that is no field, path, call or macro, which a function binds."""
    after = words[at + 1] if at + 1 < len(words) else ""
    before = words[at - 1] if at else ""
    return re.fullmatch(r"[a-z_]\w*", words[at]) and words[at] not in KEYWORDS and before not in (".", "::") and after not in ("(", "::", "!")


KEYWORDS = set("as break const continue else false fn for if impl in let loop match move mut ref return self true where while Some None Ok Err".split())


def functions(text):
    """The name, the line and the words of the body of each function; its tests are left out."""
    text = re.sub(r"//.*", lambda found: " " * len(found[0]), text).split("#[test]")[0]
    for head in re.finditer(r"\bfn (\w+)", text):
        begin = re.compile(r"^ *\{$|\) (?:-> [^;{]*)?\{$", re.M).search(text, head.end())
        other = re.compile(r"\bfn \w+").search(text, head.end())
        if not begin or other and other.start() < begin.end():
            continue
        depth, at = 1, begin.end()
        while depth and at < len(text):
            depth += {"{": 1, "}": -1}.get(text[at], 0)
            at += 1
        yield head[1], text.count("\n", 0, head.start()) + 1, canonical(RUST.findall(text[begin.end():at - 1]), is_local)


def definitions(text):
    """Those of specs, and lemmas: their clauses, without their own name."""
    heads = list(re.finditer(r"^(?:(?:abbrev|unfoldable|opaque) )?(?:pub )?(?:(?:data|record) )?([^\s(){}:]+) (?=:|[({])", text, re.M))
    for head, after in zip(heads, heads[1:] + [None]):
        if head[1] in ("use", "mod", "module", "where", "syntax", "--"):
            continue
        block = re.sub(r"--.*", "", text[head.start():after.start() if after else len(text)])
        bound = set(re.findall(r"[({λ] ?((?:[^\s(){}:.λ]+ )*?[^\s(){}:.λ]+)(?: :|\.)", block))
        names = {name for group in bound for name in group.split()}
        clauses = re.findall(rf"^{re.escape(head[1])} ([^:=]*)=", block, re.M)
        names |= {name for clause in clauses for name in re.findall(r"[^\s(){}∷]+", clause) if name[0].islower() or name[0] == "_"}
        words = ["@" if word == head[1] else word for word in ANTT.findall(block) if word not in ("pub", "abbrev", "unfoldable", "opaque")]
        yield head[1], text.count("\n", 0, head.start()) + 1, canonical(words, lambda all_, at: all_[at] in names)


def stated(part):
    """Each function or definition of a part of the crates that aren't tests: its file, line, name and words."""
    for path in sorted(Path("crates").glob(f"*/{part}/**/*.*")):
        if path.suffix in (".rt", ".antt") and not path.parts[1].startswith("ln_trial"):
            said = functions(path.read_text()) if path.suffix == ".rt" else definitions(path.read_text())
            for name, line, words in said:
                yield path, line, name, words


def twins(parts):
    found = defaultdict(list)
    for part in parts:
        for path, line, name, words in stated(part):
            if len(words) >= FEWEST[part]:
                found[words].append((path, line, name))
    for words, places in found.items():
        if len({path.parts[1] for path, _, _ in places}) > 1:
            print(f"{len(words)} words:", ", ".join(f"{name} ({path}:{line})" for path, line, name in places))


def shared_names():
    """The names of definitions that stand in several crates, with these; and how many names there are."""
    crates = defaultdict(set)
    for path, _, name, _ in stated("specs"):
        crates[name].add(path.parts[1])
    return {name: sorted(of) for name, of in crates.items() if len(of) > 1}, len(crates)


def compare(write):
    names, all_ = shared_names()
    kept = dict.fromkeys(KEPT.read_text().split())
    new, gone = [name for name in sorted(names) if name not in kept], [name for name in kept if name not in names]
    if write and not new:
        KEPT.write_text("".join(f"{name}\n" for name in kept if name in names))
        gone = []
    for name in new:
        print(f"{name} is defined in {' and '.join(names[name])}: one meaning for each name, in one crate")
    for name in gone:
        print(f"{name} is in {KEPT} and no longer in several crates: twins.py write")
    print(f"{all_} names, {len(new)} more than before in several crates, {len(gone)} fewer")
    return 1 if new or gone else 0


KEPT = Path("examples/checks/twins.txt")


def main():
    match sys.argv[1:]:
        case [] | ["proofs"]:
            twins(["src", "specs", *sys.argv[1:]])
        case ["names"]:
            for name, crates in sorted(shared_names()[0].items()):
                print(f"{name}: {' '.join(crates)}")
        case ["compare" | "write" as word]:
            return compare(word == "write")
        case _:
            print(__doc__, file=sys.stderr)
            return 2
    return 0


sys.exit(main())
