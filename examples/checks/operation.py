"""The table of CONTRIBUTING.md that says where an operation of the language has an arm, made from the sources: the files that name the unary minus,
by crate, in its code, its definitions and its lemmas. Usage, at the top of the repository:
operation.py compare   prints where the table isn't that of the sources, and how many rows it has
operation.py write     writes it anew, between the two comments that mark it"""
import re
import sys
from pathlib import Path

from crates import read, renew

IMPORT = re.compile(r"^\s*(?:ghost |pub )*(?:abbrev )?use .*", re.M)
COMMENT = re.compile(r"(?:--|//).*")
# how the minus of expressions is named: in trees of each kind, and as a token; and that of the stack machine and of listings
OF_TREES = re.compile(r"(?<!\bOp::)(?<!\bVerb::)(?<!\bop\.)(?<!\bverb\.)(?<![\w'])(?:[TFW]?Neg'?)(?![\w'(])|\b(?:Node|FitOp)::Neg\b|\bNeg\(Box|\bFNeg\b")
OF_MACHINE = re.compile(r"\b(?:Op::|Verb::|op\.|verb\.)Neg\b|\bNegOp\b|\bNeg\(Width\)")
MINUS_OF_JUDGE = re.compile(r"\bfn (?:of_)?minus\b")
OP_IMPORTED = re.compile(r"\b(?:Op|Verb)\.TheVariants\.\{[^}]*\bNeg\b(?! as)")
TOKENS, MACHINE = {"ln_lex", "ln_syntax", "ln_names", "ln_parse"}, {"ln_code", "ln_cemit", "ln_cert", "ln_verify"}


def arms(crate, path):
    """Whether a file has an arm for a minus of expressions, and for one of the machine, whose rules say of which tree a value is."""
    text = path.read_text()
    if crate == "ln_verify" and MINUS_OF_JUDGE.search(text):
        return False, True
    if "Neg" not in text and not (crate in TOKENS and "Minus" in text):
        return False, False
    body = COMMENT.sub("", IMPORT.sub("", text))
    if crate in MACHINE:
        typed = bool(re.search(r"\bTNeg\b", body))
        return typed, bool(re.search(r"\bNeg\b", body)) and not typed
    if OP_IMPORTED.search(text):
        return bool(re.search(r"\b(?:tree\.|T|F|W)Neg\b", body)), bool(re.search(r"\bNeg\b", body))
    return bool(OF_TREES.search(body) or crate in TOKENS and re.search(r"\bMinus\b", body)), bool(OF_MACHINE.search(body))


def rows(groups, which):
    yield from ["| crate | `src` | `specs` | `proofs` |", "|---|---|---|---|"]
    for crate in [name for _, crates in groups for name, _, _ in crates if not name.startswith("ln_trial")]:
        found = [" ".join(str(path.relative_to(Path("crates", crate, part)).with_suffix("")) for path in sorted(Path("crates", crate, part).rglob("*.*")) if path.suffix in (".rt", ".antt") and arms(crate, path)[which])
                 for part in ("src", "specs", "proofs")]
        if any(found):
            yield f"| {crate} | " + " | ".join(found) + " |"


if __name__ == "__main__":
    groups, count = read(), 0
    for which, title in enumerate(("an operation of expressions", "an operation of the machine")):
        table = list(rows(groups, which))
        count += len(table) - 2
        renew("CONTRIBUTING.md", f"<!-- from the sources: {title} -->", table, sys.argv[1:] == ["write"])
    print(f"{count} rows")
