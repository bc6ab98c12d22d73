"""Writes the man pages lnc.1, lnc_c.1 and lnc_exact.1 from the tables of README.md, docs/C.md and docs/LANGUAGE.md and the kinds of bin/why, so that
nothing is said twice. Usage, at the top of the repository: man.py VERSION FOLDER"""
import importlib.machinery
import importlib.util
import re
import sys
from pathlib import Path

sys.dont_write_bytecode = True

SEE = {"lnc": "lnc_c(1), lnc_exact(1)", "lnc_c": "lnc(1)", "lnc_exact": "lnc(1), lnc_c(1)"}
SHORT = {
    "lnc": "compiles geometric predicates to exact C, and runs them",
    "lnc_c": "calls functions of emitted C by the written meaning of C",
    "lnc_exact": "writes C for geometric predicates, without filters",
}
LONG = {
    "lnc": "A predicate is the sign of a polynomial in integer coordinates with declared ranges. Its sign on a row is that of the predicate at points that are "
    "moved by infinitesimals, so that without params it is never 0.",
    "lnc_c": "FILE is C of the subset that `lnc emit` and `lnc_exact` write. Each line of CALLS is a call, `NAME INDICES VALUES`. For each the program writes the "
    "sign that the call returns and how much it computed, or that it has no meaning.",
    "lnc_exact": "It writes what `lnc emit FILE` writes, without the functions of filters: each call computes the exact value at once.",
}


def rows(page, head):
    """The rows of the page's first table that has this head."""
    lines = page[page.index(head) :].splitlines()[2:]
    return [[cell.strip() for cell in line.strip("|").split(" | ")] for line in lines[: next(k for k, line in enumerate(lines) if not line.startswith("|"))]]


def roff(text):
    text = re.sub(r"\s*\(\[[^\]]*\]\([^)]*\)\)", "", text)
    text = re.sub(r"\[([^\]]*)\]\([^)]*\)", r"\1", text)
    text = text.replace("\\", "\\e").replace("-", "\\-")
    text = re.sub(r"`([^`]*)`", r"\\fB\1\\fR", re.sub(r"\*\*([^*]*)\*\*", r"\\fI\1\\fR", text))
    return re.sub(r"^([.'])", r"\\&\1", text)


def kinds():
    """The kinds of refusals of a source with what they mean, by bin/why."""
    loader = importlib.machinery.SourceFileLoader("why", "bin/why")
    why = importlib.util.module_from_spec(importlib.util.spec_from_loader("why", loader))
    sys.path.insert(0, "bin")
    loader.exec_module(why)
    return [(kind, means) for kind, means in why.MEANS.items() if kind not in ("long", "read", "predicate", "header")]


def sections(readme, language):
    """What the page of lnc has beside its commands: rows, kinds of refusals, examples."""
    about = language[language.index("## Rows\n") :].split("\n\n")[1].replace("\n", " ")
    yield ".SH ROWS\n" + roff(about) + " For each record a line is written:"
    for line, record in rows(language, "| line | the record |"):
        yield f".TP\n{roff(line)}\n{roff(record)}"
    yield ".SH SOURCES\nThe language is in docs/LANGUAGE.md. A refused source gets one line, \\fBerror\\fR, a kind, and the line and column of its first fault:"
    for kind, means in kinds():
        yield f".TP\n\\fB{kind}\\fR\n{roff(means)}"
    yield ".SH EXAMPLES\nIn the folder share/doc/lnc:\n.nf"
    for block in re.findall(r"^```console\n(.*?)^```$", readme, flags=re.M | re.S):
        yield "\n.RS 2\n" + "\n".join(roff(line) for line in block.replace("bin/lnc", "lnc").splitlines()) + "\n.RE"
    yield ".fi"


def statuses(table):
    for status, means, said in table:
        yield f".TP\n{status}\n{roff(means)}{f': {roff(said)}' if said.strip('|').strip() else ''}"


def page(name, version, forms, status, more):
    return "\n".join(
        [
            f'.TH {name.upper()} 1 "" "lnc {version}" ""',
            f".SH NAME\n{name} \\- {SHORT[name]}",
            ".SH SYNOPSIS",
            "\n.br\n".join(roff(form) for form, _ in forms),
            f".SH DESCRIPTION\n{roff(LONG[name])}",
            *([] if len(forms) < 2 else [".SH COMMANDS", *(f".TP\n{roff(form)}\n{roff(prints)}" for form, prints in forms)]),
            *more,
            ".SH EXIT STATUS\nAfter the colon stands what is on standard error.",
            *statuses(status),
            f".SH SEE ALSO\n{SEE[name]}, \\fBlnc_why \\-\\-help\\fR; README.md and docs in the folder share/doc/lnc.",
            "",
        ]
    )


def main(version, folder):
    readme, c, language = (Path(file).read_text() for file in ("README.md", "docs/C.md", "docs/LANGUAGE.md"))
    head = "| status | means | on standard error |"
    forms = {"lnc": rows(readme, "| command | prints |"), "lnc_c": [["`lnc_c FILE CALLS`", ""]], "lnc_exact": [["`lnc_exact FILE`", "C that is for every row"], ["`lnc_exact turning FILE`", "C of one order, where that is enough"]]}
    more = {"lnc": list(sections(readme, language))}
    for name, text in (("lnc", readme), ("lnc_c", c), ("lnc_exact", c[c.index("## C without filters") :])):
        Path(folder, name + ".1").write_text(page(name, version, forms[name], rows(text, head), more.get(name, [])))


main(*sys.argv[1:])
