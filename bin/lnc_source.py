"""What bin/why and bin/rows share: the program, and the columns of a predicate's rows with their ranges. A source is read here only after `lnc` accepted it;
whether it is one, and what is wrong with it, is asked of `lnc`."""
import os
import re
import subprocess
import sys
from pathlib import Path

HERE = Path(__file__).resolve().parent
TOKEN = re.compile(r"[ \t\n\r]+|//[^\n\x80-\xff]*|\.\.|[A-Za-z_][A-Za-z_0-9]*|[0-9]+|.", re.S)
KEYWORDS = ("site", "param", "predicate", "let", "sign")
SIGNS = (*"{}():;,.+-*^=", "..")


def program():
    """The file of the program: that in LNC, else that of the launcher beside this file, else that of the one on the path."""
    beside, given = HERE / "lnc", os.environ.get("LNC")
    lnc = given or (str(beside) if beside.exists() else "lnc")
    try:
        # (the launcher of a checkout says what it builds first; a program takes --path for a wrong word)
        asked = subprocess.run([lnc, "--path"], stdout=subprocess.PIPE, stderr=subprocess.DEVNULL if given else None, text=True)
    except OSError:
        sys.exit(f"{Path(sys.argv[0]).name}: there is no {lnc}: put lnc on the path, or name it in LNC")
    return asked.stdout.strip() or lnc


def ask(lnc, *words, text=""):
    """Runs the program with these words, and a text as its standard input: its status, and what it wrote on both streams."""
    run = subprocess.run([lnc, *words], input=text.encode("latin-1"), capture_output=True)
    return run.returncode, run.stdout.decode("latin-1"), run.stderr.decode("latin-1")


def tokens(text):
    """The tokens of a text with their places, without blanks and comments."""
    return [(m.start(), m[0]) for m in TOKEN.finditer(text) if not m[0][0] in " \t\n\r" and not m[0].startswith("//")]


class Column:
    """A column of a rows file: its name, its range, and of an index or a coordinate the site."""

    def __init__(self, name, low, high, site=None, is_index=False):
        self.name, self.low, self.high, self.site, self.is_index = name, low, high, site, is_index


def predicates(text):
    """Of an accepted source the columns of each predicate's rows, by name."""
    words = iter([word for _, word in tokens(text)])
    sites, params, found = {}, {}, {}

    def number():
        word = next(words)
        return -int(next(words)) if word == "-" else int(word)

    def range_():
        low = number()
        next(words)
        return low, number()

    def past(*ends):
        """The words up to one of these."""
        return list(iter(lambda: (lambda word: None if word in ends else word)(next(words)), None))

    for kind in words:
        name = next(words)
        if kind == "site":
            next(words)
            sites[name] = coordinates = {}
            for coordinate in iter(words.__next__, "}"):
                next(words)
                coordinates[coordinate] = range_()
                next(words)
        elif kind == "param":
            next(words)
            params[name] = range_()
            next(words)
        else:
            next(words)
            columns = []
            argument_words = past(")")
            past("}")
            for argument, type_ in zip(argument_words[::4], argument_words[2::4]):
                if type_ == "param":
                    columns.append(Column(argument, *params[argument]))
                else:
                    columns.append(Column(argument, 0, 2**63 - 1, argument, True))
                    columns += [Column(f"{argument}.{name_}", *ends, argument) for name_, ends in sites[type_].items()]
            found[name] = columns
    return found


def header(columns):
    return ",".join(column.name for column in columns)
