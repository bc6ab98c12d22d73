"""The list of crates in docs/MAP.md, made from crates.txt. Usage, at the top of the repository:
crates.py compare   prints where the list isn't the one of crates.txt, or a crate has no line that says what it does; then how many it looked at
crates.py write     writes it anew, between the two comments that mark it"""
import re
import sys
from pathlib import Path

END = "<!-- to here -->"


def read():
    """The groups of crates.txt, each with its title and its crates: name, does, proved, tested, and what it depends on."""
    groups, notes = [], []
    for line in Path("crates.txt").read_text().splitlines():
        if line.startswith("# == "):
            groups.append((line[5:], []))
            notes = []
        elif line.startswith("# "):
            notes.append(line[2:])
        elif ":" in line and not line.startswith("#"):
            name, below = line.split(":", 1)
            said = {"does": "", "proved": "", "tested": ""}
            for note in notes:
                kind, colon, text = note.partition(": ")
                said.update({kind: text} if colon and kind in ("proved", "tested") else {"does": note})
            if groups:
                groups[-1][1].append((name.strip(), said, below.split("#")[0].split()))
            notes = []
    return groups


def works(groups):
    for title, crates in groups:
        yield from [f"**{title}**", ""]
        yield from (f"- {name}: {said['does']}" for name, said, _ in crates)
        yield ""


TABLES = [("docs/MAP.md", "what each crate does", works)]


def renew(path, begin, lines, write):
    """Writes the lines of a list anew, between its comment and the next that ends one, or prints where they differ."""
    text = Path(path).read_text()
    if begin not in text:
        print(f"{path}: no line {begin}")
        return
    head, rest = text.split(begin, 1)
    old, tail = rest.split(END, 1)
    new = "\n\n" + "\n".join(lines).strip() + "\n\n"
    if write:
        Path(path).write_text(head + begin + new + END + tail)
    elif old != new:
        wrong = [line for line in old.splitlines() if line not in new.splitlines()] + ["(a line is missing)"]
        print(f"{path}: {begin}: the list isn't the one that is made: {wrong[0]}")


def main():
    groups = read()
    for _, crates in groups:
        for name, said, _ in crates:
            if not said["does"] or not (said["proved"] or said["tested"]):
                print(f"crates.txt: {name} lacks a line that says what it does, or what of it is proved or tested")
    for path, title, made in TABLES:
        renew(path, f"<!-- from crates.txt: {title} -->", made(groups), sys.argv[1:] == ["write"])
    print(f"{sum(len(crates) for _, crates in groups)} crates in {len(groups)} groups")


if __name__ == "__main__":
    main()
