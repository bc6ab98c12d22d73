"""What each script of a shell begins with: it forgets what its caller's environment may have for a shell, for grep and for git. With CDPATH `cd bin/..` goes
elsewhere, GIT_DIR names another repository. Prints the scripts that don't, and how many there are. Usage, at the top of the repository: scripts.py"""
import re
from pathlib import Path

FIRST = "unset CDPATH BASH_ENV ENV GREP_OPTIONS GIT_DIR GIT_WORK_TREE GIT_INDEX_FILE"
FOLDERS = (".ci", "bin", "bench", "examples", "predicates", "release")


def scripts():
    for folder in FOLDERS:
        for path in sorted(Path(folder).rglob("*")):
            if path.is_file() and re.match(rb"#!.*\b(?:ba|da|)sh\b", path.read_bytes()[:80]):
                yield path


def main():
    count = 0
    for path in scripts():
        count += 1
        first = next((line for line in path.read_text().splitlines() if line.strip() and not line.startswith("#")), "")
        if first != FIRST:
            print(f"{path}: its first command isn't `{FIRST}`")
    print(f"{count} scripts")


main()
