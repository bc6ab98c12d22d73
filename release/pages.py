"""Makes the pages of a release from those of a checkout: README.md says how to install and use the release where it said how to build a checkout (between the
marks `in a checkout` and `in both`), by release/README.md; a link to what a release doesn't have becomes its text. Usage, in the folder of a release that
still has the folder release: pages.py"""
import re
from pathlib import Path

PARTS = re.compile(r"<!-- in a checkout -->\n.*?<!-- in both -->\n\n?", re.S)


def linked(page, text):
    """The text with only those links whose file is there."""

    def link(found):
        path = found[2].partition("#")[0]
        return found[0] if "://" in path or (page.parent / path).exists() else found[1]

    return re.sub(r"\[([^\]]*)\]\(([^)\s]+)\)", link, text)


readme = Path("README.md")
parts = iter([Path("release/README.md").read_text() + "\n"])
readme.write_text(PARTS.sub(lambda _: next(parts, ""), readme.read_text()))
for page in [*Path().glob("*.md"), *Path().glob("*/**/*.md")]:
    if page.parts[0] != "release":
        page.write_text(linked(page, page.read_text()))
