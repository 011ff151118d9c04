"""Checks the links of the documents: the file must be there, and the heading that an anchor names.

    python3 tools/links.py

It reads README.md, CHANGELOG.md, and the pages of docs/, examples/, tools/ and crates/. Each link that leads nowhere is printed; the
status is then 1. Links to other sites are not followed.
"""

import glob
import os
import re
import sys

TOP = os.path.dirname(os.path.dirname(os.path.abspath(__file__)))
PAGES = ("*.md", "docs/*.md", "examples/*.md", "tools/*.md", "crates/*/README.md")


def text_of(path):
    """Returns a page without its blocks of code."""
    with open(path, encoding="utf-8") as page:
        return re.sub(r"^ *```.*?^ *```$", "", page.read(), flags=re.M | re.S)


def anchors_of(path):
    """Returns the anchors of the headings of a page, as GitHub makes them."""
    found = set()
    for heading in re.findall(r"^#+ (.*)$", text_of(path), re.M):
        shown = re.sub(r"\[([^\]]*)\]\([^)]*\)", r"\1", heading).replace("`", "")
        found.add(re.sub(r"[^\w\- ]", "", shown.strip().lower()).replace(" ", "-"))
    return found


def broken(path):
    """Returns the links of a page that lead nowhere."""
    for link in re.findall(r"\]\(([^)\s]+)\)", re.sub(r"`[^`\n]*`", "", text_of(path))):
        if re.match(r"\w+:", link):
            continue
        name, _, anchor = link.partition("#")
        target = os.path.normpath(os.path.join(os.path.dirname(path), name)) if name else path
        if not os.path.exists(target):
            yield f"{link}: there is no such file"
        elif anchor and anchor not in anchors_of(target):
            yield f"{link}: the page has no such heading"


def main():
    pages = sorted(page for pattern in PAGES for page in glob.glob(os.path.join(TOP, pattern)))
    found = [f"{os.path.relpath(page, TOP)}: {what}" for page in pages for what in broken(page)]
    for line in found:
        print(line)
    print(f"{len(pages)} pages, {len(found)} links that lead nowhere")
    return 1 if found else 0


if __name__ == "__main__":
    sys.exit(main())
