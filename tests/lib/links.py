#!/usr/bin/env python3
"""links.py FOLDER: follows each link of the pages below a folder, and says which are dead.

Pages are *.md and *.html. A link leads to a file or folder below FOLDER, and `#NAME` to a heading of
that page; one with a scheme (https:) is not followed.
"""
import pathlib
import re
import sys

PASSED_OVER = {".git", "out", "target", "tests"}
IN_PAGE = re.compile(r"\]\(([^()\s]+)\)")
IN_HTML = re.compile(r"<(?:a|img|script|link|iframe)\b[^>]*?\b(?:href|src)=\"([^\"]+)\"")


def text_of(page):
    """The text of a page without its code."""
    text = page.read_text(encoding="utf-8")
    return re.sub(r"^(```.*?^```|    .*?$)", "", text, flags=re.MULTILINE | re.DOTALL) if page.suffix == ".md" else text


def names_in(page):
    """The names that its headings give a link, or its elements."""
    if page.suffix != ".md":
        return set(re.findall(r"\bid=\"([^\"]+)\"", page.read_text(encoding="utf-8")))
    heads = re.findall(r"^#+ (.*)$", text_of(page), re.MULTILINE)
    return {re.sub(r"[^\w\- ]", "", head.lower()).replace(" ", "-") for head in heads}


def dead(page, top):
    """The links of a page that lead nowhere."""
    for link in (IN_PAGE if page.suffix == ".md" else IN_HTML).findall(text_of(page)):
        if re.match(r"[a-z]+:", link):
            continue
        path, _, name = link.partition("#")
        target = (page.parent / path).resolve() if path else page
        if not target.exists() or top not in [target, *target.parents]:
            yield link
        elif name and target.suffix in (".md", ".html") and name not in names_in(target):
            yield link


def main(folder):
    top = pathlib.Path(folder).resolve()
    pages = [it for end in ("md", "html") for it in sorted(top.rglob(f"*.{end}"))]
    pages = [it for it in pages if not PASSED_OVER & set(it.relative_to(top).parts)]
    wrong = [f"links: {page.relative_to(top)}: {link}" for page in pages for link in dead(page, top)]
    print("\n".join(wrong) or f"links: {len(pages)} pages, and none is dead")
    return 1 if wrong or not pages else 0


if __name__ == "__main__":
    sys.exit(main(sys.argv[1]))
