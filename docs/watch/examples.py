#!/usr/bin/env python3
"""Writes the examples of examples/traces into the page beside this file, each trace and its steps.

With --check it writes nothing, and ends with status 1 where the page has something else.
"""
import pathlib
import sys

HERE = pathlib.Path(__file__).resolve().parent
TRACES = HERE.parent.parent / "examples" / "traces"
BEGIN, END = "<!-- examples -->\n", "<!-- end of examples -->\n"
# in which order to watch them; the others follow by name
FIRST = ["one_insert", "several_nodes", "first_half", "second_half", "second_attempt_old", "slept_through", "torn_item", "every_stop"]


def names():
    found = sorted(path.stem for path in TRACES.glob("*.steps"))
    return [name for name in FIRST if name in found] + [name for name in found if name not in FIRST]


def example(name):
    trace = (TRACES / f"{name}.trace").read_text()
    steps = (TRACES / f"{name}.steps").read_text()
    return (
        f'<script type="text/plain" data-trace="{name}">\n{trace}</script>\n'
        f'<script type="application/x-ndjson" data-steps="{name}">\n{steps}</script>\n'
    )


def main():
    page = HERE / "index.html"
    text = page.read_text()
    before, rest = text.split(BEGIN)
    after = rest.split(END)[1]
    made = before + BEGIN + "".join(example(name) for name in names()) + END + after
    if sys.argv[1:] == ["--check"]:
        if made != text:
            print("docs/watch/index.html: other examples than examples/traces; run docs/watch/examples.py")
            return 1
    else:
        page.write_text(made)
    return 0


if __name__ == "__main__":
    sys.exit(main())
