#!/usr/bin/env python3
"""calls.py PROGRAM LIBRARY: refuses each request for memory of refused_calls in turn, as
tests/refused_calls.sh says, on tables of 1, 7, 64 and 300 items.

LIBRARY, made of refuse.c, stands in front of the C library and refuses one request.
"""
import os
import subprocess
import sys
import tempfile

ITEMS = (1, 7, 64, 300)


class Program:
    """The program on tables of so many items, with a folder for what the library writes."""

    def __init__(self, program, library, items, folder):
        self.words, self.mark, self.counts = [program, str(items)], f"{folder}/mark", f"{folder}/counts"
        self.library = library

    def run(self, **more):
        """What the program writes, and whether it told of an error."""
        ran = subprocess.run(self.words, env={**os.environ, "LD_PRELOAD": self.library, **more}, stdin=subprocess.DEVNULL, capture_output=True)
        return ran.stdout.splitlines(keepends=True), ran.stderr

    def refused(self, request):
        """The same where this request is refused, and whether it came."""
        lines, error = self.run(REFUSED_REQUEST=str(request), REFUSAL_MARK=self.mark)
        came = os.path.exists(self.mark)
        if came:
            os.remove(self.mark)
        return lines, error, came

    def ample(self):
        """The lines with ample memory, and the number of requests before each."""
        lines, _ = self.run(REQUESTS_COUNTED=self.counts)
        with open(self.counts, encoding="ascii") as file:
            return lines, [int(it) for it in file]


def updates_of(lines, counts):
    """How many updates were made, within whose steps no request may come."""
    updates, before = 0, None
    for line, count in zip(lines, counts):
        if line.startswith(b"steps begin"):
            before = count
        elif line.startswith(b"steps end"):
            if count != before:
                sys.exit("refused_calls: a request within the steps")
            updates += 1
    return updates


def begins(lines, error, ample):
    """Whether the lines are a beginning of the ample ones, and then `refused 7`, or an error if a line
    could not be written."""
    if lines[-1:] == [b"refused 7\n"]:
        lines = lines[:-1]
    elif not error:
        return False
    return lines == ample[: len(lines)]


def try_all(program, items):
    """Refuses each request in turn, until a run meets no refusal."""
    ample, counts = program.ample()
    updates, whole, request, came = updates_of(ample, counts), 0, 0, True
    while came:
        request += 1
        lines, error, came = program.refused(request)
        if lines == ample and not error:
            whole += 1
        elif not begins(lines, error, ample):
            sys.exit(f"refused_calls {items}: request {request} refused, and then: {b''.join(lines).decode()}{error.decode()}")
    if not updates or whole < 2:
        sys.exit(f"refused_calls {items}: no update, or no call that was made once more")
    print(
        f"refused_calls: tables of {items} items: {request - 1} requests, {whole - 1} of them refused to a call that came to the same "
        f"when it was made once more; no request within the steps of {updates} updates",
        flush=True,
    )


def main(program, library):
    for items in ITEMS:
        with tempfile.TemporaryDirectory() as folder:
            try_all(Program(program, library, items, folder), items)


if __name__ == "__main__":
    if len(sys.argv) != 3:
        sys.exit("usage: calls.py PROGRAM LIBRARY")
    main(*sys.argv[1:])
