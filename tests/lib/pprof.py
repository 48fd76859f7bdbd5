#!/usr/bin/env python3
"""pprof.py FILE: writes the folded stacks of a profile of pprof's, without a library: each line has
a command, functions from the outermost in, and the count of their samples. The fields are those of
profile.proto, read from the bytes alone."""
import collections
import gzip
import sys


def number(data, at):
    """The number at a place, and where the next thing is."""
    out = shift = 0
    while True:
        byte = data[at]
        out, at, shift = out | (byte & 127) << shift, at + 1, shift + 7
        if byte < 128:
            return out, at


def fields(data):
    """The fields of a message: each with its number and its value, a number or bytes."""
    at = 0
    while at < len(data):
        key, at = number(data, at)
        value, at = number(data, at)
        if key & 7 == 2:
            value, at = data[at : at + value], at + value
        elif key & 7:
            sys.exit(f"pprof: a field of kind {key & 7}")
        yield key >> 3, value


def numbers(data):
    """The numbers of a packed field."""
    at = 0
    while at < len(data):
        one, at = number(data, at)
        yield one


def last(data, wanted):
    """The last value of a field, which is 0 if it is not there."""
    return next((value for of, value in reversed(list(fields(data))) if of == wanted), 0)


def main(path):
    with gzip.open(path) as file:
        profile = list(fields(file.read()))

    def all_of(wanted):
        return [value for of, value in profile if of == wanted]

    texts = [text.decode() for text in all_of(6)]
    kinds = [(texts[last(it, 1)], texts[last(it, 2)]) for it in all_of(1)]
    mappings = {last(it, 1): it for it in all_of(3)}
    functions = {last(it, 1): it for it in all_of(5)}
    locations = {last(it, 1): it for it in all_of(4)}
    distinct = {last(it, 3) for it in locations.values()}
    if kinds != [("samples", "count")] or texts[0] or len(distinct) != len(locations):
        sys.exit(f"pprof: {kinds}, first text {texts[0]!r}, {len(locations)} locations")
    if 0 in (*mappings, *functions, *locations):
        sys.exit("pprof: a thing has the number 0")

    def name_of(location):
        if last(mappings[last(location, 2)], 7) != 1:
            sys.exit("pprof: a mapping has no functions")
        function = functions[last(last(location, 4), 1)]
        return " ".join(filter(None, (texts[last(function, 2)], texts[last(function, 4)])))

    counts = collections.Counter()
    for sample in all_of(2):
        label = last(sample, 3)
        command = texts[last(label, 2)] if texts[last(label, 1)] == "comm" else sys.exit("no comm")
        places = list(numbers(last(sample, 1) or b""))
        words = [name_of(locations[place]) for place in reversed(places)]
        (count,) = numbers(last(sample, 2))
        counts[";".join([command.replace(";", ":"), *words])] += count
    for line, count in sorted(counts.items()):
        print(line, count)


if __name__ == "__main__":
    main(*sys.argv[1:])
