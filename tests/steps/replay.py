#!/usr/bin/env python3
"""replay.py TRACE STEPS: whether the lines of STEPS are what `latchsym trace --steps TRACE` may write.

A plain slow machine does what the lines of the trace ask for. It has the words of memory as a dict,
each reader's attempt as the list of the values that it loaded, and the table as a list of items after
each update; which words an update stores, and how many, it takes from the steps, since the trees are
the program's choice. Everything else it works out by itself and compares, member by member. Ends with
a message and status 1 at the first difference. `states` gives the words and readers after each event.
"""
import json
import sys

KINDS = {
    "open": "event line kind version order capacity sequence",
    "begin": "event line kind erase insert steps sequence",
    "store": "event line kind word value sequence",
    "flip": "event line kind word value sequence",
    "start": "event line kind reader address sequence",
    "load": "event line kind reader word value sequence",
    "retry": "event line kind reader address word value loads tries sequence",
    "return": "event line kind reader address word value loads tries tag generation sequence",
}
REFUSALS = {
    "begin": "event line kind of erase insert refused sequence",
    "start": "event line kind of reader address refused sequence",
    "load": "event line kind of reader refused sequence",
}
GREATEST = {1: 2**32 - 2, 2: 2**32 - 2, 3: 2**64 - 2}
EXACT = 2**53


class Wrong(Exception):
    pass


def number(word):
    return int(word, 16) if word.startswith("0x") else int(word)


def written(n):
    """A number as JSON has it: a text where a reader may round it."""
    return n if n < EXACT else str(n)


class Machine:
    """The latched tree of a trace, with what its steps have to say."""

    def __init__(self, header):
        _, version, order, capacity, *start = header.split(" ")
        self.version, self.order, self.capacity = int(version), order, int(capacity)
        self.words = {0: number(start[0]) if start else 0}
        self.opened_at = self.words[0] // 2
        self.tables = [[]]
        self.left = 0
        self.flips = 0
        self.readers = {}

    def word(self, at):
        return self.words.get(at, 0)

    def is_valid(self, item):
        return item[0] < item[1] if self.order == "halfopen" else item[0] <= item[1]

    def holds(self, item, key):
        return item[0] <= key and (key < item[1] if self.order == "halfopen" else key <= item[1])

    def are_apart(self, x, y):
        if self.order == "halfopen":
            return x[1] <= y[0] or y[1] <= x[0]
        return x[1] < y[0] or y[1] < x[0]

    def why_refused(self, erase, insert):
        """The number of the refusal of an update, or None."""
        table = self.tables[-1]
        if self.left:
            return 5
        if any(not self.is_valid(i) for i in insert):
            return 1
        firsts = [i[0] for i in table]
        if any(a not in firsts for a in erase) or len(set(erase)) < len(erase):
            return 3
        rest = [i for i in table if i[0] not in erase]
        for n, item in enumerate(insert):
            if any(not self.are_apart(item, other) for other in rest + insert[:n]):
                return 2
        # a node is free for an update only where neither copy links it before the update
        if len(table) + len(insert) > self.capacity:
            return 4
        if self.word(0) + 2 > GREATEST[self.version]:
            return 6
        return None

    def next_word(self, values, key):
        """The word that an attempt loads after these values, which are those of its order of loads."""
        if not values:
            return 0
        copy = values[0] % 2
        if len(values) == 1:
            return 1 + copy
        link, rest, visits = values[1], values[2:], 0
        while True:
            if link == 0 or link > self.capacity or visits == self.capacity:
                return 0
            node, visits = link - 1, visits + 1
            if len(rest) < 3:
                return 3 + 7 * node + len(rest)
            item, rest = rest[:3], rest[3:]
            if self.holds(item, key):
                return 0
            below = key < item[0]
            if not rest:
                return (6 if below else 7) + 7 * node + 2 * copy
            link, rest = rest[0], rest[1:]

    def found(self, values, key):
        """The item that a whole attempt found, None for none, or False where it was stuck."""
        link, rest, visits = values[1], values[2:-1], 0
        while True:
            if link == 0:
                return None
            if link > self.capacity or visits == self.capacity:
                return False
            visits, item, rest = visits + 1, rest[:3], rest[3:]
            if self.holds(item, key):
                return item
            link, rest = rest[0], rest[1:]


def items_of(step):
    return [(int(i["a"]), int(i["b"]), int(i["tag"])) for i in step["insert"]]


class Replay:
    """What the lines of a trace ask for, against the steps that are said to be theirs."""

    def __init__(self, trace, steps):
        self.lines = trace.split("\n")
        self.steps = steps
        self.at = 0
        self.machine = Machine(self.lines[0])
        self.states = []

    def say(self, why):
        raise Wrong(f"event {self.at - 1}: {why}")

    def take(self, line, **wanted):
        """The next step, which has these members, in their order."""
        if self.at == len(self.steps):
            raise Wrong(f"line {line}: an event is left out at the end")
        step = self.steps[self.at]
        self.at += 1
        kind = step.get("kind")
        names = REFUSALS.get(step.get("of")) if kind == "refusal" else KINDS.get(kind)
        if names is None or list(step) != names.split(" "):
            self.say(f"members {list(step)}")
        wanted.update(event=self.at - 1, line=line)
        for name, value in wanted.items():
            if step.get(name) != value:
                self.say(f"{name} is {step.get(name)!r}, and not {value!r}")
        return step

    def end(self, step):
        """After a step: the sequence that it has is word 0."""
        if step["sequence"] != written(self.machine.word(0)):
            self.say("another sequence")
        readers = {r: dict(look, values=list(look["values"])) for r, look in self.machine.readers.items()}
        self.states.append({"words": dict(self.machine.words), "readers": readers})

    def run(self):
        m = self.machine
        step = self.take(1, kind="open", version=m.version, order=m.order, capacity=m.capacity)
        self.end(step)
        for n, line in enumerate(self.lines[1:], 2):
            if line and not line.startswith("#"):
                self.command(n, line.split(" "))
        if self.at != len(self.steps):
            self.at += 1
            self.say("is one too many")
        return self.states

    def command(self, line, words):
        verb, rest = words[0], words[1:]
        if verb == "insert":
            self.begin(line, [], [tuple(number(w) for w in rest)])
        elif verb == "erase":
            self.begin(line, [number(rest[0])], [])
        elif verb == "batch":
            e, numbers = number(rest[0]), [number(w) for w in rest[2:]]
            self.begin(line, numbers[:e], list(zip(*[iter(numbers[e:])] * 3)))
        elif verb == "write":
            self.write(line, rest[0])
        elif verb == "start":
            self.start(line, number(rest[0]), number(rest[1]))
        else:
            self.read(line, number(rest[0]), number(rest[1]))

    def begin(self, line, erase, insert):
        m = self.machine
        items = [{"a": written(a), "b": written(b), "tag": written(t)} for a, b, t in insert]
        wanted = {"erase": [written(a) for a in erase], "insert": items}
        why = m.why_refused(erase, insert)
        if why:
            step = self.take(line, kind="refusal", of="begin", refused=why, **wanted)
        else:
            step = self.take(line, kind="begin", **wanted)
            m.left, m.flips = step["steps"], 0
            m.tables.append(sorted([i for i in m.tables[-1] if i[0] not in erase] + insert))
        self.end(step)

    def write(self, line, how):
        most = 2**64 if how in ("flip", "end") else number(how)
        while self.machine.left and most:
            kind = self.store(line)
            most -= 1
            if how == "flip" and kind == "flip":
                break

    def store(self, line):
        m = self.machine
        step = self.take(line)
        word, value = step["word"], int(step["value"])
        if word == 0:
            if step["kind"] != "flip" or value != m.word(0) + 1 or m.flips == 2:
                self.say("no such flip")
            m.flips += 1
        elif step["kind"] != "store" or word > 7 * m.capacity + 2:
            self.say("no such store")
        m.words[word] = value
        m.left -= 1
        if not m.left and m.flips != 2:
            self.say("an update ends without two flips")
        self.end(step)
        return step["kind"]

    def start(self, line, reader, key):
        m = self.machine
        wanted = {"reader": reader, "address": hex(key)}
        if reader in m.readers:
            step = self.take(line, kind="refusal", of="start", refused=8, **wanted)
        else:
            step = self.take(line, kind="start", **wanted)
            m.readers[reader] = {"key": key, "values": [], "loads": 0, "tries": 1}
        self.end(step)

    def read(self, line, reader, most):
        m = self.machine
        if reader not in m.readers:
            return self.end(self.take(line, kind="refusal", of="load", reader=reader, refused=9))
        while most and reader in m.readers:
            self.load(line, reader, m.readers[reader])
            most -= 1

    def load(self, line, reader, look):
        m = self.machine
        word = m.next_word(look["values"], look["key"])
        is_last = word == 0 and len(look["values"]) > 0
        look["values"].append(m.word(word))
        look["loads"] += 1
        loaded = {"reader": reader, "word": word, "value": written(m.word(word))}
        wanted = {**loaded, "address": hex(look["key"]), "loads": look["loads"], "tries": look["tries"]}
        item = m.found(look["values"], look["key"]) if is_last else None
        if not is_last:
            step = self.take(line, kind="load", **loaded)
        elif item is False or look["values"][0] != look["values"][-1]:
            step = self.take(line, kind="retry", **wanted)
            look["values"], look["tries"] = [], look["tries"] + 1
        else:
            step = self.take(line, kind="return", generation=written(m.word(0) // 2),
                             tag=written(item[2]) if item else None, **wanted)
            self.check_answer(look["key"], item)
            del m.readers[reader]
        self.end(step)

    def check_answer(self, key, item):
        """The answer is what the table of its generation holds."""
        m = self.machine
        table = m.tables[m.word(0) // 2 - m.opened_at]
        held = [i for i in table if m.holds(i, key)]
        if held != ([tuple(item)] if item else []):
            self.say("the table of this generation holds something else")


def states(trace, text):
    """The words and the readers after each event of these steps, which are seen to be the trace's."""
    if text and not text.endswith("\n"):
        raise Wrong("the last line has no end")
    return Replay(trace, [json.loads(line) for line in text.split("\n")[:-1]]).run()


def main():
    with open(sys.argv[1], encoding="utf-8") as trace, open(sys.argv[2], encoding="utf-8") as steps:
        try:
            states(trace.read(), steps.read())
        except Wrong as wrong:
            print(f"{sys.argv[1]}: {wrong}")
            return 1
    return 0


if __name__ == "__main__":
    sys.exit(main())
