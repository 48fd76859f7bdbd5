#!/usr/bin/env python3
"""compare.py DOM TRACES: whether the page that left DOM drew what a plain replay of the steps has.

DOM is the page after tests/watch/drive.js, TRACES the folder of the traces and their steps.
"""
import base64
import json
import pathlib
import re
import sys

sys.path.insert(0, str(pathlib.Path(__file__).resolve().parent.parent / "steps"))
import replay  # noqa: E402


def linked(words, copy, capacity):
    """The nodes that links of a copy lead to."""
    found, to_do = set(), [words.get(1 + copy, 0)]
    while to_do:
        link = to_do.pop()
        if 0 < link <= capacity and link - 1 not in found:
            found.add(link - 1)
            to_do += [words.get(6 + 7 * (link - 1) + 2 * copy + side, 0) for side in (0, 1)]
    return found


def differences(state, shown, capacity, step):
    """What is drawn otherwise than the state has it."""
    words = state["words"]
    stable = words[0] % 2
    if shown["sequence"] != str(words[0]):
        yield "the sequence"
    if not shown["sentence"] or shown["current"] != str(shown["event"]):
        yield "what is told"
    if step["kind"] == "return" and not shown["reason"].startswith("Right: "):
        yield f"the reason: {shown['reason']}"
    if step["kind"] == "retry" and not shown["reason"].startswith("Not used: "):
        yield f"the reason: {shown['reason']}"
    for copy, drawn in enumerate(shown["copies"]):
        if drawn["root"] != str(words.get(1 + copy, 0)):
            yield f"the root of copy {copy}"
        if (drawn["about"] == "stable") != (copy == stable) or not drawn["label"]:
            yield f"what is said of copy {copy}"
        inside = linked(words, copy, capacity)
        if {int(n) for n, node in drawn["nodes"].items() if node["free"] == "0"} != inside:
            yield f"the nodes of copy {copy}"
        for n, node in drawn["nodes"].items():
            at = 3 + 7 * int(n)
            links = at + 3 + 2 * copy
            there = [words.get(w, 0) for w in (at, at + 1, at + 2, links, links + 1)]
            if [node[name] for name in ("a", "b", "tag", "left", "right")] != [str(w) for w in there]:
                yield f"node {n} in copy {copy}"
        walking = {str(r) for r, look in state["readers"].items()
                   if len(look["values"]) > 1 and look["values"][0] % 2 == copy}
        if set(drawn["pins"]) != walking:
            yield f"which readers stand in copy {copy}"
    pending = {r for r, reader in shown["readers"].items() if not reader["done"]}
    if pending != {str(r) for r in state["readers"]}:
        yield "which readers look something up"
    for r, look in state["readers"].items():
        reader = shown["readers"][str(r)]
        values = [] if reader["failed"] else reader["values"]
        if values != [str(v) for v in look["values"]] or reader["loads"] != look["loads"]:
            yield f"the loads of reader {r}"
        tries = reader["tries"] + (1 if reader["failed"] else 0)
        if tries != look["tries"]:
            yield f"the tries of reader {r}"


def main():
    dom = pathlib.Path(sys.argv[1]).read_text()
    found = re.search(r'<pre id="result">([A-Za-z0-9+/=]+)</pre>', dom)
    if not found:
        broken = re.search(r'<pre id="broken">(.*?)</pre>', dom, re.S)
        print(f"watch: the page did not play to its end: {broken[1] if broken else dom[:300]}")
        return 1
    result = json.loads(base64.b64decode(found[1]))
    wrong = [f"the page: {fault}" for fault in result["faults"]]
    count = 0
    folder = pathlib.Path(sys.argv[2])
    names = {path.stem for path in folder.glob("*.steps")}
    if set(result["shown"]) != names:
        wrong.append("other examples than those of the traces")
    for name in sorted(names & set(result["shown"])):
        trace, text = [(folder / f"{name}.{end}").read_text() for end in ("trace", "steps")]
        steps = [json.loads(line) for line in text.splitlines()]
        states = replay.states(trace, text)
        shown = result["shown"][name]
        if len(shown) != len(states):
            wrong.append(f"{name}: {len(shown)} steps are shown of {len(states)}")
        for state, drawn, step in zip(states, shown, steps):
            count += 1
            for what in differences(state, drawn, steps[0]["capacity"], step):
                wrong.append(f"{name}, event {step['event']}: {what}")
    print("\n".join(f"watch: {it}" for it in wrong[:20]) or f"watch: {len(names)} traces, {count} steps as a plain replay has them")
    return 1 if wrong else 0


if __name__ == "__main__":
    sys.exit(main())
