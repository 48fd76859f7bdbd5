#!/usr/bin/env python3
"""lanes.py TIMES CHAIN..: runs commands side by side, as many at once as there are processors.

A chain is a command, or several with ` then ` between them, of which each begins when the one before
has passed. What a command says is printed once it has ended, with its seconds, which TIMES gets too,
a line each. Fails if one failed, once all have ended.
"""
import concurrent.futures
import os
import subprocess
import sys
import threading
import time

MOST = 4
PRINTING = threading.Lock()


def run(command, times):
    """Runs a command, and returns whether it passed."""
    begun = time.time()
    ran = subprocess.run(["bash", "-c", command], stdin=subprocess.DEVNULL, stdout=subprocess.PIPE, stderr=subprocess.STDOUT)
    with PRINTING:
        sys.stdout.buffer.write(ran.stdout)
        told = f"{time.time() - begun:.0f} s: {command}" + (f" FAILED with status {ran.returncode}" if ran.returncode else "")
        print(told, flush=True)
        with open(times, "a", encoding="utf-8") as file:
            print(told, file=file)
    return not ran.returncode


def main(times, chains):
    def all_of(chain):
        return all(run(command, times) for command in chain.split(" then "))

    with concurrent.futures.ThreadPoolExecutor(min(len(os.sched_getaffinity(0)), MOST)) as lanes:
        return 0 if all(list(lanes.map(all_of, chains))) else 1


if __name__ == "__main__":
    if len(sys.argv) < 3:
        sys.exit("usage: lanes.py TIMES CHAIN..")
    sys.exit(main(sys.argv[1], sys.argv[2:]))
