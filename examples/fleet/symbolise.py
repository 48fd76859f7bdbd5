#!/usr/bin/env python3
# SPDX-License-Identifier: MIT OR Apache-2.0
"""Writes the symbol of each sample of many hosts, on a cluster of Dask.

A table of samples is lines `HOST,ADDRESS` in any number of files. LISTINGS/HOST/kallsyms, and
LISTINGS/HOST/modules if it is there, are the listings of a host. Each file of samples gives one of
lines `HOST,ADDRESS,SYMBOL` in the same order and of the same name in the folder OUT.
"""

import argparse
import array
import contextlib
import pathlib
import sys
import threading
import time

import dask
import distributed
import fsspec
import latchsym


class Catalogs:
    """The catalogs of hosts, each opened once in a process, when its first sample comes."""

    def __init__(self):
        self._lock = threading.Lock()
        self._opened = {}

    def of(self, listings, host):
        with self._lock:
            if (listings, host) not in self._opened:
                folder = pathlib.Path(listings, host)
                modules = folder / "modules"
                self._opened[listings, host] = latchsym.Catalog.from_files(
                    folder / "kallsyms", modules if modules.exists() else None
                )
            return self._opened[listings, host]

    def __len__(self):
        return len(self._opened)


CATALOGS = Catalogs()

# A task costs some milliseconds to send. With two for each worker the others go on where one is slow.
TASKS_OF_A_WORKER = 2


def opened():
    """How many catalogs the process has opened."""
    return len(CATALOGS)


def symbolised(lines, listings):
    """The lines of samples, each with its symbol."""
    places = {}
    for place, line in enumerate(lines):
        places.setdefault(line.partition(",")[0], []).append(place)
    out = [""] * len(lines)
    for host, those in places.items():
        begin = len(host) + 1
        addresses = array.array("Q", (int(lines[place][begin:], 16) for place in those))
        for place, text in zip(those, CATALOGS.of(listings, host).texts(addresses)):
            out[place] = f"{lines[place]},{text}\n"
    return out


def symbolise(pairs, listings):
    """Does some files, and returns how many samples they have. Files are anything that fsspec opens."""
    count = 0
    for source, target in pairs:
        with fsspec.open(source, "rt") as file:
            lines = file.read().splitlines()
        with fsspec.open(target, "wt") as file:
            file.writelines(symbolised(lines, listings))
        count += len(lines)
    return count


def tasks_of(pairs, workers):
    """The files in as many tasks as keep all workers busy: two for each, or one for each file."""
    count = min(len(pairs), TASKS_OF_A_WORKER * workers)
    return [pairs[place::count] for place in range(count)]


@contextlib.contextmanager
def engine(scheduler, workers):
    """The cluster of a scheduler, or of so many workers here, or this process alone."""
    if scheduler is None and workers == 0:
        with dask.config.set(scheduler="synchronous"):
            yield None
        return
    with contextlib.ExitStack() as stack:
        if scheduler is None:
            # (a catalog answers one thread at a time, so that a worker is a process of its own)
            scheduler = stack.enter_context(
                distributed.LocalCluster(
                    n_workers=workers, threads_per_worker=1, processes=True, dashboard_address=None
                )
            )
        client = stack.enter_context(distributed.Client(scheduler))
        client.upload_file(__file__)
        yield client


def main(words):
    parser = argparse.ArgumentParser(
        description=__doc__, formatter_class=argparse.RawDescriptionHelpFormatter
    )
    option = parser.add_argument
    option("--scheduler", metavar="ADDRESS", help="that of a cluster, as tcp://HOST:8786")
    option("--workers", type=int, default=0, metavar="N", help="workers of a cluster that is started here")
    option("listings", metavar="LISTINGS", help="the folder of the hosts' listings")
    option("out", metavar="OUT", help="the folder that is written to, which is there")
    option("samples", metavar="SAMPLES", nargs="+", help="a file of samples")
    given = parser.parse_args(words)
    # On a worker this file is a module, and the catalogs of its process are that module's.
    sys.path.insert(0, str(pathlib.Path(__file__).parent))
    from symbolise import opened, symbolise

    pairs = [(source, f"{given.out}/{source.rpartition('/')[2]}") for source in given.samples]
    with engine(given.scheduler, given.workers) as client:
        begin = time.perf_counter()
        workers = len(client.scheduler_info()["workers"]) if client else 1
        tasks = [dask.delayed(symbolise)(task, given.listings) for task in tasks_of(pairs, workers)]
        count = sum(dask.compute(*tasks))
        seconds = time.perf_counter() - begin
        catalogs = client.run(opened).values() if client else [opened()]
    print(
        f"{count} addresses in {seconds:.2f} s, {count / seconds:.0f} a second;"
        f" catalogs of each process: {' '.join(map(str, catalogs))}"
    )


if __name__ == "__main__":
    main(sys.argv[1:])
