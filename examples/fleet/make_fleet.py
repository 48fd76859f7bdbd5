#!/usr/bin/env python3
# SPDX-License-Identifier: MIT OR Apache-2.0
"""Makes listings and samples of hosts that there are not: make_fleet.py FOLDER HOSTS SYMBOLS SAMPLES

FOLDER/listings/HOST/kallsyms has so many symbols of each host, which has booted at addresses of its
own, and FOLDER/samples/N.csv has so many samples in all, of any host, in 16 files. As in a profile,
few of the symbols have most of the samples.
"""

import pathlib
import random
import sys

FILES = 16
TEXT, MODULES = 0xFFFFFFFF81000000, 0xFFFFFFFFC0000000


def listing(seed, symbols):
    """The lines of a listing."""
    rng = random.Random(seed)
    addr = TEXT + rng.randrange(512) * 0x200000 // 16
    lines = [f"{addr:016x} T _stext"]
    for place in range(symbols):
        addr += rng.randrange(16, 512, 16)
        lines.append(f"{addr:016x} t function_{place}")
    lines.append(f"{addr + 0x1000:016x} T _end")
    addr = MODULES
    for place in range(symbols // 10):
        addr += rng.randrange(16, 512, 16)
        lines.append(f"{addr:016x} t call_{place}\t[module_{place // 100}]")
    return lines


def main(folder, hosts, symbols, samples):
    rng, folder, addresses = random.Random(1), pathlib.Path(folder), {}
    for number in range(hosts):
        host = f"host{number:03}"
        lines = listing(number, symbols)
        (folder / "listings" / host).mkdir(parents=True)
        (folder / "listings" / host / "kallsyms").write_text("\n".join(lines) + "\n")
        addresses[host] = [int(line[:16], 16) for line in lines]
        rng.shuffle(addresses[host])
    (folder / "samples").mkdir()
    names = sorted(addresses)
    for number in range(FILES):
        with open(folder / "samples" / f"{number}.csv", "w") as out:
            for _ in range(samples // FILES):
                host = rng.choice(names)
                starts = addresses[host]
                start = starts[int(len(starts) * rng.random() ** 8)]
                out.write(f"{host},0x{start + rng.randrange(64):x}\n")


if __name__ == "__main__":
    main(sys.argv[1], *map(int, sys.argv[2:5]))
