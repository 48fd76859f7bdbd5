"""The same as find_many.c by the package for Python; with `make` it writes both files:
find_many.py KALLSYMS ADDRESSES ROUNDS, or find_many.py make KALLSYMS ADDRESSES SYMBOLS COUNT"""
import array
import mmap
import random
import statistics
import sys
import time


def make(kallsyms, addresses, symbols, count):
    rng, addr, starts = random.Random(1), 0xFFFFFFFFC0000000, []
    with open(kallsyms, "w") as out:
        for number in range(symbols):
            addr += rng.randrange(16, 512, 16)
            starts.append(addr)
            out.write(f"{addr:016x} t function_{number}\t[module_{number // 1000}]\n")
    numbers = array.array("Q", (rng.choice(starts) + rng.randrange(64) for _ in range(count)))
    with open(addresses, "wb") as out:
        numbers.tofile(out)


def measure(kallsyms, addresses, rounds):
    import latchsym

    times = []
    with latchsym.Catalog.from_files(kallsyms) as catalog, open(addresses, "rb") as file:
        numbers = memoryview(mmap.mmap(file.fileno(), 0, access=mmap.ACCESS_READ)).cast("Q")
        for _ in range(rounds):
            begin = time.perf_counter()
            catalog.find_many(numbers)
            times.append(time.perf_counter() - begin)
    print(f"{statistics.median(times):.6f}")


if sys.argv[1] == "make":
    make(sys.argv[2], sys.argv[3], *map(int, sys.argv[4:6]))
else:
    measure(sys.argv[1], sys.argv[2], int(sys.argv[3]))
