"""Rewrites the listing that examples/c/follow.c follows, and looks at each name that it gives a sample.

    follow.py FOLLOW LATCHSYM [ROUNDS]

Modules come, go and move, each time with names of symbols that no other version of the listing has.
A name has to be the one that `latchsym lookup` gives for the address in the version that stood at
the sample's generation, and its symbol has to lie there by this file's own account. The program may
hold 20 MB more in the end than after a tenth of the rounds; 1,000 listings take some 150.

Before that: a listing that is cut, hidden or gone leaves the one before in its place, and is told
of; and one is taken whose bytes alone have changed, without a line that says so. Where a file of
modules is watched, none is taken before that changes.
"""
import os, pathlib, random, subprocess, sys, tempfile, threading, time

PAGE, START, MODULES, SYMBOLS, MARK = 0x1000, 0xFFFFFFFFC0000000, 60, 40, 1 << 16


class Listing:
    """The modules that are loaded, each with its first page and the number of its load."""

    def __init__(self):
        self.draw, self.loads, self.loaded = random.Random(7), 0, {}

    def change(self):
        for _ in range(5):
            module = self.draw.randrange(MODULES)
            if module in self.loaded and self.draw.random() < 0.4:
                del self.loaded[module]
                continue
            free = set(range(2 * MODULES)) - {page for name, (page, _) in self.loaded.items() if name != module}
            self.loads += 1
            self.loaded[module] = (self.draw.choice(sorted(free)), self.loads)

    def symbols(self):
        """Address and name of each symbol, by rising address, and the number of its module."""
        return sorted(
            (START + page * PAGE + place * 96, f"f{place}_{load}", module)
            for module, (page, load) in self.loaded.items() for place in range(SYMBOLS))

    def text(self, version):
        """The listing, with a length that is its version."""
        lines = "".join(f"{addr:016x} t {name}\t[m{module}]\n" for addr, name, module in self.symbols())
        return lines + "#" * ((version - len(lines)) % MARK)


class Follower:
    """The program with what it has said: the version that each generation shows, and the samples."""

    def __init__(self, program, file, modules="", watched=(), **pipes):
        self.file, self.versions, self.samples, self.memory = file, {}, {}, []
        self.process = subprocess.Popen(
            [program, file, modules, *watched], stdin=subprocess.PIPE, stdout=subprocess.PIPE, text=True, **pipes)

    def hear(self, line):
        """Takes a line; the version that it names, if it is one of a listing."""
        words = line.split()
        if words[0] == "listing":
            generation, version = int(words[1].rstrip(":")), int(words[5]) % MARK
            self.versions[generation] = version
            return version
        generation, addr, text = line.rstrip("\n").split(" ", 2)
        self.samples.setdefault(int(generation), []).append((addr, text))
        return None

    def hear_of(self, version):
        """Waits until a version is shown, for half a minute."""
        late = threading.Timer(30, self.process.kill)
        late.start()
        while (line := self.process.stdout.readline()).endswith("\n") and self.hear(line) != version:
            pass
        late.cancel()
        if not line.endswith("\n"):
            sys.exit(f"follow: version {version} was not shown")

    def is_told(self, text):
        """Has the listing read again, and waits until this is said of it, for half a minute."""
        late = threading.Timer(30, self.process.kill)
        late.start()
        self.tell()
        while (line := self.process.stderr.readline()) and text not in line:
            pass
        late.cancel()
        if not line:
            sys.exit(f"follow: {text!r} was not told")

    def tell(self):
        self.process.stdin.write("\n")
        self.process.stdin.flush()

    def resident(self):
        status = pathlib.Path(f"/proc/{self.process.pid}/status").read_text(encoding="utf-8")
        return int(status.split("VmRSS:")[1].split()[0])

    def end(self):
        self.process.stdin.close()
        for line in self.process.stdout:
            self.hear(line)
        return self.process.wait()


def put(file, text):
    pathlib.Path(file + ".new").write_text(text, encoding="utf-8")
    os.rename(file + ".new", file)


def wrong_names(latchsym, folder, samples, text, symbols):
    """How many samples of one version have a name that it does not give."""
    listing = os.path.join(folder, "one")
    put(listing, text)
    put(listing + ".addresses", "".join(addr + "\n" for addr, _ in samples))
    words = [latchsym, "lookup", "--modules-from-symbols", "--kallsyms", listing, "--addresses", listing + ".addresses"]
    lines = subprocess.run(words, capture_output=True, text=True, check=False).stdout.splitlines()
    own = {name: (addr, module) for addr, name, module in symbols}
    wrong = 0
    for (addr, said), line in zip(samples, lines):
        by_lookup = line.split(" ", 1)[1]
        # (the program leaves the size out)
        name, _, module = by_lookup.partition(" ")
        short = by_lookup if name in "-?" else f"{name.split('/')[0]} {module}"
        place = said.split("+")[0]
        lies = said[0] in "-?" or (
            place in own and own[place][0] + int(said.split("+")[1].split()[0], 16) == int(addr, 16)
            and said.endswith(f"[m{own[place][1]}]"))
        wrong += said != short or not lies
    return wrong


KERNEL = [f"ffffffff8100{place:02x}00 T {name}\n" for place, name in enumerate(("_stext", "one", "two", "_end"))]


def whole(length):
    """A listing of this length, whose module has a symbol of a name of its own."""
    lines = "".join(KERNEL) + f"{START:016x} t load{length}\t[m]\n"
    return lines + "#" * (length - len(lines))


def keeps_the_old(program, file, modules, useless):
    """How many listings are shown where a good one follows each file that is of no use."""
    version = 1000
    put(file, whole(version))
    follower = Follower(program, file, modules, stderr=subprocess.PIPE)
    follower.hear_of(version)
    for changed, text, said in useless:
        kept = pathlib.Path(changed).read_text(encoding="utf-8")
        if text is None:
            os.remove(changed)
        else:
            put(changed, text)
        follower.is_told(said)
        put(changed, kept)
        version += 1
        put(file, whole(version))
        follower.tell()
        follower.hear_of(version)
    before = os.stat(file)
    pathlib.Path(file).write_text(whole(version).replace("load", "lord"), encoding="utf-8")
    os.utime(file, ns=(before.st_atime_ns, before.st_mtime_ns))
    follower.hear_of(version)
    shown = len(follower.versions)
    return shown if not follower.end() and len(follower.versions) == shown else 0


def live(program, folder):
    """Whether listings of no use are told of and not shown, of symbols and of modules."""
    file, modules = os.path.join(folder, "live"), os.path.join(folder, "live.modules")
    put(modules, f"m 4096 1 - Live 0x{START:016x}\n")
    of_symbols = [(file, "".join(KERNEL[:lines]), "note") for lines in range(len(KERNEL))]
    hidden = "".join(f"{0:016x}{line[16:]}" for line in KERNEL)
    of_symbols += [(file, hidden, "every address is 0"), (file, None, "No such file")]
    of_modules = [(modules, f"m 4096 1 - Live 0x{0:016x}\n", "live.modules: every address is 0"), (modules, None, "No such file")]
    shown = [keeps_the_old(program, file, *words) for words in (("", of_symbols), (modules, of_modules))]
    print(f"follow: {shown} listings shown, beside {[len(of_symbols), len(of_modules)]} of no use")
    return shown == [len(of_symbols) + 2, len(of_modules) + 2]


def watches(program, folder):
    """Whether a listing is read again once the watched file has changed, and not before."""
    file, watched = os.path.join(folder, "kallsyms"), os.path.join(folder, "watched")
    put(file, whole(1000))
    put(watched, f"m 4096 1 - Live 0x{START:016x}\n")
    follower = Follower(program, file, watched=[watched])
    follower.hear_of(1000)
    put(file, whole(1001))
    follower.tell()
    time.sleep(0.3)
    put(file, whole(1002))
    put(watched, f"m 8192 1 - Live 0x{START:016x}\n")
    follower.tell()
    follower.hear_of(1002)
    return not follower.end() and sorted(follower.versions.values()) == [1000, 1002]


def main(program, latchsym, rounds):
    listing, kept = Listing(), {}
    with tempfile.TemporaryDirectory() as folder:
        if not watches(program, folder):
            sys.exit("follow: a listing was read again while the watched file stayed")
    with tempfile.TemporaryDirectory() as folder:
        if not live(program, folder):
            sys.exit("follow: a listing of no use was shown")
    with tempfile.TemporaryDirectory() as folder:
        file = os.path.join(folder, "kallsyms")

        def write(version):
            listing.change()
            kept[version] = (listing.text(version), listing.symbols())
            put(file, kept[version][0])

        write(1)
        follower = Follower(program, file)
        follower.hear_of(1)
        early = 0
        for version in range(2, rounds + 2):
            write(version)
            follower.tell()
            follower.hear_of(version)
            if version == rounds // 10:
                early = follower.resident()
        late = follower.resident()
        status = follower.end()
        shown, wrong, count = sorted(follower.versions), 0, 0
        for generation, samples in follower.samples.items():
            at = max(it for it in shown if it <= generation)
            count += len(samples)
            wrong += wrong_names(latchsym, folder, samples, *kept[follower.versions[at]])
    named = sum(text[0] not in "-?" for samples in follower.samples.values() for _, text in samples)
    print(f"follow: {count} samples over {len(shown)} listings, {named} with a name, {wrong} wrong; {early} and {late} kB")
    grew = "sanitize" not in program and late > early + 20000
    return 1 if wrong or status or grew or named < rounds // 10 else 0


if __name__ == "__main__":
    sys.exit(main(sys.argv[1], sys.argv[2], int(sys.argv[3]) if len(sys.argv) > 3 else 1000))
