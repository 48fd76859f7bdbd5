"""How the addresses of a log are answered, by plain slow programs: by a listing of symbols alone, or
with one of modules beside it; as they are, moved, and as those of callers."""

import re

from expected import LINE, LONGEST, Plain, read

LETTERS_OF_DATA = b"bBdDrR"
SIZE = re.compile(rb".*\+0x[0-9a-f]+/0x([0-9a-f]+)\Z", re.DOTALL)


def is_narrow(listing):
    """Whether the listing is that of a 32-bit kernel."""
    lines = [LINE.fullmatch(line) for line in listing.split(b"\n") if len(line) <= LONGEST]
    digits = [len(line[1]) for line in lines if line]
    return bool(digits) and max(digits) <= 8


class BySymbols(Plain):
    """By the symbols alone."""

    def __init__(self, listing, bounds):
        super().__init__(listing, bounds)
        self.narrow = is_narrow(listing)
        self.listed = read(listing)[0]
        self.first = min([*(region.start for region in self.kernel), *self.starts()], default=None)

    def is_narrow(self):
        return self.narrow

    def is_in_range(self, address):
        """Whether the address is not below the first region."""
        return self.first is not None and address >= self.first

    def is_data(self, address):
        """Whether data begins at the address: the first symbol listed there has such a letter."""
        here = [s for s in self.kept if s.module == self.owner(address) and s.address == address]
        return bool(here) and here[0].letter in LETTERS_OF_DATA

    def base(self):
        """Where the kernel begins: at its first `_text`, or else `_stext`."""
        for name in (b"_text", b"_stext"):
            for symbol in self.listed:
                if symbol.module is None and symbol.name == name:
                    return symbol.address
        return None

    def sizes(self, name):
        """The sizes of the kernel's own symbols of this name."""
        own = [s for s in self.kept if s.module is None and s.name == name]
        return {int(SIZE.match(self.answer(s.address))[1], 16) for s in own}

    def same(self, address):
        """The names of the symbols at the place of the answer's."""
        owner = self.owner(address)
        near = [s for s in self.kept if s.module == owner and s.address <= address]
        nearest = max((s.address for s in near), default=None)
        return {s.name for s in near if s.address == nearest}


class ByModules(BySymbols):
    """With a listing of modules, each in one region, which are apart."""

    def __init__(self, listing, modules):
        words = [line.split() for line in modules.splitlines()]
        self.modules = {w[0]: range(int(w[5], 16), int(w[5], 16) + int(w[1])) for w in words}
        super().__init__(listing, None)

    def is_kept(self, symbol):
        return symbol.address in (self.region_of(symbol) or ())

    def starts(self):
        return [region.start for region in self.modules.values()]

    def region_of(self, symbol):
        return self.modules.get(symbol.module) if symbol.module else self.region_of_kernel(symbol.address)

    def owner(self, address):
        return next((name for name, region in self.modules.items() if address in region), None)

    def region(self, address):
        return self.modules[self.owner(address)]

    def answer(self, address, told=None):
        owner = self.owner(address)
        if owner and not any(s.module == owner and s.address <= address for s in self.kept):
            return b"? [%s]" % owner
        return super().answer(address, told)


class Rule:
    """How the addresses of a log are taken: N lower, and which for return addresses."""

    def __init__(self, offset, callers):
        self.offset, self.callers = offset, callers

    def words(self):
        return ["--offset", hex(self.offset)] * bool(self.offset) + [self.callers] * bool(self.callers)

    def answer(self, plain, address, is_return):
        lower = address - self.offset
        if lower < 0 or is_return and lower == 0:
            return b"-"
        return plain.answer(lower - is_return, lower)

    def is_data(self, plain, address):
        return address >= self.offset and plain.is_data(address - self.offset)

    def is_in_range(self, plain, address):
        return address >= self.offset and plain.is_in_range(address - self.offset)

    def agrees(self, plain, address, is_return, name):
        """Whether the name is that of the address's answer, or of another symbol where that one is."""
        return name in plain.same(address - self.offset - is_return)
