"""Random logs: of lines as kernels and tools write them, of lines that nearly are, and of anything."""

from expected import GREATEST, NAMES
from rules import LONGEST, STEP

# what stands before the text of a line: dmesg, `dmesg -T`, ISO times, journalctl, syslog, /dev/kmsg,
# netconsole, a console of CI
PREFIXES = [
    b"", b"", b"[   52.104290] ", b"[Fri Nov 27 10:11:12 2026] ", b"2026-11-27T10:11:12,123456+00:00 ",
    b"Nov 27 10:11:12 host kernel: ", b"Nov 27 10:11:12 host kernel: [   52.104290] ", b"<4>", b"<4>[   12.345678] ",
    b"6,339,5140900,-;", b"4,12,99,-,caller=T12;", b"12,345,5140900,-,ncfrag=0/9;", b"[   12.345678][   T12] ",
    b"[   12.345678] [    T7] ", b"[    1.000000] [C0] ", b"2026-11-27 10:11:12.123 console: ", b"[10:11:12] ",
]
NEARLY = [
    b"host xkernel: ", b"kernel :", b"kernel:", b"1:10:11:12 ", b"10:11:12: ", b"10:11:12:13 ", b"10:11:1 ", b"10:11:123 x ",
    b"10:11:12[Fri 10:11:12 2026] ", b"10:11:12", b"10:11:12(", b"[1.2", b"1.2] ", b"[a:1] ", b"[1.] ", b"[2:3]", b"[[1.2] ]",
    b";", b"; ", b"a;b ", b"10:11:12 ; ", b"[1.2]; kernel:", b"kernel:10:11:12x y ", b"\t10:11:12\t",
]
LEADS = [b" ", b"  ", b"\t", b" ? ", b" => ", b"#0  ", b" #12 ", b" <IRQ> ", b"[T123] ", b" [ C0 ] ", b"<4>", b"\r"]
LEADS += [b"> ", b"> > ", b"</TASK> ", b"<#DF> ", b"\x1b[32m", b"\x1b[0m\x1b[1;33m ", b"\x1b[m", b"[<0>] "]
NO_LEADS = [b"#", b"# 1", b"<a b>", b"<>", b"[ abc ] ", b"[<1>] ", b"0 ", b"x", b"=", b"[1", b"1]", b"#1x "]
NO_LEADS += [b"\x1b", b"\x1b[", b"\x1b[3", b"\x1b[3:m", b"</>", b"[<0> ]", b"[<0>]\t"]
MARKS = [b"", b"", b"[", b"[<", b"[<", b"([<", b"<", b"(", b"[<(", b"[ <", b"0x", b"0x"]
LABELS = [
    b"ra ", b"lr : ", b"LR=", b"from [<", b" from ", b"LR is at ", b"ra is at: [", b"PC is at ", b"ra  is at ", b"at: ", b"at ",
    b"in: [<", b"in ", b"at : ", b"xfrom ", b"from\t", b"from;", b"<-", b"< -", b"<-(", b"lr:=(<", b"lr x", b" is at ",
    b"RIP: 0010:", b"RIP: 0010:[<", b"EIP: ", b"NIP [", b"xRIP ", b"RIP_ ", b"(NIP)", b"Code: ", b"xCode:", b"Code :",
    b"User PSW : ", b"User  PSW ", b"XUser PSW ", b"User PSWs ", b"Krnl PSW : ", b"Krnl_ ", b"Call Trace: ", b"Call Tracex ",
    b"machine_kexec at ", b" do_one at [", b"] [", b"][", b"]\t[", b"], [", b"]: [",
    b"MMIO ", b"mem : ", b"port:", b"Cause : ", b"Status: ", b"Config=", b"PrId  : ", b"xmem ", b"ACPI: ", b"ACPI ", b"cat;", b";", b"x@", b"@",
]
JOINTS = [b"-", b"--", b"..", b"-0x", b"_", b"+", b" - ", b"->", b"<-"]
CLOSERS = [b"", b"", b"", b">", b">]", b")", b"]", b"]>)"]
ENDS = [b":", b": 00 ff ", b": 0g ff ", b":  00 ", b": 000 ", b";", b".x", b".1", b"."]
HEADINGS = [b"x:", b"stack [", b"]", b"====", b"x: \t\r", b"", b"\r", b" ]", b"x", b"= ="]

# what may stand behind a name that the log has itself
OFFSETS = [b"+0x8/0x10"] * 8 + [b"+0xaF/0x1 [m]", b"+0x/0x10", b"+8/0x10", b"+0xg/0x10", b"+0x8/0x", b"+0x8/10", b"+0x8", b"/0x1", b"", b""]
OFFSETS += [b"+0x%x" % offset for offset in (0, 1, 2, 16)] + [b"+0x%x/0x1" % offset for offset in (0, 1, 2, 16)]


def own_name(draw):
    """A name of the form that the kernel writes, or one that is just none."""
    name = draw.choice(NAMES + [b"do_two", b"?", b"x+y", b"n" * draw.choice([1, 4000, 4096, 60000])])
    return draw.choice([b" "] * 6 + [b" ? "] * 3 + [b" ("] * 2 + [b"", b"  ", b" ?", b" ((", b"\t"]) + name + draw.choice(OFFSETS)


def shown(draw, address):
    """The address in one of the forms that logs have, or in one that is no address."""
    digits = draw.choice([b"%016x"] * 4 + [b"%016X", b"%x", b"%09x", b"%015x", b"%017x", b"%08x", b"%08x", b"%08x"]) % address
    return draw.choice([b""] * 6 + [b"0x", b"0X", b"x", b"_"]) + digits + draw.choice([b""] * 19 + [b"g", b"_"])


def said(draw, plain, rule, address):
    """A beginning of the text of the address's answer, or all of it, perhaps with a build id."""
    text = rule.answer(plain, address, draw.choice([True, False]))
    if draw.randrange(4) == 0 and text.endswith(b"]"):
        text = text[:-1] + draw.choice([b" 0123abcd]", b"4]", b""])
    elif draw.randrange(4) == 0:
        text = text[: draw.randrange(len(text) + 1)]
    return draw.choice([b" ", b" ", b" ? ", b" (", b"  ", b" ?", b"("]) + text


def address_word(draw, plain, rule, addresses):
    address = min(draw.choice(addresses) + rule.offset, GREATEST)
    text = draw.choice(MARKS) + shown(draw, address) + (draw.choice(CLOSERS) if draw.randrange(6) else draw.choice(ENDS))
    kind = draw.randrange(8)
    if kind == 0:
        text += own_name(draw)
    elif kind < 3:
        text += said(draw, plain, rule, address)
    elif kind == 3:
        # the number once more
        text += draw.choice([b" ", b" ? ", b": ", b" = ", b" ("]) + draw.choice(MARKS) + shown(draw, address)
    return text


def kernel_said(draw, plain, rule):
    """Where the kernel of the log lay, as it says it or nearly so, mostly by the listing's."""
    listed = plain.base() or 0xFFFFFFFF81000000
    moved = draw.choice([0, 0x200000, 0x1A000000, 0x1000, 5])
    start = (listed + draw.choice([rule.offset] * 3 + [0, STEP, 3 * STEP, 1])) % 2**64
    form = draw.choice([b"Kernel Offset: 0x%x from 0x%x"] * 5 + [b"Kernel Offset: 0x%x from %x", b"Kernel Offset: %x from 0x%x"])
    return form % (moved, start) + draw.choice([b"", b" ", b"0", b" (relocation range: "])


def function_said(draw, plain):
    """The name of a function with a size, mostly its own, as it stands in a trace."""
    name = draw.choice(NAMES + [b"do_two", b"?"])
    size = draw.choice([*plain.sizes(name), 1, 0x10])
    return draw.choice([b" ", b":", b" ? ", b"x", b"\t"]) + name + b"+0x%x/0x%x" % (draw.randrange(9), size) + draw.choice([b"", b"", b" [m]", b" ["])


def piece(draw, plain, rule, addresses):
    if draw.randrange(24) == 0:
        return kernel_said(draw, plain, rule)
    if draw.randrange(12) == 0:
        return function_said(draw, plain)
    kind = draw.randrange(16)
    if kind < 7 and addresses:
        return address_word(draw, plain, rule, addresses)
    if kind < 8:
        return draw.choice([b" ", b" ", b"\n", b"\r\n", b", "])
    if kind < 10:
        return draw.choice(LABELS)
    if kind < 11:
        return draw.choice(JOINTS)
    if kind < 13:
        return draw.choice(PREFIXES + NEARLY)
    if kind < 14:
        return draw.choice(LEADS + NO_LEADS)
    if kind < 15:
        return bytes(draw.randrange(256) for _ in range(draw.randrange(8)))
    return draw.choice([b"a", b"0", b"f", b"_"]) * draw.choice([1, 8, 15, 16, 17, 200])


def line(draw, plain, rule, addresses):
    """A line with a prefix, what may begin it, and pieces."""
    begin = draw.choice(PREFIXES) if draw.randrange(5) else draw.choice(NEARLY)
    for _ in range(draw.choice([0, 1, 1, 1, 2, 3])):
        begin += draw.choice(LEADS) if draw.randrange(8) else draw.choice(NO_LEADS)
    return begin + b"".join(piece(draw, plain, rule, addresses) for _ in range(draw.choice([0, 1, 1, 1, 2, 3, 6])))


def trace(draw, addresses, rule):
    """Some frames, as those of a trace."""
    begin = draw.choice(PREFIXES)
    form = draw.choice([b" [<%016x>] ? x", b" 0x%016x", b"\t%016x x", b" => [<%016x>]", b"[%016x] [%016x]", b" [<%08x>]", b" 0x%08x"])
    words = [(min(draw.choice(addresses) + rule.offset, GREATEST),) * form.count(b"%") for _ in range(draw.randrange(1, 4))]
    return b"".join(begin + form % word + b"\n" for word in words)


def random_log(draw, plain, rule, addresses):
    lines = []
    for _ in range(draw.randrange(12)):
        if addresses and draw.randrange(4) == 0:
            lines.append(trace(draw, addresses, rule))
            lines.append(draw.choice(HEADINGS) + b"\n")
            lines.append(trace(draw, addresses, rule))
        else:
            lines.append(line(draw, plain, rule, addresses) + draw.choice([b"\n", b"\n", b"\r\n"]))
    if addresses and draw.randrange(2) == 0:
        # some addresses with names of the log's own
        address = draw.choice(addresses)
        for _ in range(draw.randrange(3, 9)):
            lines.append(b"[<%016x>]" % address + own_name(draw) + b"\n")
    if draw.randrange(50) == 0:
        # a line of about the greatest length
        at = draw.randrange(len(lines) + 1)
        rest = b"".join(lines[at : at + 1])
        length = LONGEST - len(rest) + draw.choice([-1, 0, 0, 1, 100, LONGEST])
        lines.insert(at, draw.choice([b"a", b" ", b"a ", b"0x ", b"1: "]) * length)
        lines[at] = lines[at][: max(length, 0)]
    if draw.randrange(50) == 0:
        # as a packed log, or one in UTF-16, begins
        lines.insert(0, draw.choice([b"\x1f\x8b", b"\xff\xfe", b"\xfe\xff", b"\x1f\n\x8b", b"\xff\xff"]))
    log = b"".join(lines)
    return log[:-1] if draw.randrange(4) == 0 else log


def kernel_log(draw, addresses):
    """A log of lines as kernels and tools write them."""
    forms = [
        b" [<%016x>] ? do_one+0x8/0x10", b"[<%016x>]", b" 0x%016x", b" ? 0x%016x", b"\t%016x do_one ([kernel.kallsyms])",
        b"RIP: 0010:0x%016x", b"RIP: 0010:[<%016x>]  [<%016x>] do_one+0x8/0x10", b"RSP: %016x  RAX: %016x", b" (0x%016x), (0x%016x)",
        b"[<%016x>] (do_one) from [<%016x>] (do_two+0x8/0x100)", b" => %016x", b"NIP [%016x] 0x%016x", b"epc : 0x%016x",
        b" epc : %016x ra : %016x sp : %016x", b" #0 [%016x] do_one at %016x", b"#1  0x%016x in do_two ()", b" #1: 0x%016x, at: 0x%016x",
        b"Call Trace:", b"User PSW : %016x %016x", b"Krnl PSW : %016x %016x (0x%x)", b"x 0x%016x <-0x%016x", b"[mem 0x%016x-0x%016x]",
        b"BUG: KASAN: x in 0x%016x", b"pc : [<%016x>]    lr : [<%016x>]", b"%016x: 07f4", b"PC is at 0x%016x", b"LR is at 0x%016x",
    ]
    lines = []
    for _ in range(draw.randrange(1, 12)):
        begin, form = draw.choice(PREFIXES), draw.choice(forms)
        lines.append(begin + form % tuple(draw.choice(addresses) for _ in range(form.count(b"%"))) + b"\n")
    return b"".join(lines)
