#!/usr/bin/env python3
"""script.py SCRIPT PROGRAM: runs latchsym-record over a folder that stands for tracefs, whose files of
text are pipes, and looks at what it records, refuses, cuts and takes away."""
import os
import random
import signal
import subprocess
import sys
import tempfile
import time

import plain

HERE = os.path.dirname(os.path.abspath(__file__))
BOOT = "0d8bd6ff-2f4a-4b6c-9e4f-7f3ab3a7d0a1\n"


def fail(text):
    sys.exit(f"recordings: latchsym-record: {text}")


class Kernel:
    """What stands for tracefs, for proc and for the kernel that writes there."""

    def __init__(self, top, script, program):
        self.top, self.trace, self.proc, self.file = top, f"{top}/trace", f"{top}/proc", f"{top}/history"
        self.instance, self.time, self.pipes = f"{self.trace}/instances/latchsym", 0, []
        os.makedirs(f"{self.trace}/instances")
        os.makedirs(f"{self.proc}/sys/kernel/random")
        os.makedirs(f"{top}/bin")
        os.symlink(os.path.abspath(program), f"{top}/bin/latchsym")
        self.script = f"{top}/bin/latchsym-record"
        os.symlink(os.path.abspath(script), self.script)
        self.write(f"{self.proc}/sys/kernel/random/boot_id", BOOT)
        self.lists([])
        self.environment = {**os.environ, "PATH": f"{HERE}/tracefs:{os.environ['PATH']}", "LATCHSYM_TRACEFS": self.trace, "LATCHSYM_PROC": self.proc}

    @staticmethod
    def write(name, text):
        with open(name + ".new", "w", encoding="ascii") as file:
            file.write(text)
        os.rename(name + ".new", name)

    def lists(self, modules):
        """The listing has these modules, each with a line at its address."""
        lines = ["ffffffff81000000 T _stext\n"] + [f"ffffffffc000{address:04x} t {name}_a\t[{name}]\n" for name, address in modules]
        self.write(f"{self.proc}/kallsyms", "".join(lines))

    def begins(self, *words):
        """The script is begun, and the first mark was made."""
        before = self.pipe()
        self.script_run = subprocess.Popen(["sh", self.script, *(words or [self.file])], env=self.environment, stdin=subprocess.DEVNULL, stderr=subprocess.PIPE, start_new_session=True)
        wait(lambda: self.pipe() not in (None, before) or self.script_run.poll() is not None)
        if self.script_run.poll() is not None:
            fail(f"it has ended: {self.script_run.stderr.read()}")
        self.pipes = [os.open(f"{self.instance}/{name}", os.O_RDWR) for name in ("trace_marker", "trace_pipe")]
        self.marks([b"latchsym"])

    def pipe(self):
        """Which pipe of events there is, if there is one."""
        try:
            it = os.stat(f"{self.instance}/trace_pipe")
        except FileNotFoundError:
            return None
        return it.st_ino, it.st_ctime_ns

    def marks(self, wanted):
        """These marks are made now, and become events."""
        said = b""
        while said.count(b"\n") < len(wanted):
            said += os.read(self.pipes[0], 4096)
        if said.split(b"\n")[:-1] != wanted:
            fail(f"the marks are {said!r} in place of {wanted!r}")
        for mark in wanted:
            self.says(b"tracing_mark_write: " + mark)

    def says(self, told, size=None):
        """The kernel tells an event."""
        self.time += 1
        line = b"     sh-71   [000] ..... %4d.000001: %s\n" % (self.time, told)
        os.write(self.pipes[1], line[:size])

    def ends(self, how):
        """The script ends, by a signal or since the events do. Returns its status and what it said."""
        if how:
            self.script_run.send_signal(how)
        for pipe in self.pipes:
            os.close(pipe)
        _, said = self.script_run.communicate(timeout=20)
        if os.path.exists(self.instance):
            fail(f"after {how} the instance is still there")
        return self.script_run.returncode, said.decode()

    def has(self, wanted):
        """The file comes to have these bytes."""
        wait(lambda: self.text() == wanted)
        if self.text() != wanted:
            fail(f"the file has {self.text()!r} in place of {wanted!r}")

    def text(self):
        try:
            with open(self.file, "rb") as file:
                return file.read()
        except FileNotFoundError:
            return None

    def refuses(self, words, wanted, status=1):
        """The script refuses, says this, and does not change the file."""
        before = self.text()
        ran = subprocess.run(["sh", self.script, *words], env=self.environment, stdin=subprocess.DEVNULL, stderr=subprocess.PIPE, timeout=20, check=False)
        if ran.returncode != status or ran.stderr.decode() != wanted or self.text() != before:
            fail(f"{words}: status {ran.returncode}, {ran.stderr!r} in place of {wanted!r}")


def wait(holds):
    """Until this holds, for some seconds."""
    for _ in range(1000):
        if holds():
            return
        time.sleep(0.01)


LISTED = b"ffffffff81000000 T _stext\n"
LINE = b"ffffffffc000%04x t %s_a\t[%s]\n"


def a_history(kernel):
    """Records modules that come and go, and marks of a minute. Returns what was recorded."""
    kernel.begins()
    wanted = b"latchhistory 1\nlisting 1.000001\n" + LISTED
    kernel.has(wanted)
    kernel.lists([("xfs", 16)])
    kernel.says(b"module_load: xfs OE")
    wanted += b"change 2.000001\n" + LINE % (16, b"xfs", b"xfs")
    kernel.has(wanted)
    kernel.lists([])
    kernel.says(b"module_free: xfs")
    wanted += b"change 3.000001\ngone xfs\n"
    kernel.has(wanted)
    kernel.lists([("bpf", 32)])
    kernel.write(f"{kernel.trace}/minute", "")
    kernel.marks([b"latchsym bpf", b"latchsym __builtin__ftrace"])
    wanted += b"change 4.000001\n" + LINE % (32, b"bpf", b"bpf")
    kernel.has(wanted)
    for name in ("trace_clock", "events/module/module_load/enable", "events/module/module_free/enable"):
        with open(f"{kernel.instance}/{name}", encoding="ascii") as file:
            if file.read() != ("local\n" if name == "trace_clock" else "1\n"):
                fail(f"{name} is not set")
    return wanted


def main(script, program):
    pick = random.Random(1)
    with tempfile.TemporaryDirectory() as top:
        kernel = Kernel(top, script, program)
        kernel.refuses([], "latchsym-record: usage: latchsym-record FILE\n", 2)
        whole = a_history(kernel)
        kernel.write(f"{kernel.trace}/instances/busy", "")
        busy = f"latchsym-record: there is an instance {kernel.instance}: is another latchsym-record running?\n"
        before = kernel.text()
        ran = subprocess.run(["sh", kernel.script, kernel.file], env=kernel.environment, stdin=subprocess.DEVNULL, stderr=subprocess.PIPE, timeout=20, check=False)
        if ran.returncode != 1 or not ran.stderr.decode().endswith(busy) or kernel.text() != before:
            fail(f"a second one: status {ran.returncode}, {ran.stderr!r}")
        os.remove(f"{kernel.trace}/instances/busy")
        if kernel.ends(signal.SIGTERM) != (0, ""):
            fail("it does not end well by a signal")
        if os.stat(kernel.file).st_mode & 0o77:
            fail("others may read the file")

        # it goes on, and ends with its events
        kernel.begins()
        whole += b"listing 6.000001\n" + LISTED + LINE % (32, b"bpf", b"bpf")
        kernel.has(whole)
        if kernel.ends(None) != (0, ""):
            fail("it does not end well with its events")

        # of any beginning of a file it makes a history that goes on
        for size in sorted(pick.sample(range(len(whole)), 40)) + [0, 1, 14, 15, 16, len(whole)]:
            with open(kernel.file, "wb") as file:
                file.write(whole[:size])
            kernel.begins()
            kept = whole[: whole.rfind(b"\n", 0, size) + 1] or b"latchhistory 1\n"
            kernel.has(kept + b"listing %d.000001\n" % kernel.time + LISTED + LINE % (32, b"bpf", b"bpf"))
            plain.histories.read(kernel.text())
            kernel.ends(signal.SIGTERM)

        # a recorder that is killed leaves its instance, which the next one takes away
        kernel.begins()
        os.killpg(kernel.script_run.pid, signal.SIGKILL)
        kernel.script_run.communicate()
        for pipe in kernel.pipes:
            os.close(pipe)
        if not os.path.exists(kernel.instance):
            fail("one that is killed has taken its instance away")
        kernel.begins()
        kernel.ends(signal.SIGTERM)

        # what ends it, and what it refuses
        kernel.write(f"{kernel.proc}/kallsyms", "0000000000000000 T _stext\n")
        kernel.begins()
        wait(lambda: kernel.script_run.poll() is not None)
        status, said = kernel.ends(None)
        if (status, said) != (1, f"latchsym: {kernel.proc}/kallsyms: every address is 0; read it as root (kernel.kptr_restrict)\n"):
            fail(f"a listing that is hidden: status {status}, {said}")
        kernel.write(f"{kernel.proc}/sys/kernel/random/boot_id", "another\n")
        kernel.refuses([kernel.file], f"latchsym-record: {kernel.file} is of another boot\n")
        os.remove(kernel.file + ".boot")
        kernel.refuses([kernel.file], f"latchsym-record: {kernel.file} is of another boot\n")
        os.rmdir(f"{kernel.trace}/instances")
        kernel.refuses([kernel.file], f"latchsym-record: there is no tracefs in {kernel.trace}: mount -t tracefs tracefs {kernel.trace}\n")
    print("recordings: latchsym-record has recorded, gone on from 46 beginnings and refused")


if __name__ == "__main__":
    main(*sys.argv[1:])
