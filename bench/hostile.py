#!/usr/bin/env python3
"""Runs the built program where all goes wrong: each allocation, read, write, open, seek and thread refused in turn,
input cut at each byte, odd files, texts at their limits and one past them. What may come is the defined output, as
`oracle.py` or reckoning by hand gives it, or a front of it with the status of its cause.

    python3 bench/hostile.py [--program PATH] [--only PART ..] [--list]

Each line of output names a part, how many runs it made, and how often each status came. What is wrong is told, and
makes the status 1. It wants a C compiler, for `refusing.c`, which is laid under the program. `docs/RELIABILITY.md` says
what came.
"""

import argparse
import collections
import os
import random
import resource
import shutil
import signal
import subprocess
import sys
import tempfile
import threading

import against_oracle
import oracle
from oracle import DONE, LINES_REFUSED, MEMORY, MESH_REFUSED, READ_FAULT, USAGE, WRITE_FAULT

HERE = os.path.dirname(os.path.abspath(__file__))
MOST = 2**20                    # vertices, and triangles
GIGABYTE = 2**30

# ------------------------------------------------------------------------------------------------ texts

QUESTIONS = (b"groups\nstat\nbox 3 1 -1 3.5 2 1\nwork\nseg 5 1 4 5 1 -4\nnode 0\nnode 2\ncells 3\nnode 9\n"
             b"move 5 4 0 1\nseg 5 1 4 5 1 -4\nbox 3 1 -1 3.5 2 1\nwork\n")
MOVES = (b"node 1\nseg 301 1 -1 301 1 1\nmove 1 300 0 0\nmove 2 304 0 0\nmove 3 300 4 0\nseg 301 1 -1 301 1 1\nrefit\n"
         b"node 1\nrebuild\nnode 1\nnode 0\nbox 0 0 0 400 4 0\nwork\nstat\ncells 1\n")

# every form of line and word that a mesh may have
EVERY_FORM = b"""# comment \\
\t v 0 0 0 # a corner
v 4. 0.0e0 -0 1.0
v +.0 40E-1 0 .1 .2 .3
v \\
  4 \\\r
4 0\r
v 1e-300 1e-99999999999 00000000000000000000000000000000002
f 1 2 3
g
f -1/1 -2/2/3 -3//4 1/
o wall#s
f 5 4// 3/+1/-2
g a b
f +1 +2 +3
usemtl x \\
v 9 9 9
vt 1 2
vn x
s off
V 7 7 7
fo 1 2 3
curv 0 1
f 6 1 2
v 8 8 8
g caf\xc3\xa9 \xff\x00
f 6 6 6
o default
f 1 2 4 3 5 6"""

FAULTY = b"v 0 0 0\nv 4 0 0\nv 0 4 0\nf 1 2 3\nf 1 2 4\nf 1 2 3\n"


def random_lines():
    """A random mesh and 200 random lines over it."""
    chance = random.Random(30)
    while True:
        text = against_oracle.random_mesh(chance, 64)
        mesh, _ = oracle.read_mesh(text, 64)
        if mesh and len(mesh.faces) > 20:
            break
    lines = []
    while len(lines) < 200:
        lines += against_oracle.random_script(chance, text, 64).split(b"\n")[:-1]
    return text, b"\n".join(lines[:200]) + b"\n"


def cases(builds):
    """The runs whose calls are refused in turn: a name, words, mesh, script, and what is to come with which status."""
    runs = [("a level", "--unit 64", against_oracle.LEVEL, QUESTIONS),
            ("moves, by karras", "--unit 1 --build karras", against_oracle.APART, MOVES),
            ("moves, by apetrei", "--unit 1 --build apetrei", against_oracle.APART, MOVES),
            ("a mesh of every form", "--unit 1", EVERY_FORM, b"groups\nstat\nbox 0 0 0 9 9 9\nseg 1 1 5 1 1 -5\nwork"),
            ("a refused mesh", "", FAULTY, b"stat\n"),
            ("200 random lines", "", *random_lines())]
    for name, words, mesh, script in runs:
        plan = oracle.plan_of(words.split() + ["MESH"])
        if plan.get("build", "karras") not in builds:
            continue
        yield name, words.split(), mesh, script, oracle.run(mesh, script, plan.get("unit", oracle.UNIT))
    yield "--grid 8", ["--grid", "8"], None, b"", (oracle.grid_report(8), DONE)


# ------------------------------------------------------------------------------------------------ runs

class Tries:
    """The program, a folder of its own, and what came of a part's runs."""

    def __init__(self, program, folder):
        # a copy, which anyone may run
        self.folder, self.wrong = folder, 0
        self.program = shutil.copy(program, self.path("world"))
        os.chmod(self.program, 0o755)
        os.chmod(folder, 0o755)
        self.shim = os.path.join(folder, "refusing.so")
        subprocess.run(["cc", "-O1", "-shared", "-fPIC", "-o", self.shim, os.path.join(HERE, "refusing.c"), "-ldl"],
                       check=True)
        self.begin()
        nothing = self.keep("none", b"")
        self.builds = [build for build in oracle.BUILDS if self.run(["--build", build, nothing])[1] != USAGE]
        if self.builds != list(oracle.BUILDS):
            print("builds that the program knows, and that are tried:", *self.builds)

    def begin(self):
        self.statuses, self.peak = collections.Counter(), 0

    def path(self, name):
        return os.path.join(self.folder, name)

    def keep(self, name, text):
        with open(self.path(name), "wb") as file:
            file.write(text)
        return self.path(name)

    def run(self, words, script=b"", refuse=None, short=False, **more):
        """Output and status of a run over these words, with what the shim is told."""
        told = {}
        if refuse or short or "counts" in more:
            told["LD_PRELOAD"] = self.shim
            told.update({"REFUSE": refuse} if refuse else {}, **({"SHORT": "1"} if short else {}))
            told.update({"COUNTS": more.pop("counts")} if "counts" in more else {})
        if "stdin" not in more:
            more["input"] = script
        done = subprocess.run([self.program, *words], stdout=subprocess.PIPE, stderr=subprocess.PIPE, check=False,
                              env={**os.environ, **told}, timeout=120, **more)
        self.statuses[done.returncode] += 1
        if done.stderr:
            self.tell(f"`{' '.join(words)}` {refuse or ''}: it wrote to standard error: {done.stderr[-200:]}")
        return done.stdout, done.returncode

    def counts(self, words, script, short=False):
        """How many calls of each kind a run makes that is refused none."""
        path = self.path("counts")
        self.run(words, script, short=short, counts=path)
        with open(path, encoding="ascii") as file:
            return {kind: int(count) for kind, count in map(str.split, file)}

    def measured(self, words, script, stack=None, space=None):
        """The path of the output, and the status of a run whose script is a file; its peak memory is kept."""
        def limit():
            for kind, most in ((resource.RLIMIT_STACK, stack), (resource.RLIMIT_AS, space)):
                if most:
                    resource.setrlimit(kind, (most, most))

        with open(script, "rb") as read, open(self.path("output"), "wb") as written:
            process = subprocess.Popen([self.program, *words], stdin=read, stdout=written, preexec_fn=limit)
            _, status, usage = os.wait4(process.pid, 0)
            process.returncode = status = os.waitstatus_to_exitcode(status)
        self.statuses[status] += 1
        self.peak = max(self.peak, usage.ru_maxrss * 1024)
        return self.path("output"), status

    def tell(self, what):
        self.wrong += 1
        print(f"WRONG: {what}")

    def same(self, name, got, wanted):
        if got != wanted:
            self.tell(f"{name}: status {got[1]}, wanted {wanted[1]}; "
                      f"output {got[0][-80:]!r}, wanted {wanted[0][-80:]!r}")

    def front(self, name, got, whole, causes):
        """What came is the whole with its status, or a front of it with one of these."""
        if got != whole and not (got[1] in causes and whole[0].startswith(got[0])):
            self.tell(f"{name}: status {got[1]}, wanted {whole[1]} or one of {causes}; output {got[0][-80:]!r}")


def words_of(tries, words, mesh):
    return words if mesh is None else [*words, tries.keep("mesh.obj", mesh)]


# ------------------------------------------------------------------------------------------------ parts

def some(last):
    """The numbers from 1 to the last, all of them up to 600, else some 600 in even steps."""
    return range(1, last + 1, last // 600 + 1)


def by_threads(tries):
    """Runs that start threads: a text that is read in parts, and a tree that is built by threads. What is to come of
    the latter is what comes where nothing is refused."""
    long_text = b"# a text of more than a megabyte is read in parts\n" * 24_000
    halves = against_oracle.LEVEL.partition(b"o Ramp")
    mesh = long_text + halves[0] + long_text + halves[1] + halves[2]
    yield "a long text", ["--unit", "64"], mesh, QUESTIONS, oracle.run(mesh, QUESTIONS, 64)
    for build in tries.builds:
        words = ["--grid", "200", "--build", build]
        yield f"--grid 200, by {build}", words, None, b"", tries.run(words)


def refused(tries, kind, causes, more=()):
    """Each call of a kind refused in turn, and then it and all behind it."""
    for name, words, mesh, script, whole in [*cases(tries.builds), *more]:
        words = words_of(tries, words, mesh)
        tries.same(name, tries.run(words, script), whole)
        for number in range(1, tries.counts(words, script)[kind] + 3):
            for refuse in (f"{kind} {number}", f"{kind} {number}-"):
                tries.front(f"{name}, {refuse}", tries.run(words, script, refuse=refuse), whole, causes)


def allocations(tries):
    """Each allocation refused in turn, and then it and all behind it."""
    refused(tries, "alloc", (MEMORY,), by_threads(tries))


def threads(tries):
    """The same of threads that are started."""
    refused(tries, "thread", (MEMORY,), by_threads(tries))


def opens_and_seeks(tries):
    """The same of files that are opened, and of places that are sought."""
    refused(tries, "open", (READ_FAULT,), by_threads(tries))
    refused(tries, "seek", (READ_FAULT,))


def cut_off(script):
    """A script whose reading fails behind these bytes."""
    yield script
    raise oracle.ReadFailed


def reads(tries):
    """Each read refused in turn, the whole script at once and byte by byte.

    Byte by byte, what is written is known exactly: nothing where the mesh was read, and else the replies to the lines
    that ended in what was taken."""
    refused(tries, "read", (READ_FAULT,))
    for name, words, mesh, script, whole in cases(tries.builds):
        if mesh is None:
            continue
        unit = oracle.plan_of([*words, "MESH"]).get("unit", oracle.UNIT)
        words = words_of(tries, words, mesh)
        parsed, _ = oracle.opened(mesh, unit)
        ended = {}                      # what is written, by the count of lines that ended
        for number in some(len(mesh) + 1 + (len(script) + 1 if parsed else 0)):
            taken = number - len(mesh) - 2
            lines = script[:max(taken, 0)].count(b"\n")
            if taken >= 0 and lines not in ended:
                ended[lines] = oracle.answered(parsed, cut_off(script[:taken]), unit)
            tries.same(f"{name}, read {number}", tries.run(words, script, refuse=f"read {number}", short=True),
                       ended[lines] if taken >= 0 else (b"", READ_FAULT))


def writes(tries):
    """Each write refused in turn, whole replies at once and byte by byte: then just so many bytes were written."""
    refused(tries, "write", (WRITE_FAULT,))
    for name, words, mesh, script, whole in cases(tries.builds):
        words = words_of(tries, words, mesh)
        for number in some(len(whole[0])):
            tries.same(f"{name}, write {number}", tries.run(words, script, refuse=f"write {number}", short=True),
                       (whole[0][:number - 1], WRITE_FAULT))


def short_calls(tries):
    """Reads and writes of one byte."""
    for name, words, mesh, script, whole in cases(tries.builds):
        tries.same(f"{name}, by single bytes", tries.run(words_of(tries, words, mesh), script, short=True), whole)


def cut_scripts(tries):
    """A script that ends at each of its bytes, and scripts of odd bytes."""
    for name, words, mesh, script, _ in cases(tries.builds):
        if mesh is None:
            continue
        unit = oracle.plan_of([*words, "MESH"]).get("unit", oracle.UNIT)
        words = words_of(tries, words, mesh)
        for length in range(min(len(script), 1_000)):
            tries.same(f"{name}, cut at {length}", tries.run(words, script[:length]),
                       oracle.run(mesh, script[:length], unit))
    words = words_of(tries, ["--unit", "1"], against_oracle.T)
    odd = [b"stat\xff\n", b"\xc3", b"stat\n\xe2\x82", b"\xf0\x9f\x92\xa9\nstat", b"\0", b"stat\0\n", b"\0stat\nstat\n",
           b"stat\n" + b"\0" * 5_000, b"\0\n" * 5_000, b"\n" * 20_000, b"\r\n" * 5_000, b"stat\r\nwork\r",
           b"\x0bstat\x0c\n", b"#" + bytes(range(11, 256)) + b"\nstat\n", bytes(range(256)),
           b"stat" + b" " * 996 + b"\n", b"stat" + b" " * 997, b"\xef\xbb\xbfstat\n", b"s\0t\0a\0t\0\n\0",
           b"box 0 0 0 1 1 \xd9\xa1\n", b"node \0\n", b"box " + b"9" * 900 + b"\n"]
    for script in odd:
        tries.same(f"the script {script[:20]!r}", tries.run(words, script), oracle.run(against_oracle.T, script, 1))


def odd_bytes_in_meshes(tries):
    """Meshes that end at each of their bytes, and in which each byte is another one."""
    for mesh in (EVERY_FORM, against_oracle.JOINED):
        for at in range(len(mesh)):
            for other in (None, bytes([mesh[at] ^ 0x80]), b"\0"):
                text = mesh[:at] if other is None else mesh[:at] + other + mesh[at + 1:]
                words = words_of(tries, ["--unit", "1"], text)
                tries.same(f"the mesh {text[:at + 1][-20:]!r}", tries.run(words, b"groups\nstat\nbox 0 0 0 9 9 9\n"),
                           oracle.run(text, b"groups\nstat\nbox 0 0 0 9 9 9\n", 1))


def odd_devices(tries):
    """Meshes that are no files, and standard input and output that are closed, full, or left by the other end."""
    mesh = tries.keep("mesh.obj", against_oracle.T)
    faulty, fifo, loop = tries.keep("faulty.obj", FAULTY), tries.path("pipe"), tries.path("loop")
    os.mkfifo(fifo)
    os.symlink(loop, loop)
    hidden = tries.keep("hidden.obj", against_oracle.T)
    os.chmod(hidden, 0)
    nobody = {"user": 65534, "group": 65534, "extra_groups": []} if os.geteuid() == 0 else {}
    nothing = (b"", READ_FAULT)
    for name in (tries.folder, "no-such-file.obj", tries.path("no/such/folder"), mesh + "/", "x" * 5_000,
                 "/" + "x/" * 3_000, loop, "/proc/self/mem", "\u00e9\u4e2d.obj"):
        tries.same(f"the mesh {name[:40]}", tries.run([name], b"stat\n"), nothing)
    tries.same("an unreadable mesh", tries.run([hidden], b"stat\n", **nobody), nothing)
    tries.same("an empty device", tries.run(["/dev/null"], b"stat\n"), oracle.run(b"", b"stat\n"))
    tries.same("a mesh that never ends", tries.run(["/dev/zero"], b"stat\n"), (b"mesh too long\n", MESH_REFUSED))
    tries.same("standard input as the mesh, a pipe", tries.run(["/dev/stdin"], against_oracle.T), nothing)

    def fill():
        try:
            with open(fifo, "wb") as pipe:
                pipe.write(against_oracle.T)
        except BrokenPipeError:
            pass

    writer = threading.Thread(target=fill)
    writer.start()
    tries.same("a named pipe as the mesh", tries.run([fifo], b"stat\n"), nothing)
    writer.join()

    # closed, full, a folder, the wrong way: what the shell makes of it
    box, full = b"box 4 4 0 9 9 0\n", (b"", WRITE_FAULT)
    for words, said, wanted in [
            ([mesh], "<&-", nothing), ([mesh], "< .", nothing), ([mesh], "0> /dev/null", nothing),
            ([mesh], ">&-", full), ([mesh], "> /dev/full", full), ([mesh], "1< /dev/null", full),
            ([mesh], "<&- > /dev/full", nothing), ([mesh], "<&- >&-", nothing),
            ([mesh], "2>&-", (b"overlaps 1: 1\n", DONE)),
            (["no-such-file.obj"], "> /dev/full", nothing), (["no-such-file.obj"], "<&- >&- 2>&-", nothing),
            ([faulty], "<&-", (b"mesh line 5: no such vertex\n", MESH_REFUSED)), ([faulty], "> /dev/full", full),
            ([], "<&-", (b"bad command line\n", USAGE)), ([], "> /dev/full", full),
            (["--grid", "2"], "<&-", (oracle.grid_report(2), DONE)), (["--grid", "2"], ">&-", full)]:
        unit = ["--unit=1"] if words and words[0] != "--grid" else []
        done = subprocess.run(["sh", "-c", f'"$@" {said}', "sh", tries.program, *unit, *words], input=box,
                              capture_output=True, check=False, timeout=120)
        tries.statuses[done.returncode] += 1
        tries.same(f"{words} {said}", (done.stdout, done.returncode), wanted)
        if done.stderr:
            tries.tell(f"{words} {said}: {done.stderr[-200:]}")

    # the reader of the output leaves before the end: by default, and where the signal is ignored
    def ignore():
        signal.signal(signal.SIGPIPE, signal.SIG_IGN)

    for ignored in (False, True):
        process = subprocess.Popen([tries.program, "--unit", "1", mesh], stdin=subprocess.PIPE, stdout=subprocess.PIPE,
                                   restore_signals=not ignored, preexec_fn=ignore if ignored else None)
        process.stdin.write(box)
        process.stdin.flush()
        first = process.stdout.readline()
        process.stdout.close()
        process.stdin.write(box * 3)
        process.stdin.close()
        tries.statuses[process.wait(120)] += 1
        tries.same("a reader that leaves", (first, process.returncode), (b"overlaps 1: 1\n", WRITE_FAULT))


def many(path, *parts):
    """Writes texts, each many times, to a file."""
    with open(path, "wb") as file:
        for text, count in parts:
            block = text * max(1, min(count, 65_536 // max(len(text), 1)))
            for _ in range(count * len(text) // len(block)):
                file.write(block)
            file.write(text * (count * len(text) % len(block) // len(text)))
    return path


def come_to(tries, name, words, script, wanted, **limits):
    """A measured run, whose output may be long: it is compared piece by piece."""
    path, status = tries.measured(words, script, **limits)
    with open(path, "rb") as file:
        same = all(file.read(len(piece)) == piece for piece in wanted[0]) and not file.read(1)
    if (same, status) != (True, wanted[1]):
        with open(path, "rb") as file:
            tries.tell(f"{name}: status {status}, wanted {wanted[1]}; output {file.read(200)!r}")


def all_numbers(count):
    """The reply to a box that meets so many triangles, all of them, in pieces."""
    yield b"overlaps %d:" % count
    for start in range(1, count + 1, 10_000):
        yield b"".join(b" %d" % number for number in range(start, min(start + 10_000, count + 1)))
    yield b"\n"


def point_of(code):
    """The point of a Morton code, in grid steps."""
    point = [0, 0, 0]
    for bit in range(54):
        point[2 - bit % 3] |= (code >> bit & 1) << bit // 3
    return [coordinate - 131_072 for coordinate in point]


def sizes(tries):
    """Texts at their limits and one past them, and the largest and the deepest tree."""
    mesh, script, none = tries.path("large.obj"), tries.path("large.script"), tries.keep("none", b"")
    small, stat = tries.keep("mesh.obj", against_oracle.T), tries.keep("stat", b"stat\n")
    said = lambda text, status: ([text] if text else [], status)
    too_long, empty = b"script too long\n", b"triangles 0 nodes 0 height 0 cells 0\n"
    for name, text, wanted in [
            ("a script one byte too long", (b"#", 2**24 + 1), said(too_long, LINES_REFUSED)),
            ("a script at its limit", (b"#", 2**24), said(b"line 1: line too long\n", LINES_REFUSED)),
            ("a script of line feeds at its limit", (b"\n", 2**24), said(b"", DONE)),
            ("a script of line feeds, one too many", (b"\n", 2**24 + 1), said(too_long, LINES_REFUSED))]:
        come_to(tries, name, [small], many(script, text), wanted)
    come_to(tries, "a script that never ends", [small], "/dev/zero", said(too_long, LINES_REFUSED))
    for name, texts, wanted in [
            ("a mesh one byte too long", [(b"#", 2**28 + 1)], said(b"mesh too long\n", MESH_REFUSED)),
            ("a mesh at its limit", [(b"#", 2**28)], said(empty, DONE)),
            ("a mesh of line feeds at its limit", [(b"\n", 2**28)], said(empty, DONE)),
            ("one vertex too many", [(b"v 0 0 0\n", MOST + 1)],
             said(b"mesh line 1048577: too many vertices\n", MESH_REFUSED)),
            ("one triangle too many", [(b"v 0 0 0\n", 1), (b"f 1 1 1\n", MOST + 1)],
             said(b"mesh line 1048578: too many triangles\n", MESH_REFUSED)),
            ("one triangle too many, in one fan", [(b"v 0 0 0\nf", 1), (b" 1", MOST + 3), (b"\n", 1)],
             said(b"mesh line 2: too many triangles\n", MESH_REFUSED))]:
        come_to(tries, name, [many(mesh, *texts)], stat, wanted)

    asked = tries.keep("asked", b"box 4 4 0 9 9 0\nwork\nseg 1 1 -1 1 1 1\nstat\nnode 0\ncells 18\n"
                       b"move 1 -9 0 0\nbox 4 4 0 9 9 0\nrebuild\nseg 1 1 -1 1 1 1\n")
    answers = [*all_numbers(MOST), b"work 2097151\nhit 1 1/2\ntriangles 1048576 nodes 1048575 height 20 cells 19\n"
               b"node 0 0 1048575 524287 0 0 0 4 4 0\ncells 18 1: 15762598695796784\nmoved 1\n", *all_numbers(MOST),
               b"rebuilt\nhit 1 1/2\n"]
    many(mesh, (against_oracle.T[:-8], 1), (b"f 1 2 3\n", MOST))
    for build in tries.builds:
        for stack in (2**23, 2**20):
            come_to(tries, f"all codes equal, by {build}, a stack of {stack}",
                    ["--unit=1", "--build", build, mesh], asked, (answers, DONE), stack=stack)

    singles = b"".join(b"v %d %d %d\n" % tuple(point_of(2**bit)) for bit in range(54))
    singles += b"".join(b"f %d %d %d\n" % (number, number, number) for number in range(4, 58))
    heap = b"v -131072 -131072 -131072\nv -131071 -131072 -131072\nv -131072 -131071 -131072\n"
    asked = tries.keep("asked", b"stat\nseg 131071 131071 131071 -131072 -131072 -131072\n"
                       b"box -131072 -131072 -131072 131071 131071 131071\nwork\ncells 0\n")
    answers = [b"triangles 1048576 nodes 1048575 height 74 cells 19\nhit 1 1/1\n", *all_numbers(MOST),
               b"work 2097151\ncells 0 1: 0\n"]
    many(mesh, (heap, 1), (b"f 1 2 3\n", MOST - 54), (singles, 1))
    for build in tries.builds:
        for stack in (2**23, 2**20):
            come_to(tries, f"the deepest tree, by {build}, a stack of {stack}",
                    ["--unit=1", "--build", build, mesh], asked, (answers, DONE), stack=stack)
    os.remove(mesh)


def little_memory(tries):
    """A large mesh in less and less address space."""
    mesh = many(tries.path("large.obj"), (against_oracle.T[:-8], 1), (b"f 1 2 3\n", MOST))
    asked = tries.keep("asked", b"stat\nbox 4 4 0 9 9 0\nseg 1 1 -1 1 1 1\n")
    whole = b"triangles 1048576 nodes 1048575 height 20 cells 19\n" + b"".join(all_numbers(MOST)) + b"hit 1 1/2\n"
    for megabytes in [*range(8, 320, 8), 400, 512, 1_024]:
        path, status = tries.measured(["--unit=1", mesh], asked, space=megabytes << 20)
        with open(path, "rb") as file:
            tries.front(f"{megabytes} MB of address space", (file.read(), status), (whole, DONE), (MEMORY,))
    os.remove(mesh)


PARTS = {"allocations": allocations, "threads": threads, "opens": opens_and_seeks, "reads": reads, "writes": writes,
         "short": short_calls, "scripts": cut_scripts, "meshes": odd_bytes_in_meshes, "devices": odd_devices,
         "sizes": sizes, "memory": little_memory}


def main():
    parser = argparse.ArgumentParser(description="Runs the program where all goes wrong.")
    parser.add_argument("--program", default=os.path.join(HERE, "..", "crates", "world_main", "out", "world_main"))
    parser.add_argument("--only", nargs="+", choices=PARTS, metavar="PART", default=list(PARTS))
    parser.add_argument("--list", action="store_true", help="name the parts and end")
    chosen = parser.parse_args()
    if chosen.list:
        for name, part in PARTS.items():
            print(f"{name}: {part.__doc__.splitlines()[0]}")
        return
    with tempfile.TemporaryDirectory() as folder:
        tries = Tries(chosen.program, folder)
        for name in chosen.only:
            tries.begin()
            before = tries.wrong
            PARTS[name](tries)
            came = ", ".join(f"{status}: {count}" for status, count in sorted(tries.statuses.items()))
            peak = f"; at most {tries.peak >> 20} MB" if tries.peak else ""
            runs, wrong = sum(tries.statuses.values()), tries.wrong - before
            print(f"{name}: {runs} runs; by status {came}{peak}; {wrong} wrong", flush=True)
            if tries.peak >= GIGABYTE:
                tries.tell(f"{name} took a gigabyte")
        sys.exit(1 if tries.wrong else 0)


if __name__ == "__main__":
    main()
