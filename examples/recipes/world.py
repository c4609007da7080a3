"""A world over two pipes: one line out, one reply back. The recipes beside this file ask through it.

    with World("courtyard.obj", unit=1000) as world:
        print(world.ask("seg 11 6 9 11 6 -1"))

It stands on Python's standard library alone. The program is `crates/world_main/out/world_main` of this repository, or the
one that the environment variable WORLD names.
"""

import os
import subprocess

TOP = os.path.dirname(os.path.dirname(os.path.dirname(os.path.abspath(__file__))))
PROGRAM = os.environ.get("WORLD", os.path.join(TOP, "crates", "world_main", "out", "world_main"))
SCRIPT_MOST = 16_777_216        # bytes of one script; ask the rest of another process
REACH = 131_071                 # grid steps from the origin, on each axis, in which a segment's ends lie


class Refused(SystemExit):
    """The mesh or a line is refused, or the world is gone; the text says why, and ends a program that does not catch it."""


class World:
    def __init__(self, mesh, unit=64):
        self.unit = unit
        self.left = SCRIPT_MOST
        self.process = subprocess.Popen([PROGRAM, "--unit", str(unit), mesh], stdin=subprocess.PIPE, stdout=subprocess.PIPE)

    def ask(self, line):
        """The reply to one line that asks something (a comment or an empty line has none, and would be waited for)."""
        text = line.encode() + b"\n"
        self.left -= len(text)
        if self.left < 0:
            raise Refused("the script is full: start another process before this line")
        try:
            self.process.stdin.write(text)
            self.process.stdin.flush()
        except BrokenPipeError:
            pass                # the program has ended: what it wrote before says why
        reply = self.process.stdout.readline().decode(errors="surrogateescape").rstrip("\n")
        if not reply:
            raise Refused(f"the program ended with status {self.process.wait()}")
        if reply.startswith(("line ", "mesh ", "bad command line")):
            raise Refused(reply)
        return reply

    def hit(self, p, q):
        """The triangle that the segment from p to q strikes first, and where, as a numerator and a denominator; or None."""
        reply = self.ask("seg " + " ".join(map(decimal, (*p, *q))))
        if reply == "miss":
            return None
        _, triangle, fraction = reply.split()
        numerator, denominator = fraction.split("/")
        return int(triangle), int(numerator), int(denominator)

    def node(self, number):
        """First and last position, split, and the lowest and the highest corner of the node's box, in grid steps."""
        first, last, split, *corners = map(int, self.ask(f"node {number}").split()[2:])
        return first, last, split, corners[:3], corners[3:]

    def groups(self):
        """The groups in their order, each with its count of triangles."""
        words = self.ask("groups").split()[2:]
        return list(zip(words[::2], map(int, words[1::2])))

    def __enter__(self):
        return self

    def __exit__(self, *_):
        try:
            self.process.stdin.close()
        except BrokenPipeError:
            pass
        self.process.stdout.close()
        self.process.wait()


def decimal(value):
    """A number as the script wants it: no exponent is needed, and six places are finer than any grid step."""
    return f"{float(value):.6f}"
