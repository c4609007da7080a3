#!/usr/bin/env python3
"""The answers of `world`, by another way: a plain program that follows the documents word for word and is in no hurry.

    python3 bench/oracle.py MESH [--unit U] [--workers W] [--build karras|apetrei] < SCRIPT
    python3 bench/oracle.py --grid N [--workers W] [--build karras|apetrei]

It takes the words that `world` takes, writes what `world` is to write, each reply before it reads on, and ends with the
same status. Nothing of the Rattle code is used or imitated: number words become exact fractions, the tree is the recursion
from the top, a box query tests the box of every triangle, and a segment query solves a linear equation, in fractions, with
every triangle. It stands on Python's standard library alone. Meshes of some thousand triangles are its measure.

`docs/GUIDE.md` says which words are accepted, `docs/OBJ.md` how a mesh is read, `docs/WORDS.md` what a script line asks
and how it is answered. `bench/against_oracle.py` compares the program with it.
"""

import math
import os
import re
import sys
from collections import Counter
from fractions import Fraction

# ------------------------------------------------------------------------------------------------ limits

UNIT = 64                       # grid steps to a unit, where none is said
UNIT_MOST = 65_536
WORLD = range(-131_072, 131_072)
REACH = range(-2_147_483_647, 2_147_483_648)
VERTICES_MOST = 1_048_576
TRIANGLES_MOST = 1_048_576
MESH_MOST = 268_435_456         # bytes
SCRIPT_MOST = 16_777_216        # bytes
LINE_MOST = 1_000               # bytes of a script line without its line feed
DIGITS_MOST = 24                # from the first that is not 0 on
LEVELS = 18                     # halvings of the world on each axis
CAP = 2**40                     # what a number that is far too large counts as

DONE, USAGE, MESH_REFUSED, READ_FAULT, WRITE_FAULT, MEMORY, LINES_REFUSED = range(7)

# and how many words follow each
WORDS = {b"box": 6, b"seg": 6, b"move": 4, b"refit": 0, b"rebuild": 0, b"node": 1, b"cells": 1,
         b"groups": 0, b"stat": 0, b"work": 0}

sys.set_int_max_str_digits(0)


class Refused(Exception):
    """A line is refused, for the reason that is written."""


# ------------------------------------------------------------------------------------------------ lines, words, numbers

def lines_of(text):
    """The lines of a text, without their line feeds. A text that ends with a line feed has no further line."""
    lines = text.split(b"\n")
    if lines[-1] == b"":
        lines.pop()
    return lines


def words_of(line):
    """The words of a line: longest runs of bytes other than tab, vertical tab, form feed, carriage return and space."""
    return re.findall(rb"[^\t\v\f\r ]+", line)


DECIMAL = re.compile(rb"([+-]?)([0-9]*)(?:\.([0-9]*))?(?:[eE]([+-]?[0-9]+))?")


def grid_value(word, unit):
    """The grid steps of a decimal: the nearest whole number to the value times the unit, halves going up."""
    form = DECIMAL.fullmatch(word)
    if not form or not form[2] + (form[3] or b""):
        raise Refused("not a number")
    sign, whole, after, exponent = form[1], form[2], form[3] or b"", int(form[4] or b"0")
    digits = (whole + after).lstrip(b"0")
    if len(digits) > DIGITS_MOST:
        raise Refused("number too long")
    if not digits:
        return 0
    places = exponent - len(after)                      # the value is digits * 10 ** places
    places = min(max(places, -1_000), 1_000) if abs(len(digits) + places) > 500 else places
    value = int(digits) * Fraction(10) ** places        # far below a step, or far past the cap, where it was brought in
    value = -value if sign == b"-" else value
    return min(max(math.floor(value * unit + Fraction(1, 2)), -CAP), CAP)


def whole_value(word):
    """The value of a word of digits alone."""
    if not re.fullmatch(rb"[0-9]+", word):
        raise Refused("not a number")
    digits = word.lstrip(b"0")
    if len(digits) > DIGITS_MOST:
        raise Refused("number too long")
    return min(int(digits or b"0"), CAP)


# ------------------------------------------------------------------------------------------------ a mesh text

def joined_lines(text):
    """The lines of a mesh text, each with its number: comments dropped, lines that go on joined."""
    lines = lines_of(text)
    joined, at = [], 0
    while at < len(lines):
        number, whole, goes_on = at + 1, b"", True
        while goes_on and at < len(lines):
            line, goes_on = lines[at], False
            at += 1
            if b"#" in line:
                line = line[:line.index(b"#")]
            else:
                bare = line[:-1] if line.endswith(b"\r") else line
                if bare.endswith(b"\\"):
                    line, goes_on = bare[:-1] + b" ", True
            whole += line
        joined.append((number, whole))
    return joined


class Mesh:
    """Points in grid steps, triangles by the places of their corners, and the name of each triangle's group."""

    def __init__(self):
        self.points, self.faces, self.names = [], [], []


REFERENCE = re.compile(rb"([+-]?[0-9]+)(?:/(?:[+-]?[0-9]+)?){0,2}")


def read_mesh(text, unit):
    """The mesh of the text; or the number and the reason of its first faulty line."""
    rows = [(number, words_of(line)) for number, line in joined_lines(text)]
    all_vertices = sum(words[:1] == [b"v"] for _, words in rows)
    mesh, name = Mesh(), b"default"
    for number, words in rows:
        keyword, rest = (words[0], words[1:]) if words else (b"", [])
        try:
            if keyword == b"v":
                mesh.points.append(vertex(rest, unit, len(mesh.points)))
            elif keyword == b"f":
                corners = face(rest, all_vertices, len(mesh.points), len(mesh.faces))
                for second, third in zip(corners[1:], corners[2:]):
                    mesh.faces.append((corners[0], second, third))
                    mesh.names.append(name)
            elif keyword in (b"g", b"o"):
                name = rest[0] if rest else b"default"
        except Refused as reason:
            return None, (number, str(reason))
    return mesh, None


def vertex(words, unit, before):
    """The point of a `v` line."""
    if len(words) < 3:
        raise Refused("too few words")
    point = []
    for word in words[:3]:
        steps = grid_value(word, unit)
        if steps not in WORLD:
            raise Refused("outside the world")
        point.append(steps)
    if before == VERTICES_MOST:
        raise Refused("too many vertices")
    return tuple(point)


def face(words, all_vertices, before, triangles):
    """The places, from 0, of the vertices that an `f` line names."""
    if len(words) < 3:
        raise Refused("too few words")
    corners = []
    for word in words:
        form = REFERENCE.fullmatch(word)
        if not form:
            raise Refused("bad reference")
        named = int(form[1])
        if 1 <= named <= all_vertices:
            corners.append(named - 1)
        elif 1 <= -named <= before:
            corners.append(before + named)
        else:
            raise Refused("no such vertex")
    if triangles + len(corners) - 2 > TRIANGLES_MOST:
        raise Refused("too many triangles")
    return corners


# ------------------------------------------------------------------------------------------------ boxes and the tree

def least_box(points):
    """The least box round the points: its lowest and its highest corner."""
    return tuple(map(min, *points)), tuple(map(max, *points))


def union(boxes):
    return least_box([corner for box in boxes for corner in box])


def meet(a, b):
    """Whether some point is in both boxes, faces and edges among them."""
    return all(a[0][k] <= b[1][k] and b[0][k] <= a[1][k] for k in range(3))


def morton_code(box):
    """The bits of the box's middle, counted from the world's lowest corner, taken in turn: x, y, z from the highest."""
    middle = [(low + high) // 2 + 131_072 for low, high in zip(*box)]
    code = 0
    for bit in reversed(range(LEVELS)):
        for coordinate in middle:
            code = 2 * code + (coordinate >> bit & 1)
    return code


class Tree:
    """The binary tree over the triangles in order: a range is parted where the highest bit in which its codes differ
    changes. Positions, from 0, are parted alike where all codes of a range are equal. The order is that of the boxes at
    the build; the nodes' boxes are round the boxes now."""

    def __init__(self, built, boxes):
        self.order = sorted(range(len(built)), key=lambda triangle: (morton_code(built[triangle]), triangle))
        self.codes = [morton_code(built[triangle]) for triangle in self.order]
        self.boxes = boxes
        self.nodes = {}         # by number: first and last position, split, box
        self.above = {}         # by number: the number of the node above
        if len(boxes) > 1:
            self.part(0, len(boxes) - 1, 0, None)

    def part(self, first, last, number, above):
        """Adds the node over these positions, and all nodes below it. Answers its box."""
        if first == last:
            return self.boxes[self.order[first]]
        keys = self.codes if self.codes[first] != self.codes[last] else range(len(self.codes))
        bit = (keys[first] ^ keys[last]).bit_length() - 1
        split = max(at for at in range(first, last + 1) if keys[at] >> bit & 1 == 0)
        self.above[number] = above
        box = union([self.part(first, split, split, number), self.part(split + 1, last, split + 1, number)])
        self.nodes[number] = first, last, split, box
        return box

    def work(self, query):
        """How many boxes a walk from the root tests: the root's, and those of both children of each inner node whose box
        and all boxes above it meet the query."""
        if len(self.boxes) < 2:
            return len(self.boxes)

        def reached(number):
            return number is None or meet(self.nodes[number][3], query) and reached(self.above[number])

        return 1 + 2 * sum(reached(number) for number in self.nodes)


    def height(self):
        """How many inner nodes stand on the longest way down."""
        def depth(number):
            return 0 if number is None else 1 + depth(self.above[number])

        return max(map(depth, self.nodes), default=0)

    def cells(self, level):
        """The prefixes of the level that two or more codes have, rising. A prefix is a code without its last octal digits,
        one for each level further down."""
        prefixes = Counter(code // 8 ** (LEVELS - level) for code in self.codes)
        return sorted(prefix for prefix, count in prefixes.items() if count > 1)


# ------------------------------------------------------------------------------------------------ segments

def difference(p, q):
    return tuple(a - b for a, b in zip(p, q))


def determinant(a, b, c):
    return (a[0] * (b[1] * c[2] - b[2] * c[1]) - a[1] * (b[0] * c[2] - b[2] * c[0])
            + a[2] * (b[0] * c[1] - b[1] * c[0]))


def meeting(p, q, triangle):
    """Where the segment from p to q meets the triangle, as a fraction of the way from p to q; None where it does not, and
    where it is parallel to the triangle's plane or the triangle has no area.

    It is the solution of p + t (q - p) = a + v (b - a) + w (c - a), three equations for t, v and w, with t from 0 to 1,
    v and w at least 0, and v + w at most 1. Faces, edges, corners and ends count."""
    a, b, c = triangle
    columns = [difference(q, p), difference(a, b), difference(a, c)]
    right = difference(a, p)
    whole = determinant(*columns)
    if whole == 0:
        return None
    t, v, w = (Fraction(determinant(*columns[:k], right, *columns[k + 1:]), whole) for k in range(3))
    if not (0 <= t <= 1 and 0 <= v and 0 <= w and v + w <= 1):
        return None
    for k in range(3):
        assert p[k] + t * (q[k] - p[k]) == (1 - v - w) * a[k] + v * b[k] + w * c[k]
    return t


# ------------------------------------------------------------------------------------------------ the world

class World:
    """A mesh, the points now, the boxes at the last build, and the work of the last box query."""

    def __init__(self, mesh):
        self.mesh, self.points, self.last_work = mesh, list(mesh.points), 0
        self.look()
        self.rebuild()

    def look(self):
        """Makes all triangles and boxes from the points now."""
        self.triangles = [tuple(self.points[corner] for corner in corners) for corners in self.mesh.faces]
        self.boxes = [least_box(triangle) for triangle in self.triangles]
        self.tree_now = None

    @property
    def tree(self):
        """The tree in the order of the last build, over the boxes now."""
        self.tree_now = self.tree_now or Tree(self.built, self.boxes)
        return self.tree_now

    def move(self, vertex, to):
        if not 1 <= vertex <= len(self.points):
            raise Refused("no such vertex")
        self.points[vertex - 1] = to
        self.look()
        return f"moved {vertex}"

    def refit(self):
        return "refitted"

    def rebuild(self):
        self.built, self.tree_now = self.boxes, None
        return "rebuilt"

    def box(self, query):
        self.last_work = self.tree.work(query)
        found = [number for number, box in enumerate(self.boxes, 1) if meet(box, query)]
        return listed("overlaps", found)

    def seg(self, p, q):
        met = [(t, number) for number, triangle in enumerate(self.triangles, 1)
               if (t := meeting(p, q, triangle)) is not None]
        if not met:
            return "miss"
        t, number = min(met)
        return f"hit {number} {t.numerator}/{t.denominator}"

    def node(self, number):
        if number not in self.tree.nodes:
            raise Refused("no such node")
        first, last, split, (low, high) = self.tree.nodes[number]
        return " ".join(map(str, ("node", number, first, last, split, *low, *high)))

    def cells(self, level):
        if level > LEVELS:
            raise Refused("no such level")
        return listed(f"cells {level}", self.tree.cells(level))

    def stat(self):
        cells = sum(len(self.tree.cells(level)) for level in range(LEVELS + 1))
        return (f"triangles {len(self.triangles)} nodes {len(self.tree.nodes)} height {self.tree.height()}"
                f" cells {cells}")

    def groups(self):
        counts = {}
        for name in self.mesh.names:
            counts[name] = counts.get(name, 0) + 1
        pairs = b"".join(b" %b %d" % (name, count) for name, count in counts.items())
        return b"groups %d" % len(counts) + (b":" + pairs if counts else b"")

    def work(self):
        return f"work {self.last_work}"


def listed(word, numbers):
    return f"{word} {len(numbers)}" + (": " + " ".join(map(str, numbers)) if numbers else "")


# ------------------------------------------------------------------------------------------------ a script

def answer(world, line, unit, words=WORDS):
    """The reply to a line, without its line feed; None to a line that asks nothing."""
    if len(line) > LINE_MOST:
        raise Refused("line too long")
    first, *rest = words_of(line) or [b"#"]
    if first.startswith(b"#"):
        return None
    if first not in words:
        raise Refused("unknown word")
    if len(rest) != words[first]:
        raise Refused("wrong count of words")
    numbers, coordinates = (rest[:1], rest[1:]) if first in (b"node", b"move", b"cells") else ([], rest)
    numbers = [whole_value(word) for word in numbers]
    steps = []
    for word in coordinates:
        steps.append(grid_value(word, unit))
        if steps[-1] not in (REACH if first == b"box" else WORLD):
            raise Refused("out of range")
    points = [tuple(steps[at:at + 3]) for at in range(0, len(steps), 3)]
    if first == b"box":
        points = [least_box(points)]
    return getattr(world, first.decode())(*numbers, *points)


def opened(mesh_text, unit):
    """The mesh of a mesh text and None; or None and what is written where it is refused."""
    if len(mesh_text) > MESH_MOST:
        return None, b"mesh too long\n"
    mesh, fault = read_mesh(mesh_text, unit)
    return mesh, b"mesh line %d: %b\n" % (fault[0], fault[1].encode()) if fault else None


class Session:
    """A script over a mesh, a line at a time: its world, how many lines came, and the status. `words` are the script words
    that are known."""

    def __init__(self, mesh, unit, words=WORDS):
        self.world, self.unit, self.words, self.lines, self.status = World(mesh), unit, words, 0, DONE

    def reply(self, line):
        """What is written for the next line."""
        self.lines += 1
        try:
            reply = answer(self.world, line, self.unit, self.words)
        except Refused as reason:
            reply, self.status = f"line {self.lines}: {reason}", LINES_REFUSED
        if reply is None:
            return b""
        return (reply if isinstance(reply, bytes) else reply.encode()) + b"\n"

    def replies(self, pieces):
        """What is written for a script, a line at a time: the lines that end in a piece before the next one is taken."""
        taken, rest = 0, b""
        for piece in pieces:
            lines = (rest + piece[:SCRIPT_MOST - taken]).split(b"\n")
            taken, rest = taken + len(piece), lines.pop()
            yield from map(self.reply, lines)
            if taken > SCRIPT_MOST:
                self.status = LINES_REFUSED
                yield b"script too long\n"
                return
        if rest:
            yield self.reply(rest)


class ReadFailed(Exception):
    """A file cannot be read further."""


def answered(mesh, pieces, unit, words=WORDS):
    """The replies to a script that comes in pieces, and the status. Where the pieces end with `ReadFailed`, the lines that
    ended in them are answered."""
    session, output = Session(mesh, unit, words), []
    try:
        for reply in session.replies(pieces):
            output.append(reply)
    except ReadFailed:
        return b"".join(output), READ_FAULT
    return b"".join(output), session.status


def run(mesh_text, script, unit=UNIT, words=WORDS):
    """What the program writes over a mesh text and a script, and its status."""
    mesh, refusal = opened(mesh_text, unit)
    if refusal:
        return refusal, MESH_REFUSED
    return answered(mesh, [script], unit, words)


# ------------------------------------------------------------------------------------------------ the large workload

SPACING, CORNER, HEIGHTS, QUERIES = 256, 65_536, 1_024, 8


def height_field(squares):
    """The mesh of so many squares along each side, two triangles to a square, in one group."""
    mesh, row = Mesh(), squares + 1
    for j in range(row):
        for i in range(row):
            mesh.points.append((SPACING * i - CORNER, SPACING * j - CORNER, (73 * i + 151 * j + 29 * i * j) % HEIGHTS))
    for j in range(squares):
        for i in range(squares):
            near, beside, across, above = (y * row + x for x, y in ((i, j), (i + 1, j), (i + 1, j + 1), (i, j + 1)))
            mesh.faces += [(near, beside, across), (near, across, above)]
    mesh.names = [b"grid"] * len(mesh.faces)
    return mesh


def one_pass(world, squares):
    """Eight segments straight down and eight boxes, and what is summed of their replies."""
    hits = misses = numbers = overlaps = work = 0
    for k in range(QUERIES):
        x = (131 * k * k + 17) % (SPACING * squares) - CORNER
        y = (57 * k * k + 91 * k) % (SPACING * squares) - CORNER
        struck = world.seg((x, y, 2_000), (x, y, -1_000)).split()
        if struck[0] == "hit":
            hits, numbers = hits + 1, numbers + int(struck[1])
        else:
            misses += 1
        overlaps += int(world.box(((x, y, 0), (x + 1_024, y + 1_024, 500))).split()[1].rstrip(":"))
        work += world.last_work
    return f"hits {hits} misses {misses} numbers {numbers} overlaps {overlaps} work {work}"


def grid_report(squares):
    """The five lines of the large workload."""
    world = World(height_field(squares))
    lines = [world.stat(), one_pass(world, squares)]
    for k in range(QUERIES):
        place = 5 * k % len(world.points)
        x, y, _ = world.points[place]
        world.move(place + 1, (x, y, 1_000 - 10 * k))
    lines.append(one_pass(world, squares))
    world.rebuild()
    lines += [world.stat(), one_pass(world, squares)]
    return "".join(line + "\n" for line in lines).encode()


# ------------------------------------------------------------------------------------------------ the command line

BUILDS = ("karras", "apetrei")
OPTIONS = {"unit": range(1, UNIT_MOST + 1), "workers": range(1, 65), "grid": range(2, 513), "build": BUILDS}


def value_of(name, text):
    """The value that a text gives an option; None where it gives none."""
    value = text if name == "build" else int(text) if re.fullmatch("[0-9]{1,6}", text) else None
    return value if value in OPTIONS[name] else None


def plan_of(words):
    """What the words of a command line ask for, by name: `mesh` or `grid`, and the options that stand; None where they are
    not accepted."""
    plan, words = {}, list(words)
    while words:
        word = words.pop(0)
        if word.startswith("--"):
            name, equals, text = word[2:].partition("=")
            if name not in OPTIONS or not equals and (not words or words[0].startswith("-")):
                return None
            value = value_of(name, text if equals else words.pop(0))
        else:
            name, value = "mesh", word if word and not word.startswith("-") else None
        if value is None or name in plan:
            return None
        plan[name] = value
    if ("mesh" in plan) == ("grid" in plan) or "grid" in plan and "unit" in plan:
        return None
    return plan


def pieces_of(file):
    """The bytes of a file in pieces, each as soon as it is there."""
    try:
        while piece := os.read(file, 1 << 20):
            yield piece
    except OSError:
        raise ReadFailed from None


def mesh_text_of(name):
    """The bytes of a mesh file, up to one more than a mesh may have or a little further."""
    try:
        file = os.open(name, os.O_RDONLY)
    except (OSError, ValueError):       # a name with a zero byte, which no command line has
        raise ReadFailed from None
    text = b""
    try:
        for piece in pieces_of(file):
            text += piece
            if len(text) > MESH_MOST:
                break
    finally:
        os.close(file)
    return text


def write(text):
    """Writes all of it to standard output."""
    while text:
        text = text[os.write(1, text):]


def answer_words(words):
    """Does what the words ask for, and answers the status."""
    plan = plan_of(words)
    if plan is None:
        write(b"bad command line\n")
        return USAGE
    if "grid" in plan:
        write(grid_report(plan["grid"]))
        return DONE
    unit = plan.get("unit", UNIT)
    mesh, refusal = opened(mesh_text_of(plan["mesh"]), unit)
    if refusal:
        write(refusal)                  # and the script is not touched
        return MESH_REFUSED
    session = Session(mesh, unit)
    for reply in session.replies(pieces_of(0)):
        write(reply)
    return session.status


def main():
    words = []
    for word in sys.argv[1:]:
        try:
            words.append(os.fsencode(word).decode())
        except UnicodeDecodeError:
            words = [""]                # words that are not all UTF-8 are not accepted
            break
    try:
        sys.exit(answer_words(words))
    except MemoryError:
        sys.exit(MEMORY)
    except ReadFailed:
        sys.exit(READ_FAULT)
    except OSError:
        sys.exit(WRITE_FAULT)


if __name__ == "__main__":
    main()
