#!/usr/bin/env python3
"""Compares the program with oracle.py, byte for byte: output and exit status.

    python3 bench/against_oracle.py [--program PATH] [--files FOLDER] [--random COUNT] [--long COUNT] [--seed N] [--all]

1. Worked rows, whose replies were found by hand: the oracle is compared with them first, then the program; lists of words
   of the command line; ends that are no answer, as a mesh that is not there, by both as programs; and the large workload,
   `--grid N`.
2. Real files of other people's tools, in FOLDER: at 64 steps to a unit, at the largest unit at which the file fits, and at
   the smallest; none where no folder is named.
3. Random small meshes and scripts from a fixed seed, faulty ones among them, by both builds and several counts of workers;
   some of the meshes also among so many rows that are passed over that the program reads the text in parts.

The program is asked first which of the script words and options it knows. A word that it does not know is to be answered
`unknown word`, and is no word of the oracle either; without `--unit` all runs are at 64. All that lacks is told, and `--all` makes it
a failure. What differs is kept in a folder of the temporary directory, and its path is printed.
"""

import argparse
import os
import random
import re
import subprocess
import sys
import tempfile
from decimal import Decimal
from fractions import Fraction

import oracle

HERE = os.path.dirname(os.path.abspath(__file__))
TOP = os.path.dirname(HERE)

# ------------------------------------------------------------------------------------------------ worked rows

T = b"v 0 0 0\nv 4 0 0\nv 0 4 0\nf 1 2 3\n"
TWICE = T + b"f 1 2 3\n"
LEVEL = b"""# level
mtllib level.mtl
o Floor
v 0.000000 0.000000 0.000000
v 4.000000 0.000000 0.000000
v 4.000000 4.000000 0.000000
v 0.000000 4.000000 0.000000
vt 0.000000 0.000000
vn 0.0000 0.0000 1.0000
usemtl Stone
s off
f 1/1/1 2/1/1 3/1/1 4/1/1
o Ramp
v 4.000000 0.000000 0.000000
v 6.500000 0.000000 1.250000
v 6.500000 4.000000 1.250000
v 4.000000 4.000000 0.000000
f 5//1 6//1 7//1 8//1
"""
FAN = b"v 0 0 0\nv 4 0 0\nv 0 4 0\nf -1 -2 -3\nf 1/1/1 2//2 3/3\nv 4 4 0\nv 2 6 0\nf 1 2 4 5 3\n"
APART = (b"v 0 0 0\nv 4 0 0\nv 0 4 0\nv 100 0 0\nv 104 0 0\nv 100 4 0\nv 200 0 0\nv 204 0 0\nv 200 4 0\n"
         b"f 1 2 3\nf 4 5 6\nf 7 8 9\n")
JOINED = b"v 0 0 0\r\nv 4 0 0\r\nv 0 \\\r\n4 0\r\n# end \\\r\nf 1 2 3\r\n"
EIGHT = b"v 0 0 0\n" * 8
MANY_LINES = b"v 0 0 0\n" * 1_048_577
MANY_CORNERS = b"v 0 0 0\nf" + b" 1" * 1_048_578 + b"\n"

# name, mesh, unit, script, output, status
ROWS = [
    ("boxes touch where triangles do not", T, 1, b"box 4 4 0 9 9 0\nwork\n", b"overlaps 1: 1\nwork 1\n", 0),
    ("a hit half way", T, 1, b"seg 1 1 -1 1 1 1\n", b"hit 1 1/2\n", 0),
    ("a hit on an edge, at the end and at the start", T, 1, b"seg 2 2 -1 2 2 3\nseg 1 1 -1 1 1 0\nseg 1 1 0 1 1 5\n",
     b"hit 1 1/4\nhit 1 1/1\nhit 1 0/1\n", 0),
    ("the plane before the start and past the end", T, 1, b"seg 1 1 1 1 1 3\nseg 1 1 -3 1 1 -1\n", b"miss\nmiss\n", 0),
    ("a segment in the plane", T, 1, b"seg -1 1 0 5 1 0\n", b"miss\n", 0),
    ("the lowest number at equal fractions", TWICE, 1, b"seg 1 1 -1 1 1 1\nbox 4 4 0 9 9 0\nwork\n",
     b"hit 1 1/2\noverlaps 2: 1 2\nwork 3\n", 0),
    ("an empty mesh", b"", 1, b"box 0 0 0 1 1 1\nseg 0 0 0 1 1 1\nnode 0\ngroups\nwork\n",
     b"overlaps 0\nmiss\nline 3: no such node\ngroups 0\nwork 0\n", 6),
    ("nothing to move in an empty mesh", b"", 1, b"move 1 0 0 0\nrefit\nrebuild\n",
     b"line 1: no such vertex\nrefitted\nrebuilt\n", 6),
    ("no cell in an empty mesh", b"", 1, b"cells 0\nstat\n",
     b"cells 0 0\ntriangles 0 nodes 0 height 0 cells 0\n", 0),
    ("no cell for one triangle", T, 1, b"cells 0\ncells 18\nstat\n",
     b"cells 0 0\ncells 18 0\ntriangles 1 nodes 0 height 0 cells 0\n", 0),
    ("a cell at each level for two codes alike", TWICE, 1, b"cells 18\ncells 17\ncells 1\ncells 0\ncells 19\nstat\n",
     b"cells 18 1: 15762598695796784\ncells 17 1: 1970324836974598\ncells 1 1: 7\ncells 0 1: 0\n"
     b"line 5: no such level\ntriangles 2 nodes 1 height 1 cells 19\n", 6),
    ("an empty script", T, 1, b"", b"", 0),
    ("references of all spellings, and a fan", FAN, 1, b"groups\nbox 2 6 0 2 6 0\nbox 4 0 0 4 0 0\n",
     b"groups 1: default 5\noverlaps 2: 4 5\noverlaps 4: 1 2 3 4\n", 0),
    ("a face before its vertices", b"f 1 2 3\nv 0 0 0\nv 4 0 0\nv 0 4 0\n", 1, b"groups\n", b"groups 1: default 1\n", 0),
    ("a negative reference before any vertex", b"f -1 -2 -3\nv 0 0 0\nv 4 0 0\nv 0 4 0\n", 1, b"",
     b"mesh line 1: no such vertex\n", 2),
    ("a vertex that is not there", EIGHT + b"f 1 2 9\n", 1, b"work\n", b"mesh line 9: no such vertex\n", 2),
    ("two coordinates", b"v 0 0 0\nv 1 2\n", 1, b"", b"mesh line 2: too few words\n", 2),
    ("a word for a number", b"v 0 0 0\nv 1 x 2\n", 1, b"", b"mesh line 2: not a number\n", 2),
    ("vertex 0", EIGHT + b"f 1 2 0\n", 1, b"", b"mesh line 9: no such vertex\n", 2),
    ("a part that is no number", EIGHT + b"f 1 2 3/a\n", 1, b"", b"mesh line 9: bad reference\n", 2),
    ("the last step of the world", b"v 131071 0 0\n", 1, b"", b"", 0),
    ("one step past the world", b"v 131072 0 0\n", 1, b"", b"mesh line 1: outside the world\n", 2),
    ("one unit past the world", b"v 2048 0 0\n", 64, b"", b"mesh line 1: outside the world\n", 2),
    ("the last step at 64", b"v 2047.98 0 0\nf 1 1 1\nf 1 1 1\n", 64, b"node 0\n",
     b"node 0 0 1 0 131071 0 0 131071 0 0\n", 0),
    ("as many triangles as there may be", MANY_CORNERS, 1, None, b"", 0),
    ("one triangle more", MANY_CORNERS[:-1] + b" 1\n", 1, b"", b"mesh line 2: too many triangles\n", 2),
    ("one vertex more", MANY_LINES, 1, b"", b"mesh line 1048577: too many vertices\n", 2),
    ("a level as exporters write it", LEVEL, 64, b"groups\nbox 3 1 -1 3.5 2 1\nwork\nseg 5 1 4 5 1 -4\nnode 0\nnode 2\n",
     b"groups 2: Floor 2 Ramp 2\noverlaps 2: 1 2\nwork 5\nhit 3 7/16\nnode 0 0 3 1 0 0 0 416 256 80\n"
     b"node 2 2 3 2 256 0 0 416 256 80\n", 0),
    ("the counts of a level", LEVEL, 64, b"stat\n", b"triangles 4 nodes 3 height 2 cells 28\n", 0),
    ("three triangles apart", APART, 1, b"node 1\nseg 301 1 -1 301 1 1\n", b"node 1 0 1 0 0 0 0 104 4 0\nmiss\n", 0),
    ("a triangle that moves, is refitted and built anew", APART, 1,
     b"node 1\nseg 301 1 -1 301 1 1\nmove 1 300 0 0\nmove 2 304 0 0\nmove 3 300 4 0\nseg 301 1 -1 301 1 1\n"
     b"refit\nnode 1\nrebuild\nnode 1\nnode 0\n",
     b"node 1 0 1 0 0 0 0 104 4 0\nmiss\nmoved 1\nmoved 2\nmoved 3\nhit 1 1/2\n"
     b"refitted\nnode 1 0 1 0 100 0 0 304 4 0\nrebuilt\nnode 1 0 1 0 100 0 0 204 4 0\n"
     b"node 0 0 2 1 100 0 0 304 4 0\n", 0),
    ("work stays through moves and builds", TWICE, 1,
     b"box 4 4 0 9 9 0\nmove 1 -9 0 0\nwork\nrefit\nwork\nrebuild\nwork\nmove 1 9 9 9\nbox 9 9 9 9 9 9\nwork\n",
     b"overlaps 2: 1 2\nmoved 1\nwork 3\nrefitted\nwork 3\nrebuilt\nwork 3\nmoved 1\noverlaps 2: 1 2\nwork 3\n", 0),
    ("cells of the last build alone", T + b"v -4 -4 -4\nf 4 4 4\n", 1,
     b"cells 0\ncells 1\nmove 4 2 2 0\ncells 1\nrefit\nstat\nrebuild\ncells 1\nstat\n",
     b"cells 0 1: 0\ncells 1 0\nmoved 4\ncells 1 0\nrefitted\ntriangles 2 nodes 1 height 1 cells 1\nrebuilt\n"
     b"cells 1 1: 7\ntriangles 2 nodes 1 height 1 cells 19\n", 0),
    ("lines that go on, and carriage returns", JOINED, 1, b"groups\nbox 4 4 0 9 9 0\nwork\n",
     b"groups 1: default 1\noverlaps 1: 1\nwork 1\n", 0),
    ("the counts of one triangle", JOINED, 1, b"stat\n", b"triangles 1 nodes 0 height 0 cells 0\n", 0),
    ("a level that is too long", T, 1, b"cells 1234567890123456789012345\ncells 99999999999999999999\ncells 018\n",
     b"line 1: number too long\nline 2: no such level\ncells 18 0\n", 6),
    ("the reasons to refuse a line", T, 1,
     b"frob 1\nseg 1 2 3\nbox a 0 0 1 1 1\n# a comment\nbox 2147483648 0 0 0 0 0\nnode 0\n"
     b"node 1234567890123456789012345\nseg 131072 0 0 0 0 0\n" + b"x" * 1001 + b"\n" + b"x" * 1000 + b"\n",
     b"line 1: unknown word\nline 2: wrong count of words\nline 3: not a number\nline 5: out of range\n"
     b"line 6: no such node\nline 7: number too long\nline 8: out of range\nline 9: line too long\n"
     b"line 10: unknown word\n", 6),
    ("the reasons to refuse a move", T, 1,
     b"move 4 0 0 0\nmove 0 0 0 0\nmove 1 131072 0 0\nmove 1 0 0\nmove x y 0 0\nmove 1 y 0 0\nmove 9 131072 0 0\n"
     b"seg 1 1 -1 1 1 1\n",
     b"line 1: no such vertex\nline 2: no such vertex\nline 3: out of range\nline 4: wrong count of words\n"
     b"line 5: not a number\nline 6: not a number\nline 7: out of range\nhit 1 1/2\n", 6),
]

GRID_VALUES = [     # word, steps to a unit, grid value
    (b"0.5", 1, 1), (b"-0.5", 1, 0), (b"1e-300", 1, 0), (b"2.50e1", 1, 25), (b".5", 1, 1), (b"5.", 1, 5),
    (b"1e40", 1, 1099511627776), (b"6.500000", 64, 416),
    (b".", 1, "not a number"), (b"1e", 1, "not a number"), (b"0x1", 1, "not a number"), (b"inf", 1, "not a number"),
    (b"", 1, "not a number"), (b"1234567890123456789012345", 1, "number too long"),
]

CODES = [1, 2, 4, 5, 19, 24, 25, 30]
SPANS = [(0, 7, 3), (0, 1, 0), (2, 3, 2), (0, 3, 1), (4, 7, 4), (5, 7, 6), (5, 6, 5)]


# Words of the command line, where there is more than the mesh; MESH stands for its path.
ACCEPTED = ["MESH", "--unit=1 MESH", "MESH --workers 64 --build karras", "--build=karras --unit 000007 MESH --workers=1",
            "MESH --unit 65536", "MESH --build apetrei", "--build=apetrei --workers=64 MESH"]
REFUSED = ["", "MESH MESH", "MESH --build plain", "MESH --build Karras", "MESH --build karras --build apetrei",
           "MESH --build", "MESH --build=", "MESH --workers -1", "--grid", "- MESH", "MESH --grid=2 --unit=1",
           "MESH --workers 0", "MESH --workers 65", "MESH --workers 2 --workers 2", "--grid 1", "--grid 2 MESH",
           "--grid 2 --unit 1", "--grid 513", "--grid +2", "--grid 2 --grid 2", "--grid 0000002",
           "-- MESH", "MESH --build fast", "MESH --unit +1", "--help", "-h", "--version", "-V", "MESH --unit 0",
           "MESH --unit 65537", "MESH --unit 0000001", "MESH --unit", "MESH --unit=", "MESH -u 1", "--unit MESH", "MESH --Unit 1"]


# Words of the command line, what is told of standard input and output, and the status that is wanted. FULL is an output
# that takes nothing, CLOSED one that is closed.
ENDS = [("no-such-file.obj", None, None, oracle.READ_FAULT), ("FOLDER", None, None, oracle.READ_FAULT),
        ("MESH", "CLOSED", None, oracle.READ_FAULT), ("MESH", None, "FULL", oracle.WRITE_FAULT),
        ("MESH", None, "CLOSED", oracle.WRITE_FAULT), ("", None, "FULL", oracle.WRITE_FAULT),
        ("--grid 2", None, "FULL", oracle.WRITE_FAULT), ("--grid 2", "CLOSED", None, oracle.DONE),
        ("FAULTY", "CLOSED", None, oracle.MESH_REFUSED), ("FAULTY", None, "FULL", oracle.WRITE_FAULT),
        ("MESH --unit 0", "CLOSED", None, oracle.USAGE), ("MESH", None, None, oracle.DONE)]


# the large workload of two squares along each side, by hand, and the counts of squares that the oracle is asked
GRID_OF_TWO = b"""triangles 8 nodes 7 height 3 cells 46
hits 8 misses 0 numbers 29 overlaps 46 work 100
hits 8 misses 0 numbers 29 overlaps 35 work 100
triangles 8 nodes 7 height 3 cells 22
hits 8 misses 0 numbers 29 overlaps 35 work 100
"""
GRIDS = [2, 3, 4, 5, 8, 13, 30, 64]


def tree_of_codes(codes):
    """The oracle's tree over triangles of these codes, each a single point."""
    points = []
    for code in codes:
        point = [0, 0, 0]
        for bit in range(54):
            point[2 - bit % 3] |= (code >> bit & 1) << bit // 3
        points.append(tuple(coordinate - 131_072 for coordinate in point))
    boxes = [(point, point) for point in points]
    return oracle.Tree(boxes, boxes)


def oracle_agrees_with_rows():
    """Compares the oracle with values found by hand. Answers the number of differences."""
    bad = 0
    for word, unit, expected in GRID_VALUES:
        try:
            value = oracle.grid_value(word, unit)
        except oracle.Refused as reason:
            value = str(reason)
        if value != expected:
            bad += 1
            print(f"ORACLE: grid value of {word} at {unit}: {value}, by hand {expected}")
    tree = tree_of_codes(CODES)
    spans = [tree.nodes[number][:3] for number in range(7)]
    if spans != SPANS or tree.codes != CODES:
        bad += 1
        print(f"ORACLE: tree over {CODES}: {spans}, by hand {SPANS}")
    if oracle.grid_report(2) != GRID_OF_TWO:
        bad += 1
        print(f"ORACLE: two squares along each side: {oracle.grid_report(2)}, by hand {GRID_OF_TWO}")
    for words, accepted in [(words, True) for words in ACCEPTED] + [(words, False) for words in REFUSED]:
        if (oracle.plan_of(words.split()) is not None) != accepted:
            bad += 1
            print(f"ORACLE: the words `{words}`: {oracle.plan_of(words.split())}")
    for name, mesh, unit, script, output, status in ROWS:
        if script is not None and oracle.run(mesh, script, unit) != (output, status):
            bad += 1
            print(f"ORACLE: {name}: {oracle.run(mesh, script, unit)}, by hand {(output, status)}")
    return bad


# ------------------------------------------------------------------------------------------------ the program

class Program:
    """The built program, and what it knows of the command line and of scripts."""

    def __init__(self, path, folder):
        self.path, self.folder, self.compared, self.lines, self.bad = path, folder, 0, 0, 0
        self.probe = probe = os.path.join(folder, "probe.obj")
        with open(probe, "wb") as file:
            file.write(T)
        self.has_unit = self.start(probe, b"", ["--unit", "64"])[1] != oracle.USAGE
        self.has_grid = subprocess.run([path, "--grid", "2"], input=b"", capture_output=True, check=False).returncode == 0
        self.words = {word: count for word, count in oracle.WORDS.items()
                      if b"unknown word" not in self.start(probe, b" ".join([word] + [b"0"] * count) + b"\n", [])[0]}

    def start(self, mesh, script, options):
        done = subprocess.run([self.path, *options, mesh], input=script, capture_output=True, check=False)
        if done.stderr:
            sys.exit(f"the program wrote to standard error: {done.stderr[:200]}")
        return done.stdout, done.returncode

    def run(self, mesh, script, unit, options=()):
        return self.start(mesh, script, [*options, *([] if unit == oracle.UNIT else ["--unit", str(unit)])])

    def compare(self, name, mesh, script, unit, expected=None, options=()):
        """Runs the program over the mesh text, and compares with what is expected, or with the oracle's answer."""
        if unit != oracle.UNIT and not self.has_unit:
            return
        path = os.path.join(self.folder, "mesh.obj")
        with open(path, "wb") as file:
            file.write(mesh)
        got = self.run(path, script, unit, options)
        expected = expected or oracle.run(mesh, script, unit, self.words)
        self.compared += 1
        self.lines += script.count(b"\n")
        if got != expected:
            self.bad += 1
            kept = tempfile.mkdtemp(prefix="differs-")
            for file_name, content in [("mesh.obj", mesh), ("script", script), ("program", got[0]), ("oracle", expected[0])]:
                with open(os.path.join(kept, file_name), "wb") as file:
                    file.write(content)
            print(f"DIFFERS: {name}, unit {unit} {' '.join(options)}: program status {got[1]}, oracle {expected[1]}; kept in "
                  f"{kept}")
            for ours, theirs in zip(got[0].split(b"\n"), expected[0].split(b"\n")):
                if ours != theirs:
                    print(f"  program: {ours[:200]}\n  oracle:  {theirs[:200]}")
                    break


def compare_words(program):
    """Lists of words that are accepted, and lists that are not."""
    # no vertex, so that no unit can put one outside the world
    empty = os.path.join(os.path.dirname(program.probe), "empty.obj")
    open(empty, "wb").close()
    for words, accepted in [(words, True) for words in ACCEPTED] + [(words, False) for words in REFUSED]:
        options = [empty if word == "MESH" else word for word in words.split()]
        done = subprocess.run([program.path, *options], input=b"", capture_output=True, check=False)
        program.compared += 1
        if (done.stdout, done.returncode) != ((b"", oracle.DONE) if accepted else (b"bad command line\n", oracle.USAGE)):
            program.bad += 1
            print(f"DIFFERS: the words `{words}`: status {done.returncode}, {done.stdout[:100]}")


def compare_ends(program):
    """Ends that are no answer, of the program and of the oracle as a program."""
    folder = os.path.dirname(program.probe)
    names = {"MESH": program.probe, "FOLDER": folder, "FAULTY": os.path.join(folder, "faulty.obj")}
    with open(names["FAULTY"], "wb") as file:
        file.write(b"v 0 0\n")
    for words, told, output, status in ENDS:
        options = [names.get(word, word) for word in words.split()]
        for command in ([program.path], [sys.executable, os.path.join(HERE, "oracle.py")]):
            shell = '"$@"' + (" <&-" if told == "CLOSED" else "") + {"FULL": " >/dev/full", "CLOSED": " >&-"}.get(output, "")
            done = subprocess.run(["sh", "-c", shell, "sh", *command, *options], input=None if told else b"groups\n",
                                  capture_output=True, check=False)
            program.compared += 1
            if (done.returncode, done.stderr) != (status, b""):
                program.bad += 1
                print(f"DIFFERS: `{words}`, input {told}, output {output}, of {command[-1]}: status {done.returncode}, wanted "
                      f"{status}; it said {done.stderr[-200:]}")


def compare_grids(program):
    """The large workload, by several numbers of workers."""
    for squares in GRIDS:
        expected = oracle.grid_report(squares)
        for workers in (1, 4, 7):
            words = ["--grid", str(squares), f"--workers={workers}"]
            done = subprocess.run([program.path, *words], input=b"", capture_output=True, check=False)
            program.compared += 1
            if (done.stdout, done.returncode) != (expected, oracle.DONE):
                program.bad += 1
                print(f"DIFFERS: --grid {squares} by {workers} workers: status {done.returncode}, {done.stdout}")


def compare_rows(program):
    for name, mesh, unit, script, output, status in ROWS:
        known = script is None or all(word in program.words for word in oracle.WORDS
                                      if re.search(rb"^%b\b" % word, script, re.M))
        if known:
            program.compare(name, mesh, script or b"", unit, (output, status))


# ------------------------------------------------------------------------------------------------ real files

# They are of packages of Debian 12: of assimp-testmodels all but the cornell box (embree-tools), fcl_rob (fcl, source) and
# vertex_colours (tinyobjloader, source). What is known of each: triangles and groups; or by hand, the line and the reason
# that refuse it.
REAL = {
    "spider.obj": (1368, 19), "wuson.obj": (3732, 1), "max2obj.obj": (2710, 55), "lightwave_66gon.obj": (64, 1),
    "blender261.obj": (256, 1), "utf16.obj": (0, 0), "cornell_box.obj": (34, 7), "fcl_rob.obj": (216, 1),
    "vertex_colours.obj": (12, 6), "no_final_newline.obj": (12, 1),
    "number_formats.obj": (11, "not a number"), "malformed_refs.obj": (23, "no such vertex"),
}


def decimal(steps, unit):
    """A decimal word for a number of grid steps: it comes to exactly these steps."""
    return f"{steps / unit:.9f}"


def line(word, steps, unit):
    return " ".join([word] + [decimal(x, unit) for x in steps]) + "\n"


def script_over(mesh, unit, chance, queries):
    """A script over a mesh: the cells of each level, every node, then boxes and segments, small ones, ones that touch, ones through corners."""
    points = mesh.points or [(0, 0, 0)]
    low, high = oracle.least_box(points + points)
    inside = lambda: tuple(chance.randint(a, b) for a, b in zip(low, high))
    bring_in = lambda point: tuple(min(max(x, -131_072), 131_071) for x in point)
    triangles = len(mesh.faces)
    out = ["groups\n", "work\n", "stat\n"] + [f"cells {level}\n" for level in range(oracle.LEVELS + 2)]
    out += [f"node {number}\n" for number in range(triangles + 1)]
    out += [line("box", [*low, *high], unit), "work\n"]
    for _ in range(queries):
        p, q, corner = inside(), inside(), chance.choice(points)
        reach = chance.choice([0, 0, 1, 7, 100, 1000])
        near = tuple(x + chance.randint(-reach, reach) for x in corner)
        out.append(line("box", chance.choice([[*corner, *corner], [*corner, *near], [*near, *corner], [*p, *q]]), unit))
        out.append("work\n")
        if mesh.points and chance.random() < 0.3:
            vertex, to = chance.randint(1, len(mesh.points)), bring_in(chance.choice([p, near, corner]))
            out.append(line(f"move {vertex}", to, unit))
            out += [f"node {chance.randrange(max(triangles, 1))}\n", chance.choice(["", "refit\n", "rebuild\n"])]
        middle = mesh.faces and tuple(sum(mesh.points[c][k] for c in chance.choice(mesh.faces)) // 3 for k in range(3))
        through = bring_in(2 * a - b for a, b in zip(middle or corner, p))
        along = chance.randrange(3)
        for ends in ([p, q], [p, corner], [p, through], [corner, near],
                     [[low[k] if k == along else corner[k] for k in range(3)],
                      [high[k] if k == along else corner[k] for k in range(3)]]):
            out.append(line("seg", [*bring_in(ends[0]), *bring_in(ends[1])], unit))
    return "".join(out).encode()


def largest_unit(text):
    """The largest unit at which every vertex is in the world, by its largest coordinate."""
    largest = max((abs(Fraction(word.decode())) for _, row in oracle.joined_lines(text)
                   for word in oracle.words_of(row)[1:4] if oracle.words_of(row)[0] == b"v"), default=Fraction(0))
    return min(int(131_071 / largest), oracle.UNIT_MOST) if largest else oracle.UNIT_MOST


def compare_real_files(program, chance, folder):
    if folder is None:
        print("real files: none, since no folder is named by --files")
        return
    print("real files:" if program.has_unit else "real files, at 64 alone, since the program knows no --unit:")
    for name, (count, groups) in REAL.items():
        with open(os.path.join(folder, name), "rb") as file:
            text = file.read()
        refused = isinstance(groups, str)
        if refused:
            units = [oracle.UNIT, 1]
        else:
            units = sorted({oracle.UNIT, 1, largest_unit(text)})
        for unit in units if program.has_unit else [oracle.UNIT]:
            mesh, fault = oracle.read_mesh(text, unit)
            if refused or fault:
                said = b"mesh line %d: %b\n" % (fault[0], fault[1].encode())
                if refused and fault != (count, groups):
                    program.bad += 1
                    print(f"ORACLE: {name}: refused at {fault}, by hand {(count, groups)}")
                program.compare(name, text, b"work\n", unit, (said, oracle.MESH_REFUSED))
                print(f"  {name} at {unit}: {said.decode().strip()}")
                continue
            found = (len(mesh.faces), len(set(mesh.names)))
            if found != (count, groups):
                program.bad += 1
                print(f"ORACLE: {name}: {found} triangles and groups, listed {(count, groups)}")
            script = script_over(mesh, unit, chance, 25)
            program.compare(name, text, script, unit)
            print(f"  {name} at {unit}: {found[0]} triangles, {found[1]} groups, {script.count(10)} lines")


# ------------------------------------------------------------------------------------------------ random meshes

def spelled(chance, steps, unit):
    """A word for about that many grid steps, spelled in one of many ways; now and then a half step, or just beside it."""
    if chance.random() < 0.15:
        half = Decimal(2 * steps + 1) / Decimal(2 * unit)       # exact, since the units here divide a power of ten
        return f"{half + chance.choice([0, 0, 1, -1]) * Decimal(10) ** -17:f}"
    value = Fraction(steps, unit)
    text = f"{float(value):.{chance.choice([0, 1, 6, 9])}f}"
    return chance.choice([text] * 6 + [f"{float(value):.7e}", f"{float(value):.3E}", text + "e0", text + "00" if "." in text
                                       else text + ".", text if text[0] == "-" else "+" + text, f"{float(value):g}"])


def reference(chance, before, total):
    r = chance.randint(1, max(total, 1))
    if before and chance.random() < 0.3:
        r = -chance.randint(1, before)
    return chance.choice(["{}"] * 4 + ["{}/1", "{}//2", "{}/3/4", "{}/", "{}//", "+{}" if r > 0 else "{}"]).format(r)


NOISE = ["", "   ", "# a comment", "vt 0 0", "vn x", "usemtl a", "s off", "g", "g a", "g b c", "o a#b", "o", "call x", "V 1 2",
         "g " + "\u00e9", "#\\"]
FAULTS = ["v 1 2", "v 1 2 x", "v 1e5 0 0", "v 0 -2048.5 0", "v 0 0 -131072.6", "v 1 1 .", "v 1234567890123456789012345 0 0",
          "v 0000000000000000000000000000001 0 0", "v 1e-99999999999999999999 1 0", "v 1e99999999999999999999 0 0",
          "f 1 2", "f 1 2 x", "f 1 2 0", "f 1 2 999", "f -99 1 1", "f 1/ 1// 1///", "f 1 1 1/-", "f 1 +1 1/+2/-3", "v#1", "f"]


def random_mesh(chance, unit):
    """A small mesh text: few places, so that boxes touch, codes are equal and triangles have no area."""
    reach = chance.choice([1, 2, 4, 40, 4_000, 131_071])
    vertices = chance.choice([0, 1, 3, 5, 12, 30])
    step = lambda: chance.randint(-reach, reach)
    lines, before = [], 0
    for _ in range(vertices):
        lines.append(("v " + " ".join(spelled(chance, step(), unit) for _ in range(3))
                      + chance.choice(["", "", " 1.0", " .1 .2 .3"])))
    for _ in range(chance.choice([0, 1, 2, 3, 8, 20, 40]) if vertices else 0):
        lines.insert(chance.randint(0, len(lines)) if chance.random() < 0.2 else len(lines), "f")
    for _ in range(chance.randrange(6)):
        lines.insert(chance.randint(0, len(lines)), chance.choice(NOISE))
    if chance.random() < 0.25:
        lines.insert(chance.randint(0, len(lines)), chance.choice(FAULTS))
    text = b""
    for row in lines:
        if row == "f":
            row = "f " + " ".join(reference(chance, before, vertices) for _ in range(chance.choice([3, 3, 3, 4, 5, 7])))
        before += oracle.words_of(row.split("#")[0].encode())[:1] == [b"v"]
        if " " in row and chance.random() < 0.1:
            row = row.replace(" ", chance.choice([" \\\n", "\\\r\n ", "\t", " \f\v "]), 1)
        text += row.encode() + chance.choice([b"\n"] * 8 + [b"\r\n", b" \n"])
    return text[:-1] if chance.random() < 0.2 else text


ODD_LINES = ["", "  ", "# box", "#", "frob", "Box 0 0 0 1 1 1", "box", "box 0 0 0 1 1", "box 0 0 0 1 1 1 1", "box 0 0 0 1 1 x",
             "box x 0 0 1 1", "box 1e30 0 x 0 0 0", "box 0 0 0 1e30 0 0", "box 2147483647.4e-1 0 0 0 0 0", "box 0 0 0 0 0 1e-400",
             "seg 0 0 0 0 0", "seg 0 0 0 0 0 0", "seg 2048 0 0 0 0 0", "seg 0 0 -2048 0 0 2047.99", "seg 0 0 131072 0 0 0",
             "seg 0 0 -131073 0 y 0", "seg 0 0 1234567890123456789012345 131072 0 0", "node", "node 0 0", "node -1", "node +1",
             "node 1.0", "node 00", "node 007", "node 99999999999", "node 1000000000000000000000000",
             "node 1234567890123456789012345", "node 0000000000000000000000000000001", "groups", "groups 1", "work", "work 0",
             "move", "move 1 0 0", "move 0 0 0 0", "move 01 0 0 0", "move +1 0 0 0", "move 1 0 0 2048", "move 1 0 x 0",
             "move 1.0 0 0 0", "move 99999999999 0 0 0", "move 1234567890123456789012345 x 0 0", "refit", "refit 1",
             "rebuild", "rebuild 0",
             "\tbox\v0 0 0\f1 1 1\r", "work\r", "box 0 0 0 0 0 0 # no comment here", "box +1 -.5e1 5. 0 0 0", "groups#", "w\u00f6rk",
             "\\", "work \\", "cells", "cells 0 0", "cells -1", "cells 1.0", "cells 007", "cells 19", "cells 99999999999",
             "cells 1234567890123456789012345", "stat 0", "stat", "stats", "Stat"]


def random_script(chance, mesh_text, unit):
    mesh, _ = oracle.read_mesh(mesh_text, unit)
    points = mesh.points if mesh and mesh.points else [(0, 0, 0)]
    reach = max(max(map(abs, point)) for point in points) + 2
    place = lambda: (chance.choice(points) if chance.random() < 0.6
                     else tuple(chance.randint(-reach, reach) for _ in range(3)))
    lines = []
    for _ in range(chance.choice([0, 1, 10, 40])):
        kind = chance.random()
        if kind < 0.35:
            lines.append(" ".join(["box"] + [spelled(chance, x, unit) for x in (*place(), *place())]))
        elif kind < 0.65:
            p, q = place(), place()
            if chance.random() < 0.4:
                axis = chance.randrange(3)
                q = tuple(-reach if k == axis else x for k, x in enumerate(p))
                p = tuple(reach if k == axis else x for k, x in enumerate(p))
            p, q = (tuple(min(max(x, -131_072), 131_071) for x in end) for end in (p, q))
            lines.append(" ".join(["seg"] + [spelled(chance, x, unit) for x in (*p, *q)]))
        elif kind < 0.72:
            lines.append(f"node {chance.randrange(len(mesh.faces) + 2 if mesh else 3)}")
        elif kind < 0.82:
            to = (min(max(x, -131_072), 131_071) for x in place())
            lines.append(" ".join(["move", str(chance.randint(0, len(mesh.points) + 1 if mesh else 3))]
                                  + [spelled(chance, x, unit) for x in to]))
        elif kind < 0.9:
            lines.append(chance.choice(["groups", "work", "refit", "refit", "rebuild", "stat",
                                        f"cells {chance.randrange(oracle.LEVELS + 2)}"]))
        else:
            lines.append(chance.choice(ODD_LINES))
    if chance.random() < 0.1:
        size = chance.choice([1000, 1001])
        lines.append(chance.choice(["# " + "x" * (size - 2), "x" * size, "work" + " " * (size - 4)]))
    text = "".join(row + "\n" for row in lines).encode()
    return text[:-1] if chance.random() < 0.3 else text


def damaged(chance, text):
    """The text with some byte changed, now and then."""
    if text and chance.random() < 0.1:
        at = chance.randrange(len(text))
        text = text[:at] + bytes([chance.choice(b" \n\r\t\\#/-+.eE0789vfgo\0\xff")]) + text[at + 1:]
    return text


# no reply depends on these
BUILDS = [[], ["--build", "apetrei"], ["--build=karras", "--workers=1"], ["--workers", "64", "--build=apetrei"]]


def compare_random(program, chance, count):
    for number in range(count):
        unit = chance.choice([1, 2, 64, 64, 100, 1000, 65_536]) if program.has_unit else oracle.UNIT
        mesh = damaged(chance, random_mesh(chance, unit))
        script = damaged(chance, random_script(chance, mesh, unit))
        program.compare(f"random mesh {number}", mesh, script, unit, options=BUILDS[number % len(BUILDS)])


LONG = 1_200_000    # bytes; from 1,048,576 on a text is read in parts

# Rows that give nothing, or a name; where one goes on in the next, that is no row of its own.
PASSED_OVER = [b"", b"s off\r", b"# v 1 2 3 \\", b"# \\\r", b"call x \\\n v 0 0 0", b"vn 0 0 \\\r\nf 1 1 x", b"usemtl \\\\", b"vt 0 \\ ",
               b"g a \\\nf 1 2 3", b"o\r", b"x \\\n\\\n\\\nv", b"vn 0.123456 0.654321 0.500000", b"# " + b"long " * 60]


def lengthened(chance, text):
    """The rows of a text among many that are passed over."""
    rows, size = text.split(b"\n"), len(text)
    while size < LONG:
        more = chance.choices(PASSED_OVER, k=chance.choice([1, 10, 1_000, 10_000]))
        rows.insert(chance.randint(0, len(rows)), b"\n".join(more))
        size += len(rows) + sum(map(len, more))
    return b"\n".join(rows)


def compare_long(program, chance, count):
    for number in range(count):
        unit = chance.choice([1, 64, 1000]) if program.has_unit else oracle.UNIT
        mesh = lengthened(chance, random_mesh(chance, unit))
        program.compare(f"long random mesh {number}", mesh, random_script(chance, mesh, unit), unit)


# ------------------------------------------------------------------------------------------------ main

def main():
    parser = argparse.ArgumentParser(description="Compares the program with the oracle.")
    parser.add_argument("--program", default=os.path.join(TOP, "crates", "world_main", "out", "world_main"))
    parser.add_argument("--files", metavar="FOLDER", help="of real files, *.obj")
    parser.add_argument("--random", type=int, default=1000, metavar="COUNT", help="how many random meshes")
    parser.add_argument("--long", type=int, default=12, metavar="COUNT", help="how many long ones")
    parser.add_argument("--seed", type=int, default=1)
    parser.add_argument("--all", action="store_true", help="fail where the program lacks a word or --unit")
    chosen = parser.parse_args()
    if oracle_agrees_with_rows():
        sys.exit("the oracle differs from values found by hand")
    print(f"oracle: agrees with {len(ROWS)} worked rows, {len(GRID_VALUES)} numbers and a tree of eight codes")
    if not os.path.exists(chosen.program):
        sys.exit(f"there is no program {chosen.program}: build it by `rt run` in crates/world_main")
    with tempfile.TemporaryDirectory() as folder:
        program = Program(chosen.program, folder)
        lacks = [word.decode() for word in oracle.WORDS if word not in program.words]
        lacks += [] if program.has_unit else ["--unit"]
        lacks += [] if program.has_grid else ["--grid"]
        if lacks:
            print("NOT KNOWN to this program, and so not compared:", ", ".join(lacks))
        compare_rows(program)
        print(f"worked rows: {program.compared} runs of {len(ROWS)}")
        if program.has_unit:
            compare_words(program)
            print(f"words of the command line: {len(ACCEPTED)} lists accepted, {len(REFUSED)} refused")
            compare_ends(program)
            print(f"ends that are no answer: {len(ENDS)}, by both")
        if program.has_grid:
            compare_grids(program)
            print(f"the large workload: {len(GRIDS)} counts of squares, by 1, 4 and 7 workers")
        compare_real_files(program, random.Random(chosen.seed), chosen.files)
        compare_random(program, random.Random(chosen.seed), chosen.random)
        compare_long(program, random.Random(chosen.seed), chosen.long)
        print(f"{program.compared} runs, {program.lines} script lines, {program.bad} differences")
        sys.exit(1 if program.bad or chosen.all and lacks else 0)


if __name__ == "__main__":
    main()
