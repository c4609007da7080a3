#!/usr/bin/env python3
"""One table of the built program beside a yardstick: reading, building, boxes, segments and memory at three sizes.

    python3 bench/table.py [--program PATH] [--yardstick PATH] [--runs N] [--wall] [--workers W]

The meshes are height fields of 8,192, 131,072 and 524,288 triangles, the scripts 20,000 small boxes and 4,000 segments;
all are made here, the same at each run. The yardstick is yardstick.rs beside this file, the same kind of index in plain
Rust with no proof, at as many threads; rustc builds it. Both programs run in turn, N times (three times as often over the
smallest mesh), and their replies are compared.

Times are processor time, user and system, since others may load the machine; with `--wall`, and with more than one worker,
they are by the clock. They are differences of whole runs, of the program and of the yardstick alike, so that starting and
ending count in neither:

- read: a mesh that is refused at its last line, less an empty mesh. (A long one is read by threads first, and once more
  on one thread since it is refused: both count here, and so the build below comes out short. The sum of both is right.)
- build: an empty script over the mesh, less the reading. (The yardstick refuses nothing. What it takes to open the mesh is
  parted between the two as it says itself.)
- boxes, segments: a script of them over the mesh, less the empty script. Reading the lines and writing the replies counts.
- peak memory: that of a further run with the boxes, as /usr/bin/time tells it; without that program there is no figure.

The figures are medians over all runs. A ratio is the program's time or memory over the yardstick's within one run, and the
median of these: 2.00 says that the program took twice as long.
"""

import argparse
import datetime
import os
import random
import shutil
import statistics
import subprocess
import sys
import tempfile
import time

HERE = os.path.dirname(os.path.abspath(__file__))
TOP = os.path.dirname(HERE)
YARDSTICK = os.path.join(HERE, "yardstick.rs")
TIME = "/usr/bin/time"
SIDES = (64, 256, 512)
BOXES, SEGMENTS = 20_000, 4_000


# ------------------------------------------------------------------------------------------------ meshes and scripts

def decimal(steps):
    """The decimal that comes to these grid steps at 64 to a unit, as an exporter writes it."""
    whole, rest = divmod(abs(steps), 64)
    return ("-" if steps < 0 else "") + (f"{whole}.{rest * 15625:06}" if rest else str(whole))


def height(i, j):
    return (73 * i + 151 * j + 29 * i * j) % 1024


def mesh_text(side):
    """A square of side * side cells of four units, two triangles each, with heights from 0 to 16 units."""
    rows = []
    for j in range(side + 1):
        for i in range(side + 1):
            rows.append(f"v {decimal(256 * i - 65_536)} {decimal(256 * j - 65_536)} {decimal(height(i, j))}\n")
    for j in range(side):
        for i in range(side):
            a = j * (side + 1) + i + 1
            rows.append(f"f {a} {a + 1} {a + side + 2}\nf {a} {a + side + 2} {a + side + 1}\n")
    return "".join(rows).encode()


def lines(word, rows):
    return "".join(f"{word} {' '.join(map(decimal, row))}\n" for row in rows).encode()


def scripts(side):
    """Boxes of up to eight units, and segments: the half straight down, the half across the field."""
    chance, far = random.Random(side), 256 * side - 65_536
    boxes = []
    for _ in range(BOXES):
        x, y, z = chance.randint(-65_536, far), chance.randint(-65_536, far), chance.randint(0, 1_023)
        a, b, c = chance.randint(0, 1_024), chance.randint(0, 1_024), chance.randint(0, 512)
        boxes.append((x - a, y - b, z - c, x + a, y + b, z + c))
    segments = []
    for _ in range(SEGMENTS // 2):
        x, y = chance.randint(-65_536, far), chance.randint(-65_536, far)
        segments.append((x, y, 2_000, x, y, -500))
        p, q = ([chance.randint(-65_536, far) for _ in range(2)] for _ in range(2))
        segments.append((*p, chance.randint(1_100, 4_000), *q, chance.randint(-500, 500)))
    return lines("box", boxes), lines("seg", segments)


# ------------------------------------------------------------------------------------------------ runs

class Runner:
    """A program with its options, run over files."""

    def __init__(self, command, environment, folder, wall):
        self.command, self.environment = command, dict(os.environ, **environment)
        self.folder, self.wall = folder, wall

    def run(self, mesh, script, before=()):
        """The time in seconds, replies, and what was written to standard error."""
        out, said = os.path.join(self.folder, "out"), os.path.join(self.folder, "said")
        with open(script, "rb") as source, open(out, "wb") as sink, open(said, "wb") as faults:
            start = time.perf_counter()
            process = subprocess.Popen([*before, *self.command, mesh], stdin=source, stdout=sink, stderr=faults,
                                       env=self.environment)
            _, status, used = os.wait4(process.pid, 0)
            took = time.perf_counter() - start if self.wall else used.ru_utime + used.ru_stime
            process.returncode = os.waitstatus_to_exitcode(status)
        if process.returncode not in (0, 2, 6):
            sys.exit(f"{' '.join(self.command)} ended with status {process.returncode}")
        with open(out, "rb") as replies, open(said) as faults:
            return took, replies.read(), faults.read()

    def peak(self, mesh, script):
        """Peak memory in MB, by a small program: a child of this one would begin with this one's peak."""
        if not os.path.exists(TIME):
            return float("nan")
        return int(self.run(mesh, script, (TIME, "-f", "%M"))[2].split()[-1]) / 1024


class Files:
    """The meshes and scripts of one side, in a folder."""

    def __init__(self, folder, side):
        text = mesh_text(side)
        boxes, segments = scripts(side)
        self.bytes, self.triangles = len(text), 2 * side * side
        self.mesh, self.refused = self.put(folder, "mesh.obj", text), self.put(folder, "refused.obj", text + b"f 1 2\n")
        self.none, self.boxes = self.put(folder, "none", b""), self.put(folder, "boxes", boxes)
        self.segments = self.put(folder, "segments", segments)

    @staticmethod
    def put(folder, name, content):
        path = os.path.join(folder, name)
        with open(path, "wb") as file:
            file.write(content)
        return path


def figures(runner, files, is_yardstick):
    """Seconds to read, to build, for the boxes and for the segments, and MB; then the replies."""
    begun = runner.run(files.none, files.none)[0]
    opened, _, said = runner.run(files.mesh, files.none)
    if is_yardstick:
        parsing, building = (float(said.split(word)[1].split()[0]) + 1e-3 for word in ("parse ", "build "))
        read = (opened - begun) * parsing / (parsing + building)
        build = opened - begun - read
    else:
        refused = runner.run(files.refused, files.none)[0]
        read, build = refused - begun, opened - refused
    boxed, replies, _ = runner.run(files.mesh, files.boxes)
    shot, more, _ = runner.run(files.mesh, files.segments)
    replies += more
    row = {"read": read, "build": build, "boxes": boxed - opened, "segments": shot - opened}
    row = {name: max(value, 1e-6) for name, value in row.items()}
    return row | {"memory": runner.peak(files.mesh, files.boxes)}, replies


def machine():
    with open("/proc/cpuinfo") as file:
        names = [line.split(":")[1].strip() for line in file if line.startswith("model name")]
    return f"{os.cpu_count()} processors, {names[0] if names else 'model not told'}"


# ------------------------------------------------------------------------------------------------ the table

def cells(ours, ratios, size):
    """The cells of one row: each figure and its ratio."""
    middle = lambda name: statistics.median(row[name] for row in ours)
    ratio = lambda name: f"{statistics.median(ratios[name]):.2f}"
    yield f"{size.triangles:,}"
    yield f"{size.bytes / 1e6 / middle('read'):.0f}"
    yield ratio("read")
    yield f"{middle('build') * 1e3:.1f}"
    yield ratio("build")
    yield f"{BOXES / middle('boxes'):,.0f}"
    yield ratio("boxes")
    yield f"{SEGMENTS / middle('segments'):,.0f}"
    yield ratio("segments")
    yield f"{middle('memory'):.0f}"
    yield ratio("memory")


def measure(side, world, yardstick, folder, runs):
    files = Files(folder, side)
    ours, ratios, differs = [], {}, False
    for _ in range(3 * runs if side == SIDES[0] else runs):
        mine, replies = figures(world, files, False)
        ours.append(mine)
        theirs, expected = figures(yardstick, files, True)
        differs |= replies != expected
        for name, value in mine.items():
            ratios.setdefault(name, []).append(value / theirs[name])
    return "| " + " | ".join(cells(ours, ratios, files)) + " |", differs


def main():
    parser = argparse.ArgumentParser(description="Prints one table of the program beside the yardstick.")
    parser.add_argument("--program", default=os.path.join(TOP, "crates", "world_main", "out", "world_main"))
    parser.add_argument("--yardstick", default=YARDSTICK, help="its source, default bench/yardstick.rs")
    parser.add_argument("--runs", type=int, default=7)
    parser.add_argument("--wall", action="store_true", help="time by the clock on the wall")
    parser.add_argument("--workers", type=int, default=1, help="threads of both")
    chosen = parser.parse_args()
    if not os.path.exists(chosen.program):
        sys.exit(f"there is no program {chosen.program}: build it by `rt run` in crates/world_main")
    folder = tempfile.mkdtemp()
    try:
        wall = chosen.wall or chosen.workers > 1
        world = Runner([chosen.program, "--workers", str(chosen.workers)], {}, folder, wall)
        built = os.path.join(folder, "yardstick")
        subprocess.run(["rustc", "--edition", "2021", "-C", "opt-level=3", "-o", built, chosen.yardstick], check=True)
        yardstick = Runner([built], {"YARD_THREADS": str(chosen.workers), "YARD_TIMING": "1"}, folder, wall)
        print(f"{machine()}; {datetime.date.today()}; medians of {chosen.runs} runs in turn "
              f"({3 * chosen.runs} at {2 * SIDES[0] ** 2:,} triangles).\n")
        print("| triangles | read, MB/s | ratio | build, ms | ratio | boxes a second | ratio | segments a second | ratio "
              "| peak memory, MB | ratio |")
        print("|" + "---:|" * 11)
        differs = False
        for side in SIDES:
            row, other = measure(side, world, yardstick, folder, chosen.runs)
            differs |= other
            print(row, flush=True)
        if differs:
            sys.exit("the replies of the two programs differ")
        print("\nThe replies of both programs were equal.")
    finally:
        shutil.rmtree(folder)


main()
