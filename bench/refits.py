#!/usr/bin/env python3
"""What a refit takes by how many leaves moved, at two sizes: the built program beside a yardstick.

    python3 bench/refits.py [--program PATH] [--yardstick PATH] [--runs N]

The meshes are height fields of 8,192 and 524,288 triangles. In each frame vertices go up or down and then a line `refit`
follows, so that 1, 64, 4,096 or all leaves have a moved vertex: for all of them every second vertex along each diagonal
moves, which is a corner of each triangle. The yardstick is yardstick.rs beside this file, on one thread; rustc builds it.

Times are processor time, user and system, of whole runs. A refit's is that of many frames less that of few, so that what
is made once (at the opening and at the first refit) does not count, and less the same of scripts without the `refit`
lines, so that reading the moves does not count. Programs run in turn, N times; the figures are medians, in microseconds. With
4 workers the starting of threads counts too. The last column is the program with 1 worker over the yardstick.
"""

import argparse
import os
import statistics
import subprocess
import sys
import tempfile

HERE = os.path.dirname(os.path.abspath(__file__))
TOP = os.path.dirname(HERE)
SIDES = (64, 512)
# How many leaves have a moved vertex in a frame, and how many frames a script has where there are few and many of them.
FRAMES = {64: ((1, 100, 4_100), (64, 100, 2_100), (4_096, 4, 164), (None, 2, 82)),
          512: ((1, 20, 1_020), (64, 20, 520), (4_096, 2, 82), (None, 1, 5))}


# ------------------------------------------------------------------------------------------------ meshes and scripts

def height(i, j):
    return (73 * i + 151 * j + 29 * i * j) % 16


def place(i, j, up):
    """A vertex, in units: its column and row, four units apart, and its height."""
    return f"{4 * i - 1024} {4 * j - 1024} {height(i, j) + up}"


def mesh_text(side):
    """A square of side * side cells, two triangles each, with heights from 0 to 15 units."""
    rows = [f"v {place(i, j, 0)}\n" for j in range(side + 1) for i in range(side + 1)]
    for j in range(side):
        for i in range(side):
            a = j * (side + 1) + i + 1
            rows.append(f"f {a} {a + 1} {a + side + 2}\nf {a} {a + side + 2} {a + side + 1}\n")
    return "".join(rows).encode()


def vertices(side, leaves):
    """Vertices, by column and row, of which no triangle has two, that are corners of so many triangles, or of all."""
    if leaves is None:
        return [(i, j) for j in range(side + 1) for i in range(side + 1) if min(i, j) % 2 == 1]
    # One triangle stands at this corner, three at a vertex of an edge, six at any other.
    chosen = [(side, 0)]
    left = leaves - 1
    if left % 6 == 3:
        chosen.append((side // 2, 0))
        left -= 3
    inner = [(i, j) for j in range(2, side - 1, 2) for i in range(2, side - 1, 2)]
    step = max(1, len(inner) // max(1, left // 6))
    chosen += inner[::step][:left // 6]
    return chosen


def leaves_at(side, chosen):
    """How many triangles have one of the vertices."""
    moved, count = set(chosen), 0
    for j in range(side):
        for i in range(side):
            for triangle in (((i, j), (i + 1, j), (i + 1, j + 1)), ((i, j), (i + 1, j + 1), (i, j + 1))):
                count += any(corner in moved for corner in triangle)
    return count


def script(side, chosen, frames, refits):
    """So many frames: each moves the vertices up, or down again, and refits or does not."""
    frame = ["".join(f"move {j * (side + 1) + i + 1} {place(i, j, up)}\n" for i, j in chosen) for up in (1, 0)]
    return "".join(frame[n % 2] + ("refit\n" if refits else "") for n in range(frames)).encode()


# ------------------------------------------------------------------------------------------------ runs

class Runner:
    """A program with its options, run over a mesh."""

    def __init__(self, command, folder):
        self.command, self.folder = command, folder

    def time(self, mesh, text):
        """The processor time of a run over a script, in seconds."""
        path = os.path.join(self.folder, "script")
        with open(path, "wb") as sink:
            sink.write(text)
        with open(path, "rb") as source:
            process = subprocess.Popen([*self.command, mesh], stdin=source, stdout=subprocess.DEVNULL)
            _, status, used = os.wait4(process.pid, 0)
        process.returncode = os.waitstatus_to_exitcode(status)
        if process.returncode != 0:
            sys.exit(f"{' '.join(self.command)} ended with status {process.returncode}")
        return used.ru_utime + used.ru_stime

    def refit(self, mesh, few, many, count):
        """The time of one refit, from scripts with and without refits of few frames and of so many more."""
        with_them, without = (self.time(mesh, m) - self.time(mesh, f) for f, m in zip(few, many))
        return (with_them - without) / count


def main():
    words = argparse.ArgumentParser()
    words.add_argument("--program", default=os.path.join(TOP, "crates/world_main/out/world_main"))
    words.add_argument("--yardstick")
    words.add_argument("--runs", type=int, default=5)
    words = words.parse_args()
    with tempfile.TemporaryDirectory() as folder:
        yardstick = words.yardstick
        if yardstick is None:
            yardstick = os.path.join(folder, "yardstick")
            subprocess.run(["rustc", "--edition", "2021", "-C", "opt-level=3", "-o", yardstick,
                            os.path.join(HERE, "yardstick.rs")], check=True)
        runners = [Runner([words.program, "--workers", "1"], folder), Runner([words.program, "--workers", "4"], folder),
                   Runner([yardstick], folder)]
        print("| triangles | moved leaves | 1 worker, µs | 4 workers, µs | yardstick, µs | ratio |")
        print("|---:|---:|---:|---:|---:|---:|")
        for side in SIDES:
            mesh = os.path.join(folder, f"{side}.obj")
            with open(mesh, "wb") as sink:
                sink.write(mesh_text(side))
            for leaves, few, many in FRAMES[side]:
                chosen = vertices(side, leaves)
                assert leaves_at(side, chosen) == (leaves or 2 * side * side)
                scripts = [[script(side, chosen, frames, refits) for refits in (True, False)] for frames in (few, many)]
                times = [[runner.refit(mesh, *scripts, many - few) for runner in runners] for _ in range(words.runs)]
                one, four, rust = (1e6 * statistics.median(column) for column in zip(*times))
                ratio = statistics.median(row[0] / row[2] for row in times) if all(row[2] for row in times) else float("nan")
                print(f"| {2 * side * side:,} | {leaves or 2 * side * side:,} | {one:,.0f} | {four:,.0f} | {rust:,.0f} "
                      f"| {ratio:.2f} |", flush=True)


if __name__ == "__main__":
    main()
