#!/usr/bin/env python3
"""Times small boxes over a rolling ground of 8,192, 100,352 and 524,288 triangles: the built program, whose walk
prunes, beside a scan in plain Rust (scan.rs) that tests every triangle's box. The replies are compared.

Usage, at the top of the repository, after `rt run` in crates/world_main: python3 bench/boxes.py [RUNS]
A box's time is that of a script of boxes less that of an empty script, the median of RUNS runs in turn.
"""
import os
import random
import statistics
import subprocess
import sys
import tempfile
import time

WORLD = os.path.abspath("crates/world_main/out/world_main")
HERE = os.path.dirname(os.path.abspath(__file__))
BOXES = 20_000
SCANNED = 500


def ground(path, side):
    """A square of side x side cells, each of two triangles, with hills."""
    noise = random.Random(side)
    width = 3800 // side
    with open(path, "w") as mesh:
        for row in range(side + 1):
            for column in range(side + 1):
                mesh.write(f"v {column * width - 1900} {row * width - 1900} {noise.randrange(60)}\n")
        for row in range(side):
            for column in range(side):
                a = row * (side + 1) + column + 1
                mesh.write(f"f {a} {a + 1} {a + side + 2}\nf {a} {a + side + 2} {a + side + 1}\n")


def boxes(count, side):
    places = random.Random(7)
    reach = 2 * (3800 // side)
    lines = []
    for _ in range(count):
        x, y = places.randrange(-1900, 1900), places.randrange(-1900, 1900)
        lines.append(f"box {x} {y} 0 {x + reach} {y + reach} 30\n")
    return "".join(lines).encode()


def run(program, mesh, script):
    start = time.perf_counter()
    done = subprocess.run([program, mesh], input=script, stdout=subprocess.PIPE, stderr=subprocess.PIPE)
    return time.perf_counter() - start, done


def main():
    runs = int(sys.argv[1]) if len(sys.argv) > 1 else 5
    folder = tempfile.mkdtemp()
    scan = os.path.join(folder, "scan")
    subprocess.run(["rustc", "-C", "opt-level=3", "-o", scan, os.path.join(HERE, "scan.rs")], check=True)
    print("triangles  open ms  walk us/box  scan us/box  walk/scan")
    for side in (64, 224, 512):
        mesh = os.path.join(folder, "ground.obj")
        ground(mesh, side)
        many, few = boxes(BOXES, side), boxes(SCANNED, side)
        if run(WORLD, mesh, few)[1].stdout != run(scan, mesh, few)[1].stdout:
            sys.exit("the replies differ")
        opened, walked, scanned = [], [], []
        for _ in range(runs):
            empty = run(WORLD, mesh, b"")[0]
            opened.append(empty)
            walked.append((run(WORLD, mesh, many)[0] - empty) / BOXES)
            scanned.append(int(run(scan, mesh, few)[1].stderr) / 1e9 / SCANNED)
        walk, test = statistics.median(walked), statistics.median(scanned)
        print(f"{2 * side * side:9}  {1e3 * statistics.median(opened):7.1f}  {1e6 * walk:11.2f}  {1e6 * test:11.2f}  {walk / test:9.4f}")


if __name__ == "__main__":
    main()
