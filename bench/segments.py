#!/usr/bin/env python3
"""Times segments over a rolling ground of 8,192, 100,352 and 524,288 triangles, in one run: the built program, a scan
in plain Rust (scan.rs) that tests every triangle, and a yardstick in plain Rust (yardstick.rs) that goes from front to
back. Short segments lead a few cells on and through the ground; long ones cross the whole of it aslant. The replies are
compared.

Usage, at the top of the repository, after `rt run` in crates/world_main: python3 bench/segments.py [RUNS]
A segment's time is that of a script of segments less that of an empty script, the median of RUNS runs in turn.
"""
import os
import random
import statistics
import subprocess
import sys
import tempfile

from boxes import HERE, WORLD, ground, run

SEGMENTS = {"short": 20_000, "long": 1_000}
SCANNED = 100


def segments(count, side, kind):
    places = random.Random(kind)
    reach = 3 * (3800 // side) if kind == "short" else 3800
    lines = []
    for _ in range(count):
        x, y = places.randrange(-1900, 1900), places.randrange(-1900, 1900)
        a, b = (max(-1900, min(1899, c + places.randrange(-reach, reach))) for c in (x, y))
        lines.append(f"seg {x} {y} {places.randrange(70, 100)} {a} {b} {places.randrange(-40, -1)}\n")
    return "".join(lines).encode()


def built(source, folder):
    program = os.path.join(folder, os.path.basename(source)[:-3])
    subprocess.run(["rustc", "--edition", "2021", "-C", "opt-level=3", "-o", program, source], check=True)
    return program


def per_segment(program, mesh, script, count, runs):
    return statistics.median((run(program, mesh, script)[0] - run(program, mesh, b"")[0]) / count for _ in range(runs))


def main():
    runs = int(sys.argv[1]) if len(sys.argv) > 1 else 5
    folder = tempfile.mkdtemp()
    scan = built(os.path.join(HERE, "scan.rs"), folder)
    yardstick = built(os.path.join(HERE, "yardstick.rs"), folder)
    print("triangles  kind   walk us  scan us  yardstick us  walk/scan  walk/yardstick")
    for side in (64, 224, 512):
        mesh = os.path.join(folder, "ground.obj")
        ground(mesh, side)
        for kind, count in SEGMENTS.items():
            many, few = segments(count, side, kind), segments(SCANNED, side, kind)
            told = run(WORLD, mesh, few)[1].stdout
            if told != run(scan, mesh, few)[1].stdout or told != run(yardstick, mesh, few)[1].stdout:
                sys.exit("the replies differ")
            walk = per_segment(WORLD, mesh, many, count, runs)
            test = statistics.median(int(run(scan, mesh, few)[1].stderr) / 1e9 / SCANNED for _ in range(runs))
            front = per_segment(yardstick, mesh, many, count, runs)
            print(f"{2 * side * side:9}  {kind:5} {1e6 * walk:8.2f} {1e6 * test:8.0f}  {1e6 * front:12.2f}"
                  f"  {walk / test:9.4f}  {walk / front:14.2f}")


if __name__ == "__main__":
    main()
