#!/usr/bin/env python3
"""Times each step of a build of bumpy floors of 2,048 to 524,288 triangles, in one program: `order` (codes and keys)
and in its place `order_by_threads`; `plain`, and in its place `spans` and `fit_joined`, or `tree_by_threads` alone. The orders
and the trees are compared. The least of nine rounds is printed, in microseconds.

Usage, at the top of the repository: python3 bench/builds.py [HALF:LIST:SORT ..]

Each HALF:LIST:SORT is timed beside the crate as it stands, as a copy of `karras_build` with these in place of
LEAST_HALF (`fitting.rt`), LEAST_LIST (`finding.rt`) and LEAST_SORT (`ordering.rt`): 8192:1:1 always finds the spans and
sorts in threads, 1000000000:1000000000:1000000000 starts no thread at all. Each costs a proof of the crate from nothing.
It wants rt, and builds in a folder of its own.
"""
import os
import re
import shutil
import subprocess
import sys
import tempfile

HERE = os.path.dirname(os.path.abspath(__file__))
TOP = os.path.dirname(HERE)
BELOW = ["outside", "fixed_box", "morton_key", "radix_tree", "arrival_core", "box_handoff"]
SIDES = [32, 64, 128, 256, 512]
STEPS = ["order_by_threads", "spans", "fit_joined", "tree_by_threads"]

HEAD = """//! Times the builds of bumpy floors.
#![tactic(auto)]

use fixed_box::{Box3, Point, Tri, box_of, in_world};
use morton_key::order;
use radix_tree::{Tree, plain};
use std::alloc::{AllocError, Global};
use std::process::Abort;
use std::test::Fail;
use std::thread::Threads;
use std::time::{Clock, Instant};

fn steps(x: u32) -> i32 {
    i32::from((x % 1000) as u16) * 64
}

fn corner(x: u32, y: u32) -> Point {
    Point {
        x: steps(x),
        y: steps(y),
        z: i32::from(((x.wrapping_mul(37) ^ y.wrapping_mul(91)) % 40) as u8),
    }
}

fn floor(alloc: Global, side: u32) -> Result<Vec<Box3>, AllocError> {
    let mut boxes = Vec::new(alloc);
    for x in 0..side {
        for y in 0..side {
            let a = corner(x, y);
            let b = corner(x.wrapping_add(1), y);
            let c = corner(x.wrapping_add(1), y.wrapping_add(1));
            let d = corner(x, y.wrapping_add(1));
            boxes.push(box_of(&Tri { a, b, c }))?;
            boxes.push(box_of(&Tri { a, b: c, c: d }))?;
        }
    }
    Ok(boxes)
}

fn since<R: Clock>(rt: &R, start: Instant) -> Result<u64, Fail> {
    Ok(u64::try_from(start.elapsed(rt)?.as_micros()).unwrap_or(u64::MAX))
}

fn by_plain<R: Clock + Abort>(rt: &R, alloc: Global, boxes: &[Box3]) -> Result<(u64, u64, Tree), Fail> {
    assert!(rt; boxes.len() <= 1000000);
    assert!(rt; boxes.iter().all(|b| in_world(&b.lo) && in_world(&b.hi)));
    let start = Instant::now(rt)?;
    let keys = order(alloc, boxes)?;
    let ordered = since(rt, start)?;
    let start = Instant::now(rt)?;
    let t = plain(alloc, keys, boxes)?;
    Ok((ordered, since(rt, start)?, t))
}
"""

VARIANT = """
fn by_NAME<R: Clock + Abort + Threads + Sync>(rt: &R, alloc: Global, boxes: &[Box3], slow: &Tree) -> Result<(u64, u64, u64, u64), Fail> {
    assert!(rt; boxes.len() <= 1000000);
    assert!(rt; boxes.iter().all(|b| in_world(&b.lo) && in_world(&b.hi)));
    let start = Instant::now(rt)?;
    let keys = NAME::order_by_threads(rt, alloc, boxes)?;
    let ordered = since(rt, start)?;
    assert!(rt; keys.as_slice() == slow.keys());
    let start = Instant::now(rt)?;
    let list = NAME::spans(rt, alloc, &keys)?;
    let found = since(rt, start)?;
    let start = Instant::now(rt)?;
    let t = NAME::fit_joined(rt, alloc, keys, &list, boxes)?;
    let fitted = since(rt, start)?;
    assert!(rt; t.nodes() == slow.nodes());
    drop(list);
    drop(t);
    let keys = order(alloc, boxes)?;
    let start = Instant::now(rt)?;
    let t = NAME::tree_by_threads(rt, alloc, keys, boxes)?;
    let made = since(rt, start)?;
    assert!(rt; t.nodes() == slow.nodes());
    Ok((ordered, found, fitted, made))
}
"""


def main_of(names):
    lines = ["", "fn main(rt: HostRuntime) -> Result<(), Fail> {"]
    for side in SIDES:
        lines.append(f"    time_floor(&rt, rt.alloc(), {side})?;")
    lines += ["    Ok(())", "}", ""]
    lines.append("fn time_floor<R: Clock + Abort + Threads + Sync + Print>(rt: &R, alloc: Global, side: u32) -> Result<(), Fail> {")
    lines.append("    let boxes = floor(alloc, side)?;")
    for name in ["order", "plain"] + [f"{n}_{step}" for n in names for step in STEPS]:
        lines.append(f"    let mut {name} = u64::MAX;")
    lines.append("    for _ in 0..9 {")
    lines.append("        let (keys, nodes, slow) = by_plain(rt, alloc, &boxes)?;")
    lines.append("        order = order.min(keys);")
    lines.append("        plain = plain.min(nodes);")
    for n in names:
        lines.append(f"        let (ordered, found, fitted, made) = by_{n}(rt, alloc, &boxes, &slow)?;")
        for step, time in zip(STEPS, ["ordered", "found", "fitted", "made"]):
            lines.append(f"        {n}_{step} = {n}_{step}.min({time});")
    lines.append("    }")
    lines.append('    println!(rt; "{} triangles: order {order}, plain {plain}", boxes.len())?;')
    for n in names:
        times = ", ".join(f"{step} {{{n}_{step}}}" for step in STEPS)
        lines.append(f'    println!(rt; "    {n}: {times}")?;')
    lines += ["    Ok(())", "}", ""]
    return "\n".join(lines)


def copy_crate(work, crate, name, swaps):
    for part in ["src", "specs", "proofs"]:
        source = os.path.join(TOP, "crates", crate, part)
        if os.path.isdir(source):
            shutil.copytree(source, os.path.join(work, "crates", name, part))
    if name == crate:
        return
    for folder, _, files in os.walk(os.path.join(work, "crates", name)):
        for file in files:
            path = os.path.join(folder, file)
            with open(path) as f:
                text = f.read().replace(crate, name)
            for old, new in swaps:
                text = re.sub(old, new, text)
            with open(path, "w") as f:
                f.write(text)


work = tempfile.mkdtemp(prefix="builds")
try:
    deps = {}
    for line in open(os.path.join(TOP, "crates.txt")):
        if ":" in line and not line.startswith("#"):
            name, rest = line.split(":", 1)
            deps[name] = rest.strip()
    names = ["karras_build"]
    table = []
    for crate in BELOW + ["karras_build"]:
        copy_crate(work, crate, crate, [])
        table.append(f"{crate}: {deps[crate]}")
    for pair in sys.argv[1:]:
        half, least, keys = pair.split(":")
        name = f"half_{half}_list_{least}_sort_{keys}"
        swaps = [(r"LEAST_HALF: usize = \d+", f"LEAST_HALF: usize = {half}"), (r"LEAST_LIST: usize = \d+", f"LEAST_LIST: usize = {least}"), (r"LEAST_SORT: usize = \d+", f"LEAST_SORT: usize = {keys}")]
        copy_crate(work, "karras_build", name, swaps)
        table.append(f"{name}: {deps['karras_build']}")
        names.append(name)
    table.append("build_speed: " + " ".join(BELOW + names))
    with open(os.path.join(work, "crates.txt"), "w") as f:
        f.write("\n".join(table) + "\n")
    shutil.copy(os.path.join(TOP, "HANDLES"), work)
    os.makedirs(os.path.join(work, "crates", "build_speed", "src"))
    with open(os.path.join(work, "crates", "build_speed", "src", "main.rt"), "w") as f:
        f.write(HEAD + "".join(VARIANT.replace("NAME", n) for n in names) + main_of(names))
    built = subprocess.run(["rt", "run"], cwd=os.path.join(work, "crates", "build_speed"), stdin=subprocess.DEVNULL, capture_output=True, text=True)
    program = os.path.join(work, "crates", "build_speed", "out", "build_speed")
    if built.returncode != 0 or not os.path.exists(program):
        sys.exit(built.stdout[-3000:] + built.stderr[-3000:])
    subprocess.run([program], check=True)
    if os.environ.get("KEEP"):
        shutil.copy(program, os.environ["KEEP"])
finally:
    shutil.rmtree(work, ignore_errors=True)
