#!/usr/bin/env python3
"""Times what the word `stat` asks of a tree of 524,288 triangles, its count of cells and its height, beside plain Rust
(the tree of keys.rs) that counts by one pass over the node list and measures by a recursion; both together beside that
pass alone; the count beside the same pass over the keys. And a list of cells of each level, by the same walk.

Usage, at the top of the repository: python3 bench/cells.py [RUNS]
Both programs run in turn; what is printed is the median of each, in milliseconds, and their ratio.
The Rattle program is made in a folder of its own outside the repository, over copies of the crates.
"""
import os
import shutil
import statistics
import subprocess
import sys
import tempfile

CRATES = ["outside", "fixed_box", "morton_key", "radix_tree", "octree_cells"]

NAMES = ["count of cells", "height", "cells of all levels"]

MAIN = """// Times the count of the cells of a tree of many boxes, its height, and lists of its cells.
#![tactic(auto)]

ghost use Rattle.std.specs.Prelude.{◌≡◌, ◌≤ℤ◌, ◌<ℤ◌, pos, negsuc, All, IfOk, vec_len};
ghost use Rattle.fixed_box.specs.World.{BoxInWorld};

use fixed_box::{Box3, Point};
use morton_key::{LEVELS, order};
use octree_cells::{cells, count};
use radix_tree::{height, plain};
use std::alloc::{AllocError, Global};
use std::io;
use std::rt::HostRuntime;
use std::time::Instant;

fn jump(seed: u64) -> u64 {
    seed.wrapping_mul(6364136223846793005).wrapping_add(1442695040888963407)
}

fn coordinate(seed: u64) -> i32
    ensures low { negsuc 131071 ≤ℤ result }
    ensures high { result <ℤ pos 131072 }
{
    (seed >> 46) as i32 - 131072
}

fn scattered_box(seed: u64) -> Box3
    ensures { BoxInWorld result }
{
    let x = coordinate(seed);
    let y = coordinate(jump(seed));
    let z = coordinate(jump(jump(seed)));
    let point = Point { x, y, z };
    Box3 {
        lo: point,
        hi: point,
    }
}

fn scattered(alloc: Global, count: usize) -> Result<Vec<Box3>, AllocError>
    ensures world { IfOk result (λ boxes. All BoxInWorld boxes.items) }
    ensures count { IfOk result (λ boxes. vec_len boxes ≡ count) }
{
    let mut boxes = Vec::with_capacity(alloc, count)?;
    let mut seed = 2026;
    for _ in 0..count {
        boxes.push(scattered_box(seed))?;
        seed = jump(jump(jump(seed)));
    }
    Ok(boxes)
}

fn main(rt: HostRuntime) -> io::Result<()> {
    let Ok(boxes) = scattered(rt.alloc(), 524_288) else {
        return Ok(());
    };
    let Ok(keys) = order(rt.alloc(), &boxes) else {
        return Ok(());
    };
    let Ok(tree) = plain(rt.alloc(), keys, &boxes) else {
        return Ok(());
    };
    let start = Instant::now(&rt)?;
    let all = count(&tree);
    let counted = start.elapsed(&rt)?.as_micros();
    let start = Instant::now(&rt)?;
    let high = height(&tree);
    let measured = start.elapsed(&rt)?.as_micros();
    let start = Instant::now(&rt)?;
    let mut found = 0u64;
    for level in 0..LEVELS + 1 {
        let Ok(list) = cells(rt.alloc(), &tree, level) else {
            return Ok(());
        };
        found = found.wrapping_add(list.items().len() as u64);
    }
    let listed = start.elapsed(&rt)?.as_micros();
    println!(rt; "{counted} {measured} {listed} {all}/{high}/{found}")
}
"""

RUST_MAIN = """
fn level(keys: &[Key], i: usize, j: usize) -> u32 {
    ((keys[i].code ^ keys[j].code).leading_zeros() - 10) / 3
}

fn on_edge(keys: &[Key], above: u32, first: usize, last: usize) -> u32 {
    if first == last { 0 } else { level(keys, first, last) - above }
}

fn count(keys: &[Key], nodes: &[Node]) -> u64 {
    let mut total = 1 + u64::from(level(keys, 0, keys.len() - 1));
    for node in nodes {
        let (first, last, split) = (node.first as usize, node.last as usize, node.split as usize);
        let here = level(keys, first, last);
        total += u64::from(on_edge(keys, here, first, split) + on_edge(keys, here, split + 1, last));
    }
    total
}

fn count_by_keys(keys: &[Key]) -> u64 {
    let (mut total, mut before) = (0, 0);
    for i in 1..keys.len() {
        let levels = level(keys, i - 1, i) + 1;
        total += u64::from(levels.saturating_sub(before));
        before = levels;
    }
    total
}

fn height(nodes: &[Node], number: usize) -> u32 {
    let node = &nodes[number];
    let left = if node.first == node.split { 0 } else { height(nodes, node.split as usize) };
    let right = if node.split + 1 == node.last { 0 } else { height(nodes, node.split as usize + 1) };
    1 + left.max(right)
}

fn collect(keys: &[Key], nodes: &[Node], wanted: u32, number: usize, found: &mut Vec<(u64, u32, u32)>) {
    let node = &nodes[number];
    if wanted <= level(keys, node.first as usize, node.last as usize) {
        found.push((keys[node.first as usize].code >> (54 - 3 * wanted), node.first, node.last));
        return;
    }
    if node.first != node.split {
        collect(keys, nodes, wanted, node.split as usize, found);
    }
    if node.split + 1 != node.last {
        collect(keys, nodes, wanted, node.split as usize + 1, found);
    }
}

fn main() {
    let boxes = scattered(524_288);
    let keys = order(&boxes);
    let nodes = plain(&keys, &boxes);
    let start = Instant::now();
    let all = count(&keys, &nodes);
    let counted = start.elapsed().as_micros();
    let start = Instant::now();
    let high = height(&nodes, 0);
    let measured = start.elapsed().as_micros();
    let start = Instant::now();
    let mut sum = 0;
    for wanted in 0..19 {
        let mut found = Vec::new();
        collect(&keys, &nodes, wanted, 0, &mut found);
        sum += found.len();
    }
    let listed = start.elapsed().as_micros();
    let start = Instant::now();
    let by_keys = count_by_keys(&keys);
    let passed = start.elapsed().as_micros();
    assert_eq!(by_keys, all);
    println!("{counted} {measured} {listed} {all}/{high}/{sum} {passed}");
}
"""

INVARIANTS = """use Rattle.std.proofs.Common.{◌≡◌, All, vec_len}
use Rattle.fixed_box.specs.World.{BoxInWorld}
use Rattle.cells_bench.proofs.scattered.Given as goal

abbrev pub invariant-loop : goal.invariant-loop
invariant-loop l = (vec_len l.boxes ≡ l.counter) × All BoxInWorld l.boxes.items
"""

ANSWERS = """use Rattle.std.proofs.Common.{arith, All}
use Rattle.std.proofs.lemmas.List.Elements.{All-push}
use Rattle.fixed_box.specs.World.{BoxInWorld}
use Rattle.cells_bench.proofs.scattered.Goals as goal

pub loop-preserved : goal.loop-preserved
loop-preserved c = (
  omega (arith, c.in_ok-push.ensures.len),
  rw c.in_ok-push.ensures.items (All-push BoxInWorld c.loop.boxes.items c.scattered_box.result c.loop.invariant.1 c.scattered_box.ensures),
)
"""


def write(path, text):
    os.makedirs(os.path.dirname(path), exist_ok=True)
    with open(path, "w", encoding="utf-8") as file:
        file.write(text)


def build(top, folder):
    """Makes both programs in the folder, and answers their paths."""
    for crate in CRATES:
        left_out = shutil.ignore_patterns("out", "must-fail")
        shutil.copytree(f"{top}/crates/{crate}", f"{folder}/crates/{crate}", ignore=left_out)
    lines = open(f"{top}/crates.txt", encoding="utf-8").read().splitlines()
    kept = [line for line in lines if line.split(":")[0] in CRATES]
    write(f"{folder}/crates.txt", "\n".join(kept) + "\ncells_bench: " + " ".join(CRATES) + "\n")
    shutil.copy(f"{top}/HANDLES", f"{folder}/HANDLES")
    program = f"{folder}/crates/cells_bench"
    write(f"{program}/src/main.rt", MAIN)
    write(f"{program}/specs/Lib.antt", "")
    write(f"{program}/proofs/Lib.antt", "")
    write(f"{program}/proofs/scattered/Invariants.antt", INVARIANTS)
    write(f"{program}/proofs/scattered/Answers.antt", ANSWERS)
    done = subprocess.run(["rt", "run"], cwd=program, capture_output=True, text=True)
    if done.returncode != 0:
        sys.exit(done.stdout[-3000:] + done.stderr[-3000:])
    keys = open(f"{top}/bench/keys.rs", encoding="utf-8").read()
    write(f"{folder}/cells.rs", keys[:keys.index("fn main")] + RUST_MAIN)
    rust = f"{folder}/cells_rust"
    subprocess.run(["rustc", "-O", "--edition", "2021", "-A", "dead_code", "-o", rust, f"{folder}/cells.rs"], check=True)
    return f"{program}/out/cells_bench", rust


def tell(name, ours, rust):
    """Prints the medians of two lists of times, and their ratio."""
    mine, theirs = statistics.median(ours) / 1000, statistics.median(rust) / 1000
    print(f"{name}: {mine:.2f} ms, plain Rust {theirs:.2f} ms, ratio {mine / theirs:.2f}")


def main():
    runs = int(sys.argv[1]) if len(sys.argv) > 1 else 9
    top = os.getcwd()
    with tempfile.TemporaryDirectory() as folder:
        ours, rust = build(top, folder)
        times = {ours: [], rust: []}
        checks = set()
        for _ in range(runs):
            for program in (ours, rust):
                words = subprocess.run([program], capture_output=True, text=True, check=True).stdout.split()
                times[program].append([int(word) for word in words[:3] + words[4:]])
                checks.add(words[3])
        if len(checks) != 1:
            sys.exit(f"the two programs differ: {checks}")
        for i, name in enumerate(NAMES):
            tell(name, (row[i] for row in times[ours]), (row[i] for row in times[rust]))
        counts = [row[0] for row in times[ours]]
        both = [row[0] + row[1] for row in times[ours]]
        tell("count and height, beside one pass", both, [row[0] for row in times[rust]])
        tell("count of cells, beside a pass over keys", counts, [row[3] for row in times[rust]])
        print(f"cells/height/listed: {checks.pop()}")


main()
