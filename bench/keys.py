#!/usr/bin/env python3
"""Times the codes, the order and the plain build of 1,000,000 boxes beside the same in plain Rust (keys.rs).

Usage, at the top of the repository: python3 bench/keys.py [RUNS]
Both programs run in turn; what is printed is the median of each, in milliseconds, and their ratio.
The Rattle program is made in a folder of its own outside the repository, over copies of the crates.
"""
import os
import shutil
import statistics
import subprocess
import sys
import tempfile

CRATES = ["outside", "fixed_box", "morton_key", "radix_tree"]

NAMES = ["codes of 1,000,000 boxes", "order of 1,000,000 boxes", "plain of 1,000,000 keys", "plain of 100,000 keys"]

MAIN = """// Times the codes, the order and the plain build of many boxes.
#![tactic(auto)]

ghost use Rattle.std.specs.Prelude.{◌≡◌, ◌≤ℤ◌, ◌<ℤ◌, pos, negsuc, All, IfOk, vec_len};
ghost use Rattle.fixed_box.specs.World.{BoxInWorld};

use fixed_box::{Box3, Point};
use morton_key::{code, order};
use radix_tree::plain;
use std::alloc::{AllocError, Global};
use std::io;
use std::rt::HostRuntime;
use std::time::Instant;

fn jump(seed: u64) -> u64 {
    seed.wrapping_mul(6364136223846793005).wrapping_add(1442695040888963407)
}

fn coordinate(seed: u64) -> i32
    ensures low { negsuc 131071 ≤ℤ result }
    ensures high { result <ℤ pos 131072 }
{
    (seed >> 46) as i32 - 131072
}

fn scattered_box(seed: u64) -> Box3
    ensures { BoxInWorld result }
{
    let x = coordinate(seed);
    let y = coordinate(jump(seed));
    let z = coordinate(jump(jump(seed)));
    let point = Point { x, y, z };
    Box3 {
        lo: point,
        hi: point,
    }
}

fn scattered(alloc: Global, count: usize) -> Result<Vec<Box3>, AllocError>
    ensures world { IfOk result (λ boxes. All BoxInWorld boxes.items) }
    ensures count { IfOk result (λ boxes. vec_len boxes ≡ count) }
{
    let mut boxes = Vec::with_capacity(alloc, count)?;
    let mut seed = 2026;
    for _ in 0..count {
        boxes.push(scattered_box(seed))?;
        seed = jump(jump(jump(seed)));
    }
    Ok(boxes)
}

fn sum_of_codes(boxes: &[Box3]) -> u64
    requires { All BoxInWorld boxes.now }
{
    let mut sum = 0u64;
    for b in boxes {
        sum = sum.wrapping_add(code(b));
    }
    sum
}

fn main(rt: HostRuntime) -> io::Result<()> {
    let Ok(boxes) = scattered(rt.alloc(), 1_000_000) else {
        return Ok(());
    };
    let Ok(fewer) = scattered(rt.alloc(), 100_000) else {
        return Ok(());
    };
    let start = Instant::now(&rt)?;
    let sum = sum_of_codes(&boxes);
    let codes = start.elapsed(&rt)?.as_micros();
    let start = Instant::now(&rt)?;
    let Ok(keys) = order(rt.alloc(), &boxes) else {
        return Ok(());
    };
    let orders = start.elapsed(&rt)?.as_micros();
    let start = Instant::now(&rt)?;
    let Ok(tree) = plain(rt.alloc(), keys, &boxes) else {
        return Ok(());
    };
    let trees = start.elapsed(&rt)?.as_micros();
    let Ok(few) = order(rt.alloc(), &fewer) else {
        return Ok(());
    };
    let start = Instant::now(&rt)?;
    let Ok(smaller) = plain(rt.alloc(), few, &fewer) else {
        return Ok(());
    };
    let small = start.elapsed(&rt)?.as_micros();
    let middle = match tree.keys().get(500_000) {
        Some(key) => key.code,
        None => 0,
    };
    let split = match tree.nodes().first() {
        Some(node) => u64::from(node.split),
        None => 0,
    };
    let last = match smaller.nodes().first() {
        Some(node) => u64::from(node.last),
        None => 0,
    };
    let check = sum ^ middle ^ split ^ last;
    println!(rt; "{codes} {orders} {trees} {small} {check}")
}
"""

INVARIANTS = """use Rattle.std.proofs.Common.{◌≡◌, All, vec_len}
use Rattle.fixed_box.specs.World.{BoxInWorld}
use Rattle.keys_bench.proofs.scattered.Given as goal

abbrev pub invariant-loop : goal.invariant-loop
invariant-loop l = (vec_len l.boxes ≡ l.counter) × All BoxInWorld l.boxes.items
"""

ANSWERS = """use Rattle.std.proofs.Common.{arith, All}
use Rattle.std.proofs.lemmas.List.Elements.{All-push}
use Rattle.fixed_box.specs.World.{BoxInWorld}
use Rattle.keys_bench.proofs.scattered.Goals as goal

pub loop-preserved : goal.loop-preserved
loop-preserved c = (
  omega (arith, c.in_ok-push.ensures.len),
  rw c.in_ok-push.ensures.items (All-push BoxInWorld c.loop.boxes.items c.scattered_box.result c.loop.invariant.1 c.scattered_box.ensures),
)
"""


def write(path, text):
    os.makedirs(os.path.dirname(path), exist_ok=True)
    with open(path, "w", encoding="utf-8") as file:
        file.write(text)


def build(top, folder):
    """Makes both programs in the folder, and answers their paths."""
    for crate in CRATES:
        left_out = shutil.ignore_patterns("out", "must-fail")
        shutil.copytree(f"{top}/crates/{crate}", f"{folder}/crates/{crate}", ignore=left_out)
    lines = open(f"{top}/crates.txt", encoding="utf-8").read().splitlines()
    kept = [line for line in lines if line.split(":")[0] in CRATES]
    write(f"{folder}/crates.txt", "\n".join(kept) + "\nkeys_bench: outside fixed_box morton_key radix_tree\n")
    shutil.copy(f"{top}/HANDLES", f"{folder}/HANDLES")
    program = f"{folder}/crates/keys_bench"
    write(f"{program}/src/main.rt", MAIN)
    write(f"{program}/specs/Lib.antt", "")
    write(f"{program}/proofs/Lib.antt", "")
    write(f"{program}/proofs/scattered/Invariants.antt", INVARIANTS)
    write(f"{program}/proofs/scattered/Answers.antt", ANSWERS)
    done = subprocess.run(["rt", "run"], cwd=program, capture_output=True, text=True)
    if done.returncode != 0:
        sys.exit(done.stdout[-3000:] + done.stderr[-3000:])
    rust = f"{folder}/keys_rust"
    subprocess.run(["rustc", "-O", "--edition", "2021", "-A", "dead_code", "-o", rust, f"{top}/bench/keys.rs"], check=True)
    return f"{program}/out/keys_bench", rust


def main():
    runs = int(sys.argv[1]) if len(sys.argv) > 1 else 9
    top = os.getcwd()
    with tempfile.TemporaryDirectory() as folder:
        ours, rust = build(top, folder)
        times = {ours: [], rust: []}
        checks = set()
        for _ in range(runs):
            for program in (ours, rust):
                words = subprocess.run([program], capture_output=True, text=True, check=True).stdout.split()
                times[program].append([int(word) for word in words[:4]])
                checks.add(words[4])
        if len(checks) != 1:
            sys.exit(f"the two programs differ: {checks}")
        for i, name in enumerate(NAMES):
            mine = statistics.median(row[i] for row in times[ours]) / 1000
            theirs = statistics.median(row[i] for row in times[rust]) / 1000
            print(f"{name}: {mine:.1f} ms, plain Rust {theirs:.1f} ms, ratio {mine / theirs:.2f}")


main()
