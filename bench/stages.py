#!/usr/bin/env python3
"""Times the stages of both builds by workers, over bumpy floors of 131,072 and 524,288 triangles, in one program.

By the clock, the least of nine rounds in microseconds: the ways up (spans and links, or measures), making the table,
climbing by 1, 2 and 4 workers, closing, assembling; and `fit_joined`, a fit of the same nodes by fork and join. A gate
tells when the worker of number 0 begins and when one passes for the last batch. The least of each stage is taken by
itself, and that worker may begin late, so with several workers read making the table and climbing together.

By processor time, user and system, which other work on the machine changes less: each stage in a run of its own, 20
times, less a run that only makes boxes and keys; the median of three runs, in milliseconds a round. `climbed` is
measures, table, climb and close; `apetrei` is that and assembling; `search` is spans and links; `fit` is `fit_joined`,
whose forks add little to a fit in one thread.

Usage, at the top of the repository: python3 bench/stages.py [PROGRAM]

It wants rt, and builds in a folder of its own, which takes a proof of what the builds stand on. Where KEEP names a
file, the program stays there, and may be given as PROGRAM later.
"""
import os
import resource
import shutil
import statistics
import subprocess
import sys
import tempfile

HERE = os.path.dirname(os.path.abspath(__file__))
TOP = os.path.dirname(HERE)
BELOW = ["outside", "fixed_box", "morton_key", "radix_tree", "arrival_core", "box_handoff", "karras_build",
         "apetrei_build"]
SIDES = [256, 512]
ROUNDS = 20
STAGES = ["fit", "search", "measures", "table", "climbed", "karras", "apetrei"]

MAIN = """//! Times the stages of builds by workers, or goes through one of them so many times.
#![tactic(auto)]

use apetrei_build::Deltas;
use box_handoff::{Handoff, Ways, assemble, fit};
use fixed_box::{Box3, Point, Tri, box_of, in_world};
use karras_build::{fit_joined, links_of, spans};
use morton_key::{Key, order};
use outside::{Gate, OpenGate};
use radix_tree::{Tree, plain};
use std::alloc::{AllocError, Global};
use std::env;
use std::process::Abort;
use std::rt::Env;
use std::sync::atomic::{AtomicU64, Ordering};
use std::test::Fail;
use std::thread::Threads;
use std::time::{Clock, Instant};

fn steps(x: u32) -> i32 {
    i32::from((x % 1000) as u16) * 64
}

fn corner(x: u32, y: u32) -> Point {
    Point {
        x: steps(x),
        y: steps(y),
        z: i32::from(((x.wrapping_mul(37) ^ y.wrapping_mul(91)) % 40) as u8),
    }
}

fn floor(alloc: Global, side: u32) -> Result<Vec<Box3>, AllocError> {
    let mut boxes = Vec::new(alloc);
    for x in 0..side {
        for y in 0..side {
            let a = corner(x, y);
            let b = corner(x.wrapping_add(1), y);
            let c = corner(x.wrapping_add(1), y.wrapping_add(1));
            let d = corner(x, y.wrapping_add(1));
            boxes.push(box_of(&Tri { a, b, c }))?;
            boxes.push(box_of(&Tri { a, b: c, c: d }))?;
        }
    }
    Ok(boxes)
}

fn micros<R: Clock>(rt: &R, start: Instant) -> u64 {
    match start.elapsed(rt) {
        Ok(time) => u64::try_from(time.as_micros()).unwrap_or(u64::MAX),
        Err(_) => 0,
    }
}

/// Notes when the first worker begins, and when one last passes for the last batch.
#[derive(Drop)]
struct WatchGate<'a, R> {
    rt: &'a R,
    start: Instant,
    last_turn: u64,
    begun: AtomicU64,
    ended: AtomicU64,
}

impl<R: Clock + Sync> Gate for WatchGate<'_, R> {
    fn pass(&self, worker: u32, turn: u64) {
        if worker == 0 && turn == 0 {
            self.begun
                .store(micros(self.rt, self.start), Ordering::SeqCst);
        }
        if turn == self.last_turn {
            self.ended
                .store(micros(self.rt, self.start), Ordering::SeqCst);
        }
    }
}

/// Table, climb, close, assemble.
#[derive(Clone, Copy)]
struct Stages {
    ways: u64,
    table: u64,
    climb: u64,
    close: u64,
    assemble: u64,
}

fn least(a: Stages, b: Stages) -> Stages {
    Stages {
        ways: a.ways.min(b.ways),
        table: a.table.min(b.table),
        climb: a.climb.min(b.climb),
        close: a.close.min(b.close),
        assemble: a.assemble.min(b.assemble),
    }
}

fn by_measures<R: Clock + Abort + Threads + Sync>(
    rt: &R,
    alloc: Global,
    boxes: &[Box3],
    workers: u32,
    slow: &Tree,
) -> Result<Stages, Fail> {
    assert!(rt; 1 < boxes.len() && boxes.len() <= 1000000);
    assert!(rt; 0 < workers && workers <= 64);
    assert!(rt; boxes.iter().all(|b| in_world(&b.lo) && in_world(&b.hi)));
    let keys = order(alloc, boxes)?;
    let start = Instant::now(rt)?;
    let way = Deltas::new(alloc, &keys)?;
    let ways = micros(rt, start);
    let gate = WatchGate {
        rt,
        start: Instant::now(rt)?,
        last_turn: (boxes.len() as u64 - 1) / 64,
        begun: AtomicU64::new(0),
        ended: AtomicU64::new(0),
    };
    let fitted = fit(rt, alloc, &way, &gate, &keys, boxes, workers)?;
    let done = micros(rt, gate.start);
    let begun = gate.begun.load(Ordering::SeqCst);
    let ended = gate.ended.load(Ordering::SeqCst);
    let start = Instant::now(rt)?;
    let tree = assemble(alloc, keys, &fitted)?;
    let put = micros(rt, start);
    assert!(rt; tree.nodes() == slow.nodes());
    Ok(Stages {
        ways,
        table: begun,
        climb: ended.saturating_sub(begun),
        close: done.saturating_sub(ended),
        assemble: put,
    })
}

fn by_search<R: Clock + Abort + Threads + Sync>(
    rt: &R,
    alloc: Global,
    boxes: &[Box3],
) -> Result<(u64, u64, u64), Fail> {
    assert!(rt; 1 < boxes.len() && boxes.len() <= 1000000);
    assert!(rt; boxes.iter().all(|b| in_world(&b.lo) && in_world(&b.hi)));
    let keys = order(alloc, boxes)?;
    let start = Instant::now(rt)?;
    let list = spans(rt, alloc, &keys)?;
    let found = micros(rt, start);
    let start = Instant::now(rt)?;
    let links = links_of(alloc, &list)?;
    let linked = micros(rt, start);
    drop(links);
    let start = Instant::now(rt)?;
    let _tree = fit_joined(rt, alloc, keys, &list, boxes)?;
    Ok((found, linked, micros(rt, start)))
}

fn time_floor<R: Clock + Abort + Threads + Sync + Print>(
    rt: &R,
    alloc: Global,
    side: u32,
) -> Result<(), Fail> {
    let boxes = floor(alloc, side)?;
    assert!(rt; 1 < boxes.len() && boxes.len() <= 1000000);
    assert!(rt; boxes.iter().all(|b| in_world(&b.lo) && in_world(&b.hi)));
    let tree = plain(alloc, order(alloc, &boxes)?, &boxes)?;
    let mut joined = u64::MAX;
    let mut found = u64::MAX;
    let mut linked = u64::MAX;
    for _ in 0..9 {
        let (a, b, c) = by_search(rt, alloc, &boxes)?;
        found = found.min(a);
        linked = linked.min(b);
        joined = joined.min(c);
    }
    println!(rt;
        "{} triangles: spans {found}, links {linked}, fit_joined {joined}",
        boxes.len()
    )?;
    for workers in [1, 2, 4] {
        let mut best = by_measures(rt, alloc, &boxes, workers, &tree)?;
        for _ in 0..8 {
            best = least(best, by_measures(rt, alloc, &boxes, workers, &tree)?);
        }
        println!(rt;
            "    {workers} workers: measures {}, table {}, climb {}, close {}, assemble {}",
            best.ways, best.table, best.climb, best.close, best.assemble
        )?;
    }
    Ok(())
}

/// Goes so many times through one stage and what it stands on, for who measures processor time from outside.
fn again<R: Clock + Abort + Threads + Sync>(
    rt: &R,
    alloc: Global,
    stage: &str,
    side: u32,
    workers: u32,
) -> Result<(), Fail> {
    let boxes = floor(alloc, side)?;
    assert!(rt; 1 < boxes.len() && boxes.len() <= 1000000);
    assert!(rt; 0 < workers && workers <= 64);
    assert!(rt; boxes.iter().all(|b| in_world(&b.lo) && in_world(&b.hi)));
    let keys = order(alloc, &boxes)?;
    let list = spans(rt, alloc, &keys)?;
    for _ in 0..20 {
        let own = keys.clone()?;
        if stage == "search" {
            let found = spans(rt, alloc, &keys)?;
            let _links = links_of(alloc, &found)?;
        }
        if stage == "measures" {
            let _way = Deltas::new(alloc, &keys)?;
        }
        if stage == "table" {
            let _both = Handoff::fresh(alloc, &keys, &boxes, workers)?;
        }
        if stage == "climbed" {
            let way = Deltas::new(alloc, &keys)?;
            let _fitted = fit(rt, alloc, &way, &OpenGate, &keys, &boxes, workers)?;
        }
        if stage == "apetrei" {
            let _built = apetrei_build::build(rt, alloc, own, &boxes, workers, &OpenGate)?;
        } else if stage == "karras" {
            let _built = karras_build::build(rt, alloc, own, &boxes, workers, &OpenGate)?;
        } else if stage == "fit" {
            let _tree = fit_joined(rt, alloc, own, &list, &boxes)?;
        }
    }
    Ok(())
}

fn number(word: &str) -> u32 {
    word.parse().unwrap_or(1)
}

fn main(rt: HostRuntime) -> Result<(), Fail> {
    let words: Vec<String> = env::args(&rt)?.collect(rt.alloc())?;
    if words.len() == 4 {
        return again(
            &rt,
            rt.alloc(),
            &words[1],
            number(&words[2]),
            number(&words[3]),
        );
    }
    for side in [256, 512] {
        time_floor(&rt, rt.alloc(), side)?;
    }
    Ok(())
}
"""


def build(work):
    """Builds the program in that folder, and answers its path."""
    deps = {}
    with open(os.path.join(TOP, "crates.txt"), encoding="utf-8") as f:
        for line in f:
            if ":" in line and not line.startswith("#"):
                name, rest = line.split(":", 1)
                deps[name] = rest.strip()
    for crate in BELOW:
        for part in ["src", "specs", "proofs"]:
            source = os.path.join(TOP, "crates", crate, part)
            if os.path.isdir(source):
                shutil.copytree(source, os.path.join(work, "crates", crate, part))
    folder = os.path.join(work, "crates", "build_stages")
    os.makedirs(os.path.join(folder, "src"))
    with open(os.path.join(work, "crates.txt"), "w", encoding="utf-8") as f:
        f.writelines(f"{crate}: {deps[crate]}\n" for crate in BELOW)
        f.write("build_stages: " + " ".join(BELOW) + "\n")
    shutil.copy(os.path.join(TOP, "HANDLES"), work)
    with open(os.path.join(folder, "src", "main.rt"), "w", encoding="utf-8") as f:
        f.write(MAIN)
    # of a stage that there is not, over a small floor: it only proves and builds
    built = subprocess.run(["rt", "run", "--", "none", "2", "1"], cwd=folder, stdin=subprocess.DEVNULL,
                           capture_output=True, text=True, check=False)
    program = os.path.join(folder, "out", "build_stages")
    if built.returncode != 0 or not os.path.exists(program):
        sys.exit(built.stdout[-3000:] + built.stderr[-3000:])
    return program


def processor_time(program, stage, side, workers):
    """The processor time of a run, user and system, in milliseconds."""
    before = resource.getrusage(resource.RUSAGE_CHILDREN)
    subprocess.run([program, stage, str(side), str(workers)], check=True)
    after = resource.getrusage(resource.RUSAGE_CHILDREN)
    return 1e3 * (after.ru_utime - before.ru_utime), 1e3 * (after.ru_stime - before.ru_stime)


def table(program):
    """Prints the processor time of each stage, a round."""
    for side in SIDES:
        for workers in [1, 4]:
            times = {stage: [] for stage in ["none"] + STAGES}
            for _ in range(3):
                for stage, runs in times.items():
                    runs.append(processor_time(program, stage, side, workers))
            user = {stage: statistics.median(run[0] for run in runs) for stage, runs in times.items()}
            system = {stage: statistics.median(run[1] for run in runs) for stage, runs in times.items()}
            rounds = [f"{stage} {(user[stage] - user['none']) / ROUNDS:.1f} + "
                      f"{(system[stage] - system['none']) / ROUNDS:.1f}" for stage in STAGES]
            print(f"{2 * side * side} triangles, {workers} workers, user and system: " + ", ".join(rounds), flush=True)


work = tempfile.mkdtemp(prefix="stages")
try:
    program = sys.argv[1] if len(sys.argv) > 1 else build(work)
    subprocess.run([program], check=True)
    table(program)
    if os.environ.get("KEEP"):
        shutil.copy(program, os.environ["KEEP"])
finally:
    shutil.rmtree(work, ignore_errors=True)
