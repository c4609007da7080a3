#!/usr/bin/env bash
# walk_list's walks beside traversal's over the same height fields, in one program: small and large boxes, steep and
# slanted segments, whole calls; and what making a list takes. In each round both walks answer the same queries in turn,
# and what they find has to agree. The ratios are medians over the rounds.
#
#     bench/lists/run.sh [PROGRAM]      PROGRAM: one that an earlier run has built
#
# It wants rt and python3, builds the program in a folder of its own, and leaves the repository alone. With KEEP=FILE the
# program is kept there.
set -eu
here=$(cd "$(dirname "$0")" && pwd)
work=$(mktemp -d)
trap 'rm -rf "$work"' EXIT
program=${1:-}

if [ -z "$program" ]; then
    mkdir -p "$work/crates/list_speed/src"
    for crate in outside fixed_box morton_key radix_tree arrival_core box_handoff refit segment_hit traversal walk_list; do
        mkdir -p "$work/crates/$crate"
        (cd "$here/../../crates/$crate" && cp -r src specs proofs "$work/crates/$crate/")
        grep "^$crate:" "$here/../../crates.txt" >> "$work/crates.txt"
    done
    echo "list_speed: outside fixed_box morton_key radix_tree segment_hit traversal walk_list" >> "$work/crates.txt"
    cp "$here/../../HANDLES" "$work/"
    cat > "$work/crates/list_speed/src/main.rt" <<'END'
//! Times the walks over the tree and over its walk list, in turn, on height fields of hills and noise.
#![tactic(auto)]

ghost use Rattle.std.specs.Prelude.{◌≡◌, map, length, IfOk, All, IsTrue};
ghost use Rattle.fixed_box.specs.Extent.{tri_box};
ghost use Rattle.fixed_box.specs.World.{BoxInWorld, TriInWorld};
ghost use Rattle.morton_key.specs.Keys.{IsLawful};
ghost use Rattle.radix_tree.specs.Fit.{IsFitted};
ghost use Rattle.traversal.specs.Nearest.{triangle_of};
ghost use Rattle.walk_list.specs.Lists.{IsOver};

use fixed_box::{Box3, Point, Tri, box_of, in_world};
use morton_key::{Key, order};
use outside::Memory;
use radix_tree::{Tree, plain};
use std::alloc::{AllocError, Global};
use std::test::Fail;
use std::time::Instant;
use traversal::{Triangles, overlaps};
use walk_list::{WalkList, flatten};

/// How many rounds each kind of query is timed in.
const ROUNDS: u32 = 15;

fn ridge(x: u32) -> u32 {
    let m = x % 128;
    if m < 64 { m } else { 128u32.wrapping_sub(m) }
}

fn corner(x: u32, y: u32) -> Point {
    let noise = (x.wrapping_mul(37) ^ y.wrapping_mul(91)) % 40;
    let hill = ridge(x).wrapping_add(ridge(y)).wrapping_mul(8);
    Point {
        x: steps(x),
        y: steps(y),
        z: i32::from((hill.wrapping_add(noise) % 2000) as u16),
    }
}

fn steps(x: u32) -> i32 {
    i32::from((x % 1000) as u16) * 64
}

fn mesh(alloc: Global, side: u32) -> Result<Vec<Tri>, AllocError> {
    let mut tris = Vec::new(alloc);
    for x in 0..side {
        for y in 0..side {
            let a = corner(x, y);
            let b = corner(x.wrapping_add(1), y);
            let c = corner(x.wrapping_add(1), y.wrapping_add(1));
            let d = corner(x, y.wrapping_add(1));
            tris.push(Tri { a, b, c })?;
            tris.push(Tri { a, b: c, c: d })?;
        }
    }
    Ok(tris)
}

fn boxes_of(alloc: Global, tris: &[Tri]) -> Result<Vec<Box3>, AllocError>
    ensures { IfOk result (λ boxes. boxes.items ≡ map tri_box tris.now) }
{
    tris.iter().map(|t| box_of(t)).collect(alloc)
}

fn all_in_world(boxes: &[Box3]) -> bool
    ensures { IsTrue result → All BoxInWorld boxes.now }
{
    boxes.iter().all(|b| in_world(&b.lo) && in_world(&b.hi))
}

fn keys_of(alloc: Global, boxes: &[Box3]) -> Result<Vec<Key>, Memory>
    ensures lawful { IfOk result (λ keys. IsLawful keys.items) }
    ensures count { IfOk result (λ keys. length boxes.now ≡ length keys.items) }
{
    if boxes.len() > 1000000 {
        return Err(Memory);
    }
    if !all_in_world(boxes) {
        return Err(Memory);
    }
    order(alloc, boxes)
}

fn tree_of(alloc: Global, boxes: &[Box3]) -> Result<Tree, Memory>
    ensures { IfOk result (λ t. IsFitted t boxes.now) }
{
    let keys = keys_of(alloc, boxes)?;
    plain(alloc, keys, boxes)
}

fn list_of(alloc: Global, t: &Tree, boxes: &[Box3]) -> Result<WalkList, Memory>
    requires { IsFitted t.now boxes.now }
    ensures { IfOk result (λ list. IsOver list boxes.now) }
{
    if !all_in_world(boxes) {
        return Err(Memory);
    }
    flatten(alloc, t, boxes)
}

fn place(k: u32, side: u32, cells: u32) -> (u32, u32) {
    let s = k.wrapping_mul(2654435761);
    let room = side.saturating_sub(cells).max(1);
    (s / 65536 % room, s / 256 % room)
}

fn query(k: u32, side: u32, cells: u32) -> Box3 {
    let (x, y) = place(k, side, cells);
    let p = corner(x, y);
    let q = corner(x.wrapping_add(cells), y.wrapping_add(cells));
    Box3::of_corners(
        Point {
            x: p.x.saturating_add(20),
            y: p.y.saturating_add(30),
            z: -100,
        },
        Point {
            x: q.x.saturating_add(20),
            y: q.y.saturating_add(30),
            z: 3000,
        },
    )
}

/// A segment across so many cells: steep where they are few, and slanted along the ground where they are many.
fn shot(k: u32, side: u32, cells: u32) -> (Point, Point) {
    let (x, y) = place(k, side, cells);
    let p = corner(x, y);
    let q = corner(x.wrapping_add(cells), y.wrapping_add(cells / 2));
    (
        Point {
            x: p.x,
            y: p.y,
            z: 1500,
        },
        Point {
            x: q.x,
            y: q.y,
            z: -100,
        },
    )
}

fn total(numbers: &[u32]) -> u64 {
    let mut sum = 0u64;
    for n in numbers {
        sum = sum.wrapping_mul(31).wrapping_add(u64::from(*n));
    }
    sum
}

/// What a round asks: how many queries, from which on, across so many cells of a field of that side.
#[derive(Clone, Copy)]
struct Round {
    from: u32,
    count: u32,
    side: u32,
    cells: u32,
}

fn boxes_by_tree(alloc: Global, t: &Tree, boxes: &[Box3], r: Round) -> Result<(u64, u64), Memory>
    requires { IsFitted t.now boxes.now }
{
    let mut found = 0u64;
    let mut sum = 0u64;
    for k in 0..r.count {
        let answer = overlaps(alloc, t, boxes, &query(r.from.wrapping_add(k), r.side, r.cells))?;
        found = found.wrapping_add(answer.numbers.items().len() as u64);
        sum = sum.wrapping_add(total(answer.numbers.items()));
    }
    Ok((found, sum))
}

fn boxes_by_list(alloc: Global, list: &WalkList, r: Round) -> Result<(u64, u64), Memory> {
    let mut found = 0u64;
    let mut sum = 0u64;
    for k in 0..r.count {
        let q = query(r.from.wrapping_add(k), r.side, r.cells);
        let answer = walk_list::overlaps(alloc, list, &q)?;
        found = found.wrapping_add(answer.items().len() as u64);
        sum = sum.wrapping_add(total(answer.items()));
    }
    Ok((found, sum))
}

/// Triangles in a list.
#[derive(Clone, Copy)]
struct Kept<'a> {
    tris: &'a [Tri],
}

impl<'a> Triangles for Kept<'a> {
    ghost list = { λ l. l.tris.now };

    #[tactic(auto, unfolding(traversal::specs::Nearest::triangle_of, traversal::specs::Nearest::no_tri, traversal::specs::Nearest::no_point))]
    fn triangle(&self, number: u32) -> Tri {
        self.tris[number as usize - 1]
    }
}

fn all_inside(tris: &[Tri]) -> bool
    ensures { IsTrue result → All TriInWorld tris.now }
{
    tris.iter()
        .all(|t| in_world(&t.a) && in_world(&t.b) && in_world(&t.c))
}

fn shots_by_tree(t: &Tree, tris: &[Tri], r: Round) -> (u64, u64)
    requires fitted { IsFitted t.now (map tri_box tris.now) }
    requires tris { All TriInWorld tris.now }
{
    let mut found = 0u64;
    let mut sum = 0u64;
    for k in 0..r.count {
        let (p, q) = shot(r.from.wrapping_add(k), r.side, r.cells);
        if !in_world(&p) {
            continue;
        }
        if !in_world(&q) {
            continue;
        }
        if let Some((number, _)) = traversal::nearest_among(t, &Kept { tris }, p, q) {
            found = found.wrapping_add(1);
            sum = sum.wrapping_mul(31).wrapping_add(u64::from(number));
        }
    }
    (found, sum)
}

fn shots_by_list(list: &WalkList, tris: &[Tri], r: Round) -> (u64, u64)
    requires over { IsOver list.now (map tri_box tris.now) }
    requires tris { All TriInWorld tris.now }
{
    let mut found = 0u64;
    let mut sum = 0u64;
    for k in 0..r.count {
        let (p, q) = shot(r.from.wrapping_add(k), r.side, r.cells);
        if !in_world(&p) {
            continue;
        }
        if !in_world(&q) {
            continue;
        }
        if let Some((number, _)) = walk_list::nearest_among(list, &Kept { tris }, p, q) {
            found = found.wrapping_add(1);
            sum = sum.wrapping_mul(31).wrapping_add(u64::from(number));
        }
    }
    (found, sum)
}

/// Times a round of boxes by both walks, in turn.
fn box_round(rt: &HostRuntime, t: &Tree, boxes: &[Box3], list: &WalkList, r: Round) -> Result<(), Fail>
    requires { IsFitted t.now boxes.now }
{
    let start = Instant::now(rt)?;
    let old = boxes_by_tree(rt.alloc(), t, boxes, r)?;
    let tree_time = start.elapsed(rt)?.as_nanos();
    let start = Instant::now(rt)?;
    let new = boxes_by_list(rt.alloc(), list, r)?;
    let list_time = start.elapsed(rt)?.as_nanos();
    let same = old == new;
    let (side, cells, count) = (r.side, r.cells, r.count);
    println!(rt; "box {side} {cells} {count} {} {same} {tree_time} {list_time}", old.0)?;
    Ok(())
}

/// Times a round of segments by both walks, in turn.
fn shot_round(rt: &HostRuntime, t: &Tree, tris: &[Tri], list: &WalkList, r: Round) -> Result<(), Fail>
    requires fitted { IsFitted t.now (map tri_box tris.now) }
    requires over { IsOver list.now (map tri_box tris.now) }
{
    if !all_inside(tris) {
        return Ok(());
    }
    let start = Instant::now(rt)?;
    let old = shots_by_tree(t, tris, r);
    let tree_time = start.elapsed(rt)?.as_nanos();
    let start = Instant::now(rt)?;
    let new = shots_by_list(list, tris, r);
    let list_time = start.elapsed(rt)?.as_nanos();
    let same = old == new;
    let (side, cells, count) = (r.side, r.cells, r.count);
    println!(rt; "seg {side} {cells} {count} {} {same} {tree_time} {list_time}", old.0)?;
    Ok(())
}

/// Times what making a list takes beside the tree's own build.
fn build_round(rt: &HostRuntime, boxes: &[Box3], side: u32) -> Result<(), Fail> {
    let keys = keys_of(rt.alloc(), boxes)?;
    let start = Instant::now(rt)?;
    let t = plain(rt.alloc(), keys, boxes)?;
    let tree_time = start.elapsed(rt)?.as_nanos();
    if !all_in_world(boxes) {
        return Ok(());
    }
    let start = Instant::now(rt)?;
    let list = flatten(rt.alloc(), &t, boxes)?;
    let list_time = start.elapsed(rt)?.as_nanos();
    let records = list.records().len();
    let leaves = list.leaves().len();
    println!(rt; "make {side} {leaves} {records} 0 true {tree_time} {list_time}")?;
    Ok(())
}

fn one_size(rt: &HostRuntime, side: u32) -> Result<(), Fail> {
    let tris = mesh(rt.alloc(), side)?;
    let boxes = boxes_of(rt.alloc(), &tris)?;
    for _ in 0..5u32 {
        build_round(rt, &boxes, side)?;
    }
    let t = tree_of(rt.alloc(), &boxes)?;
    let list = list_of(rt.alloc(), &t, &boxes)?;
    for (cells, count) in [(3u32, 1000u32), (50, 20)] {
        for round in 0..ROUNDS {
            let from = round.wrapping_mul(count);
            box_round(rt, &t, &boxes, &list, Round { from, count, side, cells })?;
        }
    }
    for (cells, count) in [(2u32, 1000u32), (50, 1000), (240, 500)] {
        for round in 0..ROUNDS {
            let from = round.wrapping_mul(count);
            shot_round(rt, &t, &tris, &list, Round { from, count, side, cells })?;
        }
    }
    Ok(())
}

fn main(rt: HostRuntime) -> Result<(), Fail> {
    one_size(&rt, 64)?;
    one_size(&rt, 256)?;
    one_size(&rt, 512)?;
    Ok(())
}
END
    (cd "$work/crates/list_speed" && rt run < /dev/null > "$work/build" 2>&1) || { tail -20 "$work/build"; exit 1; }
    program="$work/crates/list_speed/out/list_speed"
    [ -z "${KEEP:-}" ] || cp "$program" "$KEEP"
fi
"$program" > "$work/times"
python3 - "$work/times" <<'END'
import sys
from statistics import median

rows = {}
for line in open(sys.argv[1]):
    kind, side, what, count, found, same, first, second = line.split()
    if same != "true":
        sys.exit(f"the two walks differ: {line}")
    rows.setdefault((kind, int(side), int(what)), []).append((int(count), int(found), int(first), int(second)))
for (kind, side, what), runs in rows.items():
    triangles = 2 * side * side
    first = median(r[2] for r in runs)
    second = median(r[3] for r in runs)
    ratio = median(r[3] / r[2] for r in runs)
    if kind == "make":
        print(f"{triangles} triangles, made in {second / 1e6:.2f} ms, {runs[0][0]} records "
              f"(the tree by its plain build {first / 1e6:.2f} ms)")
    else:
        count = runs[0][0]
        name = "boxes" if kind == "box" else "segments"
        print(f"{triangles} triangles, {name} across {what} cells: tree {first / count / 1e3:.2f} us, "
              f"list {second / count / 1e3:.2f} us, list/tree {ratio:.2f}")
END
