#!/usr/bin/env bash
# Small boxes and short segments over a floor of 100,352 triangles: traversal's walks beside scans of every triangle by
# the same calls, in one program and one run. What both find is printed beside the times and has to agree.
#
#     bench/walks/run.sh
#
# It wants rt, builds the program in a folder of its own, and leaves the repository alone.
set -eu
here=$(cd "$(dirname "$0")" && pwd)
work=$(mktemp -d)
trap 'rm -rf "$work"' EXIT

mkdir -p "$work/crates/walk_speed/src"
for crate in outside fixed_box morton_key radix_tree segment_hit traversal; do
    mkdir -p "$work/crates/$crate"
    (cd "$here/../../crates/$crate" && cp -r src specs proofs "$work/crates/$crate/")
    grep "^$crate:" "$here/../../crates.txt" >> "$work/crates.txt"
done
echo "walk_speed: outside fixed_box morton_key radix_tree segment_hit traversal" >> "$work/crates.txt"
cp "$here/../../HANDLES" "$work/"
cat > "$work/crates/walk_speed/src/main.rt" <<'END'
//! Times the walks beside scans over a bumpy floor: boxes of a few grid steps, and short segments through the floor.
#![tactic(auto)]

ghost use Rattle.std.specs.Prelude.{◌≡◌, map, IfOk};
ghost use Rattle.fixed_box.specs.Extent.{tri_box};
ghost use Rattle.radix_tree.specs.Fit.{IsFitted};

use fixed_box::{Box3, Point, Tri, box_of, in_world, meets};
use morton_key::order;
use outside::Memory;
use radix_tree::{Tree, plain};
use segment_hit::{Frac, cmp, hit};
use std::alloc::{AllocError, Global};
use std::cmp::Ordering;
use std::process::Abort;
use std::test::Fail;
use std::time::Instant;
use traversal::{nearest, overlaps};

const SIDE: u32 = 224;

fn corner(x: u32, y: u32) -> Point {
    Point {
        x: steps(x),
        y: steps(y),
        z: i32::from(((x.wrapping_mul(37) ^ y.wrapping_mul(91)) % 40) as u8),
    }
}

fn steps(x: u32) -> i32 {
    i32::from((x % 1000) as u16) * 64
}

fn mesh(alloc: Global) -> Result<Vec<Tri>, AllocError> {
    let mut tris = Vec::new(alloc);
    for x in 0..SIDE {
        for y in 0..SIDE {
            let a = corner(x, y);
            let b = corner(x.wrapping_add(1), y);
            let c = corner(x.wrapping_add(1), y.wrapping_add(1));
            let d = corner(x, y.wrapping_add(1));
            tris.push(Tri { a, b, c })?;
            tris.push(Tri { a, b: c, c: d })?;
        }
    }
    Ok(tris)
}

fn boxes_of(alloc: Global, tris: &[Tri]) -> Result<Vec<Box3>, AllocError>
    ensures { IfOk result (λ boxes. boxes.items ≡ map tri_box tris.now) }
{
    tris.iter().map(|t| box_of(t)).collect(alloc)
}

fn tree_of(rt: &impl Abort, alloc: Global, boxes: &[Box3]) -> Result<Tree, Memory>
    ensures { IfOk result (λ t. IsFitted t boxes.now) }
{
    assert!(rt; boxes.len() <= 1000000);
    assert!(rt; boxes.iter().all(|b| in_world(&b.lo) && in_world(&b.hi)));
    let keys = order(alloc, boxes)?;
    plain(alloc, keys, boxes)
}

fn scan_box(alloc: Global, boxes: &[Box3], q: &Box3) -> Result<usize, AllocError> {
    let mut numbers: Vec<u32> = Vec::new(alloc);
    let mut number = 0u32;
    for b in boxes {
        number = number.saturating_add(1);
        if meets(b, q) {
            numbers.push(number)?;
        }
    }
    Ok(numbers.len())
}

fn scan_segment(rt: &impl Abort, tris: &[Tri], p: Point, q: Point) -> Option<(u32, Frac)> {
    assert!(rt; in_world(&p) && in_world(&q));
    let mut best: Option<(u32, Frac)> = None;
    let mut number = 0u32;
    for t in tris {
        number = number.saturating_add(1);
        if !(in_world(&t.a) && in_world(&t.b) && in_world(&t.c)) {
            continue;
        }
        let Some(at) = hit(p, q, t) else {
            continue;
        };
        let nearer = match &best {
            Some((_, before)) => cmp(&at, before) == Ordering::Less,
            None => true,
        };
        if nearer {
            best = Some((number, at));
        }
    }
    best
}

fn place(k: u32) -> (u32, u32) {
    let s = k.wrapping_mul(2654435761);
    (s / 65536 % 220, s / 256 % 220)
}

fn query(k: u32) -> Box3 {
    let (x, y) = place(k);
    let p = corner(x, y);
    Box3::of_corners(
        Point {
            x: p.x.saturating_add(20),
            y: p.y.saturating_add(30),
            z: -100,
        },
        Point {
            x: p.x.saturating_add(25),
            y: p.y.saturating_add(35),
            z: 100,
        },
    )
}

fn shot(k: u32) -> (Point, Point) {
    let (x, y) = place(k);
    let p = corner(x, y);
    let q = corner(x.wrapping_add(2), y.wrapping_add(1));
    (
        Point {
            x: p.x,
            y: p.y,
            z: 100,
        },
        Point {
            x: q.x,
            y: q.y,
            z: -100,
        },
    )
}

fn boxes_walked(alloc: Global, t: &Tree, boxes: &[Box3], count: u32) -> Result<(u64, u64), Memory>
    requires { IsFitted t.now boxes.now }
{
    let mut found = 0u64;
    let mut work = 0u64;
    for k in 0..count {
        let answer = overlaps(alloc, t, boxes, &query(k))?;
        found = found.wrapping_add(answer.numbers.items().len() as u64);
        work = work.wrapping_add(answer.work);
    }
    Ok((found, work))
}

fn boxes_scanned(alloc: Global, boxes: &[Box3], count: u32) -> Result<u64, AllocError> {
    let mut found = 0u64;
    for k in 0..count {
        found = found.wrapping_add(scan_box(alloc, boxes, &query(k))? as u64);
    }
    Ok(found)
}

fn shots_walked(rt: &impl Abort, t: &Tree, tris: &[Tri], count: u32) -> u64
    requires { IsFitted t.now (map tri_box tris.now) }
{
    assert!(rt;
        tris.iter()
            .all(|t| in_world(&t.a) && in_world(&t.b) && in_world(&t.c))
    );
    let mut sum = 0u64;
    for k in 0..count {
        let (p, q) = shot(k);
        assert!(rt; in_world(&p) && in_world(&q));
        if let Some((number, _)) = nearest(t, tris, p, q) {
            sum = sum.wrapping_add(u64::from(number));
        }
    }
    sum
}

fn shots_scanned(rt: &impl Abort, tris: &[Tri], count: u32) -> u64 {
    let mut sum = 0u64;
    for k in 0..count {
        let (p, q) = shot(k);
        if let Some((number, _)) = scan_segment(rt, tris, p, q) {
            sum = sum.wrapping_add(u64::from(number));
        }
    }
    sum
}

fn main(rt: HostRuntime) -> Result<(), Fail> {
    let tris = mesh(rt.alloc())?;
    let boxes = boxes_of(rt.alloc(), &tris)?;
    let start = Instant::now(&rt)?;
    let t = tree_of(&rt, rt.alloc(), &boxes)?;
    println!(&rt;
        "{} triangles, built in {:?}",
        tris.len(),
        start.elapsed(&rt)?
    )?;
    let start = Instant::now(&rt)?;
    let (found, work) = boxes_walked(rt.alloc(), &t, &boxes, 100000)?;
    println!(&rt;
        "100000 boxes walked: {:?}, found {found}, work {work}",
        start.elapsed(&rt)?
    )?;
    let start = Instant::now(&rt)?;
    let found = boxes_scanned(rt.alloc(), &boxes, 1000)?;
    println!(&rt;
        "1000 boxes scanned: {:?}, found {found}",
        start.elapsed(&rt)?
    )?;
    let (first, _) = boxes_walked(rt.alloc(), &t, &boxes, 1000)?;
    println!(&rt; "found by walk over these: {first}")?;
    let start = Instant::now(&rt)?;
    let sum = shots_walked(&rt, &t, &tris, 100000);
    println!(&rt;
        "100000 segments walked: {:?}, sum {sum}",
        start.elapsed(&rt)?
    )?;
    let start = Instant::now(&rt)?;
    let sum = shots_scanned(&rt, &tris, 300);
    println!(&rt;
        "300 segments scanned: {:?}, sum {sum}",
        start.elapsed(&rt)?
    )?;
    println!(&rt; "by walk over these: {}", shots_walked(&rt, &t, &tris, 300))?;
    Ok(())
}
END
(cd "$work/crates/walk_speed" && rt run < /dev/null > "$work/build" 2>&1) || { tail -20 "$work/build"; exit 1; }
"$work/crates/walk_speed/out/walk_speed"
