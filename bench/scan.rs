//! A scan in plain Rust: reads a mesh of whole numbers and `box` and `seg` lines, tests every triangle's box or every
//! triangle for each line, and prints the replies. Their time, without reading the mesh, goes to standard error in
//! nanoseconds.

use std::fmt::Write as _;
use std::io::Read;
use std::time::Instant;

const UNIT: i32 = 64;

type Point = [i32; 3];

fn numbers<'a>(words: impl Iterator<Item = &'a str>) -> Vec<i32> {
    words.map(|w| w.parse().expect("a whole number")).collect()
}

fn box_of(points: &[Point]) -> (Point, Point) {
    let mut lo = points[0];
    let mut hi = points[0];
    for p in points {
        for axis in 0..3 {
            lo[axis] = lo[axis].min(p[axis]);
            hi[axis] = hi[axis].max(p[axis]);
        }
    }
    (lo, hi)
}

fn minus(a: Point, b: Point) -> [i64; 3] {
    [0, 1, 2].map(|axis| i64::from(a[axis]) - i64::from(b[axis]))
}

fn cross(a: [i64; 3], b: [i64; 3]) -> [i64; 3] {
    [a[1] * b[2] - a[2] * b[1], a[2] * b[0] - a[0] * b[2], a[0] * b[1] - a[1] * b[0]]
}

fn dot(a: [i64; 3], b: [i64; 3]) -> i64 {
    a[0] * b[0] + a[1] * b[1] + a[2] * b[2]
}

/// How much of the way from p to q it is to the triangle, as a quotient, where it is met.
fn hit(p: Point, q: Point, t: &[Point; 3]) -> Option<(i64, i64)> {
    let way = minus(q, p);
    let (second, third, out) = (minus(t[1], t[0]), minus(t[2], t[0]), minus(t[0], p));
    let normal = cross(second, third);
    let whole = dot(way, normal);
    let turn = whole.signum();
    let time = turn * dot(out, normal);
    let whole = whole.abs();
    if whole == 0 || time < 0 || time > whole {
        return None;
    }
    let side = cross(out, way);
    let (v, w) = (turn * dot(third, side), -turn * dot(second, side));
    (v >= 0 && w >= 0 && v + w <= whole).then_some((time, whole))
}

fn gcd(a: i64, b: i64) -> i64 {
    if b == 0 { a } else { gcd(b, a % b) }
}

fn told_boxes(boxes: &[(Point, Point)], p: Point, q: Point, out: &mut String) {
    let (lo, hi) = box_of(&[p, q]);
    let mut found = Vec::new();
    for (before, b) in boxes.iter().enumerate() {
        if (0..3).all(|axis| b.0[axis] <= hi[axis] && lo[axis] <= b.1[axis]) {
            found.push(before + 1);
        }
    }
    write!(out, "overlaps {}", found.len()).unwrap();
    if !found.is_empty() {
        out.push(':');
        for n in found {
            write!(out, " {n}").unwrap();
        }
    }
    out.push('\n');
}

fn told_hit(tris: &[[Point; 3]], p: Point, q: Point, out: &mut String) {
    let mut best: Option<(usize, i64, i64)> = None;
    for (before, t) in tris.iter().enumerate() {
        let Some((time, whole)) = hit(p, q, t) else { continue };
        let nearer = |(_, num, den): (usize, i64, i64)| {
            i128::from(time) * i128::from(den) < i128::from(num) * i128::from(whole)
        };
        if best.is_none_or(nearer) {
            best = Some((before + 1, time, whole));
        }
    }
    match best {
        Some((number, time, whole)) => {
            let shared = gcd(time, whole);
            writeln!(out, "hit {number} {}/{}", time / shared, whole / shared).unwrap();
        }
        None => out.push_str("miss\n"),
    }
}

fn main() {
    let mesh = std::fs::read_to_string(std::env::args().nth(1).expect("a mesh")).expect("a readable mesh");
    let mut script = String::new();
    std::io::stdin().read_to_string(&mut script).expect("a script");
    let mut points: Vec<Point> = Vec::new();
    let mut tris: Vec<[Point; 3]> = Vec::new();
    for line in mesh.lines() {
        let mut words = line.split_whitespace();
        match words.next() {
            Some("v") => {
                let v = numbers(words);
                points.push([v[0] * UNIT, v[1] * UNIT, v[2] * UNIT]);
            }
            Some("f") => {
                let f = numbers(words);
                tris.push([0, 1, 2].map(|k| points[f[k] as usize - 1]));
            }
            _ => {}
        }
    }
    let boxes: Vec<_> = tris.iter().map(|t| box_of(t)).collect();
    let start = Instant::now();
    let mut out = String::new();
    for line in script.lines() {
        let v = numbers(line.split_whitespace().skip(1));
        let (p, q) = ([v[0] * UNIT, v[1] * UNIT, v[2] * UNIT], [v[3] * UNIT, v[4] * UNIT, v[5] * UNIT]);
        if line.starts_with("seg") {
            told_hit(&tris, p, q, &mut out);
        } else {
            told_boxes(&boxes, p, q, &mut out);
        }
    }
    let took = start.elapsed().as_nanos();
    print!("{out}");
    eprintln!("{took}");
}
