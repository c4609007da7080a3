//! The same keys and the same tree in plain Rust: the masks, `sort_unstable` and a recursion that halves each range.

use std::time::Instant;

#[derive(Clone, Copy)]
struct Point {
    x: i32,
    y: i32,
    z: i32,
}

#[derive(Clone, Copy)]
struct Box3 {
    lo: Point,
    hi: Point,
}

#[derive(Clone, Copy, PartialEq, Eq, PartialOrd, Ord)]
struct Key {
    code: u64,
    tri: u32,
}

#[derive(Clone, Copy)]
struct Node {
    first: u32,
    last: u32,
    split: u32,
    fit: Box3,
}

const HALF: i32 = 131072;

fn jump(seed: u64) -> u64 {
    seed.wrapping_mul(6364136223846793005).wrapping_add(1442695040888963407)
}

fn coordinate(seed: u64) -> i32 {
    (seed >> 46) as i32 - HALF
}

fn scattered(count: usize) -> Vec<Box3> {
    let mut boxes = Vec::with_capacity(count);
    let mut seed = 2026;
    for _ in 0..count {
        let x = coordinate(seed);
        let y = coordinate(jump(seed));
        let z = coordinate(jump(jump(seed)));
        let point = Point { x, y, z };
        boxes.push(Box3 { lo: point, hi: point });
        seed = jump(jump(jump(seed)));
    }
    boxes
}

fn spread(number: u32) -> u64 {
    let whole = u64::from(number);
    let sixteen = (whole | whole << 32) & 0xffff_0000_0000_ffff;
    let eight = (sixteen | sixteen << 16) & 0x00ff_0000_ff00_00ff;
    let four = (eight | eight << 8) & 0xf00f_00f0_0f00_f00f;
    let two = (four | four << 4) & 0x30c3_0c30_c30c_30c3;
    (two | two << 2) & 0x9249_2492_4924_9249
}

fn raise(coordinate: i32) -> u32 {
    (coordinate + HALF) as u32
}

fn code(b: &Box3) -> u64 {
    let x = (b.lo.x + b.hi.x).div_euclid(2);
    let y = (b.lo.y + b.hi.y).div_euclid(2);
    let z = (b.lo.z + b.hi.z).div_euclid(2);
    spread(raise(x)) << 2 | spread(raise(y)) << 1 | spread(raise(z))
}

fn order(boxes: &[Box3]) -> Vec<Key> {
    let mut keys = Vec::with_capacity(boxes.len());
    for (i, b) in boxes.iter().enumerate() {
        keys.push(Key { code: code(b), tri: i as u32 + 1 });
    }
    keys.sort_unstable();
    keys
}

fn shared(keys: &[Key], i: usize, j: usize) -> u32 {
    let (one, other) = (keys[i].code, keys[j].code);
    if one == other {
        (i as u32 ^ j as u32).leading_zeros() + 54 - 12
    } else {
        (one ^ other).leading_zeros() - 10
    }
}

fn split_of(keys: &[Key], first: usize, last: usize) -> usize {
    let whole = shared(keys, first, last);
    let (mut near, mut far) = (first, last);
    while near + 1 < far {
        let middle = near + (far - near) / 2;
        if shared(keys, first, middle) > whole {
            near = middle;
        } else {
            far = middle;
        }
    }
    near
}

fn union(a: &Box3, b: &Box3) -> Box3 {
    Box3 {
        lo: Point { x: a.lo.x.min(b.lo.x), y: a.lo.y.min(b.lo.y), z: a.lo.z.min(b.lo.z) },
        hi: Point { x: a.hi.x.max(b.hi.x), y: a.hi.y.max(b.hi.y), z: a.hi.z.max(b.hi.z) },
    }
}

fn fill(keys: &[Key], boxes: &[Box3], nodes: &mut [Node], number: usize, first: usize, last: usize) -> Box3 {
    if first == last {
        return boxes[keys[first].tri as usize - 1];
    }
    let split = split_of(keys, first, last);
    let left = fill(keys, boxes, nodes, split, first, split);
    let right = fill(keys, boxes, nodes, split + 1, split + 1, last);
    let fit = union(&left, &right);
    nodes[number] = Node { first: first as u32, last: last as u32, split: split as u32, fit };
    fit
}

fn plain(keys: &[Key], boxes: &[Box3]) -> Vec<Node> {
    let blank = Node { first: 0, last: 0, split: 0, fit: boxes[0] };
    let mut nodes = vec![blank; keys.len() - 1];
    fill(keys, boxes, &mut nodes, 0, 0, keys.len() - 1);
    nodes
}

fn main() {
    let boxes = scattered(1_000_000);
    let start = Instant::now();
    let mut sum = 0u64;
    for b in &boxes {
        sum = sum.wrapping_add(code(b));
    }
    let codes = start.elapsed().as_micros();
    let start = Instant::now();
    let keys = order(&boxes);
    let orders = start.elapsed().as_micros();
    let start = Instant::now();
    let nodes = plain(&keys, &boxes);
    let trees = start.elapsed().as_micros();
    let part = &boxes[..100_000];
    let few = order(part);
    let start = Instant::now();
    let smaller = plain(&few, part);
    let small = start.elapsed().as_micros();
    let check = sum ^ keys[500_000].code ^ u64::from(nodes[0].split) ^ u64::from(smaller[0].last);
    println!("{codes} {orders} {trees} {small} {check} {}", nodes[7].fit.hi.x - nodes[7].first as i32);
}
