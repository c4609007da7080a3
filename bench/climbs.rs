//! What handing boxes up takes in plain Rust: the six changes of a word for each inner node that `box_handoff` makes,
//! and no more, with nothing proved, beside a fit of the same nodes in turn. It tells how near a proved build can come.
//!
//! Usage: climbs SIDE WORKERS [stores|arrivals], where a bumpy floor has SIDE cells along each side, two triangles each;
//! with `stores` the last two changes, which no other worker can meet, are plain stores, and with `arrivals` the two
//! arrivals are the only changes. It prints processor time, medians of 15 rounds, and ends where the nodes of the two
//! fits differ.

use std::cell::UnsafeCell;
use std::sync::atomic::{AtomicU64, Ordering};

const BATCH: usize = 64;

#[derive(Clone, Copy, PartialEq)]
struct Box3 {
    lo: [i32; 3],
    hi: [i32; 3],
}

#[derive(Clone, Copy, PartialEq)]
struct Node {
    first: u32,
    last: u32,
    split: u32,
    fit: Box3,
}

/// A child's packet: the end of its range that is away from its parent's split, its own split, and its box.
#[derive(Clone, Copy)]
struct Slot {
    far: u32,
    split: u32,
    fit: Box3,
}

/// Slots that workers write and read, each in its turn, as the words tell.
struct Slots(Vec<UnsafeCell<Slot>>);

unsafe impl Sync for Slots {}

const BLANK: Box3 = Box3 { lo: [0; 3], hi: [0; 3] };
const BLANK_NODE: Node = Node { first: 0, last: 0, split: 0, fit: BLANK };

fn union(a: &Box3, b: &Box3) -> Box3 {
    let mut both = *a;
    for k in 0..3 {
        both.lo[k] = both.lo[k].min(b.lo[k]);
        both.hi[k] = both.hi[k].max(b.hi[k]);
    }
    both
}

extern "C" {
    fn clock_gettime(clock: i32, time: *mut [i64; 2]) -> i32;
}

/// The processor time of this process and its threads in milliseconds.
fn used() -> f64 {
    let mut time = [0; 2];
    unsafe { clock_gettime(2, &mut time) };
    time[0] as f64 * 1e3 + time[1] as f64 / 1e6
}

/// Every third bit.
fn spread(value: u64) -> u64 {
    (0..18).map(|i| (value >> i & 1) << (3 * i)).sum()
}

fn floor(side: usize) -> Vec<Box3> {
    let mut seed = 12345u64;
    let heights: Vec<i32> = (0..(side + 1) * (side + 1))
        .map(|_| {
            seed = seed.wrapping_mul(6364136223846793005).wrapping_add(1442695040888963407);
            (seed >> 54) as i32
        })
        .collect();
    let at = |x: usize, y: usize| [x as i32 * 256, y as i32 * 256, heights[y * (side + 1) + x]];
    let mut boxes = Vec::new();
    for y in 0..side {
        for x in 0..side {
            for third in [at(x, y), at(x + 1, y + 1)] {
                let one = |p: [i32; 3]| Box3 { lo: p, hi: p };
                boxes.push(union(&union(&one(at(x + 1, y)), &one(at(x, y + 1))), &one(third)));
            }
        }
    }
    boxes
}

/// The triangles' numbers in the order of their codes, with the codes.
fn ordered(boxes: &[Box3]) -> Vec<(u64, u32)> {
    let code = |b: &Box3| {
        let part = |k: usize| spread((b.lo[k] + b.hi[k]) as u64 / 2);
        part(0) << 2 | part(1) << 1 | part(2)
    };
    let mut keys: Vec<_> = boxes.iter().enumerate().map(|(i, b)| (code(b), i as u32)).collect();
    keys.sort_unstable();
    keys
}

fn shared(keys: &[(u64, u32)], a: usize, b: usize) -> u32 {
    match keys[a].0 ^ keys[b].0 {
        0 => 64 + (keys[a].1 ^ keys[b].1).leading_zeros(),
        other => other.leading_zeros(),
    }
}

/// The ranges and splits of all inner nodes, each at its number: a left child has its parent's split for number.
fn spans(keys: &[(u64, u32)], number: usize, first: usize, last: usize, to: &mut [(u32, u32, u32)]) {
    let prefix = shared(keys, first, last);
    let (mut split, mut end) = (first, last);
    while split + 1 < end {
        let middle = (split + end) / 2;
        if shared(keys, first, middle) > prefix {
            split = middle;
        } else {
            end = middle;
        }
    }
    to[number] = (first as u32, last as u32, split as u32);
    if first < split {
        spans(keys, split, first, split, to);
    }
    if split + 1 < last {
        spans(keys, split + 1, split + 1, last, to);
    }
}

/// Fits the node of a number and all below it, in turn.
fn fit(number: usize, spans: &[(u32, u32, u32)], leaf: &impl Fn(usize) -> Box3, nodes: &mut [Node]) -> Box3 {
    let (first, last, split) = spans[number];
    let next = split as usize + 1;
    let left = if split == first { leaf(split as usize) } else { fit(split as usize, spans, leaf, nodes) };
    let right = if next == last as usize { leaf(next) } else { fit(next, spans, leaf, nodes) };
    let round = union(&left, &right);
    nodes[number] = Node { first, last, split, fit: round };
    round
}

/// The words of the batches and of the nodes, by their splits; and a slot before and behind each node.
struct Table {
    words: Vec<AtomicU64>,
    slots: Slots,
}

/// All six changes of a word, the last two of them as plain stores, or two of them.
const ALL: u8 = 0;
const STORES: u8 = 1;
const ARRIVALS: u8 = 2;

/// Takes batches of leaves and carries their boxes up, until no batch is left.
fn climb<const FORM: u8, L: Fn(usize) -> Box3>(table: &Table, first: &[u32], last: &[u32], leaf: &L) {
    let order = Ordering::AcqRel;
    let leaves = table.slots.0.len();
    let batches = leaves.div_ceil(BATCH);
    for batch in 0..batches {
        if table.words[batch].fetch_or(1, order) & 1 == 1 {
            continue;
        }
        for position in BATCH * batch..leaves.min(BATCH * (batch + 1)) {
            let (mut a, mut b, mut split, mut round) = (position, position, position, leaf(position));
            loop {
                let (node, side) = if b + 1 < leaves && first[b] as usize == a {
                    (b, 0)
                } else if a > 0 && last[a - 1] as usize == b {
                    (a - 1, 1)
                } else {
                    break;
                };
                let word = &table.words[batches + node];
                let inner = a < b;
                let opened = 1 << if inner { 7 + side } else { side };
                if FORM != ARRIVALS {
                    word.fetch_or(opened, order);
                }
                if inner {
                    let far = if side == 0 { a } else { b };
                    let packet = Slot { far: far as u32, split: split as u32, fit: round };
                    unsafe { *table.slots.0[node + side].get() = packet };
                }
                let found = word.fetch_or(4 << side | if FORM == ARRIVALS { opened } else { 0 }, order);
                if found & 4 << (1 - side) == 0 {
                    break;
                }
                let known = found | 4 << side | 16 << (1 - side);
                match FORM {
                    STORES => word.store(known, Ordering::Release),
                    ALL => _ = word.fetch_or(16 << (1 - side), order),
                    _ => {}
                }
                let other = node + 1 - side;
                let (far, fit) = if found & 128 << (1 - side) == 0 {
                    (other, leaf(other))
                } else {
                    let packet = unsafe { *table.slots.0[other].get() };
                    (packet.far as usize, packet.fit)
                };
                match FORM {
                    STORES => word.store(known | 64, Ordering::Release),
                    ALL => _ = word.fetch_or(64, order),
                    _ => {}
                }
                round = union(&round, &fit);
                (a, b, split) = (a.min(far), b.max(far), node);
            }
        }
    }
}

/// Writes the rows of all inner children out of the table; the root's is not written.
fn write_out(table: &Table, batches: usize) -> Vec<Node> {
    let count = table.slots.0.len() - 1;
    let mut nodes = vec![BLANK_NODE; count];
    for node in 0..count {
        let word = table.words[batches + node].load(Ordering::Relaxed);
        for side in 0..2 {
            if word & 128 << side != 0 {
                let packet = unsafe { *table.slots.0[node + side].get() };
                let near = (node + side) as u32;
                let (first, last) = if side == 0 { (packet.far, near) } else { (near, packet.far) };
                nodes[node + side] = Node { first, last, split: packet.split, fit: packet.fit };
            }
        }
    }
    nodes
}

fn main() {
    let words: Vec<String> = std::env::args().collect();
    let (side, workers): (usize, usize) = (words[1].parse().unwrap(), words[2].parse().unwrap());
    let carry = match words.get(3).map(String::as_str) {
        Some("stores") => climb::<STORES, _>,
        Some("arrivals") => climb::<ARRIVALS, _>,
        _ => climb::<ALL, _>,
    };
    let boxes = floor(side);
    let keys = ordered(&boxes);
    let leaf = |position: usize| boxes[keys[position].1 as usize];
    let leaves = keys.len();
    let mut list = vec![(0, 0, 0); leaves - 1];
    spans(&keys, 0, 0, leaves - 1, &mut list);
    let (mut first, mut last) = (vec![0; leaves - 1], vec![0; leaves - 1]);
    for (a, b, split) in &list {
        first[*split as usize] = *a;
        last[*split as usize] = *b;
    }
    let mut ratios = Vec::new();
    for _ in 0..15 {
        let begun = used();
        let mut in_turn = vec![BLANK_NODE; leaves - 1];
        fit(0, &list, &leaf, &mut in_turn);
        let plain = used() - begun;

        let begun = used();
        let batches = leaves.div_ceil(BATCH);
        let table = Table {
            words: (0..batches + leaves - 1).map(|_| AtomicU64::new(0)).collect(),
            slots: Slots((0..leaves).map(|_| UnsafeCell::new(Slot { far: 0, split: 0, fit: BLANK })).collect()),
        };
        let made = used();
        std::thread::scope(|threads| {
            for _ in 1..workers {
                threads.spawn(|| carry(&table, &first, &last, &leaf));
            }
            carry(&table, &first, &last, &leaf);
        });
        let climbed = used();
        let nodes = write_out(&table, batches);
        drop(table);
        let ended = used();
        assert!(nodes[1..] == in_turn[1..]);
        ratios.push(((ended - begun) / plain, plain, made - begun, climbed - made, ended - climbed));
    }
    ratios.sort_by(|a, b| a.0.total_cmp(&b.0));
    let (ratio, plain, table, climb, out) = ratios[ratios.len() / 2];
    println!(
        "{leaves} leaves, {workers} workers: in turn {plain:.1} ms; table {table:.1}, climb {climb:.1}, \
         write out {out:.1}; ratio {ratio:.2} ({:.2} to {:.2})",
        ratios[0].0,
        ratios[ratios.len() - 1].0
    );
}
