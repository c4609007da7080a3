// A plain reader in Rust, for the text of mesh.py and such: index loops, coordinates that are whole numbers of 64th,
// positive references, no comments, no joined lines, no groups, and no limits.
use std::time::Instant;

fn decimal(s: &[u8], mut i: usize) -> (i32, usize) {
    while s[i] == b' ' || s[i] == b'\t' {
        i += 1
    }
    let minus = s[i] == b'-';
    if minus || s[i] == b'+' {
        i += 1
    }
    let (mut whole, mut part, mut scale) = (0i64, 0i64, 1i64);
    let from = i;
    while i < s.len() && s[i].is_ascii_digit() {
        whole = whole * 10 + (s[i] - 48) as i64;
        i += 1
    }
    if i < s.len() && s[i] == b'.' {
        i += 1;
        while i < s.len() && s[i].is_ascii_digit() {
            part = part * 10 + (s[i] - 48) as i64;
            scale *= 10;
            i += 1
        }
    }
    assert!(i > from && i - from < 18, "bad number");
    let steps = whole * 64 + part * 64 / scale;
    assert!(part * 64 % scale == 0 && steps <= 131072, "not a grid step");
    (if minus { -steps as i32 } else { steps as i32 }, i)
}

fn read(s: &[u8]) -> (Vec<[i32; 3]>, Vec<[u32; 3]>) {
    let (mut points, mut faces) = (Vec::new(), Vec::new());
    let mut i = 0;
    while i < s.len() {
        if s[i] == b'v' && s[i + 1] == b' ' {
            let (x, j) = decimal(s, i + 1);
            let (y, j) = decimal(s, j);
            let (z, j) = decimal(s, j);
            points.push([x, y, z]);
            i = j;
        } else if s[i] == b'f' && s[i + 1] == b' ' {
            i += 1;
            let (mut a, mut b, mut k) = (0u32, 0u32, 0);
            loop {
                while i < s.len() && (s[i] == b' ' || s[i] == b'\r') {
                    i += 1
                }
                if i >= s.len() || !s[i].is_ascii_digit() {
                    break;
                }
                let mut x = 0u32;
                while i < s.len() && s[i].is_ascii_digit() {
                    x = x * 10 + (s[i] - 48) as u32;
                    i += 1
                }
                while i < s.len() && s[i] != b' ' && s[i] != b'\n' {
                    i += 1
                }
                let x = x.wrapping_sub(1);
                if k == 0 {
                    a = x
                } else {
                    if k > 1 {
                        faces.push([a, b, x])
                    }
                    b = x
                }
                k += 1;
            }
        }
        while i < s.len() && s[i] != b'\n' {
            i += 1
        }
        i += 1;
    }
    (points, faces)
}

fn main() {
    let text = std::fs::read(std::env::args().nth(1).unwrap()).unwrap();
    for _ in 0..5 {
        let start = Instant::now();
        let (points, faces) = read(std::hint::black_box(&text));
        println!("{} {} {}", start.elapsed().as_nanos(), points.len(), faces.len());
    }
}
