#!/usr/bin/env bash
# Words per second of decimals::grid beside Rust's parse of f64, over the same words in one run.
#
#     bench/decimals/run.sh [COUNT]      default: 1,000,000 words
#
# It wants rt, rustc and python3, builds both programs in a folder of its own, and leaves the repository alone.
set -eu
here=$(cd "$(dirname "$0")" && pwd)
count=${1:-1000000}
work=$(mktemp -d)
trap 'rm -rf "$work"' EXIT
python3 "$here/words.py" words "$count" > "$work/words"

# The crate's side: a program over copies of the two crates.
mkdir -p "$work/rattle/crates/decimals_speed/src"
for crate in text_words decimals; do
    mkdir -p "$work/rattle/crates/$crate"
    (cd "$here/../../crates/$crate" && cp -r src specs proofs "$work/rattle/crates/$crate/")
done
cat > "$work/rattle/crates.txt" <<'END'
text_words:
decimals: text_words
decimals_speed: decimals text_words
END
cat > "$work/rattle/crates/decimals_speed/src/main.rt" <<'END'
//! Times nine passes over the words of the standard input.
#![tactic(auto)]

use decimals::grid;
use std::io::Read;
use std::test::Fail;
use std::time::Instant;
use text_words::Lines;

fn sum(words: &[&[u8]], unit: u32) -> i64 {
    let mut sum = 0i64;
    for word in words {
        if let Ok(value) = grid(word, unit) {
            sum ^= value;
        }
    }
    sum
}

fn main(rt: HostRuntime) -> Result<(), Fail> {
    let mut text = Vec::new(rt.alloc());
    rt.reader().read_to_end(&mut text)?;
    let mut words = Vec::new(rt.alloc());
    let mut lines = Lines::new(&text);
    for _ in 0..text.len() {
        let Some(line) = lines.next() else { break };
        words.push(line)?;
    }
    for pass in 0..9u32 {
        let start = Instant::now(&rt)?;
        let sum = sum(&words, 64 + pass);
        let time = Instant::now(&rt)?.duration_since(start);
        println!(rt; "{} {sum}", time.as_nanos())?;
    }
    Ok(())
}
END

# The same passes in Rust.
cat > "$work/floats.rs" <<'END'
use std::io::Read;
use std::time::Instant;

fn main() {
    let mut text = String::new();
    std::io::stdin().read_to_string(&mut text).unwrap();
    let words: Vec<&str> = text.lines().collect();
    for _ in 0..9 {
        let start = Instant::now();
        let mut sum = 0.0;
        for word in std::hint::black_box(&words) {
            if let Ok(value) = word.parse::<f64>() {
                sum += value;
            }
        }
        println!("{} {sum}", start.elapsed().as_nanos());
    }
}
END

rustc -O -o "$work/floats" "$work/floats.rs"
(cd "$work/rattle/crates/decimals_speed" && rt run < /dev/null > "$work/build" 2>&1) || { tail -20 "$work/build"; exit 1; }

best() { sort -n "$1" | head -1 | cut -d ' ' -f 1; }
"$work/rattle/crates/decimals_speed/out/decimals_speed" < "$work/words" > "$work/grid.times"
"$work/floats" < "$work/words" > "$work/floats.times"
python3 - "$count" "$(best "$work/grid.times")" "$(best "$work/floats.times")" <<'END'
import sys
count, grid, floats = map(int, sys.argv[1:])
for name, time in (("decimals::grid", grid), ("Rust's f64 parse", floats)):
    print(f"{name}: {count / time * 1000:.1f} million words a second, {time / count:.1f} ns a word")
print(f"decimals::grid takes {grid / floats:.2f} of the time of Rust's parse")
END
