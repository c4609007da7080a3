#!/usr/bin/env bash
# Megabytes per second of obj_text::read_mesh beside a plain reader in Rust (reader.rs), over the same text in one run.
#
#     bench/reader/run.sh [MESH]      default: the text of mesh.py, about 62 MB
#
# It wants rt, rustc and python3, builds both programs in a folder of its own, and leaves the repository alone.
set -eu
here=$(cd "$(dirname "$0")" && pwd)
work=$(mktemp -d)
trap 'rm -rf "$work"' EXIT
mesh=${1:-$work/mesh.obj}
[ $# -gt 0 ] || python3 "$here/mesh.py" > "$mesh"

# The crate's side: a program over copies of the crates that it stands on.
mkdir -p "$work/rattle/crates/reader_speed/src"
for crate in outside decimals fixed_box text_words obj_text; do
    mkdir -p "$work/rattle/crates/$crate"
    (cd "$here/../../crates/$crate" && cp -r src specs proofs "$work/rattle/crates/$crate/")
    grep "^$crate:" "$here/../../crates.txt" >> "$work/rattle/crates.txt"
done
echo "reader_speed: obj_text" >> "$work/rattle/crates.txt"
cp "$here/../../HANDLES" "$work/rattle/" 2> /dev/null || true
cat > "$work/rattle/crates/reader_speed/src/main.rt" <<'END'
//! Times five readings of the mesh text on the standard input.
#![tactic(auto)]

use obj_text::{MOST_BYTES, read_mesh};
use std::io::Read;
use std::test::Fail;
use std::time::Instant;

fn main(rt: HostRuntime) -> Result<(), Fail> {
    let mut text = Vec::new(rt.alloc());
    rt.reader().read_to_end(&mut text)?;
    if text.len() > MOST_BYTES {
        return Ok(());
    }
    for _ in 0..5u32 {
        let start = Instant::now(&rt)?;
        let mesh = read_mesh(rt.alloc(), &text, 64)?;
        let time = Instant::now(&rt)?.duration_since(start);
        println!(rt; "{} {} {}", time.as_nanos(), mesh.points().len(), mesh.faces().len())?;
    }
    Ok(())
}
END

rustc -O -o "$work/reader" "$here/reader.rs"
(cd "$work/rattle/crates/reader_speed" && rt run < /dev/null > "$work/build" 2>&1) || { tail -20 "$work/build"; exit 1; }

best() { sort -n "$1" | head -1 | cut -d ' ' -f 1; }
/usr/bin/time -f "peak of the whole program: %M KB" "$work/rattle/crates/reader_speed/out/reader_speed" < "$mesh" > "$work/ours"
"$work/reader" "$mesh" > "$work/plain"
python3 - "$(stat -c %s "$mesh")" "$(best "$work/ours")" "$(best "$work/plain")" <<'END'
import sys
size, ours, plain = map(int, sys.argv[1:])
for name, time in (("obj_text::read_mesh", ours), ("the plain reader", plain)):
    print(f"{name}: {size / time * 1000:.0f} MB a second, {time / 1e6:.0f} ms")
print(f"read_mesh has {plain / ours:.2f} of the speed of the plain reader")
END
