#!/bin/sh
# Refuses one allocation after another of a run of world_main, the first to the LAST: each run must end with status 5 and
# a front of the whole output, or as the run with no refusal does. Usage: bench/fail_alloc.sh MESH SCRIPT LAST
set -eu
mesh=$(realpath "$1")
script=$(realpath "$2")
cd "$(dirname "$0")/../crates/world_main"
trap 'rm -rf "$folder"' EXIT
folder=$(mktemp -d)

# Runs the program and leaves its output and status, the latter from the last line that `rt try` says.
try() {
    name=$1
    shift
    rt try "$@" --data mesh.obj="$mesh" -- mesh.obj < "$script" > "$folder/$name" 2> "$folder/said" || true
    status=$(sed -n 's/^run=ended status=\([0-9]*\).*/\1/p' "$folder/said")
}

try whole
whole=$status
fronts=0 same=0
for n in $(seq "$3"); do
    try part --fail-alloc "$n"
    if [ "$status" = 5 ] && cmp -s -n "$(wc -c < "$folder/part")" "$folder/part" "$folder/whole"; then
        fronts=$((fronts + 1))
    elif [ "$status" = "$whole" ] && cmp -s "$folder/part" "$folder/whole"; then
        same=$((same + 1))
    else
        echo "allocation $n: status $status, $(wc -c < "$folder/part") bytes"
        exit 1
    fi
done
echo "fronts $fronts, as without refusal $same"
