#!/usr/bin/env bash
# Lets chosen allocations of the program beside it fail, by `rt try --fail-alloc`, which proves nothing, and prints a row for each run: which
# allocation failed, how many were asked for, the status and the line. Where the last one that is asked for is still one before the room is
# there, none is asked for by a report. The rows without room show what it would look like else.
set -euo pipefail
bench=$(cd "$(dirname "$0")/.." && pwd)
room=$(mktemp -d)
trap 'rm -rf "$room"' EXIT
mkdir "$room/crates"
for name in lot_base demand_set lyapunov step_choice credit_book clock; do
    mkdir "$room/crates/$name"
    for part in src specs proofs; do
        [ ! -e "$bench/../crates/$name/$part" ] || cp -r "$bench/../crates/$name/$part" "$room/crates/$name"
    done
    grep "^$name[ :]" "$bench/../crates.txt" >> "$room/crates.txt"
done
cat "$bench/clock_room/crates.txt.in" >> "$room/crates.txt"
mkdir -p "$room/crates/clock_room/src"
cp "$bench/clock_room/src/main.rt.in" "$room/crates/clock_room/src/main.rt"
cd "$room/crates/clock_room"

# Prints a row for the run whose allocation of this number fails, and leaves how many were asked for in `asked`.
row() {
    local said status line
    said=$(rt try --fail-alloc "$1" 2>&1) || true
    asked=$(sed -n 's/^allocations: //p' <<< "$said" | head -1)
    status=$(sed -n 's/^checked: ended status=//p' <<< "$said")
    line=$(grep -m1 -e '^room was' -e '^Error' <<< "$said" || true)
    printf '%-13s fails %5s asked %4s status %s: %s\n' "$2" "$1" "$asked" "${status:-none}" "$line"
}

row 99999 'with room'
last=$asked
row $((last - 1)) 'with room'
row "$last" 'with room'
row $((last + 1)) 'with room'
sed -i 's/0, REPORTS, 3 \* REPORTS/0, 0, 0/' src/main.rt
row 99999 'without room'
row "$asked" 'without room'
