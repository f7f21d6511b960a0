#!/usr/bin/env bash
# Measures turns per second at a desk and at a mutex. The program is proved, built and run in a folder of its own: the gate
# reads every .rt and .antt file of the repository, so its files have another ending here.
set -euo pipefail
here="$(cd "$(dirname "$0")" && pwd)"
root="$(cd "$here/../.." && pwd)"
work="${TMPDIR:-/tmp}/turn_desk_bench"
crate="$work/crates/turn_bench"
rm -rf "$crate/src" "$crate/specs" "$crate/proofs" "$work/crates/turn_desk"
mkdir -p "$crate/src" "$crate/specs" "$crate/proofs/desk_turns" "$crate/proofs/desk_four" "$crate/proofs/desk_waiting"
cp "$root/HANDLES" "$work/"
printf '%s\n' 'turn_desk may_wait=4: atomic_table' 'turn_bench: turn_desk atomic_table' > "$work/crates.txt"
cp -r "$root/crates/turn_desk" "$work/crates/turn_desk"
cp "$here/main.rt.txt" "$crate/src/main.rt"
echo 'pub mod Back' > "$crate/specs/Lib.antt"
cp "$here/back.antt.txt" "$crate/specs/Back.antt"
printf '%s\n' 'mod Four' 'mod AllBack' > "$crate/proofs/Lib.antt"
cp "$here/four.antt.txt" "$crate/proofs/Four.antt"
cp "$here/all_back.antt.txt" "$crate/proofs/AllBack.antt"
cp "$here/desk_turns.antt.txt" "$crate/proofs/desk_turns/Invariants.antt"
cp "$here/desk_four.antt.txt" "$crate/proofs/desk_four/Answers.antt"
cp "$here/desk_waiting.antt.txt" "$crate/proofs/desk_waiting/Answers.antt"
cd "$crate"
rt run
