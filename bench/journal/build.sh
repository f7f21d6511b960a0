#!/usr/bin/env bash
# Proves and builds the measuring program in a folder of its own, and prints where it is. The gate reads every .rt file of
# the repository, so the program's source has another ending here.
set -euo pipefail
here="$(cd "$(dirname "$0")" && pwd)"
root="$(cd "$here/../.." && pwd)"
work="${TMPDIR:-/tmp}/journal_bench"
crate="$work/crates/journal_bench"
mkdir -p "$crate/src"
cp "$root/HANDLES" "$work/"
printf '%s\n' 'lot_base:' 'byte_numbers: byteorder' 'house_io: lot_base' 'report_journal: house_io lot_base byte_numbers' \
    'journal_bench: house_io report_journal anyhow' > "$work/crates.txt"
for name in lot_base byte_numbers house_io report_journal; do
    rm -rf "$work/crates/$name"
    cp -r "$root/crates/$name" "$work/crates/"
done
cp "$here/main.rt.txt" "$crate/src/main.rt"
cd "$crate"
rt run -- list "$work/none" > "$work/built.txt" 2>&1 || { tail -20 "$work/built.txt" >&2; exit 1; }
find "$crate/out" -type f -perm -u+x -name 'journal_bench*' -print | tail -1
