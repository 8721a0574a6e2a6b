#!/bin/sh
# Times the judging of three days beside another program that judges days: `rustc -O` of the Rust file that is named, which takes `--bench N`, judges the
# day of its folder N times and prints a line that begins with the nanoseconds per judged event. Both run by turns, five times each, on the same days.
# usage: tools/bench.sh PEER.rs [ROUNDS]
[ -f "$1" ] || { echo 'usage: tools/bench.sh PEER.rs [ROUNDS]' >&2; exit 2; }
peer=$(realpath "$1") || exit
rounds=${2:-200}
cd "$(dirname "$0")/.." || exit
top=$PWD
ours=$top/crates/bench/out/bench
(cd crates/bench && rt run <stdin) >/dev/null 2>&1 || { echo 'crates/bench is not proved' >&2; exit 1; }

work=$(mktemp -d) || exit
trap 'rm -rf "$work"' EXIT
rustc -O -o "$work/peer" "$peer" || exit

# The nanoseconds of one turn, as a whole number.
our_turn() { "$ours" "$rounds" <journal.bin | sed -n 's/^nanoseconds //p'; }
peer_turn() { "$work/peer" --bench "$rounds" <journal.bin | sed 's/[. ].*//'; }

# The middle, the least and the largest of five lines.
spread() { sort -n "$1" | awk '{ v[NR] = $1 } END { print v[3], v[1], v[5] }'; }

printf '%-6s %9s %19s %9s %19s %6s\n' day ours '(least..most)' peer '(least..most)' ratio
for day in plain light heavy; do
    cd "$top/examples/$day" || exit
    : >"$work/ours"
    : >"$work/theirs"
    for _ in 1 2 3 4 5; do
        our_turn >>"$work/ours"
        peer_turn >>"$work/theirs"
    done
    spread "$work/ours" >"$work/row"
    spread "$work/theirs" >>"$work/row"
    awk -v day="$day" 'NR == 1 { m = $1; a = $2; b = $3 }
        NR == 2 { printf "%-6s %9d %19s %9d %19s %6.2f\n", day, m, "(" a ".." b ")", $1, "(" $2 ".." $3 ")", m / $1 }' "$work/row"
done
