#!/usr/bin/env bash
# Seconds and peak memory of a rollback to the first snapshot, over tables of 1,000, 10,000, 20,000 and 100,000 snapshots
# (35 MB of metadata), beside those of Python's json for reading and writing the same file. Each number is of a whole
# process: the best seconds of three, the greatest peak of three. The last column is that peak over the file's bytes.
# Other sizes can be given as words.
set -eu
cd "$(dirname "$0")/.."
program="$PWD/crates/upkeep/out/upkeep"
[ -x "$program" ] || { echo "bench/rollback.sh: build the program first, by ./demo" >&2; exit 1; }
work="$(cd "$(mktemp -d)" && pwd -P)"
trap 'rm -rf "$work"' EXIT

again='import json, sys
with open(sys.argv[1]) as file:
    tree = json.load(file)
with open(sys.argv[2], "w") as file:
    json.dump(tree, file, separators=(",", ":"))'

roll_back() { # COUNT ROUND: seconds and peak of one rollback, on a table of its own
    local table="$work/table-$1-$2" first
    first="$(python3 bench/rollback_table.py "$table" "$1")"
    python3 bench/measured.py "$program" "CALL c.system.rollback_to_snapshot(table => '$table', snapshot_id => $first)" || exit 1
    [ -f "$table/metadata/v2.metadata.json" ] || { echo "bench/rollback.sh: no version 2 in $table" >&2; exit 1; }
    [ "$2" = 1 ] || rm -rf "$table"
}

# not a wrapper that looks for it first
python="$(python3 -c 'import sys; print(sys.executable)')"

reread() { # COUNT: seconds and peak of Python's json, on the file of the first table of this size
    python3 bench/measured.py "$python" -c "$again" "$work/table-$1-1/metadata/v1.metadata.json" "$work/again.json" || exit 1
}

# the least of the first numbers and the greatest of the second ones
best() { awk 'NR == 1 || $1 < least { least = $1 } $2 > most { most = $2 } END { print least, most }'; }

line='%9s %12s %9s %9s %7s %11s %11s %11s\n'
printf "$line" "" "" seconds "" "" "peak MB" "" ""
printf "$line" snapshots bytes upkeep python ratio upkeep python "peak/bytes"
[ "$#" -gt 0 ] || set -- 1000 10000 20000 100000
for count in "$@"; do
    ours="$(for round in 1 2 3; do roll_back "$count" "$round"; done)"
    theirs="$(for _ in 1 2 3; do reread "$count"; done)"
    bytes="$(wc -c <"$work/table-$count-1/metadata/v1.metadata.json")"
    rm -rf "$work/table-$count-1"
    read -r seconds peak <<<"$(best <<<"$ours")"
    read -r their_seconds their_peak <<<"$(best <<<"$theirs")"
    # a kilobyte of the system's count is 1,024 bytes, a megabyte here 1,000,000
    read -r ratio peak_mb their_mb times <<<"$(
        awk '{ printf "%.2f %.0f %.0f %.1f", $1 / $2, $3 * 1.024 / 1000, $4 * 1.024 / 1000, $3 * 1024 / $5 }' \
            <<<"$seconds $their_seconds $peak $their_peak $bytes"
    )"
    printf "$line" "$count" "$bytes" "$seconds" "$their_seconds" "$ratio" "$peak_mb" "$their_mb" "$times"
done
