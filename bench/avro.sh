#!/usr/bin/env bash
# Rows a second of decoding, of skipping, and of decoding and encoding a container of Avro rows, beside the Avro C library
# on the same file in the same run. ROWS (1,000,000) and ROUNDS (5) may be set. Times are processor time, the best of three,
# and take the reading of the file with them. Where valgrind is installed, the instructions of a row follow, which a busy
# machine doesn't change.
set -eu
here=$(cd "$(dirname "$0")" && pwd)
rows=${ROWS:-1000000}
rounds=${ROUNDS:-5}
work=$(mktemp -d)
trap 'rm -rf "$work"' EXIT

python3 "$here/avro_rows.py" "$work/rows.avro" "$rows"
ours=$here/../crates/avro_bench/out/avro_bench
(cd "$here/../crates/avro_bench" && rt run -- decode "$work/rows.avro" 1) >"$work/log" 2>&1 || { cat "$work/log"; exit 1; }

date -u '+%Y-%m-%d %H:%M UTC'
echo "processor: $(sed -n 's/^model name[^:]*: //p' /proc/cpuinfo | head -1), $(nproc) of them; load $(cut -d' ' -f1-3 /proc/loadavg)"
echo "$rows rows in $(stat -c %s "$work/rows.avro") bytes, $rounds rounds"

peer=$work/avro_peer
if cc -O2 -o "$peer" "$here/avro_peer.c" -lavro 2>"$work/log"; then
    echo "the Avro C library: $(pkg-config --modversion avro-c 2>/dev/null || echo 'of an unknown version')"
else
    echo "the Avro C library is not here (Debian: libavro-dev), so there is no peer"
    peer=
fi

# The processor time of one run, in microseconds.
spent() {
    TIMEFORMAT='%U %S'
    { time "$@" >"$work/out"; } 2>"$work/time"
    awk '{printf "%d", ($1 + $2) * 1000000}' "$work/time"
}

best() {
    local least=0 now
    for _ in 1 2 3; do
        now=$(spent "$@")
        if [ "$least" -eq 0 ] || [ "$now" -lt "$least" ]; then least=$now; fi
    done
    echo "$least"
}

printf '%-8s %14s %14s %8s\n' what "ours, rows/s" "C, rows/s" times
for mode in decode skip recode; do
    a=$(best "$ours" "$mode" "$work/rows.avro" "$rounds" "$work/ours.avro")
    if [ -n "$peer" ]; then
        b=$(best "$peer" "$mode" "$work/rows.avro" "$rounds" "$work/peer.avro")
    else
        b=0
    fi
    awk -v what="$mode" -v a="$a" -v b="$b" -v n="$((rows * rounds))" 'BEGIN {
        printf "%-8s %14d ", what, n * 1000000 / a
        if (b) printf "%14d %8.1f\n", n * 1000000 / b, b / a; else printf "%14s %8s\n", "-", "-"
    }'
done

command -v valgrind >/dev/null || { echo "valgrind is not here, so no instructions are counted"; exit 0; }
few=20000
python3 "$here/avro_rows.py" "$work/few.avro" "$few"

# The instructions of a run over the file of few rows, in so many rounds: PROGRAM MODE ROUNDS.
counted() {
    valgrind --tool=callgrind --callgrind-out-file=/dev/null "$1" "$2" "$work/few.avro" "$3" "$work/few.out" 2>&1 |
        awk '/Collected/ {print $NF}'
}

# Those of one row: a second round's, without the start of the program.
each() {
    echo $((($(counted "$1" "$2" 2) - $(counted "$1" "$2" 1)) / few))
}

printf '%-8s %14s %14s %8s\n' what "ours, instr." "C, instr." times
for mode in decode skip recode; do
    a=$(each "$ours" "$mode")
    if [ -n "$peer" ]; then b=$(each "$peer" "$mode"); else b=0; fi
    awk -v what="$mode" -v a="$a" -v b="$b" 'BEGIN {
        printf "%-8s %14d ", what, a
        if (b) printf "%14d %8.1f\n", b, b / a; else printf "%14s %8s\n", "-", "-"
    }'
done
