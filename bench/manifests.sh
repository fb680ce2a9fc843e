#!/usr/bin/env bash
# The reading of a manifest of many entries, each with six maps of ten columns, and of a manifest list, beside the Avro C
# library decoding the same file into its values in the same run. ENTRIES (100,000), ROWS (10,000) and ROUNDS (3) may be
# set. Seconds are those of one reading, the best of three runs, by processor time, and take the reading of the file with
# them; memory is the peak of a process that reads once, by the file's bytes.
set -eu
here=$(cd "$(dirname "$0")" && pwd)
entries=${ENTRIES:-100000}
rows=${ROWS:-10000}
rounds=${ROUNDS:-3}
work=$(mktemp -d)
trap 'rm -rf "$work"' EXIT

python3 "$here/manifest_rows.py" manifest "$work/half.avro" $((entries / 2))
python3 "$here/manifest_rows.py" manifest "$work/manifest.avro" "$entries"
python3 "$here/manifest_rows.py" list "$work/list.avro" "$rows"
ours=$here/../crates/manifest_bench/out/manifest_bench
(cd "$here/../crates/manifest_bench" && rt run -- list "$work/list.avro" 1) >"$work/log" 2>&1 || { cat "$work/log"; exit 1; }

date -u '+%Y-%m-%d %H:%M UTC'
echo "processor: $(sed -n 's/^model name[^:]*: //p' /proc/cpuinfo | head -1), $(nproc) of them; load $(cut -d' ' -f1-3 /proc/loadavg)"

peer=$work/avro_peer
if ! cc -O2 -o "$peer" "$here/avro_peer.c" -lavro 2>"$work/log"; then
    echo "the Avro C library is not here (Debian: libavro-dev), so there is no peer"
    peer=
fi

# The processor time of a reading in microseconds, the best of three runs of so many readings: COMMAND ..
spent() {
    local least=0 now
    TIMEFORMAT='%U %S'
    for _ in 1 2 3; do
        { time "$@" "$rounds" >"$work/out"; } 2>"$work/time"
        now=$(awk -v n="$rounds" '{printf "%d", ($1 + $2) * 1000000 / n}' "$work/time")
        if [ "$least" -eq 0 ] || [ "$now" -lt "$least" ]; then least=$now; fi
    done
    echo "$least"
}

printf '%-24s %12s %10s %10s %6s %12s\n' what bytes ours C times "memory/bytes"
for what in "list list" "manifest half" "manifest manifest"; do
    read -r mode name <<<"$what"
    file=$work/$name.avro
    size=$(stat -c %s "$file")
    a=$(spent "$ours" "$mode" "$file")
    if [ -n "$peer" ]; then b=$(spent "$peer" decode "$file"); else b=0; fi
    peak=$(python3 "$here/measured.py" "$ours" "$mode" "$file" 1 | cut -d' ' -f2)
    awk -v what="$mode of $(tail -n 1 "$work/out" | cut -d' ' -f1)" -v a="$a" -v b="$b" -v size="$size" -v peak="$peak" 'BEGIN {
        printf "%-24s %12d %10.3f ", what, size, a / 1000000
        if (b) printf "%10.3f %6.2f ", b / 1000000, a / b; else printf "%10s %6s ", "-", "-"
        printf "%12.1f\n", peak * 1024 / size
    }'
done
