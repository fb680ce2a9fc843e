#!/usr/bin/env bash
# Avro's own Python library and this repository read each other's containers: the library writes rows of many types, the
# program avro_bench reads them and writes them again, and the library finds the same rows in both files.
set -eu
here=$(cd "$(dirname "$0")" && pwd)
work=$(mktemp -d)
trap 'rm -rf "$work"' EXIT

python=
for it in python3 /usr/bin/python3; do
    if "$it" -c 'import avro.datafile' 2>/dev/null; then python=$it; break; fi
done
if [ -z "$python" ]; then
    echo "Avro's Python library is not here (Debian: python3-avro), so nothing was compared"
    exit 0
fi

"$python" "$here/avro_peer.py" write "$work/theirs.avro"
(cd "$here/../crates/avro_bench" && rt run -- recode "$work/theirs.avro" 1 "$work/ours.avro") >"$work/log" 2>&1 || { cat "$work/log"; exit 1; }
"$python" "$here/avro_peer.py" same "$work/theirs.avro" "$work/ours.avro"
