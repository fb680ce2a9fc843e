#!/usr/bin/env bash
# Avro's own Python and C libraries read the manifests and manifest lists of tests/manifests, entry by entry, and find the
# values that were put in.
set -eu
here=$(cd "$(dirname "$0")" && pwd)
work=$(mktemp -d)
trap 'rm -rf "$work"' EXIT

python=python3
/usr/bin/python3 -c 'import avro.datafile' 2>/dev/null && python=/usr/bin/python3
"$python" "$here/../tests/manifest_files.py"
if cc -O2 -o "$work/manifest_peer" "$here/manifest_peer.c" -lavro 2>"$work/log"; then
    "$python" "$here/manifest_peer.py" "$work/manifest_peer"
else
    echo "the Avro C library is not here (Debian: libavro-dev), so it has read none"
fi
