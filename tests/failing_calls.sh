#!/usr/bin/env bash
# Has each system call of a run of two statements fail in turn, in several ways, and compares what is left with
# docs/STATUSES.md; then runs on tables and streams in which calls fail by themselves. tests/failing_calls.py says more.
#
# About 15 seconds on four processors. Programs are followed by ptrace (tests/tracer.py), so no other tool is needed; where
# `strace` is installed, what is seen of a run is first held against what it tells. What this machine doesn't let be tried
# is said. It ends with 1 where something differs. PROGRAM is that of ./demo where it is left out.
set -eu
cd "$(dirname "$0")/.."
program="$(realpath -m "${1:-crates/upkeep/out/upkeep}")"
[ -x "$program" ] || { echo "tests/failing_calls.sh: build the program first, by ./demo" >&2; exit 1; }
work="$(cd "$(mktemp -d)" && pwd -P)"
trap 'rm -rf "$work"' EXIT

if command -v strace >/dev/null; then
    mkdir -p "$work/seen/metadata"
    sed "s|\"/w/t|\"$work/seen|g" data/three_snapshots/metadata/v3.metadata.json >"$work/seen/metadata/v3.metadata.json"
    python3 tests/tracer.py "$program" "CALL c.system.ancestors_of('$work/seen')"
else
    echo "strace isn't installed, so what is seen of a run isn't held against what it tells"
fi
python3 tests/failing_calls.py "$program" "$work"
