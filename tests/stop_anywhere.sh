#!/usr/bin/env bash
# Stops the program at many moments of a rollback, and looks at what each stop left: ROUNDS (60 where it is left out).
#
# Each round writes a table of 2,000 snapshots into a fresh folder, starts the rollback to the first of them, and kills
# that one process after a delay that grows from round to round, up to somewhat more than a whole run. Afterwards the old
# version file must be as it was, and the last version the old one or the new one, which must be whole JSON with the
# first snapshot as the current one and as that of `main`. It ends after the rounds, or after 120 seconds; with 1 where a
# table is broken, or where no round was stopped before its end. A killed process loses none of the system's caches, so
# this shows what lies between the program's calls, and not what a loss of power leaves.
set -eu
cd "$(dirname "$0")/.."
program="$PWD/crates/upkeep/out/upkeep"
[ -x "$program" ] || { echo "tests/stop_anywhere.sh: build the program first, by ./demo" >&2; exit 1; }
work="$(cd "$(mktemp -d)" && pwd -P)"
trap 'rm -rf "$work"' EXIT

python3 - "$program" "$work" "${1:-60}" <<'PYTHON'
import json
import pathlib
import re
import shutil
import signal
import subprocess
import sys
import time

program, work, rounds = sys.argv[1], pathlib.Path(sys.argv[2]), int(sys.argv[3])
SNAPSHOTS = 2000
SECONDS = 120

made = subprocess.run([sys.executable, "bench/rollback_table.py", str(work / "made"), str(SNAPSHOTS)], check=True, stdout=subprocess.PIPE)
first, last_id = int(made.stdout), int(made.stdout) + SNAPSHOTS - 1
text = (work / "made/metadata/v1.metadata.json").read_text()


def make_table(name):
    table = work / name
    (table / "metadata").mkdir(parents=True)
    (table / "metadata/v1.metadata.json").write_text(text.replace(str(work / "made"), str(table)))
    return table


def start(table):
    word = f"CALL c.system.rollback_to_snapshot(table => '{table}', snapshot_id => {first})"
    return subprocess.Popen([program, word], stdout=subprocess.DEVNULL, stderr=subprocess.DEVNULL)


def last_version(table):
    """The last version of the table, where it is whole."""
    folder = table / "metadata"
    assert (folder / "v1.metadata.json").read_text() == text.replace(str(work / "made"), str(table)), "version 1 has changed"
    names = [re.fullmatch(r"v([1-9][0-9]*)[.]metadata[.]json", file.name) for file in folder.iterdir()]
    last = max(int(name[1]) for name in names if name)
    assert last in (1, 2), f"the last version is {last}"
    tree = json.loads((folder / f"v{last}.metadata.json").read_bytes())
    want = {1: last_id, 2: first}[last]
    assert tree["current-snapshot-id"] == want, "another current snapshot"
    assert tree["refs"]["main"]["snapshot-id"] == want, "main is at another snapshot"
    assert len(tree["snapshots"]) == SNAPSHOTS, "snapshots are missing"
    return last


def whole_run(number):
    began = time.monotonic()
    status = start(make_table(f"whole-{number}")).wait()
    assert status == 0, f"a whole run ended with {status}"
    return time.monotonic() - began


whole = sorted(whole_run(number) for number in range(3))[1]
old = new = killed = bad = done = 0
began = time.monotonic()
while done < rounds and time.monotonic() - began < SECONDS:
    table = make_table(f"round-{done}")
    delay = 1.2 * whole * done / max(rounds - 1, 1)
    process = start(table)
    time.sleep(delay)
    process.send_signal(signal.SIGKILL)
    status = process.wait()
    killed += status == -signal.SIGKILL
    try:
        last = last_version(table)
        # a run that ended by itself has published
        assert status != 0 or last == 2, "it ended with status 0 and published nothing"
        old, new = old + (last == 1), new + (last == 2)
    except (AssertionError, ValueError, KeyError) as e:
        print(f"round {done + 1}: the table is broken: {e}", file=sys.stderr)
        bad += 1
    shutil.rmtree(table)
    done += 1
print(f"rounds {done}, killed {killed}, old version {old}, new version {new}, bad {bad} (one whole run: {whole:.3f} s)")
if killed == 0:
    print("no round was stopped before its end", file=sys.stderr)
sys.exit(1 if bad or killed == 0 else 0)
PYTHON
