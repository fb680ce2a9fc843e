#!/usr/bin/env bash
# Runs the examples of docs/STATEMENTS.md with the built program, and compares what it prints with what they show.
#
# Each block of kind "console" begins with a fresh copy of data/three_snapshots that has a branch `audit` on the snapshot
# 33; its folder stands in the place of /w/t. A line "$ upkeep .." is run, and the lines behind it are what it is to print,
# the report and then the message. "$ echo $?" shows its exit status. It ends with 1 where something differs.
set -eu
cd "$(dirname "$0")/.."
program="$PWD/crates/upkeep/out/upkeep"
[ -x "$program" ] || { echo "tests/examples.sh: build the program first, by ./demo" >&2; exit 1; }
work="$(cd "$(mktemp -d)" && pwd -P)"
trap 'rm -rf "$work"' EXIT

python3 - "$program" "$work" <<'PYTHON'
import pathlib
import re
import shlex
import subprocess
import sys

program, work = sys.argv[1], pathlib.Path(sys.argv[2])
SOURCE = pathlib.Path("data/three_snapshots/metadata")
AUDIT = '"refs":{"audit":{"snapshot-id":33,"type":"branch"},'


def make_table(number):
    table = work / f"table-{number}"
    metadata = table / "metadata"
    metadata.mkdir(parents=True)
    for file in SOURCE.glob("*.avro"):
        (metadata / file.name).write_bytes(file.read_bytes())
    text = (SOURCE / "v3.metadata.json").read_text()
    text = text.replace('"/w/t', f'"{table}').replace('"refs":{', AUDIT)
    (metadata / "v3.metadata.json").write_text(text)
    return str(table)


def commands(block):
    """The commands of a block, each with the lines that stand behind it."""
    found = []
    for line in block.splitlines(keepends=True):
        if line.startswith("$ "):
            found.append([line[2:].strip(), ""])
        else:
            found[-1][1] += line
    return found


def answer(command, table, status):
    """What a command prints, and the status that stands then."""
    if command == "echo $?":
        return f"{status}\n", status
    words = [word.replace("'/w/t'", f"'{table}'") for word in shlex.split(command)[1:]]
    ran = subprocess.run([program, *words], capture_output=True, text=True, timeout=60)
    return (ran.stdout + ran.stderr).replace(table, "/w/t"), ran.returncode


blocks = re.findall(r"^```console\n(.*?)^```$", pathlib.Path("docs/STATEMENTS.md").read_text(), re.M | re.S)
count, differences = 0, 0
for number, block in enumerate(blocks):
    table, status = make_table(number), None
    for command, want in commands(block):
        got, status = answer(command, table, status)
        count += command.startswith("upkeep ")
        if got != want:
            differences += 1
            print(f"$ {command}\nis to print\n{want}and prints\n{got}", file=sys.stderr)
print(f"ran {count} examples of docs/STATEMENTS.md, {differences} differences")
sys.exit(1 if differences or not count else 0)
PYTHON
