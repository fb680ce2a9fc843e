#!/usr/bin/env bash
# Puts one fault of each kind into a copy of the tree, and looks whether .ci/checks finds each of them.
set -eu
cd "$(dirname "$0")/.."
work="$(mktemp -d)"
trap 'rm -rf "$work"' EXIT
git ls-files -coz --exclude-standard | tar -c --null --files-from=- --ignore-failed-read | tar -x -C "$work"
git -C "$work" init -q

python3 - "$work" <<'PYTHON'
import pathlib
import subprocess
import sys

top = pathlib.Path(sys.argv[1])
STORE = "crates/ice_store"


def findings():
    ran = subprocess.run([top / ".ci/checks", top], capture_output=True, text=True)
    lines = ran.stdout.splitlines()[:-1]
    if ran.stderr or ran.returncode != (1 if lines else 0):
        sys.exit(f"the checks ended with {ran.returncode}: {ran.stderr}")
    return set(lines)


def add(name, text):
    file = top / name
    file.parent.mkdir(parents=True, exist_ok=True)
    file.write_text((file.read_text() if file.exists() else "") + text)


def function(name, clauses="", lines=0, public=""):
    return f"\n{public}fn {name}()\n{clauses}{{\n" + "    // a line\n" * lines + "}\n"


before = findings()
row = "\n# `ice_store`\n\n| Call | Needs | Promises | In words |\n|---|---|---|---|\n"
# for each fault: the file, what is added to it, and what a finding there has to say
faults = [
    (f"{STORE}/src/text.rt", function("wordy", "    ensures { " + "so " * 70 + "}\n"), "wordy, ensures: 2"),
    (f"{STORE}/src/text.rt", function("lengthy", lines=99), "lengthy has 99 lines"),
    (f"{STORE}/src/many.rt", "".join(function(f"one_{n}") for n in range(101)), None),
    (f"{STORE}/src", "", "functions outside tests"),
    *((f"{STORE}/must-fail/wrong_{n}.edit", "file: src/text.rt\nold: a\nnew: b\n", None) for n in range(11)),
    (f"{STORE}/must-fail", "", "wrong programs"),
    ("bench/endless.py", "# a line\n" * 801, "801 lines"),
    ("README.md", "word " * 1201, "words, and it has 1200 at most"),
    (f"{STORE}/specs/Places.antt", "\nabbrev pub wordless : ℕ\nwordless = 0\n", "no line in words above wordless"),
    (f"{STORE}/src/lib.rt", "\nghost use Rattle.ice_store.specs.Places.{wordless};\n", None),
    (f"{STORE}/src/lib.rt", function("a_law", "    ensures told { wordless }\n", public="pub "), "a_law cites wordless"),
    (f"{STORE}/src/lib.rt", "", "a_law has no row"),
    ("docs/DEFINITIONS.md", "\n| `imagined` | nothing | `ice_store/specs/Places` |\n", "has no definition imagined"),
    ("docs/DEFINITIONS.md", "\nIt stands in `ice_store/specs/Nowhere`.\n", "there is no file ice_store/specs/Nowhere"),
    ("docs/DEFINITIONS.md", "\n**Nothing** (`Invented`). It stands nowhere.\n", "there is no Invented"),
    (f"{STORE}/src/lib.rt", function("told_law", "    ensures first { 0 ≡ 0 }\n", public="pub "), None),
    ("docs/PROMISES.md", row + "| `told_law` | | `second` | |\n", "no clause ensures second"),
    ("docs/PROMISES.md", "", "a clause ensures first, which isn't told"),
    ("docs/PROMISES.md", "| `no_call` | | `first` | |\n", "no public call no_call"),
    ("docs/PROMISES.md", "\n| Clause of `told_law` | What it says |\n|---|---|\n| `third` | |\n", "have no clause third"),
    ("docs/PROMISES.md", "\n## What is only tested\n\n`no_test` (`ice_store`)\n\n## Last\n", "ice_store has no test no_test"),
    ("crates/stray/src/lib.rt", "mod nothing;\n", None),
    ("crates.txt", "", "stray is missing"),
    ("crates/odd_one/src/lib.rt", "mod nothing;\n", None),
    ("crates.txt", "\n# avro: again\nodd_one: avro_odd\navro_odd:\nupkeep:\n", "odd_one stands under the family avro"),
    ("crates.txt", "", "there is no crate avro_odd"),
    ("crates.txt", "", "upkeep stands at line"),
    ("crates/avro_late/src/lib.rt", "mod nothing;\n", None),
    ("crates.txt", "avro_early: avro_late\navro_late:\n", "avro_early uses avro_late, which stands below it"),
    ("docs/STATUSES.md", "\nAs " + "D" + "7 says.\n", "cites D" + "7"),
    ("docs/STATUSES.md", "\nAs " + ".." + "/shared says.\n", "cites .." + "/shared"),
    ("docs/STATUSES.md", "\n[there](NOWHERE.md) and [here](#no-such-heading)\n", "NOWHERE.md leads nowhere"),
    ("docs/STATUSES.md", "", "#no-such-heading leads to no heading"),
    ("docs/STATUSES.md", "\nRun `tests/nothing.sh`.\n", "there is no tests/nothing.sh"),
    ("tests/manifests/broken.json", "\n", "isn't what the script makes"),
    ("docs/STATUSES.md", "\nSee `ice_store/src/nothing.rt`.\n", "there is no crates/ice_store/src/nothing.rt"),
]
for name, text, _ in faults:
    if text:
        add(name, text)
found = findings() - before
wanted = [(name, what) for name, _, what in faults if what]
missed = [(name, what) for name, what in wanted if not any(line.startswith(f"{name}:") and what in line for line in found)]
for name, what in missed:
    print(f"not found: {name}: {what}", file=sys.stderr)
print(f"put {len(wanted)} faults into a copy of the tree, {len(wanted) - len(missed)} found")
sys.exit(1 if missed else 0)
PYTHON
