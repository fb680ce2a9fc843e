"""The small table that the scripts of this folder work on, and what a run of statements leaves of it."""
import json
import os
import pathlib
import re
import shutil
import subprocess

TOP = pathlib.Path(__file__).resolve().parent.parent
SOURCE = TOP / "data/three_snapshots"
LOCK = ".upkeep.lock"
VERSION = re.compile(r"v([1-9][0-9]*)[.]metadata[.]json")
DRAFT = re.compile(r"[0-9a-f]{8}(-[0-9a-f]{4}){3}-[0-9a-f]{12}[.]metadata[.]json")
# a moment of now in milliseconds; those of the table's own snapshots are less
NOW_MS = 10**12


def make_table(folder):
    """A fresh copy of the table. Its last version is 3; of its snapshots 11, 22 and 33 each is the next one's parent."""
    shutil.copytree(SOURCE / "metadata", folder / "metadata")
    file = folder / "metadata/v3.metadata.json"
    file.write_text(file.read_text().replace('"/w/t', f'"{folder}'))
    return folder


def files_of(folder):
    """What lies below a folder: by its path from there a file's bytes, or a word on what else it is."""
    found = {}
    for path in sorted(folder.rglob("*")):
        name = str(path.relative_to(folder))
        if path.is_symlink():
            found[name] = f"link to {os.readlink(path)}"
        elif path.is_file():
            found[name] = path.read_bytes()
        else:
            found[name] = "folder" if path.is_dir() else "special file"
    return found


def versions_of(files):
    """The version files among files, by their numbers."""
    found = {}
    for name, data in files.items():
        match = VERSION.fullmatch(os.path.basename(name))
        if match and os.path.dirname(name) == "metadata" and isinstance(data, bytes):
            found[int(match[1])] = data
    return found


def last_version(files):
    return max(versions_of(files), default=0)


def is_now(it):
    return isinstance(it, int) and it > NOW_MS


def without_moments(data, folder):
    """What metadata says, but for the moments of a run and the table's own place. None where it isn't whole JSON."""
    def strip(tree):
        if isinstance(tree, dict):
            return {key: "now" if key.endswith("-ms") and is_now(it) else strip(it) for key, it in tree.items()}
        return [strip(it) for it in tree] if isinstance(tree, list) else tree

    try:
        return strip(json.loads(data.decode().replace(str(folder), "/w/t")))
    except ValueError:
        return None


def statements(folder, calls):
    """The words of the command line: each call has {T} where the table's place goes."""
    return [call.replace("{T}", str(folder)) for call in calls]


def listed(program, folder):
    """What the program says of the table's current snapshot and its ancestors."""
    word = f"CALL c.system.ancestors_of('{folder}')"
    ran = subprocess.run([program, word], capture_output=True, timeout=60)
    return ran.returncode, ran.stdout.decode(), ran.stderr.decode()


def statuses():
    """The statuses of docs/STATUSES.md by their names: each with its number and its message, or the first of several."""
    found, number = {}, None
    for line in (TOP / "docs/STATUSES.md").read_text().splitlines():
        if line.startswith("#"):
            # the heading of statuses of one number, or another one
            heading = re.match(r"## ([0-9]+):", line)
            number = int(heading[1]) if heading else None
        row = re.match(r"[|] (?:([0-9]+) [|] )?([A-Z]\w+) [|] `([^`]+)`", line)
        if row and (row[1] or number is not None):
            found.setdefault(row[2], (int(row[1] or number), row[3]))
    return found
