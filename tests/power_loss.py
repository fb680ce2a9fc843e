#!/usr/bin/env python3
"""Makes each state that a loss of power may leave of a real run, and opens the table in each.

    tests/power_loss.py [--program FILE] [STATEMENT ..]

The system calls of a run are recorded as they are made (tests/tracer.py). After each of them the power may go. What the
disk then has is made by these rules:

- A name that was created, renamed or removed in a folder is durable once that folder is synced. Of the changes that no
  sync of their folder followed each one is there or not, on its own; a renamed file stands under one of its two names.
- A file's bytes are durable once the file itself is synced behind its last write. Without that it has none of them, half
  of them, rubbish, or all.

In each state the last version has to be one that was acknowledged, by a report or by the program's end, or a later one of
this run; it has to be whole and have the bytes that the run gave it, no version may lack below it, and the program has to
open it. The same run read as if no file, or no folder, had ever been synced has to fail, else the test shows nothing.

Each STATEMENT has {T} where the place of the table goes, which is data/three_snapshots. Without any the lists below are
run. It ends with 1 where something is wrong.
"""
import argparse
import errno
import fcntl
import hashlib
import itertools
import json
import os
import pathlib
import shutil
import sys
import tempfile

sys.dont_write_bytecode = True

import reach  # noqa: E402
import tables  # noqa: E402
import tracer  # noqa: E402

TOP = pathlib.Path(__file__).resolve().parent.parent
STDOUT = 1
AT_FDCWD = -100
# with more subsets than this at one cut, or more contents, a part of them stands for all
MOST_SUBSETS = 4096

HARMLESS = set(
    "read pread64 readv preadv lseek stat fstat lstat newfstatat statx access faccessat faccessat2 getdents getdents64"
    " getcwd readlink readlinkat flock brk mprotect munmap mremap madvise rt_sigaction rt_sigprocmask sigaltstack ioctl"
    " getrandom poll clock_gettime nanosleep clock_nanosleep sched_yield futex prlimit64 rseq exit exit_group close dup"
    " dup2 dup3".split()
)
OPENS = {"open": (0, 1), "creat": (0, None), "openat": (1, 2)}
WRITES = {"write", "pwrite64", "writev", "pwritev", "ftruncate", "fallocate", "sendfile"}
SYNCS = {"fsync", "fdatasync"}
# where the paths of a call stand, and the descriptors that they begin at
RENAMES = {"rename": (None, 0, None, 1), "renameat": (0, 1, 2, 3), "renameat2": (0, 1, 2, 3)}
LINKS = {"link": (None, 0, None, 1), "linkat": (0, 1, 2, 3)}
REMOVES = {"unlink": (None, 0), "rmdir": (None, 0), "unlinkat": (0, 1)}
MAKES = {"mkdir": (None, 0), "mkdirat": (0, 1)}
SHARED, WRITABLE = 1, 2


class NoRule(Exception):
    """The disk's rules don't tell of this call."""


class Link(str):
    """What a symbolic link names."""


class File:
    """A file, or a folder where `data` is None, or a link: what it has now, and whether all of that is durable."""

    def __init__(self, data, is_durable):
        self.data, self.is_durable = data, is_durable


class Change:
    """A change of names, and the folders that have to be synced before it is durable."""

    def __init__(self, what, file, *paths):
        self.what, self.file, self.paths = what, file, paths
        self.folders = {os.path.dirname(path) for path in paths}

    def make(self, names):
        if self.what == "remove":
            names.pop(self.paths[0], None)
            return
        if self.what == "rename" and names.get(self.paths[0]) is self.file:
            del names[self.paths[0]]
        names[self.paths[-1]] = self.file


def data_of(path):
    if path.is_symlink():
        return Link(os.readlink(path))
    return path.read_bytes() if path.is_file() else None


class Disk:
    """What the program sees of a folder, and what of that is durable."""

    def __init__(self, top, without=()):
        self.top, self.without = str(top), without
        self.names = {}
        for path in [top, *top.rglob("*")]:
            self.names[str(path)] = File(data_of(path), True)
        self.durable = dict(self.names)
        self.pending = []

    def has(self, path):
        return path == self.top or path.startswith(self.top + "/")

    def change(self, change):
        change.make(self.names)
        self.pending.append(change)

    def sync(self, path):
        """A sync of what stands at a path."""
        file = self.names.get(path)
        if file is None:
            return
        if file.data is not None:
            file.is_durable = file.is_durable or "files" not in self.without
            return
        if "folders" in self.without:
            return
        for change in self.pending:
            change.folders.discard(path)
            if not change.folders:
                change.make(self.durable)
        self.pending = [change for change in self.pending if change.folders]

    def subsets(self):
        """The subsets of the pending changes, and whether these are all."""
        count = len(self.pending)
        if 2**count <= MOST_SUBSETS:
            return itertools.product((False, True), repeat=count), True
        few = [range(0), *((at,) for at in range(count))]
        few += [range(at) for at in range(count)] + [range(at, count) for at in range(count)]
        few = [[at in those for at in range(count)] for those in few]
        return few + [[not it for it in those] for those in few], False

    def states(self):
        """Each map from paths to bytes (None: a folder) that the disk may have now, and whether these are all."""
        subsets, is_all = self.subsets()
        dirty = sum(not file.is_durable for file in {id(it): it for it in self.names.values()}.values())
        is_all = is_all and 4**dirty <= MOST_SUBSETS
        return itertools.chain.from_iterable(self.states_of(taken, is_all) for taken in subsets), is_all

    def states_of(self, taken, is_all):
        names = dict(self.durable)
        for change, is_taken in zip(self.pending, taken):
            if is_taken:
                change.make(names)
        # a name stands only where the folders above it do
        names = {path: file for path, file in names.items() if path == self.top or os.path.dirname(path) in names}
        paths = sorted(names)
        choices = [contents_of(names[path]) for path in paths]
        for contents in itertools.product(*choices) if is_all else some_of(choices):
            yield dict(zip(paths, contents))


def some_of(choices):
    """The last choices, which are those with all bytes, and these with one of them changed, or with all."""
    whole = [it[-1] for it in choices]
    yield whole
    for at, others in enumerate(choices):
        yield from ([*whole[:at], other, *whole[at + 1 :]] for other in others[:-1])
    yield from ([it[min(at, len(it) - 1)] for it in choices] for at in range(3))


def contents_of(file):
    """What a file may have after a loss of power."""
    if file.is_durable:
        return [file.data]
    rubbish = hashlib.shake_128(file.data).digest(len(file.data) or 16)
    return list(dict.fromkeys([b"", file.data[: len(file.data) // 2], rubbish, file.data]))


class Recorder:
    """Tells a disk of each system call of a program, and keeps what each cut may leave."""

    def __init__(self, disk, first, acknowledged):
        self.disk, self.acknowledged = disk, acknowledged
        self.versions = {number: disk.names[f"{disk.top}/metadata/v{number}.metadata.json"] for number in first}
        self.calls = 0
        self.states, self.is_all = {}, True
        self.entry = None

    def path(self, call, folder, place):
        """The path that stands at a place of a call's arguments, its folders without links."""
        text = os.fsdecode(call.text(call.args[place]))
        number = AT_FDCWD if folder is None else call.args[folder] & 0xFFFFFFFF
        is_here = number in (AT_FDCWD, AT_FDCWD & 0xFFFFFFFF)
        base = os.readlink(f"/proc/{call.pid}/cwd" if is_here else f"/proc/{call.pid}/fd/{number}")
        whole = os.path.normpath(os.path.join(base, text))
        return os.path.join(os.path.realpath(os.path.dirname(whole)), os.path.basename(whole))

    def opened(self, call):
        """The path of the file that a call's first argument, a descriptor, has open."""
        return os.readlink(f"/proc/{call.pid}/fd/{call.args[0]}")

    def before(self, call):
        """Looks at what a call's paths mean before it is made."""
        name, self.entry = call.name, None
        if name in OPENS:
            folder = 0 if name == "openat" else None
            path = self.path(call, folder, OPENS[name][0])
            self.entry = (path, os.path.lexists(path))
        elif name in RENAMES or name in LINKS:
            a, b, c, d = {**RENAMES, **LINKS}[name]
            self.entry = (self.path(call, a, b), self.path(call, c, d))
        elif name in REMOVES or name in MAKES:
            self.entry = (self.path(call, *{**REMOVES, **MAKES}[name]),)
        elif name in WRITES or name in SYNCS:
            self.entry = (self.opened(call),)
        elif name == "mmap" and call.args[3] & SHARED and call.args[2] & WRITABLE and call.args[4] < 1 << 31:
            raise NoRule("mmap of a file, shared and writable")
        elif name not in HARMLESS | {"mmap", "fcntl"}:
            raise NoRule(name)

    def after(self, call):
        """Makes the call's change to the disk, and keeps the states of a cut behind it."""
        self.calls += 1
        if call.result >= 0 and self.entry and any(self.disk.has(it) for it in self.entry if isinstance(it, str)):
            self.make(call)
        if call.name in ("write", "writev") and call.args[0] == STDOUT and call.result > 0:
            self.acknowledge()
        self.cut()

    def make(self, call):
        name, disk, path = call.name, self.disk, self.entry[0]
        if name in OPENS:
            if not self.entry[1] and os.path.lexists(path):
                disk.change(Change("create", File(b"", False), path))
                self.note_version(path)
            elif path in disk.names and isinstance(disk.names[path].data, bytes):
                self.reread(path)
        elif name in WRITES:
            self.reread(path)
        elif name in SYNCS:
            disk.sync(path)
        elif name in RENAMES:
            disk.change(Change("rename", disk.names[path], *self.entry))
            self.note_version(self.entry[1])
        elif name in LINKS:
            disk.change(Change("link", disk.names[path], self.entry[1]))
            self.note_version(self.entry[1])
        elif name in REMOVES:
            disk.change(Change("remove", disk.names[path], path))
        elif name in MAKES:
            disk.change(Change("create", File(None, True), path))

    def reread(self, path):
        """Another length or other bytes of a file: it isn't durable any more."""
        file = self.disk.names[path]
        with open(path, "rb") as now:
            data = now.read()
        if data != file.data:
            file.data, file.is_durable = data, False

    def note_version(self, path):
        folder, name = os.path.split(path)
        match = tables.VERSION.fullmatch(name)
        if match and folder == f"{self.disk.top}/metadata":
            # one that is there may never be another one
            self.versions.setdefault(int(match[1]), self.disk.names[path])

    def acknowledge(self):
        """A report was put, or the run ended well: all versions that there are now have to stay."""
        self.acknowledged = max(self.versions)

    def cut(self):
        states, is_all = self.disk.states()
        self.is_all = self.is_all and is_all
        for state in states:
            key = tuple((path, data) for path, data in state.items())
            lowest, highest = self.states.get(key, (0, 1 << 64))
            # what has to hold of a state that may be left at several cuts is what has to hold at each of them
            self.states[key] = (max(lowest, self.acknowledged), min(highest, max(self.versions)))


# ---- what has to hold in a state


def chain_of(tree):
    """What `ancestors_of` lists of metadata: the current snapshot and its parents, as far as they are there."""
    found = {it["snapshot-id"]: it for it in tree["snapshots"]}
    lines, at = ["snapshot_id\ttimestamp\n"], found.get(tree.get("current-snapshot-id"))
    while at is not None:
        lines.append(f"{at['snapshot-id']}\t{at['timestamp-ms']}\n")
        at = found.get(at.get("parent-snapshot-id"))
    return "".join(lines)


def fault_of(program, table, state, bounds, versions, first):
    """What is wrong in a state, or None."""
    below = {os.path.relpath(path, table): data for path, data in state}
    found = tables.versions_of(below)
    last, (lowest, highest) = max(found, default=0), bounds
    if not lowest <= last <= highest:
        return f"the last version is {last}, and is to be from {lowest} to {highest}"
    for number in range(first, last + 1):
        if number not in versions or found.get(number) != versions[number].data:
            return f"version {number} {'has other bytes' if number in found else 'lacks'} where {last} is the last one"
    try:
        tree = json.loads(found[last])
    except ValueError:
        return f"version {last} isn't whole"
    fault = reach.fault_of(dict(state), tree)
    if fault:
        return f"version {last} isn't whole: {fault}"
    return fault_of_opening(program, table, state, chain_of(tree))


def fault_of_opening(program, table, state, chain):
    for it in table.iterdir():
        shutil.rmtree(it)
    # folders come before what they hold
    for path, data in sorted(state, key=lambda it: it[0]):
        if isinstance(data, Link):
            os.symlink(data, path)
        elif data is not None:
            pathlib.Path(path).write_bytes(data)
        elif path != str(table):
            os.mkdir(path)
    status, out, err = tables.listed(program, table)
    return None if (status, out) == (0, chain) else f"opened, it ends with {status} and tells {out!r}, {err!r}"


# ---- the runs


class Run:
    """A list of statements, the status that they end with, what is laid into the table's folder before, what of that
    isn't durable, and what is done before each system call."""

    def __init__(self, name, statements, status=None, lay=None, prepare=None, meanwhile=None):
        self.name, self.statements, self.status = name, statements, status
        self.lay, self.prepare, self.meanwhile = lay, prepare, meanwhile


def copied_version(folder):
    """A version 4, which another program made."""
    (folder / "v4.metadata.json").write_bytes((folder / "v3.metadata.json").read_bytes())


def linked_version(folder):
    """A link in the place of version 4: what it names may be gone after a loss of power, and no version is built on it."""
    copied_version(folder)
    os.rename(folder / "v4.metadata.json", folder.parent.parent / "elsewhere.json")
    (folder / "v4.metadata.json").symlink_to(folder.parent.parent / "elsewhere.json")


def killed_before(disk):
    """The last version's name was given by a program that was killed: nothing says that it is durable."""
    version = f"{disk.top}/metadata/v4.metadata.json"
    draft = f"{disk.top}/metadata/0b3bd6ab-3f4c-4f1c-8c1d-0d4b1b7f6a55.metadata.json"
    del disk.durable[version]
    disk.durable[draft] = disk.names[version]
    disk.pending.append(Change("rename", disk.names[version], draft, version))


def raced(recorder, call):
    """Another program publishes version 4 right before the lock is taken, and makes it durable."""
    lock = pathlib.Path(recorder.disk.top, "metadata", tables.LOCK)
    place = lock.with_name("v4.metadata.json")
    if call.name != "flock" or place.exists():
        return None
    with open(lock, "ab") as file:
        fcntl.flock(file, fcntl.LOCK_EX)
        data = lock.with_name("v3.metadata.json").read_bytes()
        place.write_bytes(data)
    disk = recorder.disk
    disk.names[str(place)] = disk.durable[str(place)] = File(data, True)
    # a sync of the folder by another program is one of all its names
    disk.sync(os.path.dirname(place)) if "folders" not in disk.without else None
    recorder.note_version(str(place))
    return None


def last_sync_fails(recorder, call):
    """No sync behind the rename is made."""
    return tracer.fail(errno.EIO) if call.name in SYNCS and 4 in recorder.versions else None


def few_bytes(recorder, call):
    """Each write takes 1,000 bytes at most."""
    return tracer.cut(min(call.args[2], 1000)) if call.name == "write" else None


BACK = ["CALL c.system.rollback_to_snapshot('{T}', 22)", "CALL c.system.rollback_to_snapshot('{T}', 11)"]
RUNS = [
    Run("two rollbacks", BACK, status=0),
    Run(
        "a set, a branch that goes forward, a listing",
        [
            "CALL c.system.set_current_snapshot('{T}', 11)",
            "CALL c.system.fast_forward('{T}', 'main', 'audit')",
            "CALL c.system.ancestors_of('{T}')",
        ],
        status=0,
    ),
    Run("a rollback, and one that is refused", [BACK[0], "CALL c.system.rollback_to_snapshot('{T}', 33)"], status=1),
    Run("behind a program that was killed at its rename", BACK, status=0, lay=copied_version, prepare=killed_before),
    Run("a link in the place of the next version", BACK[:1], status=6, lay=linked_version),
    Run("a race that is lost", BACK[:1], status=4, meanwhile=raced),
    Run("a rollback whose last sync fails", BACK[:1], status=6, meanwhile=last_sync_fails),
    Run("a rollback by small writes", BACK[:1], status=0, meanwhile=few_bytes),
]


def fresh_table(folder, lay):
    """The table with a branch `audit`."""
    table = tables.make_table(folder)
    file = table / "metadata/v3.metadata.json"
    file.write_text(file.read_text().replace('"refs":{', '"refs":{"audit":{"snapshot-id":33,"type":"branch"},'))
    if lay is not None:
        lay(file.parent)
    return table


def record(program, table, run, without):
    """The states that the cuts of a run may leave, and its status."""
    disk = Disk(table, without)
    versions = tables.versions_of(tables.files_of(table))
    recorder = Recorder(disk, versions, max(versions))
    if run.prepare is not None:
        run.prepare(disk)
        recorder.acknowledged = max(versions) - 1
    recorder.cut()

    def before(call):
        what = run.meanwhile(recorder, call) if run.meanwhile is not None else None
        recorder.before(call)
        return what

    words = tables.statements(table, run.statements)
    status, _, err = tracer.run([program, *words], before=before, after=recorder.after)
    if status == 0:
        recorder.acknowledge()
    recorder.cut()
    return recorder, status, err.decode()


def faults_of(program, work, run, without=()):
    """What is wrong in the states of a run, with what was recorded."""
    table = fresh_table(work / "t", run.lay)
    recorder, status, err = record(program, table, run, without)
    faults = []
    if run.status is None:
        print(f"{run.name} end with {status} {err.strip()}")
    elif status != run.status:
        faults.append(f"it ends with {status} ({err.strip()}), and is to end with {run.status}")
    for state, bounds in recorder.states.items():
        fault = fault_of(program, table, state, bounds, recorder.versions, 3)
        if fault:
            faults.append(fault)
    shutil.rmtree(table)
    return faults, recorder


def main():
    parser = argparse.ArgumentParser(description=__doc__.splitlines()[0])
    parser.add_argument("--program", default=TOP / "crates/upkeep/out/upkeep", type=pathlib.Path)
    parser.add_argument("statements", nargs="*", metavar="STATEMENT")
    given = parser.parse_args()
    program = given.program.resolve()
    if not os.access(program, os.X_OK):
        sys.exit("tests/power_loss.py: build the program first, by ./demo")
    runs = [Run("the given statements", given.statements)] if given.statements else RUNS
    bad = 0
    with tempfile.TemporaryDirectory() as work:
        work = pathlib.Path(work).resolve()
        for run in runs:
            faults, recorder = faults_of(program, work, run)
            bad += len(faults)
            part = "" if recorder.is_all else ", a part of those that there are"
            states = f"{len(recorder.states)} states{part}"
            print(f"{run.name}: {recorder.calls} system calls, {states}, {len(faults)} bad")
            for fault in faults[:10]:
                print(f"  {fault}", file=sys.stderr)
        for without in ("files", "folders"):
            faults, recorder = faults_of(program, work, runs[0], (without,))
            has_published = len(recorder.versions) > 1
            states = f"{len(recorder.states)} states"
            print(f"{runs[0].name}, as if no {without} had been synced: {states}, {len(faults)} bad")
            if has_published and not faults:
                print("  read so, the run has to fail", file=sys.stderr)
                bad += 1
    print(f"{bad} faults")
    return 1 if bad else 0


if __name__ == "__main__":
    try:
        sys.exit(main())
    except tracer.Untraceable as e:
        print(f"tests/power_loss.py: not tried: {e}")
    except NoRule as e:
        sys.exit(f"tests/power_loss.py: the disk's rules don't tell of the system call {e}")
