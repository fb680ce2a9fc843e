"""Has each system call of a run fail, and compares what is left with docs/STATUSES.md: PROGRAM FOLDER.

The run rolls the table of data/three_snapshots back twice, so it publishes the versions 4 and 5. From the program's
entry point on, each of its system calls in turn

- fails, without being made, with EIO, ENOSPC, EACCES, EINTR (for memory: ENOMEM),
- is made and then said to have failed with EIO,
- takes half of its bytes, where it reads or writes some,
- isn't reached, since the program is killed before it,
- comes right behind another program that takes the lock and publishes the next version,
- comes right behind another program that puts links in the places of the run's new file and its lock.

Status, message, reports, names and contents are compared with what docs/STATUSES.md says of the status, and the status
with the call. Then follow tables and streams in which calls fail by themselves.
"""
import contextlib
import errno
import fcntl
import json
import multiprocessing
import os
import pathlib
import re
import shutil
import sys

sys.dont_write_bytecode = True

import tables  # noqa: E402
import tracer  # noqa: E402
from ended import (  # noqa: E402
    CALLS,
    CURRENT,
    DONE,
    FIRST,
    KILLED,
    NO_RANDOM,
    REPORTS,
    Ended,
    Wrong,
    check_ended,
    check_opens,
    ends,
    finished_of,
    message,
    number_of,
    want,
)
from failing_scenes import try_full, try_scenes  # noqa: E402

ERRORS = [errno.EIO, errno.ENOSPC, errno.EACCES, errno.EINTR]
MEMORY = {"brk", "mmap", "mremap", "mprotect", "madvise"}
# calls whose failure harms nothing that was promised
HARMLESS = {"close", "munmap", "rt_sigaction", "rt_sigprocmask", "sigaltstack", "clock_gettime"}
READS = {"read", "pread64", "getdents64"}
WRITES = {"write", "pwrite64"}
RENAMES = {"rename", "renameat", "renameat2", "link", "linkat"}
SYNCS = {"fsync", "fdatasync", "syncfs"}
UNLOCK = 8
NONBLOCK = 1
STDOUT = 1


# ---- which status a failed call must have


def statuses_of(calls, index, number):
    """The statuses that a run may end with whose call of this index fails with this error."""
    call = calls[index]
    name, args = call.name, call.args
    if name in MEMORY:
        return {DONE, number_of("OutOfMemory")}
    if name in HARMLESS or (name == "flock" and args[1] & UNLOCK):
        return {DONE}
    if name == "getrandom" and args[2] & NONBLOCK:
        # of the allocator
        return {DONE}
    is_again, fault, unknown = number == errno.EINTR, number_of("StoreFault"), number_of("CommitUnknown")
    if is_again and name in READS | WRITES:
        # nothing was taken, so it is made again
        return {DONE} if name != "getdents64" else {DONE, fault}
    again = {DONE} if is_again else set()
    if name == "getrandom":
        return {NO_RANDOM} | again
    if name in WRITES and args[0] == STDOUT:
        return {number_of("OutFault")} | again
    after = [it.index for it in calls if it.name in RENAMES and it.index >= index]
    report = next((it.index for it in calls if it.name in WRITES and it.args[0] == STDOUT and it.index > index), None)
    if report is None:
        # behind the last report nothing is asked of the store
        return {DONE}
    if not after or after[0] > report or after[0] == index:
        return {unknown} | again
    # from the sync of the file's bytes up to the rename the store looks and locks, as a part of the rename or before it
    return ({fault} if index <= sync_of_bytes(calls, after[0]) else {fault, unknown}) | again


def sync_of_bytes(calls, rename):
    """The first sync behind the last bytes of the file that this call renames: up to there no rename can be meant."""
    written = max(it.index for it in calls if it.name in WRITES and it.index < rename and it.args[0] != STDOUT)
    return min(it.index for it in calls if it.name in SYNCS and it.index > written)


# ---- the runs


def traced(program, table, before=tracer.nothing, after=tracer.nothing, **how):
    files = tables.files_of(table)
    status, out, err = tracer.run([program, *tables.statements(table, CALLS)], before=before, after=after, **how)
    return Ended(status, out, err, files, table)


def undisturbed(program, work):
    """The calls of a run that nothing disturbs, and what its versions say."""
    table, calls = tables.make_table(work / "undisturbed"), []
    ended = traced(program, table, after=calls.append)
    ends(ended, DONE, "".join(REPORTS))
    want(not ended.drafts, "a draft is left")
    found = tables.versions_of(ended.after)
    heads = {number: json.loads(data)["current-snapshot-id"] for number, data in found.items()}
    want(heads == CURRENT, f"the versions have the current snapshots {heads}")
    good = {number: tables.without_moments(data, table) for number, data in found.items()}
    shutil.rmtree(table)
    check_syncs(calls)
    return calls, good


def check_syncs(calls):
    """Something is synced between the bytes and the rename of a version, and between its rename and its report."""
    for rename in (it.index for it in calls if it.name in RENAMES):
        report = next(it.index for it in calls if it.name in WRITES and it.args[0] == STDOUT and it.index > rename)
        written = max(it.index for it in calls if it.name in WRITES and it.args[0] != STDOUT and it.index < rename)
        synced = [it.index for it in calls if it.name in SYNCS]
        want(any(written < it < rename for it in synced), "a version is renamed without a sync of its bytes")
        want(any(rename < it < report for it in synced), "a version is reported without a sync of its name")


def ways_of(call):
    """Each way in which this call is disturbed: its name, what is done, and the error that it tells of."""
    if call.name in MEMORY:
        return [("fails with ENOMEM", tracer.fail(errno.ENOMEM), errno.ENOMEM), ("is never made", tracer.KILL, None)]
    names = {number: errno.errorcode[number] for number in ERRORS}
    if call.name == "close":
        # Linux closes the descriptor in any case
        ways = [(f"closes and fails with {names[number]}", tracer.say_failed(number), number) for number in ERRORS]
    else:
        ways = [(f"fails with {names[number]}", tracer.fail(number), number) for number in ERRORS]
        ways.append(("is made and then fails with EIO", tracer.say_failed(errno.EIO), errno.EIO))
    ways.append(("is never made", tracer.KILL, None))
    if call.name in (READS | WRITES) - {"getdents64"} and call.args[2] > 1:
        ways.append(("takes half of its bytes", tracer.cut(call.args[2] // 2), None))
    return ways


def disturbed(job):
    """Runs the program with one call disturbed, and answers what is wrong, or None, with the status."""
    program, work, calls, good, index, (way, what, number) = job
    table = tables.make_table(work / f"{index}-{way.replace(' ', '-')}")
    seen = []

    def before(call):
        seen.append(call.name)
        return what if call.index == index else None

    try:
        ended = traced(program, table, before)
        try:
            want(seen[: index + 1] == [it.name for it in calls[: index + 1]], "the calls before it are others")
            if what == tracer.KILL:
                want(ended.status == KILLED, "it ended before")
            elif number is None:
                want(ended.status == DONE, "it didn't go on")
            else:
                wanted = statuses_of(calls, index, number)
                want(ended.status in wanted, f"the status is to be one of {sorted(wanted)}")
            check_opens(program, ended, check_ended(ended, good))
            return ended.status, None
        except Wrong as e:
            return ended.status, f"call {index}, {calls[index].name}, {way}: {e}\n    {ended.told()}"
    finally:
        shutil.rmtree(table, ignore_errors=True)


def publish(table):
    """Another program: it takes the lock, and publishes the version behind the last one. False where the lock is held."""
    folder = table / "metadata"
    with open(folder / tables.LOCK, "ab") as lock:
        try:
            fcntl.flock(lock, fcntl.LOCK_EX | fcntl.LOCK_NB)
        except BlockingIOError:
            return False
        last = tables.last_version(tables.files_of(table))
        tree = json.loads((folder / f"v{last}.metadata.json").read_bytes())
        tree["properties"] = {"written-by": "another program"}
        # others, too, write elsewhere and rename
        (folder / "other.tmp").write_text(json.dumps(tree))
        os.rename(folder / "other.tmp", folder / f"v{last + 1}.metadata.json")
    return True


def raced(job):
    """Runs the program with another one that publishes right before one of its calls."""
    program, work, calls, _, index, _ = job
    table = tables.make_table(work / f"{index}-raced")
    theirs = {}

    def before(call):
        if call.index == index and publish(table):
            files = tables.files_of(table)
            theirs[tables.last_version(files)] = tables.versions_of(files)[tables.last_version(files)]

    try:
        ended = traced(program, table, before)
        try:
            found = tables.versions_of(ended.after)
            for number, data in theirs.items():
                want(found.get(number) == data, f"the other program's version {number} was lost")
            want(ended.status in (DONE, number_of("Contended")), "the status is to be Done or Contended")
            want(not ended.drafts, "a draft is left")
            want(all(tables.without_moments(data, table) for data in found.values()), "a version isn't whole")
            done = finished_of(ended)
            want(max(found) == FIRST + done + len(theirs), f"the versions are {sorted(found)}")
            if ended.status != DONE:
                want(re.fullmatch(message("Contended", N=max(found)), ended.err), "the message is another one")
            else:
                want(ended.err == "" and done == len(REPORTS), "it isn't done")
            return ended.status, None
        except Wrong as e:
            where = f"another program publishes before call {index}, {calls[index].name}"
            return ended.status, f"{where}: {e}\n    {ended.told()}"
    finally:
        shutil.rmtree(table, ignore_errors=True)


def linked(job):
    """Runs the program with one call before which its new file is replaced by a link, and its lock as well: what the
    links name isn't touched."""
    program, work, calls, _, index, _ = job
    table = tables.make_table(work / f"{index}-linked")
    folder, victim, absent = table / "metadata", work / f"{index}-victim", work / f"{index}-absent"
    victim.write_bytes(b"of another program")

    def before(call):
        if call.index == index:
            drafts = [file for file in folder.iterdir() if tables.DRAFT.fullmatch(file.name)]
            for place, target in [*((file, victim) for file in drafts), (folder / tables.LOCK, absent)]:
                if os.path.lexists(place):
                    place.unlink()
                place.symlink_to(target)

    try:
        status = traced(program, table, before).status
        where = f"links stand in the place of the new file and the lock before call {index}, {calls[index].name}"
        if victim.read_bytes() != b"of another program":
            return status, f"{where}: that of the new file was followed"
        if absent.exists():
            return status, f"{where}: that of the lock was followed"
        return status, None
    finally:
        shutil.rmtree(table, ignore_errors=True)
        victim.unlink()
        with contextlib.suppress(FileNotFoundError):
            absent.unlink()


def disturb_all(program, work, calls, good):
    """Every call in every way. Answers the complaints."""
    # the last call is the program's end, which can't fail
    for call in calls:
        del call.pid
    jobs = [(disturbed, (program, work, calls, good, it.index, way)) for it in calls[:-1] for way in ways_of(it)]
    jobs += [(what, (program, work, calls, good, it.index, None)) for what in (raced, linked) for it in calls]
    with multiprocessing.Pool(min(8, os.cpu_count() or 1)) as pool:
        answers = pool.map(work_on, jobs, chunksize=4)
    counts = {}
    for status, _ in answers:
        counts[status] = counts.get(status, 0) + 1
    killed = counts.pop(KILLED, 0)
    told = ", ".join(f"{counts[status]} with {status}" for status in sorted(counts))
    print(f"system calls of the run: {len(calls)}; disturbed runs: {len(jobs)} ({killed} were killed, {told})")
    return [complaint for _, complaint in answers if complaint]


def work_on(job):
    what, rest = job
    return what(rest)


def main(words):
    program, work = words[0], pathlib.Path(words[1])
    # another user is to reach both
    work.chmod(0o755)
    program = shutil.copy(program, work / "upkeep")
    os.umask(0o022)
    try:
        calls, good = undisturbed(program, work)
    except tracer.Untraceable as e:
        print(f"tests/failing_calls.sh: not tried: {e}")
        return 0
    except Wrong as e:
        print(f"a run that nothing disturbs: {e}", file=sys.stderr)
        return 1
    complaints = disturb_all(program, work, calls, good)
    complaints += try_scenes(program, work, good) + try_full(program, work, good)
    for complaint in complaints:
        print(complaint, file=sys.stderr)
    print(f"{len(complaints)} differences from docs/STATUSES.md")
    return 1 if complaints else 0


if __name__ == "__main__":
    sys.exit(main(sys.argv[1:]))
