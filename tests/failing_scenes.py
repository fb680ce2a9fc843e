"""Tables, streams and machines on which calls fail by themselves. Each scene is run on a fresh table, and compares what
came with docs/STATUSES.md."""
import contextlib
import errno
import fcntl
import json
import os
import pathlib
import re
import resource
import shutil
import signal
import stat
import subprocess
import sys

import tables
import tracer
from ended import (
    CALLS,
    DONE,
    DRAFT,
    FIRST,
    KILLED,
    LISTED,
    LISTING,
    NOT_TEXT,
    REPORTS,
    STATUSES,
    Ended,
    Wrong,
    check_ended,
    check_opens,
    check_versions,
    ends,
    is_unchanged,
    message,
    number_of,
    want,
)

STDERR = 2
NOBODY = 65534
LOADER_FAILED = 127


def plain(program, table, calls=CALLS, words=None, modes=None, memory=None, **how):
    """A run that isn't followed. With `modes`, of paths, it is that of a user whom these bind; with `memory` it has no
    more bytes than that."""
    files = tables.files_of(table)
    kept = {path: stat.S_IMODE(path.stat().st_mode) for path in modes or {}}

    def become():
        if memory is not None:
            resource.setrlimit(resource.RLIMIT_AS, (memory, memory))
        if modes and os.getuid() == 0:
            os.setgroups([])
            os.setgid(NOBODY)
            os.setuid(NOBODY)

    how = {"stdout": subprocess.PIPE, "stderr": subprocess.PIPE, **how}
    words = tables.statements(table, calls) if words is None else words
    for path, mode in (modes or {}).items():
        path.chmod(mode)
    ran = subprocess.run([program, *words], stdin=subprocess.DEVNULL, timeout=120, preexec_fn=become, **how)
    for path, mode in kept.items():
        path.chmod(mode)
    return Ended(ran.returncode, ran.stdout or b"", ran.stderr or b"", files, table)


def word_that_is_not_text(program, table, good):
    ended = plain(program, table, words=[b"CALL c.system.ancestors_of('/\xff')"])
    ends(ended, NOT_TEXT)
    is_unchanged(ended)


def name_that_is_not_text(program, table, good):
    os.close(os.open(os.fsencode(table) + b"/metadata/\xff.avro", os.O_CREAT | os.O_WRONLY))
    ended = plain(program, table)
    ends(ended, "StoreFault", PLACE=re.escape(f"{table}/metadata"))
    is_unchanged(ended)


def held_lock(program, table, good):
    with open(table / "metadata" / tables.LOCK, "wb") as lock:
        fcntl.flock(lock, fcntl.LOCK_EX)
        ended = plain(program, table)
    ends(ended, "CommitUnknown", N=4)
    is_unchanged(ended, left=1)
    want(len(ended.drafts) == 1, "the new metadata file stands under neither name")


def folder_is_of_mode(mode):
    def scene(program, table, good):
        ended = plain(program, table, modes={table / "metadata": mode})
        ends(ended, "StoreFault", PLACE=re.escape(f"{table}/metadata"))
        is_unchanged(ended)
    return scene


def file_that_may_not_be_read(program, table, good):
    file = table / "metadata/v3.metadata.json"
    ended = plain(program, table, modes={file: 0})
    ends(ended, "StoreFault", PLACE=re.escape(str(file)))
    is_unchanged(ended)


def folder_that_may_not_be_written(program, table, good):
    modes = {table / "metadata": 0o555}
    ends(plain(program, table, LISTING, modes=modes), DONE, LISTED[FIRST])
    ended = plain(program, table, modes=modes)
    ends(ended, "StoreFault", PLACE=f"{re.escape(str(table))}/metadata/{DRAFT}")
    is_unchanged(ended)


def next_version_is(make):
    """The next version's name is taken by what isn't a file: nothing there is replaced or followed."""
    def scene(program, table, good):
        make(table / "metadata/v4.metadata.json")
        ended = plain(program, table)
        ends(ended, "CommitUnknown", N=4)
        is_unchanged(ended, left=1)
        want(len(ended.drafts) == 1, "the new metadata file stands under neither name")
    return scene


def last_version_is_a_link(program, table, good):
    folder = table / "metadata"
    os.rename(folder / "v3.metadata.json", table / "elsewhere.json")
    os.symlink("../elsewhere.json", folder / "v3.metadata.json")
    ended = plain(program, table)
    ends(ended, "NoTable", PLACE=re.escape(str(table)))
    is_unchanged(ended)


def lock_is_a_link(program, table, good):
    os.symlink(table / "made-by-a-link", table / "metadata" / tables.LOCK)
    ended = plain(program, table)
    ends(ended, "CommitUnknown", N=4)
    is_unchanged(ended, left=1)


def folder_is_a_link(program, table, good):
    os.rename(table / "metadata", table / "elsewhere")
    os.symlink("elsewhere", table / "metadata")
    ended = plain(program, table)
    ends(ended, "StoreFault", PLACE=re.escape(f"{table}/metadata"))
    is_unchanged(ended)


def output_is(open_stream):
    def scene(program, table, good):
        with open_stream() as stream:
            ended = plain(program, table, stdout=stream)
        want(ended.status == number_of("OutFault"), "the status is to be OutFault")
        want(re.fullmatch(message("OutFault"), ended.err), "the message is another one")
        want(check_versions(ended, good) == 4 and not ended.drafts, "version 4 is to be there alone")
    return scene


@contextlib.contextmanager
def closed_pipe():
    reader, writer = os.pipe()
    os.close(reader)
    yield writer
    os.close(writer)


def streams_are_closed(program, table, good):
    """A closed stream takes nothing, and no file that is opened takes its place."""
    files = tables.files_of(table)
    status, _, _ = tracer.run([program, *tables.statements(table, CALLS)], stdout=None, stderr=None)
    ended = Ended(status, b"", b"", files, table)
    last = check_versions(ended, good)
    ways = [(DONE, FIRST + 2), (number_of("OutFault"), FIRST + 1)]
    want((status, last) in ways, "the status is to be OutFault behind the first version, or Done behind the second")


def error_stream_fails(what):
    """Where the message can't be put, the status stays."""
    def scene(program, table, good):
        files = tables.files_of(table)
        words = tables.statements(table, ["CALL c.system.rollback_to_snapshot('{T}', 99)"])
        disturb = lambda call: what if call.name == "write" and call.args[0] == STDERR else None
        status, out, err = tracer.run([program, *words], before=disturb)
        ended = Ended(status, out, err, files, table)
        want(status == number_of("UnknownSnapshot"), "the status is to be UnknownSnapshot")
        line = "upkeep: " + STATUSES["UnknownSnapshot"][1].replace("ID", "99") + "\n"
        want(out == b"" and line.encode().startswith(err), "something else was printed")
        is_unchanged(ended)
    return scene


def late_error(program, table, good):
    """The bytes of a file can't be written back. The system keeps that error for the descriptors that are open then, and
    a sync through one of them tells it; one through a descriptor that is opened later says that all is well."""
    files, written = tables.files_of(table), set()

    def disturb(call):
        if call.name in ("write", "pwrite64") and call.args[0] > STDERR:
            written.add(call.args[0])
        elif call.name == "close":
            written.discard(call.args[0])
        elif call.name in ("fsync", "fdatasync") and call.args[0] in written:
            return tracer.say_failed(errno.EIO)
        return None

    status, out, err = tracer.run([program, *tables.statements(table, CALLS)], before=disturb)
    ended = Ended(status, out, err, files, table)
    ends(ended, "StoreFault", PLACE=f"{re.escape(str(table))}/metadata/{DRAFT}")
    is_unchanged(ended, left=1)


def memory_lacks(program, table, good):
    """With more and more memory, up to enough, over metadata of 300,000 bytes."""
    properties = {"padding": "x" * 300_000}
    good = {number: {**tree, "properties": properties} for number, tree in good.items()}
    for memory in range(2 << 20, 64 << 20, 1 << 18):
        shutil.rmtree(table)
        file = tables.make_table(table) / "metadata/v3.metadata.json"
        file.write_text(json.dumps({**json.loads(file.read_text()), "properties": properties}))
        ended = plain(program, table, memory=memory)
        if ended.status == LOADER_FAILED:
            is_unchanged(ended)
            continue
        if ended.status == -signal.SIGSEGV:
            # the stack is memory as well, and the system kills a program that can't have more of it
            ended.status = KILLED
        want(ended.status in (DONE, KILLED, number_of("OutOfMemory")), "the status is to be OutOfMemory or Done")
        check_opens(program, ended, check_ended(ended, good))
        if ended.status == DONE:
            return
    raise Wrong("no run had enough of it")


def fill(room, left):
    """Fills a file system up to so many bytes."""
    with open(room / "ballast", "wb") as file, contextlib.suppress(OSError):
        for _ in range(1 << 20):
            os.write(file.fileno(), b"x" * 4096)
    os.truncate(room / "ballast", os.stat(room / "ballast").st_size - left)


def full_file_system(program, room):
    """A small file system that is full, has room for a part of the new file, can't be written, and is free again."""
    table = tables.make_table(room / "t")
    file = table / "metadata/v3.metadata.json"
    file.write_text(json.dumps({**json.loads(file.read_text()), "properties": {"padding": "x" * 40_000}}))
    for left in (0, 8192):
        fill(room, left)
        ended = plain(program, table)
        ends(ended, "StoreFault", PLACE=f"{re.escape(str(table))}/metadata/{DRAFT}")
        is_unchanged(ended, left=1)
        for name in ended.drafts:
            (table / name).unlink()
    os.truncate(room / "ballast", 0)
    subprocess.run(["mount", "-o", "remount,bind,ro", str(room)], check=True)
    ended = plain(program, table)
    ends(ended, "StoreFault", PLACE=f"{re.escape(str(table))}/metadata/{DRAFT}")
    is_unchanged(ended)
    ends(plain(program, table, LISTING), DONE, LISTED[FIRST])
    subprocess.run(["mount", "-o", "remount,bind,rw", str(room)], check=True)
    ended = plain(program, table)
    ends(ended, DONE, "".join(REPORTS))
    want(tables.last_version(ended.after) == FIRST + 2, "the two versions are to be there")


SCENES = {
    "a word isn't UTF-8": word_that_is_not_text,
    "a name in the folder isn't UTF-8": name_that_is_not_text,
    "the lock is held": held_lock,
    "the folder may not be listed": folder_is_of_mode(0o311),
    "the folder may not be entered": folder_is_of_mode(0o444),
    "the version file may not be read": file_that_may_not_be_read,
    "the folder may not be written": folder_that_may_not_be_written,
    "the next version's name is a link to a file": next_version_is(lambda place: place.symlink_to("l11.avro")),
    "the next version's name is a link to nothing": next_version_is(lambda place: place.symlink_to("nowhere")),
    "the next version's name is a folder": next_version_is(lambda place: place.mkdir()),
    "the next version's name is a pipe": next_version_is(lambda place: os.mkfifo(place)),
    "the last version is a link": last_version_is_a_link,
    "the lock is a link": lock_is_a_link,
    "the metadata folder is a link": folder_is_a_link,
    "the output is a full device": output_is(lambda: open("/dev/full", "wb")),
    "the output is a pipe that nobody reads": output_is(closed_pipe),
    "the streams are closed": streams_are_closed,
    "bytes can't be written back": late_error,
    "memory lacks": memory_lacks,
    "the error stream fails": error_stream_fails(tracer.fail(errno.EIO)),
    "the error stream takes one byte at a time": error_stream_fails(tracer.cut(1)),
}


def try_scenes(program, work, good):
    complaints = []
    for number, (name, scene) in enumerate(SCENES.items()):
        table = tables.make_table(work / f"scene-{number}")
        try:
            scene(program, table, good)
        except Wrong as e:
            complaints.append(f"where {name}: {e}\n    {Ended.last.told() if Ended.last else ''}")
    print(f"tables and streams in which calls fail by themselves: {len(SCENES)}")
    return complaints


def try_full(program, work, good):
    """In a mount name space of its own, so that nothing stays mounted."""
    folder = work / "small"
    folder.mkdir()
    mount = 'mount -t tmpfs -o size=256k,mode=755 upkeep-test "$1"'
    words = ["unshare", "--mount", *(["--map-root-user"] if os.getuid() else [])]
    inner = f'{mount} && exec "$2" -B "$3" "$4" "$1"'
    if shutil.which("unshare") is None or shutil.which("mount") is None:
        print("a full and a read-only file system: not tried, since unshare or mount isn't installed")
        return []
    can = subprocess.run([*words, "sh", "-c", mount, "", folder], capture_output=True, text=True)
    if can.returncode != 0:
        print(f"a full and a read-only file system: not tried, since none can be mounted here ({can.stderr.strip()})")
        return []
    words += ["sh", "-c", inner, "", folder, sys.executable, __file__, program]
    ran = subprocess.run(words, capture_output=True, text=True)
    print("a full, a read-only and a freed file system: tried")
    return [] if ran.returncode == 0 else [f"on a small file system: {ran.stdout.strip() or ran.stderr.strip()}"]


if __name__ == "__main__":
    # within the name space that try_full made
    try:
        full_file_system(sys.argv[1], pathlib.Path(sys.argv[2]))
    except Wrong as e:
        sys.exit(f"{e}\n    {Ended.last.told()}")
