"""How a run on the small table ended, and what docs/STATUSES.md says of that.

The run is that of CALLS: it rolls the table of data/three_snapshots, of which the last version is 3, back twice, and so
publishes the versions 4 and 5.
"""
import re
import signal

import tables

CALLS = ["CALL c.system.rollback_to_snapshot('{T}', 22)", "CALL c.system.rollback_to_snapshot('{T}', 11)"]
REPORTS = [
    "previous_snapshot_id\tcurrent_snapshot_id\n33\t22\n",
    "previous_snapshot_id\tcurrent_snapshot_id\n22\t11\n",
]
FIRST = 3
# the current snapshot, and what `ancestors_of` lists, by the last version
CURRENT = {3: 33, 4: 22, 5: 11}
HEAD = "snapshot_id\ttimestamp\n"
LISTED = {
    3: HEAD + "33\t3000\n22\t2000\n11\t1000\n",
    4: HEAD + "22\t2000\n11\t1000\n",
    5: HEAD + "11\t1000\n",
}
LISTING = ["CALL c.system.ancestors_of('{T}')"]
DRAFT = tables.DRAFT.pattern
STATUSES = tables.statuses()
# ends that write no message: all is done; no run began, for want of a text, of a random number, of memory; a kill
DONE, NOT_TEXT, NO_RANDOM, KILLED = 0, 10, 11, -signal.SIGKILL


class Wrong(Exception):
    """What was promised isn't there."""


def want(fact, words):
    if not fact:
        raise Wrong(words)


class Ended:
    """How a run on a table ended, and what it left there."""

    last = None

    def __init__(self, status, out, err, before, table):
        self.status, self.out, self.err = status, out.decode(errors="replace"), err.decode(errors="replace")
        self.before, self.after, self.table = before, tables.files_of(table), table
        self.drafts = [name for name in self.new_names() if tables.DRAFT.fullmatch(name[len("metadata/") :])]
        Ended.last = self

    def new_names(self):
        return sorted(set(self.after) - set(self.before) - {f"metadata/{tables.LOCK}"})

    def told(self):
        return f"status {self.status}, printed {self.out!r} and {self.err!r}, new names {self.new_names()}"


def number_of(status):
    return STATUSES[status][0]


def message(status, **values):
    """The line that docs/STATUSES.md has for a status, with these values in place of its capital words; a pattern."""
    line = re.escape(STATUSES[status][1])
    for word, value in values.items():
        want(word in line, f"the message of {status} in docs/STATUSES.md has no {word}")
        line = line.replace(word, str(value))
    return f"upkeep: {line}\n"


def ends(ended, status, out="", **values):
    """The run ended with a status of docs/STATUSES.md, or with the number of one that says nothing."""
    number, line = (number_of(status), message(status, **values)) if status in STATUSES else (status, "")
    want(ended.status == number, f"the status is to be {status}")
    want(re.fullmatch(line, ended.err), f"the message is to be {line!r}")
    want(ended.out == out, f"{out!r} is to be printed")


def is_unchanged(ended, left=0):
    """Nothing has changed, but for some new metadata files that are left."""
    for name, data in ended.before.items():
        want(ended.after.get(name) == data, f"{name} isn't as it was")
    want(len(ended.drafts) <= left and ended.new_names() == ended.drafts, "there are new names")


def finished_of(ended, may_have_part=False):
    """How many reports were put; behind them there may be a part of the next one."""
    count, rest = 0, ended.out
    while count < len(REPORTS) and rest.startswith(REPORTS[count]):
        rest = rest[len(REPORTS[count]) :]
        count += 1
    following = REPORTS[count] if count < len(REPORTS) else ""
    want(rest == "" or (may_have_part and following.startswith(rest)), "other reports were printed")
    return count


def check_versions(ended, good):
    """Every file that stood before is as it was, and each new version is whole and says what that of an undisturbed run
    says. Answers the last version."""
    for name, data in ended.before.items():
        want(ended.after.get(name) == data, f"{name} isn't as it was")
    found = tables.versions_of(ended.after)
    for number in range(FIRST + 1, max(found) + 1):
        want(number in found, f"version {number} lacks below another one")
        said = tables.without_moments(found[number], ended.table)
        want(said == good[number], f"version {number} has other contents")
    versions = {f"metadata/v{number}.metadata.json" for number in found}
    want(set(ended.new_names()) <= versions | set(ended.drafts), "there are other new names")
    return max(found)


def kind_of(ended):
    """The status by its name in docs/STATUSES.md, or a word for an end that writes no message."""
    silent = {DONE: "done", NO_RANDOM: "unbegun", KILLED: "killed"}
    if ended.status == number_of("OutOfMemory") and ended.err == "":
        return "unbegun"
    if ended.status in silent:
        return silent[ended.status]
    kinds = [name for name in ENDS if name in STATUSES and number_of(name) == ended.status]
    want(kinds, "no run may end so here")
    return kinds[0]


# What stands after each end, for the version `now` that stood when the last statement began: the values of its message,
# the last versions that there may be, and how many new metadata files may be left where the last version is `last`.
ENDS = {
    "done": (lambda now, table: None, lambda now: {FIRST + len(REPORTS)}, lambda now, last: {0}),
    "unbegun": (lambda now, table: None, lambda now: {FIRST}, lambda now, last: {0}),
    "killed": (lambda now, table: None, lambda now: {now, now + 1}, lambda now, last: {0, 1}),
    "StoreFault": (
        lambda now, table: {"PLACE": f"{table}(/metadata(/v{now}[.]metadata[.]json|/{DRAFT})?)?"},
        lambda now: {now},
        lambda now, last: {0, 1},
    ),
    # the file stands under exactly one of its two names
    "CommitUnknown": (
        lambda now, table: {"N": now + 1},
        lambda now: {now, now + 1},
        lambda now, last: {now + 1 - last},
    ),
    # a report that was said to have failed may have been put whole
    "OutFault": (lambda now, table: {}, lambda now: {now, now + 1}, lambda now, last: {0}),
    "OutOfMemory": (lambda now, table: {}, lambda now: {now, now + 1}, lambda now, last: {0, 1}),
}


def check_ended(ended, good):
    """What docs/STATUSES.md says of the status that came, whatever its cause. Answers the last version."""
    last, kind = check_versions(ended, good), kind_of(ended)
    values, lasts, left = ENDS[kind]
    now = FIRST + finished_of(ended, kind in ("OutFault", "killed"))
    values = values(now, re.escape(str(ended.table)))
    want(re.fullmatch("" if values is None else message(kind, **values), ended.err), "the message is another one")
    want(last in lasts(now), f"the last version is {last}")
    want(len(ended.drafts) in left(now, last), f"{len(ended.drafts)} new metadata files are left")
    want(kind != "unbegun" or not ended.out, "something was printed")
    return last


def check_opens(program, ended, last):
    """Afterwards the table opens, and lists what its last version says."""
    status, out, err = tables.listed(program, ended.table)
    is_same = (status, out, err) == (0, LISTED[last], "")
    want(is_same, f"afterwards a listing ends with {status} and prints {out!r}, {err!r}")
