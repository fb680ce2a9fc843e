"""Follows the system calls of a program by ptrace, and changes some of them. Linux on x86-64; needs no other tool.

`run` starts a program and tells a watcher of each system call that it makes from its entry point on, so not of those of
the loader. Before a call the watcher may have it fail without being made, have it made and then said to have failed,
have it take fewer bytes, or have the program killed.

As a script it holds what it sees of a command against what `strace` sees, where that is installed: COMMAND ARGUMENT ..
"""
import ctypes
import os
import platform
import shutil
import signal
import struct
import subprocess
import sys
import tempfile

NAMES = {
    0: "read", 1: "write", 2: "open", 3: "close", 4: "stat", 5: "fstat", 6: "lstat", 7: "poll", 8: "lseek", 9: "mmap",
    10: "mprotect", 11: "munmap", 12: "brk", 13: "rt_sigaction", 14: "rt_sigprocmask", 16: "ioctl", 17: "pread64",
    18: "pwrite64", 19: "readv", 20: "writev", 21: "access", 24: "sched_yield", 25: "mremap", 26: "msync",
    28: "madvise", 32: "dup", 33: "dup2", 35: "nanosleep", 40: "sendfile", 56: "clone", 57: "fork", 58: "vfork",
    59: "execve", 60: "exit", 72: "fcntl", 73: "flock", 74: "fsync", 75: "fdatasync", 76: "truncate", 77: "ftruncate",
    78: "getdents", 79: "getcwd", 80: "chdir", 82: "rename", 83: "mkdir", 84: "rmdir", 85: "creat", 86: "link",
    87: "unlink", 88: "symlink", 89: "readlink", 90: "chmod", 131: "sigaltstack", 162: "sync", 202: "futex",
    217: "getdents64", 228: "clock_gettime", 230: "clock_nanosleep", 231: "exit_group", 257: "openat", 258: "mkdirat",
    262: "newfstatat", 263: "unlinkat", 264: "renameat", 265: "linkat", 266: "symlinkat", 267: "readlinkat",
    269: "faccessat", 277: "sync_file_range", 285: "fallocate", 292: "dup3", 295: "preadv", 296: "pwritev",
    302: "prlimit64", 306: "syncfs", 316: "renameat2", 318: "getrandom", 326: "copy_file_range", 332: "statx",
    334: "rseq", 425: "io_uring_setup", 435: "clone3", 437: "openat2", 439: "faccessat2",
}

TRACEME, CONT, GETREGS, SETREGS, SYSCALL, SETOPTIONS = 0, 7, 12, 13, 24, 0x4200
# stops at system calls are told from other ones; the program ends with its tracer
OPTIONS = 1 | 0x100000
AT_ENTRY = 9
WORD = (1 << 64) - 1

ptrace = ctypes.CDLL(None, use_errno=True).ptrace
ptrace.restype = ctypes.c_long
ptrace.argtypes = [ctypes.c_long, ctypes.c_long, ctypes.c_void_p, ctypes.c_void_p]


class Registers(ctypes.Structure):
    """`struct user_regs_struct` of x86-64."""

    _fields_ = [
        (name, ctypes.c_ulonglong)
        for name in (
            "r15 r14 r13 r12 rbp rbx r11 r10 r9 r8 rax rcx rdx rsi rdi orig_rax rip cs eflags rsp ss fs_base gs_base"
            " ds es fs gs"
        ).split()
    ]


class Untraceable(Exception):
    """This machine lets no program be followed, or the program ended before its entry point."""


class Call:
    """One system call: its place in the run, counted from 0, its name, its arguments, and its result behind it."""

    def __init__(self, index, name, args, pid):
        self.index, self.name, self.args, self.pid = index, name, args, pid
        self.result = None

    def memory(self, address, length):
        """The bytes of the program at an address."""
        with open(f"/proc/{self.pid}/mem", "rb", buffering=0) as memory:
            memory.seek(address)
            return memory.read(length)

    def text(self, address):
        """The text that ends with a zero byte at an address."""
        found = b""
        while b"\0" not in found:
            # up to the end of the page, since the next one may not be there
            found += self.memory(address + len(found), 4096 - (address + len(found)) % 4096)
        return found[: found.index(b"\0")]


def fail(number):
    """The call isn't made, and fails with this error."""
    return ("fail", number)


def say_failed(number):
    """The call is made, and then said to have failed with this error."""
    return ("say", number)


def cut(length):
    """The call's third argument, a number of bytes, is this one instead."""
    return ("cut", length)


KILL = ("kill", 0)


def request(what, pid, data=None):
    if ptrace(what, pid, None, data) == -1 and ctypes.get_errno() != 0:
        number = ctypes.get_errno()
        raise OSError(number, os.strerror(number))


def go_on(pid, what, number=0):
    """Lets the program go on to its next stop, and answers how it stopped or ended."""
    ctypes.set_errno(0)
    request(what, pid, number)
    return os.waitpid(pid, 0)[1]


def start(words, streams, before):
    """Starts a program stopped at its first instruction, as a child that is followed."""
    pid = os.fork()
    if pid:
        return pid
    try:
        for number, stream in enumerate(streams):
            if stream is None:
                os.close(number)
            else:
                os.dup2(stream, number)
        before()
        if ptrace(TRACEME, 0, None, None) == -1:
            os._exit(125)
        os.execv(words[0], words)
    finally:
        os._exit(126)


def run_to_entry(pid):
    """Lets the loader do its work: the program stops at its entry point."""
    with open(f"/proc/{pid}/auxv", "rb") as file:
        entry = dict(struct.iter_unpack("QQ", file.read()))[AT_ENTRY]
    with open(f"/proc/{pid}/mem", "r+b", buffering=0) as memory:
        memory.seek(entry)
        code = memory.read(1)
        memory.seek(entry)
        memory.write(b"\xcc")
        status = go_on(pid, CONT)
        if not (os.WIFSTOPPED(status) and os.WSTOPSIG(status) == signal.SIGTRAP):
            raise Untraceable("the program ended before its entry point")
        memory.seek(entry)
        memory.write(code)
    registers = Registers()
    request(GETREGS, pid, ctypes.byref(registers))
    registers.rip = entry
    request(SETREGS, pid, ctypes.byref(registers))


def set_registers(pid, registers, **changed):
    for name, value in changed.items():
        setattr(registers, name, value & WORD)
    request(SETREGS, pid, ctypes.byref(registers))


def next_stop(pid, number=0):
    """Goes on to the next stop at a system call; other signals are handed on. None where the program ended."""
    status = go_on(pid, SYSCALL, number)
    while os.WIFSTOPPED(status):
        number = os.WSTOPSIG(status)
        if number == signal.SIGTRAP | 0x80:
            return None, status
        status = go_on(pid, SYSCALL, 0 if number == signal.SIGTRAP else number)
    return (os.WEXITSTATUS(status) if os.WIFEXITED(status) else -os.WTERMSIG(status)), status


def follow(pid, before, after):
    """Follows the program to its end, and answers its status, or the negative number of the signal that ended it."""
    registers, index = Registers(), 0
    while True:
        ended, _ = next_stop(pid)
        if ended is not None:
            return ended
        request(GETREGS, pid, ctypes.byref(registers))
        args = [registers.rdi, registers.rsi, registers.rdx, registers.r10, registers.r8, registers.r9]
        call = Call(index, NAMES.get(registers.orig_rax, f"call {registers.orig_rax}"), args, pid)
        index += 1
        what, number = before(call) or (None, 0)
        if what == "kill":
            os.kill(pid, signal.SIGKILL)
            os.waitpid(pid, 0)
            return -signal.SIGKILL
        if what == "fail" and call.name == "brk":
            # it tells of a failure by leaving the break where it is
            set_registers(pid, registers, rdi=0)
        elif what == "fail":
            set_registers(pid, registers, orig_rax=-1)
        elif what == "cut":
            set_registers(pid, registers, rdx=number)
        ended, _ = next_stop(pid)
        if ended is not None:
            return ended
        request(GETREGS, pid, ctypes.byref(registers))
        # the system keeps the registers of the arguments
        if what in ("fail", "say") and call.name != "brk":
            set_registers(pid, registers, rax=-number)
        elif what in ("fail", "cut"):
            set_registers(pid, registers, rdi=args[0], rdx=args[2])
        call.result = ctypes.c_longlong(registers.rax).value
        after(call)


def nothing(*_):
    return None


def run(words, before=nothing, after=nothing, stdout="keep", stderr="keep", prepare=nothing):
    """Runs a program, and answers its status and the bytes that it wrote to the two output streams.

    `before` is asked with each call before it is made, `after` with each one behind it. A stream is a descriptor, or
    None to have it closed; "keep" has what is written there kept. `prepare` is called in the new process.
    """
    if platform.machine() != "x86_64" or sys.platform != "linux":
        raise Untraceable("programs are followed on Linux on x86-64 alone")
    with tempfile.TemporaryFile() as out, tempfile.TemporaryFile() as err, open(os.devnull, "rb") as empty:
        streams = [empty.fileno()]
        streams += [kept.fileno() if it == "keep" else it for it, kept in ((stdout, out), (stderr, err))]
        pid = start([os.fspath(word) for word in words], streams, prepare)
        status = os.waitpid(pid, 0)[1]
        if not os.WIFSTOPPED(status):
            raise Untraceable("ptrace is refused here, or the program can't be started")
        try:
            request(SETOPTIONS, pid, OPTIONS)
            run_to_entry(pid)
            ended = follow(pid, before, after)
        except BaseException:
            try:
                os.kill(pid, signal.SIGKILL)
                os.waitpid(pid, 0)
            except (ProcessLookupError, ChildProcessError):
                pass
            raise
        out.seek(0)
        err.seek(0)
        return ended, out.read(), err.read()


def main(words):
    ours = []
    run(words, before=lambda call: ours.append(call.name))
    if shutil.which("strace") is None:
        sys.exit(f"{len(ours)} system calls; strace isn't installed, so they aren't held against it")
    with tempfile.NamedTemporaryFile("r") as log:
        subprocess.run(["strace", "-o", log.name, *words], stdout=subprocess.DEVNULL, stderr=subprocess.DEVNULL)
        theirs = [line.split("(")[0] for line in log if "(" in line and not line.startswith(("+", "-"))]
    # strace also tells of the loader's calls
    same = theirs[-len(ours) :] == ours
    how = "the last ones" if same else "NOT the last ones"
    print(f"{len(ours)} system calls from the entry point on, {how} of {len(theirs)} that strace tells of")
    sys.exit(0 if same else 1)


if __name__ == "__main__":
    main(sys.argv[1:])
