#!/usr/bin/env python3
"""Runs a command without its output, and prints the seconds that it took and its peak of memory in kilobytes: COMMAND ..

The seconds are those of the whole process. The peak is the system's count for it (the greatest resident set), and at least
this process's own, about 10,000. It ends with the command's status, and prints what it said only where that isn't 0.
"""
import os
import subprocess
import sys
import time

with subprocess.Popen(sys.argv[1:], stdout=subprocess.PIPE, stderr=subprocess.STDOUT) as process:
    began = time.monotonic()
    said = process.stdout.read()
    _, status, used = os.wait4(process.pid, 0)
    seconds = time.monotonic() - began
    process.returncode = os.WEXITSTATUS(status) if os.WIFEXITED(status) else 128 + os.WTERMSIG(status)
if process.returncode != 0:
    sys.stderr.buffer.write(said)
    sys.exit(1)
print(f"{seconds:.3f} {used.ru_maxrss}")
