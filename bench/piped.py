#!/usr/bin/env python3
"""Runs a command whose output is a pipe, and ends with its status, 128 and the signal where one ended it.

  piped.py KIND SIGPIPE FILE COMMAND..

KIND is how the pipe is read: `gone` not at all, its reader being closed before the command begins; `middle`, closed after
one read; `slow`, 10,000 bytes each millisecond; `full`, only once the command has ended, and the pipe doesn't wait. SIGPIPE
is `ignored` or `default`, as the command finds it. FILE gets what was read.
"""
import os
import signal
import subprocess
import sys
import time


def begin(command, handled, writer):
    """Starts a command that writes to a pipe."""

    def prepare():
        signal.signal(signal.SIGPIPE, signal.SIG_IGN if handled == "ignored" else signal.SIG_DFL)

    child = subprocess.Popen(command, stdout=writer, preexec_fn=prepare)
    os.close(writer)
    return child


def read_slowly(reader):
    while piece := os.read(reader, 10000):
        yield piece
        time.sleep(0.001)


def main():
    kind, handled, name, *command = sys.argv[1:]
    reader, writer = os.pipe()
    if kind == "gone":
        os.close(reader)
    if kind == "full":
        os.set_blocking(writer, False)
    child = begin(command, handled, writer)
    read = []
    if kind == "middle":
        read.append(os.read(reader, 10000))
        os.close(reader)
    elif kind == "slow":
        read.extend(read_slowly(reader))
    status = child.wait()
    if kind == "full":
        read.extend(read_slowly(reader))
    with open(name, "wb") as file:
        file.write(b"".join(read))
    sys.exit(status if status >= 0 else 128 - status)


main()
