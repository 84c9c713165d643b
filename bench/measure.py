#!/usr/bin/env python3
"""Runs commands in turn, and prints what each takes, beside the first: the least time, the peak memory and, where asked,
the instructions that callgrind counts.

  measure.py [--seconds N] [--instructions] [--bytes N] [AIMS..] RUNS NAME COMMAND [NAME COMMAND ..]

A command is one word, which is split as by a shell. What it prints is dropped. One that takes more than the seconds (none
is stopped without them) is stopped and not run again. Another status than 0 is told behind the line. Instructions are told
in millions or, with the bytes of the text that is read, for each byte. Memory and instructions take one more run each. It
wants the Debian packages time and, for instructions, valgrind.

Aims are told behind a line: `--plain N --aim X` the first command's millions of instructions beside N, of which they are
to be X times at most; `--most N` its seconds of a processor beside N; `--times X Y ..`, closed by `--`, how many times the
first command's instructions, or seconds, each command may take.
"""
import re
import shlex
import subprocess
import time
from argparse import ArgumentParser
from subprocess import DEVNULL


def run(command, seconds):
    """The seconds that a command took, and its status; None where it was stopped."""
    begun = time.monotonic()
    try:
        status = subprocess.run(command, stdout=DEVNULL, stderr=DEVNULL, timeout=seconds, check=False).returncode
    except subprocess.TimeoutExpired:
        return None
    return time.monotonic() - begun, status


def least(command, runs, seconds):
    """The least seconds of so many runs, and the status; None where one was stopped."""
    found = []
    for _ in range(runs):
        taken = run(command, seconds)
        if taken is None:
            return None
        found.append(taken)
    return min(found)


def resources(command):
    """The peak memory of a command in megabytes, and its seconds of a processor."""
    timed = ["/usr/bin/time", "-f", "%M %U %S", *command]
    done = subprocess.run(timed, stdout=DEVNULL, stderr=subprocess.PIPE, text=True, check=False)
    memory, user, system = done.stderr.split()[-3:]
    return int(memory) / 1024, float(user) + float(system)


def instructions(command):
    """The instructions that callgrind counts of a command."""
    counted = ["valgrind", "--tool=callgrind", "--callgrind-out-file=/dev/null", *command]
    done = subprocess.run(counted, stdout=DEVNULL, stderr=subprocess.PIPE, text=True, check=False)
    return int(re.search(r"Collected : (\d+)", done.stderr).group(1))


def columns(values, firsts):
    """The values of a line, each with its ratio to that of the first line."""
    return "".join(f"{value:11.{places}f}{value / first:8.2f}" for (value, places), first in zip(values, firsts))


def judged(value, aim, told):
    """A value and its aim, and whether it is past it."""
    return f"  {value:.2f} {told}, aim {aim:g}{'' if value <= aim else ': MISSED'}"


def aims(words, place, values, firsts, processor):
    """What is told of the aims of the command at a place, which takes so many seconds of a processor."""
    told = ""
    if place == 0 and words.plain and words.instructions:
        told += judged(values[-1][0] / words.plain, words.aim, f"of a plain engine's {words.plain:g}")
    if place == 0 and words.most:
        told += judged(min(values[0][0], processor), words.most, "s of a processor")
    if 0 < place < len(words.times):
        column = -1 if words.instructions else 0
        told += judged(values[column][0] / firsts[column], words.times[place], "times the first")
    return told


def main():
    parser = ArgumentParser()
    parser.add_argument("--seconds", type=float, default=None)
    parser.add_argument("--instructions", action="store_true")
    parser.add_argument("--bytes", type=int)
    parser.add_argument("--plain", type=float)
    parser.add_argument("--aim", type=float)
    parser.add_argument("--most", type=float)
    parser.add_argument("--times", type=float, nargs="+", default=[])
    parser.add_argument("runs", type=int)
    parser.add_argument("commands", nargs="+")
    words = parser.parse_args()
    heads = ["seconds", "MB"]
    if words.instructions:
        heads.append("Minstr" if words.bytes is None else "instr/byte")
    print(" " * 24 + "".join(f"{head:>11}{'times':>8}" for head in heads))
    firsts = None
    for place, (name, line) in enumerate(zip(words.commands[::2], words.commands[1::2])):
        command = shlex.split(line)
        taken = least(command, words.runs, words.seconds)
        if taken is None:
            print(f"{name:24}   over {words.seconds:g} seconds", flush=True)
            continue
        memory, processor = resources(command)
        values = [(taken[0], 3), (memory, 1)]
        if words.instructions:
            values.append((instructions(command) / (words.bytes or 1e6), 1))
        firsts = firsts or [value for value, _ in values]
        status = f"  status {taken[1]}" if taken[1] else ""
        print(f"{name:24}{columns(values, firsts)}{status}{aims(words, place, values, firsts, processor)}", flush=True)


main()
