#!/usr/bin/env python3
"""Proves the libraries below a program and builds it: as many crates side by side as there are processors and memory,
those first on which the longest chain stands. It says how far it is. What is proved stays in out/rlib, and the next run
proves, from nothing, only what changed and what stands on that. Tests and must-fail edits are left to `rt ci`.

    ./build.py [CRATE]      typecheck unless told; writes crates/CRATE/out/CRATE
"""
import fcntl
import glob
import hashlib
import os
import shutil
import signal
import subprocess
import sys
import time

TOP = os.path.dirname(os.path.abspath(__file__))
BYTES_OF_A_CHECK = 4 << 30  # what to have free for each that runs beside others


def say(text):
    print(f"typecheck: {text}", file=sys.stderr, flush=True)


class Crate:
    def __init__(self, kit, name, listed):
        self.kit, self.name, self.folder = kit, name, f"{TOP}/crates/{name}"
        # The place where `rt` has its libraries: it refuses sources in any other.
        self.room = f"{self.folder}/out/rlib"
        self.rlib, self.log = f"{self.room}/{name}.rlib", f"{self.room}/log"
        self.own = [it for it in listed[name] if it in listed]
        self.of_kit = ["std"] + [it for it in listed[name] if it not in listed]
        self.is_program = os.path.isfile(f"{self.folder}/src/main.rt")
        parts = [f"{self.folder}/{part}/**/*" for part in ("src", "specs", "proofs")]
        self.files = [it for part in parts for it in sorted(glob.glob(part, recursive=True)) if os.path.isfile(it)]

    def lines(self):
        return sum(open(it, "rb").read().count(b"\n") for it in self.files if it.endswith(".rt"))

    def stamp(self, below):
        """A sum of all that the crate is made from, given the stamps of the libraries that it names."""
        made = hashlib.sha256(repr([self.of_kit, below]).encode())
        for it in [f"{self.kit}/WHAT", *self.files]:
            made.update(repr((os.path.relpath(it, self.folder), open(it, "rb").read())).encode())
        return made.hexdigest()

    def words(self, crates, jobs):
        kit, root = self.kit, "src/main.rt" if self.is_program else "src/lib.rt"
        words = [f"{kit}/bin/rattle", "build", "--crate-name", self.name, root, "-L", f"dependency={kit}/rlibs"]
        for it in self.of_kit:
            words += ["--extern", f"{it}={kit}/rlibs/{it}.rlib"]
        for it in self.own:
            words += ["--extern", f"{it}={crates[it].rlib}"]
        for it in below(crates, self.name):
            words += ["-L", f"dependency={crates[it].room}"]
        words += ["--antt-project", f"{kit}/rattle/logic/antt-project.json", "--logic-built", f"{kit}/logic_built"]
        words += ["--jobs", str(jobs)]
        if self.is_program:
            return words + ["--toolchain", f"{kit}/toolchain", "--backend", "llvm", "-o", f"{self.room}/program.o"]
        # A library that holds its statements alone is quick to read: the program's check reads all of them.
        return words + ["--statements", "-o", self.rlib]

    def start(self, crates, jobs):
        shutil.rmtree(self.room, ignore_errors=True)
        os.makedirs(self.room)
        how = {"cwd": self.folder, "stdin": subprocess.DEVNULL, "stderr": subprocess.STDOUT, "start_new_session": True}
        with open(self.log, "wb") as log:
            return subprocess.Popen(self.words(crates, jobs), stdout=log, **how)

    def link(self):
        kit, to = self.kit, f"{self.folder}/out/{self.name}"
        words = [f"{kit}/bin/rattle-link", "--target", "x86_64-unknown-linux-gnu", "--toolchain", f"{kit}/toolchain"]
        words += ["-o", f"{to}.new", f"{self.room}/program.o", f"{kit}/c/libos_c.a", f"{kit}/c/liblibc_c.a"]
        with open(self.log, "ab") as log:
            status = subprocess.run(words, stdout=log, stderr=subprocess.STDOUT).returncode
        if not status:
            os.replace(f"{to}.new", to)
        return status


def listed_in(file):
    rows = [it.split("#")[0].partition(":") for it in open(file, encoding="utf-8")]
    return {name.strip(): libraries.split() for name, colon, libraries in rows if colon}


def below(crates, name):
    """The libraries of the repository below a crate, each behind those that it names."""
    found = []
    for it in crates[name].own:
        found += [low for low in [*below(crates, it), it] if low not in found]
    return found


def free_memory():
    rows = dict(it.split(":") for it in open("/proc/meminfo", encoding="utf-8"))
    return int(rows["MemAvailable"].split()[0]) << 10


class Build:
    def __init__(self, kit, program):
        listed = listed_in(f"{TOP}/crates.txt")
        self.crates = crates = {it: Crate(kit, it, listed) for it in listed}
        self.order = [*below(crates, program), program]
        self.stamps = {}
        for it in self.order:
            self.stamps[it] = crates[it].stamp([self.stamps[low] for low in crates[it].own])
        self.done = set()
        for it in self.order:
            self.done |= {it} if self.is_kept(it) and self.done.issuperset(crates[it].own) else set()
        self.running, self.begun = {}, time.time()
        self.at_once = max(1, min(len(os.sched_getaffinity(0)), free_memory() // BYTES_OF_A_CHECK))
        self.chain = {}
        for it in reversed(self.order):
            above = [self.chain[high] for high in self.chain if it in crates[high].own]
            self.chain[it] = crates[it].lines() + max(above, default=0)

    def is_kept(self, name):
        crate = self.crates[name]
        kept, made = f"{crate.room}/proved", f"{crate.folder}/out/{name}" if crate.is_program else crate.rlib
        return os.path.exists(made) and os.path.isfile(kept) and open(kept).read() == self.stamps[name]

    def start_more(self):
        """Starts the crates that wait for none, the longest chain first, and shares free processors among them."""
        left = [it for it in self.order if it not in self.done and it not in (row[0] for row in self.running.values())]
        ready = [it for it in left if self.done.issuperset(self.crates[it].own)]
        ready.sort(key=lambda it: -self.chain[it])
        for at, name in enumerate(ready):
            free = self.at_once - sum(jobs for _, jobs, _ in self.running.values())
            if free <= 0:
                return
            jobs = max(1, free // (len(ready) - at))
            check = self.crates[name].start(self.crates, jobs)
            self.running[check.pid] = (name, jobs, check)

    def take(self, pid, status):
        """Takes the end of a check; returns whether the build goes on."""
        name, _, check = self.running.pop(pid)
        check.returncode = status  # it was waited for
        crate = self.crates[name]
        if os.WIFSIGNALED(status) and os.WTERMSIG(status) == signal.SIGKILL and self.at_once > 1:
            self.at_once = max(1, self.at_once // 2)
            say(f"the check of {name} was killed, most likely for want of memory: again, with {self.at_once} at a time")
            return True
        if status or (crate.is_program and crate.link()):
            say(f"{name} isn't proved, or can't be built; the end of {crate.log}:")
            print(*open(crate.log, errors="replace").readlines()[-20:], sep="", file=sys.stderr)
            return False
        with open(f"{crate.room}/proved", "w") as it:
            it.write(self.stamps[name])
        self.done.add(name)
        minutes = round((time.time() - self.begun) / 60)
        self.start_more()
        names = ", ".join(it for it, _, _ in self.running.values())
        say(f"{len(self.done)} of {len(self.order)} crates proved, {minutes} min" + f"; at work: {names}" * bool(names))
        return True

    def run(self):
        left = len(self.order) - len(self.done)
        if left:
            say(f"proving {left} of {len(self.order)} crates, {self.at_once} at a time; all take half an hour or more")
        try:
            self.start_more()
            while self.running:
                if not self.take(*os.wait()):
                    return 1
                self.start_more()
            return 0
        finally:
            for pid in self.running:
                os.killpg(pid, signal.SIGKILL)


def lock(crates):
    """Waits for other builds and for `rt`, which locks the same folders."""
    held = [os.open(it.folder, os.O_RDONLY) for it in crates]
    for it in held:
        try:
            fcntl.flock(it, fcntl.LOCK_EX | fcntl.LOCK_NB)
        except BlockingIOError:
            say("waiting for another build to end")
            fcntl.flock(it, fcntl.LOCK_EX)
    return held


def main(program="typecheck"):
    kit = os.path.dirname(os.path.dirname(os.path.realpath(shutil.which("rt") or "")))
    if not os.path.isfile(f"{kit}/bin/rattle"):
        say("the toolchain's `rt` isn't on your PATH")
        return 1
    signal.signal(signal.SIGTERM, lambda *_: sys.exit(1))
    listed = listed_in(f"{TOP}/crates.txt")
    held = lock(Crate(kit, it, listed) for it in sorted(listed))
    status = Build(kit, program).run()
    made = f"{TOP}/crates/{program}/out/{program}"
    if not status and os.path.isfile(made):
        os.utime(made)  # newer than all sources, for ./typecheck
    for it in held:
        os.close(it)
    return status


if __name__ == "__main__":
    try:
        sys.exit(main(*sys.argv[1:]))
    except KeyboardInterrupt:
        sys.exit(130)
