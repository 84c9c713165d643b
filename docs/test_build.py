#!/usr/bin/env python3
"""Tests of build.py over a stand-in for the toolchain, whose checks only sleep and note when they began and ended."""
import os
import subprocess
import tempfile
import unittest
from pathlib import Path

TOP = Path(__file__).parents[1]
CRATES = "low:\nleft: low memchr # a comment\nright: low\nlong: left\ntop: long right\napp: top\napart: low\n"
RATTLE = r"""#!/usr/bin/env python3
import os, sys, time
words = sys.argv[1:]
of = lambda flag: [words[at + 1] for at, it in enumerate(words) if it == flag]
name, to, noted = of("--crate-name")[0], of("-o")[0], os.environ["NOTED"]
lacking = [it for it in of("--extern") if "/crates/" in it and not os.path.isdir(it.split("=")[1])]
with open(noted, "a") as it: it.write(f"begin {name} {of('--jobs')[0]} {len(lacking)}\n")
once = f"{noted}.{name}"
if name == os.environ.get("KILLED") and not os.path.exists(once):
    open(once, "w").close()
    os.kill(os.getpid(), 9)
time.sleep(0.2)
print("what is wrong")
if name == os.environ.get("FAILS"): sys.exit(1)
open(to, "w").close() if to.endswith(".o") else os.makedirs(to)
with open(noted, "a") as it: it.write(f"end {name}\n")
"""
LINK = '#!/bin/sh\nwhile [ "$1" != -o ]; do shift; done\nprintf "#!/bin/sh\\necho ran\\n" > "$2" && chmod +x "$2"\n'


def write(file, text):
    file.parent.mkdir(parents=True, exist_ok=True)
    file.write_text(text)
    file.chmod(0o755)


class Builds(unittest.TestCase):
    def setUp(self):
        self.made = tempfile.TemporaryDirectory()
        self.addCleanup(self.made.cleanup)
        self.top, self.noted = Path(self.made.name, "repository"), Path(self.made.name, "noted")
        kit = Path(self.made.name, "kit")
        for name, text in {"bin/rt": "", "bin/rattle": RATTLE, "bin/rattle-link": LINK, "WHAT": "1"}.items():
            write(kit / name, text)
        write(self.top / "build.py", (TOP / "build.py").read_text())
        write(self.top / "crates.txt", CRATES)
        for line in CRATES.splitlines():
            name = line.split(":")[0]
            write(self.top / "crates" / name / "src" / ("main.rt" if name == "app" else "lib.rt"), "//! A crate.\n")
        self.env = {**os.environ, "PATH": f"{kit}/bin:{os.environ['PATH']}", "NOTED": str(self.noted)}

    def build(self, **env):
        self.noted.write_text("")
        ran = subprocess.run([self.top / "build.py", "app"], env={**self.env, **env}, capture_output=True, text=True)
        self.rows = [it.split() for it in self.noted.read_text().splitlines()]
        return ran

    def begun(self):
        return [it[1] for it in self.rows if it[0] == "begin"]

    def test_each_crate_begins_once_those_below_it_are_built(self):
        ran = self.build()
        self.assertEqual(ran.returncode, 0, ran.stderr)
        self.assertEqual(sorted(self.begun()), ["app", "left", "long", "low", "right", "top"])
        self.assertEqual({it[3] for it in self.rows if it[0] == "begin"}, {"0"})
        self.assertIn("6 of 6 crates proved", ran.stderr)
        self.assertEqual(subprocess.check_output([self.top / "crates/app/out/app"]), b"ran\n")

    def test_a_crate_that_is_alone_has_all_processors(self):
        self.build()
        jobs = {it[1]: it[2] for it in self.rows if it[0] == "begin"}
        self.assertEqual(jobs["low"], jobs["top"])

    def test_nothing_is_proved_twice(self):
        self.build()
        self.assertEqual(self.build().returncode, 0)
        self.assertEqual(self.rows, [])

    def test_what_stands_on_a_change_is_proved_again(self):
        self.build()
        write(self.top / "crates/right/src/lib.rt", "//! Changed.\n")
        self.build()
        self.assertEqual(self.begun(), ["right", "top", "app"])

    def test_a_crate_that_fails_ends_the_build(self):
        ran = self.build(FAILS="left")
        self.assertEqual(ran.returncode, 1)
        self.assertIn("what is wrong", ran.stderr)
        self.assertNotIn("long", self.begun())

    def test_a_check_that_is_killed_is_run_again(self):
        ran = self.build(KILLED="long")
        self.assertEqual(ran.returncode, 0 if "again" in ran.stderr else 1)
        self.assertEqual(self.begun().count("long"), 2 if ran.returncode == 0 else 1)


if __name__ == "__main__":
    unittest.main()
